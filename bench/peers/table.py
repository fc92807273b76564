"""Prints the rows of measure as the tables of docs/SPEED.md: table.py < ROWS. The padding of long names is left out."""
import re
import sys

reads, finds = [], []
for row in sys.stdin:
    kind, *fields = re.sub("-x+", "-..", row.rstrip("\n")).split("|")
    (reads if kind == "read" else finds).append(fields)


def ms(us):
    return f"{us / 1000:.2f} ms"


print("| book | bytes | elements | names | `index` | MB/s | open | pugixml | in place | libxml2 | expat | pugixml / `index` |")
print("|---|---:|---:|---:|---:|---:|---:|---:|---:|---:|---:|---:|")
for name, size, elements, names, *times in reads:
    index, check, copy, place, libxml, expat = map(float, times)
    size = int(size)
    print(
        f"| {name} | {size:,} | {int(elements):,} | {int(names):,} | {ms(index)} | {size / index:.0f} | {ms(check)} | {ms(copy)} | {ms(place)}"
        f" | {ms(libxml)} | {ms(expat)} | {copy / index:.2f} |"
    )

print()
print("| book | pattern | in the lists | embeddings | node set | all embeddings | of it opening | ns each | libxml2 | pugixml | faster XPath / ours |")
print("|---|---|---:|---:|---:|---:|---:|---:|---:|---:|---:|")
ratios = {}
for name, pattern, *fields in finds:
    listed, all_, nodes = map(int, fields[:3])
    ours, check, libxml, pugixml = map(float, fields[3:])
    ratio = min(libxml, pugixml) / ours
    apart = min(libxml, pugixml) / max(ours - check, 0.1)
    ratios.setdefault(name, []).append((ratio, apart))
    each = (ours - check) * 1000 / max(listed + all_, 1)
    print(
        f"| {name} | `{pattern}` | {listed:,} | {all_:,} | {nodes:,} | {ms(ours)} | {ms(check)} | {each:.0f} | {ms(libxml)} | {ms(pugixml)} | {ratio:.1f} |"
    )

print()
print("| book | faster XPath / ours: least | middle | most | without opening: least | middle | most |")
print("|---|---:|---:|---:|---:|---:|---:|")
for name, pairs in ratios.items():
    columns = []
    for values in zip(*pairs):
        values = sorted(values)
        columns += [f"{values[k]:.1f}" for k in (0, len(values) // 2, -1)]
    print(f"| {name} | " + " | ".join(columns) + " |")
