"""Prints the table of the benchmark: measure.py OUTLINE FOLDER, where FOLDER holds the books of generate.py.

In each round every program runs once on every book, so that all of them meet the same state of the machine. What counts is the
least CPU time, user and system, of all rounds.
"""
import os
import subprocess
import sys
from pathlib import Path

ROUNDS = 15
BOOKS = ["text", "tags", "names"]


def cpu(command, source):
    """The CPU seconds of one run, with the file `source` on standard input."""
    actions = [
        (os.POSIX_SPAWN_OPEN, 0, str(source), os.O_RDONLY, 0),
        (os.POSIX_SPAWN_OPEN, 1, "/dev/null", os.O_WRONLY, 0),
    ]
    pid = os.posix_spawnp(command[0], command, os.environ, file_actions=actions)
    _, status, usage = os.wait4(pid, 0)
    if status != 0:
        sys.exit(f"{' '.join(command)} failed on {source}")
    return usage.ru_utime + usage.ru_stime


def printed(outline, source):
    with open(source, "rb") as text:
        return subprocess.run([outline], stdin=text, stdout=subprocess.PIPE, check=True).stdout


def main():
    outline, folder = sys.argv[1], Path(sys.argv[2])
    (folder / "least.book").write_bytes(b"<a/>")
    columns = {}
    commands = {}
    for book in BOOKS + ["least"]:
        path = folder / f"{book}.book"
        text = path.read_bytes()
        lines = printed(outline, path).splitlines()
        if lines[-1] != b"end":
            sys.exit(f"{path}: {lines[-1].decode()}")
        names = {line.split()[3] for line in lines[:-1]}
        columns[book] = len(text), len(lines) - 1, len(names)
        # the same text with one more byte, for which all of it is read and one line is printed
        refused = folder / f"{book}.refused"
        refused.write_bytes(text + b"x")
        if printed(outline, refused) != f"refused 2 at {len(text)}\n".encode():
            sys.exit(f"{refused}: not refused at its last byte")
        commands[book, "outline"] = [outline], path
        commands[book, "reading"] = [outline], refused
        commands[book, "xmllint"] = ["xmllint", "--noout", "--stream", str(path)], "/dev/null"

    least = {}
    for _ in range(ROUNDS):
        for key, (command, source) in commands.items():
            seconds = cpu(command, source)
            least[key] = min(seconds, least.get(key, seconds))

    def shown(book, program):
        seconds = least[book, program]
        return f"{seconds * 1000:.1f} ms | {columns[book][0] / seconds / 1e6:.0f}"

    print("| book | bytes | elements | names | outline | MB/s | reading only | MB/s | printing | xmllint | MB/s |")
    print("|---|---:|---:|---:|---:|---:|---:|---:|---:|---:|---:|")
    for book in BOOKS:
        length, elements, names = columns[book]
        printing = (least[book, "outline"] - least[book, "reading"]) * 1000
        print(
            f"| {book} | {length:,} | {elements:,} | {names:,} | {shown(book, 'outline')} | {shown(book, 'reading')}"
            f" | {printing:.1f} ms | {shown(book, 'xmllint')} |"
        )
    start = {program: least["least", program] * 1000 for program in ("outline", "xmllint")}
    print()
    print(f"On the text `<a/>`, which shows the cost of starting: outline {start['outline']:.1f} ms, xmllint {start['xmllint']:.1f} ms.")


main()
