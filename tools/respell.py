#!/usr/bin/env python3
"""Brings the names that this repository's own specs/ and proofs/ declare to the library's spelling.

Functions, lemmas, fields and constructors are in snake case; types, and statements that are types, in upper camel case. In a lemma's name a
dash joins two names of definitions, as in `length-drop`; any other word is joined by an underscore. Names that Rust source declares, and names
that Rattle makes for goals and steps, keep their spelling. Run once, at the top, after the toolchain's own script; `--dry` prints the list.
"""
import glob
import re
import sys

TOKEN = re.compile(r"[^\s(){}\[\];,.:\"`|]+")
DECLARED = re.compile(r"^\s*(?:(?:pub|abbrev|unfoldable|private|opaque)\s+)*(?:(?:record|data)\s+)?([^\s:(){}\[\];,.\"`|]+)\s*(?:[({][^=]*)?:\s")
# lemmas named after a function of a function, which a dash joins
JOINED = re.compile(r"(length|get_or)-.*|drop-(elements|names|joint|drop)|(count|none|named|numbered)-append|map-map|update-update|read-le(16|32)"
                    r"|update-narrowed|narrowed-update|rising-map")
# names that would fall together or read badly when turned by rule, and one that is the library's
BY_HAND = {
    "element-in": "element_inside",
    "fields_fit": "fields_fit_lem",
    "names-fit": "names_fit_lem",
    "numbers_fit": "numbers_fit_lem",
    "nodes-of": "nodes_of_tail",
    "tree-of": "lawful_tree_of",
    "getD-elementsOf": "get_or-elements_of",
    "getD-namesOf": "get_or-names_of",
    "getD-vertices": "get_or-vertices",
    "All-from_get_or": "All-from_get_or",
    "blank-byte": "blank_byte_lem",
    "element-at": "element_at_lem",
    "first-tree": "first_tree_lem",
    "name-at": "name_at_lem",
    "name-first": "name_first_lem",
    "length-joint-bounds": "length_joint_bounds",
    "length-joint-halves": "length_joint_halves",
    "length-joint-more": "length_joint_more",
    "length-joint-take": "length_joint_take",
    "length-or-sized": "length_or_sized",
}
# the library's recursive form of its word `All`, under the word's own name: here it is `Every`
RECURSIVE = "AllByRecursion as All"


def files(kind):
    return sorted(glob.glob(f"crates/*/{kind}/**/*.antt", recursive=True))


def made_by_rattle(path):
    return path.endswith(("/Answers.antt", "/Invariants.antt", "/Proof.antt"))


def declared(paths):
    names = {}
    for path in paths:
        for line in open(path, encoding="utf-8"):
            if line.lstrip().startswith(("--", "use ", "pub use ", "unfolding ")):
                continue
            m = DECLARED.match(line)
            if m:
                names.setdefault(m.group(1), set()).add(path)
    return names


def fields_of_records(paths):
    fields, inside = set(), None
    for path in paths:
        for line in open(path, encoding="utf-8"):
            depth = len(line) - len(line.lstrip())
            if re.match(r"\s*(pub )?record [^=]*where\s*$", line):
                inside = depth
            elif inside is not None and line.strip() and depth <= inside:
                inside = None
            elif inside is not None and (m := DECLARED.match(line)):
                fields.add(m.group(1))
    return fields


def snake(word):
    return re.sub(r"([a-z0-9])([A-Z])(?=[a-z0-9]|$)", lambda m: m.group(1) + "_" + m.group(2).lower(), word)


def camel(name):
    return "".join(w[:1].upper() + w[1:] for w in re.split(r"[-_]", name))


def turned(name):
    if name in BY_HAND:
        return BY_HAND[name]
    if name[0].isupper():
        return camel(name) if re.search(r"[-_][a-z]", name) else name
    name = "-".join(p if p[:1].isupper() else snake(p) for p in name.split("-"))
    return name if JOINED.fullmatch(name) else name.replace("-", "_")


def main():
    dry = "--dry" in sys.argv
    specs, lemmas = files("specs"), [p for p in files("proofs") if not made_by_rattle(p)]
    answers = set(declared([p for p in files("proofs") if made_by_rattle(p)]))
    in_specs, in_lemmas = declared(specs), declared(lemmas)
    names = set(in_specs) | set(in_lemmas)
    table = {}
    for name in sorted(names):
        new = turned(name)
        if new != name and name not in answers:
            table[name] = new
    taken = {}
    for name in names:
        taken.setdefault(table.get(name, name), []).append(name)
    for new, olds in sorted(taken.items()):
        if len(olds) > 1:
            print("fall together:", new, "<-", ", ".join(sorted(olds)))
    if dry:
        for old, new in table.items():
            print(old, "->", new)
        return
    # what stands behind a dot is a field; a name with a dash there may also be one that Rattle makes
    fields = {n for n in table if "-" not in n} | fields_of_records(specs + lemmas)
    paths = specs + files("proofs") + sorted(glob.glob("crates/*/src/**/*.rt", recursive=True))
    for path in paths:
        text = open(path, encoding="utf-8").read()

        def one(m):
            if m.start() and text[m.start() - 1] == "." and m.group(0) not in fields:
                return m.group(0)
            return table.get(m.group(0), m.group(0))

        new = TOKEN.sub(one, text)
        if RECURSIVE in new:
            new = re.sub(r"(?<![\w.'-])All(?![\w'-])", "Every", new)
        if new != text:
            open(path, "w", encoding="utf-8").write(new)
    print(len(table), "names respelled")


main()
