"""Compares the library with brute.py on many generated inputs, long and short, valid and damaged. Ends with status 1 where an answer differs.

    compare.py [INPUTS [SEED]]
"""
import os
import random
import sys

HERE = os.path.dirname(os.path.abspath(__file__))
sys.path[:0] = [HERE, os.path.join(HERE, "..", "..", "examples", "python")]

import brute
import twigfinder

BYTES = b"<>/[].ab_c1- \n&\x00\xff"


def name(r):
    size = r.choice([1, 1, 1, 1, 2, 3, 31, 32]) if r.random() < 0.05 else 1
    return bytes([r.choice(b"abcd")]) + bytes(r.choice(b"ab0-.") for _ in range(size - 1))


def names(r, most):
    return list({name(r) for _ in range(r.randint(1, most))})


def book(r, all_names, size, depth, text):
    """A book text with about `size` elements."""
    out = [r.choice([b"", b"", b" ", b"\n\t"])]
    opened = []
    for k in range(size):
        n = r.choice(all_names)
        if k and (r.random() < 0.4 or len(opened) >= depth) or size == 1:
            out.append(b"<%b/>" % n)
            if size == 1:
                return b"".join(out)
        else:
            out.append(b"<%b>" % n)
            opened.append(n)
        if r.random() < text:
            out.append(bytes(r.choice(b"XY >/&\n\xff") for _ in range(r.randint(1, 40))))
        while len(opened) > 1 and r.random() < 0.35:
            out.append(b"</%b>" % opened.pop())
    while opened:
        out.append(b"</%b>" % opened.pop())
    out.append(r.choice([b"", b"", b"\n"]))
    return b"".join(out)


def pattern(r, all_names, most):
    """A pattern with at most so many nodes."""
    left = [r.randint(1, most)]

    def branch(depth):
        left[0] -= 1
        out = r.choice(all_names)
        while left[0] > 0 and depth < 8 and r.random() < 0.3:
            out += b"[" + r.choice([b"", b".//"]) + branch(depth + 1) + b"]"
        while left[0] > 0 and r.random() < 0.6:
            left[0] -= 1
            out += r.choice([b"/", b"//"]) + r.choice(all_names)
            while left[0] > 0 and depth < 8 and r.random() < 0.3:
                out += b"[" + r.choice([b"", b".//"]) + branch(depth + 1) + b"]"
        return out

    return r.choice([b"/", b"//", b"//"]) + branch(0)


def damaged(r, text):
    """The text with a few bytes changed, dropped, doubled or put in."""
    text = bytearray(text)
    for _ in range(r.choice([1, 1, 1, 2, 5])):
        p = r.randint(0, len(text))
        kind = r.randint(0, 4)
        if kind == 0 and p < len(text):
            text[p] = r.choice(BYTES)
        elif kind == 1:
            del text[p : p + r.choice([1, 1, 2, 8])]
        elif kind == 2:
            text[p:p] = bytes([r.choice(BYTES)])
        elif kind == 3:
            text[p:p] = text[p : p + r.randint(1, 40)]
        else:
            del text[p:]
    return bytes(text)


def answer(call):
    try:
        return call()
    except (brute.Refused, twigfinder.Refused) as refusal:
        return refusal.number, refusal.place


def by_library(r, wanted, text, room):
    twigfinder.spell(wanted)
    sheet = twigfinder.index(text)
    twigfinder.check(sheet)
    found = list(twigfinder.find_all(sheet, wanted, room))
    if len(found) != twigfinder.count(sheet, wanted):
        raise AssertionError("the count is not the number of embeddings")
    if found and r.random() < 0.3:
        skip = r.randint(0, len(found))
        if twigfinder.find(sheet, wanted, skip, 3) != found[skip : skip + 3]:
            raise AssertionError(f"after {skip}")
    return found


def case(r, kind):
    """A pattern and a book text."""
    some = names(r, 6)
    if kind == "short":
        return pattern(r, some, 4), book(r, some, r.randint(1, 12), 6, 0.3)
    if kind == "long":
        return pattern(r, some, 3), book(r, some, r.randint(50, 400), r.choice([4, 12, 63]), 0.5)
    if kind == "wide":
        return pattern(r, some, 16), book(r, some, r.randint(5, 30), 8, 0.2)
    p, t = pattern(r, some, 5), book(r, some, r.randint(1, 25), 8, 0.3)
    if kind == "damaged pattern":
        return damaged(r, p), t
    if kind == "damaged book":
        return p, damaged(r, t)
    return bytes(r.choice(BYTES) for _ in range(r.randint(0, 20))), bytes(r.choice(BYTES) for _ in range(r.randint(0, 60)))


KINDS = ["short", "long", "wide", "damaged pattern", "damaged book", "noise"]

# books and patterns at and past the limits
LIMITS = [
    (b"//a", b"<a>" * 64 + b"</a>" * 64),
    (b"//a", b"<a>" * 65),
    (b"//a/b", b"<a>" + b"<b/>" * 65_534 + b"</a>"),
    (b"//b", b"<a>" + b"<b/>" * 65_535 + b"</a>"),
    (b"//n7", b"<a>" + b"".join(b"<n%d/>" % k for k in range(1, 1024)) + b"</a>"),
    (b"//n7", b"<a>" + b"".join(b"<n%d/>" % k for k in range(1, 1025)) + b"</a>"),
    (b"//a", b"<a>" + b"x" * 16_777_209 + b"</a>"),
    (b"//a", b"<a>" + b"x" * 16_777_210 + b"</a>"),
    (b"//" + b"a" * 32, b"<" + b"a" * 32 + b"/>"),
    (b"//" + b"a" * 33, b"<a/>"),
    (b"//a", b"<" + b"a" * 33 + b"/>"),
    (b"//a" + b"/a" * 15, b"<a>" * 20 + b"</a>" * 20),
    (b"//a" + b"/a" * 16, b"<a/>"),
    (b"//a" + b"[a" * 8 + b"]" * 8, b"<a>" * 20 + b"</a>" * 20),
    (b"//a" + b"[a" * 9 + b"]" * 9, b"<a/>"),
    (b"/" * 1024, b"<a/>"),
    (b"/" * 1025, b"<a/>"),
    (b"", b""),
    (b"//a//a//a", b"<a>" * 40 + b"</a>" * 40),
]


def main():
    inputs = int(sys.argv[1]) if len(sys.argv) > 1 else 3000
    r = random.Random(int(sys.argv[2]) if len(sys.argv) > 2 else 1)
    agree, differ, refused, embedded, left = 0, 0, 0, 0, 0
    cases = LIMITS + [case(r, KINDS[k % len(KINDS)]) for k in range(inputs)]
    for wanted, text in cases:
        try:
            theirs = answer(lambda: brute.find(wanted, text))
        except brute.TooLong:
            left += 1
            continue
        few = not isinstance(theirs, list) or len(theirs) < 100
        ours = answer(lambda: by_library(r, wanted, text, r.choice([1, 7, 65_536]) if few else 65_536))
        spelled = answer(lambda: twigfinder.spell(wanted))
        if ours == theirs and spelled == answer(lambda: brute.spelling(*brute.read_pattern(wanted))):
            agree += 1
            refused += isinstance(ours, tuple)
            embedded += 0 if isinstance(ours, tuple) else len(ours)
        else:
            differ += 1
            print(f"differs: {wanted!r} in {text[:200]!r}: {str(ours)[:200]} and {str(theirs)[:200]}")
    print(f"{agree} of {len(cases) - left} inputs agree: {agree - refused} granted with {embedded} embeddings, {refused} refused")
    if left:
        print(f"{left} more took the brute force too long")
    sys.exit(differ > 0)


if __name__ == "__main__":
    main()
