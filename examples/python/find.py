"""Prints where a pattern occurs in a book text, as the program `finder` does: for each embedding a line with the starts of its elements, and
then `end`; or only the line of a refusal.

    find.py PATTERN [BOOK]      without BOOK, the book text is read from standard input
"""
import os
import sys

import twigfinder


def main():
    if len(sys.argv) not in (2, 3):
        sys.exit("usage: find.py PATTERN [BOOK]")
    pattern = os.fsencode(sys.argv[1])
    with open(sys.argv[2], "rb") if len(sys.argv) == 3 else sys.stdin.buffer as book:
        text = book.read(twigfinder.TEXT_BYTES + 1)
    try:
        twigfinder.spell(pattern)  # the pattern is read before the book, so that its refusal comes first
        for starts in twigfinder.find_all(twigfinder.index(text), pattern):
            print(*starts)
        print("end")
    except twigfinder.Refused as refusal:
        print(refusal)


main()
