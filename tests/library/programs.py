"""Compares what the program finder, examples/c/find.c and examples/python/find.py print for the same generated inputs.

    programs.py FINDER FIND [INPUTS [SEED]]      with the paths of the two programs
"""
import os
import random
import subprocess
import sys

from compare import HERE, KINDS, case


def printed(command, given):
    return subprocess.run(command, input=given, stdout=subprocess.PIPE, check=True).stdout


def main():
    finder, find = sys.argv[1:3]
    inputs = int(sys.argv[3]) if len(sys.argv) > 3 else 300
    r = random.Random(int(sys.argv[4]) if len(sys.argv) > 4 else 1)
    script = os.path.join(HERE, "..", "..", "examples", "python", "find.py")
    agree = 0
    for k in range(inputs):
        pattern, text = case(r, KINDS[k % len(KINDS)])
        # a word of a command has no NUL, and the finder takes the pattern up to the first LF
        pattern = pattern.replace(b"\0", b"?").replace(b"\n", b"?")
        wanted = printed([finder], pattern + b"\n" + text)
        if printed([find, pattern], text) == wanted == printed([sys.executable, script, pattern], text):
            agree += 1
        else:
            print(f"differs: {pattern!r} in {text[:200]!r}: {wanted[:200]!r}")
    print(f"{agree} of {inputs} inputs print the same by all three")
    sys.exit(agree != inputs)


main()
