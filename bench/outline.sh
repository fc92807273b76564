#!/usr/bin/env bash
# How much CPU time `outline` takes to read and print large books, next to `xmllint --noout --stream` on the same files.
# Prints the table of docs/SPEED.md. Not part of the gate: nothing rests on the numbers.
#
#   bench/outline.sh                    measures crates/outline/out/outline, and builds it first if it is missing
#   OUTLINE=/tmp/outline bench/outline.sh    measures another build
set -euo pipefail
cd "$(dirname "$0")/.."

outline=${OUTLINE:-crates/outline/out/outline}
if [ -z "${OUTLINE:-}" ] && [ ! -x "$outline" ]; then
    (cd crates/outline && rt run </dev/null >/dev/null)
fi
if ! command -v xmllint >/dev/null; then
    apt-get update -q >&2
    apt-get install -q -y libxml2-utils >&2
fi

books=$(mktemp -d)
trap 'rm -rf "$books"' EXIT
python3 bench/generate.py "$books"
python3 bench/measure.py "$outline" "$books"
