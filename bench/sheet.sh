#!/usr/bin/env bash
# How long `index` and `SheetView::open` take at the limits: 65,535 elements and 1,024 names of 32 bytes.
# Prints the numbers of docs/SPEED.md. Not part of the gate: nothing rests on the numbers.
#
#   bench/sheet.sh                      runs crates/sheet_times/out/sheet_times, and builds it first if it is missing
set -euo pipefail
cd "$(dirname "$0")/.."

if [ ! -x crates/sheet_times/out/sheet_times ]; then
    (cd crates/sheet_times && rt run >/dev/null)
fi
crates/sheet_times/out/sheet_times
