#!/usr/bin/env bash
# How long a search takes over generated books: the gather, and the pages of all embeddings. Prints the numbers of docs/SPEED.md. Not part of the
# gate: nothing rests on the numbers.
#
#   bench/search.sh                     runs crates/search_times/out/search_times, and builds it first if it is missing
set -euo pipefail
cd "$(dirname "$0")/.."

if [ ! -x crates/search_times/out/search_times ]; then
    (cd crates/search_times && rt run >/dev/null)
fi
crates/search_times/out/search_times
