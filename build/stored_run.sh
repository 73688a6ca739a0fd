#!/bin/sh
# build/stored_run.sh: runs the program that is built, by each of its names, on a file stdin: it has to
# print the file stdout that lies beside it, and to end with 0.
set -eu
cd "$(dirname "$0")/.."
scratch=$(mktemp)
trap 'rm "$scratch"' EXIT
for name in $(build/names.sh crates/aprsbook/out); do
    stored=tests/programs/stored/$name
    if [ "$name" = aprsbook ]; then stored=crates/aprsbook; fi
    "crates/aprsbook/out/$name" < "$stored/stdin" > "$scratch"
    cmp "$scratch" "$stored/stdout"
done
