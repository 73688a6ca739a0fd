#!/bin/sh
# build/names.sh [FOLDER]: prints the names of the program, which does what belongs to the name that it is
# called by. In FOLDER, where it lies as aprsbook, it gets each other name too, by hard links: `rt` writes
# into no folder with others.
set -eu
folder=${1-}
if [ -n "$folder" ]; then folder=$(cd "$folder" && pwd); fi
cd "$(dirname "$0")/.."
names=$(sed -n 's/^PROGRAMS = //p' Makefile)
for name in $names; do
    if [ -n "$folder" ] && [ "$name" != aprsbook ]; then ln -f "$folder/aprsbook" "$folder/$name"; fi
    echo "$name"
done
