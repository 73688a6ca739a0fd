#!/usr/bin/env bash
# build/prove.sh CRATE JOBS [--anew]: proves a library, a program, or a crate of tests, which then run, once
# those below it are proved, beside others that don't stand on it, with so many jobs. With --anew nothing
# is there of an earlier proof, and of a library nothing is kept for a next one: those above it then load
# its statements alone, which takes half as long where many crates lie below.
#
# `rt` holds the folder of the crate that it proves and those of all crates below, so that two crates over
# a third would wait for each other. So each is proved in a view of its own under out/: folders with links
# to the files of the crate and of those below, and to what was proved of these. Folders are held as `rt`
# holds them, those below together with whoever only reads them.
set -euo pipefail
cd "$(dirname "$0")/.."
crate=$1
jobs=$2
anew=${3-}
top=$PWD
view=out/$crate

# the crates of this repository below it; crates.txt has lower ones first
lower=$(tac crates.txt | awk -F '[: ]+' -v crate="$crate" '
    $1 == crate || $1 in wanted { for (i = 2; i <= NF; i++) wanted[$i] }
    $1 != crate && $1 in wanted { print $1 }')
# shellcheck disable=SC2086 # one name a word
for it in $(printf '%s\n' $lower "$crate" | sort); do
    exec {held}< "crates/$it"
    if [ "$it" = "$crate" ]; then flock "$held"; else flock -s "$held"; fi
done

# what is noted, once these files are proved
sum=$(build/crates.py --sum-of "$crate")
rm -rf "$view"
put_back() {
    if [ -d "$view/crates/$crate/out" ]; then mv "$view/crates/$crate/out" "crates/$crate/out"; fi
    rm -rf "$view"
    rmdir out 2> /dev/null || true
}
trap put_back EXIT
for it in $lower "$crate"; do
    mkdir -p "$view/crates/$it"
    for part in src specs proofs; do
        if [ -d "crates/$it/$part" ]; then cp -rl "crates/$it/$part" "$view/crates/$it/"; fi
    done
    grep -E "^$it( [a-z]+)?:" crates.txt >> "$view/crates.txt"
done
for it in $lower; do
    mkdir "$view/crates/$it/out"
    cp -rl "crates/$it/out/rlib" "$view/crates/$it/out/"
done
if [ -d "crates/$crate/out" ]; then mv "crates/$crate/out" "$view/crates/$crate/"; fi
case $crate in
*_tests) command=(rt test --jobs "$jobs") ;;
*) command=(rt lib --jobs "$jobs") ;;
esac
if [ -n "$anew" ]; then command=("$top/build/library.py" "$jobs"); fi
# of a static library nothing here is linked: `make clib` compiles it
if grep -q "^$crate staticlib:" crates.txt; then command=(rt check --jobs "$jobs"); fi
given=/dev/null
if [ -f "crates/$crate/src/main.rt" ]; then
    # a program runs once, so that it is linked, on what its stored run reads
    command=(rt run --jobs "$jobs")
    given=$top/crates/$crate/stdin
fi
(cd "$view/crates/$crate" && "${command[@]}" 2>&1 < "$given") | tee "$view/said" | sed -u "s/^/$crate: /"
# the functions as a check names them, for checks of some of them; where nothing was checked they stand
sed -n "s/^fn $crate::\(.*\): proved\$/\1/p" "$view/said" > "$view/functions"
if [ -s "$view/functions" ]; then mv "$view/functions" "$view/crates/$crate/out/functions"; fi
if [ "$crate" = aprsbook ]; then build/names.sh "$view/crates/$crate/out" > /dev/null; fi
mkdir -p out/proved
printf '%s\n' "$sum" > "out/proved/$crate"
