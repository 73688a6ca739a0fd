#!/bin/sh
# Checks that the pages in docs/reading and docs/calls and the sums in docs/proved.md are what the sources say, that
# no public clause cites a module of specs/ whose head says that none does, and that no name but the known
# ones stands for two definitions that are cited, and no such definition but the known ones stands twice.
# Needs a POSIX system and Python 3, and says that it leaves this out where there is no Python.
set -eu
cd "$(dirname "$0")/../.."
if ! command -v python3 > /dev/null; then
    echo 'left out: the reading list (python3 is not there)'
    exit 0
fi
scratch=$(mktemp -d)
trap 'rm -rf "$scratch"' EXIT
failed=0
fail() {
    echo "tests/documents/reading.sh: $*" >&2
    failed=1
}

build/reading.py --into "$scratch"
for page in reading calls proved.md; do
    if ! diff -r "docs/$page" "$scratch/$page" > "$scratch/said" 2>&1; then
        fail "docs/$page is another one: make reading"
        head -n 8 "$scratch/said" >&2
    fi
done
build/reading.py --cited > "$scratch/cited"
while IFS= read -r line; do
    fail "its head says that no public clause cites it, and one does: $line"
done < "$scratch/cited"

# the known ones: no other may come, and what is mended goes from these lists
known_names=''
known_twice=''
# are WHAT KNOWN FOUND: what is found is what is known
are() {
    # shellcheck disable=SC2086 # one name a word
    [ "$(printf '%s\n' $2 | LC_ALL=C sort)" = "$(LC_ALL=C sort "$scratch/found")" ] ||
        fail "$1: $(tr '\n' ' ' < "$scratch/found")"
}
build/reading.py --names > "$scratch/names"
sed 's/:.*//' "$scratch/names" > "$scratch/found"
are 'other names stand for more than one thing' "$known_names"
build/reading.py --twice > "$scratch/twice"
sed 's,.*/,,' "$scratch/twice" > "$scratch/found"
are 'other definitions stand there twice' "$known_twice"

# what the documents say that it lists
for asked in '--calls aprs_book' '--page read_line' '--of merge_run.writes'; do
    # shellcheck disable=SC2086 # two words
    [ "$(build/reading.py $asked | wc -l)" -gt 40 ] || fail "build/reading.py $asked lists little"
done

[ $failed = 0 ] && echo 'the reading list is what the sources say'
exit $failed
