#!/bin/sh
# Checks that each example in Rust of docs/library.md stands, to the letter, in a source that the gate
# proves and runs, and that the crates of its program are those of crates.txt. Needs a POSIX system
# alone.
set -eu
export LC_ALL=C
cd "$(dirname "$0")/../.."
scratch=$(mktemp -d)
trap 'rm -rf "$scratch"' EXIT
failed=0
fail() {
    echo "tests/documents/library.sh: $*" >&2
    failed=1
}
# each example to a file of its own
awk -v folder="$scratch" '
    /^```rust$/ { file = folder "/" (++n); next }
    /^```$/ { file = ""; next }
    file != "" { print > file }
' docs/library.md
for example in "$scratch"/*; do
    # shellcheck disable=SC2094 # it is read alone
    for source in crates/aprs_tests/src/library.rt crates/aprs_example/src/*.rt; do
        awk '
            FNR == 1 { part++ }
            part == 1 { example = example $0 "\n" }
            part == 2 { source = source $0 "\n" }
            END { exit index(source, example) == 0 }
        ' "$example" "$source" && continue 2
    done
    fail "docs/library.md has an example that no source has: $(cat "$example")"
done
below=$(sed -n "s/^echo 'mine: \(.*\)' >> crates.txt\$/\1/p" docs/library.md)
grep -qx "aprs_example: $below" crates.txt || fail "crates.txt has others than: $below"
[ $failed = 0 ] && echo 'the examples of library.md are in the sources'
exit $failed
