#!/bin/sh
# Checks that the version, which is set in the sources of the program's help, is that of the manual
# pages, of the newest part of CHANGELOG.md and of the test of the program's words, and that the day
# there is the manual pages'. With programs, that each says so too. Needs a POSIX system alone.
# usage: tests/documents/version.sh [PROGRAM..]
set -eu
export LC_ALL=C
repository=$(cd "$(dirname "$0")/../.." && pwd)
failed=0
# is WHAT TEXT TEXT: it says the second, and should say the first
is() {
    [ "$2" != "$3" ] || return 0
    echo "tests/documents/version.sh: $1 says '$3', not '$2'" >&2
    failed=1
}
version=$("$repository/packaging/version")
for program; do
    if [ ! -f "$program" ] || [ ! -x "$program" ]; then
        echo "tests/documents/version.sh: there is no program '$program'" >&2
        exit 1
    fi
    is "$program --version" "${program##*/} $version" "$("$program" --version)"
done
cd "$repository"
is tools/src/aprsbook_tools/__init__.py "$version" \
    "$(sed -n 's/^VERSION = "\(.*\)"$/\1/p' tools/src/aprsbook_tools/__init__.py)"
newest=$(sed -n '/^## Unreleased/d; s/^## //p' CHANGELOG.md | sed 1q)
is CHANGELOG.md "$version" "${newest%, *}"
for page in man/*.1; do
    is "$page" "${newest#*, } \"aprsbook $version\"" \
        "$(sed -n 's/^\.TH [^ ]* 1 \(.*"aprsbook [^"]*"\).*/\1/p' "$page")"
done
grep -n '"--version"\].*"[a-z-]* [0-9.]*"' crates/aprs_tests/src/words.rt > /dev/null ||
    is crates/aprs_tests/src/words.rt "aprsbook $version" nothing
sed -n 's/.*"--version"\].*\["[a-z-]* \([0-9.]*\)".*/\1/p' crates/aprs_tests/src/words.rt |
    while read -r tested; do
        is crates/aprs_tests/src/words.rt "$version" "$tested"
        [ $failed = 0 ]
    done || failed=1
[ $failed = 0 ] && echo "the version is $version everywhere"
exit $failed
