#!/bin/sh
# Checks the scripts of this repository: each test that takes the program, and cookbook.sh, fails
# with one sentence where there is none; and shellcheck, where it is there, has nothing to say of
# any.
set -eu
export LC_ALL=C
cd "$(dirname "$0")/../.."
failed=0
fail() {
    echo "tests/sources/scripts.sh: $*" >&2
    failed=1
}
# needs_program SCRIPT ARGUMENT..: run so, it fails with one line
needs_program() {
    if said=$("$@" 2>&1 < /dev/null); then fail "$* doesn't fail"; fi
    if [ -z "$said" ] || [ "$(printf '%s\n' "$said" | wc -l)" != 1 ]; then fail "$* says: $said"; fi
}
for test in $(grep -l '^# usage: tests/.* PROGRAM' tests/*/*.sh) examples/cookbook.sh; do
    needs_program "$test"
    for wrong in nowhere /nowhere tests README.md; do needs_program "$test" $wrong; done
done
if command -v shellcheck > /dev/null; then
    # those whose first line names a shell
    scripts=$(find .ci bench build completions examples packaging tests -type f -exec \
        awk 'FNR == 1 && /^#!.*sh$/ { print FILENAME }' {} +)
    # shellcheck disable=SC2086 # no name has a blank
    shellcheck $scripts || fail 'shellcheck says so'
    shellcheck -s bash completions/*.bash || fail 'shellcheck says so'
else
    echo 'left out: shellcheck'
fi
[ $failed = 0 ] && echo 'the scripts are in order'
exit $failed
