#!/bin/sh
# build/objects.sh: prints a line `object: PROGRAM SUM` for the program as it was compiled here. With
# --compare it says of a release in release/ that is of these crates whether its program is this one, and
# ends with 1 where it isn't.
set -eu
export LC_ALL=C
cd "$(dirname "$0")/.."
objects() {
    sum=$(sha256sum crates/aprsbook/out/aprsbook.o)
    echo "object: aprsbook ${sum%% *}"
}
if [ "${1-}" != --compare ]; then
    objects
    exit 0
fi
for sources in release/*/SOURCES; do
    if [ ! -f "$sources" ]; then
        echo 'left out: the program of the release (there is none)'
    elif ! grep -qx "crates: $(build/sum)" "$sources"; then
        echo "left out: the program of the release ($sources is of other crates)"
    elif ! grep -qx "kit: $(rt version)" "$sources"; then
        echo "left out: the program of the release ($sources is of another kit)"
    elif [ "$(grep '^object: ' "$sources")" != "$(objects)" ]; then
        echo "the program that was built isn't that of $sources:" >&2
        objects >&2
        exit 1
    else
        echo "the program that was built is that of $sources"
    fi
done
