#!/bin/sh
# Tries the program with an output that is closed, and with one that is full, where there is /dev/full.
# Needs a POSIX system alone.
# usage: tests/programs/full_output.sh PROGRAM
set -eu
export LC_ALL=C
program=$1
log=$(cd "$(dirname "$0")/../../examples" && pwd)/sample.log
scratch=$(mktemp -d)
trap 'rm -rf "$scratch"' EXIT
fail() {
    echo "tests/programs/full_output.sh: $*" >&2
    exit 1
}
# refused ARGUMENT..: both outputs are refused, whatever the program writes
refused() {
    closed=0 full=3
    "$program" "$@" < "$log" >&- 2> "$scratch/said" || closed=$?
    [ "$(cat "$scratch/said")" = 'aprsbook: cannot write' ] || fail "$* says: $(cat "$scratch/said")"
    if [ -c /dev/full ]; then
        full=0
        "$program" "$@" < "$log" > /dev/full 2> "$scratch/said" || full=$?
        [ "$(cat "$scratch/said")" = 'aprsbook: cannot write' ] ||
            fail "$* says: $(cat "$scratch/said")"
    fi
    [ "$closed $full" = '3 3' ] || fail "$* ended with $closed and $full"
}
refused --help
refused --version
refused help
refused convert --help
refused convert text
refused check
refused merge
refused show
