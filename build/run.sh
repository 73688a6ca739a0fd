#!/bin/sh
# build/run.sh LOG..: merges receivers' logs into one book, and lists it: what is last known of whom.
# The programs are those that build/programs.sh finds, or PROGRAM, if it is given. Where there are none,
# the Rattle kit builds the listing without a proof, with checks of each access. Says first which of
# these it was.
set -eu
cd "$(dirname "$0")/.."
scratch=$(mktemp -d)
trap 'rm -rf "$scratch"' EXIT
for log; do
    if [ ! -r "$log" ]; then
        echo "make run: $log can't be read" >&2
        exit 1
    fi
done
if programs=${PROGRAM:-$(build/programs.sh 2> "$scratch/said")} && [ -n "$programs" ]; then
    if [ -f "$scratch/said" ]; then echo "make run: $(cat "$scratch/said")" >&2; fi
    program=$(echo "$programs" | sed 1q)
    "$program" merge "$@" > "$scratch/book"
    "$program" show "$scratch/book"
elif command -v rt > /dev/null; then
    echo "make run: $(cat "$scratch/said"): this run is not proved, and takes two minutes;" \
        'make build proves it' >&2
    # a file that is lent to the run stands there under a name of its own
    words='' number=0
    for log; do
        number=$((number + 1))
        cp "$log" "$scratch/$number.log"
        words="$words --data $number.log=$scratch/$number.log"
    done
    cd crates/aprsbook
    # shellcheck disable=SC2046,SC2086 # words without blanks
    rt try --steps 1 $words -- show $(seq -f %.0f.log "$number")
else
    cat "$scratch/said" >&2
    echo 'Unpack a release that has these sources, or get the Rattle kit (CONTRIBUTING.md).' >&2
    exit 1
fi
