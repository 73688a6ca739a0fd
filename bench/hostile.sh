#!/usr/bin/env bash
# Book files that nobody would write by hand: each is written back as it is, or refused with the fault that
# it has. Prints what each takes.
# usage: bench/hostile.sh PROGRAM
# environment: RUNS    of how many runs the best counts (1)
# shellcheck disable=SC2119,SC2120 # a run is called with words to stand before its command, or with none
set -euo pipefail
: "${RUNS:=1}"
. "$(dirname "$0")/timing.sh"
program=$(realpath "$1")
enter_work

# show WHAT BYTES RUN: what the run takes
show() {
    take_turns "$3"
    awk -v what="$1" -v b="$2" -v t="${time_of[$3]}" -v k="${peak_of[$3]}" 'BEGIN {
        printf "%-42s %12d bytes %8.2f s %8.1f MiB\n", what, b, t / 1e6, k / 1024
    }'
}

# accepted WHAT KIND NUMBER: the file is written back, byte for byte
accepted() {
    "$here/make_hostile.py" "$2" "$3" > hostile.book
    accepting | cmp - hostile.book
    show "$1" "$(wc -c < hostile.book)" accepting
}
accepting() { "$@" "$program" merge hostile.book; }

# refused WHAT FAULT KIND NUMBER: the program exits with 1 and names this fault
refused() {
    local fault
    kind=$3 number=$4
    fault=$(hostile | "$program" merge 2>&1 > /dev/null) && exit 1
    [ "$fault" = "aprsbook: standard input: $2" ] || { echo "hostile.sh: $fault" >&2; exit 1; }
    show "$1: $2" "$number" refusing
}
hostile() { "$here/make_hostile.py" "$kind" "$number"; }
# shellcheck disable=SC2016 # the shell within puts these in
refusing() { hostile | "$@" sh -c '"$1" merge 2> /dev/null; [ $? = 1 ]' sh "$program"; }

accepted 'a million rows of one key' rows 1000000
accepted 'a row of 60,000 receivers' receivers 60000
refused 'a line without its end' 'line 2: Ending' line 1073741000
