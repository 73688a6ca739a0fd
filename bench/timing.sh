# shellcheck shell=bash
# What the measurements share. Sourced, not run.
#
# A run is the name of a function that runs a command behind the words that the function is given: alone
# it gives the command's output, and behind plain/cost.c what the command took.
: "${RUNS:=5}"
export LC_ALL=C
declare -A time_of peak_of
here=$(dirname "$(realpath "${BASH_SOURCE[0]}")")

# Goes to a working folder, which goes away at the end, with the plain C programs in its `plain/`.
enter_work() {
    local source
    work=$(mktemp -d)
    trap 'rm -rf "$work"' EXIT
    cd "$work" || exit 1
    mkdir plain
    for source in "$here"/plain/*.c; do
        "${CC:-cc}" -O2 -Wall -Wextra -o "plain/$(basename "$source" .c)" "$source"
    done
}

# Sets `time_of` and `peak_of` each of some runs to the microseconds of a processor and the KiB of peak
# memory that it takes: the least of RUNS times. They take turns, so that all meet the same load.
take_turns() {
    local i run cost
    for run; do time_of[$run]='' peak_of[$run]=''; done
    for ((i = 0; i < RUNS; i++)); do
        for run; do
            cost=$("$run" plain/cost)
            if [ -z "${time_of[$run]}" ] || [ "${cost% *}" -lt "${time_of[$run]}" ]; then
                time_of[$run]=${cost% *}
            fi
            if [ -z "${peak_of[$run]}" ] || [ "${cost#* }" -lt "${peak_of[$run]}" ]; then
                peak_of[$run]=${cost#* }
            fi
        done
    done
}

# Sets `least` and `peak` to what a command takes.
take_least() {
    command=("$@")
    take_turns run_command
    least=${time_of[run_command]} peak=${peak_of[run_command]}
}
run_command() { "$@" "${command[@]}"; }

# same WHAT A B: run A ends well, and its output is that of run B, byte for byte
same() {
    if ! "$2" | cmp -s - <("$3"); then
        echo "$(basename "$0"): the outputs differ: $1" >&2
        exit 1
    fi
}

# A table of ratios, of what two runs took. time_row WHAT LINES GOAL RUN YARDSTICK, where a GOAL may be -, and
# memory_row likewise. most_row WHAT LINES KIB RUN: the run's peak memory beside what it may take
ratio_head() { printf '%-54s %8s %7s %6s  %-7s %s\n' what lines ratio goal '' 'of one / of the other'; }
ratio_row() {
    awk -v what="$1" -v lines="$2" -v goal="$3" -v a="$4" -v b="$5" -v form="$6" -v size="$7" 'BEGIN {
        printf "%-54s %8d %7.2f %6s  %-7s " form "\n", what, lines, a / b, goal,
            goal == "-" ? "" : a / b <= goal ? "ok" : "missed", a / size, b / size
    }'
}
time_row() { ratio_row "$1" "$2" "$3" "${time_of[$4]}" "${time_of[$5]}" '%.3f s / %.3f s' 1000000; }
memory_row() { ratio_row "$1" "$2" "$3" "${peak_of[$4]}" "${peak_of[$5]}" '%.1f MiB / %.1f MiB' 1024; }
most_row() { ratio_row "$1" "$2" 1.0 "${peak_of[$4]}" "$3" '%.1f MiB / %.1f MiB' 1024; }

# The cores, and how many processes wanted one in the last 1, 5 and 15 minutes.
show_load() {
    echo "$(nproc) cores, load $(cut -d ' ' -f 1-3 /proc/loadavg) ($1)"
}
