#!/usr/bin/env bash
# Builds the plain C programs, makes a log, and measures what checks and conversions of it take, beside
# `wc -l` of the log and `xxd -r -p` of its hexadecimal column, then the ratios that are wanted (compare.sh).
# Merges and listings are measured by books.sh.
# usage: bench/run.sh PROGRAM [LINES]    a million lines where none are asked for
# environment: RUNS                      of how many runs the best counts (5)
set -euo pipefail
. "$(dirname "$0")/timing.sh"
program=$(realpath "$1")
lines=${2:-1000000}
enter_work
python3 "$here/make_log.py" "$lines" > heard.log
python3 "$here/make_log.py" hexadecimal "$lines" > heard.hex
python3 "$here/make_log.py" kinds "$lines" > heard.kinds
xxd -r -p heard.hex > heard.kiss

show_load 'before'
take_least wc -l heard.log
wc_time=$least
take_least xxd -r -p heard.hex
xxd_time=$least
echo
awk -v l="$lines" -v w="$wc_time" -v x="$xxd_time" \
    'BEGIN { printf "%d lines; wc -l %.3f s, xxd -r -p %.3f s\n", l, w / 1e6, x / 1e6 }'
printf '%-16s %8s %8s %8s %13s\n' run seconds to-wc to-xxd peak-memory
show() {
    local name=$1
    shift
    take_least "$program" "$@"
    awk -v n="$name" -v t="$least" -v w="$wc_time" -v x="$xxd_time" -v p="$peak" \
        'BEGIN { printf "%-16s %8.3f %8.2f %8.2f %9d KiB\n", n, t / 1e6, t / w, t / x, p }'
}
show check check heard.log
show 'convert text' convert text heard.log
show 'convert kind' convert kind heard.log
show 'convert kiss' convert kiss heard.log
show 'convert log' convert log heard.log
show 'convert capture' convert capture --receiver RX1 --moment 2024-05-01T12:00:00Z heard.kiss

echo
"$here/compare.sh" "$program"
echo
show_load 'after'
