#!/usr/bin/env bash
# Prints what a line costs in a merge as the logs get longer, what a merge of their books costs, and what
# many transmissions of one key cost, in their order and against it.
# usage: bench/growth.sh PROGRAM
# environment: RUNS            of how many runs the best counts (5)
#              GROWTH_LINES    the sizes: lines of three logs in all ("10000 100000 1000000")
#              ONE_KEY_ROWS    transmissions of one key (2000)
set -euo pipefail
. "$(dirname "$0")/timing.sh"
program=$(realpath "$1")
enter_work

show_load 'before'
echo
printf '%-26s %9s %14s %16s\n' 'merge of three logs' seconds 'us a line' 'to the first'
first=
for lines in ${GROWTH_LINES:-10000 100000 1000000}; do
    mkdir "$lines"
    python3 "$here/make_log.py" "$lines" "$lines"
    take_least "$program" merge "$lines/a.log" "$lines/b.log" "$lines/c.log"
    first=${first:-$(awk -v t="$least" -v n="$lines" 'BEGIN { print t / n }')}
    awk -v t="$least" -v n="$lines" -v f="$first" \
        'BEGIN { printf "%-26s %9.3f %14.2f %16.2f\n", n " lines", t / 1e6, t / n, t / n / f }'
done
echo
printf '%-26s %9s %14s %16s\n' 'merge of two books' seconds 'ns a byte' 'to the first'
first=
for lines in ${GROWTH_LINES:-10000 100000 1000000}; do
    for log in a b; do "$program" merge "$lines/$log.log" > "$lines/$log.book"; done
    bytes=$(cat "$lines/a.book" "$lines/b.book" | wc -c)
    take_least "$program" merge "$lines/a.book" "$lines/b.book"
    first=${first:-$(awk -v t="$least" -v n="$bytes" 'BEGIN { print t / n }')}
    awk -v t="$least" -v n="$bytes" -v f="$first" \
        'BEGIN { printf "%-26s %9.3f %14.2f %16.2f\n", n " bytes", t / 1e6, 1000 * t / n, t / n / f }'
done
echo
rows=${ONE_KEY_ROWS:-2000}
python3 "$here/make_log.py" one-key "$rows" > forward.log
tac forward.log > backward.log
cmp <("$program" merge forward.log) <("$program" merge backward.log)
for order in forward backward; do
    take_least "$program" merge "$order.log"
    awk -v o="$order" -v t="$least" -v n="$rows" \
        'BEGIN { printf "one key, %d rows, %s: %.3f s, %.2f us a line\n", n, o, t / 1e6, t / n }'
done
