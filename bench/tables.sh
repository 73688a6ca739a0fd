#!/usr/bin/env bash
# Measures the tables and the history of three logs beside the merge of them, as ratios of time and of peak
# memory.
# usage: bench/tables.sh PROGRAM TABLE HISTORY [LINES]...    200,000 and 2,000,000 lines where none are asked for
# environment: RUNS                                          of how many runs the best counts (5)
# Two million lines take 0.5 GB of disk in TMPDIR, and the generator half a minute.
# shellcheck disable=SC2119,SC2120 # a run is called with words to stand before its command, or with none
set -euo pipefail
. "$(dirname "$0")/timing.sh"
program=$(realpath "$1")
table=$(realpath -s "$2")
history=$(realpath -s "$3")
shift 3
[ $# -gt 0 ] || set -- 200000 2000000
enter_work

merge() { "$@" "$program" merge three/a.log three/b.log three/c.log; }
rows() { "$@" "$table" rows three/a.log three/b.log three/c.log; }
messages() { "$@" "$table" messages three/a.log three/b.log three/c.log; }
stations() { "$@" "$table" stations three/a.log three/b.log three/c.log; }
things() { "$@" "$table" things three/a.log three/b.log three/c.log; }
history() { "$@" "$history" three/a.log three/b.log three/c.log; }
rows_of_book() { "$@" "$table" rows three.book; }
history_of_book() { "$@" "$history" three.book; }

# rows_of RUN WHAT GOAL: the time and the memory of a run beside those of the merge
rows_of() {
    time_row "$2 of three logs / merge of them" "$lines" "$3" "$1" merge
    memory_row "$2 / merge: peak memory" "$lines" 1.1 "$1" merge
}

show_load 'before'
echo
ratio_head
for lines; do
    rm -rf three
    mkdir three
    python3 "$here/make_log.py" "$lines" three
    merge > three.book
    same "the rows of $lines lines and of their book" rows rows_of_book
    same "the history of $lines lines and of their book" history history_of_book
    take_turns merge rows messages stations things history
    for run in rows messages stations things; do rows_of "$run" "table of $run" 1.4; done
    rows_of history history 1.3
done
echo
show_load 'after'
