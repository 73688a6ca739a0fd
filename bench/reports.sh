#!/usr/bin/env bash
# Measures aprs-net: its start beside Python's, its reports of a book beside what they may take, and the
# module in Node beside the program.
# usage: bench/reports.sh PROGRAM [ROWS]    some million rows where none are asked for
# environment: RUNS                         of how many runs the best counts (3)
# A million rows take 0.8 GB of disk in TMPDIR, and the generator half a minute.
# shellcheck disable=SC2119,SC2120 # a run is called with words to stand before its command, or with none
set -euo pipefail
: "${RUNS:=3}"
. "$(dirname "$0")/timing.sh"
program=$(realpath "$1")
# 28 lines of three receivers' logs make 10 rows
lines=$((${2:-1000000} * 28 / 10))
repository=${here%/*}
enter_work
# the programs by their names, for aprs-net
mkdir bin
for name in aprsbook aprsbook-history aprsbook-table aprsbook-fold; do
    ln -s "${program%/*}/$name" "bin/$name"
done
PATH=$work/bin:$PATH
# by the interpreter itself: `python3` may be a script that looks for one
python=$(python3 -c 'import sys; print(sys.executable)')
# as it is installed: the sources are compiled there
make --no-print-directory -s -C "$repository" install PREFIX="$work/place" > install.log
net=("$python" "$work/place/bin/aprs-net")

python() { "$@" "$python" -c pass; }
help() { "$@" "${net[@]}" --help; }
evening() { "$@" "${net[@]}" last-heard "$repository/examples/evening"; }
last_heard() { "$@" "${net[@]}" last-heard net.book; }
csv() { "$@" "${net[@]}" csv net.book; }
sqlite() {
    rm -f net.sqlite
    "$@" "${net[@]}" sqlite net.sqlite net.book
}
tracks() { "$@" "${net[@]}" tracks --format gpx net.book; }
page() { "$@" "${net[@]}" page net.book; }
merge() { "$@" aprsbook merge three/a.log three/b.log three/c.log; }
module() { "$@" node "$repository/release"/*/aprsbook.mjs merge three/a.log three/b.log three/c.log; }

# report_row WHAT SECONDS RUN: a report's time beside the seconds that it may take of a million rows
report_row() {
    ratio_row "$1 / $2 s a million" "$rows" 1.0 "${time_of[$3]}" $(($2 * rows)) '%.2f s / %.2f s' 1000000
}

show_load 'before'
echo
ratio_head
take_turns python help evening
time_row 'aprs-net --help / python3 -c pass' 1 - help python
time_row 'aprs-net last-heard of an evening / python3 -c pass' 1 3.0 evening python
mkdir three
python3 "$here/make_log.py" "$lines" three
merge > net.book
rows=$(($(wc -l < net.book) - 2))
take_turns last_heard csv sqlite tracks page
report_row 'aprs-net last-heard' 2 last_heard
report_row 'aprs-net csv' 10 csv
report_row 'aprs-net sqlite' 10 sqlite
report_row 'aprs-net tracks --format gpx' 15 tracks
most_row 'its peak memory / 100 MB' "$rows" 97656 tracks
report_row 'aprs-net page' 15 page
most_row 'its peak memory / 300 MB' "$rows" 292968 page
if command -v node > /dev/null; then
    same 'the merge of the module and of the program' module merge
    take_turns module merge
    time_row 'merge by the module in Node / by the program' "$lines" 2.0 module merge
else
    echo 'left out: the module (no node is there)'
fi
echo
show_load 'after'
