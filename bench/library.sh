#!/usr/bin/env bash
# Measures calls of the library that no command makes: `Book::merge` of two books in memory, as a ratio to
# what it takes to make these of logs; and `Book::take`, in the orders that cost most, as a ratio to as many
# transmissions of one key, the earliest first. Proves the crate of books, which no program needs, and the
# program that makes the calls, over the libraries of `make build`, in out/ of the repository.
# usage: bench/library.sh [ROWS]...    two books of 20,000 rows where none are asked for
# environment: RUNS                    of how many runs the best counts (5)
set -euo pipefail
. "$(dirname "$0")/timing.sh"
[ $# -gt 0 ] || set -- 20000
view=${here%/*}/out/bench_library
enter_work
trap 'rm -rf "$work" "$view"; rmdir "$(dirname "$view")" 2> /dev/null || true' EXIT

# Proves and builds the caller in a view of its own: links to the libraries and to what was proved of them.
build_caller() {
    local root=${here%/*} crate part
    rm -rf "$view"
    mkdir -p "$view/crates/bench_library/src"
    cp "$here/library.main" "$view/crates/bench_library/src/main.rt"
    grep '^aprs_[a-z0-9_]*:' "$root/crates.txt" | grep -v '_tests:' > "$view/crates.txt"
    while IFS=: read -r crate _; do
        mkdir -p "$view/crates/$crate/out"
        for part in src specs proofs out/rlib; do
            if [ -d "$root/crates/$crate/$part" ]; then
                cp -rl "$root/crates/$crate/$part" "$view/crates/$crate/$part"
            fi
        done
    done < "$view/crates.txt"
    echo 'bench_library: aprs_ax25 aprs_book aprs_log aprs_io' >> "$view/crates.txt"
    (cd "$view/crates/bench_library" && rt run --jobs 1 -- 0 /dev/null /dev/null) > "$work/proof" 2>&1 || {
        cat "$work/proof" >&2
        exit 1
    }
    cp "$view/crates/bench_library/out/bench_library" "$work/caller"
}

# How many more calls the one run makes than the other.
CALLS=20

merge_none() { "$@" ./caller 0 one.log other.log; }
merge_once() { "$@" ./caller 1 one.log other.log; }
merge_often() { "$@" ./caller $((CALLS + 1)) one.log other.log; }

# measure_call ROWS: of a book of so many rows, and of the book of the same frames by other receivers.
measure_call() {
    python3 "$here/make_log.py" "$1" > one.log
    sed 's/ RX/ RY/' one.log > other.log
    take_turns merge_none merge_once merge_often
    time_of[call]=$(((time_of[merge_often] - time_of[merge_once]) / CALLS))
    time_row 'Book::merge, a call / its two books of logs' "$1" 0.5 call merge_none
    memory_row 'Book::merge of two books / the two: peak memory' "$1" 1.85 merge_once merge_none
}

fill() { "${@:3}" ./caller "$1" "$2"; }
take_rows() { fill rows 200000 "$@"; }
take_rows_back() { fill rows-back 200000 "$@"; }
take_rows_mixed() { fill rows-mixed 200000 "$@"; }
take_keys_back() { fill keys-back 200000 "$@"; }
take_receivers() { fill receivers 80000 "$@"; }

# `Book::take` in the orders that cost most
measure_takes() {
    take_turns take_rows take_rows_back take_rows_mixed take_keys_back take_receivers
    time_row 'Book::take: latest first / earliest first' 200000 1.5 take_rows_back take_rows
    time_row 'the same in no order' 200000 12 take_rows_mixed take_rows
    time_row 'keys of one beginning, the last first' 200000 1.5 take_keys_back take_rows
    time_row 'receivers of one transmission, ascending' 80000 1 take_receivers take_rows
}

build_caller
show_load 'before'
echo
ratio_head
for rows; do measure_call "$rows"; done
measure_takes
echo
show_load 'after'
