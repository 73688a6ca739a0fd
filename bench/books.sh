#!/usr/bin/env bash
# Measures what makes books and listings, of logs and of book files, as ratios to plain C programs or to
# another command over the same receptions. First it compares the books of all of them, byte for byte.
# usage: bench/books.sh PROGRAM FOLD [LINES]...    200,000 and 2,000,000 lines where none are asked for
# environment: RUNS                                of how many runs the best counts (5)
#              RECEIVERS                           of one transmission (80000)
# Two million lines take 2 GB of disk in TMPDIR, and the generator half a minute.
# shellcheck disable=SC2119,SC2120 # a run is called with words to stand before its command, or with none
set -euo pipefail
. "$(dirname "$0")/timing.sh"
program=$(realpath "$1")
fold=$(realpath -s "$2")
shift 2
[ $# -gt 0 ] || set -- 200000 2000000
enter_work

# The runs. Those of three logs, of 64 and of the day's log are of the same receptions.
merge_logs() { "$@" "$program" merge three/a.log three/b.log three/c.log; }
merge_books() { "$@" "$program" merge three/a.book three/b.book three/c.book; }
merge_nothing() { "$@" "$program" merge nothing.log; }
show_logs() { "$@" "$program" show three/a.log three/b.log three/c.log; }
plain_logs() { "$@" plain/merge three/a.log three/b.log three/c.log; }
plain_books() { "$@" plain/book_merge three/a.book three/b.book three/c.book; }
merge_64_logs() { "$@" "$program" merge many/*.log; }
merge_64_books() { "$@" "$program" merge many/*.book; }
merge_day() { "$@" "$program" merge year.book day.log; }
merge_year() { "$@" "$program" merge year.book; }
show_year() { "$@" "$program" show year.book; }
widen_year() { "$@" "$program" widen 60 year.book; }
plain_year() { "$@" plain/book_merge year.book; }
fold_books() { "$@" "$fold" three/a.book three/b.book three/c.book; }
check_books() { "$@" "$fold" --check three/a.book three/b.book three/c.book; }
fold_day() { "$@" "$fold" year.book day.book; }
news_day() { "$@" "$fold" --new-to year.book day.book; }
fold_year_and_news() { "$@" "$fold" year.book news.book; }
plain_day() { "$@" plain/book_merge year.book day.book; }
fold_64_books() { "$@" "$fold" many/*.book; }
plain_64_books() { "$@" plain/book_merge many/*.book; }
fold_1000_books() { "$@" "$fold" most/*.book; }
# what bounds a fold from below: rows merged as lines of text, and files read alone
sort_rows() { "$@" sort -m three/a.rows three/b.rows three/c.rows; }
cat_books() { "$@" cat three/a.book three/b.book three/c.book; }
fold_receivers() { "$@" "$fold" odd.book even.book; }
plain_receivers() { "$@" plain/book_merge odd.book even.book; }
book_of_all() { cat all.book; }
merge_stations() { "$@" "$program" merge once.log; }
show_stations() { "$@" "$program" show once.log; }
receivers_log() { "$@" "$program" merge receivers.log; }
receivers_book() { "$@" "$program" merge receivers.book; }
three_receivers() { "$@" "$program" merge three.log; }
widen_receivers() { "$@" "$program" widen 60 apart.book; }
widen_three() { "$@" "$program" widen 60 three_apart.book; }
merge_wide() { "$program" merge --gap 60 apart.log; }
names_heard() { cat names; }
names_of_row() { grep -o -F -f names receivers.book; }

# measure_books LINES: of three logs with so many lines in all, and of what is made of them. A year's book
# has all but the last 3,000 lines of one of them, which are the day's log.
measure_books() {
    local lines=$1 log run
    rm -rf three many most
    mkdir three many most
    : > nothing.log
    python3 "$here/make_log.py" "$lines" three
    plain_logs > all.book
    for log in three/?.log; do "$program" merge "$log" > "${log%.log}.book"; done
    head -n -3000 three/a.log > year.log
    tail -n 3000 three/a.log > day.log
    "$program" merge year.log three/b.log three/c.log > year.book
    rm year.log
    cut_up 64 many
    for run in merge_logs plain_books merge_books merge_64_logs merge_64_books merge_day; do
        same "$run and C, $lines lines" "$run" book_of_all
    done
    same "merge_year and C, $lines lines" merge_year plain_year

    take_turns merge_books plain_books merge_nothing
    time_row 'merge of three book files / C' "$lines" 1.4 merge_books plain_books
    memory_row 'merge of three book files / C: peak memory' "$lines" 0.65 merge_books plain_books
    row_memory_row 'merge of three book files: memory of a row / 90 bytes' three/?.book
    take_turns merge_day plain_year merge_year show_year widen_year
    time_row "a day's log into a year's book / C, the book alone" "$lines" 2.0 merge_day plain_year
    time_row "show of a year's book / merge of it" "$lines" 1.5 show_year merge_year
    time_row "widen of a year's book / merge of it" "$lines" 1.2 widen_year merge_year
    take_turns merge_64_books merge_64_logs
    time_row '64 books of one log each / merge of the logs' "$lines" 2.0 merge_64_books merge_64_logs
    take_turns merge_logs plain_logs show_logs
    time_row 'merge of three logs / C, sort and merge' "$lines" 0.6 merge_logs plain_logs
    memory_row 'merge of three logs / C, sort and merge: peak memory' "$lines" 1.0 merge_logs plain_logs
    time_row 'show of three logs / merge of them' "$lines" 1.5 show_logs merge_logs
    memory_row 'show of three logs / merge of them: peak memory' "$lines" 1.2 show_logs merge_logs
}

# row_memory_row WHAT BOOK...: what merge_books takes for each row of its books, beside 90 bytes
row_memory_row() {
    local what=$1 rows
    shift
    rows=$(($(cat "$@" | wc -l) - 2 * $#))
    ratio_row "$what" "$rows" 1.0 $(((peak_of[merge_books] - peak_of[merge_nothing]) * 1024)) \
        $((90 * rows)) '%.1f / %.1f bytes' "$rows"
}

# cut_up NUMBER FOLDER: the three logs one after another, cut into so many, each with its book
cut_up() {
    local lines log
    lines=$(cat three/?.log | wc -l)
    cat three/?.log | split -d -a 3 -l $(((lines + $1 - 1) / $1)) --additional-suffix=.log - "$2/"
    for log in "$2"/*.log; do "$program" merge "$log" > "${log%.log}.book"; done
}

# measure_folds LINES: of what measure_books has made, and of 1,000 books of a piece of the logs each. A
# fold may take 4 MiB, whatever the number of rows.
measure_folds() {
    local lines=$1 book run
    "$program" merge day.log > day.book
    cut_up 1000 most
    rm most/*.log
    for book in three/?.book; do sed '1d; $d' "$book" | sort > "${book%.book}.rows"; done
    news_day > news.book
    for run in fold_books fold_day plain_day fold_year_and_news fold_64_books plain_64_books \
        fold_1000_books; do
        same "$run and C, $lines lines" "$run" book_of_all
    done

    take_turns fold_books plain_books merge_books sort_rows cat_books check_books
    time_row 'fold of three book files / C that merges in memory' "$lines" 1.0 fold_books plain_books
    time_row 'fold of three book files / merge of them' "$lines" 1.0 fold_books merge_books
    time_row 'fold of three book files / sort -m of their rows' "$lines" - fold_books sort_rows
    time_row 'fold of three book files / cat of them' "$lines" - fold_books cat_books
    most_row 'fold of three book files: peak memory / 4 MiB' "$lines" 4096 fold_books
    time_row 'check of three book files / fold of them' "$lines" 0.6 check_books fold_books
    take_turns fold_day plain_day news_day
    time_row "fold of a day's book into a year's / C" "$lines" 0.9 fold_day plain_day
    most_row 'the same: peak memory / 4 MiB' "$lines" 4096 fold_day
    time_row "what is new in a day's book to a year's / the fold of both" "$lines" 1.1 news_day fold_day
    take_turns fold_64_books plain_64_books fold_1000_books
    time_row 'fold of 64 book files / C' "$lines" - fold_64_books plain_64_books
    time_row 'fold of 1,000 book files / fold of 64' "$lines" 1.5 fold_1000_books fold_64_books
    most_row 'fold of 1,000 book files: peak memory / 64 MiB' "$lines" 65536 fold_1000_books
}

# measure_stations LINES: of a log with a station of its own in each line
measure_stations() {
    local lines=$1
    python3 "$here/make_log.py" once "$lines" > once.log
    take_turns merge_stations show_stations
    time_row 'show of stations heard once / merge of them' "$lines" 4.0 show_stations merge_stations
    memory_row 'show of stations heard once / merge of them: peak memory' "$lines" 3.0 show_stations merge_stations
}

# measure_receivers LINES: of one transmission, each line by another receiver, and as many lines by three.
# Once they lie within ten seconds, and once 40 seconds apart: a row each, which a gap of 60 makes one.
measure_receivers() {
    local lines=$1 log
    python3 "$here/make_log.py" receivers "$lines" "$lines" > receivers.log
    seq -s , -f RX%07.0f 0 $((lines - 1)) > names
    python3 "$here/make_log.py" receivers 3 "$lines" > three.log
    python3 "$here/make_log.py" apart "$lines" "$lines" > apart.log
    python3 "$here/make_log.py" apart 3 "$lines" > three_apart.log
    awk 'NR % 2 { print > "odd.log"; next } { print > "even.log" }' receivers.log
    receivers_log > receivers.book
    for log in apart three_apart; do "$program" merge "$log.log" > "$log.book"; done
    same "the receivers of $lines lines, and of the row" names_heard names_of_row
    same "the book of $lines receivers, and merge of it" receivers_log receivers_book
    same "widen of $lines rows, and merge of their log" widen_receivers merge_wide
    take_turns receivers_log receivers_book three_receivers
    time_row 'log of one transmission, a receiver a line / by three' "$lines" 3.0 receivers_log three_receivers
    time_row 'book file of it / log of as many lines by three' "$lines" 3.0 receivers_book three_receivers
    take_turns widen_receivers widen_three
    time_row 'widen of a receiver a row into one row / by three' "$lines" 3.0 widen_receivers widen_three
    for log in even odd; do "$program" merge "$log.log" > "$log.book"; done
    for log in fold_receivers plain_receivers; do same "$log, and merge of its log" "$log" receivers_log; done
    take_turns fold_receivers plain_receivers
    time_row 'fold of two halves of the receivers into one row / C' "$lines" - fold_receivers plain_receivers
}

show_load 'before'
echo
ratio_head
for lines; do
    measure_books "$lines"
    measure_folds "$lines"
    measure_stations "$lines"
done
measure_receivers "${RECEIVERS:-80000}"
echo
show_load 'after'
