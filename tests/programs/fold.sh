#!/bin/sh
# Tries the fold of book files: the bytes of the merge of the same files, in any order, however grouped
# and however often; the refusals of a merge, those of a check, and what is left after one, which no
# program takes for a book; and memory that doesn't grow with the rows. Needs a POSIX system.
# usage: tests/programs/fold.sh PROGRAM
. "$(dirname "$0")/program.sh"
[ -x "$scratch/bin/aprsbook-fold" ] || fail 'there is no program of folds'
cd "$scratch"
for log in "$repository"/examples/evening/*.log; do
    aprsbook merge "$log" > "${log##*/}.book"
done
aprsbook merge "$repository"/examples/evening/*.log > evening.book

# alike WHAT BOOK..: the fold of these is the book of the evening
alike() {
    what=$1
    shift
    aprsbook-fold "$@" | cmp -s - evening.book || fail "the fold differs: $what"
}
backwards=
for book in *.log.book; do backwards="$book $backwards"; done
alike 'all books' ./*.log.book
# shellcheck disable=SC2086 # one name a word
alike 'the other way round' $backwards
alike 'books that are given twice' ./*.log.book evening.book ./*.log.book
alike 'one book' evening.book
aprsbook-fold < evening.book > folded
cmp -s folded evening.book || fail 'the fold of standard input differs'
sed '1s/.*/APRSBOOK 2/' evening.book > two
alike 'a book of version 2' two
aprsbook-fold --check ./*.log.book evening.book > folded || fail 'a check refuses books'
[ ! -s folded ] || fail 'a check writes'
aprsbook-fold --check < evening.book || fail 'a check of standard input'
: > no.log
aprsbook merge no.log > none.book
alike 'a book of nothing' none.book evening.book
aprsbook-fold none.book | cmp -s - none.book || fail 'the fold of nothing differs'
for gap in 1 600; do
    for log in "$repository"/examples/evening/*.log; do
        aprsbook merge --gap $gap "$log" > "${log##*/}.$gap"
    done
    aprsbook merge --gap $gap "$repository"/examples/evening/*.log > all.$gap
    aprsbook-fold --gap $gap ./*.log.$gap | cmp -s - all.$gap || fail "the fold differs: gap $gap"
done

# ---- refusals ----

# refuses COMPLAINT BOOK..: status 1, this complaint, and what is left is taken for no book
refuses() {
    wanted=$1
    shift
    status=0
    aprsbook-fold --check "$@" > left 2> said || status=$?
    [ "$status $(cat said)" = "1 aprsbook-fold: $wanted" ] || fail "a check: $status, $(cat said)"
    [ ! -s left ] || fail "a check writes: $wanted"
    status=0
    aprsbook-fold "$@" > left 2> said || status=$?
    [ $status = 1 ] || fail "status $status: $wanted"
    [ "$(cat said)" = "aprsbook-fold: $wanted" ] || fail "it says: $(cat said)"
    [ ! -s left ] || [ "$(head -n 1 left)" = 'APRSBOOK 3 30' ] || fail "it begins: $(head -n 1 left)"
    status=0
    aprsbook merge left > /dev/null 2> said || status=$?
    [ ! -s left ] || [ $status = 1 ] || fail "a merge takes what is left: $wanted"
}
rows=$(grep -c '^T' evening.book)
head -n 3 evening.book > cut.book
refuses 'cut.book: line 4: Ending' evening.book cut.book
[ -s left ] || fail 'nothing is left after a fault, which is an empty log'
refuses 'no.log: line 1: Ending' evening.book no.log
refuses "$repository/examples/evening/hill.log: line 1: Header" \
    "$repository/examples/evening/hill.log" evening.book
refuses 'all.600: other gap' evening.book all.600
sed '$d' evening.book | { cat; echo "END $((rows + 1))"; } > count
refuses "count: line $((rows + 2)): Ending" count
{ cat evening.book; echo; } > more.book
refuses "more.book: line $((rows + 3)): After" more.book evening.book
sed '3s/^T/U/' evening.book > syntax
refuses 'syntax: line 3: RowSyntax' evening.book syntax
refuses 'no such.book: cannot open' evening.book 'no such.book'
[ ! -s left ] || fail 'it writes where a file cannot be opened'
status=0
aprsbook-fold --gap 0 evening.book > left 2> said || status=$?
[ $status = 2 ] || fail "status $status where the gap is 0"
if [ -w /dev/full ]; then
    status=0
    aprsbook-fold evening.book > /dev/full 2> said || status=$?
    [ "$status $(cat said)" = '3 aprsbook-fold: cannot write' ] ||
        fail "a full disk: $status, $(cat said)"
fi

# ---- parts ----

# WORDS..: the rows of the evening that are written with these words
rows_of() { aprsbook-fold "$@" evening.book | sed '1d; $d'; }
rows_of > whole
{ rows_of --until Q1NET && rows_of --from Q1NET --until Q1RUN-10 && rows_of --from Q1RUN-10; } |
    cmp -s - whole || fail 'parts of a fold are not the whole'
aprsbook-fold --from Q1NET evening.book > part
aprsbook-fold part | cmp -s - part || fail 'a part is no book'
rows_of --from Q1NET | cmp -s - whole && fail 'all is from Q1NET on'
aprsbook-fold --from Q1NET --until Q1NET evening.book | cmp -s - none.book || fail 'from is until'
aprsbook-fold --check --from Q1NET evening.book > left || fail 'a check of a part'
[ ! -s left ] || fail 'a check of a part writes'
status=0
aprsbook-fold --until Q1NET cut.book evening.book > left 2> said || status=$?
[ "$status $(cat said)" = '1 aprsbook-fold: cut.book: line 4: Ending' ] ||
    fail "a part of a cut book: $status, $(cat said)"
# what is wrong before a part of a file isn't seen, and what is wrong in it has its line in the file
sed '2s/^T/U/' evening.book > syntax
aprsbook-fold --from Q1NET syntax | cmp -s - part || fail 'a part is not found in a file'
aprsbook-fold --from Q1NET < syntax > left 2> said && fail 'the part of a faulty input'
[ "$(cat said)" = 'aprsbook-fold: standard input: line 2: RowSyntax' ] || fail "a part: $(cat said)"
aprsbook-fold --check --from Q1NET syntax > left 2> said && fail 'a check of a part of a faulty book'
sed "$((rows + 1))s/^T/U/" evening.book > syntax
aprsbook-fold --from Q1NET syntax > left 2> said && fail 'a faulty part of a file'
[ "$(cat said)" = "aprsbook-fold: syntax: line $((rows + 1)): RowSyntax" ] ||
    fail "a faulty part: $(cat said)"
for it in '--from Q1NET' '--until Q1NET' '--from Q1NET --until Q1RUN-10' '--from Q1RUN --until Q1NET'; do
    # shellcheck disable=SC2086 # options and their values
    aprsbook-fold $it < evening.book > left
    # shellcheck disable=SC2086
    aprsbook-fold $it evening.book two evening.book | cmp -s - left || fail "files and pipes: $it"
done
for it in '--from q1net' '--until Q1NET-16' '--from Q1NET-0' '--until ='; do
    status=0
    # shellcheck disable=SC2086 # an option and its value
    aprsbook-fold $it evening.book > left 2> said || status=$?
    [ $status = 2 ] || fail "status $status at $it"
    grep -q "^error: invalid value for '${it% *} <SOURCE>'" said || fail "at $it: $(cat said)"
    [ ! -s left ] || fail "it writes at $it"
done

# ---- memory ----

# 64 MiB of addresses serve any number of rows
awk 'BEGIN {
    print "APRSBOOK 3 30"
    for (i = 0; i < 100000; i++)
        printf "T 2024-05-01T12:00:00.000Z 2024-05-01T12:00:00.000Z RX RX " \
            "82a0a4a64040e09c60868298986f03f03e%02x%02x%02x%02x\n",
            48 + int(i / 10000), 48 + int(i / 1000) % 10, 48 + int(i / 100) % 10, 32 + i % 100
    print "END 100000" }' > large
# shellcheck disable=SC3045 # a shell without such a limit, or qemu, which needs more, tries nothing
# shellcheck disable=SC3045 # a shell without it leaves this out
if (ulimit -v 65536 && aprsbook-fold --version) > left 2>&1; then
    (ulimit -v 65536; aprsbook-fold large large large) | cmp -s - large ||
        fail 'the fold of 100,000 rows differs, or takes more than 64 MiB'
fi

# ---- what a book lacks ----

old=$(find . -name '*.log.book' | sort | head -n 1)
rows=$(($(wc -l < "$old") - 2))
digest=$(sha256sum "$old" | cut -d ' ' -f 1)
told="aprsbook-fold: new to $old: $rows rows, sha256 $digest"
aprsbook-fold --new-to "$old" evening.book > news.book 2> said || fail "no news: $(cat said)"
[ ! -s said ] || fail "of news it says unasked: $(cat said)"
alike 'an old book and its news' news.book "$old"
aprsbook-fold --new-to "$old" < evening.book 2> said | cmp -s - news.book ||
    fail 'the news of standard input differ'
aprsbook-fold --new-to evening.book ./*.log.book 2> said | cmp -s - none.book ||
    fail 'nothing is new, and something is written'
aprsbook-fold --check --new-to "$old" evening.book > left 2> said || fail "a check: $(cat said)"
[ "$(cat left said)" = "$told" ] || fail "a check of news says: $(cat left said)"
# the digest is that of the whole file, also of a range
aprsbook-fold --check --from N1 --until N2 --new-to "$old" evening.book > left 2> said ||
    fail "a check of a range: $(cat said)"
[ "$(cat left said)" = "$told" ] || fail "a check of news of a range says: $(cat left said)"
# lacks COMPLAINT OLD BOOK..: the old book, or another one, is refused so
lacks() {
    wanted=$1
    shift
    status=0
    aprsbook-fold --new-to "$@" > left 2> said || status=$?
    [ "$status $(cat said)" = "1 aprsbook-fold: $wanted" ] || fail "news: $status, $(cat said)"
}
lacks 'no.book: cannot open' no.book evening.book
lacks 'no.book: cannot open' "$old" no.book
lacks 'all.600: other gap' all.600 evening.book
lacks 'all.600: other gap' "$old" all.600
sed '$d' evening.book > cut.book
lacks "cut.book: line $(wc -l < evening.book): Ending" cut.book evening.book
lacks "cut.book: line $(wc -l < evening.book): Ending" "$old" cut.book
# a pipe serves, since the old book is read once
mkfifo old.pipe
cat "$old" > old.pipe &
aprsbook-fold --new-to old.pipe evening.book 2> said | cmp -s - news.book ||
    fail 'the news to a pipe differ'
wait
cat "$old" > old.pipe &
aprsbook-fold --check --new-to old.pipe evening.book 2> said || fail "of a pipe: $(cat said)"
wait
[ "$(cat said)" = "aprsbook-fold: new to old.pipe: $rows rows, sha256 $digest" ] ||
    fail "of a pipe it says: $(cat said)"
# shellcheck disable=SC3045 # a shell without it leaves this out
if (ulimit -v 65536 && aprsbook-fold --version) > left 2>&1; then
    (ulimit -v 65536; aprsbook-fold --new-to large large large) > left 2> said ||
        fail 'the news of 100,000 rows take more than 64 MiB'
    cmp -s left none.book || fail 'of the same book something is new'
fi

# ---- words ----

for it in gap from until new-to check help version; do
    for where in man/aprsbook-fold.1 completions/aprsbook-fold.bash completions/aprsbook-fold.fish \
        completions/_aprsbook-fold; do
        tr -d '\134' < "$repository/$where" | grep -qe "-l $it\|--$it" || fail "$where lacks --$it"
    done
done
aprsbook-fold --version | grep -q '^aprsbook-fold [0-9]' || fail 'the version'
# ---- random books, where Python is there ----

if command -v python3 > /dev/null; then
    "$repository/tests/programs/folds.py" "$program" "$scratch/bin/aprsbook-fold" 40 > said || fail "$(cat said)"
    "$repository/tests/programs/news.py" "$program" "$scratch/bin/aprsbook-fold" 40 > said || fail "$(cat said)"
    "$repository/tests/programs/range.py" "$scratch/bin/aprsbook-fold" > said || fail "$(cat said)"
fi
echo 'folds are as merges are'
