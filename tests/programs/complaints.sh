#!/bin/sh
# Tries what each program complains of, word for word, and the exit status that comes with it: inputs
# that can't be opened, or that the output goes to, faults of an input by its path and of standard
# input, wrong words, refused outputs and refused memory; and what it notes of empty books. Needs a POSIX system; what needs more says so where it is left out.
# usage: tests/programs/complaints.sh PROGRAM HISTORY TABLE
. "$(dirname "$0")/program.sh"
[ -n "$history" ] || fail "there is no program of histories"
[ -n "$table" ] || fail "there is no program of tables"
[ -x "$scratch/bin/aprsbook-fold" ] || fail 'there is no program of folds'
cd "$scratch"
printf '%s\n' \
    '2024-05-01T12:00:00Z RX1 c00082a0a4a64040e09c60868298986f03f03e4869c0' \
    '2024-05-01T12:00:01Z RX1 c00082a0c0' \
    '2024-05-01T12:00:02Z RX1 0g' > bad.log
head -n 1 bad.log > good.log
aprsbook merge good.log > good.book
aprsbook merge --gap 60 good.log > wide.book
aprsbook merge < /dev/null > none.book
# complains STATUS WORDS COMMAND ARGUMENT..: with these words and this status, and nothing else is said
complains() {
    status=$1 words=$2 ended=0
    shift 2
    "$@" > written 2> said || ended=$?
    [ "$(cat said)" = "$words" ] || fail "$* says '$(cat said)', not '$words'"
    [ "$ended" = "$status" ] || fail "$* ended with $ended, not $status"
}
# writes_nothing: of the last run
writes_nothing() { [ ! -s written ] || fail "the run wrote: $(head -n 3 written)"; }

# ---- inputs ----

for command in check 'convert text' 'convert kiss' merge show 'widen 60'; do
    # shellcheck disable=SC2086 # a command and its words
    complains 1 'aprsbook: no such.log: cannot open' aprsbook $command 'no such.log'
    writes_nothing
done
complains 1 'aprsbook-history: no such.log: cannot open' aprsbook-history 'no such.log'
complains 1 'aprsbook-table: no such.log: cannot open' aprsbook-table 'no such.log'
writes_nothing
# the first that can't be opened is named, and none is read before that
complains 1 'aprsbook: second: cannot open' aprsbook merge bad.log second third
complains 1 'aprsbook-history: second: cannot open' aprsbook-history bad.log second third
complains 1 'aprsbook-table: second: cannot open' aprsbook-table bad.log second third

for command in check 'convert text' merge show 'widen 60'; do
    # shellcheck disable=SC2086
    complains 1 'aprsbook: bad.log: line 3: Hex' aprsbook $command bad.log
    complains 1 'aprsbook: standard input: line 3: Hex' sh -c "aprsbook $command < bad.log"
done
complains 1 'aprsbook-history: bad.log: line 3: Hex' aprsbook-history bad.log
complains 1 'aprsbook-table: bad.log: line 3: Hex' aprsbook-table bad.log
complains 1 'aprsbook-history: standard input: line 3: Hex' sh -c "aprsbook-history < bad.log"
complains 1 'aprsbook-table: standard input: line 3: Hex' sh -c "aprsbook-table < bad.log"
# of several inputs the one at fault
complains 1 'aprsbook: bad.log: line 3: Hex' aprsbook merge good.log bad.log good.book
writes_nothing
complains 1 'aprsbook-history: bad.log: line 3: Hex' aprsbook-history good.log bad.log good.book
complains 1 'aprsbook-table: bad.log: line 3: Hex' aprsbook-table good.log bad.log good.book
writes_nothing
# a book, cut short
head -n 1 good.book > cut.book
complains 1 'aprsbook: cut.book: line 2: Ending' aprsbook show cut.book
complains 1 'aprsbook-history: cut.book: line 2: Ending' aprsbook-history cut.book
complains 1 'aprsbook-table: cut.book: line 2: Ending' aprsbook-table cut.book
complains 1 'aprsbook: standard input: line 2: Ending' sh -c 'aprsbook merge < cut.book'
# other gaps
for command in merge show; do
    complains 1 'aprsbook: wide.book: other gap' aprsbook $command good.log wide.book
done
complains 1 'aprsbook-history: wide.book: other gap' aprsbook-history good.log wide.book
complains 1 'aprsbook-table: wide.book: other gap' aprsbook-table good.log wide.book
complains 1 'aprsbook: standard input: other gap' sh -c 'aprsbook show < wide.book'
complains 1 'aprsbook: wide.book: narrower' aprsbook widen 30 wide.book
complains 1 'aprsbook: standard input: narrower' sh -c 'aprsbook widen 30 < wide.book'

# ---- an input that the output goes to ----

cp good.log io.log
ln -s io.log soft.log
ln io.log hard.log
cp good.book io.book
ln -s io.book soft.book
# keeps_both: the last run wrote nothing into what was to be its input
keeps_both() {
    cmp -s io.log good.log || fail "the log that is its own output is: $(cat io.log)"
    cmp -s io.book good.book || fail "the book that is its own output is: $(cat io.book)"
}
for it in io.log ./io.log soft.log hard.log; do
    for command in check 'convert log' 'convert text' merge show 'widen 60'; do
        complains 1 "aprsbook: $it: input is output" sh -c "aprsbook $command $it >> io.log"
        keeps_both
    done
    complains 1 "aprsbook: $it: input is output" sh -c "aprsbook merge good.log $it 1<> io.log"
    complains 1 "aprsbook-history: $it: input is output" sh -c "aprsbook-history $it >> io.log"
    complains 1 "aprsbook-table: $it: input is output" sh -c "aprsbook-table good.log $it >> io.log"
    keeps_both
done
for it in io.book soft.book; do
    complains 1 "aprsbook: $it: input is output" sh -c "aprsbook merge good.log $it >> io.book"
    complains 1 "aprsbook-fold: $it: input is output" sh -c "aprsbook-fold good.book $it >> io.book"
    complains 1 "aprsbook-fold: $it: input is output" \
        sh -c "aprsbook-fold --from N1 $it >> io.book"
    complains 1 "aprsbook-fold: $it: input is output" \
        sh -c "aprsbook-fold --new-to $it good.book >> io.book"
    complains 1 "aprsbook-fold: $it: input is output" \
        sh -c "aprsbook-fold --new-to good.book $it >> io.book"
    keeps_both
    # a check writes nothing
    complains 0 '' sh -c "aprsbook-fold --check $it >> io.book"
    keeps_both
done
said='standard input: input is output'
for command in check 'convert log' merge show 'widen 60'; do
    complains 1 "aprsbook: $said" sh -c "aprsbook $command < io.log >> io.log"
done
complains 1 "aprsbook-history: $said" sh -c 'aprsbook-history < soft.log >> io.log'
complains 1 "aprsbook-table: $said" sh -c 'aprsbook-table < io.log >> hard.log'
complains 1 "aprsbook-fold: $said" sh -c 'aprsbook-fold < io.book >> io.book'
complains 1 "aprsbook-fold: $said" sh -c 'aprsbook-fold --new-to good.book < io.book >> io.book'
keeps_both
# the first path that can't serve is named
complains 1 'aprsbook: io.log: input is output' sh -c 'aprsbook merge io.log no.log >> io.log'
complains 1 'aprsbook: no.log: cannot open' sh -c 'aprsbook merge no.log io.log >> io.log'
# a file that the shell has emptied is no empty log
cp good.log emptied.log
complains 1 'aprsbook: emptied.log: input is output' sh -c 'aprsbook merge emptied.log > emptied.log'
[ ! -s emptied.log ] || fail 'a run writes into an emptied input'
# what is no regular file may be both, and so may files of the same bytes
complains 0 '' sh -c 'aprsbook merge /dev/null > /dev/null'
complains 0 '' sh -c 'aprsbook merge < /dev/null > /dev/null'
complains 0 '' sh -c 'aprsbook-fold --check none.book > /dev/null'
complains 0 '' sh -c 'cp good.log twin.log && aprsbook convert log good.log >> twin.log'
complains 0 '' sh -c 'cat good.log | aprsbook convert log | cat >> hard.log'
cp good.log io.log
mkfifo pipe
exec 3<> pipe
cat bad.log >&3
complains 1 'aprsbook: pipe: line 3: Hex' sh -c 'aprsbook check pipe >&3'
exec 3>&-

# ---- an empty file with the name of a book ----

: > gone.book
: > gone.log
ln -s gone.book gone
note='aprsbook: gone.book: is empty'
complains 0 "$note" aprsbook merge good.log gone.book
cmp -s written good.book || fail 'an empty input is no empty log'
complains 0 "$note" aprsbook merge gone.book good.book gone.log gone
complains 0 "$note
$note" aprsbook merge gone.book gone.book
complains 0 "$note" aprsbook show gone.book good.log
complains 0 'aprsbook-history: gone.book: is empty' aprsbook-history gone.book good.log
complains 0 'aprsbook-table: gone.book: is empty' aprsbook-table good.book gone.book
complains 1 "$note
aprsbook: bad.log: line 3: Hex" aprsbook merge gone.book bad.log
# not of one input, which may be meant so, nor of a book or a pipe
complains 0 '' aprsbook merge gone.book
complains 0 '' aprsbook merge good.book none.book
mkfifo pipe.book
: > pipe.book &
complains 0 '' aprsbook merge good.log pipe.book
wait
complains 0 '' sh -c 'aprsbook merge good.log gone.book 2>&-'
cmp -s written good.book || fail 'without standard error a note stops a run'

# a KISS stream of more than 1 GiB has no lines
complains 1 'aprsbook: standard input: line 0: TooLong' sh -c 'head -c 1073741825 /dev/zero |
    aprsbook convert capture --receiver RX1 --moment 2024-05-01T12:00:00Z'
writes_nothing

# ---- words ----

options='aprsbook: bad capture options'
complains 2 "$options" aprsbook convert capture good.log
complains 2 "$options" aprsbook convert capture --receiver RX1 good.log
complains 2 "$options" aprsbook convert capture --receiver RX1 --moment noon good.log
complains 2 "$options" aprsbook convert capture --receiver R.1 --moment 2024-05-01T12:00:00Z good.log
complains 2 "$options" aprsbook convert text --receiver RX1 good.log
writes_nothing
not_text=$(printf 'b\377.log')
utf8='error: invalid UTF-8 was detected in one or more arguments'
complains 2 "$utf8" aprsbook check "$not_text"
complains 2 "$utf8" aprsbook-history "$not_text"
for words in '--gap 0' '--gap 3601' '--gap x' '--other'; do
    # shellcheck disable=SC2086
    for program in 'aprsbook merge' aprsbook-history; do
        ended=0
        $program $words good.log > written 2> said || ended=$?
        [ $ended = 2 ] || fail "$program $words ended with $ended"
        grep -q '^error: ' said || fail "$program $words says: $(cat said)"
        writes_nothing
    done
done

# ---- the output ----

complains 3 'aprsbook: cannot write' sh -c 'aprsbook merge good.log >&-'
complains 3 'aprsbook-history: cannot write' sh -c "aprsbook-history good.log >&-"
complains 3 'aprsbook-table: cannot write' sh -c "aprsbook-table good.log >&-"
complains 3 'aprsbook-history: cannot write' sh -c "aprsbook-history --help >&-"
complains 3 'aprsbook-table: cannot write' sh -c "aprsbook-table --help >&-"
complains 3 'aprsbook-history: cannot write' sh -c "aprsbook-history --version >&-"
complains 3 'aprsbook-table: cannot write' sh -c "aprsbook-table --version >&-"
# a fault of the input comes before that of the output
complains 1 'aprsbook: bad.log: line 3: Hex' sh -c 'aprsbook check bad.log >&-'
complains 1 'aprsbook: bad.log: line 3: Hex' sh -c 'aprsbook convert text bad.log >&-'
if [ -c /dev/full ]; then
    complains 3 'aprsbook-history: cannot write' sh -c "aprsbook-history good.log > /dev/full"
    complains 3 'aprsbook-table: cannot write' sh -c "aprsbook-table good.log > /dev/full"
    complains 1 'aprsbook: bad.log: line 3: Hex' sh -c 'aprsbook check bad.log > /dev/full'
fi
# standard error may be closed: the status says it
complains 1 '' sh -c 'aprsbook check bad.log 2>&-'

# ---- memory ----

awk 'BEGIN {
    for (i = 0; i < 200000; i++)
        printf "2024-05-01T%02d:%02d:%02dZ RX1 c00082a0a4a64040e09c60868298986f03f03e%08xc0\n", \
            i / 3600 % 24, i / 60 % 60, i % 60, i
}' > large.log
# where a shell has no ulimit -v, or qemu itself needs more, this is left out
if sh -c 'ulimit -v 20000 && aprsbook check good.log; exit $?' > written 2>&1; then
    for command in merge show 'widen 60'; do
        complains 4 'aprsbook: out of memory' sh -c "ulimit -v 20000; aprsbook $command large.log"
        writes_nothing
    done
    complains 4 'aprsbook-history: out of memory' sh -c "ulimit -v 20000; aprsbook-history large.log"
    complains 4 'aprsbook-table: out of memory' sh -c "ulimit -v 20000; aprsbook-table large.log"
    writes_nothing
else
    echo 'left out: memory (needs ulimit -v, and a program that runs without qemu)'
fi
echo 'complaints and exit statuses are what they have to be'
