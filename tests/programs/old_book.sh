#!/bin/sh
# Merges examples/old-book.txt, a club's book file of version 1 as the program of before wrote it, and
# compares what is written with the same file, but for its header and the milliseconds of both moments of
# each row; merged again, it has to be the same bytes. Needs a POSIX system alone.
# usage: tests/programs/old_book.sh PROGRAM
. "$(dirname "$0")/program.sh"
cd "$repository"
old=examples/old-book.txt
[ "$(head -n 1 $old)" = 'APRSBOOK 1' ] || fail "$old isn't of version 1"
sed -e '1s/.*/APRSBOOK 3 30/' -e 's/^T \([^ ]*\)Z \([^ ]*\)Z /T \1.000Z \2.000Z /' $old > "$scratch/expected"
"$program" merge $old > "$scratch/merged" || fail "the old book is refused"
cmp "$scratch/merged" "$scratch/expected" || fail "the old book isn't merged to the same book"
"$program" merge "$scratch/merged" | cmp - "$scratch/merged" || fail "merged again, the book is another"
"$program" merge $old "$scratch/merged" $old | cmp - "$scratch/merged" ||
    fail "the old book and the new one aren't merged to the new one"
"$program" show $old > "$scratch/old.txt"
"$program" show "$scratch/merged" | cmp - "$scratch/old.txt" || fail "both books aren't listed alike"
echo "the old club's book is merged to the same book"
