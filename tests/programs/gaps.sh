#!/bin/sh
# Tries the gaps of books with the program: examples/slow.log has one frame three times, 45 seconds apart.
# Needs a POSIX system alone.
# usage: tests/programs/gaps.sh PROGRAM
. "$(dirname "$0")/program.sh"
log=$repository/examples/slow.log
cd "$scratch"
# is FILE: the file is the text on standard input
is() { cmp "$1" - || fail "$1 is another"; }
# refused STATUS WORDS ARGUMENT..: the run ends with the status, says the words and writes nothing
refused() {
    wanted=$1 words=$2 status=0
    shift 2
    "$program" "$@" < /dev/null > out 2> said || status=$?
    [ "$status" = "$wanted" ] || fail "$* ended with $status"
    [ ! -s out ] || fail "$* wrote something"
    [ -z "$words" ] || [ "$(cat said)" = "aprsbook: $words" ] || fail "$* says: $(cat said)"
}

"$program" merge "$log" > 30.book
frame=82a0a4a64040e09c60868298986f03f03e4869
# rows GAP: the book of the three rows
rows() {
    cat << EOF
APRSBOOK 3 $1
T 2024-05-01T12:00:00.000Z 2024-05-01T12:00:00.000Z RX1 RX1 $frame
T 2024-05-01T12:00:45.000Z 2024-05-01T12:00:45.000Z RX2 RX2 $frame
T 2024-05-01T12:01:30.000Z 2024-05-01T12:01:30.000Z RX1 RX1 $frame
END 3
EOF
}
rows 30 | is 30.book
"$program" widen 44 30.book > 44.book
rows 44 | is 44.book
"$program" widen 45 30.book > 45.book
is 45.book << EOF
APRSBOOK 3 45
T 2024-05-01T12:00:00.000Z 2024-05-01T12:01:30.000Z RX1,RX2 RX1 $frame
END 1
EOF

# in steps, at once, of the log itself, and of what comes on standard input
"$program" widen 45 44.book | is 45.book
"$program" widen 45 < 30.book | is 45.book
"$program" widen 30 30.book | is 30.book
"$program" merge --gap 45 "$log" | is 45.book
"$program" merge --gap 45 45.book "$log" 45.book | is 45.book
"$program" show --gap 45 "$log" > listing
"$program" show --gap 45 45.book | is listing
[ "$("$program" show "$log" | head -n 1)" = 'station N0CALL-7 3' ] || fail 'not three transmissions'
[ "$(head -n 1 listing)" = 'station N0CALL-7 1' ] || fail 'not one transmission'

# an older program's books have a gap of 30 seconds
for version in 1 2; do
    sed "1s/.*/APRSBOOK $version/" 30.book > "$version.book"
done
sed 's/\.000Z/Z/g' 1.book > old && mv old 1.book
for version in 1 2; do
    "$program" merge "$version.book" | is 30.book
    "$program" widen 45 "$version.book" | is 45.book
    refused 1 "$version.book: other gap" merge --gap 45 "$version.book"
done

refused 1 '45.book: other gap' merge 45.book
refused 1 '30.book: other gap' merge --gap 45 45.book 30.book
refused 1 '45.book: other gap' show 30.book 45.book
refused 1 '45.book: narrower' widen 44 45.book
for wrong in 0 3601 x 1.5; do
    refused 2 '' merge --gap "$wrong" "$log"
    refused 2 '' show --gap "$wrong" "$log"
    refused 2 '' widen "$wrong" "$log"
done
refused 2 '' widen

# the least and the greatest gap, and no receptions
"$program" merge --gap 1 "$log" > 1.book
rows 1 | is 1.book
"$program" widen 3600 1.book > 3600.book
[ "$(head -n 1 3600.book)" = 'APRSBOOK 3 3600' ] || fail 'not a gap of 3,600 seconds'
printf 'APRSBOOK 3 30\nEND 0\n' > empty.book
"$program" merge < /dev/null | is empty.book
for header in 'APRSBOOK 3' 'APRSBOOK 3 ' 'APRSBOOK 3 0' 'APRSBOOK 3 030' 'APRSBOOK 3 3601' 'APRSBOOK 3 +30' \
    'APRSBOOK 3 30 ' 'APRSBOOK 4 30'; do
    printf '%s\nEND 0\n' "$header" > wrong.book
    refused 1 'wrong.book: line 1: Header' merge wrong.book
done
echo "gaps are as they should be"
