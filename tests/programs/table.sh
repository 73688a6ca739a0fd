#!/bin/sh
# Tries the tables of the example logs: the rows of the README's log, worked out by hand; as many fields
# in each line as there are columns; a line for each row of the book, which begins as the columns say
# (tests/programs/history.sh does so with the history); the last of the rows in the table of stations and in the
# listing; the places that Dire Wolf reads; the same bytes of the same receptions; and the types of the
# columns in a database. Needs a POSIX system, Dire Wolf's decode_aprs and sqlite3.
# usage: tests/programs/table.sh PROGRAM HISTORY TABLE
. "$(dirname "$0")/program.sh"
[ -n "$table" ] || fail "there is no program of tables"
cd "$repository/examples"
tab=$(printf '\t')
# wanted WHAT: the text on standard input is that of the file wanted
wanted() {
    cat > "$scratch/given"
    diff "$scratch/wanted" "$scratch/given" >&2 || fail "$1 differ"
}

# ---- the rows of the sample ----

aprsbook-table sample.log > "$scratch/sample"
cat > "$scratch/wanted" << 'end'
message 2024-05-01T12:02:10.000Z 2024-05-01T12:02:10.000Z RX2 RX2 N0CALL-7 APRS - WU2Z - 003 Testing
status 2024-05-01T12:00:00.000Z 2024-05-01T12:00:02.000Z RX1,RX2 RX2 N0CALL-7 APRS WIDE1-1* - - - Hi
object 2024-05-01T12:01:00.000Z 2024-05-01T12:01:00.000Z RX1 RX1 N0CALL-8 APRS WIDE1-1*,WIDE2-1 LEADER live - -
position 2024-05-01T12:00:31.000Z 2024-05-01T12:00:31.000Z RX1 RX1 WU2Z APRS - - - - Club house
ack 2024-05-01T12:02:12.000Z 2024-05-01T12:02:12.000Z RX1 RX1 WU2Z APRS - N0CALL-7 - 003 -
end
picks kind first last receivers receiver source destination via name state id text \
    < "$scratch/sample" | wanted 'the rows of the sample'
cat > "$scratch/wanted" << 'end'
message - - - - - - -
status - - - - - - -
object 49.0583333 -72.0291667 0 no /> 092345z -
position 49.0583333 -72.0291667 0 no /- - -
ack - - - - - - -
end
picks kind latitude longitude ambiguity compressed symbol stamp gate < "$scratch/sample" |
    wanted 'the places of the sample'

# ---- the other tables of the sample ----

cat > "$scratch/wanted" << 'end'
N0CALL-7 WU2Z 003 Testing acknowledged 2024-05-01T12:02:10.000Z 2024-05-01T12:02:10.000Z 2024-05-01T12:02:12.000Z WU2Z - -
end
aprsbook-table messages sample.log | tee "$scratch/messages" |
    picks source addressee id text state first last answer answer_source reply_ack reply_answer |
    wanted 'the messages of the sample'
cat > "$scratch/wanted" << 'end'
N0CALL-7 2 - - - - - - - - - 2024-05-01T12:00:02.000Z RX2 - Hi 2024-05-01T12:02:10.000Z 0
N0CALL-8 1 - - - - - - - - - - - - - 2024-05-01T12:01:00.000Z 0
WU2Z 2 2024-05-01T12:00:31.000Z RX1 - 49.0583333 -72.0291667 0 no /- Club house - - - - 2024-05-01T12:02:12.000Z 0
end
aprsbook-table stations sample.log | tee "$scratch/stations" |
    picks source transmissions last receiver stamp latitude longitude ambiguity compressed symbol \
        text status_last status_receiver status_stamp status_text heard passed |
    wanted 'the stations of the sample'
cat > "$scratch/wanted" << 'end'
object LEADER live 2024-05-01T12:01:00.000Z RX1 N0CALL-8 092345z 49.0583333 -72.0291667 0 no /> -
end
aprsbook-table things sample.log | tee "$scratch/things" |
    picks kind name state last receiver source stamp latitude longitude ambiguity compressed symbol \
        text | wanted 'the things of the sample'

# ---- the messages of random conversations ----

if has 'random messages' python3; then
    python3 "$repository/tests/programs/replies.py" "$table" || fail 'random messages differ'
    python3 "$repository/tests/programs/net_messages.py" "$table" || fail 'the messages of random nets differ'
    python3 "$repository/tests/programs/activity.py" "$table" || fail 'the activity of stations differs'
fi

# ---- the words ----

aprsbook-table rows sample.log | cmp - "$scratch/sample" || fail 'the rows by name are others'
cp sample.log "$scratch/rows"
(cd "$scratch" && aprsbook-table ./rows) | cmp - "$scratch/sample" ||
    fail 'a file with the name of a table is none'

# ---- as many fields as columns, and a line for each row of the book ----

# whole TABLE: each line has as many fields as the first, and the last one ends
whole() {
    awk -F '\t' 'NR == 1 { n = NF } NF != n { print FILENAME ": line " NR ": " NF " fields"; bad = 1 }
        END { exit bad }' "$1" >&2 || fail "a line of $1 has other fields than there are columns"
    [ "$(tail -c 1 "$1" | od -An -tx1 | tr -d ' ')" = 0a ] || fail "the last line of $1 has no end"
}
for it in sample messages stations things; do whole "$scratch/$it"; done
for gap in 1 30 600; do
    aprsbook-table --gap $gap evening/*.log > "$scratch/evening"
    whole "$scratch/evening"
    aprsbook merge --gap $gap evening/*.log | sed '1d; $d' > "$scratch/rows_of_book"
    picks first last receivers receiver < "$scratch/evening" | sed 's/.*/T & /' |
        begin "the rows of the evening's book with a gap of $gap" "$scratch/rows_of_book"
done
aprsbook-table < /dev/null > "$scratch/none"
head -n 1 "$scratch/evening" | cmp - "$scratch/none" || fail 'no input has more than columns'

# ---- the stations have the last of the rows, and the listing what the stations have ----

aprsbook-table evening/*.log > "$scratch/evening"
aprsbook-table stations evening/*.log > "$scratch/stations"
# last KIND: the station, the moment and the receiver of its last row of this kind
last() {
    awk -F '\t' -v kind="$1" '
        NR == 1 { for (i = 1; i <= NF; i++) at[$i] = i; next }
        $at["kind"] != kind { next }
        {
            heard = $at["last"] " " $at["receiver"]
            if (heard > last[$at["source"]]) last[$at["source"]] = heard
        }
        END { for (it in last) print it, last[it] }' "$scratch/evening" | sort
}
last position > "$scratch/wanted"
picks source last receiver < "$scratch/stations" | grep -v ' - -$' | sort |
    wanted 'the last positions of the stations'
last status > "$scratch/wanted"
picks source status_last status_receiver < "$scratch/stations" | grep -v ' - -$' | sort |
    wanted 'the last statuses of the stations'
aprsbook show evening/*.log | sed '/^object /,$d; /^item /,$d; /^message /,$d' > "$scratch/listed"
awk -F '\t' '
    NR == 1 { for (i = 1; i <= NF; i++) at[$i] = i; next }
    { print "station " $at["source"] " " $at["transmissions"] }
    $at["last"] != "" { print "position " $at["last"] " " $at["receiver"] " " }
    $at["status_last"] != "" { print "status " $at["status_last"] " " $at["status_receiver"] " " }
    ' "$scratch/stations" | begin 'the stations of the listing' "$scratch/listed"

# ---- each place, and what has none, as Dire Wolf reads it ----

if has "Dire Wolf's places" decode_aprs python3; then
    aprsbook merge evening/*.log | aprs-net import book | aprsbook convert text |
        sed 's/\\x\(..\)/<0x\1>/g' | while IFS= read -r text; do
        place=$(printf '%s\n' "$text" | decode_aprs | grep -ao '[NS] [0-9]* [0-9.]*, [EW] [0-9]* [0-9.]*' || true)
        echo "${place:-none}"
    done > "$scratch/wolf"
    # Dire Wolf prints degrees and minutes with four decimals: N 54 33.2191, W 003 33.5489
    awk -F '\t' -v file="$scratch/wolf" '
        function apart(degrees, whole, minutes, minus,   way) {
            way = 60 * degrees - (minus ? -1 : 1) * (60 * whole + minutes)
            return way > 0.0001 || way < -0.0001
        }
        NR == 1 { for (i = 1; i <= NF; i++) at[$i] = i; next }
        {
            latitude = $at["latitude"]
            if ((getline line < file) < 1) exit bad = 1
            if (line == "none" || latitude == "") {
                if (line != "none" || latitude != "") bad = NR
                next
            }
            split(line, part, /[ ,]+/)
            if (apart(latitude, part[2], part[3], part[1] == "S")) bad = NR
            if (apart($at["longitude"], part[5], part[6], part[4] == "W")) bad = NR
        }
        END { if (bad) print "row " bad - 1; exit bad || (getline line < file) > 0 }
        ' "$scratch/evening" >&2 || fail 'Dire Wolf reads other places'
fi

# ---- the same receptions, the same bytes ----

# alike WHAT ARGUMENT..: the table of these inputs is that of the evening
alike() {
    what=$1
    shift
    aprsbook-table "$@" | cmp -s - "$scratch/evening" || fail "the table differs: $what"
}
cd evening
backwards=
for log in *.log; do
    backwards="$log $backwards"
    aprsbook merge "$log" > "$scratch/$log.book"
done
# shellcheck disable=SC2086 # one name a word
alike 'inputs in another order' $backwards
alike 'inputs that are given twice' ./*.log ./*.log
alike 'book files' "$scratch"/*.log.book
aprsbook merge ./*.log > "$scratch/all.book"
alike 'a book and its logs' "$scratch/all.book" ./*.log
alike 'its name after an option' --gap 30 rows "$scratch/all.book"
cat ./*.log | aprsbook-table | cmp -s - "$scratch/evening" || fail 'standard input'

# ---- a database of it ----

if has 'a table in a database' sqlite3; then
    sqlite3 "$scratch/net.db" '.mode ascii' '.separator "\t" "\n"' ".import $scratch/evening rows" \
        'select count(*) from rows' \
        'select count(*) from rows where kind = "position" and latitude + 0.0 <> 0.0' |
        tr -s '\n\t ' ' ' > "$scratch/count"
    [ "$(cat "$scratch/count")" = "$(($(wc -l < "$scratch/evening") - 1)) $(
        grep -c "^position$tab" "$scratch/evening") " ] || fail 'a database has other rows'
fi
echo 'a table has a line for each row, with as many fields as columns, whatever the inputs are'
