#!/bin/sh
# Tries the history of the example logs: the lines of the README's log, worked out by hand; one line
# for each row, with what the table says of it by its columns; and the same bytes of the same
# receptions. Needs a POSIX system.
# usage: tests/programs/history.sh PROGRAM HISTORY TABLE
. "$(dirname "$0")/program.sh"
[ -n "$history" ] || fail "there is no program of histories"
[ -n "$table" ] || fail "there is no program of tables"
cd "$repository/examples"
cat > "$scratch/wanted" << 'end'
message 2024-05-01T12:02:10.000Z 2024-05-01T12:02:10.000Z RX2 N0CALL-7 - WU2Z 003:Testing
status 2024-05-01T12:00:00.000Z 2024-05-01T12:00:02.000Z RX1,RX2 N0CALL-7 WIDE1-1* -:Hi
object 2024-05-01T12:01:00.000Z 2024-05-01T12:01:00.000Z RX1 N0CALL-8 WIDE1-1*,WIDE2-1 LEADER live 092345z 294350/6000 -432175/6000 0 />:
position 2024-05-01T12:00:31.000Z 2024-05-01T12:00:31.000Z RX1 WU2Z - - 294350/6000 -432175/6000 0 /-:Club house
ack 2024-05-01T12:02:12.000Z 2024-05-01T12:02:12.000Z RX1 WU2Z - N0CALL-7 003
end
aprsbook-history sample.log > "$scratch/history"
diff "$scratch/wanted" "$scratch/history" >&2 || fail 'the history of the sample differs'

# ---- one line for each row, with what the table says of it ----

# lines: of a table of rows, how the lines of its history begin. What only a history says is left out:
# the fractions of a compressed position, the comment of Mic-E, and what a passed frame is like itself
lines() {
    awk -F '\t' '
        function or_none(field) { return field == "" ? "-" : field }
        function spaceless(field) { gsub(/ /, "\\x20", field); return field }
        function fraction(degrees) { return sprintf("%d/6000", degrees * 6000 + (degrees < 0 ? -0.5 : 0.5)) }
        function where(   text) {
            text = or_none(of["stamp"]) " "
            if (of["compressed"] == "yes") return text
            text = text fraction(of["latitude"]) " " fraction(of["longitude"])
            text = text " " of["ambiguity"] " " of["symbol"] ":"
            return of["kind"] == "mic-e" ? text : text of["text"]
        }
        function report(kind) {
            if (kind == "position") return where()
            if (kind == "object" || kind == "item") return spaceless(of["name"]) " " of["state"] " " where()
            if (kind == "status") return or_none(of["stamp"]) ":" of["text"]
            if (kind == "message") return spaceless(of["name"]) " " or_none(of["id"]) ":" of["text"]
            if (kind == "ack" || kind == "rej") return spaceless(of["name"]) " " of["id"]
            if (kind == "mic-e") return of["course"] + 0 " " of["speed_knots"] " " of["says"] " " where()
            return of["destination"] ":" of["text"]
        }
        NR == 1 { for (i = 1; i <= NF; i++) name[i] = $i; next }
        {
            for (i = 1; i <= NF; i++) of[name[i]] = $i
            kind = of["kind"]
            heard = of["first"] " " of["last"] " " of["receivers"]
            if (of["gate"] != "") { print "raw " heard " " of["gate"] " "; next }
            # weather without a position and telemetry are raw to a history
            word = kind == "weather" || kind == "telemetry" ? "raw" : kind
            print word " " heard " " of["source"] " " or_none(of["via"]) " " report(kind)
        }'
}
for gap in 1 30 600; do
    aprsbook-history --gap $gap evening/*.log sample.log slow.log > "$scratch/evening"
    aprsbook-table --gap $gap evening/*.log sample.log slow.log | lines |
        begin "the history under a gap of $gap and what the table says" "$scratch/evening"
done

# ---- the same receptions, the same bytes ----

aprsbook-history evening/*.log > "$scratch/evening"
# alike WHAT ARGUMENT..: the history of these inputs is that of the evening
alike() {
    what=$1
    shift
    aprsbook-history "$@" | cmp -s - "$scratch/evening" || fail "the history differs: $what"
}
cd evening
backwards=
for log in *.log; do
    backwards="$log $backwards"
    aprsbook merge "$log" > "$scratch/$log.book"
done
# shellcheck disable=SC2086 # one name a word
alike 'inputs in another order' $backwards
alike 'inputs that are given twice' ./*.log ./*.log
alike 'book files' "$scratch"/*.log.book
aprsbook merge ./*.log > "$scratch/all.book"
alike 'one book' "$scratch/all.book"
sed '1s/.*/APRSBOOK 2/' "$scratch/all.book" > "$scratch/two.book"
alike 'a book of version 2' "$scratch/two.book"
alike 'a book and its logs' "$scratch/all.book" ./*.log
cat ./*.log | aprsbook-history | cmp -s - "$scratch/evening" || fail 'standard input'
echo 'a history says of each row what the table says, whatever the inputs are called and how they come'
