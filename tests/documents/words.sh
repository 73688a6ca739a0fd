#!/bin/sh
# Checks that the cookbook's table "When it says" has each message and each cause of an error, and,
# both ways, that the manual pages name the words that the programs have: their commands, forms,
# kinds of reports, lines of a listing and of a history, tables and their columns, states, exit
# statuses and messages, the causes of errors, and the reasons for which a line is passed over. They
# are read from the sources. The options of pages and completions are made of one table, which is
# compared with the sources too. Needs a POSIX system and Python 3; where mandoc, bash, zsh or fish
# is there, it also looks at its file.
set -eu
export LC_ALL=C
cd "$(dirname "$0")/../.."
scratch=$(mktemp -d)
trap 'rm -rf "$scratch"' EXIT
mkdir "$scratch/program" "$scratch/page"
failed=0
fail() {
    echo "tests/documents/words.sh: $*" >&2
    failed=1
}

# ---- the program: a file of each kind of words ----

# calls FILE NAME: the texts that calls are given; arms FILE ITEM: those of the arms of a match
calls() { build/rattle_text.py --calls "crates/$1" "$2"; }
arms() { build/rattle_text.py --arms "crates/$1" "$2"; }
# clap adds help to the commands, and help and the version to the options
arguments=aprs_arguments/src/arguments.rt
{
    calls $arguments '\w*[cC]ommand(?:::new)?' | sed '/^aprsbook$/d'
    echo help
} > "$scratch/program/commands"
calls $arguments PossibleValue::new > "$scratch/program/forms"
arms aprs_report/src/report.rt 'impl<' > "$scratch/program/kinds"
heard=aprs_lists/src/listing/heard_line.rt
{
    calls aprs_lists/src/listing.rt 'put_\w+'
    calls $heard 'put_\w+'
} > "$scratch/program/listed"
sed -n 's/.*if live { b"\([a-z]*\)" } else { b"\([a-z]*\)" }.*/\1 \2/p' crates/aprs_report/src/kinds/object.rt |
    tr ' ' '\n' > "$scratch/program/object_states"
arms aprs_summary/src/lists/message.rt 'impl MessageState {' > "$scratch/program/message_states"
arms aprs_log/src/fault.rt 'impl Reason {' > "$scratch/program/reasons"
# a failed allocation is reported by a message of its own
arms aprs_log/src/fault.rt 'impl LogCause {' | sed '/^Memory$/d' > "$scratch/program/log_causes"
arms aprs_bookfile/src/fault.rt 'impl BookCause {' | sed '/^Memory$/d' \
    > "$scratch/program/book_causes"
{
    echo 0
    sed -n 's/^\(pub \)*const [A-Z_]*: u8 = \([0-9]*\);/\2/p' \
        crates/aprs_host/src/complaint.rt
} > "$scratch/program/statuses"
# the words of a complaint, as their definition has them, but for those that clap would say too
awk '/^words_of / && !/UTF-8/ && match($0, /codes ".*"$/) {
    print "aprsbook: " ($0 ~ /\.now/ ? "PLACE" : "") substr($0, RSTART + 7, RLENGTH - 8)
}' crates/aprs_host/specs/Complaint.antt > "$scratch/program/messages"
echo 'aprsbook: PLACE: line N: CAUSE' >> "$scratch/program/messages"
# and those of a note
calls aprs_host/src/note.rt put_two | sed -n 's/^\(: is [a-z]*\).*/aprsbook: PLACE\1/p' \
    >> "$scratch/program/messages"
# those of the program of histories, which has no capture and widens nothing
calls aprs_table/src/history.rt 'put_[a-z]*_line' > "$scratch/program/history_lines"
# the tables, and the columns as their definition has them
sed -n 's/.*if name == b"\([a-z]*\)".*/\1/p' crates/aprs_arguments/src/jobs.rt \
    > "$scratch/program/tables"
# columns FILE NAME: those of a definition
columns() {
    awk -v name="$2" '$1 == name && $2 == "=" { inside = 1 } $0 == "" { inside = 0 } inside' \
        "crates/$1" | grep -o 'codes "[a-z0-9_]*"' | sed 's/codes "\(.*\)"/\1/'
}
columns aprs_table/specs/Table.antt columns > "$scratch/program/row_columns"
for file in Told Stations Things; do
    case $file in
        Told) name=message ;;
        *) name=$(echo ${file%s} | tr ST st) ;;
    esac
    columns aprs_lists/specs/$file.antt "${name}_columns" > "$scratch/program/${name}_columns"
done
for name in history table; do
    sed "/: narrower\$/d; /capture/d; s/^aprsbook/aprsbook-$name/" "$scratch/program/messages" \
        > "$scratch/program/${name}_messages"
    cp "$scratch/program/statuses" "$scratch/program/${name}_statuses"
done

# ---- the manual pages: the tags below each heading ----

page=man/aprsbook.1
# tags HEADING: as they are read
tags() {
    awk -v heading="$1" '
        /^\.S[HS] / {
            name = $0
            sub(/^\.S[HS] /, "", name)
            gsub(/"/, "", name)
            open = name == heading
        }
        /^\.PD/ { next }
        tag {
            sub(/^\.B[RI]? /, "")
            gsub(/\\f[BIR]/, "")
            gsub(/\\-/, "-")
            gsub(/"/, "")
            print
        }
        { tag = open && /^\.T[PQ]/ }
    ' $page
}
# first_words HEADING: of each tag
first_words() { tags "$1" | awk '{ print $1 }'; }
first_words COMMANDS > "$scratch/page/commands"
first_words FORMS > "$scratch/page/forms"
first_words KINDS > "$scratch/page/kinds"
first_words 'Lines of a listing' > "$scratch/page/listed"
first_words 'States of an object or an item' > "$scratch/page/object_states"
first_words 'States of a message' > "$scratch/page/message_states"
first_words 'Why a line is passed over' > "$scratch/page/reasons"
first_words 'Causes in a log' > "$scratch/page/log_causes"
first_words 'Causes in a book' > "$scratch/page/book_causes"
first_words 'EXIT STATUS' > "$scratch/page/statuses"
tags DIAGNOSTICS > "$scratch/page/messages"
page=man/aprsbook-history.1
first_words 'Lines of a history' > "$scratch/page/history_lines"
page=man/aprsbook-table.1
first_words TABLES > "$scratch/page/tables"
for name in row message station thing; do
    first_words "Columns of ${name}s" > "$scratch/page/${name}_columns"
done
for name in history table; do
    page=man/aprsbook-$name.1
    first_words 'EXIT STATUS' > "$scratch/page/${name}_statuses"
    tags DIAGNOSTICS > "$scratch/page/${name}_messages"
done

# ---- both ways ----

for list in "$scratch"/*/*; do sort -u -o "$list" "$list"; done
# same KIND PLACE: the words of the program, of which there are some, are those of the place
same() {
    program=$scratch/program/$1 place=$scratch/$2/$1
    [ -s "$program" ] || fail "found no $1 in the sources"
    if ! cmp -s "$program" "$place"; then
        fail "$1 differ"
        grep -vxF -f "$place" "$program" | sed "s/^/    $2 lacks: /" >&2
        grep -vxF -f "$program" "$place" | sed "s/^/    only $2 has: /" >&2
    fi
}
for kind in commands forms kinds listed object_states message_states reasons log_causes \
    book_causes statuses messages history_lines history_statuses history_messages \
    tables row_columns message_columns station_columns thing_columns \
    table_statuses table_messages; do
    same $kind page
done
build/options.py --check > "$scratch/said" || fail "options: $(cat "$scratch/said")"

# ---- the cookbook's table ----

sed -n '/^## When it says/,/^## /s/^| \(.*\) | .*/\1/p' docs/cookbook.md > "$scratch/table"
# messages without their place and line, and causes
sed 's/^aprsbook: //; s/^PLACE: //; /^line N/d' "$scratch/program/messages" |
    cat - "$scratch/program/log_causes" "$scratch/program/book_causes" | while read -r words; do
    grep -qwF -- "$words" "$scratch/table" || echo "$words"
done > "$scratch/lacks"
[ ! -s "$scratch/lacks" ] || fail "the cookbook's table lacks: $(cat "$scratch/lacks")"

# ---- the documents: all of them can be read, and the first at once ----

[ "$(cat README.md CONTRIBUTING.md CHANGELOG.md docs/*.md | wc -w)" -le 29000 ] ||
    fail 'the documents have more than 29,000 words'
[ "$(wc -l < README.md)" -le 120 ] || fail 'README.md has more than 120 lines'

# ---- each file by its own reader ----

# read_by TOOL WORD..: the tool, where it is there, has nothing to say of the file
read_by() {
    command -v "$1" > /dev/null || return 0
    "$@" > "$scratch/said" 2>&1 || fail "$* ended with $?"
    [ ! -s "$scratch/said" ] || fail "$* says: $(cat "$scratch/said")"
}
for page in man/*.1; do
    name=$(basename "$page" .1)
    read_by mandoc -T lint "$page"
    read_by bash -n "completions/$name.bash"
    read_by zsh -n "completions/_$name"
    read_by fish -n "completions/$name.fish"
done

if [ $failed = 0 ]; then
    echo "the manual pages and the completions name the programs' words"
fi
exit $failed
