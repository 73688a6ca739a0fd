#!/bin/sh
# Checks that what the documents name in code spans is there. A span of one word of letters, digits,
# _, ::, dots and slashes is a name, unless it begins with a digit or has no small letter and no _;
# any other, such as a command with its arguments or a text of a format, is none. Words of other
# tools and of standards are listed below.
#
# In `x.y`, y is a clause of the function x, a field of the record x, or a word of the module x; in
# `x::y`, y belongs to the type x. `.y` goes on with the x before it in its line. A function without
# a clause, in the last column of a table in docs/promises.md and out of brackets, has a clause
# without a name. A file is named with as much of its path as is wanted. Needs a POSIX system and
# Python 3.
set -eu
export LC_ALL=C
cd "$(dirname "$0")/../.."
scratch=$(mktemp -d)
trap 'rm -rf "$scratch"' EXIT

# what is no name of this repository
cat > "$scratch/others" << 'end'
tools: awk callgrind mypy cat ctypes decode_aprs direwolf gcc gen_packets git grep nc nice od ogr2ogr python3 rsync
shellcheck sort stdbuf stdin stdout tshark valgrind zcat
Rattle: rattle rt contents remaining ensures requires proves file old std Proof.decls out/incremental x.old x.new x.now x.entry
std: Box BufWriter Copy Drop Ok Option PartialEq Result u64::MAX
standards: DDMM.hh DDDMM.hh FFF.FFFMHz atest f0 rust loop use
commands of make: arm64 deb pyz install release static tarball try
processors and users of Debian: amd64 aprs
names of Mic-E messages: committed emergency priority returning unknown
fields of weather: h00
states of messages and objects: acknowledged rejected unanswered unnumbered tracks
columns and words of the table: altitude_m finer_latitude finer_longitude fix frequency_khz gate gust_mph
h00 longitude no offset_khz phg_direction phg_gain_db phg_height_ft phg_watts pressure_tenths range_miles
speed_knots telemetry_sequence temperature_f tone unknown wind_mph yes
of examples: gate.token https://localhost:8443/ net.book certificate.pem key.pem localhost subjectAltName in/ logs/DAY/HILL.log logs/DAY/RECEIVER.log millis.log numerator/denominator own.book page
slow.log time RX1.own ./rows
what is made: out out/ out/release aprsbook.html aprsbook.wasm out/aprsbook.html out/aprsbook.wasm aprsbook.mjs out/aprsbook.mjs crates/aprsbook/out/aprsbook
share/aprsbook libaprsbook.a
libaprsbook.so __heap_base
how names are written: function.clause Spec Spec.x lines.invariant.reads
end

# ---- what is there: `x`, `x::y`, `x.y`, and `x.` where a function has a clause without a name ----

build/rattle_text.py --names > "$scratch/there"
# columns of tables, and words in them
grep -oh 'codes "[a-z0-9_]*"' crates/aprs_table/specs/*.antt crates/aprs_lists/specs/*.antt |
    sed 's/codes "\(.*\)"/\1/' >> "$scratch/there"
# files and folders, each with as much of its path as is wanted, and definitions also without .antt
find . -name .git -prune -o -name out -prune -o -print | awk '
    {
        sub(/^\.\//, "")
        short = $0
        sub(/\.antt$/, "", short)
        for (;;) {
            print
            print short
            print $0 "/"
            if (!sub(/^[^\/]*\//, "")) break
            sub(/^[^\/]*\//, "", short)
        }
    }
' >> "$scratch/there"

# ---- what the documents name ----

set -- README.md CONTRIBUTING.md docs/*.md
awk -v failed=0 '
    FILENAME == ARGV[1] { there[$0]; next }
    FILENAME == ARGV[2] { for (i = 1; i <= NF; i++) there[$i]; next }
    FNR == 1 { open = 0 }
    /^```/ { open = !open; next }
    open { next }
    {
        n = split($0, part, "`")
        before = ""
        bars = inside = 0
        most = gsub(/\|/, "|")
        for (i = 1; i <= n; i++) {
            name = part[i]
            if (i % 2) {
                bars += gsub(/\|/, "", name)
                inside += gsub(/\(/, "", name) - gsub(/\)/, "", name)
                continue
            }
            if (name !~ /^[A-Za-z_.][A-Za-z0-9_:.\/]*[A-Za-z0-9_\/]$/ || name !~ /[a-z_]/) continue
            if (name ~ /^\.[a-z_]+$/) name = before name
            else { before = name; sub(/\.[a-z_]*$/, "", before) }
            # a function and no clause
            wanted = name
            if (FILENAME ~ /promises/ && bars == most - 1 && !inside && name ~ /(^|::)[a-z_]+$/)
                wanted = name "."
            if (wanted in there) continue
            printf "tests/documents/names.sh: %s, line %d: there is no %s\n", FILENAME, FNR, \
                wanted == name ? name : "clause without a name of " name > "/dev/stderr"
            failed = 1
        }
    }
    END { exit failed }
' "$scratch/there" "$scratch/others" "$@"
echo 'what the documents name is there'
