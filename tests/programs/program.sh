#!/bin/sh
# Read by the tests whose first argument is the program, and the second and the third, where a test has
# them, those of histories and of tables: finds them, makes a folder that is thrown away, and puts the
# programs, aprs-net and the recipes into PATH. Needs a POSIX system and mktemp.
set -eu
export LC_ALL=C
# a make that a test runs is none of the make that runs the test
unset MAKEFLAGS MFLAGS MAKELEVEL
this_test=$(cd "$(dirname "$0")" && pwd)/${0##*/}
fail() {
    echo "tests/${this_test##*/tests/}: $*" >&2
    exit 1
}
# path_of PROGRAM: its whole path
path_of() {
    case $1 in
    /*) path=$1 ;;
    *) path=$PWD/$1 ;;
    esac
    if [ ! -f "$path" ] || [ ! -x "$path" ]; then fail "there is no program '$1'"; fi
    echo "$path"
}
program=$(path_of "${1-}")
history=
if [ $# -gt 1 ]; then history=$(path_of "$2"); fi
table=
if [ $# -gt 2 ]; then table=$(path_of "$3"); fi
repository=${this_test%/tests/*}
scratch=$(mktemp -d)
trap 'rm -rf "$scratch"' EXIT
mkdir "$scratch/bin"
ln -s "$program" "$scratch/bin/aprsbook"
# the other programs lie beside it
for it in aprsbook-history aprsbook-table aprsbook-fold; do
    if [ -x "${program%/*}/$it" ]; then ln -sf "${program%/*}/$it" "$scratch/bin/$it"; fi
done
if [ -n "$history" ]; then ln -sf "$history" "$scratch/bin/aprsbook-history"; fi
if [ -n "$table" ]; then ln -sf "$table" "$scratch/bin/aprsbook-table"; fi
PATH=$scratch/bin:$repository/tools/bin:$repository/examples/recipes:$PATH
export PATH PYTHONDONTWRITEBYTECODE=1
# same FILE FILE: they have the same bytes
same() { cmp "$1" "$2" || fail "$1 isn't $2"; }
# says WORDS [FILE]: the last run said so on standard error, or a file does
says() { grep -q -- "$1" "${2-said}" || fail "${2-it} doesn't say '$1': $(head -c 2000 "${2-said}")"; }
# silent: the last run said nothing
silent() { [ ! -s said ] || fail "it says: $(cat said)"; }
# fails COMMAND..: it ends with a fault; refused WORDS COMMAND..: and says so
fails() { if "$@" > out 2> said; then fail "$* isn't refused"; fi; }
refused() {
    words=$1
    shift
    fails "$@"
    says "$words"
}
# makes BOOK FILE COMMAND..: it ends well, and the file is this book then
makes() {
    right=$1 target=$2
    shift 2
    "$@" 2> said || fail "$* ended with $?: $(cat said)"
    same "$right" "$target"
}
# keeps FOLDER CHECK..: it holds, and the folder has what it had
keeps() {
    kept=$1
    rm -rf before
    cp -R "$1" before
    shift
    "$@"
    diff -r before "$kept" >&2 || fail "$kept has changed after: $*"
}
# has WHAT TOOL..: the tools are there; where they aren't, it is said what is left out
has() {
    what=$1
    shift
    for tool; do
        if ! command -v "$tool" > /dev/null; then
            echo "left out: $what (needs $tool)"
            return 1
        fi
    done
}
# picks NAME..: these columns of a table, with spaces between, and - for a field without a value
picks() {
    awk -F '\t' -v names="$*" '
        BEGIN { n = split(names, wanted, " ") }
        NR == 1 { for (i = 1; i <= NF; i++) at[$i] = i; next }
        {
            for (i = 1; i <= n; i++) {
                if (!(wanted[i] in at)) { print "no column " wanted[i]; exit }
                field = $at[wanted[i]]
                printf "%s%s", field == "" ? "-" : field, i < n ? " " : "\n"
            }
        }'
}
# begin WHAT FILE: its lines, of which there are some, begin as those on standard input, one by one
begin() {
    awk -v file="$2" '
        { if ((getline line < file) < 1 || substr(line, 1, length($0)) != $0) { bad = NR; exit } }
        END { exit bad || NR == 0 || (getline line < file) > 0 }' || fail "$1 differ"
}
