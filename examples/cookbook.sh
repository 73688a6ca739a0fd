#!/usr/bin/env bash
# Runs the recipes of docs/cookbook.md, the commands in the table of docs/club.md, and then those of
# docs/evening.md, in order, on the logs of examples/evening. It says which it left out because a tool
# isn't there.
# usage: examples/cookbook.sh [--posix] PROGRAM [FOLDER]
#        --posix runs those alone that need no tool beyond a POSIX system, and passes over the others
#        FOLDER, a new one, keeps what they make, and in output/ what they print; without it that is
#        thrown away. What docs/evening.md makes is in evening/ there.
#
# A recipe is a block that begins with ```sh. The words after sh are the tools that it needs beyond
# those of a POSIX system. After ```sh terminal it goes on until its page ends, as in a terminal of its
# own, and after ```sh soon it is tried for a minute until it ends well. A block that begins with
# ```text printed is what the one before it prints, but for how many blanks or tabs are between words.
set -euo pipefail
export LC_ALL=C
posix=
if [ "${1:-}" = --posix ]; then
    posix=yes
    shift
fi
fail() {
    echo "cookbook.sh: $*" >&2
    exit 1
}
if [ $# = 0 ]; then
    echo "usage: cookbook.sh [--posix] PROGRAM [FOLDER]" >&2
    exit 2
fi
if [ ! -f "$1" ] || [ ! -x "$1" ]; then fail "there is no program '$1'"; fi
program=$(realpath "$1")
here=$(dirname "$(realpath "$0")")
scratch=$(mktemp -d)
terminals=()
# end_terminals: ends what a page began, each with all that it began itself
end_terminals() {
    for it in "${terminals[@]}"; do kill -- "-$it" 2> /dev/null || true; done
    for it in "${terminals[@]}"; do wait "$it" 2> /dev/null || true; done
    terminals=()
}
trap 'end_terminals; rm -rf "$scratch"' EXIT
work=${2:-$scratch/work}
if [ -e "$work" ]; then fail "$work is there already"; fi
mkdir -p "$work/logs/2024-06-21" "$work/output" "$work/evening/output" "$scratch/bin"
work=$(realpath "$work")
ln -s "$program" "$scratch/bin/aprsbook"
# the programs for histories, tables and folds, beside the other
for name in aprsbook-history aprsbook-table aprsbook-fold; do
    if [ -x "${program%/*}/$name" ]; then ln -sf "$(realpath "${program%/*}/$name")" "$scratch/bin/$name"; fi
done
tools=$(dirname "$here")/tools
export PATH="$scratch/bin:$tools/bin:$here/recipes:$PATH"
export EXAMPLES="$here"
cp "$here"/evening/*.log "$work"
cp "$here"/evening/*.log "$work/logs/2024-06-21"

# blocks PAGE FOLDER: each block into a file of its own: its heading, its words, its commands
blocks() {
    mkdir "$2"
    awk -v to="$2/" '
        /^##+ / { heading = $0; sub(/^#+ /, "", heading) }
        /^```sh( |$)/ {
            file = to sprintf("%03d", ++n)
            sub(/^```sh */, "")
            print heading "\n" $0 > file
            open = 1
            next
        }
        /^```text printed/ { file = file ".printed"; open = 1; next }
        /^```/ { if (open) close(file); open = 0 }
        open { print > file }
    ' "$1"
}
# rows PAGE FOLDER: each command in the second column of its table, but those that need a TNC or go on
rows() {
    mkdir "$2"
    awk -v to="$2/" -F '[|]' '
        /^[|] .* [|] `aprs-net / && !/--connect|serve|direwolf/ {
            gsub(/^ | $/, "", $2)
            gsub(/^ `|` $/, "", $3)
            print $2 "\npython3 aprsbook-table\n" $3 > sprintf("%s9%02d", to, ++n)
        }
    ' "$1"
}
# is_there TOOL: a program, or a module of Python by the name of Debian's package
is_there() {
    case $1 in
    python3-*) python3 -c "import ${1#python3-}" 2> /dev/null ;;
    *) command -v "$1" > /dev/null ;;
    esac
}
# does BLOCK OUTPUT: its commands, as they stand there
does() { bash -euo pipefail -c "$(sed 1,2d "$1")" > "$2" 2>&1 < /dev/null; }
# does_soon BLOCK OUTPUT: the same, again until it ends well, for a minute
does_soon() {
    for _ in {1..120}; do
        if does "$1" "$2"; then return 0; fi
        sleep 0.5
    done
    return 1
}
# begins BLOCK OUTPUT: the same, without waiting for its end, in a group of processes of its own
begins() {
    set -m
    does "$1" "$2" &
    set +m
    terminals+=($!)
    sleep 2
}

ran=0 left=0
# run_block FILE: where its tools are there
run_block() {
    local block=$1 heading words how='' missing='' output=output/${1##*/}
    heading=$(sed -n 1p "$block")
    read -ra words <<< "$(sed -n 2p "$block")"
    case ${words[0]-} in
    terminal | soon)
        how=${words[0]}
        words=("${words[@]:1}")
        ;;
    esac
    if [ -n "$posix" ] && [ "${#words[@]}" -gt 0 ]; then return 0; fi
    for tool in "${words[@]}"; do is_there "$tool" || missing="$missing $tool"; done
    if [ -n "$missing" ]; then
        echo "left out: $heading (needs$missing)"
        left=$((left + 1))
        return 0
    fi
    case $how in
    terminal) begins "$block" "$output" ;;
    soon) does_soon "$block" "$output" ;;
    *) does "$block" "$output" ;;
    esac || fail "$heading failed: $(sed 1,2d "$block"; cat output/*)"
    [ ! -e "$block.printed" ] || diff -b "$block.printed" "$output" || fail "$heading prints something else"
    echo "ran: $heading"
    ran=$((ran + 1))
}
# run_page NAME FOLDER [rows]: the blocks of a page, or the commands of its table, in this folder
run_page() {
    "${3:-blocks}" "$here/../docs/$1.md" "$scratch/$1"
    cd "$2"
    for block in "$scratch/$1"/???; do run_block "$block"; done
    end_terminals
}
run_page cookbook "$work"
run_page club "$work" rows
run_page evening "$work/evening"
echo "$ran ran, $left left out"
