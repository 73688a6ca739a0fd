#!/bin/sh
# Tries the programs for other machines that `make arm64` and `make static` made: what the tests of
# the programs try, and that each answers as the given programs do on the examples and on 300 logs,
# books and damaged ones (of the two for ARM, which are linked of one object, that without libraries).
# ARM is that of a Raspberry Pi 3, whose processor qemu plays. Then what becomes of runs that get
# little memory. Says what it leaves out because a program or a tool isn't there.
# usage: tests/programs/everywhere.sh PROGRAM HISTORY TABLE
. "$(dirname "$0")/program.sh"
[ -n "$history" ] || fail "there is no program of histories"
[ -n "$table" ] || fail "there is no program of tables"
[ -x "$scratch/bin/aprsbook-fold" ] || fail 'there is no program of folds'
names='aprsbook aprsbook-history aprsbook-table aprsbook-fold'
made=$repository/out
cd "$scratch"
# tests/programs/books.sh, run as root, runs a program as another user
umask 022
chmod 755 .
mkdir inputs programs

# ---- the programs, those of one machine in a folder of their own by their names ----

# here NAME FOLDER WHAT: its programs run on this processor
here() {
    for it in $names; do
        if [ ! -x "$2/$it" ]; then
            echo "left out: $1 (no program $it is built: make $3)"
            return
        fi
        # one that was made of an older program says nothing of this one
        if [ -n "$(find -L "$program" -newer "$2/$it")" ]; then
            echo "left out: $1 (the program $it is older than aprsbook: make $3)"
            return
        fi
    done
    mkdir "programs/$1"
    for it in $names; do ln -s "$2/$it" "programs/$1"; done
}
# there NAME FOLDER WHAT: they run on an ARM processor
there() {
    has "$1" qemu-aarch64-static || return 0
    here "$@"
    [ -d "programs/$1" ] || return 0
    for it in $names; do
        rm "programs/$1/$it"
        printf '#!/bin/sh\nexec qemu-aarch64-static -cpu cortex-a53 -L %s "%s" "$@"\n' \
            /usr/aarch64-linux-gnu "$2/$it" > "programs/$1/$it"
        chmod +x "programs/$1/$it"
    done
}
if [ "$(uname -m)" = x86_64 ]; then
    here static-amd64 "$made/static/amd64" static
fi
if [ -e /usr/aarch64-linux-gnu/lib/libc.so.6 ]; then
    there arm64 "$made/arm64" arm64
else
    echo 'left out: arm64 (needs libc6-arm64-cross)'
fi
there static-arm64 "$made/static/arm64" static

# ---- the tests of the programs, and the same answers ----

if has 'random inputs' python3; then
    python3 "$repository/tests/programs/make_inputs.py" 300 inputs "$program"
fi
cp "$repository"/examples/*.log "$repository"/examples/evening/*.log \
    "$repository/examples/old-book.txt" inputs
# answers FOLDER INPUT..: what its programs answer to each, with complaints and statuses, and to all
answers() {
    folder=$1
    shift
    for input; do
        for words in 'aprsbook check' 'aprsbook convert kind' 'aprsbook merge' 'aprsbook show' \
            aprsbook-history aprsbook-table aprsbook-fold; do
            echo "$words $input"
            # shellcheck disable=SC2086 # one word each
            "$folder"/$words "$input" 2>&1 || echo "status $?"
        done
    done
    "$folder/aprsbook" widen 60 inputs/old-book.txt
    "$folder/aprsbook" merge inputs/hill.log inputs/coast.log inputs/north.log
    "$folder/aprsbook" convert kiss inputs/hill.log
    "$folder/aprsbook-history" --gap 60 inputs/hill.log inputs/coast.log inputs/north.log
    "$folder/aprsbook" --help
    "$folder/aprsbook-table" messages --gap 60 inputs/hill.log inputs/coast.log inputs/north.log
    "$folder/aprsbook-history" --help
    "$folder/aprsbook-table" --help
    "$folder/aprsbook-fold" --help
}
# tried NAME: the tests with its programs, and their answers
tried() {
    for test in documents/readme programs/old_book programs/gaps programs/full_output programs/books \
        programs/fold; do
        "$repository/tests/$test.sh" "programs/$1/aprsbook" || return 1
    done
    for test in complaints history table; do
        "$repository/tests/programs/$test.sh" "programs/$1/aprsbook" "programs/$1/aprsbook-history" \
            "programs/$1/aprsbook-table" || return 1
    done
    case $1 in
    arm64) answers "programs/$1" inputs/*.* ;;
    *) answers "programs/$1" inputs/* ;;
    esac > "$1.answers"
}
running=''
for it in programs/*; do
    [ -d "$it" ] || continue
    name=${it#programs/}
    tried "$name" > "$name.said" 2>&1 &
    running="$running $name:$!"
done
answers bin inputs/* > expected
answers bin inputs/*.* > expected.arm64
for it in $running; do
    name=${it%:*}
    wait "${it#*:}" || fail "$name: $(cat "$name.said")"
    sed -n "s/^left out: /left out of $name: /p" "$name.said"
    wanted=expected
    if [ "$name" = arm64 ]; then wanted=expected.arm64; fi
    cmp $wanted "$name.answers" || fail "$name answers something else"
done

# ---- an x86-64 processor of 2009, and an older one ----

if [ -d programs/static-amd64 ] && has 'old x86-64 processors' qemu-x86_64-static; then
    # shellcheck disable=SC2086 # one word each
    for words in 'aprsbook show' aprsbook-history aprsbook-table; do
        bin/$words inputs/hill.log > expected
        qemu-x86_64-static -cpu Nehalem programs/static-amd64/$words inputs/hill.log > here 2> said ||
            fail "$words on a Nehalem says: $(cat said)"
        cmp here expected || fail "$words on a Nehalem answers something else"
        if qemu-x86_64-static -cpu core2duo programs/static-amd64/$words inputs/hill.log > here 2> said; then
            fail "$words runs on a processor that it can't count on"
        fi
        grep -q 'lacks a feature of x86-64-v2' said || fail "$words on a Core 2 says: $(cat said)"
    done
fi

# ---- little memory: a log of a million lines, which a merge has to hold, and a fold of its book ----

awk 'BEGIN {
    for (i = 0; i < 1000000; i++)
        printf "2024-05-%02dT%02d:%02d:%02dZ RX1 %s\n", 1 + int(i / 86400), i / 3600 % 24, i / 60 % 60,
            i % 60, "c00082a0a4a64040e09c60868298986f03f03e4869c0"
}' > long.log
# short LIMIT STATUSES PROGRAM WORD..: with so little it ends with one of the statuses
short() {
    limit=$1 wanted=$2 status=0 name=${3##*/}
    shift 2
    ($limit && exec "$@" long.log) > short.out 2> short.said || status=$?
    case $status in
    [$wanted]) ;;
    *) fail "$* under $limit ended with $status: $(cat short.said)" ;;
    esac
    [ $status = 0 ] || [ "$(cat short.said)" = "$name: out of memory" ] ||
        fail "$* under $limit says: $(cat short.said)"
}
for it in bin programs/static-amd64; do
    [ -d "$it" ] || continue
    short 'ulimit -v 20000' 0 "$it/aprsbook" check
    short 'ulimit -v 20000' 0 "$it/aprsbook" convert kind
    for words in 'aprsbook merge' 'aprsbook show' 'aprsbook widen 60' aprsbook-history aprsbook-table; do
        # shellcheck disable=SC2086 # one word each
        short 'ulimit -v 20000' 4 "$it"/$words
        # shellcheck disable=SC2086 # one word each
        short 'ulimit -v 100000' 04 "$it"/$words
    done
done
# qemu itself needs more, and gives what it plays no more than 96 MiB
if [ -d programs/static-arm64 ]; then
    for words in 'aprsbook merge' aprsbook-history; do
        # shellcheck disable=SC2086 # one word each
        short 'export QEMU_RESERVED_VA=0x6000000' 04 programs/static-arm64/$words
    done
fi
# folds LIMIT PROGRAM: with so little it folds a day into the book of that log
folds() {
    ($1 && exec "$2" long.book day.book) > short.out 2> said || fail "$2 under $1: $(cat said)"
    cmp short.out folded.book || fail "$2 under $1 writes something else"
}
bin/aprsbook merge long.log > long.book
bin/aprsbook merge inputs/hill.log > day.book
bin/aprsbook merge long.log inputs/hill.log > folded.book
for it in bin programs/static-amd64; do
    [ ! -d "$it" ] || folds 'ulimit -v 65536' "$it/aprsbook-fold"
done
[ ! -d programs/static-arm64 ] || folds 'export QEMU_RESERVED_VA=0x4000000' programs/static-arm64/aprsbook-fold
if [ -n "$running" ]; then echo 'the programs for other machines answer as this one'; fi
