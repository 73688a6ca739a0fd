#!/bin/sh
# Tries the library for C of `make clib`: each of its functions, and the examples in C and in Python,
# which write what the program writes. Needs a C compiler and Python 3, and says what it leaves out.
# usage: tests/library/clib.sh PROGRAM
# environment: FOLDER                    where the library lies (out)
. "$(dirname "$0")/../programs/program.sh"
folder=${FOLDER:-$repository/out}
case $folder in /*) ;; *) folder=$PWD/$folder ;; esac
[ -f "$folder/libaprsbook.so" ] || fail "there is no library in '$folder': make clib"
cd "$scratch"
evening=$repository/examples/evening
printf 'x\n' > bad.log

# same STATUS COMMAND..: it ends with this status, and writes `wanted`
same() {
    wanted_status=$1 status=0
    shift
    "$@" > written 2> said || status=$?
    [ $status = "$wanted_status" ] || fail "$* ends with $status: $(cat said)"
    cmp wanted written || fail "$* writes something else"
}

if has 'the example in C' cc; then
    example=$repository/examples/clib/merge.c
    cc -std=c99 -Wall -Wextra -pedantic -Werror -I "$folder" "$example" "$folder/libaprsbook.a" \
        -o static
    cc -std=c99 -I "$folder" "$example" -L "$folder" -laprsbook "-Wl,-rpath,$folder" -o shared
    for merge in ./static ./shared; do
        aprsbook merge "$evening"/*.log > wanted
        same 0 $merge "$evening"/*.log
        printf 'APRSBOOK 3 30\nEND 0\n' > wanted
        same 0 $merge
        : > wanted
        same 1 $merge "$evening/hill.log" bad.log
        [ "$(cat said)" = 'bad.log:1: Moment' ] || fail "$merge says: $(cat said)"
    done
fi
if has 'the commands of library.md' cc python3; then
    ln -s "$folder" out
    ln -s "$repository/examples" examples
    awk '/^make clib$/ { open = 1; next } /^```$/ { open = 0 } open' "$repository/docs/library.md" > block
    aprsbook show "$evening"/*.log > wanted
    same 0 sh -e block
fi
if has 'the example in Python, and each function' python3; then
    show=$repository/examples/clib/show.py
    aprsbook show "$evening"/*.log > wanted
    same 0 python3 "$show" "$folder/libaprsbook.so" "$evening"/*.log
    : > wanted
    same 1 python3 "$show" "$folder/libaprsbook.so" "$evening/hill.log" bad.log
    [ "$(cat said)" = 'bad.log:1: Moment' ] || fail "show.py says: $(cat said)"
    "$repository/tests/library/exports.py" "$folder/libaprsbook.so"
fi
