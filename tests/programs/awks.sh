#!/bin/sh
# Runs the recipes that need only a POSIX system, and the pictures, with mawk, gawk and busybox:
# they have to make the same files and print the same. Runs each file of awk where the decimal sign
# is a comma: it has to print the same. Needs a POSIX system, mktemp and bash, and says what it
# leaves out because a tool isn't there.
# usage: tests/programs/awks.sh PROGRAM
. "$(dirname "$0")/program.sh"
examples=$repository/examples
cd "$scratch"

# ---- the cookbook under each ----

# what busybox stands for, besides awk
tools='cat|cmp|comm|cp|cut|diff|dirname|find|grep|head|mkdir|mktemp|mv|od|paste|rm|sed|sort|split'
for awk in mawk gawk busybox; do
    has "the cookbook with $awk" $awk || continue
    mkdir $awk
    for tool in awk $([ $awk != busybox ] || busybox --list | grep -xE "$tools|tail|tr|uniq|wc"); do
        ln -s "$(command -v $awk)" "$awk/$tool"
    done
    PATH=$scratch/$awk:$PATH "$examples/cookbook.sh" --posix "$program" made-$awk > said 2>&1 ||
        fail "$awk: $(cat said)"
    [ -e first ] || ln -s made-$awk first
    diff -r first made-$awk > said || fail "what $awk makes differs: $(cat said)"
done

# ---- a decimal comma ----

mkdir locales
export LOCPATH="$scratch/locales"
if ! has 'a decimal comma' localedef aprsbook-table; then
    :
elif ! localedef -i de_DE -f UTF-8 locales/de_DE.UTF-8 > said 2>&1; then
    echo "left out: a decimal comma (needs the language de_DE, as in Debian's package locales)"
else
    aprsbook merge "$examples"/evening/*.log "$examples/slow.log" > net.book
    aprsbook-table net.book > rows
    # all AWK..: what each file of awk prints
    all() {
        "$@" -f "$examples/map.awk" rows
        "$@" -v within=54.51,-3.54,54.53,-3.50 -f "$examples/map.awk" rows
        "$@" -f "$examples/coverage.awk" rows
    }
    all awk > expected
    [ -s expected ] || fail 'nothing is drawn'
    for awk in mawk gawk 'gawk --use-lc-numeric' 'busybox awk'; do
        has "a decimal comma with $awk" "${awk%% *}" || continue
        # shellcheck disable=SC2086 # the name of one, or a name and an argument
        for language in C de_DE.UTF-8; do
            LC_ALL=$language all $awk > printed
            diff expected printed > said || fail "$awk in $language differs: $(cat said)"
        done
    done
fi
echo 'the recipes make the same with every awk that is there'
