#!/bin/sh
# Does the README from its top, in a checkout of this repository without anything that was built. The
# first command of its first block prints last what the README says, and the third is the command of
# .ci/run. Then the commands of its example print what the README says, those of the table and that of
# the page end well, and the files of a release have the names that it has.
#
# With PROGRAM the first command runs it, and the others nothing. With --whole the three commands do what
# they do for somebody who begins here, and with --first, --second or --third that one alone does; all
# else is done with the programs that `make prove` makes, or that a release has. That takes the time that
# the README says. Needs a POSIX system, git, tar and GNU make (with such an option what the README says),
# and says what it leaves out because a tool isn't there.
# usage: tests/documents/readme.sh PROGRAM | --whole | --first | --second | --third
set -eu

# ---- the two commands of the first block ----

top=$(cd "$(dirname "$0")/../.." && pwd)
page=$top/README.md
# block NAME NUMBER: the block of this number in this language
block() {
    awk -v name="$1" -v n="$2" '/^```/ { open = $0 == "```" name && ++at == n; next } open' "$page"
}
command_at() { block sh 1 | sed -n "$1s/ *#.*//p"; }
first=$(command_at 1)
second=$(command_at 2)
third=$(command_at 3)
made=$(mktemp -d)
trap 'rm -rf "$made"' EXIT
mkdir "$made/checkout"
# in_checkout COMMAND: runs it there, as somebody who has just logged in
in_checkout() {
    (cd "$made/checkout" &&
        env -i HOME="$made" PATH="/usr/local/bin:/usr/bin:/bin" LC_ALL=C sh -c "$1")
}
checks_out() { (cd "$top" && git ls-files | tar -cf - -T -) | tar -xf - -C "$made/checkout"; }
whole=
case ${1-} in
--whole | --first | --second | --third)
    whole=$1
    checks_out
    # does OPTION COMMAND FILE: does the command where this option asks for it
    does() {
        if [ "$whole" != --whole ] && [ "$whole" != "$1" ]; then return; fi
        in_checkout "$2" > "$3" || tail "$3" >&2
    }
    does --first "$first" "$made/printed"
    does --second "$second" "$made/tested"
    if in_checkout 'command -v rt' > "$made/found"; then
        does --third "$third" "$made/proved"
    else
        echo "left out: $third (no Rattle kit is there)"
    fi
    program=$(in_checkout build/programs.sh | sed 1q)
    set -- "$made/checkout/$program"
    ;;
esac
. "$(dirname "$0")/../programs/program.sh"
trap 'rm -rf "$scratch" "$made"' EXIT
cd "$scratch"

block text 1 > expected
if [ "$(block sh 1 | wc -l)" != 3 ] || [ ! -s expected ]; then
    fail 'the first block of the README has no three commands'
fi
[ "$(sed '/^## The page/,$d' "$page" | wc -l)" -le 40 ] || fail 'its three commands are too far below'
# the gate calls the third, in this folder and in no other
[ "$(sed -n 's/^exec //p' "$repository/.ci/run" | sed 's/ --no-print-directory//')" = "$third" ] ||
    fail ".ci/run doesn't call '$third'"
if [ -z "$whole" ] && has 'the three commands of the README' make git tar &&
    git -C "$repository" rev-parse HEAD > /dev/null 2>&1; then
    checks_out
    in_checkout "$first -s PROGRAM='$program'" > "$made/printed"
    for it in "$second" "$third"; do
        in_checkout "make -n '${it#make }'" > /dev/null || fail "there is no '$it'"
    done
fi
if [ -f "$made/printed" ]; then
    tail -n "$(wc -l < expected)" "$made/printed" | cmp - expected ||
        fail "$first prints: $(cat "$made/printed")"
fi
for it in tested proved; do
    [ -f "$made/$it" ] || continue
    tail -n 1 "$made/$it"
    tail -n 1 "$made/$it" | grep -qx '[1-9][0-9]* passed, 0 failed' || fail "$(tail "$made/$it")"
done

# ---- its other commands ----

ln -s "$repository/examples" "$scratch/examples"
awk '/^```/ { open = $0 == "```console"; next } open' "$page" > said
sed -n 's/^\$ //p' said | while IFS= read -r command; do
    printf '$ %s\n' "$command"
    sh -c "$command" 2>&1 < /dev/null
done > printed
if [ ! -s said ] || ! cmp -s said printed; then
    echo "tests/documents/readme.sh: the README's example prints something else:" >&2
    cat printed >&2
    exit 1
fi
# runs FILE: its commands, in order, of which each ends with 0 and writes or prints something
runs() {
    [ -s "$1" ] || fail "the README has no $1"
    sh -ex "$1" > printed 2>&1 < /dev/null || fail "$1: $(cat printed)"
}
cp rx1.log rx3.log
cp net.book year.book
cp net.book day.book
# shellcheck disable=SC2016 # these are backquotes of the page
sed -n 's/^| .* | .* | `\(aprsbook.*\)` |$/\1/p' "$page" > all
while read -r command rest; do
    if has "'$command $rest' of the README" "$command"; then echo "$command $rest" >> table; fi
done < all
runs table
cmp new.book net.book || fail 'a receiver that heard nothing else changes the book'
sed -n '/^aprs-net page /p' "$page" > pages
if has 'the page of the README' python3 aprsbook-table; then
    runs pages
    grep -q 'Fell race' race.html || fail 'aprs-net makes another page'
fi
version=$("$repository/packaging/version")
for name in "/aprsbook_${version}_arm64.deb" " aprsbook-$version-linux-arm64.tar.xz"; do
    grep -qF -- "$name" "$page" || fail "the README doesn't name$name"
done
echo "the README's commands, from its top, print what the README says and end well"
