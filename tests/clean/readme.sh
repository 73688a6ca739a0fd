#!/usr/bin/env bash
# Does README from its top in a clean Debian 12, with the packages that it names, the kit, and a clone
# of the last commit. Takes what README says. With --first, --second or --third only that command of README
# is done from nothing. With --no-kit the kit isn't there: the release in the tree has to do. With --kept
# the machine's kit and that one share what they keep of passed proofs.
# usage: tests/clean/readme.sh [--first | --second | --third] [--no-kit] [--kept]
. "$(dirname "$0")/debian.sh"
option=--whole shared='' kit=yes
for it; do
    case $it in
    --first | --second | --third) option=$it ;;
    --no-kit) kit='' ;;
    --kept) shared=yes ;;
    *) fail "there is no option '$it'" ;;
    esac
done
a_debian bookworm
apt_get install make git python3 xz-utils
if [ -n "$kit" ]; then
    command -v rt > /dev/null || fail 'needs the kit'
    kit=$(realpath "$(command -v rt)")
    kit=${kit%/bin/rt}
    binds "$kit" ro
    # rt looks there for the processes that own what they are making, whose numbers are those of /proc
    kept=${kit%/*}/rattle-kept
    if [ -n "$shared" ]; then
        mkdir -p "$kept"
        binds "$kept" rw
    fi
    ln -s "$kit/bin/rt" "$debian/usr/local/bin/rt"
fi
git clone -q "$repository" "$debian/root/aprsbook"
in_it /root/aprsbook/tests/documents/readme.sh "$option"
