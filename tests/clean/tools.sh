#!/usr/bin/env bash
# Does the tests of aprs-net in a clean Debian 12, among them those of its runs on many machines, with
# Debian's pytest, hypothesis and distributed, without a network.
# usage: tests/clean/tools.sh FOLDER    where the programs lie by their names, as out/named has them
. "$(dirname "$0")/debian.sh"
programs=$(realpath "${1:-out/named}")
[ -x "$programs/aprsbook-fold" ] || fail "there are no programs in '$programs'"
a_debian bookworm
apt_get install git python3-pytest python3-hypothesis python3-distributed sqlite3
cp -L "$programs"/aprsbook* "$debian/usr/local/bin"
git -C "$repository" ls-files -z | tar -cf - -C "$repository" --null -T - |
    tar -xf - -C "$debian/root" --one-top-level=aprsbook
alone sh -c 'cd /root/aprsbook/tools && exec python3 -m pytest -q' > "$layer/said" 2>&1 ||
    fail "$(cat "$layer/said")"
tail -n 1 "$layer/said"
