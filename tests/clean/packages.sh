#!/usr/bin/env bash
# Installs aprsbook and aprsbook-tools in a clean Debian, and does the cookbook's recipes there: first
# those that need nothing else, and then all. Then both are removed, and leave nothing. Last it does
# all recipes with aprs-net.pyz in place of aprsbook-tools.
# usage: tests/clean/packages.sh bookworm|trixie PROGRAM..    all programs, as `make build` makes them
. "$(dirname "$0")/debian.sh"
suite=${1:-}
shift || fail 'which Debian?'
for program; do
    if [ ! -x "$program" ] || [ ! -f "$program" ]; then fail "there is no program '$program'"; fi
done
[ $# -gt 0 ] || fail 'there is no program'
recipes=/usr/share/aprsbook/examples/cookbook.sh
tools=(direwolf git gzip python3-pandas sqlite3 tshark)

a_debian "$suite"
made=$debian/root/made
mkdir "$made"
"$repository/packaging/make-deb" amd64 "$made" "$@" > "$layer/said"
"$repository/packaging/make-deb" all "$made" > "$layer/said"
"$repository/build/pyz.py" "$made/aprs-net.pyz"

# runs WHAT COMMAND..: it ends well, and its last line is printed
runs() {
    what=$1
    shift
    alone "$@" > "$layer/said" 2>&1 || fail "$what: $(cat "$layer/said")"
    echo "$suite, $what: $(tail -n 1 "$layer/said")"
}

packages=("$made"/*.deb)
apt_get install "${packages[@]#"$debian"}"
in_it getent passwd aprs > /dev/null || fail 'there is no user aprs'
runs 'recipes without other packages' sh -c "cd && $recipes /usr/bin/aprsbook"
apt_get install "${tools[@]}"
runs 'recipes with all tools' sh -c "cd && $recipes /usr/bin/aprsbook"
in_it useradd --create-home someone
runs 'recipes of another user' su someone -c "cd && $recipes --posix /usr/bin/aprsbook"
apt_get purge aprsbook aprsbook-tools
in_it find /usr /etc -name 'aprs*' > "$layer/left"
[ ! -s "$layer/left" ] || fail "the packages leave: $(cat "$layer/left")"

apt_get install python3 "/root/made/aprsbook_$("$repository/packaging/version")_amd64.deb"
in_it install -m 755 /root/made/aprs-net.pyz /usr/local/bin/aprs-net
runs 'recipes with aprs-net.pyz' sh -c "cd && $recipes /usr/bin/aprsbook"
