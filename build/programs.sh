#!/bin/sh
# build/programs.sh: finds the program of these sources, and prints its paths from the top by each of its
# names: aprsbook, aprsbook-history, aprsbook-table and aprsbook-fold. It is the one that is built, if no
# source is newer, or that of the release in release/, if it is of the same sources; this is unpacked
# into out/. Says on standard error which it is, or why there is none, and ends with 1 then. Needs a
# POSIX system, and for a release sha256sum, GNU tar and xz.
set -eu
export LC_ALL=C
cd "$(dirname "$0")/.."
built=crates/aprsbook/out
is_built() {
    [ -x $built/aprsbook ] && ! find crates.txt crates -name out -prune -o \
        \( -name '*.rt' -o -name '*.antt' -o -name crates.txt \) -newer $built/aprsbook -print | grep -q .
}
if is_built; then
    echo 'the programs are proved, and built of these sources' >&2
    build/names.sh $built | sed "s,^,$built/,"
    exit 0
fi
none() {
    echo "no programs of these sources are built (make build), $1" >&2
    exit 1
}
release=$(find release -mindepth 1 -maxdepth 1 -type d 2> /dev/null | head -n 1)
if [ -z "$release" ]; then none 'and there is no release'; fi
version=${release#release/}
sum=$(sed -n 's/^crates: //p' "$release/SOURCES")
if [ "$sum" != "$(build/sum)" ]; then
    none "and release $version is of other sources"
fi
case $(uname -sm) in
'Linux x86_64') architecture=amd64 ;;
'Linux aarch64') architecture=arm64 ;;
*) none "and release $version has none for $(uname -sm)" ;;
esac
name=aprsbook-$version-linux-$architecture
if [ ! -f "out/$name/$sum" ]; then
    if ! (cd "$release" && grep " $name.tar.xz\$" SHA256SUMS | sha256sum -c --quiet >&2); then
        none "and $release/$name.tar.xz is damaged"
    fi
    rm -rf "out/$name" "out/$name.new"
    mkdir -p "out/$name.new"
    xz -dc "$release/$name.tar.xz" | tar -xf - -C "out/$name.new" --strip-components=1
    : > "out/$name.new/$sum"
    mv "out/$name.new" "out/$name"
fi
echo "the programs are those of release $version, proved of these sources" >&2
build/names.sh | sed "s,^,out/$name/bin/,"
