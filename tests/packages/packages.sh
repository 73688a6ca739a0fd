#!/bin/sh
# Tries make install, uninstall, deb, tools-deb, pyz and tarball: what each puts into an empty folder
# runs there, and is the same bytes when it is made of another folder on another day. Needs a POSIX
# system, mktemp,
# GNU make, install, tar and git, and says what it leaves out because a tool isn't there.
# usage: tests/packages/packages.sh PROGRAM HISTORY TABLE
. "$(dirname "$0")/../programs/program.sh"
[ -n "$history" ] || fail "there is no program of histories"
[ -n "$table" ] || fail "there is no program of tables"
[ -x "$scratch/bin/aprsbook-fold" ] || fail 'there is no program of folds'
fold=$(readlink "$scratch/bin/aprsbook-fold")
has 'make install, tarball and deb' make git || exit 0
if ! SOURCE_DATE_EPOCH=$(git -C "$repository" log -1 --format=%ct 2> "$scratch/said"); then
    echo 'left out: make install, tarball and deb (no commit is there)'
    exit 0
fi
export SOURCE_DATE_EPOCH
cd "$scratch"
# whoever builds is found out
printf '#!/bin/sh\n: > "%s/built"\nexit 1\n' "$scratch" > bin/rt
chmod +x bin/rt
aprsbook convert text "$repository/examples/sample.log" > expected
aprsbook-history "$repository/examples/sample.log" > expected.history
version=$("$repository/packaging/version")
# make_it TARGET ARGUMENT..: builds nothing
make_it() {
    make -s -C "$repository" BUILT="$program $history $table $fold" "$@" > said 2>&1 || fail "make $*: $(cat said)"
    [ ! -e built ] || fail "make $* builds"
}
# runs PREFIX: what was put there runs, its links lead somewhere, and nobody else may write there
runs() {
    "$1/bin/aprsbook" convert text "$1/share/aprsbook/examples/sample.log" | cmp - expected ||
        fail "$1: the sample is another"
    "$1/bin/aprsbook-history" "$1/share/aprsbook/examples/sample.log" | cmp - expected.history ||
        fail "$1: the history of the sample is another"
    "$repository/tests/documents/version.sh" "$1/bin/aprsbook" "$1/bin/aprsbook-history" \
        "$1/bin/aprsbook-table" "$1/bin/aprsbook-fold" > said 2>&1 ||
        fail "$1: $(cat said)"
    [ -z "$(find "$1" -perm -2 ! -type l)" ] || fail "$1 may be written by others"
    [ -z "$(find "$1" -type l ! -exec test -e {} \; -print)" ] || fail "$1 has links to nothing"
    find "$1/share/aprsbook" -name '*.md' | while read -r page; do
        grep -o ']([^):]*)' "$page" | sed 's/^](//; s/[#)].*//; /^$/d' | while read -r link; do
            [ -e "${page%/*}/$link" ] || fail "$page: nothing is at $link"
        done
    done
    # the recipes and aprs-net are in the PATH, and each unit names what is there
    find "$repository"/examples/recipes "$repository"/tools/bin -type f -perm -1 | sed 's,.*/,,' | while read -r name; do
        [ -x "$1/bin/$name" ] || fail "$1: $name isn't in bin"
        [ -e "$1/share/man/man1/$name.1" ] || [ -e "$1/share/man/man1/$name.1.gz" ] ||
            fail "$1: $name has no manual page"
    done
    if has 'what is installed of aprs-net' python3; then
        PATH=$PWD/$1/bin:/usr/bin:/bin aprs-net mend "$1/share/aprsbook/examples/sample.log" > said 2>&1 ||
            fail "$1: aprs-net mend says: $(cat said)"
        cmp said "$1/share/aprsbook/examples/sample.log" || fail "$1: aprs-net mend makes another log"
        if [ -x "$1/bin/aprsbook-table" ]; then
            PATH=$PWD/$1/bin:/usr/bin:/bin aprs-net page -o page.html \
                "$1/share/aprsbook/examples/sample.log" || fail "$1: there is no page"
        fi
    fi
    grep -h '^ExecStart=' "$1"/lib/systemd/system/*.service | tr ' ' '\n' |
        sed -n 's|^/usr/local/share/||p; s|^/usr/share/||p' | while read -r file; do
        [ -e "$1/share/$file" ] || fail "$1: a unit names $file"
    done
}

# ---- install and uninstall ----

for target in install deb tarball 'deb ARCH=arm64'; do
    # shellcheck disable=SC2086 # two words
    if make -s -C "$repository" BUILT=/nowhere PROGRAMS=nowhere DESTDIR="$scratch/none" \
        OUT="$scratch/none" $target > said 2>&1; then
        fail "make $target doesn't fail without a program"
    fi
    grep -q 'there is no program' said || fail "make $target says: $(cat said)"
done
[ ! -e none ] || fail 'make install puts something in place without a program'
mkdir -p 'a root/usr/bin'
: > 'a root/usr/bin/other'
(umask 077 && export CDPATH=. && make_it install DESTDIR="$scratch/a root" PREFIX=/usr)
runs 'a root/usr'
cp -R 'a root/usr' installed
make_it uninstall DESTDIR="$scratch/a root" PREFIX=/usr
[ "$(find 'a root' ! -type d)" = 'a root/usr/bin/other' ] ||
    fail "make uninstall leaves: $(find 'a root' ! -type d)"
[ ! -e 'a root/usr/share/aprsbook' ] || fail 'make uninstall leaves a folder'
rm installed/bin/other

# ---- packages: the same bytes of two folders, on two days ----

mkdir copy
# with the pages, where they are built
(cd "$repository" && { git ls-files && find tools/src/aprsbook_tools -name event.html &&
    find . -path ./crates -prune -o -path ./out/aprsbook.html -print; } | tar -cf - -T -) | tar -xf - -C copy
find copy -exec touch -h -t 202001020304 {} +
# twice WORD..: packs the programs here, and in another folder, day, umask and time zone
twice() {
    script=$1 architecture=$2
    shift 2
    "$repository/packaging/$script" "$architecture" "$script-$architecture" "$@" > said 2>&1 ||
        fail "$script: $(cat said)"
    (umask 077 && TZ=Asia/Tokyo "copy/packaging/$script" "$architecture" again "$@") > said 2>&1 ||
        fail "$script: $(cat said)"
    cmp again/* "$script-$architecture"/* || fail "$script makes other bytes in another folder"
    rm -r again
}
if has 'make tarball' tar; then
    twice make-tarball amd64 "$program" "$history" "$table" "$fold"
    tar -xf make-tarball-amd64/*.tar.xz
    # and again, over itself; all may read it, whoever puts it there
    CDPATH=.:/ "aprsbook-$version/install.sh" prefix
    (umask 077 && "aprsbook-$version/install.sh" prefix && "aprsbook-$version/install.sh" private)
    [ -z "$(find private ! -type l ! -perm -4)" ] || fail 'install.sh keeps files from others'
    diff -r --no-dereference -x __pycache__ installed prefix ||
        fail 'the tar file has other files than make install'
    if has 'compiled modules of aprs-net' python3; then
        [ -n "$(find prefix -name 'cli.*.pyc')" ] || fail 'install.sh compiles no modules of aprs-net'
    fi
    runs prefix
    # the cookbook that was unpacked with it
    prefix/share/aprsbook/examples/cookbook.sh --posix prefix/bin/aprsbook > said 2>&1 ||
        fail "unpacked: $(cat said)"
fi
# deb ARCHITECTURE PROGRAM..: lintian has nothing to say of it
deb() {
    twice make-deb "$@"
    dpkg-deb -x make-deb-"$1"/*.deb "package-$1"
    if has "lintian of the package for $1" lintian; then
        lintian --allow-root --fail-on none make-deb-"$1"/*.deb > said 2>&1 || fail "$(cat said)"
        sed '/^N:/d; /^warning: /d' said > complaints
        [ ! -s complaints ] || fail "lintian says: $(cat complaints)"
    fi
}
# has_pages ARCHITECTURE: the manual pages of the programs are there
has_pages() {
    for page in aprsbook.1 aprsbook-history.1 aprsbook-table.1 aprsbook-fold.1; do
        gzip -dc "package-$1/usr/share/man/man1/$page.gz" | cmp - "$repository/man/$page" ||
            fail "the deb has another $page"
    done
}
if has 'make deb' dpkg-deb strip readelf python3; then
    deb amd64 "$program" "$history" "$table" "$fold"
    has_pages amd64
    deb all
    # both packages together have what make install puts in place, and no file is in both
    (cd package-amd64 && find . ! -type d) | (cd package-all && xargs -d '\n' ls -d 2> /dev/null) > both || true
    [ ! -s both ] || fail "both packages have: $(cat both)"
    cp -R package-all/. package-amd64
    diff -r installed/share/aprsbook package-amd64/usr/share/aprsbook ||
        fail 'the debs have other files'
    runs package-amd64/usr
    arm=$repository/out/arm64
    if [ ! -x "$arm/aprsbook" ] || [ ! -x "$arm/aprsbook-history" ] || [ ! -x "$arm/aprsbook-table" ] ||
        [ ! -x "$arm/aprsbook-fold" ]; then
        echo 'left out: make deb ARCH=arm64 (no program is built: make arm64)'
    elif has 'make deb ARCH=arm64' aarch64-linux-gnu-strip; then
        deb arm64 "$arm/aprsbook" "$arm/aprsbook-history" "$arm/aprsbook-table" "$arm/aprsbook-fold"
        has_pages arm64
    fi
fi
if has 'make pyz' python3; then
    "$repository/build/pyz.py" one/aprs-net.pyz
    (umask 077 && copy/build/pyz.py two/aprs-net.pyz)
    cmp one/aprs-net.pyz two/aprs-net.pyz || fail 'aprs-net.pyz has other bytes in another folder'
    one/aprs-net.pyz mend "$repository/examples/sample.log" | cmp - "$repository/examples/sample.log" ||
        fail 'aprs-net.pyz makes another log'
fi
echo 'what is installed, packed and unpacked runs'
