# shellcheck shell=bash
# Read by the scripts beside it: gives them a clean Debian, and runs commands in it. What debootstrap
# makes lies in $CLEAN/SUITE, or in out/clean of the repository, and is made once. Each Debian is a
# layer over it that is thrown away. Needs root, debootstrap, unshare, ip and overlayfs.
set -euo pipefail
export LC_ALL=C
fail() {
    echo "tests/clean/${0##*/}: $*" >&2
    exit 1
}
for tool in debootstrap unshare ip git; do
    command -v "$tool" > /dev/null || fail "needs $tool"
done
[ "$(id -u)" = 0 ] || fail 'needs root'
# the mounts are this script's alone, and end with it
if [ -z "${MOUNTS:-}" ]; then
    MOUNTS=own exec unshare --mount --propagation private "$0" "$@"
fi
repository=$(dirname "$(realpath "${BASH_SOURCE[0]}")")
repository=${repository%/tests/clean}
CLEAN=${CLEAN:-$repository/out/clean}
layer=$(mktemp -d)
debian=$layer/root
# nothing is removed through a mount
trap '! mountpoint -q "$debian" || umount -l "$debian" && rm -rf --one-file-system "$layer"' EXIT

# a_debian SUITE: makes a clean one, which the commands below speak of
a_debian() {
    if [ ! -d "$CLEAN/$1" ]; then
        mkdir -p "$CLEAN"
        debootstrap --variant=minbase "$1" "$CLEAN/$1.new" > "$layer/said" || fail "$(tail "$layer/said")"
        mv "$CLEAN/$1.new" "$CLEAN/$1"
    fi
    mkdir "$debian" "$layer/files" "$layer/work"
    mount -t overlay overlay "$debian" -o "lowerdir=$CLEAN/$1,upperdir=$layer/files,workdir=$layer/work"
    mount -t proc proc "$debian/proc"
    mount -t tmpfs tmpfs "$debian/dev/shm"
    mkdir -p "$debian/dev/pts"
    mount -t devpts -o newinstance,ptmxmode=0666 devpts "$debian/dev/pts"
    ln -sf pts/ptmx "$debian/dev/ptmx"
    cp /etc/resolv.conf "$debian/etc/resolv.conf"
    # as Debian's installer writes it
    echo '127.0.0.1 localhost' > "$debian/etc/hosts"
    in_it apt-get -qq update
}
# in_it COMMAND..: runs it there, as somebody who has just logged in
in_it() {
    chroot "$debian" env -i HOME=/root LC_ALL=C DEBIAN_FRONTEND=noninteractive \
        PATH=/usr/local/sbin:/usr/local/bin:/usr/sbin:/usr/bin:/sbin:/bin "$@"
}
# alone COMMAND..: the same without a network, but for localhost
alone() {
    export -f in_it
    export debian
    unshare --net bash -c 'ip link set lo up && in_it "$@"' alone "$@"
}
# apt_get WORD..
apt_get() {
    in_it apt-get -qq -y --no-install-recommends "$@" > "$layer/said" 2>&1 || fail "$(cat "$layer/said")"
}
# binds FOLDER OPTION..: it lies there where it lies here
binds() {
    mkdir -p "$debian$1"
    mount --bind "$1" "$debian$1"
    mount -o "remount,bind,$2" "$debian$1"
}
