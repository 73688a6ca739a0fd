#!/bin/sh
# Compiles packaging/system.c with warnings as errors, for each processor whose compiler is there,
# and tries its functions: no bytes asked for, an argument that doesn't fit, one that isn't there.
# Needs gcc; for ARM gcc-aarch64-linux-gnu and qemu-user-static. Says what it leaves out.
set -eu
export LC_ALL=C
cd "$(dirname "$0")/../.."
scratch=$(mktemp -d)
trap 'rm -rf "$scratch"' EXIT
# tried WORD..: the test, compiled and run by these words
tried() {
    compiler=$1
    shift
    "$compiler" -std=c11 -O2 -Wall -Wextra -Werror -Wpedantic -Wmissing-prototypes -static \
        -o "$scratch/system" packaging/system.c tests/sources/system.c
    "$@" "$scratch/system" first '' last
}
# there TOOL: it is, or it is said what is left out
there() {
    command -v "$1" > "$scratch/tool" && return 0
    echo "left out: $2 (needs $1)"
    return 1
}
if there gcc packaging/system.c; then tried gcc; fi
if there aarch64-linux-gnu-gcc 'packaging/system.c for ARM'; then
    if there qemu-aarch64-static 'packaging/system.c on ARM'; then
        tried aarch64-linux-gnu-gcc qemu-aarch64-static
    fi
fi
echo 'packaging/system.c does what is asked of it'
