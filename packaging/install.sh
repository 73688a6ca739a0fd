#!/bin/sh
# install.sh [PREFIX]: copies what lies beside it of bin, lib and share into PREFIX, or /usr/local, where
# all may read it. The modules of aprs-net are compiled there, if Python is: then it begins sooner.
set -eu
umask 022
unset CDPATH # by which cd goes elsewhere, and says so
mkdir -p -- "${1:-/usr/local}"
prefix=$(cd -- "${1:-/usr/local}" && pwd)
cd -- "$(dirname -- "$0")"
for it in bin lib share; do
    [ ! -d "$it" ] || cp -RPf "$it" "$prefix"
done
modules=$prefix/share/aprsbook/tools/src
if [ -d "$modules" ] && command -v python3 > /dev/null; then
    python3 -m compileall -q --invalidation-mode timestamp "$modules" > /dev/null || true
fi
