#!/bin/sh
# build/try.sh CRATE: runs the tests of a crate, built with checks of each access in place of a proof.
set -eu
cd "$(dirname "$0")/../crates/$1"
exec rt try --test --steps 1 --seconds 3600
