#!/bin/sh
# build/clib.sh [FOLDER]: proves aprs_web, and puts the library for C and other languages into out/
# or FOLDER: aprsbook.h, libaprsbook.a, and libaprsbook.so. Needs a C compiler, for the last.
set -eu
cd "$(dirname "$0")/.."
folder=${1:-out}
(cd crates/aprs_web && rt lib --jobs 1)
mkdir -p "$folder"
cp include/aprsbook.h "$folder/aprsbook.h"
cp crates/aprs_web/out/libaprs_web.a "$folder/libaprsbook.a"
"${CC:-cc}" -shared -o "$folder/libaprsbook.so" -Wl,-soname,libaprsbook.so -Wl,-z,noexecstack \
    -Wl,--whole-archive "$folder/libaprsbook.a" -Wl,--no-whole-archive
