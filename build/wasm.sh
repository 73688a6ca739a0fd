#!/bin/sh
# build/wasm.sh [MODULE]: builds the module for web pages, out/aprsbook.wasm or MODULE. It proves
# aprs_web, which crates.txt has as a static library, and proves it again for wasm64.
#
# The compiler is the kit's, and uses the vector and bulk memory instructions of WebAssembly, which each
# browser with a 64-bit memory has: blocks of bytes take a third of the time. It puts larger functions
# in line than elsewhere, since engines put in few: a merge takes a fifth less, a table a quarter. Its
# folder, out/toolchain, has links to the kit's tools, and a clang that adds these flags for this target.
set -eu
cd "$(dirname "$0")/.."
module=${1:-out/aprsbook.wasm}
case $module in /*) ;; *) module=$PWD/$module ;; esac
kit=$(dirname "$(dirname "$(readlink -f "$(command -v rt)")")")
tools=$PWD/out/toolchain
rm -rf "$tools"
mkdir -p "$tools/bin"
for it in "$kit"/toolchain/* "$kit"/toolchain/bin/*; do
    case ${it#"$kit/toolchain/"} in
    bin | bin/clang) ;;
    *) ln -s "$it" "$tools/${it#"$kit/toolchain/"}" ;;
    esac
done
cat > "$tools/bin/clang" << EOF
#!/bin/sh
case " \$* " in *wasm64*) set -- -msimd128 -mbulk-memory -mllvm -inline-threshold=1500 "\$@" ;; esac
exec "$kit/toolchain/bin/clang" "\$@"
EOF
chmod +x "$tools/bin/clang"
uses=$(sed -n 's/^aprs_web staticlib: *//p' crates.txt)
cd crates/aprs_web
rt check --jobs 1
set -- --crate-name aprs_web src/lib.rt -L dependency="$kit/rlibs" --extern std="$kit/rlibs/std.rlib"
for it in $uses; do
    library=$kit/rlibs/$it.rlib
    if [ -d "../$it" ]; then library=$PWD/../$it/out/rlib/$it.rlib; fi
    set -- "$@" --extern "$it=$library"
done
for it in ../*/out/rlib; do set -- "$@" -L dependency="$PWD/$it"; done
"$kit/bin/rattle" build "$@" --antt-project "$kit/rattle/logic/antt-project.json" \
    --logic-built "$kit/logic_built" --incremental out/incremental --jobs 1 --links aprs_web= \
    --crate-type staticlib --target wasm64-unknown-unknown --toolchain "$tools" \
    --backend llvm -o out/aprs_web.wasm.a
mkdir -p "$(dirname "$module")"
"$kit/bin/rattle-link" --target wasm64-unknown-unknown --toolchain "$kit/toolchain" -o "$module" \
    out/aprs_web.wasm.a
# without the names of its functions, which nothing reads
ln -s "$kit/toolchain/bin/clang" "$tools/bin/llvm-strip"
"$tools/bin/llvm-strip" "$module"
echo "$module: $(wc -c < "$module") bytes"
