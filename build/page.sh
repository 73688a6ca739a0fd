#!/bin/sh
# build/page.sh: makes the page that reads logs, out/aprsbook.html, and the command for Node,
# out/aprsbook.mjs, with the module that build/module.py finds. The command has the texts of help of
# the programs of build/programs.sh, and is left out where there are none.
set -eu
cd "$(dirname "$0")/.."
module=$(build/module.py)
build/page.py reader "$module" out/aprsbook.html out/aprsbook.readable.html
if ! programs=$(build/programs.sh); then
    rm -f out/aprsbook.mjs
    echo 'left out: the command for Node' >&2
    exit 0
fi
rm -rf out/named
mkdir -p out/named
for it in $programs; do
    ln -s "$PWD/$it" out/named
done
build/command.py "$module" out/named > out/aprsbook.mjs.new
mv out/aprsbook.mjs.new out/aprsbook.mjs
