#!/bin/sh
# Compares the module for web pages with the programs: bytes, statuses and what is said of faults,
# over the examples and 300 damaged texts. Needs Node 20 or later.
# usage: tests/module/module.sh PROGRAM [HISTORY]
# environment: MODULE                      the module (out/aprsbook.wasm)
. "$(dirname "$0")/../programs/program.sh"
module=${MODULE:-$repository/out/aprsbook.wasm}
case $module in /*) ;; *) module=$PWD/$module ;; esac
[ -f "$module" ] || fail "there is no module '$module': make wasm"
has 'the module in Node' node aprsbook-history || exit 0
flag=--experimental-wasm-memory64
node $flag -e 0 2> "$scratch/said" || flag=
cd "$scratch"
# shellcheck disable=SC2086 # none or one word
node $flag "$repository/tests/module/module.js" "$module" "$program" 300 11 \
    "$repository"/examples/sample.log "$repository"/examples/millis.log \
    "$repository"/examples/evening/*.log
