#!/bin/sh
# Compares the command for Node, out/aprsbook.mjs, with the programs: bytes, statuses and complaints, in
# COUNT runs at random (100). Needs Node 20 or later.
# usage: tests/module/command.sh PROGRAM [COUNT]
count=${2:-100}
set -- "${1-}"
. "$(dirname "$0")/../programs/program.sh"
command=${COMMAND:-$repository/out/aprsbook.mjs}
case $command in /*) ;; *) command=$PWD/$command ;; esac
[ -f "$command" ] || fail "there is no command '$command': make page"
has 'the command for Node' node aprsbook-history aprsbook-table || exit 0
cd "$scratch"
node "$repository/tests/module/command.js" "$command" "$count" 7 "$repository"/examples/sample.log \
    "$repository"/examples/millis.log "$repository"/examples/evening/*.log
