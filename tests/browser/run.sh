#!/bin/sh
# Tests the page and the recipes of a receiver by pytest, and says which tests were left out: each
# needs its tools, such as Chromium or Firefox. PICTURES in the environment is a folder for
# pictures, and RUNS says how many random runs there are.
# usage: tests/browser/run.sh PROGRAM [PAGE [WORD]..]    PAGE is the page that reads logs, by itself
#        out/aprsbook.html; the words are for pytest, such as -k coast
program=${1-} page=${2-}
if [ $# -gt 2 ]; then shift 2; else shift $#; fi
# shellcheck source=tests/programs/program.sh
find_programs() { . "$(dirname "$0")/../programs/program.sh"; }
find_programs "$program"
PAGE=${page:-$repository/out/aprsbook.html}
export PAGE
for python in python3 /usr/bin/python3; do
    if $python -c 'import pytest, selenium' 2> /dev/null; then
        $python -m pytest -q -rs -p no:cacheprovider "$repository/tests/browser" "$@"
        exit
    fi
done
echo 'left out: tests of the page (Debian: apt install python3-pytest python3-selenium)'
