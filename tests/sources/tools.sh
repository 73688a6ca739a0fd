#!/bin/sh
# Checks the types of all Python here, and that nothing of it is unused, where Debian's mypy and pyflakes3
# are. With --all, also runs the tests of aprs-net, by a Python 3 that has pytest and hypothesis (Debian:
# python3-pytest, python3-hypothesis); PROGRAM is aprsbook, beside which the crates of the others lie.
# Says what it leaves out.
# usage: tests/sources/tools.sh [--all [PROGRAM]]
set -eu
cd "$(dirname "$0")/../.."
repository=$PWD
all=${1-} program=${2-}
export PYTHONDONTWRITEBYTECODE=1
# all Python but that of tools, which has its own settings; a module's name is that in its folder
# where others import it, and else that from here on
others=$(git ls-files '*.py' 2> /dev/null | grep -v '^tools/') ||
    others=$(find bench build examples tests -name '*.py')
by_name=build:tests/programs:tests/browser:tests/page:tools/src
# python_with MODULES: the first Python 3 that has them
python_with() {
    for python in python3 /usr/bin/python3; do
        if $python -c "import $1" 2> /dev/null; then
            echo $python
            return
        fi
    done
}
if command -v mypy > /dev/null; then
    # shellcheck disable=SC2086 # no name has a blank
    MYPYPATH=$by_name mypy --strict --python-version 3.9 --explicit-package-bases --no-incremental \
        --cache-dir=/dev/null $others
    (cd tools && mypy --strict --no-incremental --cache-dir=/dev/null src tests make_pages.py)
else
    echo 'left out: types of Python (Debian: apt install mypy)'
fi
if command -v pyflakes3 > /dev/null; then
    # shellcheck disable=SC2086 # no name has a blank
    pyflakes3 $others tools/src tools/tests tools/make_pages.py
else
    echo 'left out: names of Python (Debian: apt install pyflakes3)'
fi
cd tools
# what is made of the parsers, by their readers; no line of Python is longer than 100, and no function
# has more than 40
work=$(mktemp -d)
trap 'rm -r "$work"' EXIT
if command -v python3 > /dev/null; then
    ./make_pages.py "$work" "$("$repository/packaging/version")" 2024-06-21
    # read_by TOOL WORD..: the tool, where it is there, has nothing to say
    read_by() {
        command -v "$1" > /dev/null || return 0
        "$@" > "$work/said" 2>&1 || { echo "$* ended with $?" && cat "$work/said"; exit 1; }
        [ ! -s "$work/said" ] || { cat "$work/said"; exit 1; }
    }
    read_by mandoc -T lint "$work/aprs-net.1"
    read_by bash -n "$work/aprs-net.bash"
    read_by shellcheck -s bash "$work/aprs-net.bash"
    read_by zsh -n "$work/_aprs-net"
    read_by fish -n "$work/aprs-net.fish"
fi
long='
import ast, sys
long = []
for it in sys.argv[1:]:
    with open(it, encoding="utf-8") as file:
        text = file.read()
    long += [f"{it}: line {at} is longer than 100 columns"
             for at, line in enumerate(text.split("\n"), 1) if len(line) > 100]
    long += [f"{it}: {of.name} has more than 40 lines" for of in ast.walk(ast.parse(text))
             if isinstance(of, (ast.FunctionDef, ast.AsyncFunctionDef))
             and of.end_lineno - of.lineno >= 40]
sys.exit("\n".join(long) or 0)'
if command -v python3 > /dev/null; then find . -name '*.py' -exec python3 -c "$long" {} +; fi
[ "$all" = --all ] || exit 0
if [ -n "$program" ]; then
    case $program in
    /*) ;;
    *) program=$repository/$program ;;
    esac
    names=$work/bin
    mkdir "$names"
    for name in aprsbook aprsbook-history aprsbook-table aprsbook-fold; do
        if [ -x "${program%/*}/$name" ]; then ln -s "${program%/*}/$name" "$names/$name"
        else echo "left out: tests with $name (none is built)"; fi
    done
    PATH=$names:$PATH
fi
python=$(python_with pytest,hypothesis)
if [ -n "$python" ]; then
    # side by side, where that can be done (Debian: python3-pytest-xdist): twice as many as there are
    # processors, since some wait
    together=
    if [ "$(python_with pytest,hypothesis,xdist)" = "$python" ]; then
        together="-n $((2 * $(getconf _NPROCESSORS_ONLN))) --dist loadgroup"
    fi
    # shellcheck disable=SC2086 # some words, or none
    $python -m pytest -q $together -p no:cacheprovider
else
    echo 'left out: tests of tools (Debian: apt install python3-pytest python3-hypothesis)'
fi
