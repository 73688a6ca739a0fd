#!/bin/sh
# Checks that the map in docs/architecture.md is what crates.txt and the crates say. Needs a POSIX
# system and Python 3.
set -eu
cd "$(dirname "$0")/../.."
if ! build/map.py | cmp -s - docs/architecture.md; then
    echo 'tests/documents/map.sh: the map in docs/architecture.md is another one: make map' >&2
    exit 1
fi
echo 'the map is what crates.txt says'
