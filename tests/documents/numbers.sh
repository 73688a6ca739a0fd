#!/bin/sh
# Checks that the table "Numbers and names" of docs/formats.md is what the definitions say, which
# the code is proved to meet: for each type each name with its number, both ways. Needs a POSIX
# system and Python 3.
set -eu
export LC_ALL=C
cd "$(dirname "$0")/../.."
python3 - << 'end'
import glob
import re
import sys

defined = {}
types = {}
for path in glob.glob("crates/*/specs/*.antt"):
    with open(path, encoding="utf-8") as file:
        text = file.read()
    types.update(re.findall(r"^abbrev pub (\w+)_number : (\w+) \S+ \S+$", text, re.M))
    for what, name, number in re.findall(r"^(\w+)_number (?:\w+\.)?(\w+) = (\d+)$", text, re.M):
        defined.setdefault(what, {}).setdefault(int(number), []).append(name)
    for what, name, said in re.findall(r'^(\w+)_name (?:\w+\.)?(\w+) = codes "(\w+)"$', text, re.M):
        if what in types and name != said:
            sys.exit(f"tests/documents/numbers.sh: {path}: {what} {name} is named {said}")
defined = {types[what]: names for what, names in defined.items()}

with open("docs/formats.md", encoding="utf-8") as file:
    table = file.read().split("## Numbers and names\n", 1)[1].split("\n## ", 1)[0]
told = {}
for kind, entries in re.findall(r"^\| `(\w+)` \| (.*) \|$", table, re.M):
    names = told[kind] = {}
    for entry in entries.split(", "):
        one = re.fullmatch(r"(\d+) (\w+)", entry)
        several = re.fullmatch(r"(\d+) to (\d+) as `(\w+)`", entry)
        if one:
            names.setdefault(int(one[1]), []).append(one[2])
        elif several:
            for place in range(int(several[1]), int(several[2]) + 1):
                names.setdefault(place, []).extend(told[several[3]][place - int(several[1]) + 1])
        else:
            sys.exit(f"tests/documents/numbers.sh: docs/formats.md: {kind}: {entry}?")
if told != defined or not told:
    for kind in sorted(set(told) | set(defined)):
        if told.get(kind) != defined.get(kind):
            print(f"tests/documents/numbers.sh: {kind}: {told.get(kind)}, and not {defined.get(kind)}",
                  file=sys.stderr)
    sys.exit(1)
end
echo 'numbers and names are as the formats tell'
