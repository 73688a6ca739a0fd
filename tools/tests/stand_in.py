#!/usr/bin/env python3
"""A stand-in for the programs in tests that are of what runs around them: its books are receptions,
sorted, each once, which grow by merges as those of aprsbook do. A station is all of one minute.

usage: aprsbook merge|widen [--gap] SECONDS [--] [FILE..]
       aprsbook check
       aprsbook-fold --gap SECONDS [--from SOURCE] [--until SOURCE] FILE..
       aprsbook-table stations --gap SECONDS -- FILE..
       any of them: --version, --help
"""
import argparse
import collections
import os
import re
import sys
from typing import List, NoReturn, Set

PROGRAM = os.path.basename(sys.argv[0])
COLUMNS = ("source transmissions last receiver stamp latitude longitude ambiguity compressed "
           "symbol text status_last status_receiver status_stamp status_text").split()
SOURCE = 16  # characters of a row
# a line without a fault; its parts are looked at where it isn't one
LINE = re.compile(r"(?:19|20)\d\d-\d\d-\d\dT\d\d:\d\d:\d\d(?:\.\d{3})?Z [A-Za-z0-9_-]{1,16} "
                  r"(?:[0-9A-Fa-f]{2})*")


def fail(words: str, status: int = 1) -> NoReturn:
    print(f"{PROGRAM}: {words}", file=sys.stderr)
    sys.exit(status)


def read_book(path: str, text: str, gap: int, widen: bool) -> Set[str]:
    lines = text.splitlines()
    found = re.fullmatch(r"APRSBOOK 3 (\d+)", lines[0])
    if not found or lines[-1] != f"END {len(lines) - 2}" or not text.endswith("\n"):
        fail(f"{path}: line {len(lines)}: Ending")
    elif int(found[1]) > gap or int(found[1]) != gap and not widen:
        fail(f"{path}: {'narrower' if widen else 'other gap'}")
    return set(lines[1:-1])


def read(path: str, gap: int, widen: bool) -> Set[str]:
    try:
        with open(path or 0, encoding="ascii", errors="replace", newline="\n") as file:
            text = file.read()
    except OSError:
        fail(f"{path}: cannot open")
    path = path or "standard input"
    if text.startswith("APRSBOOK"):
        return read_book(path, text, gap, widen)
    if PROGRAM == "aprsbook-fold":
        fail(f"{path}: line 1: Header")
    if text and not text.endswith("\n"):
        fail(f"{path}: line {text.count(chr(10)) + 1}: NoNewline")
    for number, line in enumerate(text.split("\n")[:-1], 1):
        if len(line) > 8192:
            fail(f"{path}: line {number}: LongLine")
        if LINE.fullmatch(line):
            continue
        if not re.match(r"(19|20)\d\d-\d\d-\d\dT\d\d:\d\d:\d\d(\.\d{3})?Z ", line):
            fail(f"{path}: line {number}: Moment")
        if not re.match(r"[^ ]+ [A-Za-z0-9_-]{1,16} ", line):
            fail(f"{path}: line {number}: Receiver")
        if not re.fullmatch(r"[^ ]+ [^ ]+ ([0-9A-Fa-f]{2})*", line):
            fail(f"{path}: line {number}: Hex")
    return {line if line[19] == "." else line.replace("Z", ".000Z", 1)
            for line in text.splitlines()}


def stations(rows: List[str]) -> str:
    """The table of stations, in the order of their rows."""
    counts = collections.Counter(it[:SOURCE] for it in rows)
    lines = [COLUMNS, *([source, str(count), *[""] * 13] for source, count in counts.items())]
    return "".join("\t".join(line) + "\n" for line in lines)


def write(text: str) -> None:
    try:
        with open(1, "wb", closefd=False) as out:
            out.write(text.encode())
    except OSError:
        fail("cannot write", 3)


def main() -> None:
    parser = argparse.ArgumentParser(PROGRAM)
    parser.add_argument("--version", action="version", version=f"{PROGRAM} 0")
    parser.add_argument("--gap", type=int)
    if PROGRAM == "aprsbook-fold":
        parser.add_argument("--check", action="store_true")
        parser.add_argument("--from", dest="since", default="")
        parser.add_argument("--until", default="~")
    parser.add_argument("words", nargs="*")
    given = sys.argv[1:]
    command = given.pop(0) if given and not given[0].startswith("-") else ""
    if PROGRAM == "aprsbook-fold":
        command, given = "", sys.argv[1:]
    args = parser.parse_args(given)
    words: List[str] = args.words
    if any("\udc80" <= it <= "\udcff" for it in "".join(words)):
        fail("a name that isn't UTF-8", 2)
    if getattr(args, "check", False):
        for it in words:
            with open(it, encoding="ascii") as file:
                text = file.read()
            begins = text.startswith("APRSBOOK 3")
            read_book(it, text, int(text.split()[2]) if begins else 30, False)
        return
    gap = int(words.pop(0)) if command == "widen" else args.gap or 30
    if os.environ.get("STAND_IN_RUNS"):
        with open(os.environ["STAND_IN_RUNS"], "a", encoding="utf-8") as file:
            file.write(" ".join(words) + "\n")
    rows = sorted(set().union(*(read(it, gap, command == "widen") for it in words or [""])))
    if command == "check":
        write(f"heard {len(rows)} passed 0\n")
        return
    if command == "stations":
        write(stations(rows))
        return
    if "since" in args:
        rows = [it for it in rows if args.since <= it[:SOURCE] < args.until]
    write("".join(f"{it}\n" for it in [f"APRSBOOK 3 {gap}", *rows, f"END {len(rows)}"]))


main()
