#!/usr/bin/env python3
"""Writes a book file that nobody would write by hand.

usage: make_hostile.py rows N        N rows of one key, 31 seconds apart
       make_hostile.py receivers N   one row with N receivers
       make_hostile.py line N        N bytes without an LF, after a header
"""
import sys
from datetime import datetime, timedelta
from typing import Iterator

FRAME = "82a0a4a64040e09c60868298986f03f03e4869"
START = datetime(1970, 1, 1)


def moment(seconds: int) -> str:
    return (START + timedelta(seconds=seconds)).strftime("%Y-%m-%dT%H:%M:%S.000Z")


def rows(number: int) -> Iterator[str]:
    for i in range(number):
        at = moment(31 * i)
        yield f"T {at} {at} RX1 RX1 {FRAME}\n"


def receivers(number: int) -> Iterator[str]:
    names = [f"RX{i:08}" for i in range(number)]
    at = moment(0)
    yield f"T {at} {at} {','.join(names)} {names[-1]} {FRAME}\n"


def main() -> None:
    kind, number = sys.argv[1], int(sys.argv[2])
    out = sys.stdout
    out.write("APRSBOOK 3 30\n")
    if kind == "line":
        while number > 0:
            size = min(number, 1 << 20)
            out.write("T" * size)
            number -= size
        return
    made = rows(number) if kind == "rows" else receivers(number)
    out.writelines(made)
    out.write(f"END {number if kind == 'rows' else 1}\n")


main()
