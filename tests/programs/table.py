#!/usr/bin/env python3
"""Compares the tables of random logs with a reading of its own (table_reading.py), by the rules of
docs/formats.md. Some reports are damaged, and so are some lines. The same words give the same logs.

usage: tests/programs/table.py PROGRAM [COUNT [SEED]]   PROGRAM is aprsbook-table; 2,000 logs without a COUNT
"""
from __future__ import annotations

import datetime
import random
import subprocess
import sys
import tempfile
from typing import Dict, List

from random_reports import START, STEP, Heard, broken, heard, log_line
from table_reading import Line, reading


def table_of(program: str, lines: List[str], refused: str = "") -> List[Line]:
    """The rows of a log; or none, where it is refused, with these words at the end."""
    with tempfile.NamedTemporaryFile("w", suffix=".log") as log:
        log.writelines(lines)
        log.flush()
        done = subprocess.run([program, log.name], stdout=subprocess.PIPE, stderr=subprocess.PIPE)
    said = done.stderr.decode("ascii")
    if said != (f"aprsbook-table: {log.name}: {refused}\n" if refused else ""):
        sys.exit(f"table.py: it says {said!r}, and not {refused!r}")
    if done.returncode != (1 if refused else 0) or (refused and done.stdout):
        sys.exit(f"table.py: status {done.returncode} where it is refused for {refused!r}")
    header, *rows = [line.split("\t") for line in done.stdout.decode("ascii").split("\n")[:-1]] or [[]]
    if not all(len(row) == len(header) for row in rows):
        sys.exit("table.py: a line has not as many fields as there are columns")
    return [dict(zip(header, row)) for row in rows]


def wanted(moment: datetime.datetime, frame: Heard, columns: List[str]) -> Line:
    line = dict.fromkeys(columns, "")
    at = f"{moment:%Y-%m-%dT%H:%M:%S.000Z}"
    destination = frame.destination.rstrip(b" ")
    line.update(first=at, last=at, receivers="RX1", receiver="RX1")
    line.update(source="N0CALL", destination=destination.decode())
    line.update(reading(destination, frame.info))
    return line


def differences(program: str, n: random.Random) -> int:
    """How many fields differ in the table of a random log."""
    frames: Dict[str, Heard] = {}
    lines, refused = [], ""
    for i in range(n.randrange(1, 20)):
        moment, frame = START + i * STEP, heard(n)
        line = log_line(moment, frame)
        if n.random() < 0.04:
            line, reason = broken(n, line)
            if reason and not refused:
                refused = f"line {i + 1}: {reason}"
        else:
            frames[f"{moment:%Y-%m-%dT%H:%M:%S.000Z}"] = frame
        lines.append(line)
    rows = table_of(program, lines, refused)
    if not refused and ({row["first"] for row in rows} != set(frames) or len(rows) != len(frames)):
        sys.exit(f"table.py: other rows than were heard: {lines}")
    differ = 0
    for row in rows:
        frame = frames[row["first"]]
        moment = datetime.datetime.strptime(row["first"], "%Y-%m-%dT%H:%M:%S.000Z")
        for column, text in wanted(moment, frame, list(row)).items():
            if row.get(column) != text:
                print(f"{column}: {row.get(column)!r}, and not {text!r}, of {frame!r}", file=sys.stderr)
                differ += 1
    return differ


def main() -> None:
    program = sys.argv[1]
    count = int(sys.argv[2]) if len(sys.argv) > 2 else 2000
    n = random.Random(int(sys.argv[3]) if len(sys.argv) > 3 else 1)
    differ = sum(differences(program, n) for _ in range(count))
    if differ:
        sys.exit(f"table.py: {differ} fields differ")
    print(f"the tables of {count} random logs are as the formats tell")


if __name__ == "__main__":
    main()
