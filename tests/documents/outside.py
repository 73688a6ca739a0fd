#!/usr/bin/env python3
"""Checks that what stands outside Rattle has the sources' kinds, columns and limits.

usage: tests/documents/outside.py

The page names each kind of line that a history and a table have; docs/formats.md names each column
of the table, where it has that section; and whatever text says a limit says the number that the
sources have. Needs Python 3.9.
"""
import glob
import os
import re
import subprocess
import sys
from typing import Iterator, List, NamedTuple, Tuple

# texts outside Rattle that say limits
TEXTS = (
    "*.md", "docs/*.md", "man/*.1", "completions/*", "include/*.h", "page/assets/*.html", "page/src/**/*.js", "examples/recipes/*",
    "tools/**/*.py", "tools/**/*.md",
)


class Limit(NamedTuple):
    """A limit: where the sources have it, and how texts say it."""

    name: str
    path: str
    constant: str
    said: str


LIMITS = (
    Limit("the widest gap", "crates/aprs_transmissions/src/gap.rt", "GREATEST",
          r"\b1 to ([\d,]+)(?: whole)? seconds|\bgap\b[^.|\n]{0,30}\b1 to ([\d,]+)|"
          r"copies are one, 1 to ([\d,]+)"),
    Limit("the widest gap of an option", "crates/aprs_arguments/src/arguments.rt", "GREATEST_GAP",
          r"\b1 to ([\d,]+)(?: whole)? seconds"),
    Limit("a receiver's name", "crates/aprs_log/src/receiver.rt", "MAX_NAME",
          r"\b1 to (\d+) letters"),
    Limit("an input", "crates/aprs_io/src/input.rt", "MAX_INPUT",
          r"(?:input has (?:at most|more than)|`MAX_INPUT`,) (\d,\d{3},\d{3},\d{3})"),
    Limit("a line", "crates/aprs_log/src/line.rt", "MAX_LINE",
          r"LongLine\W[^.|]{0,30}?more than\s+([\d,]+)\s+bytes"),
    Limit("a frame of KISS", "crates/aprs_kiss/src/reader.rt", "MAX_FRAME",
          r"TooLong\W[^.|]{0,40}?more than\s+([\d,]{4,5}) bytes|([\d,]+) bytes without escapes"),
    Limit("the last moment", "crates/aprs_log/src/moment.rt", "LAST_MILLI",
          r"(4,1\d\d,\d{3},\d{3},\d{3})"),
)


def read(path: str) -> str:
    """The text of a file, without the marks of limits; bytes that are none are passed over."""
    with open(path, encoding="utf8", errors="ignore") as file:
        return re.sub(r"<!-- \w+ -->([^<]*)<!-- -->", r"\1", file.read())


def texts() -> List[Tuple[str, str]]:
    """The texts that say limits, by path."""
    paths = {path for pattern in TEXTS for path in glob.glob(pattern, recursive=True)}
    return [(path, read(path)) for path in sorted(paths) if os.path.isfile(path)]


def wrong_limits() -> Iterator[str]:
    """Each text that says another number than the sources, and each limit that none says."""
    for limit in LIMITS:
        found = re.search(rf"const {limit.constant}: \w+ = ([\d_]+);", read(limit.path))
        if not found:
            yield f"{limit.path} has no {limit.constant}"
            continue
        wanted, count = found.group(1).replace("_", ""), 0
        for path, text in texts():
            for said in re.finditer(limit.said, text):
                count += 1
                number = next(filter(None, said.groups()))
                if number.replace(",", "") != wanted:
                    line = text.count("\n", 0, said.start()) + 1
                    yield f"{path}, line {line}: {limit.name} is {wanted}, not {number}"
        if not count:
            yield f"no text says {limit.name}"


def wrong_kinds() -> Iterator[str]:
    """Each kind of line that the page doesn't name."""
    asked = ["crates/aprs_table/src/history.rt", "put_[a-z]*_line"]
    words = subprocess.run(
        ["build/rattle_text.py", "--calls", *asked], capture_output=True, text=True, check=True
    ).stdout.split()
    page = "\n".join(read(path) for path in glob.glob("page/src/**/*.js", recursive=True))
    if not words:
        yield "found no kinds in crates/aprs_table/src/history.rt"
    for word in dict.fromkeys(words):
        if not re.search(rf"[\"'`]{word}[\"'`]|\b{word}\s*:", page):
            yield f"the page doesn't name the kind {word}"


def wrong_columns() -> Iterator[str]:
    """Each column of the table that docs/formats.md doesn't name in its order."""
    defined = read("crates/aprs_table/specs/Table.antt")
    columns = re.search(r"^columns = (.*?)\n\n", defined, re.M | re.S)
    names = re.findall(r'codes "(\w+)"', columns.group(1)) if columns else []
    if not names:
        yield "found no columns in crates/aprs_table/specs/Table.antt"
    section = re.search(r"\n## Table\b.*?(?=\n## |\Z)", read("docs/formats.md"), re.S)
    told = set(re.findall(r"`(\w+)`", section.group())) if section else set(names)
    ranges = r"`(\w+?)(\d)` to `\1(\d)`"
    for name, first, last in re.findall(ranges, section.group() if section else ""):
        told |= {f"{name}{number}" for number in range(int(first), int(last) + 1)}
    for name in names:
        if name not in told:
            yield f"docs/formats.md doesn't name the column {name} of the table"


def main() -> int:
    """Prints what is wrong."""
    os.chdir(os.path.join(os.path.dirname(os.path.abspath(__file__)), "../.."))
    wrong = [*wrong_limits(), *wrong_kinds(), *wrong_columns()]
    for said in wrong:
        print(f"tests/documents/outside.py: {said}", file=sys.stderr)
    if not wrong:
        print("what stands outside Rattle has the sources' kinds, columns and limits")
    return 1 if wrong else 0


if __name__ == "__main__":
    sys.exit(main())
