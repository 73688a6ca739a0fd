#!/usr/bin/env python3
"""Writes the limits of the definitions into a module of Python, one of JavaScript, and marked
places of documents: <!-- greatest_gap -->3,600<!-- -->.

usage: limits.py           writes what is another
       limits.py --check   names it, with status 1
"""
import glob
import os
import re
import sys
from typing import Dict, List, NamedTuple

HERE = os.path.dirname(os.path.abspath(__file__))
PYTHON = "tools/src/aprsbook_tools/formats/limits.py"
JAVASCRIPT = "page/src/util/limits.js"
DOCUMENTS = ("*.md", "docs/*.md", "tools/*.md")
MARKED = re.compile(r"<!-- (\w+) -->[^<]*<!-- -->")


class Limit(NamedTuple):
    """A number of the definitions: their file, what it is, and its name outside Rattle."""

    specs: str
    name: str
    words: str


LIMITS: Dict[str, Limit] = {
    "standard_gap": Limit("aprs_transmissions/specs/Gap", "STANDARD_GAP",
                          "seconds between neighbours of a transmission, if nothing says another"),
    "greatest_gap": Limit("aprs_transmissions/specs/Gap", "GREATEST_GAP", "seconds of the widest gap"),
    "most_line": Limit("aprs_log/specs/Sizes", "MOST_LINE", "bytes of a log's line before its end"),
    "most_name": Limit("aprs_log/specs/Sizes", "MOST_NAME", "letters of a receiver's name"),
    "last_milli": Limit("aprs_log/specs/Sizes", "LAST_MILLISECOND",
                        "milliseconds since 1970 of the last moment"),
    "most_bytes": Limit("aprs_kiss/specs/Sizes", "MOST_KISS_BYTES", "bytes of a frame of KISS"),
    "most_input": Limit("aprs_io/specs/Input", "MOST_INPUT", "bytes of an input"),
}


def read(path: str) -> str:
    with open(path, encoding="utf-8") as file:
        return file.read()


def numbers() -> Dict[str, int]:
    """The number of each limit, as the definitions have it."""
    found: Dict[str, int] = {}
    for word, limit in LIMITS.items():
        said = re.search(rf"^{word} = ([0-9]+)$", read(f"crates/{limit.specs}.antt"), re.M)
        if not said:
            sys.exit(f"build/limits.py: {limit.specs} has no {word}")
        found[word] = int(said[1])
    return found


def python(of: Dict[str, int]) -> str:
    lines = ['"""The limits of logs and books, written by build/limits.py of the definitions."""']
    lines += [f"{limit.name} = {of[word]:_}  # {limit.words}" for word, limit in LIMITS.items()]
    return "\n".join(lines) + "\n"


def javascript(of: Dict[str, int]) -> str:
    lines = ["// @ts-check",
             "// The limits of logs and books, written by build/limits.py of the definitions.", ""]
    for word, limit in LIMITS.items():
        lines += [f"/** {limit.words[0].upper()}{limit.words[1:]}. */",
                  f"export const {limit.name} = {of[word]};"]
    return "\n".join(lines) + "\n"


def document(text: str, of: Dict[str, int], path: str) -> str:
    """A document, with the numbers at its marked places."""
    def put(found: "re.Match[str]") -> str:
        if found[1] not in of:
            sys.exit(f"build/limits.py: {path}: no limit is called {found[1]}")
        return f"<!-- {found[1]} -->{of[found[1]]:,}<!-- -->"
    return MARKED.sub(put, text)


def texts() -> Dict[str, str]:
    """What each file has to be."""
    of = numbers()
    wanted = {PYTHON: python(of), JAVASCRIPT: javascript(of)}
    for path in sorted(it for pattern in DOCUMENTS for it in glob.glob(pattern)):
        wanted[path] = document(read(path), of, path)
    return wanted


def main() -> int:
    os.chdir(os.path.dirname(HERE))
    other: List[str] = []
    for path, text in texts().items():
        if os.path.exists(path) and read(path) == text:
            continue
        other.append(path)
        if "--check" not in sys.argv:
            with open(path, "w", encoding="utf-8", newline="\n") as file:
                file.write(text)
    if "--check" in sys.argv and other:
        print(f"other limits than the definitions have (make limits): {' '.join(other)}",
              file=sys.stderr)
        return 1
    return 0


if __name__ == "__main__":
    sys.exit(main())
