#!/usr/bin/env python3
"""The crates of this repository as crates.txt lists them, and views of them.

usage: build/crates.py --sum      a checksum over all that the crates are made of
       build/crates.py --below NAME   the crates of this repository below one, lowest first
       build/crates.py --sum-of NAME  the same over one and those below it
"""
import hashlib
import os
import pathlib
import re
import shutil
import sys
from typing import Callable, Dict, List, NamedTuple, Optional, Pattern, Sequence

TOP = pathlib.Path(__file__).resolve().parent.parent
# what a check reads of a crate
PARTS = ("src", "specs", "proofs")
COMMENT = re.compile(rb"^[ \t]*(?://|--)[^\n]*\n", re.M)


class Row(NamedTuple):
    """A line of crates.txt: a crate, and the libraries that it names, those of the kit too."""

    name: str
    line: str
    libraries: Sequence[str]


def rows() -> Dict[str, Row]:
    """The rows of crates.txt by their names, lower ones first."""
    found = {}
    for line in (TOP / "crates.txt").read_text(encoding="utf-8").splitlines():
        head, colon, libraries = line.partition("#")[0].partition(":")
        if colon:
            # a name may stand before a word of its kind
            name = head.split()[0]
            found[name] = Row(name, line, libraries.split())
    return found


def below(crate: str) -> List[str]:
    """The crates of this repository below one, lowest first."""
    every, wanted = rows(), {crate}
    for name in reversed(list(every)):
        if name in wanted:
            wanted.update(every[name].libraries)
    return [name for name in every if name in wanted and name != crate]


def files_of(crate: str, parts: Sequence[str] = PARTS) -> List[pathlib.Path]:
    """The files that a check reads of these parts of a crate, in their order."""
    folder = TOP / "crates" / crate
    return sorted(it for part in parts for it in (folder / part).rglob("*") if it.is_file())


def sum_of(
    crates: Sequence[str], of: Callable[[bytes], bytes] = bytes, parts: Sequence[str] = PARTS,
    without: Optional[Pattern[str]] = None,
) -> str:
    """A checksum over the rows of these crates, and over what is read of each file of these parts, but
    those whose paths have such a text."""
    every, found = rows(), hashlib.sha256()
    for crate in crates:
        found.update(every[crate].line.encode())
        for path in files_of(crate, parts):
            if without and without.search(str(path.relative_to(TOP))):
                continue
            content = hashlib.sha256(of(path.read_bytes())).hexdigest()
            found.update(f"{path.relative_to(TOP)} {content}\n".encode())
    return found.hexdigest()


def without_comments(text: bytes) -> bytes:
    """A file of Rattle or antt without the lines that are comments alone."""
    return COMMENT.sub(b"", text)


def is_proved(crate: str) -> bool:
    """Whether build/prove.sh noted that it proved a crate as it and those below it stand."""
    path = TOP / "out" / "proved" / crate
    return path.is_file() and path.read_text().strip() == sum_of([*below(crate), crate])


def linked(folder: pathlib.Path, to: pathlib.Path) -> None:
    """Copies a folder by hard links: `rt` replaces such a file, and writes into none."""
    to.parent.mkdir(parents=True, exist_ok=True)
    shutil.copytree(folder, to, symlinks=True, copy_function=os.link)


def main(words: List[str]) -> int:
    """Does what the words ask for."""
    if words == ["--sum"]:
        print(sum_of(list(rows())))
    elif words[:1] == ["--below"] and words[1:2]:
        print("\n".join(below(words[1])))
    elif words[:1] == ["--sum-of"] and words[1:2]:
        print(sum_of([*below(words[1]), words[1]]))
    else:
        print(__doc__, file=sys.stderr)
        return 2
    return 0


if __name__ == "__main__":
    sys.exit(main(sys.argv[1:]))
