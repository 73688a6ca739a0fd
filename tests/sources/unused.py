#!/usr/bin/env python3
"""Checks that crates.txt lists for each crate just the crates that its files name: by a path
(`aprs_io::`), a `use`, or a module of a definition or a lemma (`Rattle.aprs_io.`).
usage: unused.py
"""
import pathlib
import re
import sys

HERE = pathlib.Path(__file__).resolve().parents[2]
NAMED = r"\b(\w+)::", r"^\s*(?:pub )?use (\w+)\b"


def named_by(crate: str) -> set[str]:
    """The first names of all paths in a crate's files."""
    found: set[str] = set()
    for path in sorted((HERE / "crates" / crate).glob("*/**/*")):
        part = path.relative_to(HERE / "crates" / crate).parts[0]
        if part in ("src", "specs", "proofs") and path.suffix in (".rt", ".antt"):
            text = re.sub(r"//.*", "", path.read_text(encoding="utf8"))
            if path.suffix == ".rt":
                found.update(*(re.findall(way, text, re.M) for way in NAMED))
            found.update(re.findall(r"\bRattle\.(\w+)\.", text))
    return found


def listed() -> dict[str, set[str]]:
    """What crates.txt lists for each crate."""
    lines = re.findall(r"^(\w+)[a-z ]*:(.*)", (HERE / "crates.txt").read_text(), re.M)
    return {crate: set(stands.split()) for crate, stands in lines}


def main() -> int:
    crates = listed()
    known = set(crates).union(*crates.values())
    faults = []
    for crate, stands in crates.items():
        named = named_by(crate) & known - {crate}
        faults += [f"{crate} lists {it}, and no file of it names {it}" for it in stands - named]
        faults += [f"{crate} lacks {it}, which a file of it names" for it in named - stands]
    for fault in sorted(faults):
        print(f"tests/sources/unused.py: in crates.txt {fault}", file=sys.stderr)
    return bool(faults)


if __name__ == "__main__":
    if main():
        sys.exit(1)
    print("crates.txt lists what each crate names")
