#!/usr/bin/env python3
"""Checks that each edit that must fail still applies to the sources: its texts stand once in their
files; that no crate has two of one name, and that no verdict is of an edit that is gone. build/edits.py
tries them.
usage: tests/sources/edits.py
"""
import pathlib
import sys

sys.path.insert(0, str(pathlib.Path(__file__).resolve().parents[2] / "build"))
import crates  # noqa: E402 (it lies in the folder that was just named)
import edits  # noqa: E402
import wrong_bodies  # noqa: E402


def faults() -> int:
    """How many edits don't apply, each of which is named."""
    found = 0
    for crate in crates.rows():
        names = set()
        for path in edits.paths_of(crate):
            try:
                wrong_bodies.edit_of(path, crates.TOP / "crates" / crate)
            except wrong_bodies.Unfit as why:
                found += told(path, str(why))
            if path.name in names:
                found += told(path, "another one has this name")
            names.add(path.name)
        verdicts = crates.TOP / "edits" / crate / edits.NOTED
        if verdicts.is_file():
            noted = verdicts.read_text(encoding="utf-8").splitlines()
            for name in {it.split(" ")[0] for it in noted} - names:
                found += told(verdicts, f"there is no {name}")
    known = {it for name in crates.rows() for it in edits.paths_of(name)}
    for path in crates.TOP.glob("edits/*/*"):
        if path not in known and path.name != edits.NOTED:
            found += told(path, "there is no such crate, or it's no edit")
    return found


def told(path: pathlib.Path, why: str) -> int:
    """Says what is wrong with a file."""
    print(f"{path.relative_to(crates.TOP)}: {why}", file=sys.stderr)
    return 1


if __name__ == "__main__":
    if faults():
        sys.exit(1)
    print("each edit that must fail applies to the sources")
