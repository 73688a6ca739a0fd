#!/usr/bin/env python3
"""Proves the library whose folder this is from nothing, as `rt verdict` proves a library below a crate.

usage: build/library.py JOBS     in the crate's folder, where the libraries below it are built

What is kept in out/rlib are its statements, which are all that a crate above it can cite. They are
loaded in a fraction of the time that checked proofs take. `rt lib`, which keeps those for a next check,
can't write statements alone, so this calls the part of the kit that can.
"""
import importlib.machinery
import importlib.util
import os
import pathlib
import shutil
import sys
from typing import Any, Sequence


def kit() -> Any:
    """The module of the kit that the command `rt` is made of."""
    command = shutil.which("rt")
    if command is None:
        raise SystemExit("build/library.py: no Rattle kit is there")
    path = pathlib.Path(command).resolve().with_name("rtlib.py")
    loader = importlib.machinery.SourceFileLoader("rtlib", str(path))
    spec = importlib.util.spec_from_loader(loader.name, loader)
    assert spec is not None
    module = importlib.util.module_from_spec(spec)
    sys.modules[loader.name] = module
    loader.exec_module(module)
    return module


def prove(jobs: str) -> int:
    """Proves the library with so many jobs. Returns 0 where it is proved."""
    here, rt = os.getcwd(), kit()
    rt.guarded()
    rt.Crate.cuts_libraries = True
    crate = rt.Crate(here, rt.root_above(here), {})
    status: int = crate.build_rlib(["--jobs", jobs], anew=True)
    if status == 0:
        # the libraries above are proved over this one, and not over one of their own
        pathlib.Path("out/rlib/stamp").write_text(crate.stamp(), encoding="utf-8")
    return status


def main(words: Sequence[str]) -> int:
    """Does what the words ask for."""
    sys.dont_write_bytecode = True
    if len(words) != 1 or not words[0].isdigit():
        print(__doc__, file=sys.stderr)
        return 2
    return prove(words[0])


if __name__ == "__main__":
    sys.exit(main(sys.argv[1:]))
