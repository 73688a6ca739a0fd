#!/usr/bin/env python3
"""Finds the module for web pages, and prints its path from the top.

usage: build/module.py           the module that `make wasm` built, if no source is newer, or else
                                 that of the release in release/, which is put into out/
       build/module.py PAGE..    ends with 1 unless these have the module that was built of these
                                 sources

Says on standard error which module it is, or why there is none, and ends with 1 then. So the page
can be tried without a proof. Needs Python 3.9, and what build/sum needs.
"""
import base64
import json
import pathlib
import re
import subprocess
import sys
from typing import List, Optional

TOP = pathlib.Path(__file__).resolve().parent.parent
BUILT = TOP / "out/aprsbook.wasm"
# what a module begins with
MAGIC = b"\0asm"
PARTS = re.compile(r'<script type="application/json" id="parts">(.*?)</script>', re.S)


def said(text: str) -> None:
    print(f"build/module.py: {text}", file=sys.stderr)


def is_built() -> bool:
    """Whether the module was built, and no source is newer."""
    if not BUILT.is_file():
        return False
    sources = [it for end in ("rt", "antt") for it in TOP.glob(f"crates/*/*/**/*.{end}")
               if it.relative_to(TOP).parts[2] != "out"]
    newest = max(it.stat().st_mtime for it in [TOP / "crates.txt", *sources])
    return BUILT.stat().st_mtime >= newest


def module_in(page: str) -> bytes:
    """The module that a page of logs has in it."""
    found = PARTS.search(page)
    module = base64.b64decode(json.loads(found[1])["module"]) if found else b""
    if not module.startswith(MAGIC):
        raise ValueError("it has no module")
    return module


def is_of_these(release: pathlib.Path) -> bool:
    """Whether a release is of the crates as they are here."""
    found = re.search("^crates: (.*)$", (release / "SOURCES").read_text(encoding="ascii"), re.M)
    done = subprocess.run([str(TOP / "build/sum")], stdout=subprocess.PIPE, check=True)
    return found is not None and found[1] == done.stdout.decode().strip()


def released() -> Optional[pathlib.Path]:
    """The module of the release, put into out/; nothing where there is none."""
    for page in sorted(TOP.glob("release/*/aprsbook.html")):
        version = page.parent.name
        try:
            module = module_in(page.read_text(encoding="utf-8"))
        except (ValueError, KeyError) as fault:
            said(f"{page.relative_to(TOP)} is damaged: {fault}")
            continue
        path = TOP / f"out/aprsbook-{version}.wasm"
        path.parent.mkdir(exist_ok=True)
        new = path.with_name(path.name + ".new")
        new.write_bytes(module)
        new.replace(path)
        of = "these" if is_of_these(page.parent) else "other"
        said(f"the module is that of release {version}, of {of} sources; make wasm builds one")
        return path
    return None


def has_built(pages: List[str]) -> bool:
    """Whether pages have the module that was built of these sources; says so where one hasn't."""
    if not is_built():
        said("no module of these sources is built: make wasm")
        return False
    for it in pages:
        if module_in(pathlib.Path(it).read_text(encoding="utf-8")) != BUILT.read_bytes():
            said(f"{it} has another module than {BUILT.relative_to(TOP)}: make page")
            return False
    return True


def main(pages: List[str]) -> int:
    if pages:
        return 0 if has_built(pages) else 1
    path = BUILT if is_built() else released()
    if path is None:
        said("no module of these sources is built (make wasm), and no release has one")
        return 1
    if path == BUILT:
        said("the module is proved, and built of these sources")
    print(path.relative_to(TOP))
    return 0


if __name__ == "__main__":
    sys.exit(main(sys.argv[1:]))
