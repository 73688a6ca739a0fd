#!/usr/bin/env python3
"""Writes aprs-net as one file, which any Python from 3.9 on runs, also on Windows.

usage: pyz.py FILE    The same sources give the same bytes.
"""
import pathlib
import sys
import zipfile

SOURCES = pathlib.Path(__file__).resolve().parent.parent / "tools/src"
sys.path.append(str(SOURCES))
from aprsbook_tools.page import event_page  # noqa: E402 (it lies there)

PAGE = f"aprsbook_tools/{event_page.TEMPLATE}"
DAY = (1980, 1, 1, 0, 0, 0)  # of each file in it
MAIN = '''"""aprs-net, of the archive in which this lies."""
import sys

from aprsbook_tools.cli import main

sys.exit(main())
'''


def main() -> None:
    out = pathlib.Path(sys.argv[1])
    files = {"__main__.py": MAIN.encode()}
    for path in (SOURCES / "aprsbook_tools").rglob("*"):
        if path.is_file() and "__pycache__" not in path.parts:
            files[path.relative_to(SOURCES).as_posix()] = path.read_bytes()
    if PAGE not in files:
        page = event_page.released()
        if page is None:
            sys.exit(event_page.MISSING)
        files[PAGE] = page.encode()
    out.parent.mkdir(parents=True, exist_ok=True)
    new = out.with_name(out.name + ".new")
    with open(new, "wb") as file:
        file.write(b"#!/usr/bin/env python3\n")
        with zipfile.ZipFile(file, "w", zipfile.ZIP_DEFLATED) as archive:
            for name in sorted(files):
                entry = zipfile.ZipInfo(name, DAY)
                entry.compress_type = zipfile.ZIP_DEFLATED
                entry.external_attr = 0o644 << 16
                archive.writestr(entry, files[name])
    new.chmod(0o755)
    new.replace(out)


main()
