"""Texts that people give: rosters, checkpoints, maps."""
from __future__ import annotations

import codecs

from aprsbook_tools.errors import Fault, said

MARKS = [
    (codecs.BOM_UTF8, "utf-8-sig"),
    (codecs.BOM_UTF16_LE, "utf-16"),
    (codecs.BOM_UTF16_BE, "utf-16"),
]


def read(path: str) -> str:
    """The text of a file, in UTF-8, or in UTF-16 where it begins with that byte order mark."""
    try:
        with open(path, "rb") as file:
            octets = file.read()
    except OSError as fault:
        raise Fault(said(fault)) from fault
    coding = next((name for mark, name in MARKS if octets.startswith(mark)), "utf-8")
    try:
        return octets.decode(coding)
    except UnicodeDecodeError as fault:
        line = octets[: fault.start].count(b"\n") + 1
        raise Fault(f"{path}: line {line} isn't in UTF-8") from fault
