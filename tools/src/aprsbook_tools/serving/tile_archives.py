"""The maps of tiles that a server hands out. A page reads of them what it draws, by slices."""
import os
from typing import Dict, Sequence

from aprsbook_tools.errors import ExitStatus, Fault, said

HEADS = (b"PMTiles", b"SQLite format 3\0")  # how PMTiles and MBTiles begin


def archives_of(paths: Sequence[str]) -> Dict[str, str]:
    """The paths of archives by the names by which pages ask for them."""
    found: Dict[str, str] = {}
    for path in paths:
        try:
            with open(path, "rb") as file:
                head = file.read(16)
        except OSError as fault:
            raise Fault(said(fault)) from fault
        name = os.path.basename(path)
        if not head.startswith(HEADS):
            raise Fault(f"{path}: no PMTiles and no MBTiles")
        if name in found or not name.isprintable():
            raise Fault(f"{path}: two maps of one name, or a name that can't be said",
                        ExitStatus.ARGUMENTS)
        found[name] = os.path.abspath(path)
    return found
