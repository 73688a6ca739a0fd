"""The page that reads logs, aprsbook.html, where it is built, released or installed."""
import pathlib
from typing import List, Optional

from aprsbook_tools.errors import Fault, said
from aprsbook_tools.page import event_page

NAME = "aprsbook.html"
MISSING = f"{NAME} isn't there: `make page` builds it, and --page says where it is"


def places() -> List[pathlib.Path]:
    """Where the page may be: installed beside the command, built, or of a release."""
    tree, newest = event_page.tree(), event_page.newest(NAME)
    return [tree / NAME, tree / "out" / NAME, *([newest] if newest else []),
            pathlib.Path("/usr/local/share/aprsbook", NAME),
            pathlib.Path("/usr/share/aprsbook", NAME)]


def read(path: Optional[str]) -> bytes:
    """The page, of a file or of where it may be."""
    found = [pathlib.Path(path)] if path else [it for it in places() if it.is_file()]
    if not found:
        raise Fault(MISSING)
    try:
        return found[0].read_bytes()
    except OSError as fault:
        raise Fault(said(fault)) from fault
