"""What the tests of the page have in common: examples, programs, and what the environment gives: in
PAGE the page that reads logs, in PICTURES a folder for pictures, in RUNS how many random runs."""
import os
import pathlib
import shutil
import subprocess
from typing import Any

import pytest

from browser import Browser

REPOSITORY = pathlib.Path(__file__).resolve().parents[2]
EXAMPLES = REPOSITORY / "examples"
EVENING = sorted(EXAMPLES.glob("evening/*.log"))
PAGE = pathlib.Path(os.environ.get("PAGE") or REPOSITORY / "out/aprsbook.html").resolve()
TEMPLATE = REPOSITORY / "tools/src/aprsbook_tools/data/event.html"
PICTURES = os.environ.get("PICTURES")
RUNS = int(os.environ.get("RUNS") or 1000)
# the text of a table that the page has
TABLE = "[...aprsbook.textsOf(aprsbook.data.%s)].join('')"
TEXTS = "[...document.querySelectorAll('%s')].map(it => it.textContent)"



def absent(*programs: str) -> str:
    """Those of these programs that aren't in PATH."""
    return ", ".join(it for it in programs if not shutil.which(it))


def needs(*programs: str) -> pytest.MarkDecorator:
    """Marks what is left out where one of these programs isn't in PATH."""
    return pytest.mark.skipif(bool(absent(*programs)), reason=f"needs {absent(*programs)}")


def is_(got: object, wanted: object) -> None:
    """Two values are the same."""
    assert got == wanted, f"{got!r} is not {wanted!r}"


def event_page(path: pathlib.Path, *arguments: Any) -> str:
    """The address of a page of an event by `aprs-net page`, without which a test is left out."""
    if missing := absent("aprsbook", "aprsbook-history", "aprsbook-table", "aprs-net"):
        pytest.skip(f"needs {missing}")
    subprocess.run(["aprs-net", "page", "-o", path, *arguments], check=True)
    return path.as_uri()


def picture(page: Browser, name: str, whole: bool = False) -> None:
    """Takes a picture where some are wanted."""
    if PICTURES:
        page.picture(f"{PICTURES}/{page.name}-{name}.png", whole)

