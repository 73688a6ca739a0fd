"""The page of an event is small, and it is the same however aprs-net was put in place."""
import os
import pathlib
import subprocess
import sys
import zipfile

import pytest

from given import EVENING, REPOSITORY, TEMPLATE, event_page, needs

MOST = 300_000  # bytes of the page of the evening, with the coast of the world


@needs("aprsbook", "aprsbook-table", "aprs-net")
def test_size(folder: pathlib.Path) -> None:
    event_page(folder / "evening.html", "--coast", "rough", *EVENING)
    assert os.path.getsize(folder / "evening.html") < MOST


@needs("aprsbook", "aprsbook-table", "aprs-net")
def test_the_same_by_a_wheel(folder: pathlib.Path) -> None:
    """A wheel has the page, and makes the same of the same book, byte for byte."""
    event_page(folder / "tree.html", *EVENING)
    made = subprocess.run(
        [sys.executable, "-m", "pip", "wheel", "-q", "--no-build-isolation", "--no-deps",
         "--no-index", "-w", folder, REPOSITORY / "tools"], capture_output=True, text=True)
    if made.returncode:
        pytest.skip(f"needs pip, setuptools and wheel: {made.stderr.strip()[-80:]}")
    [wheel] = folder.glob("*.whl")
    with zipfile.ZipFile(wheel) as archive:
        assert archive.read("aprsbook_tools/data/event.html") == TEMPLATE.read_bytes()
        archive.extractall(folder / "installed")
    subprocess.run(
        [sys.executable, "-m", "aprsbook_tools", "page", "-o", folder / "wheel.html", *EVENING],
        env={**os.environ, "PYTHONPATH": str(folder / "installed")}, cwd=str(folder), check=True)
    assert (folder / "wheel.html").read_bytes() == (folder / "tree.html").read_bytes()
