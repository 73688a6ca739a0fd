"""Files and folders that go away by themselves. `tempfile` is imported once one is made, since it
takes longer than many a report."""
from __future__ import annotations

import contextlib
import os

from aprsbook_tools import TYPE_CHECKING

if TYPE_CHECKING:
    from typing import IO, Iterator


@contextlib.contextmanager
def folder() -> Iterator[str]:
    """A folder, whose path begins as all of aprs-net do."""
    import tempfile

    with tempfile.TemporaryDirectory(prefix="aprs-net-") as path:
        yield path


def file() -> IO[bytes]:
    """A file without a name."""
    import tempfile

    return tempfile.TemporaryFile()


def unbuffered() -> IO[bytes]:
    """The same, in which each write is done at once."""
    import tempfile

    return tempfile.TemporaryFile(buffering=0)


def short() -> IO[bytes]:
    """A file without a name for some lines: in memory, where the system has such files."""
    if hasattr(os, "memfd_create"):
        with contextlib.suppress(OSError):  # a system may forbid them
            return open(os.memfd_create("aprs-net"), "w+b")
    return file()
