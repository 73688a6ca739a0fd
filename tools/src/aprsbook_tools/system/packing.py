"""Packed files, by the endings of their names. What unpacks one is imported once there is one."""
from __future__ import annotations

import os

from aprsbook_tools import TYPE_CHECKING

if TYPE_CHECKING:
    from typing import IO, Callable, Dict, Tuple, Type


def of_gzip(path: str) -> IO[bytes]:
    """Python takes an empty file for a packed one of nothing, and gzip doesn't."""
    import gzip
    from typing import cast

    if os.path.isfile(path) and not os.path.getsize(path):
        raise EOFError("it is empty, which no packed file is")
    return cast("IO[bytes]", gzip.open(path, "rb"))


def of_xz(path: str) -> IO[bytes]:
    import lzma
    from typing import cast

    return cast("IO[bytes]", lzma.open(path, "rb"))


def of_bzip2(path: str) -> IO[bytes]:
    import bz2
    from typing import cast

    return cast("IO[bytes]", bz2.open(path, "rb"))


def of_zstd(path: str) -> IO[bytes]:
    from aprsbook_tools.system import zstd

    return zstd.opened(path)


# what opens a file to be read, unpacked
OPENERS: Dict[str, Callable[[str], IO[bytes]]] = {
    ".gz": of_gzip, ".xz": of_xz, ".bz2": of_bzip2, ".zst": of_zstd}


def faults(*more: Type[Exception]) -> Tuple[Type[Exception], ...]:
    """What reading raises where a packed file is faulty, or ends too early, and these."""
    import gzip
    import lzma
    import zlib

    return (*more, EOFError, lzma.LZMAError, zlib.error, gzip.BadGzipFile)
