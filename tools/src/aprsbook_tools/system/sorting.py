"""Sorts what memory doesn't hold, in runs on the disk."""
from __future__ import annotations

import contextlib
import heapq
import itertools
import marshal

from aprsbook_tools import TYPE_CHECKING
from aprsbook_tools.system import temporary

if TYPE_CHECKING:
    from typing import IO, Any, Iterable, Iterator, List, Tuple

RUN = 20_000  # items that are sorted at once
BLOCK = 1_000  # items that are read at once of a run
SIZE = 8  # bytes before a block, that say how many it has


def items_of(run: IO[bytes]) -> Iterator[Tuple[Any, ...]]:
    """What was written into a run."""
    run.seek(0)
    for size in iter(lambda: run.read(SIZE), b""):
        block: List[Tuple[Any, ...]] = marshal.loads(run.read(int.from_bytes(size, "little")))
        yield from block


def written(items: List[Tuple[Any, ...]], run: IO[bytes]) -> IO[bytes]:
    """Writes them into a run, in blocks: `marshal` reads a file byte by byte."""
    for at in range(0, len(items), BLOCK):
        block = marshal.dumps(items[at:at + BLOCK])
        run.write(len(block).to_bytes(SIZE, "little") + block)
    return run


def in_order(items: Iterable[Tuple[Any, ...]], size: int = RUN) -> Iterator[Tuple[Any, ...]]:
    """Tuples of numbers and texts in their order; no two are alike. Up to `size` of them stay in
    memory."""
    items = iter(items)
    with contextlib.ExitStack() as stack:
        runs: List[IO[bytes]] = []
        while True:
            held = sorted(itertools.islice(items, size))
            if len(held) < size:
                break
            runs.append(written(held, stack.enter_context(temporary.file())))
        yield from heapq.merge(held, *map(items_of, runs)) if runs else held
