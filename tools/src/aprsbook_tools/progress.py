"""How far long work is, on standard error where that is a terminal, and nothing elsewhere."""
from __future__ import annotations

import sys

from aprsbook_tools import TYPE_CHECKING
from aprsbook_tools.stderr import show

if TYPE_CHECKING:
    from typing import Callable, Iterable, Iterator, Optional, TypeVar

    T = TypeVar("T")

STEP = 0.2  # seconds between two counts


def one(_: object) -> int:
    return 1


def is_part() -> bool:
    """Whether another thread than the main one asks."""
    import threading  # for a terminal alone, as the clock below

    return threading.current_thread() is not threading.main_thread()


def counted(items: Iterable[T], words: str, total: Optional[int] = None,
            size: Callable[[T], int] = one) -> Iterator[T]:
    """The items, with a line that counts them, such as `days: 3 of 20`; an item may be of a size.
    What other threads count is a part of that."""
    if sys.stderr is None or not sys.stderr.isatty() or is_part():
        yield from items
        return
    from aprsbook_tools.system.clock import CLOCK

    of = f" of {total}" if total is not None else ""
    shown, number = 0.0, 0
    try:
        for item in items:
            number += size(item)
            now = CLOCK.seconds()
            if now - shown >= STEP:
                shown = now
                show(f"\r{words}: {number}{of}\x1b[K")
            yield item
    finally:
        if shown:
            show("\r\x1b[K")
