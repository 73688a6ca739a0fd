"""Signals that ask for the end."""
import signal

from aprsbook_tools import TYPE_CHECKING

if TYPE_CHECKING:
    from typing import Any


def heed(handler: "Any", *names: str) -> None:
    """Takes these signals, but for one that whoever started this has it ignore, as nohup does."""
    for name in names:
        number = getattr(signal, name, None)  # not each is there on Windows
        if number is not None and signal.getsignal(number) is not signal.SIG_IGN:
            signal.signal(number, handler)
