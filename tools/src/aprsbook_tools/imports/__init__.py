"""Texts that other programs write of what they heard: what each has, as frames with moments.

A reader is a function of a file and of Options, and gives what it finds, in order.
"""
import dataclasses
from typing import IO, Callable, Iterator, Optional, Union

from aprsbook_tools.formats.zones import Zones


@dataclasses.dataclass
class Options:
    """What a reader is told: the receiver's name or None for that of the text, the zones, how bytes
    that can't be printed stand there, whether it is a feed of APRS-IS, whether a line without a
    time has the moment at which it is read, and the moment at which a recording began."""
    name: Optional[str] = None
    zones: Zones = dataclasses.field(default_factory=Zones)
    escapes: Optional[str] = None
    igate: bool = False
    now: bool = False
    start: Optional[int] = None


@dataclasses.dataclass(frozen=True)
class Heard:
    """A frame, without framing. One of one's own was sent, not heard."""
    moment: int
    receiver: str
    frame: bytes
    own: bool = False


@dataclasses.dataclass(frozen=True)
class Refused:
    """What can't be taken, with the number of its line, and whether it was for its time."""
    number: int
    words: str
    text: bytes
    untimed: bool = False


Found = Union[Heard, Refused]
Reader = Callable[[IO[bytes], Options], Iterator[Found]]
