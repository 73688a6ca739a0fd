"""Lines on standard error, for whoever runs a command. Where nobody can be told, as where it is
closed or on a full disk, what is done goes on."""
import codecs
import enum
import io
import os
import select
import sys

from aprsbook_tools import TYPE_CHECKING
from aprsbook_tools.formats.forms import form

if TYPE_CHECKING:
    import re
    from typing import Set


class Level(enum.IntEnum):
    """How much is said."""

    QUIET = 0  # what went wrong, alone
    PLAIN = 1
    VERBOSE = 2


LEVEL_OF = {"--quiet": Level.QUIET, "--verbose": Level.VERBOSE}
_level = Level.PLAIN
_said: "Set[str]" = set()
# what moves a terminal's cursor, colours it or turns the writing round
ORDER = form("[\x00-\x09\x0b-\x1f\x7f-\x9f\u200e\u200f\u2028-\u202e\u2066-\u2069]")
# bytes that were typed and that Python hasn't decoded, also as it quotes them
TYPED = form(r"(?:[\udc80-\udcff]|\\udc[89a-f][0-9a-f])+")
QUOTED = form(r"\\udc([0-9a-f]{2})")
LONE = form("[\ud800-\udc9f\udd00-\udfff]")  # what is no character, and no byte that may be shown


def set_level(level: Level) -> None:
    """From now on so much is said."""
    global _level
    _level = level


def is_quiet() -> bool:
    return _level == Level.QUIET


def prepare() -> None:
    """From now on bytes go out as they were typed, also where Python knows no coding but ASCII."""
    file = sys.stderr
    if isinstance(file, io.TextIOWrapper) and \
            codecs.lookup(file.encoding).name in ("ascii", "utf-8"):
        file.reconfigure(encoding="utf-8", errors="surrogateescape")


def typed(found: "re.Match[str]") -> str:
    """What was typed, in UTF-8 where it is that, and else bytes."""
    text = QUOTED.sub(lambda it: chr(0xdc00 + int(it[1], 16)), found[0])
    return text.encode("utf-8", "surrogateescape").decode("utf-8", "surrogateescape")


def escaped(found: "re.Match[str]") -> str:
    """The bytes of a character as they stand in Python."""
    if "\udc80" <= found[0] <= "\udcff":
        return f"\\x{ord(found[0]) - 0xdc00:02x}"
    octets = found[0].encode("utf-8", "surrogatepass")
    return "".join(f"\\x{octet:02x}" for octet in octets)


def printable(text: str) -> str:
    """A text in which nothing, such as a file's name, is an order to a terminal."""
    return LONE.sub(escaped, ORDER.sub(escaped, TYPED.sub(typed, text)))


def say(text: str, end: str = "\n") -> None:
    """Says a line, or more, if that can be."""
    show(printable(text) + end)


def show(text: str) -> None:
    """Puts a text on the terminal as it is."""
    if sys.stderr is None:
        return  # to print would go to standard output
    try:
        print(text, end="", file=sys.stderr, flush=True)
    except (OSError, ValueError):
        pass


def say_at_once(text: str) -> None:
    """Says a line, if that can be without waiting for who reads it."""
    try:
        if os.name == "nt" or select.select([], [2], [], 0)[1]:
            os.write(2, f"{printable(text)}\n".encode("utf-8", "surrogateescape"))
    except (OSError, ValueError):
        pass


def warn(words: str) -> None:
    """Says what went wrong, or what somebody has to know."""
    say("aprs-net: " + words.replace("\n", "\\x0a"))


def warn_once(words: str) -> None:
    """The same, however often it is said."""
    if words not in _said:
        _said.add(words)
        warn(words)


def note(words: str) -> None:
    """Says what is good to know, unless quiet was asked for."""
    if _level > Level.QUIET:
        warn(words)


def detail(words: str) -> None:
    """Says what is done, where that was asked for."""
    if _level == Level.VERBOSE:
        warn(words)
