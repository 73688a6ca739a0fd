"""Forms of texts: regular expressions that are compiled once they are asked. To compile those of
all modules takes as long as a small report."""
import re

from aprsbook_tools import TYPE_CHECKING
from aprsbook_tools.formats import limits

if TYPE_CHECKING:
    from typing import Any, AnyStr

# the name of a receiver, in logs and books
RECEIVER = f"[A-Za-z0-9_-]{{1,{limits.MOST_NAME}}}"
ASKED = ("match", "fullmatch", "search", "findall", "finditer", "split", "sub", "subn")


class Form:
    """A regular expression, which is as a compiled one once it was asked for the first time."""

    def __init__(self, pattern: "AnyStr", flags: int) -> None:
        self.pattern: Any = pattern
        self.flags = flags

    def __getattr__(self, name: str) -> "Any":
        """Is asked for what isn't there yet."""
        if name not in ASKED:
            raise AttributeError(name)
        compiled = re.compile(self.pattern, self.flags)
        self.__dict__.update((it, getattr(compiled, it)) for it in ASKED)
        return self.__dict__[name]


def form(pattern: "AnyStr", flags: int = 0) -> "re.Pattern[AnyStr]":
    """What is as `re.compile` makes it."""
    made: Any = Form(pattern, flags)
    result: "re.Pattern[AnyStr]" = made
    return result
