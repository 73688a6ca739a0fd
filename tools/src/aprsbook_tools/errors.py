"""The one exception: what went wrong, in words, and the exit status, as of aprsbook."""
import enum
import errno

from aprsbook_tools import TYPE_CHECKING

if TYPE_CHECKING:
    from typing import Union


class ExitStatus(enum.IntEnum):
    """How a command ends: the same in all commands, and the first five as of aprsbook."""

    DONE = 0
    INPUT = 1
    ARGUMENTS = 2
    OUTPUT = 3
    MEMORY = 4
    FOUND = 5
    MISSING = 6


MEANINGS = {
    ExitStatus.DONE: "All went well.",
    ExitStatus.INPUT: "An input can't be opened, is faulty or has another gap.",
    ExitStatus.ARGUMENTS: "The arguments are wrong, or an output is an input or a log.",
    ExitStatus.OUTPUT: "The output was refused, as on a full disk.",
    ExitStatus.MEMORY: "Memory was refused.",
    ExitStatus.FOUND: "What was asked about was found: clocks that differ, or with --fail somebody "
    "of the roster who wasn't heard.",
    ExitStatus.MISSING: "A program or a service that is needed isn't there.",
}


class Fault(Exception):
    """What ends a command. `by` is the program that says so."""

    def __init__(self, words: str, status: int = ExitStatus.INPUT, by: str = "aprs-net") -> None:
        super().__init__(words)
        self.words = words
        self.status = status
        self.by = by

    def __str__(self) -> str:
        return f"{self.by}: {self.words}"


NO_ROOM = (errno.ENOSPC, errno.EDQUOT)


def words_of(fault: "Union[Fault, OSError]") -> str:
    """What a command says of what ended it. Files without a name are temporary ones."""
    if isinstance(fault, Fault):
        return str(fault)
    if fault.filename is not None or fault.errno not in NO_ROOM:
        return f"aprs-net: {said(fault)}"
    import tempfile  # only where something is wrong

    return (f"aprs-net: {tempfile.gettempdir()}: {said(fault)} (TMPDIR names another folder for "
            "temporary files)")


def said(fault: OSError) -> str:
    """A system's fault in words: the file, where there is one, and what is wrong."""
    words = fault.strerror or str(fault)
    return f"{fault.filename}: {words}" if fault.filename is not None else words
