"""Inputs as programs read them, and their book, read once: what is asked of it afterwards is of one
state of growing logs."""
from __future__ import annotations

import contextlib
import os

from aprsbook_tools import TYPE_CHECKING, stderr
from aprsbook_tools.books import inputs
from aprsbook_tools.errors import Fault
from aprsbook_tools.system import programs, streams, temporary

if TYPE_CHECKING:
    from typing import IO, ContextManager, Dict, Iterator, List, Optional, Sequence, Set, Tuple


def read_once(path: str) -> ContextManager[IO[bytes]]:
    """Standard input or a pipe, to read."""
    if path == "-":
        return streams.opened(None)
    return open(path, "rb")


@contextlib.contextmanager
def spooled(paths: Sequence[str]) -> Iterator[List[str]]:
    """The paths, in which files stand for what is read once: with what standard input has for `-`,
    or for none, and with what a pipe has, as the shell's <(..)."""
    once = dict.fromkeys(it for it in paths or ["-"] if it == "-" or inputs.is_pipe(it))
    if not once:
        yield list(paths)
        return
    with temporary.folder() as folder:
        copies: Dict[str, str] = {}
        for number, it in enumerate(once):
            name = "standard input" if it == "-" else os.path.basename(it)
            copies[it] = os.path.join(folder, f"{number} {name}")
            with read_once(it) as given, open(copies[it], "wb") as file:
                file.writelines(programs.blocks_in(given))
        files = [copies.get(it, it) for it in paths or ["-"]]
        try:
            yield files
        except Fault as fault:
            fault.words = as_typed(fault.words, paths, files)
            raise


def as_typed(words: str, paths: Sequence[str], files: Sequence[str]) -> str:
    """Words about the files that stand for paths, with these."""
    for it, file in zip(paths or ["-"], files):
        if it != file:
            words = words.replace(file, "standard input" if it == "-" else it)
    return words


@contextlib.contextmanager
def plain(paths: Sequence[str], most_copied: int = -1) -> Iterator[List[str]]:
    """The files that programs read for these: those below folders too, and compressed ones
    unpacked. Where there are no paths, or `-` alone, a program reads standard input. Inputs of no
    more bytes than `most_copied` are copied: whoever reads them twice reads one state."""
    if list(paths) in ([], ["-"]):
        streams.say_what_is_awaited()
        try:
            yield []
        except Fault as fault:
            if fault.words.endswith(": NoNewline"):  # a book may have all others
                fault.words += what_mends(fault, "standard input")
            raise
        return
    with contextlib.ExitStack() as stack:
        typed, paths = paths, stack.enter_context(spooled(paths))
        found = inputs.of(paths)
        if not found:
            raise Fault(f"no logs and no books are in {' '.join(paths)}")
        programs.check_inputs([it.path for it in found])
        for it in [it for it in found if it.fault and it.path not in paths]:
            if os.path.exists(it.path):
                raise Fault(f"{it.path}: {it.fault}")
            stderr.warn_once(f"{it.path}: {it.fault}: left out")  # a link that leads nowhere
            found.remove(it)
        is_copied = sum(it.size for it in found) <= most_copied
        has_copies = not inputs.are_as_they_are(found, is_copied)
        folder = stack.enter_context(temporary.folder()) if has_copies else ""
        files = list(inputs.plain(found, folder, is_copied))
        for it, file in zip(found, files):
            if it.is_book and it.packing and not os.path.getsize(file):
                raise Fault(f"{it.path} is empty, which no book is: put back a copy")
        try:
            yield files
        except Fault as fault:
            words = said_of(fault, [*zip(found, files)], folder, {*paths} - {*typed})
            raise Fault(words, fault.status, fault.by) from fault


def said_of(fault: Fault, read: Sequence[Tuple[inputs.Input, str]], folder: str, gone: Set[str]
            ) -> str:
    """What a program said of inputs, each with the file that it read, perhaps in a folder; and what
    mends a log that is there still."""
    words = fault.words
    for it, file in read:
        if not it.is_book:
            words += what_mends(fault, file, "" if it.path in gone else it.path)
        if folder and file.startswith(folder):
            words = words.replace(file, it.path)
    return words


def what_mends(fault: Fault, file: str, path: str = "") -> str:
    """What is said behind a Fault of a line of a log, which is read from a file."""
    if programs.fault_line(fault, file) is None or \
            os.path.isfile(file) and inputs.begins_as_book(file):
        return ""
    import shlex  # only where something is wrong

    named = f" {shlex.quote(path)} -o NEW.log" if path else ""
    return f": aprs-net mend{named} writes its whole lines"


def write_book(
    into: IO[bytes], paths: Sequence[str], gap: Optional[int], given: programs.Given = None
) -> None:
    """Writes the book of logs and books, or of what is given where there are none."""
    nothing: ContextManager[List[str]] = contextlib.nullcontext([])
    with plain(paths) if given is None else nothing as files:
        write_book_of(into, files, gap, given)


def write_book_of(
    into: IO[bytes], files: Sequence[str], gap: Optional[int], given: programs.Given = None
) -> None:
    """The same of files that programs read."""
    command = programs.with_gap(["aprsbook", "merge"], gap, files)
    programs.write_book(into, *command, given=given)
    into.flush()


def is_one_book(paths: Sequence[str]) -> bool:
    """Whether inputs are one book file, which needs no merge."""
    return len(paths) == 1 and paths[0].endswith(".book") and os.path.isfile(paths[0])


@contextlib.contextmanager
def book(paths: Sequence[str], gap: Optional[int], given: programs.Given = None) -> Iterator[str]:
    """The path of the book of inputs, or of standard input, in a folder that goes away. A Fault of
    it names the book that it is a copy of."""
    with temporary.folder() as folder:
        path = os.path.join(folder, "net.book")
        if given is not None or not is_one_book(paths):
            with open(path, "wb") as file:
                write_book(file, paths, gap, given)
            yield path
            return
        programs.check_inputs(paths)
        with streams.opened(paths[0]) as whole, open(path, "wb") as file:
            file.writelines(programs.blocks_in(whole))
        try:
            yield path
        except Fault as fault:
            fault.words = fault.words.replace(path, paths[0])
            raise


@contextlib.contextmanager
def book_of(files: Sequence[str], gap: Optional[int]) -> Iterator[str]:
    """The same of files that programs read."""
    with temporary.folder() as folder:
        path = os.path.join(folder, "net.book")
        with open(path, "wb") as file:
            write_book_of(file, files, gap)
        yield path
