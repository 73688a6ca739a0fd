"""Logs and books as files: those below folders, their days, and compressed ones unpacked."""
from __future__ import annotations

import contextlib
import io
import os
import re
import stat

from aprsbook_tools import TYPE_CHECKING, stderr
from aprsbook_tools.errors import ExitStatus, Fault, said
from aprsbook_tools.formats import book_file
from aprsbook_tools.formats.forms import form
from aprsbook_tools.records import NamedTuple
from aprsbook_tools.system import packing, programs, temporary

if TYPE_CHECKING:
    from typing import IO, Dict, Iterable, Iterator, List, Optional, Sequence, Set, Tuple

KINDS = (".log", ".book")  # the endings of what isn't packed
MISNAMED = form(r"[^.].*\.log(?![a-z]).*", re.DOTALL | re.IGNORECASE)
NAMED = 5  # files that are named in one line
DAY = form(r"(?:19|20)[0-9]{2}-[0-9]{2}-[0-9]{2}")
DIGITS = str.maketrans("123456789", "000000000")


class Input(NamedTuple):
    """A log or a book. `day` is that of its path, or else of a log's first line, or nothing.
    `fault` says why it can't be read, where that is known."""
    day: str
    path: str
    size: int
    changed: int
    fault: str = ""

    @property
    def is_book(self) -> bool:
        return kind_of(self.path) == ".book"

    @property
    def packing(self) -> str:
        """The ending of a compressed file, or nothing."""
        ending = os.path.splitext(self.path)[1]
        return ending if ending in packing.OPENERS else ""


def kind_of(path: str) -> str:
    """The ending of a log or a book, which may be packed, or nothing; what begins with a dot is
    neither."""
    name, ending = os.path.splitext(os.path.basename(path))
    if ending in packing.OPENERS:
        name, ending = os.path.splitext(name)
    return ending if ending in KINDS and not name.startswith(".") else ""


def is_input(path: str) -> bool:
    """Whether a name is that of a log or a book."""
    return kind_of(path) != ""


def is_day(text: str) -> bool:
    """Whether a text is a day, as 2024-06-21."""
    return text.translate(DIGITS) == "0000-00-00" and text[:2] in ("19", "20")


def day_said(path: str) -> str:
    """The day that a path says, as 2024-06-21, or nothing."""
    whole = os.path.abspath(path)
    found: List[str] = DAY.findall(whole) if whole.count("-") > 1 else []
    return found[-1] if found else ""


def day_of(path: str) -> str:
    """The day of a log or a book, as 2024-06-21, or nothing."""
    said_day = day_said(path)
    if said_day:
        return said_day
    try:
        with opened(path) as file:
            begin = file.read(10).decode("ascii", "replace")
    except packing.faults(OSError):
        return ""
    return begin if is_day(begin) else ""


def is_file(path: str) -> bool:
    """Whether a path is that of a file, or of the device that is as an empty one."""
    return os.path.isfile(path) or os.path.realpath(path) == os.devnull


def look_at(path: str) -> Input:
    """A file as an input."""
    try:
        status = os.stat(path)
    except OSError:
        return Input(day_said(path), path, 0, 0, "no file")
    if not is_file(path):
        return Input(day_said(path), path, 0, 0, "no file")
    fault = ""
    if not os.access(path, os.R_OK):
        fault = "no leave to read it"
    elif not status.st_size and programs.BOOK.search(path):
        fault = "empty, which no book is"
    elif path.endswith(".zst") and not programs.is_there("zstd"):
        fault = "the program zstd isn't there: install zstd"
    day = day_said(path) if fault else day_of(path)
    return Input(day, path, status.st_size, status.st_mtime_ns, fault)


def say_what_is_misnamed(folder: str, names: Iterable[str]) -> None:
    """Tells once of files whose names have .log in them and end in another way."""
    found = sorted(it for it in names if not is_input(it) and MISNAMED.fullmatch(it))
    if found:
        more = f" and {len(found) - NAMED} more" if len(found) > NAMED else ""
        stderr.warn_once(f"{folder}: passed over, since a log's name ends in .log, .log.gz, "
                         f".log.xz, .log.bz2 or .log.zst: {', '.join(found[:NAMED])}{more}")


def walk(folder: str) -> Iterator[Tuple[str, List[str], List[str]]]:
    """The folders at and below a folder, behind links too, each with the names of folders, of which
    some may be taken out, and of files. One that a link leads back to is looked at once; what
    begins with a dot isn't."""
    def refuse(fault: OSError) -> None:
        raise Fault(said(fault)) from fault

    seen: Set[str] = set()
    for at, folders, files in os.walk(folder, onerror=refuse, followlinks=True):
        real = os.path.realpath(at)
        folders[:] = sorted(it for it in folders if not it.startswith("."))
        if real in seen:
            folders.clear()
            continue
        seen.add(real)
        yield at, folders, sorted(files)


def below(folder: str) -> List[Input]:
    """The logs and books below a folder, by day and path; a file of two names once."""
    seen: Set[str] = set()
    result: List[Input] = []
    for at, _, files in walk(folder):
        say_what_is_misnamed(at, files)
        for name in files:
            path = os.path.join(at, name)
            if is_input(path) and os.path.realpath(path) not in seen:
                seen.add(os.path.realpath(path))
                result.append(look_at(path))
    return sorted(result)


def of(paths: Iterable[str]) -> List[Input]:
    """Files that are named, and those below folders that are named; each once."""
    found: Dict[str, Input] = {}
    for path in paths:
        for it in below(path) if os.path.isdir(path) else [look_at(path)]:
            found.setdefault(os.path.realpath(it.path), it)
    return sorted(found.values())


def opened(path: str) -> IO[bytes]:
    """A file to read from, unpacked."""
    opener = packing.OPENERS.get(os.path.splitext(path)[1])
    return opener(path) if opener else open(path, "rb")


@contextlib.contextmanager
def unpacking(path: str) -> Iterator[IO[bytes]]:
    """A file to read from, unpacked; a Fault where that can't be done to its end."""
    try:
        with opened(path) as file:
            yield file
    except packing.faults(OSError) as fault:
        if isinstance(fault, OSError) and fault.errno is not None:
            raise  # the system's, and not of what is packed
        raise Fault(f"{path}: can't be unpacked to its end: {fault}") from fault


def blocks(path: str) -> Iterator[bytes]:
    """What a file has, unpacked; a Fault of its own where it can't be read."""
    try:
        with unpacking(path) as file:
            for block in iter(lambda: file.read(1 << 16), b""):
                programs.go_on()
                yield block
    except OSError as fault:
        raise Fault(f"{path}: {fault.strerror or fault}") from fault


def unpack(it: Input, into: str) -> None:
    """Writes an input, read to its end and not compressed, into a file."""
    try:
        with open(into, "wb") as file:
            file.writelines(blocks(it.path))
    except OSError as fault:
        raise Fault(f"{into}: {fault.strerror or fault}", ExitStatus.OUTPUT) from fault


def no_option(path: str) -> str:
    """A path that no program takes for an option."""
    return os.path.join(".", path) if path.startswith("-") else path


def is_utf_8(path: str) -> bool:
    """Whether the bytes of a path are UTF-8: the programs take no other."""
    try:
        os.fsencode(path).decode("utf-8")
    except UnicodeError:
        return False
    return True


def is_pipe(path: str) -> bool:
    """Whether a path is a pipe, as the shell's <(..), which a program that is run doesn't have."""
    try:
        return stat.S_ISFIFO(os.stat(path).st_mode)
    except OSError:
        return False


def is_unpacked(it: Input, is_copied: bool) -> bool:
    """Whether programs read a copy of an input: of one that is compressed, and where all are copied
    of what can be read."""
    return bool(it.packing) or (is_copied and not it.fault)


def are_as_they_are(items: Iterable[Input], is_copied: bool = False) -> bool:
    """Whether programs read all inputs where they are."""
    return all(is_utf_8(it.path) and not is_unpacked(it, is_copied) for it in items)


def plain(items: Iterable[Input], folder: str, is_copied: bool = False) -> Iterator[str]:
    """The paths of inputs as programs read them: copies are in a folder, and where a path isn't
    UTF-8 there is a link to it."""
    for number, it in enumerate(items):
        if is_unpacked(it, is_copied):
            path = os.path.join(folder, f"{number:06}.unpacked")
            unpack(it, path)
            yield path
        elif not is_utf_8(it.path):
            path = os.path.join(folder, f"{number:06}.named")
            os.symlink(os.path.abspath(it.path), path)
            yield path
        else:
            yield no_option(it.path)


@contextlib.contextmanager
def named(paths: Sequence[str]) -> Iterator[List[str]]:
    """The names of files as programs take them: where a path isn't UTF-8 there is a link to it, of
    which a Fault says the path."""
    with contextlib.ExitStack() as stack:
        links: Dict[str, str] = {}
        for number, path in enumerate(paths):
            if not is_utf_8(path):
                if not links:
                    folder = stack.enter_context(temporary.folder())
                links[path] = os.path.join(folder, f"{number:06}.named")
                os.symlink(os.path.abspath(path), links[path])
        try:
            yield [links.get(it) or no_option(it) for it in paths]
        except Fault as fault:
            for path, link in links.items():
                fault.words = fault.words.replace(link, path)
            raise


def whole_lines(octets: bytes) -> List[bytes]:
    """The lines of a log that are whole, each with its line feed; carriage returns before it go."""
    from aprsbook_tools.formats import log_file  # most reports read no log themselves

    return [line.rstrip(b"\r\n") + b"\n" for line in io.BytesIO(octets)
            if log_file.read_whole(line) is not None]


def begins_as_book(path: str) -> bool:
    """Whether a file that isn't packed begins as a book, whatever its name."""
    with open(path, "rb") as file:
        return file.read(len(book_file.BEGIN)) == book_file.BEGIN


def gap_of(path: str) -> Optional[int]:
    """The gap of a book file in seconds; None of what is no book."""
    with unpacking(path) as file:
        return book_file.gap_of(file.read(book_file.HEAD))
