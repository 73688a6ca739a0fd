"""What is new in the logs below a folder, whoever writes them, and who waits for it.

A listener is no more than how far it has read each file. What it lacks is read from the file, so a
slow one costs no memory, and one that comes again goes on where it stopped.
"""
import asyncio
import datetime
import os
import re
import time
from typing import Callable, Dict, Iterable, Iterator, List, NamedTuple, Optional, Set, Tuple

from aprsbook_tools.books import inputs, net_logs
from aprsbook_tools.errors import Fault, words_of
from aprsbook_tools.formats import log_file
from aprsbook_tools.serving import entries

EACH = 0.2  # seconds: how often it is looked for what others write
PIECE = 1 << 16  # bytes of a file in one event
LONGEST = entries.ENTRY + 1  # bytes of an event that is one line, as a course that a desk has set
TO_COME = 10.0  # seconds: how often it is looked for days to come
LOG = re.compile(rf"({log_file.RECEIVER})\.log", re.ASCII)
PLAIN = re.compile(rb"[ -~\n]*")  # what an event can carry


class Log(NamedTuple):
    """A file that is handed out: its path, and its size up to the last line feed."""
    path: str
    size: int


class Piece:
    """Whole lines of a file: where they begin and end, and the event that says them, or that there
    is something that none can say."""

    def __init__(self, name: str, begin: int, end: int, octets: bytes) -> None:
        self.begin, self.end = begin, end
        head = f"data: {name} {begin} {end}\n".encode()
        if octets and PLAIN.fullmatch(octets):
            lines = octets[:-1].replace(b"\n", b"\ndata: ")
            self.event = b"event: lines\n" + head + b"data: " + lines + b"\n\n"
        else:
            self.event = b"event: grown\n" + head + b"\n"


def shown_days() -> List[str]:
    """Yesterday and today in UTC, and tomorrow, where a clock is ahead at midnight."""
    tomorrow = datetime.datetime.now(datetime.timezone.utc) + net_logs.DAY
    return [*net_logs.last_days(), f"{tomorrow:%Y-%m-%d}"]


class Hub:
    """The logs of the last days, or of those that are named, and the desks' journals."""

    def __init__(self, folder: str, days: Optional[List[str]]) -> None:
        self.folder, self._days = folder, days
        self.logs: Dict[str, Log] = {}  # by the names by which they are asked for
        self.sizes: Dict[str, int] = {}  # of the files as they were seen
        self.waking: Set[Callable[[str], None]] = set()
        self.last: Dict[str, Piece] = {}  # of each log, since most listeners want just that
        self.has_ended = False

    @property
    def days(self) -> List[str]:
        return self._days or shown_days()

    def paths(self) -> Iterable[str]:
        for _, folder in net_logs.folders_of(self.folder, self.days):
            yield from files_in(folder, ".log")
        yield from files_in(os.path.join(self.folder, entries.FOLDER), entries.SUFFIX)

    def name_of(self, path: str) -> str:
        return os.path.relpath(path, self.folder).replace(os.sep, "/")

    def look(self) -> None:
        """Looks for what has grown, and for what is gone."""
        names = set()
        for path in self.paths():
            names.add(self.name_of(path))
            self.look_at(path)
        for name in self.logs.keys() - names:
            del self.logs[name]
            self.last.pop(name, None)
            self.sizes.pop(name, None)
            self.wake(name)

    def look_at(self, path: str) -> None:
        """Looks at one file, and wakes who waits for it."""
        name = self.name_of(path)
        known = self.logs.get(name)
        try:
            if os.stat(path).st_size == self.sizes.get(name):
                return
            file = os.open(path, os.O_RDONLY)
        except OSError:
            return
        try:
            size = self.sizes[name] = os.fstat(file).st_size
            whole = log_file.torn_from(file, size)
        finally:
            os.close(file)
        if known is not None and whole == known.size:
            return
        if known is not None and whole < known.size:
            self.last.pop(name, None)
        self.logs[name] = Log(path, whole)
        self.wake(name)

    def wake(self, name: str) -> None:
        for it in [*self.waking]:
            it(name)

    def piece(self, name: str, begin: int) -> Optional[Piece]:
        """Whole lines of a log from a place on, or None where there are none."""
        log = self.logs.get(name)
        if log is None or begin >= log.size:
            return None
        last = self.last.get(name)
        if last is not None and last.begin == begin and last.end <= log.size:
            return last
        octets = lines_at(log, begin)
        end = begin + len(octets) if octets else end_of_line(log, begin)
        if end == begin:
            return None
        result = Piece(name, begin, end, octets)
        self.last[name] = result
        return result

    def begin_of_line(self, name: str, at: int) -> int:
        """Where the last whole line before a place begins, so that who listens can see that it is
        the same file; 0 where no line ends there."""
        log = self.logs.get(name)
        if log is None or not 0 < at <= log.size:
            return 0
        before = read(log, max(0, at - log_file.LINE - 2), min(at, log_file.LINE + 2))
        if not before.endswith(b"\n"):
            return 0
        return at - len(before) + before.rfind(b"\n", 0, -1) + 1

    def logs_to_come(self) -> Iterator[Tuple[str, str]]:
        """Receivers with logs of days to come, which no page shows, and those days."""
        last = max(self.days)
        for at, folders, files in inputs.walk(self.folder):
            day = os.path.basename(at)
            folders[:] = [it for it in folders if not inputs.DAY.fullmatch(it) or it > last]
            if at != self.folder and inputs.DAY.fullmatch(day):
                for found in filter(None, map(LOG.fullmatch, files)):
                    yield found[1], day

    async def run(self, on_day_to_come: Callable[[str, str], object], say: log_file.Say) -> None:
        """Looks again and again. A folder that can't be read is said once, and tried again."""
        asked, told = -TO_COME, ""
        while True:
            try:
                self.look()
                if time.monotonic() - asked >= TO_COME:
                    asked = time.monotonic()
                    for name, day in self.logs_to_come():
                        on_day_to_come(name, day)
                told = ""
            except Fault as fault:
                if words_of(fault) != told:
                    told = words_of(fault)
                    say(told)
            await asyncio.sleep(EACH)

    def end(self) -> None:
        """No listener waits any longer."""
        self.has_ended = True
        self.wake("")


def files_in(folder: str, suffix: str) -> List[str]:
    try:
        names = sorted(os.listdir(folder))
    except OSError:
        return []
    paths = (os.path.join(folder, it) for it in names
             if it.endswith(suffix) and not it.startswith("."))
    # an event is a line for each part of it, in UTF-8
    return [it for it in paths if it.isprintable() and inputs.is_utf_8(it)]


def lines_at(log: Log, begin: int) -> bytes:
    """The whole lines of a piece, or its first line, where that is longer and can be an entry."""
    octets = read(log, begin, PIECE)
    end = octets.rfind(b"\n") + 1
    if not end and len(octets) == PIECE:
        octets = read(log, begin, LONGEST)
        end = octets.find(b"\n") + 1
    return octets[:end]


def end_of_line(log: Log, begin: int) -> int:
    """Where a line ends that no event can carry; where it begins if it is gone."""
    at = begin
    while at < log.size:
        octets = read(log, at, PIECE)
        if not octets:
            return begin
        if b"\n" in octets:
            return at + octets.index(b"\n") + 1
        at += len(octets)
    return begin


def read(log: Log, begin: int, most: int) -> bytes:
    try:
        with open(log.path, "rb") as file:
            file.seek(begin)
            return file.read(max(0, min(most, log.size - begin)))
    except OSError:
        return b""
