"""Logs: a line for each frame, of its moment, its receiver, and the KISS frame in hexadecimal.

A line is written whole or not at all. What a crash or a full disk left of one is taken off before
the next is written, and nothing is taken off a file that isn't a log. While a log can't be written,
its lines are held.
"""
import collections
import errno
import os
from typing import IO, Callable, Deque, Dict, Iterator, NamedTuple, Optional, Set, Tuple

from aprsbook_tools.errors import Fault, said
from aprsbook_tools.formats import forms, limits, moments
from aprsbook_tools.formats.forms import form
from aprsbook_tools.system import disk, long_lines
from aprsbook_tools.system.clock import CLOCK

try:
    import fcntl
except ImportError:  # not on Windows
    fcntl = None  # type: ignore[assignment]

LINE = limits.MOST_LINE  # bytes before the line feed: no line of a log is longer
BLOCK = 65536  # bytes that are read at a time
HELD = 10_000  # frames: so many are held while there is no room
RECEIVER = forms.RECEIVER
FORM = form(
    rb"([0-9TZ.:-]{20,24}) (%s) ([0-9A-Fa-f]*)" % RECEIVER.encode())
TORN = form(rb"[0-9TZ.:-]{1,24}(?: [A-Za-z0-9_-]{0,16}(?: [0-9A-Fa-f]*)?)?\r?")
MOMENT = b"0000-00-00T00:00:00.000Z "  # a line begins so, with other digits
DIGITS = bytes.maketrans(b"123456789", b"000000000")
REST = form(rb"[A-Za-z0-9_-]{0,16}(?:(?<! ) [0-9A-Fa-f]*)?\r?")
SYNC = 5.0  # seconds: what was written is on the disk after so many
LOCK = 1.0  # seconds for another program to end with a log, before it is said

Say = Callable[[str], None]


class Line(NamedTuple):
    """A line of a log; the digits are as they stand there."""
    moment: int
    receiver: str
    digits: bytes

    def write(self) -> bytes:
        """The line in its one spelling."""
        moment = moments.text_of(self.moment).encode()
        return b"%s %s %s\n" % (moment, self.receiver.encode(), self.digits)


def of_frame(moment: int, receiver: str, framed: bytes) -> Line:
    """The line of a frame that stands between two FEND."""
    return Line(moment, receiver, framed.hex().encode())


def read_line(text: bytes) -> Optional[Line]:
    """A line, without its line feed; None where it is no whole line of a log."""
    found = FORM.fullmatch(text)
    if not found or len(found[3]) % 2 or len(text) > LINE:
        return None
    try:
        return Line(moments.milliseconds(found[1].decode()), found[2].decode(), found[3])
    except ValueError:
        return None


def read_whole(line: bytes) -> Optional[Line]:
    """A line with its line feed, perhaps behind a carriage return; None where it isn't whole."""
    if not line.endswith(b"\n"):
        return None
    return read_line(line[:-2] if line.endswith(b"\r\n") else line[:-1])


def lines_in(file: IO[bytes], name: str) -> Iterator[Tuple[bytes, Line]]:
    """The lines of a log, each as it stands and as it is read; a Fault at one that isn't whole."""
    for number, text in enumerate(long_lines.bounded(file), 1):
        line = read_whole(text)
        if line is None:
            raise Fault(f"{name}: line {number}: no line of a log (aprs-net mend takes it out)")
        yield text, line


def is_torn(text: bytes) -> bool:
    """Whether a last line without a line feed may be one that is being written."""
    return len(text) <= LINE + 1 and TORN.fullmatch(text) is not None


def moved(line: bytes, read: Line, seconds: int) -> bytes:
    """A line whose moment is so much later; all else stays, also in whole seconds what is so."""
    new = moments.text_of(read.moment + 1000 * seconds)
    if not line.startswith(moments.text_of(read.moment).encode()):
        new = new.replace(".000Z", "Z")
    return new.encode() + line[len(new):]


def begins_as_log(octets: bytes) -> bool:
    """Whether bytes begin with a line of a log."""
    return read_whole(octets[:octets.find(b"\n") + 1]) is not None


def read_at(file: int, size: int, at: int) -> bytes:
    """Bytes of a file from a place on."""
    if hasattr(os, "pread"):
        return os.pread(file, size, at)
    os.lseek(file, at, os.SEEK_SET)
    return os.read(file, size)


def last_feed(file: int, size: int) -> int:
    """Where the last line feed of a file's first bytes stands, or -1."""
    while size > 0:
        begin = max(0, size - BLOCK)
        at = read_at(file, size - begin, begin).rfind(b"\n")
        if at >= 0:
            return begin + at
        size = begin
    return -1


def torn_from(file: int, size: int) -> int:
    """Where a log's torn end begins: behind its last line feed, or where a last line has NUL bytes,
    which a power failure left."""
    if size and read_at(file, 1, size - 1) != b"\n":
        size = last_feed(file, size) + 1
    while size:
        before = last_feed(file, size - 1) + 1
        if b"\0" not in read_at(file, min(size - before, BLOCK), before):
            break
        size = before
    return size


def begins_line(octets: bytes) -> bool:
    """Whether bytes may be the beginning of a line."""
    moment, rest = octets[:len(MOMENT)], octets[len(MOMENT):]
    return moment.translate(DIGITS) == MOMENT[:len(moment)] and REST.fullmatch(rest) is not None


def is_log(file: int, whole: int, size: int) -> bool:
    """Whether a file has a line of a log, its first or its last whole one; or nothing but the
    beginning of one, and NUL bytes, which a power failure left."""
    if whole:
        before = last_feed(file, whole - 1) + 1
        return begins_as_log(read_at(file, LINE + 2, 0)) or (
            whole - before <= LINE + 2
            and read_whole(read_at(file, whole - before, before)) is not None)
    begin = read_at(file, min(size, LINE), 0).split(b"\0")[0]
    if not begins_line(begin.rstrip(b"\n")):
        return False
    rest = range(len(begin), size, BLOCK)
    return not any(read_at(file, BLOCK, at).strip(b"\0\n") for at in rest)


def mend(path: str, file: int, say: Say, is_of_lines: bool = False) -> int:
    """Takes a torn end off a log, and says so; its size then. OSError of what is no log, but for a
    file that is known to have other lines."""
    size = os.fstat(file).st_size
    whole = torn_from(file, size)
    if size and not is_of_lines and not is_log(file, whole, size):
        raise OSError(errno.EINVAL, "it is no log, and isn't written to", path)
    if whole < size:
        torn = read_at(file, min(size - whole, 200), whole)
        os.ftruncate(file, whole)
        say(f"{path} ended in a torn line of {size - whole} bytes, which was taken off: {torn!r}")
    return whole


def lock(path: str, file: int, say: Say) -> None:
    """Waits until no other program writes a log; a long wait is said."""
    if fcntl is None:
        return
    end = CLOCK.seconds() + LOCK
    while CLOCK.seconds() < end:
        try:
            fcntl.flock(file, fcntl.LOCK_EX | fcntl.LOCK_NB)
            return
        except BlockingIOError:
            CLOCK.wait(0.01)
    say(f"{path}: another program holds its lock: frames wait")
    fcntl.flock(file, fcntl.LOCK_EX)


def make_folder(folder: str) -> None:
    """Makes a folder where there is none. OSError where it can't be, as below a link to nothing."""
    try:
        os.makedirs(folder, exist_ok=True)
    except FileExistsError as fault:
        at = fault.filename
        words = "it is a link that leads nowhere" if os.path.islink(at) else "it is no folder"
        raise OSError(errno.ENOTDIR, words, at) from fault


def append(path: str, line: bytes, say: Say, sync: bool = False) -> bool:
    """Puts a line behind a log, whole or not at all, and on the disk where that is asked for.
    Whether the log is new."""
    folder = os.path.dirname(path)
    if folder:
        make_folder(folder)
    flags = os.O_RDWR | os.O_CREAT | os.O_APPEND | getattr(os, "O_BINARY", 0)
    file = disk.open_own(path, flags, 0o644)
    try:
        lock(path, file, say)
        size = mend(path, file, say)
        try:
            if os.write(file, line) < len(line):
                raise OSError(errno.ENOSPC, os.strerror(errno.ENOSPC), path)
        except OSError as fault:
            if os.fstat(file).st_size > size:
                os.ftruncate(file, size)
            raise OSError(fault.errno, fault.strerror, path) from fault
        if sync:
            disk.sync(file)
    finally:
        os.close(file)
    return not size


class Logs:
    """The logs below a folder, DAY/NAME.log; what can't be written yet is held. What was written is
    on the disk after so many seconds, if `write` or `sync` is called then."""

    def __init__(self, folder: str, say: Say, seconds: float = SYNC,
                 on_write: Callable[[str], object] = lambda path: None) -> None:
        self.folder, self.say, self.seconds = folder, say, seconds
        self.on_write = on_write  # is told the path of a log that got a line
        self.held: Deque[Tuple[str, bytes]] = collections.deque()
        self.lost = 0
        self.unsynced: Dict[str, None] = {}  # logs, in the order of their first lines
        self.folders: Set[str] = set()  # with new names
        self.since = 0.0  # when the first of these was written
        self.mount = disk.mount_of(folder)
        self.told = ("", 0)  # why frames are held, and how many hundreds

    def put(self, name: str, line: Line, kind: str = "log") -> None:
        """Writes a line into the log of its day and of a name, or holds it."""
        written = line.write()
        day = written[:10].decode()
        self.held.append((os.path.join(self.folder, day, f"{name}.{kind}"), written))
        if len(self.held) > HELD:
            self.held.popleft()
            self.lost += 1
        self.write()

    def write(self) -> None:
        """Writes what is held."""
        waited = len(self.held)
        try:
            while self.held:
                path, line = self.held[0]
                self.check_mount()
                self.note(path, append(path, line, self.say, sync=not self.seconds))
                self.held.popleft()
                self.on_write(path)
        except OSError as fault:
            self.tell(said(fault))
        else:
            if self.told[0]:
                self.say(f"written, of those that were held: {waited}")
            self.told = ("", 0)
        self.sync(self.seconds)

    def check_mount(self) -> None:
        """OSError where the disk of the logs, as a stick, was taken away: what is written below its
        folder then lies on another disk, and is hidden once it is back."""
        if not os.path.ismount(self.mount):
            raise OSError(errno.ENODEV, "the disk isn't mounted any more", self.mount)
        self.mount = disk.mount_of(self.folder)

    def tell(self, why: str) -> None:
        """Says that frames are held: once, and then by the hundred."""
        hundreds = (len(self.held) + self.lost) // 100
        if self.told != (why, hundreds):
            self.told = (why, hundreds)
            self.say(f"{why}: frames that are held: {len(self.held)}, lost: {self.lost}")

    def note(self, path: str, is_new: bool) -> None:
        """Remembers what isn't on the disk yet."""
        if not self.unsynced:
            self.since = CLOCK.seconds()
        self.unsynced[path] = None
        if is_new:
            day = os.path.dirname(path)
            self.folders.update({day or ".", os.path.dirname(day) or "."})

    @property
    def due(self) -> Optional[float]:
        """In how many seconds what was written has to be on the disk; None where it is."""
        return max(0.0, self.since + self.seconds - CLOCK.seconds()) if self.unsynced else None

    def sync(self, seconds: float = 0.0) -> None:
        """Waits until what was written so many seconds ago is on the disk."""
        if not self.unsynced or CLOCK.seconds() < self.since + seconds:
            return
        logs, folders = [*self.unsynced], sorted(self.folders)
        self.unsynced.clear()
        self.folders.clear()
        for path in logs if self.seconds else []:
            try:
                file = disk.open_own(path, os.O_RDONLY)
                try:
                    disk.sync(file)
                finally:
                    os.close(file)
            except FileNotFoundError:
                pass  # it has another name now
            except OSError as fault:
                self.say(f"{said(fault)}: what was written there may not be on the disk")
        for folder in folders:
            disk.sync_folder(folder)

    def end(self) -> int:
        """Writes what can be written, and says what is lost for good; the status to end with."""
        self.write()
        self.sync()
        self.lost += len(self.held)
        self.held.clear()
        if self.lost:
            self.say(f"frames that are lost: {self.lost}")
        return 1 if self.lost else 0
