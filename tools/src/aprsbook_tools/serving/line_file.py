"""An append-only file of lines that is a set: its state, and what is added to it."""
import contextlib
import errno
import os
import threading
from typing import Iterator, List, NamedTuple, Optional, Set, Tuple

from aprsbook_tools.formats import log_file
from aprsbook_tools.serving.states import EMPTY, State, hash_of, lines_of
from aprsbook_tools.system import atomic, disk

try:
    import fcntl
except ImportError:  # not on Windows
    fcntl = None  # type: ignore[assignment]

FLAGS = os.O_RDWR | os.O_CREAT | os.O_APPEND | getattr(os, "O_BINARY", 0)


class Batch(NamedTuple):
    """Lines that are to be added. `after` is the state for which all are new; where it is None,
    only those are added that aren't there."""
    lines: List[bytes]
    after: Optional[State] = None


class Taken(NamedTuple):
    """What came of a batch: the state then, how many lines were added, and how many were there
    before. `fits` says whether the batch was for the state that was found."""
    state: State
    added: int = 0
    known: int = 0
    fits: bool = True


class LineFile:
    """A file of lines that is a set. Another program may append to it too."""

    def __init__(self, path: str, most: int) -> None:
        self.path, self.most = path, most
        self.lock = threading.Lock()  # one thread at a time reads it or adds to it
        self.state = EMPTY
        self.hashes: Optional[Set[int]] = None  # of its lines, while somebody sends what is there
        self._left = (-1, -1)  # its number and size as it was left; another one is read anew
        self._is_named = False  # whether its name is surely on the disk

    def look(self, with_hashes: bool = False) -> State:
        """The state of the file."""
        with self.lock:
            try:
                it = os.stat(self.path)
                self._look_at(it.st_ino, it.st_size)
            except FileNotFoundError:
                self._look_at(0, 0)
            if with_hashes and self.hashes is None:
                self.hashes = {hash_of(it) for it in self._lines()}
            return self.state

    def forget(self) -> None:
        """Hashes take memory, and can be read again."""
        self.hashes = None

    def _lines(self) -> Iterator[bytes]:
        size = self._left[1]
        return lines_of(self.path, size) if size > 0 else iter(())

    def _look_at(self, number: int, size: int) -> None:
        """Reads the file, where it isn't the one that was left."""
        if (number, size) == self._left:
            return
        if size:
            with open(self.path, "rb") as file:
                size = log_file.torn_from(file.fileno(), size)
        self.hashes, self._left = None, (number, size)
        state = EMPTY
        for line in self._lines():
            state = state.plus(line)
        self.state = state

    @contextlib.contextmanager
    def adding(self, batches: List[Batch], say: log_file.Say) -> Iterator["Addition"]:
        """What batches add. The file is held until the block ends, and read anew after a fault."""
        with self.lock:
            os.makedirs(os.path.dirname(self.path), exist_ok=True)
            file = os.open(self.path, FLAGS, 0o644)
            try:
                if fcntl is not None:
                    fcntl.flock(file, fcntl.LOCK_EX)
                # a desk's journal has other lines than a log
                is_journal = not self.path.endswith(".log")
                size = log_file.mend(self.path, file, say, is_journal)
                number = os.fstat(file).st_ino
                self._look_at(number, size)
                self._left = (-1, -1)
                lines: List[bytes] = []
                taken = [self._take(it, size, lines) for it in batches]
                octets = b"".join(it + b"\n" for it in lines)
                if octets and size + len(octets) > self.most:
                    raise OSError(errno.EDQUOT, os.strerror(errno.EDQUOT), self.path)
                addition = Addition(file, size, octets, taken)
                yield addition
                if addition.is_written:
                    self._left = (number, size + len(octets))
            finally:
                os.close(file)
                if self._left[1] < 0:
                    self.hashes = None

    def _take(self, batch: Batch, size: int, lines: List[bytes]) -> Taken:
        """What of a batch is added to the state, which becomes that behind it."""
        if batch.after is not None and batch.after != self.state:
            return Taken(self.state, fits=False)
        if batch.after is None and self.hashes is None:
            of_file = lines_of(self.path, size) if size else iter(())
            self.hashes = {hash_of(it) for part in (of_file, lines) for it in part}
        state, known = self.state, 0
        for line in batch.lines:
            of = hash_of(line)
            if batch.after is None and self.hashes is not None and of in self.hashes:
                known += 1
                continue
            if self.hashes is not None:
                self.hashes.add(of)
            lines.append(line)
            state = state.plus_hash(of)
        added, self.state = state.lines - self.state.lines, state
        return Taken(state, added, known)

    def sync(self) -> None:
        """Waits until all that was added is on the disk, and the file's name."""
        try:
            file = os.open(self.path, os.O_RDONLY)
        except FileNotFoundError:
            return  # somebody took it away
        try:
            sync_data(file)
        finally:
            os.close(file)
        if not self._is_named:
            folder = os.path.dirname(self.path)
            for it in (folder, os.path.dirname(folder) or "."):
                disk.sync_folder(it)
            self._is_named = True


class Addition:
    """What is added to a file by one round of batches, and what came of each."""

    def __init__(self, file: int, size: int, octets: bytes, taken: List[Taken]) -> None:
        self.file, self.size, self.octets, self.taken = file, size, octets, taken
        self.is_written = False

    def write(self) -> None:
        """Appends it, whole or not at all; once."""
        if self.is_written:
            return
        try:
            left = memoryview(self.octets)
            while left:
                left = left[os.write(self.file, left):]
        except OSError:
            os.ftruncate(self.file, self.size)
            raise
        self.is_written = True


def sync_data(file: int) -> None:
    """Waits until what was written of a file is on the disk."""
    getattr(os, "fdatasync", os.fsync)(file)


def holes_in(path: str, size: int) -> Tuple[int, List[bytes]]:
    """Where the first line with NUL bytes begins among the last bytes of a file, so many at most,
    which a power failure left, and the whole lines behind it; the file's size where there is
    none."""
    with open(path, "rb") as file:
        end = file.seek(0, os.SEEK_END)
        begin = file.seek(max(0, end - size))
        octets = file.read()
    at = octets.find(b"\0")
    if at < 0:
        return end, []
    at = octets.rfind(b"\n", 0, at) + 1
    if not at and begin:
        return holes_in(path, end)  # the line begins before these bytes
    lines = [it for it in octets[at:].split(b"\n")[:-1] if it and b"\0" not in it]
    return begin + at, lines


def close_holes(path: str, size: int, say: log_file.Say) -> None:
    """Takes lines with NUL bytes out of the end of a file; those behind them stay."""
    try:
        whole_size, behind = holes_in(path, size)
        if whole_size == os.path.getsize(path):
            return
    except FileNotFoundError:
        return
    new = atomic.beside(path, "mended")
    with open(path, "rb") as old, open(new, "wb") as file:
        for block in iter(lambda: old.read(min(1 << 20, whole_size - old.tell())), b""):
            file.write(block)
        file.writelines(it + b"\n" for it in behind)
        file.flush()
        os.fsync(file.fileno())
    os.replace(new, path)
    disk.sync_folder(os.path.dirname(path))
    say(f"{path} had NUL bytes, which a power failure left; its lines behind them stay")
