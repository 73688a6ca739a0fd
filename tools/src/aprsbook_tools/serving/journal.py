"""One journal for all files: what several of them get at once is on the disk by one sync.

It has two halves of fixed size, which are written over again and again, so that a sync writes no
more than the blocks themselves. A record begins at a block of its own: no write that fails can harm
one of before. When a half is full, the files that its records were for are synced, and it is free.
"""
import concurrent.futures
import hashlib
import os
import re
from typing import Callable, Iterable, List, NamedTuple, Optional, Set, Tuple

from aprsbook_tools.serving.line_file import sync_data

BLOCK = 4096
SIZE = 4 << 20  # bytes of a half
HEAD = re.compile(rb"aprs-net ([0-9]{1,18}) ([0-9]{1,9}) ([0-9a-f]{32})\n")
PART = re.compile(rb"([ -~]{1,200}) ([0-9]{1,9})\n")

Part = Tuple[str, bytes]  # the name of a file, and whole lines that were added to it


class Record(NamedTuple):
    """What was added at once; the numbers of records go up by one."""
    number: int
    payload: bytes

    def write(self) -> bytes:
        head = b"aprs-net %d %d %s\n" % (self.number, len(self.payload), self.check)
        octets = head + self.payload
        return octets + bytes(-len(octets) % BLOCK)

    @property
    def check(self) -> bytes:
        octets = b"%d\n%s" % (self.number, self.payload)
        return hashlib.blake2b(octets, digest_size=16).hexdigest().encode()

    @property
    def parts(self) -> Iterable[Part]:
        at = 0
        while at < len(self.payload):
            found = PART.match(self.payload, at)
            if not found:
                return
            at = found.end() + int(found[2])
            yield found[1].decode(), self.payload[found.end():at]


def size_of(payload: int) -> int:
    """At most so many bytes of the journal a payload of a length takes."""
    return payload + 2 * BLOCK


def record_at(octets: bytes, at: int) -> Optional[Record]:
    """The record that begins there, or None where none does that is atomic."""
    found = HEAD.match(octets, at)
    if not found:
        return None
    end = found.end() + int(found[2])
    record = Record(int(found[1]), octets[found.end():end])
    return record if end <= len(octets) and record.check == found[3] else None


def records_in(octets: bytes) -> List[Record]:
    """The records of a half: what follows the last has lower numbers, or isn't atomic."""
    result: List[Record] = []
    at = 0
    while True:
        record = record_at(octets, at)
        if record is None or result and record.number != result[-1].number + 1:
            return result
        result.append(record)
        at += len(record.write())


class Half:
    """One half: a file of fixed size, and which files its records are for."""

    def __init__(self, path: str) -> None:
        self.file = os.open(path, os.O_RDWR | os.O_CREAT | getattr(os, "O_BINARY", 0), 0o600)
        if os.fstat(self.file).st_size != SIZE:
            os.ftruncate(self.file, 0)
            self.put(0, bytes(SIZE))
            os.fsync(self.file)
            self.drop_pages()
        self.end = 0
        self.names: Set[str] = set()

    def read(self) -> bytes:
        os.lseek(self.file, 0, os.SEEK_SET)
        octets = b"".join(iter(lambda: os.read(self.file, SIZE), b""))
        self.drop_pages()
        return octets

    def drop_pages(self) -> None:
        """Lets the system forget what it has of the file: it may have it in pages of a megabyte,
        and would write a whole one for each block."""
        if hasattr(os, "posix_fadvise"):
            os.posix_fadvise(self.file, 0, 0, os.POSIX_FADV_DONTNEED)

    def put(self, at: int, octets: bytes) -> None:
        os.lseek(self.file, at, os.SEEK_SET)
        left = memoryview(octets)
        while left:
            left = left[os.write(self.file, left):]

    def clear(self) -> None:
        """No record is there any more."""
        self.put(0, bytes(BLOCK))
        sync_data(self.file)
        self.names.clear()
        self.end = 0


class Journal:
    """Keeps what was added to files until these are synced. One thread at a time adds to it."""

    def __init__(self, folder: str, sync: Callable[[Set[str]], None]) -> None:
        os.makedirs(folder, exist_ok=True)
        self.halves = [Half(os.path.join(folder, f"journal-{it}")) for it in (0, 1)]
        self.sync = sync
        found = [it for half in self.halves for it in records_in(half.read())]
        self.records = sorted(found)  # what may be on the disk here alone
        self.number = self.records[-1].number if self.records else 0
        self.pool = concurrent.futures.ThreadPoolExecutor(1, "journal")
        self.freeing: "concurrent.futures.Future[None]" = self.pool.submit(lambda: None)
        self.written = 0  # bytes

    def begin(self) -> None:
        """What was there is in the files, and on the disk: all of it is free."""
        self.sync({name for it in self.records for name, _ in it.parts})
        self.records = []
        for it in self.halves:
            it.clear()

    def put(self, parts: List[Part]) -> None:
        """Adds a record, which is on the disk when this returns."""
        payload = b"".join(b"%s %d\n%s" % (name.encode(), len(it), it) for name, it in parts)
        octets = Record(self.number + 1, payload).write()
        if self.halves[0].end + len(octets) > SIZE:
            self.turn()
        half = self.halves[0]
        half.put(half.end, octets)
        sync_data(half.file)
        self.number += 1
        half.end += len(octets)
        half.names.update(name for name, _ in parts)
        self.written += len(octets)

    def turn(self) -> None:
        """Goes to the other half, and frees this one meanwhile."""
        self.freeing.result()
        self.halves.reverse()
        self.freeing = self.pool.submit(self.free, self.halves[1])

    def free(self, half: Half) -> None:
        self.sync(half.names)
        half.names.clear()
        half.end = 0

    def end(self) -> None:
        """All files are synced, and nothing is left in it."""
        self.freeing.result()
        self.pool.shutdown()
        for it in self.halves:
            self.sync(it.names)
            it.clear()
            os.close(it.file)
