"""PMTiles, version 3: an archive of the squares of a web map, of which directories say where each
square is (github.com/protomaps/PMTiles, spec/v3)."""
import os
import zlib
from typing import BinaryIO, Dict, List, NamedTuple, Optional

BEGIN = b"PMTiles"
HEADER = 127
VERSION = 3
PLAIN, GZIP = 1, 2
PICTURES = (2, 3, 4)
# a way to a square has so many directories at most
MOST_DIRECTORIES = 4
DIRECTORY = 1 << 22  # bytes: no directory has more, unpacked or not
KEPT = 64  # directories that are held
GZIPPED = 31  # what zlib calls a stream with the head of gzip


class Entry(NamedTuple):
    """A run of equal squares from a number on, or, of none, a directory; where its bytes are."""

    number: int
    run: int
    length: int
    offset: int


def number_of(z: int, x: int, y: int) -> int:
    """The number of a square: by levels, and within a level along Hilbert's curve."""
    number = ((1 << 2 * z) - 1) // 3
    side = (1 << z) >> 1
    while side:
        right, down = int(x & side > 0), int(y & side > 0)
        number += side * side * ((3 * right) ^ down)
        if not down:
            if right:
                x, y = side - 1 - (x & (side - 1)), side - 1 - (y & (side - 1))
            x, y = y, x
        side >>= 1
    return number


def entries_in(data: bytes) -> List[Entry]:
    """The entries of a directory. Raises ValueError where it is cut short."""
    at = 0

    def following() -> int:
        nonlocal at
        n = shift = 0
        while True:
            if at >= len(data):
                raise ValueError("a directory is cut short")
            byte = data[at]
            at += 1
            n |= (byte & 127) << shift
            shift += 7
            if byte < 128:
                return n

    count = following()
    if count > len(data):
        raise ValueError("a directory is cut short")
    steps, runs, lengths = ([following() for _ in range(count)] for _ in range(3))
    entries: List[Entry] = []
    number = 0
    for step, run, length in zip(steps, runs, lengths):
        number += step
        own = following()
        before = entries[-1] if entries else None
        offset = before.offset + before.length if before and not own else own - 1
        entries.append(Entry(number, run, length, offset))
    return entries


def entry_for(entries: List[Entry], number: int) -> Optional[Entry]:
    """The last entry that isn't behind a square."""
    low, high = 0, len(entries)
    while low < high:
        middle = (low + high) // 2
        if entries[middle].number <= number:
            low = middle + 1
        else:
            high = middle
    return entries[low - 1] if low else None


def unpacked(data: bytes) -> bytes:
    """A directory, unpacked as far as one may be long."""
    stream = zlib.decompressobj(GZIPPED)
    try:
        result = stream.decompress(data, DIRECTORY)
    except zlib.error as fault:
        raise ValueError(f"a directory can't be unpacked: {fault}") from fault
    if not stream.eof:
        raise ValueError(f"a directory is cut short, or has more than {DIRECTORY} bytes")
    return result


class Place(NamedTuple):
    """Where a picture lies in an archive, and how long it is."""

    offset: int
    length: int


class Archive:
    """An archive of pictures. Raises ValueError where it is none."""

    def __init__(self, file: BinaryIO) -> None:
        self.file, self.size = file, os.fstat(file.fileno()).st_size
        head = self.part(0, HEADER)
        if not head.startswith(BEGIN) or head[7] != VERSION:
            raise ValueError(f"no PMTiles of version {VERSION}")
        self.root, _, self.leaves, self.data = (
            (int.from_bytes(head[at:at + 8], "little"),
             int.from_bytes(head[at + 8:at + 16], "little")) for at in (8, 24, 40, 56))
        self.packing, packed, kind, self.least, self.most = head[97:102]
        if self.packing not in (PLAIN, GZIP):
            raise ValueError("its directories are packed by what this program doesn't unpack")
        if kind not in PICTURES or packed > PLAIN:
            raise ValueError("it has no pictures (PNG, JPEG, WebP)")
        self.kept: Dict[int, List[Entry]] = {}

    def part(self, offset: int, length: int) -> bytes:
        if offset + length > self.size:
            raise ValueError("it is cut short")
        self.file.seek(offset)
        data = self.file.read(length)
        if len(data) < length:
            raise ValueError("it is cut short")
        return data

    def directory(self, offset: int, length: int) -> List[Entry]:
        if offset not in self.kept:
            if length > DIRECTORY:
                raise ValueError(f"a directory has more than {DIRECTORY} bytes")
            data = self.part(offset, length)
            if len(self.kept) == KEPT:
                self.kept.clear()
            self.kept[offset] = entries_in(unpacked(data) if self.packing == GZIP else data)
        return self.kept[offset]

    def place_of(self, z: int, x: int, y: int) -> Optional[Place]:
        """Where the picture of a square is, where there is one."""
        number = number_of(z, x, y)
        offset, length = self.root
        for _ in range(MOST_DIRECTORIES):
            it = entry_for(self.directory(offset, length), number)
            if it is None or it.run and number >= it.number + it.run:
                return None
            if it.run:
                return Place(self.data[0] + it.offset, it.length)
            offset, length = self.leaves[0] + it.offset, it.length
        return None
