"""Lines of files, of which a damaged one may have no end."""
from typing import IO, Iterator

LONGEST = 1 << 16  # bytes: no line of a log, of a monitor or of a feed has so many


def bounded(file: IO[bytes]) -> Iterator[bytes]:
    """The lines of a file; of one that is too long its beginning alone, without a line feed."""
    while True:
        line = file.readline(LONGEST)
        if not line:
            return
        yield line
        rest = line
        while not rest.endswith(b"\n") and len(rest) == LONGEST:
            rest = file.readline(LONGEST)


def is_too_long(line: bytes) -> bool:
    return len(line) >= LONGEST
