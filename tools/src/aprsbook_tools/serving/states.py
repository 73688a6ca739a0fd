"""Sets of lines, and their states.

A state is how many lines a set has, and the sum of their hashes. It depends neither on their order
nor on who sent them, so two who have the same lines have the same state, whatever way these went.
"""
import hashlib
import re
from typing import Iterator, NamedTuple

MASK = (1 << 128) - 1
BLOCK = 1 << 20
FORM = re.compile(r"([0-9]{1,12})-([0-9a-f]{32})", re.ASCII)


def hash_of(line: bytes) -> int:
    """The hash of a line, without its line feed."""
    return int.from_bytes(hashlib.blake2b(line, digest_size=16).digest(), "big")


class State(NamedTuple):
    """How many lines a set has, and the sum of their hashes."""
    lines: int = 0
    sum: int = 0

    def plus(self, line: bytes) -> "State":
        return self.plus_hash(hash_of(line))

    def plus_hash(self, of: int) -> "State":
        return State(self.lines + 1, self.sum + of & MASK)

    @property
    def text(self) -> str:
        return f"{self.lines}-{self.sum:032x}"


EMPTY = State()


def state_in(text: str) -> State:
    """The state that a text says; ValueError where it says none."""
    found = FORM.fullmatch(text)
    if not found:
        raise ValueError("no state of a set of lines")
    return State(int(found[1]), int(found[2], 16))


def lines_of(path: str, size: int) -> Iterator[bytes]:
    """The lines of a file's first bytes, each without its line feed; a last one without one too."""
    with open(path, "rb") as file:
        rest = b""
        while size > 0:
            block = file.read(min(size, BLOCK))
            if not block:
                break
            size -= len(block)
            lines = (rest + block).split(b"\n")
            rest = lines.pop()
            yield from lines
        if rest:
            yield rest
