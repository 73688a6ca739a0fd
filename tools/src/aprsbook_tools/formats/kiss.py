"""KISS framing: frames between FEND bytes, with escapes."""
from typing import Callable, Iterator

FEND, FESC = b"\xc0", b"\xdb"
ESCAPED_FEND, ESCAPED_FESC = b"\xdb\xdc", b"\xdb\xdd"
FRAME = 2048  # bytes between two FEND: no frame has more, which are 1,024 without escapes
NOISE = "noise without a C0 is left out"


def wrap(frame: bytes) -> bytes:
    """A frame of port 0 as a KISS stream."""
    escaped = frame.replace(FESC, ESCAPED_FESC).replace(FEND, ESCAPED_FEND)
    return FEND + b"\x00" + escaped + FEND


def unwrap(piece: bytes) -> bytes:
    """What stands between two FEND, without its escapes and its first byte."""
    return piece.replace(ESCAPED_FEND, FEND).replace(ESCAPED_FESC, FESC)[1:]


def port_of(framed: bytes) -> int:
    """The TNC's port of a frame that stands between two FEND."""
    return framed[1] >> 4


class Framer:
    """Cuts a stream into frames, each with a FEND before and after it. What stands before the first
    FEND may be the end of a frame, and is dropped, as noise is."""

    def __init__(self, say: Callable[[str], None] = lambda _: None) -> None:
        self.say = say
        self.restart()

    def restart(self) -> None:
        """Begins anew, as after a connection ended."""
        self.rest, self.begun, self.said = b"", False, False

    def feed(self, octets: bytes) -> Iterator[bytes]:
        """The frames that these bytes end."""
        *pieces, self.rest = (self.rest + octets).split(FEND)
        for piece in pieces:
            begun, said = self.begun, self.said
            self.begun, self.said = True, False
            if begun and 0 < len(piece) <= FRAME:
                yield FEND + piece + FEND
            elif len(piece) > FRAME and not said:
                self.say(NOISE)
        if len(self.rest) > FRAME:
            if not self.said:
                self.say(NOISE)
            self.rest, self.begun, self.said = b"", False, True
