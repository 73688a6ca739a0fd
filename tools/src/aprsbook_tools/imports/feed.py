"""Lines of APRS-IS: what a gate heard on the air."""
from typing import Callable, Iterator, Optional, Tuple

from aprsbook_tools.formats import ax25, kiss
from aprsbook_tools.imports import packets

LONGEST = 2048  # bytes of a line: what is longer is noise
FEW, MANY = 20, 1000  # bad lines that are said each, and of which there are so many
NOISE = "a line that is too long is left out"


class Lines:
    """Cuts a feed into lines, and these into receivers and frames."""

    def __init__(self, say: Callable[[str], None]) -> None:
        self.say = say
        self.bad = 0
        self.told = b""
        self.rest, self.noise, self.remark, self.is_fed = b"", False, b"", False

    def restart(self) -> None:
        """Begins anew, as after a connection ended. Of one without a packet it is said what the
        server remarked last, which may be why: once, until it is something else."""
        if self.remark and not self.is_fed and self.remark != self.told:
            self.told = self.remark
            self.say(f"the server said before it ended: {shown(self.remark)}")
        self.rest, self.noise, self.remark, self.is_fed = b"", False, b"", False

    def feed(self, octets: bytes) -> Iterator[Tuple[str, bytes]]:
        """What these bytes end, as frames that stand between two FEND."""
        *lines, self.rest = (self.rest + octets).split(b"\n")
        for line in lines:
            if not self.is_noise(line):
                yield from self.read(line.rstrip(b"\r"))
            self.noise = False
        if self.is_noise(self.rest):
            self.rest = b""

    def is_noise(self, line: bytes) -> bool:
        """Whether a line, of which this is a part or all, is too long; that is said once."""
        if not self.noise and len(line) > LONGEST:
            self.noise = True
            self.say(NOISE)
        return self.noise

    def read(self, line: bytes) -> Iterator[Tuple[str, bytes]]:
        """The frame of a line, if a gate heard it. What the server says of the login is said."""
        if line.startswith(b"#"):
            self.remark = line
            if b"logresp" in line or b"full" in line:
                self.say(shown(line))
            return
        self.is_fed = self.is_fed or bool(line)
        try:
            heard = gated(line)
        except ValueError as fault:
            self.bad += 1
            if self.bad <= FEW:
                self.say(f"{fault}: {line[:100]!r}")
            elif self.bad % MANY == 0:
                self.say(f"lines that can't be taken: {self.bad}")
            return
        if heard:
            yield heard[0], kiss.wrap(heard[1])


def shown(line: bytes) -> str:
    """What a server says, in which nothing is an order to a terminal."""
    return repr(line[:200])[2:-1]


def gated(line: bytes) -> Optional[Tuple[str, bytes]]:
    """The gate that heard a line's frame on the air, and the frame; None where none did."""
    packet = packets.split(line)
    if packet is None or packet.gate is None:
        return None
    return packets.receiver(packet.gate), ax25.frame(packet.source, packet.path, packet.information)
