"""Files with frames as bytes: of atest, captures of packets, and books."""
import re
import struct
from typing import IO, Iterator, Optional

from aprsbook_tools.errors import ExitStatus, Fault
from aprsbook_tools.formats import book_file, kiss, moments
from aprsbook_tools.imports import Found, Heard, Options, Refused
from aprsbook_tools.system import long_lines

DECODED = re.compile(rb"DECODED\[\d+\]\s+(?:(\d{1,6}):)?(\d{1,6}):(\d\d)\.(\d{3})\s")
BYTES = re.compile(rb"  [0-9a-f]{3}:  ((?:[0-9a-f]{2} ){1,16})")
AX25, AX25_KISS = 3, 202  # types of links in captures


def heard_or_refused(number: int, moment: int, receiver: str, frame: bytes) -> Found:
    """A frame at a moment, if a log can have both."""
    if not 0 <= moment < moments.END:
        return Refused(number, "a log's years are 1970 to 2099", frame, untimed=True)
    if not frame or len(kiss.wrap(frame)[1:-1]) > kiss.FRAME:
        return Refused(number, f"a frame of {len(frame)} bytes is none of the air", frame)
    return Heard(moment, receiver, frame)


def atest(file: IO[bytes], options: Options) -> Iterator[Found]:
    """What `atest -h` prints of a recording: frames, each with its time from the start."""
    if options.start is None:
        raise Fault("a recording needs --start MOMENT, such as 2024-06-21T18:00",
                    ExitStatus.ARGUMENTS)
    at: Optional[int] = None
    frame = b""
    for number, line in enumerate(long_lines.bounded(file), 1):
        decoded, octets = DECODED.match(line), BYTES.match(line)
        if decoded:
            hours, minutes, seconds, fraction = (int(it or 0) for it in decoded.groups())
            at = ((hours * 60 + minutes) * 60 + seconds) * 1000 + fraction
            frame = b""
        elif octets:
            frame += bytes.fromhex(octets[1].decode())
        elif line.startswith(b"------") and at is not None and frame:
            yield heard_or_refused(number, options.start + at, options.name or "TAPE", frame)
            frame = b""


def pcap(file: IO[bytes], options: Options) -> Iterator[Found]:
    """A capture of packets, as of Wireshark, of AX.25 frames with or without KISS's first byte."""
    head = file.read(24)
    orders = {b"\xd4\xc3\xb2\xa1": ("<", 1000), b"\xa1\xb2\xc3\xd4": (">", 1000),
              b"\x4d\x3c\xb2\xa1": ("<", 1_000_000), b"\xa1\xb2\x3c\x4d": (">", 1_000_000)}
    if len(head) < 24 or head[:4] not in orders:
        raise Fault("no capture of packets (a pcapng file becomes one by editcap -F pcap)")
    order, fine = orders[head[:4]]
    link = struct.unpack(order + "I", head[20:])[0] & 0xFFFF
    if link not in (AX25, AX25_KISS):
        raise Fault(f"a capture of another link than AX.25: {link}")
    number = 0
    while True:
        number += 1
        header = file.read(16)
        if not header:
            return
        seconds, rest, size, _ = struct.unpack(order + "4I", header.ljust(16, b"\0"))
        octets = file.read(size) if size <= 1 << 16 else b""
        if len(header) < 16 or len(octets) < size:
            raise Fault(f"the capture was cut short in packet {number}")
        if link == AX25_KISS and octets[:1] and octets[0] & 15:
            continue
        frame = octets[1:] if link == AX25_KISS else octets
        yield heard_or_refused(number, seconds * 1000 + rest // fine, options.name or "PCAP", frame)


def book(file: IO[bytes], options: Options) -> Iterator[Found]:
    """A book: the greatest reception of each transmission."""
    for it in book_file.read(file):
        yield Heard(it.moment, options.name or it.receiver, it.frame)
