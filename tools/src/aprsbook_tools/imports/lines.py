"""Texts with a line for each frame: of monitors, Dire Wolf, aprx, aprs.fi, YAAC and Xastir."""
import codecs
import dataclasses
import re
import time
from typing import IO, Callable, Iterable, Iterator, NamedTuple, Optional

from aprsbook_tools.errors import Fault
from aprsbook_tools.formats import ax25, moments, zones
from aprsbook_tools.imports import Found, Heard, Options, Refused, packets
from aprsbook_tools.system import long_lines

# where a packet begins in a line, perhaps behind aprx's mark of one that it didn't pass on
BEGIN = re.compile(rb"(?:^|[ \t\]|,])[*#]?([A-Za-z0-9/-]+>[A-Za-z0-9*,_/-]+:.+)$", re.DOTALL)
# Dire Wolf's marks: what it sent, and what didn't come by radio
SENT = re.compile(rb"\[\d+[HL][^][]*\]\s*$")
NET = re.compile(rb"\[(?:\d+\.(?:is|AIS)\b|ig\b|ig>tx|rx>ig)[^][]*\]\s*$")
# aprx's interface, and R for received, d for received and not passed on, or T for sent
APRX = re.compile(rb"(?<!\S)(\S+)\s+([A-Za-z])\s+[*#]?$")
EPOCH = re.compile(rb"^\s*(\d{10})(?:[.](\d{1,9})|(\d{3}))?(?![\d-])")
# what aprs.fi says behind a packet
SAYS = re.compile(rb" \[(?:Duplicate|Rate limited|Location changes|Invalid|Unsupported|Delayed|"
                  rb"Uncompressed|Compressed|Too old|No position)[^][]*\]$")


class Part(NamedTuple):
    """What stands before a packet in a line, and the packet."""
    before: bytes
    packet: bytes


class Mark(NamedTuple):
    """What a line says of its packet: the receiver or None, whether it was sent, whether it is left
    out, since it didn't come by radio, and where the time stands, if not in all that is before."""
    receiver: Optional[str] = None
    own: bool = False
    left_out: bool = False
    time: Optional[bytes] = None


Marks = Callable[[Part], Mark]


def cut(line: bytes) -> Optional[Part]:
    found = BEGIN.search(line)
    return Part(line[:found.start(1)], found[1]) if found else None


def plain(file: IO[bytes]) -> Iterator[bytes]:
    """The lines of a text in UTF-8, without a byte order mark."""
    for number, line in enumerate(long_lines.bounded(file)):
        if number == 0 and line.startswith((codecs.BOM_UTF16_LE, codecs.BOM_UTF16_BE)):
            raise Fault("in UTF-16, as PowerShell writes: make it UTF-8")
        yield line if number else line.removeprefix(codecs.BOM_UTF8)


def moment_of(before: bytes, options: Options) -> int:
    """The moment that stands before a packet; ValueError without one."""
    found = zones.find(before)
    if found:
        return options.zones.read(*found)
    clock = zones.find_clock(before)
    if clock and options.zones.date:
        return options.zones.read_clock(*clock)
    epoch = EPOCH.match(before)
    if epoch:
        fraction = (epoch[2] or epoch[3] or b"").decode()[:3].ljust(3, "0")
        moment = int(epoch[1]) * 1000 + int(fraction)
    elif options.now:
        moment = int(time.time() * 1000)
    else:
        raise ValueError("its time has no day, which --date DAY says" if clock
                         else "no time stands before it")
    moments.text_of(moment)  # refuses what is no moment of a log
    return moment


def read(file: Iterable[bytes], options: Options, marks: Marks, escapes: str) -> Iterator[Found]:
    """The packets of lines that have a time before each."""
    for number, line in enumerate(file, 1):
        line = line.rstrip(b"\r\n")
        if long_lines.is_too_long(line):
            yield Refused(number, f"more than {long_lines.LONGEST} bytes", line)
            continue
        part = cut(line)
        if part is None:
            continue
        mark = marks(part)
        if mark.left_out:
            continue
        try:
            moment = moment_of(part.before if mark.time is None else mark.time, options)
        except (ValueError, OverflowError) as fault:
            yield Refused(number, str(fault), line, untimed=True)
            continue
        try:
            found = heard(part.packet, moment, mark, options, escapes)
        except ValueError as fault:
            yield Refused(number, str(fault), line)
            continue
        if found is not None:
            yield found


def heard(text: bytes, moment: int, mark: Mark, options: Options, escapes: str) -> Optional[Heard]:
    """A packet's frame; None of one of APRS-IS that no gate heard on the air."""
    packet = packets.split(text, options.escapes or escapes)
    if packet is None:
        raise ValueError("no packet")
    if (options.igate or packet.net) and packet.gate is None:
        return None
    if options.igate:
        name: Optional[str] = packet.gate
    else:
        name = options.name or mark.receiver or packet.gate
    frame = ax25.frame(packet.source, packet.path, packet.information)
    return Heard(moment, packets.receiver(name or "TEXT"), frame, mark.own)


def monitor(file: IO[bytes], options: Options) -> Iterator[Found]:
    """Any text with a time before each packet, as Dire Wolf's with -T."""
    def marks(part: Part) -> Mark:
        if SENT.search(part.before):
            return Mark(own=True)
        return Mark(left_out=bool(NET.search(part.before)))
    return read(plain(file), options, marks, "direwolf")


def aprx(file: IO[bytes], options: Options) -> Iterator[Found]:
    """aprx's rf.log: a time in UTC, the interface, R or d or T, and the packet."""
    def marks(part: Part) -> Mark:
        found = APRX.search(part.before)
        if not found or found[1] == b"APRSIS" or found[2] not in (b"R", b"d", b"T"):
            return Mark(left_out=True)
        time = part.before[:found.start(1)].rstrip()
        return Mark(found[1].decode("ascii", "replace"), own=found[2] == b"T", time=time)
    return read(plain(file), options, marks, "direwolf")


def aprs_fi(file: IO[bytes], options: Options) -> Iterator[Found]:
    """aprs.fi's raw packets, as its page shows them: the receivers are the gates."""
    def stripped() -> Iterator[bytes]:
        for line in plain(file):
            yield SAYS.sub(b"", line.rstrip(b"\r\n")).replace(b": ", b" ", 1) + b"\n"
    told = dataclasses.replace(options, igate=options.name is None)
    return read(stripped(), told, lambda _: Mark(), "direwolf")


def yaac(file: IO[bytes], options: Options) -> Iterator[Found]:
    """YAAC's log of raw packets: a time, or milliseconds since 1970, before each packet."""
    return read(plain(file), options, lambda _: Mark(), "raw")


def xastir(file: IO[bytes], options: Options) -> Iterator[Found]:
    """Xastir's tnc.log or net.log: a line `# SECONDS ..` before the packets of that moment."""
    def timed() -> Iterator[bytes]:
        moment = b""
        for line in plain(file):
            found = re.match(rb"# (\d{9,10})\b", line)
            if found:
                moment = found[1].rjust(10, b"0") + b" "
            yield b"\n" if found else moment + line
    return read(timed(), options, lambda _: Mark(), "raw")
