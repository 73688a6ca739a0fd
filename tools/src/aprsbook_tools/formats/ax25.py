"""Addresses of AX.25 frames: made of texts of other programs, and read as far as a log needs."""
from __future__ import annotations


from aprsbook_tools import TYPE_CHECKING
from aprsbook_tools.formats.forms import form

if TYPE_CHECKING:
    from typing import List, Optional, Tuple

CALL = form(r"([A-Z0-9]{1,6})(?:-(0|[1-9]|1[0-5]))?")
UI = b"\x03\xf0"  # control and PID
MOST = 256  # bytes of information
HOPS = 8  # digipeaters


def spelled(text: str) -> Optional[str]:
    """A callsign that was typed, as it is heard: in capitals and without -0; None of others."""
    call = text.strip().upper()
    if not text.isascii() or not CALL.fullmatch(call):
        return None
    return call[:-2] if call.endswith("-0") else call


def address(call: str, flags: int) -> bytes:
    """The seven octets of a callsign, with the flags of its last."""
    found = CALL.fullmatch(call)
    if not found:
        raise ValueError(f"{call} is no call")
    letters = found[1].ljust(6).encode()
    return bytes(2 * letter for letter in letters) + bytes([flags + 2 * int(found[2] or 0)])


def call_of(octets: bytes) -> str:
    """The callsign of seven octets."""
    letters = bytes(octet >> 1 for octet in octets[:6]).decode("ascii", "replace").rstrip()
    number = octets[6] >> 1 & 15
    return f"{letters}-{number}" if number else letters


def frame(source: str, path: str, information: bytes) -> bytes:
    """A UI frame, as a command, of SOURCE>PATH:INFORMATION; PATH begins with the destination."""
    destination, *hops = path.split(",")
    if len(hops) > HOPS:
        raise ValueError(f"more than {HOPS} digipeaters")
    if not 0 < len(information) <= MOST:
        raise ValueError(f"the information isn't 1 to {MOST} bytes")
    # a star stands after each digipeater that has repeated the frame, or after the last of these
    repeated = max((n + 1 for n, hop in enumerate(hops) if hop.endswith("*")), default=0)
    calls: List[Tuple[str, int]] = [(destination, 0xE0), (source, 0x60)]
    calls += [(hop.rstrip("*"), 0xE0 if n < repeated else 0x60) for n, hop in enumerate(hops)]
    octets = bytearray(b"".join(address(*call) for call in calls))
    octets[-1] |= 1
    return bytes(octets) + UI + information


def direct_source(octets: bytes) -> Optional[str]:
    """The source of a frame that no digipeater has repeated; None of another, also of no frame."""
    end = next((n + 1 for n, octet in enumerate(octets[:70]) if octet & 1), 0)
    if end < 14 or end % 7:
        return None
    if any(octets[hop + 6] & 0x80 for hop in range(14, end, 7)):
        return None
    return call_of(octets[7:14])
