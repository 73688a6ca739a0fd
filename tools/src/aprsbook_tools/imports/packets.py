"""SOURCE>DESTINATION,PATH:INFORMATION, as monitors and APRS-IS write a frame."""
import re
from typing import NamedTuple, Optional

from aprsbook_tools.formats import log_file

PACKET = re.compile(rb"([A-Za-z0-9/-]+)>([A-Za-z0-9*,_/-]+):(.+)", re.DOTALL)
GATE = re.compile(r",qA[ROro],([^,]+)")
NET = re.compile(r",qA[A-Za-z](?:,.*)?$")
# how a byte that can't be printed stands in a text; aprx writes <0xffffffe4> where chars are signed
ESCAPES = {"direwolf": rb"<0x(?:f{6})?([0-9a-f]{2})>", "aprsbook": rb"\\x([0-9a-f]{2})",
           "raw": rb"(?!)"}


class Packet(NamedTuple):
    """A packet; its path begins with the destination, and has nothing of what APRS-IS added."""
    source: str
    path: str
    information: bytes
    gate: Optional[str]
    net: bool  # whether APRS-IS carried it


def split(text: bytes, escapes: str = "raw") -> Optional[Packet]:
    """A packet's text; None where it is none. The gate is who heard it on the air."""
    found = PACKET.fullmatch(text)
    if not found:
        return None
    path = found[2].decode("ascii")
    gate, net = GATE.search(path), NET.search(path)
    if net and re.search(r",(TCPIP|TCPXX)\*", path):
        gate = None
    information = re.sub(ESCAPES[escapes], lambda it: bytes([int(it[1], 16)]), found[3])
    return Packet(found[1].decode("ascii"), NET.sub("", path), information,
                  gate[1] if gate else None, bool(net))


def receiver(name: str) -> str:
    """A name that a log can have; ValueError of another."""
    if not re.fullmatch(log_file.RECEIVER, name):
        raise ValueError(f"{name} can't be a receiver's name")
    return name
