"""A KISS TNC over TCP, and connections to a host."""
import re
import socket
from typing import NamedTuple, Optional

from aprsbook_tools.errors import said
from aprsbook_tools.frame_sources.source import Input, Source, Waiting

PATIENCE = 30.0  # seconds for a connection to be made
IDLE = 900  # seconds without a frame, after which a TNC may be gone without a word


class Place(NamedTuple):
    """A host and its port."""
    host: str
    port: int


def place(text: str, port: Optional[int] = None) -> Place:
    """HOST:PORT, also [::1]:8001; ValueError of others. With a port, :PORT may be left out."""
    found = re.fullmatch(r"(?:\[([^\[\]]+)\]|([^:\[\]]+))(?::([0-9]{1,5}))?", text)
    number = int(found[3]) if found and found[3] else port
    if not found or number is None or not 0 < number < 65536:
        raise ValueError("not HOST:PORT, with a port from 1 to 65535")
    host: str = found[1] or found[2]
    try:
        host.encode("idna")
    except UnicodeError:
        raise ValueError(f"{host} can't be a host's name")
    return Place(host, number)


def connect(to: Place, waiting: Waiting) -> socket.socket:
    """A connection to a host, which is kept alive."""
    try:
        result = waiting.during(lambda: socket.create_connection(to, timeout=PATIENCE))
    except OSError as fault:
        host = f"[{to.host}]" if ":" in to.host else to.host
        raise OSError(fault.errno, f"{host}:{to.port}: {said(fault)}") from fault
    assert isinstance(result, socket.socket)
    return result


class Tcp(Source):
    """A KISS TNC over TCP."""

    def __init__(self, to: Place, idle: float) -> None:
        self.to, self.idle = to, idle

    def open(self, waiting: Waiting) -> Input:
        connection = connect(self.to, waiting)
        connection.setsockopt(socket.SOL_SOCKET, socket.SO_KEEPALIVE, 1)
        return Input(connection.fileno(), connection.recv, connection.close)
