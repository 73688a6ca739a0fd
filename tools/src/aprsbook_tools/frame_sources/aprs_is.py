"""A server of APRS-IS."""
import socket

from aprsbook_tools import VERSION
from aprsbook_tools.frame_sources.source import Input, Source, Waiting
from aprsbook_tools.frame_sources.tcp import Place, connect


class AprsIs(Source):
    """A server of APRS-IS, to which nothing but the login is sent."""
    is_shared = True

    def __init__(self, to: Place, call: str, filter: str, idle: float) -> None:
        self.to, self.idle = to, idle
        end = f" filter {filter}" if filter else ""
        self.login = f"user {call} pass -1 vers aprs-net {VERSION}{end}\r\n".encode()

    def open(self, waiting: Waiting) -> Input:
        connection = connect(self.to, waiting)
        try:
            connection.setsockopt(socket.SOL_SOCKET, socket.SO_KEEPALIVE, 1)
            connection.sendall(self.login)
        except OSError:
            connection.close()
            raise
        return Input(connection.fileno(), connection.recv, connection.close)
