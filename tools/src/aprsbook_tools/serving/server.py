"""The server: where it listens, for how many, and with what bounds."""
import asyncio
import collections
import ipaddress
import re
import signal
import socket
import ssl
from typing import Any, Counter, Dict, List, NamedTuple, Optional, Tuple, TypeVar

import tornado.httpserver
import tornado.httputil
import tornado.iostream
import tornado.web

from aprsbook_tools.errors import ExitStatus, Fault, said
from aprsbook_tools.frame_sources import tcp
from aprsbook_tools.serving.tokens import Grant

BODY = 1 << 20  # bytes of a request
HEAD = 1 << 16
IDLE = 60  # seconds of a connection without a request, or until one's head is there
BODY_TIME = 20  # seconds for a body
# what a proxy hands on as a client wrote it: who asks is the last one in X-Forwarded-For
FORGED = ("X-Real-Ip", "X-Scheme")
STRANGERS = 16 << 20  # bytes of bodies at a time, of all who have shown no token,
SMALL = 1 << 16  # but for bodies of so many bytes, such as a desk's
LOOPBACK = ["127.0.0.1", "::1"]
REFUSAL = b"HTTP/1.1 %s\r\nConnection: close\r\nContent-Length: 0\r\n\r\n"

Stream = tornado.iostream.IOStream
Key = TypeVar("Key")


class Bounds(NamedTuple):
    """How many connections there are at most: of all, of an address, and of a token."""
    all: int
    address: int
    token: int


class Server(tornado.httpserver.HTTPServer):
    """Holds so many connections at most. For one more of all or of an address, the oldest that has
    shown no token goes, and where each has, the new one; one more of a token is refused."""

    def initialize(  # type: ignore[override] # as Tornado has it made, with more words
            self, *args: Any, bounds: Bounds, **named: Any) -> None:
        super().initialize(*args, **named)
        self.bounds = bounds
        self.addresses: Counter[str] = collections.Counter()
        self.holders: Counter[Grant] = collections.Counter()
        self.shown: Dict[Stream, Grant] = {}  # what was shown last
        self.hosts: Dict[Stream, str] = {}
        self.strangers: Dict[Stream, str] = {}  # the oldest first
        self.bodies: Dict[Stream, int] = {}  # bytes that strangers send

    def handle_stream(self, stream: Stream, address: Tuple[Any, ...]) -> None:
        host = str(address[0])
        is_full = len(self.hosts) >= self.bounds.all
        if is_full or self.addresses[host] >= self.bounds.address:
            oldest = next((it for it, of in self.strangers.items() if is_full or of == host), None)
            if oldest is None:
                stream.close()
                return
            self.forget(oldest)
            oldest.close()
        self.addresses[host] += 1
        self.strangers[stream] = host
        self.hosts[stream] = host
        super().handle_stream(stream, address)

    def know(self, connection: Any, grant: Grant) -> bool:
        """Who holds this connection has shown a token; whether that has room for it."""
        stream = connection.stream
        if stream in self.hosts and self.shown.get(stream) != grant:
            if grant.token and self.holders[grant] >= self.bounds.token:
                return False
            self.leave(stream)
            self.shown[stream] = grant
            self.holders[grant] += 1
        self.strangers.pop(stream, None)
        return True

    def leave(self, stream: Stream) -> None:
        """A connection is no longer one of what was shown by it."""
        grant = self.shown.pop(stream, None)
        if grant is not None:
            less(self.holders, grant)

    def admits(self, stream: Stream, size: int) -> bool:
        """Whether there is room for a body of so many bytes, which a stranger's takes until `had`
        says that it is here."""
        if size <= SMALL or stream not in self.strangers:
            return True
        if sum(self.bodies.values()) + size > STRANGERS:
            return False
        self.bodies[stream] = size
        return True

    def had(self, stream: Stream) -> None:
        self.bodies.pop(stream, None)

    def forget(self, stream: Stream) -> None:
        self.strangers.pop(stream, None)
        self.had(stream)
        self.leave(stream)
        host = self.hosts.pop(stream, None)
        if host is not None:
            less(self.addresses, host)

    def on_close(self, server_conn: Any) -> None:
        self.forget(server_conn.stream)
        super().on_close(server_conn)

    def start_request(self, server_conn: object, request_conn: Any) -> "Strict":
        return Strict(super().start_request(server_conn, request_conn), request_conn.stream, self)


def less(counts: Counter[Key], key: Key) -> None:
    """There is one less of a key."""
    counts[key] -= 1
    if not counts[key]:
        del counts[key]


class Strict(tornado.httputil.HTTPMessageDelegate):
    """Takes requests whose length is said once, by digits. Of others a proxy may think otherwise
    than this server, and then a part of a body would be a request."""

    def __init__(self, own: tornado.httputil.HTTPMessageDelegate, stream: Stream,
                 server: Server) -> None:
        self.own, self.stream, self.server = own, stream, server

    def headers_received(self, start_line: Any, headers: tornado.httputil.HTTPHeaders) -> Any:
        lengths = headers.get_list("Content-Length")
        if "Transfer-Encoding" in headers or len(lengths) > 1 or \
                any(not re.fullmatch(r"\d{1,9}", it, re.ASCII) for it in lengths):
            return self.refuse(b"411 Length Required")
        if not self.server.admits(self.stream, sum(map(int, lengths))):
            return self.refuse(b"503 Service Unavailable")
        for it in FORGED:
            if it in headers:
                del headers[it]
        return self.own.headers_received(start_line, headers)

    def refuse(self, why: bytes) -> None:
        self.stream.write(REFUSAL % why)
        self.stream.close()

    def data_received(self, chunk: bytes) -> Any:
        return self.own.data_received(chunk)

    def finish(self) -> None:
        self.server.had(self.stream)
        self.own.finish()

    def on_connection_close(self) -> None:
        self.server.had(self.stream)
        self.own.on_connection_close()


def server_of(application: tornado.web.Application, tls: Optional[ssl.SSLContext], bounds: Bounds,
              behind_proxy: bool) -> Server:
    """A server with its bounds. Behind a proxy, which is on this machine, it is the proxy that says
    who asks, and how; all connections are of its address."""
    if behind_proxy:
        bounds = bounds._replace(address=bounds.all)
    return Server(application, ssl_options=tls, bounds=bounds, max_body_size=BODY,
                  max_header_size=HEAD, max_buffer_size=2 * BODY, chunk_size=HEAD,
                  idle_connection_timeout=IDLE, body_timeout=BODY_TIME, xheaders=behind_proxy,
                  trusted_downstream=LOOPBACK if behind_proxy else None)


def is_loopback(host: str) -> bool:
    try:
        return ipaddress.ip_address(host).is_loopback
    except ValueError:
        return host == "localhost"


def check(place: tcp.Place, tls: Optional[List[str]], tokens: Optional[str],
          is_plain: bool, behind_proxy: bool) -> None:
    """Refuses to be there for others without tokens, or without what keeps these secret."""
    is_here = is_loopback(place.host)
    if behind_proxy and not is_here:
        raise Fault("--behind-proxy is for a proxy of this machine: listen to 127.0.0.1",
                    ExitStatus.ARGUMENTS)
    if is_here and not behind_proxy:
        return
    missing = [] if tokens else ["--tokens FILE"]
    if not tls and not is_plain and not behind_proxy:
        missing.append("--tls CERTIFICATE KEY, or --plain")
    if missing:
        where = "through the proxy" if behind_proxy else f"at {place.host}"
        raise Fault(f"others than this machine get here {where}: give {' and '.join(missing)}",
                    ExitStatus.ARGUMENTS)


def context_of(tls: Optional[List[str]]) -> Optional[ssl.SSLContext]:
    """What encrypts, with a certificate and its key."""
    if not tls:
        return None
    context = ssl.SSLContext(ssl.PROTOCOL_TLS_SERVER)
    context.minimum_version = ssl.TLSVersion.TLSv1_2
    try:
        context.load_cert_chain(*tls)
    except (OSError, ssl.SSLError) as fault:
        raise Fault(f"{tls[0]}, {tls[1]}: {fault.strerror or fault}")
    return context


def hosts_of(place: tcp.Place, port: int, names: List[str], is_secure: bool) -> List[str]:
    """What a request may name as its host; the first is where the page is."""
    host = f"[{place.host}]" if ":" in place.host else place.host
    all_names = [*names, host]
    if is_loopback(place.host):
        all_names += ["localhost", "127.0.0.1", "[::1]"]
    usual = 443 if is_secure else 80
    with_port = [f"{it}:{port}".lower() for it in all_names]
    return [it.lower() for it in all_names] + with_port if port == usual else with_port


def listen(server: Server, place: tcp.Place) -> int:
    """Listens, on one address alone; the port."""
    family = socket.AF_INET6 if ":" in place.host else socket.AF_INET
    try:
        listening = socket.socket(family, socket.SOCK_STREAM)
        listening.setsockopt(socket.SOL_SOCKET, socket.SO_REUSEADDR, 1)
        listening.bind((place.host, place.port))
        listening.listen(128)
        listening.setblocking(False)
    except OSError as fault:
        raise Fault(f"{place.host}:{place.port}: {said(fault)}", ExitStatus.OUTPUT)
    server.add_sockets([listening])
    return int(listening.getsockname()[1])


async def until_signal() -> None:
    ended = asyncio.Event()
    loop = asyncio.get_running_loop()
    for name in ("SIGINT", "SIGTERM", "SIGHUP"):
        number = getattr(signal, name, None)
        if number is not None and signal.getsignal(number) is not signal.SIG_IGN:
            loop.add_signal_handler(number, ended.set)
    await ended.wait()
