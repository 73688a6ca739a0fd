"""How long a server waits for who is slow, and for how many."""
import asyncio
import contextlib
import pathlib
import ssl
import subprocess
from typing import Awaitable, Callable, List, Optional

import pytest

pytest.importorskip("tornado", reason="needs Tornado (Debian: python3-tornado)")
import tornado.web  # noqa: E402

from aprsbook_tools.frame_sources import tcp  # noqa: E402
from aprsbook_tools.serving import server  # noqa: E402


def served(ask: Callable[[int], Awaitable[None]], tls: Optional[ssl.SSLContext] = None,
           patience: float = 0.5) -> None:
    """Asks a server of nothing, which waits for who is slow for so many seconds."""
    async def run() -> None:
        its = server.server_of(tornado.web.Application([]), tls, server.Bounds(10, 5, 3), False)
        port = server.listen(its, tcp.Place("127.0.0.1", 0))
        try:
            await asyncio.wait_for(ask(port), 20)
        finally:
            its.stop()
            await its.close_all_connections()
    with pytest.MonkeyPatch.context() as patch:
        patch.setattr(server, "IDLE", patience)
        patch.setattr(server, "BODY_TIME", patience)
        asyncio.run(run())


@pytest.mark.parametrize("octets", [
    b"", b"GET / HT", b"GET / HTTP/1.1\r\nHost: x\r\nX: ",
    b"POST / HTTP/1.1\r\nHost: x\r\nContent-Length: 100\r\n\r\nhalf",
    b"GET / HTTP/1.1\r\nHost: x\r\n\r\n",
])
def test_who_says_no_more_is_left(octets: bytes) -> None:
    async def ask(port: int) -> None:
        reader, writer = await asyncio.open_connection("127.0.0.1", port)
        writer.write(octets)
        await reader.read()
        writer.close()
    served(ask)


@pytest.mark.parametrize("octets", [b"", b"\x16\x03\x01\x02\x00\x01\x00", b"GET / HTTP/1.1\r\n"])
def test_who_begins_no_tls_is_left(tmp_path: pathlib.Path, octets: bytes) -> None:
    names = [str(tmp_path / it) for it in ("cert.pem", "key.pem")]
    made = subprocess.run(["openssl", "req", "-x509", "-newkey", "rsa:2048", "-nodes", "-subj",
                           "/CN=net", "-out", names[0], "-keyout", names[1]], capture_output=True)
    if made.returncode:
        pytest.skip("needs openssl")

    async def ask(port: int) -> None:
        reader, writer = await asyncio.open_connection("127.0.0.1", port)
        writer.write(octets)
        with contextlib.suppress(OSError):
            await reader.read()
    served(ask, server.context_of(names))


def test_who_says_a_letter_at_a_time_is_left() -> None:
    async def ask(port: int) -> None:
        _, writer = await asyncio.open_connection("127.0.0.1", port)
        with pytest.raises(OSError):
            for _ in range(200):
                writer.write(b"x")
                await writer.drain()
                await asyncio.sleep(0.05)
    served(ask)


def test_of_an_address_the_oldest_stranger_goes() -> None:
    async def ask(port: int) -> None:
        readers: List[asyncio.StreamReader] = []
        for _ in range(6):
            reader, _ = await asyncio.open_connection("127.0.0.1", port)
            readers.append(reader)
        assert await readers[0].read() == b""
        assert not readers[5].at_eof()
    served(ask, patience=60)
