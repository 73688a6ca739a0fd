#!/usr/bin/env python3
"""Measures a live net, with real processes of this machine, and prints a line for each thing.

usage: bench/live_net.py [--seconds N] [--sites N] [--pages N] [latency] [catch-up] [idle] [harm]

latency: sites with 10 lines a second each, and pages that listen: from a line's own moment to the
page's end. catch-up: a site that was off for 100,000 lines. idle: 1,000 connections that do nothing
and one that reads nothing, while others ask. harm: bodies of 10 MB and wrong tokens, while others
ask. Needs Python 3.9, Debian's python3-tornado and aprsbook in the PATH.
"""
import argparse
import asyncio
import collections
import contextlib
import http.client
import os
import pathlib
import socket
import subprocess
import sys
import tempfile
import threading
import time
from typing import Iterator, List, Tuple

SOURCES = pathlib.Path(__file__).resolve().parent.parent / "tools/src"
sys.path.append(str(SOURCES))
from aprsbook_tools.formats import ax25, kiss, log_file  # noqa: E402 (they lie there)
from aprsbook_tools.serving import tokens  # noqa: E402

DAY = time.strftime("%Y-%m-%d", time.gmtime())
RATE = 10  # lines a second and site
TICKS = os.sysconf("SC_CLK_TCK")


def line(moment: int, name: str, number: int) -> bytes:
    """A line of a log, of a station that moves; another one for each number."""
    north, east = 5400 + number * 7 % 5900 / 100, 300 + number * 11 % 5900 / 100
    text = f"!{north:07.2f}N/{east:08.2f}W>run {number}".encode()
    frame = kiss.wrap(ax25.frame(f"Q{number % 10}CALL-{number % 16}", "APRS", text))
    octets: bytes = log_file.of_frame(moment, name, frame).write()
    return octets


def now() -> int:
    return time.time_ns() // 1_000_000


class Net:
    """A server in a folder of its own, and who pushes to it."""

    def __init__(self, folder: pathlib.Path, *options: str) -> None:
        self.folder, self.logs, self.sources = folder, folder / "base", folder / "sites"
        (self.sources / DAY).mkdir(parents=True)
        (folder / "page.html").write_text("page")
        with socket.socket() as it:
            it.bind(("127.0.0.1", 0))
            self.port = int(it.getsockname()[1])
        self.env = {**os.environ, "PYTHONPATH": str(SOURCES)}
        self.server = self.start("serve", "--listen", f"127.0.0.1:{self.port}", "--page",
                                 str(folder / "page.html"), *options, str(self.logs))
        for _ in range(1200):
            with contextlib.suppress(OSError):
                self.connection().close()
                break
            time.sleep(.05)
        self.pushers: List["subprocess.Popen[bytes]"] = []

    def start(self, *words: str) -> "subprocess.Popen[bytes]":
        return subprocess.Popen([sys.executable, "-m", "aprsbook_tools", *words], env=self.env,
                                stderr=subprocess.DEVNULL)

    def connection(self) -> socket.socket:
        return socket.create_connection(("127.0.0.1", self.port), timeout=60)

    @property
    def url(self) -> str:
        return f"http://127.0.0.1:{self.port}/"

    def push(self, name: str, *options: str) -> "subprocess.Popen[bytes]":
        it = self.start("push", *options, self.url, name, str(self.sources))
        self.pushers.append(it)
        return it

    def log(self, name: str, of: str) -> pathlib.Path:
        return (self.logs if of == "base" else self.sources) / DAY / f"{name}.log"

    def ask(self, path: str, token: str = "") -> Tuple[float, int]:
        """In how many seconds it is answered, and with what status."""
        begun, connection = time.monotonic(), http.client.HTTPConnection(
            "127.0.0.1", self.port, timeout=60)
        connection.request("GET", path, headers={"Authorization": f"Bearer {token}"})
        status = connection.getresponse().status
        connection.close()
        return time.monotonic() - begun, status

    def end(self) -> None:
        for it in [*self.pushers, self.server]:
            it.terminate()
        for it in [*self.pushers, self.server]:
            it.wait()


def usage(process: "subprocess.Popen[bytes]") -> Tuple[float, float, float]:
    """Of a process: seconds of processor, MiB of memory, and MB that were written to the disk."""
    here = pathlib.Path("/proc", str(process.pid))
    fields = (here / "stat").read_text().rpartition(")")[2].split()
    status = dict(it.split(":", 1) for it in (here / "status").read_text().splitlines())
    io = dict(it.split(": ") for it in (here / "io").read_text().splitlines())
    return ((int(fields[11]) + int(fields[12])) / TICKS, int(status["VmRSS"].split()[0]) / 1024,
            int(io["write_bytes"]) / 1e6)


class Page:
    """Who listens: when each line came, and which."""

    def __init__(self) -> None:
        self.came: List[Tuple[int, bytes]] = []

    async def listen(self, net: Net) -> None:
        reader, writer = await asyncio.open_connection("127.0.0.1", net.port)
        host = f"127.0.0.1:{net.port}"
        writer.write(f"GET /events HTTP/1.1\r\nHost: {host}\r\n\r\n".encode())
        while True:
            octets = await reader.read(1 << 18)
            if not octets:
                return
            self.came.append((now(), octets))

    def lines(self) -> Iterator[Tuple[int, bytes]]:
        """When each line came, and the line."""
        rest = b""
        for at, octets in self.came:
            lines = (rest + octets).split(b"\n")
            rest = lines.pop()
            for it in lines:
                if it.startswith(b"data: ") and log_file.read_line(it[6:]):
                    yield at, it[6:]


async def feed(net: Net, name: str, seconds: float) -> None:
    """A site's log, which grows."""
    end, number = time.monotonic() + seconds, 0
    with open(net.log(name, "site"), "ab", buffering=0) as file:
        while time.monotonic() < end:
            file.write(line(now(), name, number))
            number += 1
            await asyncio.sleep(1 / RATE)


async def latency(net: Net, sites: int, pages: int, seconds: float) -> None:
    names = [f"RX{k:02}" for k in range(sites)]
    for name in names:
        net.push(name)
    listeners = [Page() for _ in range(pages)]
    tasks = [asyncio.ensure_future(it.listen(net)) for it in listeners]
    await asyncio.sleep(3)
    before = usage(net.server)
    await asyncio.gather(*(feed(net, name, seconds) for name in names))
    after = usage(net.server)
    await asyncio.sleep(5)
    for task in tasks:
        task.cancel()
    sent = {it for name in names for it in net.log(name, "site").read_bytes().splitlines()}
    came = [[*it.lines()] for it in listeners]
    whole = sum({it for _, it in of} == sent and len(of) == len(sent) for of in came)
    lates = sorted(at - (log_file.read_line(it) or log_file.Line(0, "", b"")).moment
                   for of in came for at, it in of)
    same = all(net.log(it, "site").read_bytes() == net.log(it, "base").read_bytes()
               for it in names)
    middle, most = lates[len(lates) // 2], lates[int(.99 * len(lates))]
    print(f"latency: {sites} sites, {pages} pages, {len(sent)} lines: median {middle} ms, "
          f"99 % {most} ms, at most {lates[-1]} ms")
    print(f"  each line once at {whole} of {pages} pages; logs the same: {same}")
    print(f"  server: {100 * (after[0] - before[0]) / seconds:.0f} % of a core, "
          f"{after[1]:.0f} MiB, {after[2] - before[2]:.1f} MB written for "
          f"{sum(map(len, sent)) / 1e6:.1f} MB; load {os.getloadavg()[0]:.0f}")


def catch_up(net: Net, count: int = 100_000) -> None:
    begin = now() // 86_400_000 * 86_400_000
    site, base = net.log("HILL", "site"), net.log("HILL", "base")
    site.write_bytes(b"".join(line(begin + 500 * k, "HILL", k) for k in range(count)))

    def push(what: str) -> None:
        before, begun = usage(net.server), time.monotonic()
        net.push("HILL", "--once").wait()
        took, after = time.monotonic() - begun, usage(net.server)
        there = set(base.read_bytes().splitlines()) == set(site.read_bytes().splitlines())
        print(f"catch-up, {what}: {took:.1f} s, server {after[0] - before[0]:.1f} s of processor, "
              f"{after[1]:.0f} MiB; all there: {there}")
    push(f"{count} lines")
    push("all there before")
    os.truncate(base, base.stat().st_size // 2)
    push("the base lost the second half")
    lines = base.read_bytes().splitlines(keepends=True)
    base.write_bytes(b"".join(lines[:40_000] + lines[41_000:]))
    push("the base lost 1,000 in the middle")


def idle(net: Net) -> None:
    begin = usage(net.server)
    connections = [net.connection() for _ in range(1000)]
    time.sleep(1)
    took, _ = net.ask("/who")
    after = usage(net.server)
    print(f"idle: 1,000 connections, +{after[1] - begin[1]:.0f} MiB; another is answered in "
          f"{1000 * took:.0f} ms")
    for it in connections:
        it.close()
    slow = socket.socket()
    slow.setsockopt(socket.SOL_SOCKET, socket.SO_RCVBUF, 4096)
    slow.connect(("127.0.0.1", net.port))
    slow.sendall(f"GET /events HTTP/1.1\r\nHost: 127.0.0.1:{net.port}\r\n\r\n".encode())
    time.sleep(1)
    times = sorted(net.ask("/who")[0] for _ in range(20))
    print(f"idle: while one reads nothing, another is answered in {1000 * times[10]:.0f} ms, "
          f"at most {1000 * times[-1]:.0f} ms; +{usage(net.server)[1] - after[1]:.0f} MiB")
    slow.close()


class Harm:
    """Who sends bodies of 10 MB, and who tries tokens, each in a thread, until it ends."""

    def __init__(self, net: Net) -> None:
        self.net, self.has_ended = net, False
        self.statuses: "collections.Counter[int]" = collections.Counter()
        self.threads = [threading.Thread(target=it) for it in (self.send, self.guess) * 4]
        for it in self.threads:
            it.start()

    def send(self) -> None:
        head = (f"POST /push/HILL/{DAY} HTTP/1.1\r\nHost: 127.0.0.1:{self.net.port}\r\n"
                f"Content-Length: {10 << 20}\r\n\r\n").encode()
        while not self.has_ended:
            with contextlib.suppress(OSError), self.net.connection() as it:
                it.sendall(head)
                it.sendall(bytes(10 << 20))

    def guess(self) -> None:
        while not self.has_ended:
            with contextlib.suppress(OSError, http.client.HTTPException):
                self.statuses[self.net.ask("/who", "x" * 32)[1]] += 1

    def end(self) -> None:
        self.has_ended = True
        for it in self.threads:
            it.join()


def harm(net: Net, token: str, seconds: float = 10) -> None:
    before, times = usage(net.server), []  # type: Tuple[float, float, float], List[float]
    others, end = Harm(net), time.monotonic() + seconds
    while time.monotonic() < end:
        took, status = net.ask("/who", token)
        assert status == 200
        times.append(took)
        time.sleep(.02)
    others.end()
    times.sort()
    after = usage(net.server)
    print(f"harm: with bodies of 10 MB and wrong tokens ({dict(others.statuses)}) another one is "
          f"answered in {1000 * times[len(times) // 2]:.0f} ms, at most {1000 * times[-1]:.0f} ms; "
          f"+{after[1] - before[1]:.0f} MiB; load {os.getloadavg()[0]:.0f}")


def measure(what: str, args: argparse.Namespace) -> None:
    """Measures one thing with a net of its own."""
    with tempfile.TemporaryDirectory() as name:
        folder, options, token = pathlib.Path(name), [], ""  # type: pathlib.Path, List[str], str
        if what == "idle":
            options = ["--connections", "2000", "--each", "2000"]
        if what == "harm":
            token = tokens.add(str(folder / "tokens"), "read", "PAGE")
            options = ["--tokens", str(folder / "tokens")]
        net = Net(folder, *options)
        try:
            if what == "latency":
                asyncio.run(latency(net, args.sites, args.pages, args.seconds))
            elif what == "catch-up":
                catch_up(net)
            elif what == "idle":
                idle(net)
            else:
                harm(net, token)
        finally:
            net.end()


def main() -> None:
    parser = argparse.ArgumentParser(description=(__doc__ or "").split("\n", 1)[0])
    parser.add_argument("--seconds", type=float, default=60)
    parser.add_argument("--sites", type=int, default=20)
    parser.add_argument("--pages", type=int, default=50)
    parser.add_argument("what", nargs="*", default=["latency", "catch-up", "idle", "harm"])
    args = parser.parse_args()
    for what in args.what:
        measure(what, args)


if __name__ == "__main__":
    main()
