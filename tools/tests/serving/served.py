"""A net that is served, by a process of its own, and who asks it."""
import contextlib
import http.client
import json
import os
import pathlib
import re
import shutil
import signal
import socket
import subprocess
import time
from typing import Any, Dict, Iterator, List, Optional, Tuple

import pytest

from aprsbook_tools.formats import moments
from aprsbook_tools.serving import tokens
from conftest import HERE, environment, lay_script, started, wait_for

pytest.importorskip("tornado", reason="needs Tornado (Debian: python3-tornado)")

POLICY = "default-src 'none'"
PAGE = f'<!DOCTYPE html><meta http-equiv="Content-Security-Policy" content="{POLICY}">page'
DAY = time.strftime("%Y-%m-%d", time.gmtime())
RECEIVERS = ["HILL", "COAST"]
HEAD = re.compile(r"(?P<name>.+) (?P<begin>\d+) \d+\n")  # of an event with lines


def line(number: int, name: str = "HILL", day: str = DAY) -> bytes:
    """A line of a log, another one for each number."""
    clock = number % 86_400_000
    moment = moments.text_of(moments.milliseconds(f"{day}T00:00:00Z") + clock)
    return f"{moment} {name} c000{number:08x}c0\n".encode()


def free_port() -> int:
    with socket.socket() as it:
        it.bind(("127.0.0.1", 0))
        return int(it.getsockname()[1])


class Answer:
    def __init__(self, status: int, headers: Dict[str, str], body: bytes) -> None:
        self.status, self.headers, self.body = status, headers, body

    @property
    def says(self) -> Any:
        return json.loads(self.body)


class Served:
    """`aprs-net serve` in a folder of its own."""

    def __init__(self, folder: pathlib.Path, *options: object, with_tokens: bool = True) -> None:
        self.folder, self.options, self.with_tokens = folder, options, with_tokens
        self.logs, self.port = folder / "base", free_port()
        (folder / "page.html").write_text(PAGE)
        self.env = environment(PATH=os.pathsep.join([stand_in(folder), os.environ["PATH"]]))
        self.tokens: Dict[str, str] = {}
        if with_tokens:
            for kind, name in [*(("receiver", it) for it in RECEIVERS), ("desk", "BASE"),
                               ("desk", "GATE"), ("read", "GUEST"), ("feed", "FEED")]:
                self.tokens[name] = tokens.add(str(folder / "tokens"), kind, name)
        self.process: Optional["subprocess.Popen[bytes]"] = None
        self.pushers: List["subprocess.Popen[bytes]"] = []

    @property
    def url(self) -> str:
        return f"http://127.0.0.1:{self.port}/"

    def begin(self) -> "Served":
        more = ["--tokens", self.folder / "tokens"] if self.with_tokens else []
        with open(self.folder / "said", "ab") as said:
            self.process = started("serve", "--listen", f"127.0.0.1:{self.port}", "--page",
                                   self.folder / "page.html", *more, *self.options, self.logs,
                                   env=self.env, stderr=said)
        wait_for(lambda: self.is_there() or self.process and self.process.poll() is not None,
                 "the server", 120)
        return self

    def is_there(self) -> bool:
        with contextlib.suppress(OSError):
            socket.create_connection(("127.0.0.1", self.port)).close()
            return True
        return False

    @property
    def said(self) -> str:
        return (self.folder / "said").read_text()

    def kill(self) -> None:
        assert self.process
        self.process.kill()
        self.process.wait()

    def end(self) -> int:
        assert self.process
        self.process.terminate()
        return self.process.wait()

    def ask(self, method: str, path: str, body: bytes = b"", token: str = "", **headers: str
            ) -> Answer:
        """An answer, to the holder of a token or of its name."""
        token = self.tokens.get(token, token)
        head = {name.replace("_", "-"): it for name, it in headers.items()}
        if token:
            head["Authorization"] = f"Bearer {token}"
        connection = http.client.HTTPConnection("127.0.0.1", self.port, timeout=120)
        try:
            connection.request(method, path, body, head)
            it = connection.getresponse()
            return Answer(it.status, dict(it.getheaders()), it.read())
        finally:
            connection.close()

    def push(self, *lines: bytes, name: str = "HILL", day: str = DAY, token: str = "",
             **headers: str) -> Answer:
        return self.ask("POST", f"/push/{name}/{day}", b"".join(lines), token or name, **headers)

    def pusher(self, name: str, logs: pathlib.Path, *options: object
               ) -> "subprocess.Popen[bytes]":
        env = {**self.env, "APRS_NET_TOKEN": self.tokens.get(name, "")}
        with open(self.folder / "pushers", "ab") as said:
            it = started("push", *options, self.url, name, logs, env=env, stderr=said)
        self.pushers.append(it)
        return it

    def log(self, name: str = "HILL", day: str = DAY) -> List[bytes]:
        path = self.logs / day / f"{name}.log"
        return path.read_bytes().splitlines(keepends=True) if path.exists() else []

    def stop(self) -> None:
        for it in [self.process, *self.pushers]:
            if it is not None and it.poll() is None:
                it.send_signal(signal.SIGTERM)
                it.wait()


def stand_in(folder: pathlib.Path) -> str:
    """A folder with a stand-in for aprsbook; nothing where it is there."""
    if shutil.which("aprsbook"):
        return ""
    bin_folder = folder / "bin"
    bin_folder.mkdir(exist_ok=True)
    lay_script(bin_folder / "aprsbook", (HERE / "stand_in.py").read_text())
    return str(bin_folder)


@contextlib.contextmanager
def serving(folder: pathlib.Path, *options: object, with_tokens: bool = True) -> Iterator[Served]:
    it = Served(folder, *options, with_tokens=with_tokens)
    try:
        yield it.begin()
    finally:
        it.stop()


class Listener:
    """Who listens to the stream: what of each file was told, and whether it fitted."""

    def __init__(self, net: Served, token: str = "BASE") -> None:
        self.net, self.token = net, token
        self.files: Dict[str, bytearray] = {}
        self.events: List[Tuple[str, str]] = []
        self.misfits = 0
        self.told: Any = None

    def listen(self, until: Any, seconds: float = 20) -> None:
        """Listens, again from where it stopped, until a condition holds."""
        end = time.monotonic() + seconds
        while not until():
            assert time.monotonic() < end, (self.events[-5:], self.net.said[-500:])
            with contextlib.suppress(OSError, http.client.HTTPException):
                self.once(until, end)

    def once(self, until: Any, end: float) -> None:
        have = "&".join(f"have={name}:{len(it)}" for name, it in self.files.items())
        connection = http.client.HTTPConnection("127.0.0.1", self.net.port, timeout=1)
        connection.request("GET", f"/events?{have}",
                           headers={"Authorization": f"Bearer {self.net.tokens[self.token]}"})
        answer = connection.getresponse()
        kind, data = "", []  # type: str, List[bytes]
        while time.monotonic() < end and not until():
            it = answer.readline()
            if not it:
                break
            if it.startswith(b"event: "):
                kind, data = it[7:-1].decode(), []
            elif it.startswith(b"data: "):
                data.append(it[6:])
            elif it == b"\n" and data:
                self.take(kind, data)
                data = []
        connection.close()

    def take(self, kind: str, data: List[bytes]) -> None:
        self.events.append((kind, data[0].decode()[:100]))
        if kind == "net":
            self.told = json.loads(data[0])
        if kind == "anew":
            self.files.pop(data[0].decode().strip(), None)
        if kind != "lines":
            return
        head = HEAD.fullmatch(data[0].decode())
        assert head, data[0]
        name, begin = head["name"], int(head["begin"])
        had, octets = self.files.setdefault(name, bytearray()), b"".join(data[1:])
        over = len(had) - begin
        if over < 0 or had[begin:] != octets[:over]:
            self.misfits += 1
            del self.files[name]
        else:
            had += octets[over:]
