"""Server, pushers and pages are killed at random moments: what was acknowledged is there, once.
KILLS says how many times; what the book of it is, `aprsbook` says where it is there."""
import contextlib
import http.client
import os
import pathlib
import random
import shutil
import subprocess
import threading
import time
from typing import List, Set

from aprsbook_tools.serving.entries import spelling
from conftest import wait_for
from served import DAY, RECEIVERS, Listener, Served, line, serving

KILLS = int(os.environ.get("KILLS", "9"))
TORN = [b"2026-11-29T16:0", b"\0" * 200, b"\0" * 50 + b"\n"]  # what a power failure leaves


class Sources:
    """Sites whose logs grow, at times by a part of a line first."""

    def __init__(self, folder: pathlib.Path) -> None:
        self.folder, self.has_ended = folder, threading.Event()
        (folder / DAY).mkdir(parents=True)
        for name in RECEIVERS:
            (folder / DAY / f"{name}.log").touch()

    def run(self) -> None:
        number = 0
        while not self.has_ended.is_set():
            for name in RECEIVERS:
                number += 1
                it = line(number, name)
                with open(self.folder / DAY / f"{name}.log", "ab", buffering=0) as file:
                    at = random.choice([0, 0, 0, 20])
                    file.write(it[:at])
                    time.sleep(.001)
                    file.write(it[at:])
            time.sleep(.02)

    def lines(self, name: str) -> Set[bytes]:
        return {*(self.folder / DAY / f"{name}.log").read_bytes().splitlines(keepends=True)}


class Page:
    """A page that listens, and is killed at times. It comes again with nothing, as a browser that
    was begun anew, or goes on with what it has."""

    def __init__(self, net: Served, sources: Sources) -> None:
        self.listener, self.sources = Listener(net), sources
        self.is_killed = threading.Event()

    def run(self) -> None:
        ended = self.sources.has_ended
        while not ended.is_set():
            self.listener.listen(lambda: self.is_killed.is_set() or ended.is_set(), 60 + 5 * KILLS)
            if self.is_killed.is_set():
                if random.random() < .5:
                    self.listener.files.clear()
                self.is_killed.clear()


class Direct:
    """Sends lines and entries one by one, each until it is acknowledged, and notes them."""

    def __init__(self, net: Served, sources: Sources) -> None:
        self.net, self.sources = net, sources
        self.lines: List[bytes] = []
        self.entries: List[bytes] = []

    def run(self) -> None:
        number = 0
        while not self.sources.has_ended.is_set():
            number += 1
            it = line(10_000_000 + number)
            self.until(lambda it=it: self.net.push(it).status == 200)
            self.lines.append(it)
            of = spelling({"at": number, "desk": "BASE", "id": f"{number:032x}", "kind": "line",
                           "time": "1", "from": "", "to": "", "number": "", "text": ""}) + b"\n"
            self.until(lambda of=of: self.net.ask(
                "POST", "/desks/BASE", of, "BASE",
                Content_Type="application/x-ndjson").status == 200)
            self.entries.append(of)

    def until(self, is_taken: "object") -> None:
        while True:
            with contextlib.suppress(OSError, http.client.HTTPException):
                if callable(is_taken) and is_taken():
                    return
            time.sleep(.03)


class Killed:
    """What is killed, and is there again after a while: the server, a pusher or a page."""

    def __init__(self, net: Served, sources: Sources) -> None:
        self.net, self.sources = net, sources
        self.pushers = {name: net.pusher(name, sources.folder) for name in RECEIVERS}
        self.pages = [Page(net, sources) for _ in range(3)]

    def kill(self, number: int) -> None:
        time.sleep(random.uniform(.1, .8))
        [self.kill_server, self.kill_pusher, self.kill_page][number % 3]()

    def kill_server(self) -> None:
        self.net.kill()
        path = self.net.logs / DAY / f"{random.choice(RECEIVERS)}.log"
        if path.exists() and random.random() < .5:
            with open(path, "ab") as file:
                file.write(random.choice(TORN))
        time.sleep(random.uniform(0, .3))
        self.net.begin()

    def kill_pusher(self) -> None:
        name = random.choice(RECEIVERS)
        self.pushers[name].kill()
        self.pushers[name].wait()
        self.pushers[name] = self.net.pusher(name, self.sources.folder)

    def kill_page(self) -> None:
        random.choice(self.pages).is_killed.set()


def test_what_was_acknowledged_is_there(tmp_path: pathlib.Path) -> None:
    sources = Sources(tmp_path / "sites")
    with serving(tmp_path) as net:
        direct, killed = Direct(net, sources), Killed(net, sources)
        runs = [sources.run, direct.run, *(page.run for page in killed.pages)]
        threads = [threading.Thread(target=run, daemon=True) for run in runs]
        for thread in threads:
            thread.start()
        for number in range(KILLS):
            killed.kill(number)
        sources.has_ended.set()
        for thread in threads:
            thread.join(60)
        wanted = {name: sources.lines(name) for name in RECEIVERS}
        wanted["HILL"] |= {*direct.lines}
        wait_for(lambda: all(wanted[it] <= {*net.log(it)} for it in RECEIVERS), "all lines", 60)
        for name in RECEIVERS:
            assert len(net.log(name)) == len(wanted[name]) and {*net.log(name)} == wanted[name]
        journal = (net.logs / "desks" / "BASE.jsonl").read_bytes().splitlines(keepends=True)
        assert {*journal} == {*direct.entries} and len(journal) == len(direct.entries)
        for page in killed.pages:
            check_page(page.listener, net)
        assert len(direct.lines) > KILLS
    compare_books(net, sources, direct, tmp_path)


def check_page(of: Listener, net: Served) -> None:
    """A page has had each line where it stands, and comes to all of them."""
    assert of.misfits == 0
    names = [f"{DAY}/{it}.log" for it in RECEIVERS]
    of.listen(lambda: all(len(of.files.get(it, b"")) == (net.logs / it).stat().st_size
                          for it in names), 60)
    for name, octets in of.files.items():
        assert (net.logs / name).read_bytes().startswith(bytes(octets)), name


def compare_books(net: Served, sources: Sources, direct: Direct, folder: pathlib.Path) -> None:
    """The book of the base's logs is that of the sources and of what was acknowledged."""
    if not shutil.which("aprsbook"):
        return
    (folder / "direct.log").write_bytes(b"".join(direct.lines))
    books = [subprocess.run(["aprsbook", "merge", *map(str, logs)], check=True,
                            capture_output=True).stdout
             for logs in ([*net.logs.glob(f"{DAY}/*.log")],
                          [*sources.folder.glob(f"{DAY}/*.log"), folder / "direct.log"])]
    assert books[0] == books[1]
