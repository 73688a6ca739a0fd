#!/usr/bin/env python3
"""Kills aprs-net at random moments of log, book, follow, watch, sqlite and page, runs it again, and
says whether that ended right. Needs the programs in the PATH.

usage: tests/kills.py [KILLS [COMMAND..]]    so many of each command (200), or of these
"""
import json
import os
import pathlib
import random
import shutil
import socket
import sqlite3
import subprocess
import sys
import tempfile
import threading
import time
from typing import Callable, Dict, List

HERE = pathlib.Path(__file__).resolve().parent
EXAMPLES = HERE.parent.parent / "examples"
DAY = "2024-06-21"
sys.path.insert(0, str(HERE.parent / "src"))
from aprsbook_tools.formats import ax25, kiss, log_file  # noqa: E402

ENVIRONMENT = {**os.environ, "PYTHONPATH": str(HERE.parent / "src"), "APRS_NET_DAYS": DAY}


def command(*words: object) -> List[str]:
    return [sys.executable, "-m", "aprsbook_tools", *map(str, words)]


def run(folder: pathlib.Path, words: List[str]) -> "subprocess.CompletedProcess[bytes]":
    return subprocess.run(command(*words), cwd=folder, env=ENVIRONMENT, stdin=subprocess.DEVNULL,
                          capture_output=True)


def kill(folder: pathlib.Path, words: List[str], after: float) -> bytes:
    """Runs a command, which is killed after so many seconds; what it printed."""
    with subprocess.Popen(command(*words), cwd=folder, env=ENVIRONMENT, stdin=subprocess.DEVNULL,
                          stdout=subprocess.PIPE, stderr=subprocess.DEVNULL) as running:
        time.sleep(after)
        running.kill()
        return running.communicate()[0]


def laid(folder: pathlib.Path) -> pathlib.Path:
    """A folder with the logs of an evening."""
    (folder / "logs" / DAY).mkdir(parents=True)
    for log in EXAMPLES.glob("evening/*.log"):
        shutil.copy(log, folder / "logs" / DAY)
    return folder


def tables_of(path: pathlib.Path) -> Dict[str, object]:
    """What a database has."""
    base = sqlite3.connect(path)
    try:
        assert base.execute("pragma integrity_check").fetchall() == [("ok",)]
        names = [it for (it,) in base.execute("select name from sqlite_master order by 1")]
        tables = [it for it in names if not it.startswith(("sqlite_", "transmissions_"))]
        return {it: sorted(map(repr, base.execute(f'select * from "{it}"'))) for it in tables}
    finally:
        base.close()


def told_of(folder: pathlib.Path) -> object:
    return json.loads((folder / "told").read_text())


# the words of each command, and what is looked at in its folder
RUNS: Dict[str, "tuple[List[str], Callable[[pathlib.Path], object]]"] = {
    "book": (["book", "net.book", "logs"], lambda it: (it / "net.book").read_bytes()),
    "follow": (["follow", "--title", "net", "logs", "out"],
               lambda it: [(it / "out" / name).read_bytes() for name in ("net.book",)]
               + [(it / "out" / "index.html").read_bytes()[-8:]]),
    "watch": (["watch", "--silent", "20", "--unanswered", "10", "--emergency", "--state", "told",
               "--moment", f"{DAY}T20:30", "logs"], told_of),
    "sqlite": (["sqlite", "net.db", "logs"], lambda it: tables_of(it / "net.db")),
    "page": (["page", "-o", "net.html", "logs"], lambda it: (it / "net.html").read_bytes()),
}


def try_run(name: str, kills: int, place: pathlib.Path) -> List[str]:
    """Kills a command so often, each time followed by a run that is whole; what was wrong."""
    words, look = RUNS[name]
    clean = laid(place / f"{name}-clean")
    begun = time.monotonic()
    done = run(clean, words)
    took, wanted = time.monotonic() - begun, look(clean)
    wrong = [] if done.returncode == 0 else [f"{name}: status {done.returncode}: {done.stderr!r}"]
    for number in range(kills):
        folder = laid(place / f"{name}-{number}")
        if number % 3 == 0:  # over what is there, and has grown
            (folder / "logs" / DAY / "north.log").rename(folder / "north")
            run(folder, words)
            (folder / "north").rename(folder / "logs" / DAY / "north.log")
        told = kill(folder, words, random.uniform(0, 1.1 * took))
        again = run(folder, words)
        if again.returncode or look(folder) != wanted:
            wrong.append(f"{name}: {folder}: {again.stderr!r}")
        if name == "watch" and number % 3:  # each is told once more rather than never
            lost = {*done.stdout.splitlines()} - {*told.splitlines(), *again.stdout.splitlines()}
            wrong += [f"{name}: {folder}: never told: {it!r}" for it in lost]
        left = [it for it in folder.rglob("*.aprs-net-work") if name == "book"]
        wrong += [f"{name}: {it} was left" for it in left]
        shutil.rmtree(folder)
    return wrong


class Tnc(threading.Thread):
    """Sends frames that are numbered, to one logger after another."""

    def __init__(self) -> None:
        super().__init__(daemon=True)
        self.server = socket.create_server(("127.0.0.1", 0))
        self.number = 0

    def run(self) -> None:
        while True:
            client, _ = self.server.accept()
            try:
                while True:
                    self.number += 1
                    client.sendall(kiss.wrap(ax25.frame("Q1A", "APRS", b">%d" % self.number)))
                    time.sleep(0.001)
            except OSError:
                pass


def try_log(kills: int, place: pathlib.Path) -> List[str]:
    """Kills a logger so often; its log then has whole lines, each frame at most once, in order."""
    tnc, folder = Tnc(), place / "log"
    folder.mkdir()
    tnc.start()
    words = ["log", "--connect", f"127.0.0.1:{tnc.server.getsockname()[1]}", "RX1", "live"]
    for _ in range(kills):
        kill(folder, words, random.uniform(0, 3))
    last = tnc.number
    with subprocess.Popen(command(*words), cwd=folder, env=ENVIRONMENT,
                          stderr=subprocess.DEVNULL) as running:
        end = time.monotonic() + 60
        while tnc.number < last + 50 and time.monotonic() < end:
            time.sleep(0.1)
        running.terminate()
    lines = [line for log in sorted(folder.glob("live/*/RX1.log"))
             for line in log.read_bytes().splitlines(True)]
    read = [log_file.read_whole(it) for it in lines]
    if not lines or None in read:
        return [f"log: {len(lines)} lines, torn: {read.count(None)}"]
    numbers = [int(bytes.fromhex(it.digits.decode()).rpartition(b">")[2][:-1])
               for it in read if it]
    print(f"log: {len(numbers)} of {tnc.number} frames in {kills} kills")
    return [] if numbers == sorted({*numbers}) else ["log: frames twice, or in another order"]


def main() -> int:
    kills = int(sys.argv[1]) if len(sys.argv) > 1 else 200
    names = sys.argv[2:] or ["log", *RUNS]
    random.seed()
    wrong: List[str] = []
    with tempfile.TemporaryDirectory(prefix="kills-") as folder:
        place = pathlib.Path(folder)
        for name in names:
            own = try_log(kills, place) if name == "log" else try_run(name, kills, place)
            print(f"{name}: {kills} kills, wrong: {len(own)}", flush=True)
            wrong += own
    print("\n".join(wrong) if wrong else f"{kills * len(names)} kills, and all ended right")
    return 1 if wrong else 0


if __name__ == "__main__":
    sys.exit(main())
