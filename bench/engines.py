#!/usr/bin/env python3
"""Merges of logs, and of the book files of their days, by one process, by aprs-net book with one to
four processors, and by aprs-net cluster with 1, 2 and 4 workers, where Dask is there; and places of
the logs: seconds, those of processors, the greatest memory of a process, and how many bytes all
processes read and wrote, from files and pipes.

usage: engines.py PROGRAM FOLDER LINES..    needs taskset; the other programs lie beside PROGRAM or
                                            where they are built. The inputs of so many lines stay
                                            in FOLDER, and aren't made again
       engines.py --inputs PROGRAM FOLDER LINES..   makes the inputs alone
"""
import os
import pathlib
import shutil
import subprocess
import sys
import tempfile
import time
from typing import List, Union

HERE = pathlib.Path(__file__).resolve().parent
DAYS = 16
SCHEDULER = "127.0.0.1:8799"
NAMES = "aprsbook", "aprsbook-table", "aprsbook-fold"


def moved_by(process: int) -> int:
    """How many bytes the process read and wrote, with those that it started and waited for."""
    lines = pathlib.Path(f"/proc/{process}/io").read_text().splitlines()
    counts = dict(line.split(": ") for line in lines)
    return int(counts["rchar"]) + int(counts["wchar"])


class Run:
    """A process: the seconds that it took, those of processors, MiB of the greatest process that it
    started, and the bytes that all of them read and wrote."""

    def __init__(self, *command: object, to: Union[str, pathlib.Path] = os.devnull) -> None:
        self.begin = time.monotonic()
        with open(to, "wb") as out:
            # held, since what nobody holds is waited for by itself
            self.words = [*map(str, command)]
            self.started = subprocess.Popen(self.words, stdout=out)

    def wait(self, may_fail: bool = False) -> "Run":
        os.waitid(os.P_PID, self.started.pid, os.WEXITED | os.WNOWAIT)
        self.moved = moved_by(self.started.pid)
        _, status, used = os.wait4(self.started.pid, 0)
        self.started.returncode = status
        if status and not may_fail:
            sys.exit(f"engines.py: {self.words[:4]} failed")
        self.took = time.monotonic() - self.begin
        self.used = used.ru_utime + used.ru_stime
        self.most = used.ru_maxrss / 1024
        return self

    def __str__(self) -> str:
        return said(self.took, [self])


def said(took: float, runs: List[Run]) -> str:
    """So many seconds, and what these runs took together."""
    return (f"{took:.1f} s, {sum(it.used for it in runs):.1f} of processors, "
            f"{max(it.most for it in runs):.0f} MiB, {sum(it.moved for it in runs) / 1e9:.2f} GB")


def days_of(folder: pathlib.Path, lines: int) -> None:
    """Logs of three receivers, in DAYS folders: what they heard of one day, in as many years."""
    subprocess.run([sys.executable, HERE / "make_log.py", str(lines // DAYS), folder], check=True)
    for log in sorted(folder.glob("*.log")):
        text = b"\n" + log.read_bytes()
        for year in range(2024, 2024 + DAYS):
            day = folder / "logs" / f"{year}-05-01"
            day.mkdir(parents=True, exist_ok=True)
            (day / log.name).write_bytes(text.replace(b"\n2024-", b"\n%d-" % year)[1:])
        log.unlink()


def make_inputs(folder: pathlib.Path, lines: int) -> None:
    if folder.is_dir():
        return
    new = folder.with_name(folder.name + ".new")
    shutil.rmtree(new, ignore_errors=True)
    (new / "books").mkdir(parents=True)
    days_of(new, lines)
    for day in (new / "logs").iterdir():
        book = new / "books" / f"{day.name}.book"
        Run("aprsbook", "merge", *sorted(day.iterdir()), to=book).wait()
    new.rename(folder)


def same(folder: pathlib.Path, path: pathlib.Path) -> None:
    # not read here: a process begins with the memory of the one that starts it
    subprocess.run(["cmp", folder / "one", path], check=True)


def measure(folder: pathlib.Path, lines: int) -> None:
    for kind in "logs", "books":
        inputs = sorted(path for path in (folder / kind).rglob("*") if path.is_file())
        one = Run("aprsbook", "merge", *inputs, to=folder / "one").wait()
        print(f"{lines} lines, {kind}: one process {one}", flush=True)
        for n in 1, 2, 3, 4:
            book = folder / "tree.book"
            book.unlink(missing_ok=True)
            some = "taskset", "-c", f"0-{n - 1}"
            run = Run(*some, "aprs-net", "book", "--jobs", n, book, folder / kind).wait()
            same(folder, book)
            print(f"    {n} processors: {run}", flush=True)
        if kind == "logs":
            if shutil.which("dask-worker"):
                measure_cluster(folder)
            print(f"    places: {Run('aprs-net', 'places', *inputs).wait()}", flush=True)


def measure_cluster(folder: pathlib.Path) -> None:
    """The book by workers of this machine; their sums are those of all that they started."""
    for n in 1, 2, 4:
        with tempfile.TemporaryDirectory(dir=folder) as work:
            host, port = SCHEDULER.split(":")
            hosts = [Run("dask-scheduler", "--host", host, "--port", port, "--no-dashboard")]
            for _ in range(n):
                hosts.append(Run("dask-worker", f"tcp://{SCHEDULER}", "--nthreads", 1, "--no-nanny",
                                 "--no-dashboard", "--memory-limit", 0, "--local-directory",
                                 tempfile.mkdtemp(dir=work)))
            time.sleep(10)
            book = folder / "cluster.book"
            book.unlink(missing_ok=True)
            client = Run("aprs-net", "cluster", "--piece", 64, "--scheduler", f"tcp://{SCHEDULER}",
                         "--work", f"{work}/work", book, folder / "logs").wait()
            same(folder, book)
            for it in hosts:
                it.started.kill()
                it.wait(may_fail=True)
            print(f"    {n} workers: {said(client.took, [client, *hosts])}", flush=True)


def main() -> None:
    made_alone = sys.argv[1] == "--inputs"
    program, folder = map(pathlib.Path, sys.argv[2:4] if made_alone else sys.argv[1:3])
    program = program.absolute()
    with tempfile.TemporaryDirectory() as bin_folder:
        for name in NAMES:
            pathlib.Path(bin_folder, name).symlink_to(program.parent / name)
        os.environ["PATH"] = f"{bin_folder}:{HERE.parent}/tools/bin:" + os.environ["PATH"]
        for text in sys.argv[4 if made_alone else 3:]:
            make_inputs(folder / text, int(text))
            if not made_alone:
                measure(folder / text, int(text))


main()
