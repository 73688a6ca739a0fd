"""aprs-net cluster: whatever happens to workers, scheduler and disks, the bytes of one merge, or a
status and no book. With the programs where they are there, and else with the stand-in."""
import glob
import importlib.util
import os
import pathlib
import random
import shutil
import signal
import socket
import subprocess
import tempfile
import time
from typing import Any, Dict, Iterator, List

import pytest

from aprsbook_tools.errors import ExitStatus
from aprsbook_tools.formats import ax25, kiss, log_file
from conftest import HERE, command, environment, wait_for

RECEIVERS = "HILL", "COAST", "NORTH"
SCHEDULER, WORKER = shutil.which("dask-scheduler"), shutil.which("dask-worker")
pytestmark = pytest.mark.skipif(
    not (SCHEDULER and WORKER and importlib.util.find_spec("distributed")),
    reason="needs Dask (Debian: apt install python3-distributed)")


def write_logs(folder: pathlib.Path) -> List[str]:
    """Logs of three receivers that hear mostly the same, of some megabytes in all."""
    dice = random.Random(1)
    logs: Dict[str, List[bytes]] = {it: [] for it in RECEIVERS}
    moment = 1_718_992_800_000
    for number in range(12_000):
        moment += dice.randrange(100, 4000)
        frame = ax25.frame(f"Q{dice.randrange(10)}{dice.choice('ABCXYZ')}-{dice.randrange(16)}",
                           "APRS", b">%d" % number)
        for it in RECEIVERS:
            if dice.random() < 0.9:
                line = log_file.of_frame(moment + dice.randrange(3), it, kiss.wrap(frame))
                logs[it].append(line.write())
    for it in RECEIVERS:
        (folder / f"{it}.log").write_bytes(b"".join(logs[it]))
    return [str(folder / f"{it}.log") for it in RECEIVERS]


class Hosts:
    """A scheduler and workers on this machine, and runs of the command."""

    def __init__(self, folder: pathlib.Path) -> None:
        self.folder = folder
        self.bin = folder / "bin"
        self.bin.mkdir()
        self.lay_programs()
        self.env = environment(PATH=f"{self.bin}{os.pathsep}{os.environ['PATH']}")
        with socket.socket() as free:
            free.bind(("127.0.0.1", 0))
            self.address = f"tcp://127.0.0.1:{free.getsockname()[1]}"
        self.started: List["subprocess.Popen[bytes]"] = []
        self.logs = write_logs(folder)
        self.expected = self.merged(*self.logs).stdout
        self.workers: List["subprocess.Popen[bytes]"] = []
        self.begin()

    def lay_programs(self) -> None:
        """The programs, slow enough to be hit while they work."""
        found = {it: shutil.which(it) for it in ("aprsbook", "aprsbook-fold", "aprsbook-table")}
        for name, real in found.items():
            if not all(found.values()) or real is None:
                real = str(self.bin / f"{name}.d" / name)
                os.mkdir(os.path.dirname(real))
                shutil.copy(HERE / "stand_in.py", real)
                os.chmod(real, 0o755)
            text = f'#!/bin/sh\n[ "$1" != merge ] || sleep "${{SLOW:-0.15}}"\nexec {real} "$@"\n'
            (self.bin / name).write_text(text)
            (self.bin / name).chmod(0o755)
        (self.bin / "aprs-net").symlink_to(HERE.parent / "bin/aprs-net")

    def merged(self, *logs: str) -> "subprocess.CompletedProcess[bytes]":
        """What one merge of logs writes and says."""
        return subprocess.run(["aprsbook", "merge", "--gap", "30", *logs], env=self.env,
                              cwd=self.folder, capture_output=True)

    def start(self, *words: object, **more: str) -> "subprocess.Popen[bytes]":
        with open(self.said_of(len(self.started)), "wb") as said:
            run = subprocess.Popen(list(map(str, words)), env={**self.env, **more}, stdout=said,
                                   stderr=said, stdin=subprocess.DEVNULL, cwd=self.folder)
        self.started.append(run)
        return run

    def said_of(self, number: int) -> pathlib.Path:
        return self.folder / f"{number}.txt"

    def begin(self) -> None:
        host, port = self.address[6:].split(":")
        self.scheduler = self.start(SCHEDULER, "--host", host, "--port", port, "--no-dashboard")

    def man(self, count: int) -> None:
        """There are so many workers."""
        new = [self.worker() for _ in range(count - len(self.workers))]
        self.workers += new
        for it in new:
            self.is_registered(it)

    def worker(self, **more: str) -> "subprocess.Popen[bytes]":
        folder = tempfile.mkdtemp(dir=self.folder)
        return self.start(WORKER, self.address, "--host", "127.0.0.1", "--nthreads", 1,
                          "--no-nanny", "--no-dashboard", "--memory-limit", 0,
                          "--local-directory", folder, **more)

    def is_registered(self, worker: "subprocess.Popen[bytes]") -> None:
        """Waits until the scheduler knows a worker."""
        said = self.said_of(self.started.index(worker))
        wait_for(lambda: b"Registered to" in said.read_bytes(), "a worker", 180)

    def merge(self, work: str, book: str, *given: str,
              patience: int = 20) -> "subprocess.Popen[bytes]":
        return self.start(*command("cluster", "--piece", 1, "--fan", 2, "--patience", patience,
                                   "--scheduler", self.address, "--work", work, book,
                                   *(given or self.logs)))

    def ends(self, run: "subprocess.Popen[bytes]", status: int) -> str:
        """What a run said, which ends so."""
        got: Any = "it hangs"
        try:
            got = run.wait(300)
        except subprocess.TimeoutExpired:
            pass
        said = self.said_of(self.started.index(run)).read_text()
        assert got == status, f"{got}, not {status}: {said[-3000:]}"
        assert "Traceback" not in said, said
        return said

    def halfway(self, work: str, files: int = 2) -> None:
        wait_for(lambda: len(glob.glob(f"{self.folder}/{work}/*/*.sum")) >= files, work, 60)

    def is_book(self, name: str) -> None:
        assert (self.folder / name).read_bytes() == self.expected

    def end(self) -> None:
        for it in self.started:
            if it.poll() is None:
                it.kill()
            it.wait()


@pytest.fixture(scope="module")
def unmanned(tmp_path_factory: pytest.TempPathFactory) -> Iterator[Hosts]:
    """A scheduler, with the workers that tests before have left."""
    result = Hosts(tmp_path_factory.mktemp("hosts"))
    try:
        yield result
    finally:
        result.end()


@pytest.fixture
def hosts(unmanned: Hosts) -> Hosts:
    """A scheduler with three workers."""
    unmanned.man(3)
    return unmanned


def test_the_bytes_of_one_merge(hosts: Hosts) -> None:
    assert hosts.ends(hosts.merge("equal", "equal.book"), 0) == ""
    hosts.is_book("equal.book")
    # a book of half of it grows
    (hosts.folder / "grown.book").write_bytes(hosts.merged(hosts.logs[0]).stdout)
    hosts.ends(hosts.merge("equal", "grown.book", *hosts.logs[1:], "grown.book"), 0)
    hosts.is_book("grown.book")


def test_parts(hosts: Hosts) -> None:
    """Parts stay as files, and their fold is the book."""
    run = hosts.start(*command("cluster", "--piece", 1, "--fan", 2, "--parts", 4, "--scheduler",
                               hosts.address, "--work", "equal", "parts", *hosts.logs))
    hosts.ends(run, 0)
    parts = sorted((hosts.folder / "parts").iterdir())
    assert len(parts) == 4
    done = subprocess.run(["aprsbook-fold", "--gap", "30", *parts], env=hosts.env,
                          stdout=subprocess.PIPE)
    assert done.stdout == hosts.expected
    # others, of the same pieces
    run = hosts.start(*command("cluster", "--piece", 1, "--fan", 2, "--parts", 2, "--scheduler",
                               hosts.address, "--work", "equal", "halves", *hosts.logs))
    hosts.ends(run, 0)
    halves = sorted((hosts.folder / "halves").iterdir())
    done = subprocess.run(["aprsbook-fold", "--gap", "30", *halves], env=hosts.env,
                          stdout=subprocess.PIPE)
    assert len(halves) == 2 and done.stdout == hosts.expected


def test_a_run_that_was_cut_goes_on(hosts: Hosts) -> None:
    run = hosts.merge("again", "again.book")
    hosts.halfway("again")
    run.kill()
    run.wait()
    assert not (hosts.folder / "again.book").exists()
    made = {it: os.stat(it).st_mtime_ns for it in glob.glob(f"{hosts.folder}/again/*/*.sum")}
    damaged = min(made)
    with open(damaged[:-4], "r+b") as file:  # this is made again, and no other
        file.write(b"XXXX")
    hosts.ends(hosts.merge("again", "again.book"), 0)
    hosts.is_book("again.book")
    with open(damaged[:-4], "rb") as file:
        assert file.read(4) != b"XXXX"
    assert all(os.stat(it).st_mtime_ns == made[it] for it in made if it != damaged)


def test_a_worker_is_killed(hosts: Hosts) -> None:
    run = hosts.merge("killed", "killed.book")
    hosts.halfway("killed")
    hosts.workers.pop(0).kill()
    hosts.ends(run, 0)
    hosts.is_book("killed.book")


def test_two_of_three_workers_are_frozen(hosts: Hosts) -> None:
    run = hosts.merge("frozen", "frozen.book", patience=3)
    hosts.halfway("frozen")
    for it in hosts.workers[:2]:
        it.send_signal(signal.SIGSTOP)
    try:
        hosts.ends(run, 0)
        hosts.is_book("frozen.book")
    finally:
        for it in hosts.workers[:2]:
            it.send_signal(signal.SIGCONT)  # and what they do late does no harm
    time.sleep(0.5)
    hosts.ends(hosts.merge("frozen", "frozen.book"), 0)
    hosts.is_book("frozen.book")


def test_one_worker_fails_at_all_it_does(hosts: Hosts) -> None:
    """It fails fast, so that it would draw all jobs."""
    bad = hosts.folder / "bad"
    bad.mkdir()
    (bad / "aprsbook").write_text(
        "#!/bin/sh\n[ \"$1\" = --version ] && exec %s --version\n"
        "echo 'aprsbook: cannot write' >&2\nexit 3\n" % (hosts.bin / "aprsbook"))
    (bad / "aprsbook").chmod(0o755)
    hosts.workers.append(hosts.worker(PATH=f"{bad}{os.pathsep}{hosts.env['PATH']}"))
    hosts.is_registered(hosts.workers[-1])
    hosts.ends(hosts.merge("bad", "bad.book"), 0)
    hosts.is_book("bad.book")
    hosts.workers.pop().kill()


def test_one_worker_has_a_python_that_is_sick(hosts: Hosts) -> None:
    """Its status is 1, as of a faulty log."""
    bad = hosts.folder / "sick"
    bad.mkdir()
    (bad / "aprs-net").write_text("#!/bin/sh\necho 'ImportError: libz.so.1' >&2\nexit 1\n")
    (bad / "aprs-net").chmod(0o755)
    hosts.workers.append(hosts.worker(PATH=f"{bad}{os.pathsep}{hosts.env['PATH']}"))
    hosts.is_registered(hosts.workers[-1])
    hosts.ends(hosts.merge("sick", "sick.book"), 0)
    hosts.is_book("sick.book")
    hosts.workers.pop().kill()


def test_the_disk_is_full(hosts: Hosts) -> None:
    small = hosts.folder / "small"
    small.mkdir()
    mount = "mount", "-t", "tmpfs", "-o", "size=900k", "tmpfs", str(small)
    if subprocess.run(mount, stderr=subprocess.DEVNULL).returncode:
        pytest.skip("needs root for a full disk")
    try:
        said = hosts.ends(hosts.merge("small/work", "full.book"), 3)
        assert "cannot write" in said or "No space" in said
        assert not (hosts.folder / "full.book").exists()
        # no half file is left, once other workers have ended too
        wait_for(lambda: not list(small.rglob("*-new")), "workers", 60)
        # with more room it goes on
        subprocess.run(["mount", "-o", "remount,size=100m", small], check=True)
        hosts.ends(hosts.merge("small/work", "full.book"), 0)
        hosts.is_book("full.book")
    finally:
        subprocess.run(["umount", "--lazy", small], check=True)


def test_the_scheduler_is_killed(hosts: Hosts) -> None:
    run = hosts.merge("boss", "boss.book", patience=180)
    hosts.halfway("boss")
    # workers end by themselves, after a while; who supervises them starts them again
    for it in [hosts.scheduler, *hosts.workers]:
        it.kill()
        it.wait()
    time.sleep(0.5)
    hosts.workers.clear()
    hosts.begin()
    hosts.man(3)
    hosts.ends(run, 0)
    hosts.is_book("boss.book")


def test_two_runs_at_once(hosts: Hosts) -> None:
    runs = [hosts.merge("two", f"two{it}.book") for it in range(2)]
    for number, run in enumerate(runs):
        hosts.ends(run, 0)
        hosts.is_book(f"two{number}.book")


@pytest.mark.parametrize("name", ["Hex", "LongLine", "NoNewline"])
def test_a_faulty_log(hosts: Hosts, name: str) -> None:
    """It is told as one merge tells it."""
    lines = pathlib.Path(hosts.logs[-1]).read_bytes().splitlines()
    at = {"Hex": len(lines) * 2 // 3, "LongLine": 40, "NoNewline": len(lines)}[name]
    lines[at - 1] += {"Hex": b"0", "LongLine": b"0" * 9000, "NoNewline": b""}[name]
    end = b"" if name == "NoNewline" else b"\n"
    (hosts.folder / f"{name}.log").write_bytes(b"\n".join(lines) + end)
    given = hosts.logs[0], f"{name}.log"
    said = hosts.ends(hosts.merge(name, f"{name}.book", *given), 1)
    assert said == hosts.merged(*given).stderr.decode() and f"{name}.log: line {at}: " in said
    assert not (hosts.folder / f"{name}.book").exists()


def test_a_faulty_book(hosts: Hosts) -> None:
    """Also where a worker folds it."""
    for name in "one", "two", "cut":
        (hosts.folder / f"{name}.book").write_bytes(hosts.merged(hosts.logs[0]).stdout)
    with open(hosts.folder / "cut.book", "rb+") as file:
        file.truncate(1000)
    run = hosts.merge("books", "books.book", "cut.book", "one.book", "two.book")
    said = hosts.ends(run, 1)
    assert said.startswith("aprsbook-fold: cut.book: line ") and "Ending" in said
    assert not (hosts.folder / "books.book").exists()


def test_no_scheduler(unmanned: Hosts) -> None:
    """After twenty seconds, by a clock that runs ten times as fast."""
    begin = [command()[0], HERE / "hurried.py", 10, "cluster"]
    run = unmanned.start(*begin, "--scheduler", "tcp://127.0.0.1:9", "--work", "work", "none.book",
                         *unmanned.logs)
    assert "no scheduler is there" in unmanned.ends(run, ExitStatus.MISSING)


def test_no_workers(unmanned: Hosts) -> None:
    for it in unmanned.workers:
        it.kill()
        it.wait()
    unmanned.workers.clear()
    run = unmanned.start(*command("cluster", "--patience", 3, "--scheduler", unmanned.address,
                                  "--work", "none", "none.book", *unmanned.logs))
    assert "the scheduler has no workers" in unmanned.ends(run, ExitStatus.MISSING)
