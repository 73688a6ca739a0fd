"""The workers of a Dask cluster as an engine. Names of files pass through its scheduler and nothing
else: a job lies in the folder that is shared, and a worker runs `aprs-net job FILE`."""
import concurrent.futures
import contextlib
import dataclasses
import importlib
import logging
import subprocess
import sys
import threading
from typing import Any, Callable, Dict, Iterator, Optional, Sequence, Set, Tuple

from aprsbook_tools import progress
from aprsbook_tools.books import jobs
from aprsbook_tools.books.executors import Engine, Passed
from aprsbook_tools.books.jobs import Job
from aprsbook_tools.errors import ExitStatus, Fault
from aprsbook_tools.system import atomic
from aprsbook_tools.system.clock import CLOCK

TRIES = 6  # of a job, before the run ends
STRIKES = 2  # failed jobs of a worker, before others are asked
SLOWEST = 1 << 22  # bytes a second of a job, as long as none has told better
SMALL = 1 << 24  # bytes: a smaller job tells nothing of larger ones
LATER = 4  # times the longest: what takes longer is late
ANSWER = 5  # seconds to get an answer that a worker holds
CONNECT = 20  # seconds to find the scheduler
GONE = 256  # where a program's status stands, if its worker is gone


def dask() -> Any:
    """The module of Dask."""
    try:
        return importlib.import_module("distributed")
    except ImportError as fault:
        raise Fault("a cluster needs Dask: install python3-distributed",
                    ExitStatus.MISSING) from fault


@dataclasses.dataclass
class Running:
    """A job that a worker has: its number, the worker, since when, and whether it is late."""
    number: int
    worker: str
    since: float
    late: bool = False


class Cluster(Engine):
    """The workers of a scheduler. A job that takes too long, or whose worker is gone, goes to
    another one too: whichever is first counts. A connection that is lost is made again."""
    kept = True

    def __init__(self, address: str, patience: float, say: Callable[[str], None]) -> None:
        self.address, self.patience, self.say = address, patience, say
        self.dask = dask()
        self.is_found = False
        self.is_unmanned = False
        self.by = jobs.version()
        self.strikes: Dict[str, int] = {}
        self.slowest = 1 / SLOWEST  # seconds a byte
        self.longest = 0.0  # seconds of a small job
        logging.disable(logging.CRITICAL)  # pages of how a connection was lost

    def do(self, title: str, todo: Sequence[Job], passed: Optional[Passed] = None) -> None:
        for job in todo:
            text = jobs.text_of(job, self.by).encode("ascii")
            atomic.write(job.path + jobs.JOB, text, is_named=False)
        turn = Turn(self, todo)
        for _ in progress.counted(turn.all_done(), title, len(todo)):
            pass

    def tell_of_none(self, workers: Dict[str, int]) -> None:
        """Says once that no worker is there, and what begins one."""
        if not workers and not self.is_unmanned:
            self.say(f"{self.address} has no workers yet: `dask worker {self.address}` on each "
                     f"machine begins some; waits {self.patience:g} seconds for one")
        self.is_unmanned = not workers

    def connect(self) -> Any:
        client = self.dask.Client(self.address, timeout=CLOCK.real(CONNECT), set_as_default=False)
        if not self.is_found and sys.stderr is not None and sys.stderr.isatty():
            with contextlib.suppress(Exception):  # a scheduler may have none
                self.say(f"its dashboard is {client.dashboard_link}")
        self.is_found = True
        return client


class Turn:
    """Jobs that are done side by side, until all are done or one is faulty."""

    def __init__(self, cluster: Cluster, todo: Sequence[Job]) -> None:
        self.cluster, self.todo = cluster, todo
        self.sizes = [it.size for it in todo]
        self.waiting = list(range(len(todo)))[::-1]
        self.tries = [0] * len(todo)
        self.done: Set[int] = set()
        self.faults: Dict[int, Fault] = {}
        self.running: Dict[Any, Running] = {}
        self.news = threading.Event()

    def all_done(self) -> Iterator[int]:
        """The numbers of jobs as they are done; then the first fault is raised."""
        lost = CLOCK.seconds()
        while not self.is_over():
            try:
                with self.cluster.connect() as client:
                    try:
                        yield from self.by_client(client)
                    finally:
                        lost = CLOCK.seconds()
            except (OSError, self.cluster.dask.TimeoutError) as fault:
                if not self.cluster.is_found or CLOCK.seconds() - lost > self.cluster.patience:
                    raise Fault(f"{self.cluster.address}: no scheduler is there: {fault}",
                                ExitStatus.MISSING) from fault
                CLOCK.wait(1)
        if self.faults:
            raise self.faults[min(self.faults)]

    def is_over(self) -> bool:
        most = min(self.faults) if self.faults else len(self.todo)
        return len(self.done) >= most and all(it in self.done for it in range(most))

    def is_moot(self, number: int) -> bool:
        """Whether a job before it, or it itself, is faulty."""
        return bool(self.faults) and number >= min(self.faults)

    def by_client(self, client: Any) -> Iterator[int]:
        """Has jobs done while the connection stands."""
        self.waiting = [it for it in range(len(self.todo)) if it not in self.done][::-1]
        self.running.clear()
        manned = CLOCK.seconds()
        while not self.is_over():
            if client.status != "running":
                raise ConnectionError("the connection is lost")
            workers: Dict[str, int] = client.nthreads()
            self.cluster.tell_of_none(workers)
            self.hand_out(client, workers)
            if any(not it.late for it in self.running.values()):
                manned = CLOCK.seconds()
            # those that are late may only be slow
            elif CLOCK.seconds() - manned > self.cluster.patience * (10 if workers else 1):
                why = "no worker answers" if workers else "the scheduler has no workers"
                raise Fault(f"{self.cluster.address}: {why}", ExitStatus.MISSING)
            self.news.wait(CLOCK.real(1))
            self.news.clear()
            yield from self.collect()
            self.look_for_late(workers)

    def hand_out(self, client: Any, workers: Dict[str, int]) -> None:
        """Gives waiting jobs to workers that have a thread free and did no wrong; to any, where
        none is left."""
        strikes = self.cluster.strikes
        good = [it for it in workers if strikes.get(it, 0) < STRIKES] or list(workers)
        free = {it: workers[it] for it in good}
        for it in self.running.values():
            if it.worker in free:
                free[it.worker] -= 1
        slots = [name for name, count in free.items() for _ in range(count)]
        while self.waiting and slots:
            number = self.waiting.pop()
            if number in self.done or self.is_moot(number):
                continue
            worker = slots.pop()
            future = client.submit(
                subprocess.run, ["aprs-net", "job", self.todo[number].path + jobs.JOB],
                stdin=subprocess.DEVNULL, capture_output=True, pure=False, retries=0,
                workers=[worker], allow_other_workers=False)
            future.add_done_callback(lambda _: self.news.set())
            self.running[future] = Running(number, worker, CLOCK.seconds())

    def collect(self) -> Iterator[int]:
        """Takes what has ended."""
        for future in [it for it in self.running if it.status != "pending"]:
            it = self.running.pop(future)
            status, words = self.answer(future)
            if status == 0:
                self.cluster.strikes.pop(it.worker, None)
            if it.number in self.done:
                continue  # another worker was first
            if status == 0:
                self.note_time(it)
                self.done.add(it.number)
                yield it.number
            # in a program's words; the status of a Python that is sick is 1 too
            elif status == ExitStatus.INPUT and words.startswith(("aprsbook: ", "aprsbook-fold: ")):
                by, _, rest = words.partition(": ")
                self.faults[it.number] = Fault(rest, ExitStatus.INPUT, by)
            else:
                strikes = self.cluster.strikes
                strikes[it.worker] = strikes.get(it.worker, 0) + (status != GONE)
                if status != GONE:
                    self.cluster.say(f"{it.worker}: {words}: another worker is asked")
                self.failed(it, words)

    def note_time(self, it: Running) -> None:
        """How long a job took says how long others may take."""
        took, size = CLOCK.seconds() - it.since, self.sizes[it.number]
        if size < SMALL:
            self.cluster.longest = max(self.cluster.longest, took)
        elif not it.late:
            self.cluster.slowest = max(self.cluster.slowest, took / size)

    def answer(self, future: Any) -> Tuple[int, str]:
        """The status of a job, and what it said."""
        try:
            if future.status == "error":
                fault = future.exception(timeout=ANSWER)
                return ExitStatus.OUTPUT, f"aprs-net: {fault}"
            ended = future.result(timeout=ANSWER)
        except (self.cluster.dask.TimeoutError, concurrent.futures.CancelledError, OSError,
                KeyError):
            return GONE, "the worker is gone"  # or frozen since: then the file is there
        words = ended.stderr.decode("utf-8", "backslashreplace").strip()
        return ended.returncode, words or f"ended with status {ended.returncode}"

    def failed(self, it: Running, words: str) -> None:
        """A job is given to another worker, a few times."""
        self.tries[it.number] += 1
        if self.tries[it.number] == TRIES:
            raise Fault(f"{it.worker}: {words}", ExitStatus.OUTPUT)
        if not it.late:
            self.waiting.append(it.number)

    def look_for_late(self, workers: Dict[str, int]) -> None:
        """Gives jobs that take too long, or whose worker is gone, to others too."""
        for future, it in list(self.running.items()):
            is_over = it.number in self.done or self.is_moot(it.number)
            # what a frozen worker has is waited for: if it ends, the worker is as good as others
            if it.worker not in workers or is_over and not it.late:
                del self.running[future]
                if not is_over:
                    self.failed(it, "the worker is gone")
            elif not it.late and CLOCK.seconds() - it.since > self.most(it.number):
                it.late = True
                self.cluster.strikes[it.worker] = STRIKES
                self.waiting.append(it.number)

    def most(self, number: int) -> float:
        """How many seconds a job may take."""
        cluster = self.cluster
        by_size = cluster.slowest * self.sizes[number]
        return cluster.patience + LATER * max(cluster.longest, by_size)
