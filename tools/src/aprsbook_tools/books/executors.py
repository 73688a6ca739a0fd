"""Where jobs are done. An engine does them side by side, and tells the first of their faults."""
import concurrent.futures
import contextlib
import os
from typing import Callable, Iterator, Optional, Sequence

from aprsbook_tools import progress
from aprsbook_tools.books import jobs
from aprsbook_tools.books.jobs import Job
from aprsbook_tools.errors import ExitStatus, Fault
from aprsbook_tools.system import programs

Passed = Callable[[Job, Fault], None]  # is told of a job that is passed over
Pool = concurrent.futures.ThreadPoolExecutor


class Engine:
    """How many jobs it does at once, and whether what they make is kept."""
    width = 1
    kept = False

    def do(self, title: str, todo: Sequence[Job], passed: Optional[Passed] = None) -> None:
        """Does all jobs, or raises the first one's fault. Faulty inputs are passed over where
        somebody is told."""
        raise NotImplementedError


class Here(Engine):
    """The processors of this machine."""

    def __init__(self, width: int, kept: bool = False) -> None:
        self.width = width
        self.kept = kept

    def do(self, title: str, todo: Sequence[Job], passed: Optional[Passed] = None) -> None:
        with threads(self.width) as pool:
            for _ in progress.counted(self.done(pool, todo, passed), title, len(todo)):
                pass

    def done(self, pool: Pool, todo: Sequence[Job], passed: Optional[Passed]) -> Iterator[Job]:
        """The jobs, each once it is done."""
        waiting = [pool.submit(jobs.do, job, self.kept) for job in todo]
        for job, it in zip(todo, waiting):
            try:
                it.result()
            except Fault as fault:
                if passed is None or fault.status != ExitStatus.INPUT:
                    raise
                passed(job, fault)
            yield job


@contextlib.contextmanager
def threads(width: int) -> Iterator[Pool]:
    """So many threads. Where the block ends by a fault, what waits for one isn't begun; and where
    by a signal, the programs that threads run are ended."""
    with Pool(width) as pool:
        try:
            yield pool
        except BaseException as fault:
            if not isinstance(fault, Exception):
                programs.end_all()
            pool.shutdown(wait=False, cancel_futures=True)
            raise


def processors() -> int:
    """How many processors this process may use."""
    if hasattr(os, "sched_getaffinity"):
        return len(os.sched_getaffinity(0))
    return os.cpu_count() or 1
