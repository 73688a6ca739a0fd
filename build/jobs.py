#!/usr/bin/env python3
"""Runs commands side by side, each once those that it stands on have ended well. build/gate.py says
which. Nothing of Rattle is known here.
"""
import os
import re
import resource
import subprocess
import sys
import tempfile
import threading
import time
from typing import Dict, FrozenSet, List, NamedTuple, Optional, Sequence, Tuple

# what a command counts: of rt, of node, of pytest, and the plain line; passed and failed
COUNTS = (
    (re.compile(r"^(?:\w+: )?test result: \w+\. (\d+) passed; (\d+) failed", re.M), (1, 2)),
    (re.compile(r"^# pass (\d+)$", re.M), (1, 0)),
    (re.compile(r"^# fail (\d+)$", re.M), (0, 1)),
    (re.compile(r"^(?:=+ )?(?:(\d+) failed, )?(\d+) passed\b.* in [\d.]+s", re.M), (2, 1)),
    (re.compile(r"^(\d+) passed, (\d+) failed$", re.M), (1, 2)),
)
# stands in a command for how many processors it has
JOBS = "{jobs}"


class Job(NamedTuple):
    """A command by its name: the names of what it stands on, how long it takes beside others, in any
    unit, and how many processors it can use."""

    name: str
    command: Sequence[str]
    after: FrozenSet[str] = frozenset()
    size: int = 1
    most: int = 1


class Result(NamedTuple):
    """How a job ended: what it counted, and what it took, in seconds of clock and of processors."""

    passed: int
    failed: int
    clock: float
    processor: float


def counted(said: str, status: int) -> Tuple[int, int]:
    """What a command counted as passed and failed; one where it counts nothing. One that doesn't
    end well has failed at least once."""
    passed = failed = 0
    for pattern, (good, bad) in COUNTS:
        for found in pattern.finditer(said):
            passed += int(found[good] or 0) if good else 0
            failed += int(found[bad] or 0) if bad else 0
    if status:
        return passed, failed or 1
    return (passed, failed) if passed or failed else (1, 0)


def run(job: Job, processors: int) -> Result:
    """Runs a job, and prints a line of it; where it fails, all that it said."""
    began = time.monotonic()
    command = [it.replace(JOBS, str(processors)) for it in job.command]
    # a make that isn't part of another
    environment = {
        name: it for name, it in os.environ.items()
        if name not in ("MAKEFLAGS", "MFLAGS", "MAKELEVEL", "MAKEOVERRIDES")
    }
    with tempfile.TemporaryFile("w+", encoding="utf-8", errors="replace") as out:
        child = subprocess.Popen(
            command, stdin=subprocess.DEVNULL, stdout=out, stderr=subprocess.STDOUT,
            env=environment,
        )
        _, status, used = os.wait4(child.pid, 0)
        child.returncode = os.waitstatus_to_exitcode(status)
        out.seek(0)
        said = out.read()
    passed, failed = counted(said, child.returncode)
    result = Result(passed, failed, time.monotonic() - began, used.ru_utime + used.ru_stime)
    told = f"{passed} passed, {failed} failed" if passed + failed > 1 else "passed"
    if failed:
        told = f"{passed} passed, {failed} FAILED\n{said.rstrip()}"
    lines = [it for it in said.splitlines() if it.startswith("left out: ")]
    took = f"{result.clock:.0f} s, {result.processor:.0f} s of processors"
    print(f"{job.name}: {told} ({took})" if not failed else f"{job.name} ({took}): {told}")
    for line in lines if not failed else ():
        print(f"{job.name}: {line}")
    sys.stdout.flush()
    return result


def ways(jobs: Sequence[Job]) -> Dict[str, int]:
    """How much comes from each job on to the end of all that stands on it."""
    above: Dict[str, List[Job]] = {it.name: [] for it in jobs}
    for job in jobs:
        for name in job.after:
            above[name].append(job)
    found: Dict[str, int] = {}

    def way(job: Job) -> int:
        if job.name not in found:
            found[job.name] = job.size + max((way(it) for it in above[job.name]), default=0)
        return found[job.name]

    for job in jobs:
        way(job)
    return found


# what part of the longest way of all is as good as the longest
LONGEST = 0.97


class Runner:
    """Jobs that run on so many processors, what has the longest way before it first. Each has one processor
    and what nothing else can use. Where the longest way takes longer than all that is left on all
    processors, what it begins with has two, and shares one with others where fewer are free."""

    def __init__(self, jobs: Sequence[Job], processors: int) -> None:
        self.waiting = list(jobs)
        self.processors = self.free = processors
        self.results: Dict[str, Result] = {}
        self.left_out: List[str] = []
        self.ways = ways(jobs)
        self.changed = threading.Condition()

    def ready(self) -> List[Job]:
        """What can begin now. What stands on a job that failed is left out."""
        lost = {name for name, it in self.results.items() if it.failed} | set(self.left_out)
        for job in [it for it in self.waiting if it.after & lost]:
            self.waiting.remove(job)
            self.left_out.append(job.name)
            print(f"{job.name}: left out, since {' '.join(sorted(job.after & lost))} failed")
            return self.ready()
        found = [it for it in self.waiting if it.after <= set(self.results)]
        return sorted(found, key=lambda it: -self.ways[it.name])

    def work(self, job: Job, processors: int) -> None:
        """Runs a job on so many processors, which are free after it."""
        try:
            result = run(job, processors)
        except OSError as why:
            print(f"{job.name}: FAILED: {why}", flush=True)
            result = Result(0, 1, 0.0, 0.0)
        with self.changed:
            self.results[job.name] = result
            self.free += processors
            self.changed.notify()

    def share(self, job: Job, others: int) -> int:
        """How many processors a job begins on now, beside so many others that can begin; 0 for none."""
        spare = max(1, self.free - others)
        longest = max(self.ways[it.name] for it in self.waiting)
        left = sum(it.size for it in self.waiting)
        if longest * self.processors > left and self.ways[job.name] >= LONGEST * longest:
            return min(job.most, max(2, spare), self.free + 1)
        return min(job.most, spare, self.free)

    def begin(self) -> List[threading.Thread]:
        """Begins what can begin now."""
        threads = []
        ready = self.ready()
        while ready:
            job = ready.pop(0)
            processors = self.share(job, len(ready))
            if processors < 1:
                break
            self.waiting.remove(job)
            self.free -= processors
            threads.append(threading.Thread(target=self.work, args=(job, processors)))
            threads[-1].start()
        return threads

    def run(self) -> Tuple[int, int]:
        """Runs all. Returns what passed and what failed; what was left out has failed."""
        threads = []
        with self.changed:
            while self.waiting or self.free < self.processors:
                threads += self.begin()
                if self.waiting or self.free < self.processors:
                    self.changed.wait()
        for thread in threads:
            thread.join()
        passed = sum(it.passed for it in self.results.values())
        failed = sum(it.failed for it in self.results.values()) + len(self.left_out)
        return passed, failed


def processor_minutes() -> float:
    """What this process and all that it ran took so far, in minutes of processors."""
    used = [resource.getrusage(it) for it in (resource.RUSAGE_SELF, resource.RUSAGE_CHILDREN)]
    return sum(it.ru_utime + it.ru_stime for it in used) / 60


def lanes() -> int:
    """As many as there are processors, each with 3 GB of free memory; LANES says otherwise."""
    said: Optional[str] = os.environ.get("LANES")
    if said:
        return max(1, int(said))
    free = 0
    with open("/proc/meminfo", encoding="ascii") as file:
        for line in file:
            if line.startswith("MemAvailable:"):
                free = int(line.split()[1]) // 3_000_000
    return max(1, min(len(os.sched_getaffinity(0)), free))
