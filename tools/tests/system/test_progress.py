"""How far long work is: said at a terminal, and nowhere else."""
import concurrent.futures
import contextlib
import io
import os
import select
import sys
import time
from typing import Any, Iterable, Iterator, List, Optional

import pytest

from aprsbook_tools import progress
from aprsbook_tools.books import executors, jobs
from aprsbook_tools.system.clock import CLOCK


@pytest.fixture(autouse=True)
def hurried(monkeypatch: pytest.MonkeyPatch) -> None:
    monkeypatch.setattr(CLOCK, "rate", 10.0)


def slowly() -> Iterator[int]:
    for number in range(3):
        CLOCK.wait(1.5 * progress.STEP)
        yield number


@pytest.mark.parametrize("total, of", [(3, " of 3"), (None, "")])
def test_items_are_counted_at_a_terminal(
    monkeypatch: pytest.MonkeyPatch, total: Optional[int], of: str
) -> None:
    ours, theirs = os.openpty()
    with open(theirs, "w", encoding="ascii") as terminal:
        monkeypatch.setattr(sys, "stderr", terminal)
        assert [*progress.counted(slowly(), "days", total)] == [0, 1, 2]
        said = ""
        while select.select([ours], [], [], 0.1)[0]:
            said += os.read(ours, 1000).decode()
    os.close(ours)
    # each count takes the place of the one before, and at last the line is empty
    counts = [f"\rdays: {number}{of}\x1b[K" for number in (1, 2, 3)]
    assert said == "".join([*counts, "\r\x1b[K"])


def test_what_another_thread_counts_is_not_said(monkeypatch: pytest.MonkeyPatch) -> None:
    """Or the pieces of a day stand in place of the days."""
    ours, theirs = os.openpty()
    with open(theirs, "w", encoding="ascii") as terminal:
        monkeypatch.setattr(sys, "stderr", terminal)
        with concurrent.futures.ThreadPoolExecutor(1) as pool:
            found = pool.submit(lambda: [*progress.counted(slowly(), "pieces")]).result()
        assert found == [0, 1, 2]
        assert not select.select([ours], [], [], 0.1)[0]
    os.close(ours)


def test_a_terminal_that_is_closed_ends_nothing(monkeypatch: pytest.MonkeyPatch) -> None:
    """As of work that goes on behind nohup."""
    ours, theirs = os.openpty()
    terminal = open(theirs, "w", encoding="ascii")
    monkeypatch.setattr(sys, "stderr", terminal)
    items = progress.counted(slowly(), "days")
    assert next(items) == 0
    os.close(ours)
    assert [*items] == [1, 2]
    with contextlib.suppress(OSError):
        terminal.close()


@pytest.mark.parametrize("there", [True, False])
def test_nothing_is_said_elsewhere(monkeypatch: pytest.MonkeyPatch, there: bool) -> None:
    said = io.StringIO()
    monkeypatch.setattr(sys, "stderr", said if there else None)
    found: List[int] = [*progress.counted(slowly(), "days")]
    assert (found, said.getvalue()) == ([0, 1, 2], "")


def test_what_is_counted_is_done(monkeypatch: pytest.MonkeyPatch) -> None:
    """And not what is waited for."""
    done: List[object] = []

    def do(job: object, kept: bool) -> None:
        time.sleep(0.05)
        done.append(job)

    def counted(items: Iterable[Any], *_: object) -> Iterator[Any]:
        for number, it in enumerate(items, 1):
            assert len(done) >= number
            yield it

    monkeypatch.setattr(jobs, "do", do)
    monkeypatch.setattr(progress, "counted", counted)
    todo: List[jobs.Job] = [jobs.Merge(str(number), 30, []) for number in range(3)]
    executors.Here(1).do("pieces", todo)
    assert done == todo
