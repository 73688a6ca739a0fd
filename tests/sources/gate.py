#!/usr/bin/env python3
"""Tries the gate, build/gate.py, with commands that play each outcome: what is counted, what begins
when, what is left out, and what comes back of earlier proofs.
usage: tests/sources/gate.py
"""
import contextlib
import io
import pathlib
import sys
import tempfile
import unittest
from typing import List, Sequence, Tuple
from unittest import mock

sys.path.insert(0, str(pathlib.Path(__file__).resolve().parents[2] / "build"))
import crates  # noqa: E402 (it lies in the folder that was just named)
import gate  # noqa: E402
import jobs  # noqa: E402
from jobs import Job  # noqa: E402


def says(name: str, text: str, status: int = 0, after: Sequence[str] = (), size: int = 1) -> Job:
    """A job that prints this and ends so."""
    command = ["sh", "-c", 'printf "%s" "$1"; exit "$2"', "sh", text, str(status)]
    return Job(name, command, frozenset(after), size)


def run(plan: Sequence[Job], processors: int = 2) -> Tuple[Tuple[int, int], str]:
    """What the jobs come to, and what is printed."""
    with contextlib.redirect_stdout(io.StringIO()) as out:
        return jobs.Runner(plan, processors).run(), out.getvalue()


class Counts(unittest.TestCase):
    """What a command counts."""

    def test_each_runner(self) -> None:
        for said, counts in (
            ("test result: ok. 39 passed; 0 failed\n", (39, 0)),
            ("aprs_tests: test result: FAILED. 38 passed; 1 failed\n", (38, 1)),
            ("# tests 3\n# pass 2\n# fail 1\n", (2, 1)),
            ("741 passed, 96 skipped in 254.10s (0:04:14)\n", (741, 0)),
            ("2 failed, 5 passed in 1.00s\n", (5, 2)),
            ("15 passed, 0 failed\n", (15, 0)),
            ("aprs_io: logic=proved functions=49\n", (1, 0)),
            ("", (1, 0)),
        ):
            self.assertEqual(jobs.counted(said, 0), counts, said)

    def test_what_ends_badly_has_failed(self) -> None:
        self.assertEqual(jobs.counted("", 1), (0, 1))
        self.assertEqual(jobs.counted("5 passed, 0 failed\n", 137), (5, 1))
        self.assertEqual(jobs.counted("5 passed, 2 failed\n", 1), (5, 2))


class Runs(unittest.TestCase):
    """What runs, and in which order."""

    def test_all_is_counted_and_shown(self) -> None:
        result, said = run([says("one", ""), says("two", "4 passed, 0 failed\n", after=["one"])])
        self.assertEqual(result, (5, 0))
        self.assertIn("two: 4 passed", said)

    def test_what_stands_on_a_failure_is_left_out(self) -> None:
        plan = [says("low", "why it fails", 1), says("high", "", after=["low"]),
                says("top", "", after=["high"]), says("beside", "")]
        result, said = run(plan)
        self.assertEqual(result, (1, 3))
        self.assertIn("why it fails", said)
        self.assertIn("top: left out", said)

    def test_a_command_that_is_not_there_fails(self) -> None:
        self.assertEqual(run([Job("none", ["/nowhere/at/all"])])[0], (0, 1))

    def test_what_has_the_longest_way_begins_first(self) -> None:
        plan = [says("short", "", size=5), says("low", ""), says("high", "", after=["low"], size=9)]
        _, said = run(plan, 1)
        names: List[str] = [it.split(":")[0] for it in said.splitlines()]
        self.assertEqual(names, ["low", "high", "short"])

    def test_processors_are_shared(self) -> None:
        plan = [Job("all", ["echo", "{jobs} passed, 0 failed"], most=4)]
        self.assertEqual(run(plan, 8)[0], (4, 0))
        self.assertEqual(run(plan, 3)[0], (3, 0))

    def test_the_longest_way_has_two(self) -> None:
        plan = [Job(it, ["echo", "{jobs} passed, 0 failed"], size=size, most=4)
                for it, size in (("b", 1), ("a", 9), ("c", 1), ("d", 1))]
        self.assertIn("a: 2 passed", run(plan, 4)[1])
        said = run(plan, 2)[1]
        self.assertIn("a: 2 passed", said)
        self.assertNotIn("b: 2 passed", said)

    def test_it_has_one_where_others_take_as_long(self) -> None:
        plan = [Job(it, ["echo", "{jobs} passed, 0 failed"], size=size, most=4)
                for it, size in (("a", 5), ("b", 4), ("c", 3))]
        self.assertNotIn("a: 2 passed", run(plan, 2)[1])

    def test_it_shares_one_with_others(self) -> None:
        runner = jobs.Runner([Job("long", ["true"], size=9, most=4), says("short", "")], 2)
        for free, processors in ((2, 2), (1, 2), (0, 1), (-1, 0)):
            runner.free = free
            self.assertEqual(runner.share(runner.waiting[0], 1), processors)
            self.assertEqual(runner.share(runner.waiting[1], 0), min(free, 1))


class Aside(unittest.TestCase):
    """What is set aside of earlier proofs comes back where nothing whole stands in its place."""

    def test_each_crate(self) -> None:
        with tempfile.TemporaryDirectory() as folder:
            top = pathlib.Path(folder)
            old = top / "crates" / "old" / "out" / "rlib"
            new = top / "crates" / "new" / "out" / "rlib"
            for it in (old, new):
                it.mkdir(parents=True)
                (it / "stamp").write_text("before")
                (it.parent / "incremental").mkdir()
            rows = {it: crates.Row(it, "", []) for it in ("old", "new")}
            with mock.patch.multiple(gate, TOP=top, ASIDE=top / "out" / "before"):
                with mock.patch.object(crates, "rows", lambda: rows):
                    with gate.from_nothing():
                        self.assertFalse(old.exists())
                        new.mkdir(parents=True)
                        (new / "stamp").write_text("after")
                        (old.parent / "incremental").mkdir(parents=True)
            self.assertEqual((old / "stamp").read_text(), "before")
            self.assertEqual((new / "stamp").read_text(), "after")
            self.assertTrue((new.parent / "incremental").is_dir(), "a next check begins with it")
            self.assertFalse((top / "out" / "before").exists())


if __name__ == "__main__":
    unittest.main()
