"""The clock that stamps: set, never set, and one that says what no log can hold."""
from typing import List

import pytest

from aprsbook_tools.formats import moments
from aprsbook_tools.frame_sources import stamping
from aprsbook_tools.frame_sources.stamping import Clock

NOON = 1_718_971_200.0  # 2024-06-21T12:00:00Z
Y2100 = 4_102_444_800.0


class Times:
    """Time as a test wants it."""

    def __init__(self, monkeypatch: pytest.MonkeyPatch) -> None:
        self.now, self.up = NOON, 1000.0
        monkeypatch.setattr("aprsbook_tools.frame_sources.stamping.time.time", lambda: self.now)
        monkeypatch.setattr(stamping, "uptime", lambda: self.up)

    def go(self, seconds: float, by: float = 0.0) -> None:
        self.up += seconds
        self.now += seconds + by


def test_a_clock_that_is_set_is_said(monkeypatch: pytest.MonkeyPatch) -> None:
    said: List[str] = []
    times, it = Times(monkeypatch), Clock(said.append)
    for by in (0.0, 0.9, -3600.0):
        times.go(1, by)
        assert len(it.stamp("RX1", b"f")) == 1
    assert said == ["the clock was set by -3600.0 seconds"]


def test_a_clock_that_was_never_set_is_said(monkeypatch: pytest.MonkeyPatch) -> None:
    said: List[str] = []
    times, it = Times(monkeypatch), Clock(said.append)
    times.now = 20.0
    assert it.stamp("RX1", b"f") == [(20_000, "RX1", b"f")]
    times.go(1)
    assert it.stamp("RX1", b"f") == [(21_000, "RX1", b"f")]
    assert said == ["the clock says 1970-01-01: set it"]  # once, and not with each frame


@pytest.mark.parametrize("day, is_said", [
    ("2023-12-31", True), ("2024-01-01", False), ("2035-12-31", False), ("2036-02-07", True)])
def test_a_clock_that_was_set_to_no_time_is_said(
        monkeypatch: pytest.MonkeyPatch, day: str, is_said: bool) -> None:
    said: List[str] = []
    times, it = Times(monkeypatch), Clock(said.append)
    times.now = moments.milliseconds(f"{day}T12:00:00Z") / 1000
    for _ in range(2):
        assert len(it.stamp("RX1", b"f")) == 1
    assert said == ([f"the clock says {day}: set it"] if is_said else [])


def test_frames_of_the_year_2100_wait_until_the_clock_is_set(
        monkeypatch: pytest.MonkeyPatch) -> None:
    said: List[str] = []
    times, it = Times(monkeypatch), Clock(said.append)
    times.now = Y2100
    assert it.stamp("RX1", b"one") == []
    times.go(10)
    assert it.stamp("RX1", b"two") == []
    times.go(5)
    times.now = NOON
    noon = int(NOON * 1000)
    assert it.stamp("RX1", b"three") == [
        (noon - 15_000, "RX1", b"one"), (noon - 5_000, "RX1", b"two"), (noon, "RX1", b"three")]
    assert "between 1970 and 2099" in said[0] and it.lost == 0


def test_the_last_moment_before_2100_is_stamped(monkeypatch: pytest.MonkeyPatch) -> None:
    times, it = Times(monkeypatch), Clock(lambda _: None)
    times.now = Y2100 - 0.001
    assert it.stamp("RX1", b"f") == [(moments.END - 1, "RX1", b"f")]
