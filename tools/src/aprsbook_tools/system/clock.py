"""The clock by which commands wait, and tell how long something takes. Tests move it."""
from __future__ import annotations

import time


class Clock:
    """Seconds that go on by themselves. `rate` is how many of them a second of the machine has."""

    def __init__(self, rate: float = 1.0) -> None:
        self.rate = rate

    def seconds(self) -> float:
        """Seconds since some moment; they never go back."""
        return time.monotonic() * self.rate

    def wait(self, seconds: float) -> None:
        """Waits for so many seconds, and not at all where they are over."""
        if seconds > 0:
            time.sleep(self.real(seconds))

    def real(self, seconds: float) -> float:
        """So many seconds as the machine counts them, for what waits by itself."""
        return seconds / self.rate


CLOCK = Clock()
