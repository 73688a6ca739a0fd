"""The clock by which frames are stamped."""
import collections
import time
from typing import Callable, Deque, List, Optional, Tuple

from aprsbook_tools.formats import moments

STEP = 1.0  # seconds: a clock that moves by more was set
OLDEST = 1_704_067_200_000  # 2024: a clock that says less was never set
NEWEST = 2_082_758_400_000  # 2036: the time of NTP begins anew then, which a bad clock says
WAIT = 10_000  # frames that wait for a clock that says what no log can


def uptime() -> float:
    """Seconds that go on by themselves, also while the machine sleeps."""
    boot: Optional[int] = getattr(time, "CLOCK_BOOTTIME", None)
    return time.clock_gettime(boot) if boot is not None else time.monotonic()


class Clock:
    """Stamps frames. One that says what no log can hold keeps them until it is set."""

    def __init__(self, say: Callable[[str], None]) -> None:
        self.say = say
        self.lead: Optional[float] = None
        self.unset = False
        self.waiting: Deque[Tuple[float, str, bytes]] = collections.deque()
        self.lost = 0

    def stamp(self, name: str, framed: bytes) -> List[Tuple[int, str, bytes]]:
        """This frame, and those that waited for the clock, each with its moment."""
        now, up = time.time(), uptime()
        if self.lead is not None and abs(now - up - self.lead) > STEP:
            self.say(f"the clock was set by {now - up - self.lead:+.1f} seconds")
        self.lead = now - up
        moment = round(now * 1_000_000) // 1000
        if not 0 <= moment < moments.END:
            if not self.waiting:
                self.say("the clock isn't between 1970 and 2099: set it; frames wait for that")
            self.waiting.append((up, name, framed))
            if len(self.waiting) > WAIT:
                self.waiting.popleft()
                self.lost += 1
            return []
        is_unset = not OLDEST <= moment < NEWEST
        if is_unset and not self.unset:
            self.say(f"the clock says {moments.text_of(moment)[:10]}: set it")
        self.unset = is_unset
        waited = [(max(0, moment - int(1000 * (up - then))), name_, frame)
                  for then, name_, frame in self.waiting]
        self.waiting.clear()
        return waited + [(moment, name, framed)]
