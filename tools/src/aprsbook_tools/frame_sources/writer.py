"""Writes frames beside the reading of others: while a write waits, as for a lock or a slow disk,
frames are read, and stamped with the moments at which they came."""
import collections
import threading
from typing import Callable, Deque, Optional, Tuple

from aprsbook_tools.formats.log_file import Line, Logs
from aprsbook_tools.frame_sources.source import Ended, Waiting
from aprsbook_tools.system.clock import CLOCK

MOST = 10_000  # frames that wait to be written
AGAIN = 1.0  # seconds between two tries to write what is held
STUCK = 1.0  # seconds without a frame that was written: then nobody waits for room
SLOW = 5.0  # seconds of a write that are told
PATIENCE = 5.0  # seconds for what waits to be written, once a signal asks for the end

Waits = Tuple[str, Line, str]


class Writer(threading.Thread):
    """Writes what is put into logs. `count` is how many frames wait, `lost` how many never will be
    written, since too many waited."""

    def __init__(self, logs: Logs, say: Callable[[str], None]) -> None:
        super().__init__(daemon=True)  # a write that waits for ever doesn't hold the end up
        self.logs, self.say = logs, say
        self.waiting: Deque[Waits] = collections.deque()
        self.changed = threading.Condition()
        self.last = CLOCK.seconds()
        self.ending = False
        self.lost = 0
        self.status: Optional[int] = None

    def put(self, name: str, line: Line, kind: str = "log") -> None:
        """Has a line written. A reader that is faster than the disk waits for it, but not for one
        that stands still: then the oldest line goes."""
        with self.changed:
            while len(self.waiting) >= MOST and CLOCK.seconds() - self.last < STUCK:
                self.changed.wait(CLOCK.real(STUCK))
            if len(self.waiting) >= MOST:
                self.waiting.popleft()
                self.lost += 1
            self.waiting.append((name, line, kind))
            self.changed.notify_all()

    @property
    def count(self) -> int:
        return len(self.waiting) + len(self.logs.held)

    def run(self) -> None:
        while True:
            with self.changed:
                if not self.waiting and not self.ending:
                    due = AGAIN if self.logs.held else self.logs.due
                    self.changed.wait(None if due is None else CLOCK.real(due))
                found = self.waiting.popleft() if self.waiting else None
                if found is None and self.ending:
                    break
                self.last = CLOCK.seconds()
                self.changed.notify_all()
            self.write(found)
        self.logs.lost += self.lost
        self.status = self.logs.end()

    def write(self, found: Optional[Waits]) -> None:
        """Writes a line, or what is held."""
        begun = CLOCK.seconds()
        if found is None:
            self.logs.write()
        else:
            self.logs.put(*found)
        took = CLOCK.seconds() - begun
        if took > SLOW:
            self.say(f"a write took {took:.0f} seconds: frames have waited for it, and have the "
                     "moments at which they came")

    def end(self, waiting: Waiting) -> int:
        """Waits until all is written, for a short while where a signal asks for the end, and not at
        all where a second one does; the status to end with."""
        with self.changed:
            self.ending = True
            self.changed.notify_all()
        end = CLOCK.seconds() + PATIENCE if waiting.asked else None
        waiting.asked = False
        try:
            while self.is_alive() and (end is None or CLOCK.seconds() < end):
                waiting.during(lambda: self.join(0.1))
        except Ended:
            if end is None:
                waiting.asked = True
                return self.end(waiting)
        if self.status is None:
            lost = self.count + self.lost + self.logs.lost
            self.say(f"the log can't be written now: frames that are lost: {lost}")
            return 1
        return self.status
