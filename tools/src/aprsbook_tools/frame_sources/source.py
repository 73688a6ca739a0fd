"""A source of frames, and one way of reconnecting: tries begin at least five seconds apart, so that
a connection that ended after a while is made again at once."""
import os
import select
import signal
from typing import Any, Callable, List, Optional, Tuple

from aprsbook_tools import signals
from aprsbook_tools.errors import said
from aprsbook_tools.system.clock import CLOCK

AGAIN = 5.0  # seconds from one try to the next
LONG = 60.0  # seconds of a connection that went well
LONGEST = 600.0  # seconds between two tries, where a source refuses again and again
Say = Callable[[str], None]
Take = Callable[[bytes], None]


class Ended(Exception):
    """A signal asked for the end."""


class Waiting:
    """Waits for input or for a time. A signal ends only what waits, so nothing is cut in two."""

    def __init__(self) -> None:
        self.asked = False
        self.waits = False
        self.wakes: List[int] = []  # what a signal makes readable

    def heed(self) -> None:
        """Takes SIGINT, SIGTERM and SIGHUP as asking for the end, also one that comes right before
        a wait begins."""
        if os.name != "nt" and not self.wakes:
            wakes, sender = os.pipe()
            os.set_blocking(sender, False)
            signal.set_wakeup_fd(sender, warn_on_full_buffer=False)
            self.wakes = [wakes]
        signals.heed(self.ask, "SIGINT", "SIGTERM", "SIGHUP")

    def ask(self, *_: object) -> None:
        self.asked = True
        if self.waits:
            raise Ended

    def during(self, wait: Callable[[], Any]) -> Any:
        self.waits = True
        try:
            if self.asked:
                raise Ended
            return wait()
        finally:
            self.waits = False

    def for_input(self, file: int, seconds: Optional[float]) -> bool:
        """Whether there is input before so many seconds are over."""
        if os.name == "nt" and file == 0:
            return True
        real = None if seconds is None else CLOCK.real(seconds)
        read = [file, *self.wakes]
        return bool(self.during(lambda: file in select.select(read, [], [], real)[0]))

    def pause(self, seconds: float) -> None:
        if seconds > 0:
            self.during(lambda: CLOCK.wait(seconds))


class Input:
    """What is open: a file's number, what reads of it, and what closes it."""

    def __init__(self, number: int, read: Callable[[int], bytes],
                 close: Callable[[], None]) -> None:
        self.number, self.read, self.close = number, read, close


class Source:
    """Where frames come from. `idle` is for how many seconds nothing may come before it is opened
    again; None is for ever."""
    idle: Optional[float] = None
    again = True  # whether it is opened again after its end
    is_shared = False  # whether others are served too, so that tries become rare where it refuses
    open_words, end_words = "connected", "the connection ended"

    def open(self, waiting: Waiting) -> Input:
        raise NotImplementedError


def read_once(source: Source, waiting: Waiting, take: Take, say: Say) -> str:
    """Opens a source and takes what comes until it ends; in words, why it did."""
    file = source.open(waiting)
    try:
        if source.again:
            say(source.open_words)
        while True:
            if not waiting.for_input(file.number, source.idle):
                return f"nothing came for {source.idle:g} seconds"
            try:
                octets = file.read(4096)
            except (BlockingIOError, InterruptedError):
                continue
            if not octets:
                return source.end_words
            take(octets)
    finally:
        file.close()


def listen(source: Source, waiting: Waiting, take: Take, restart: Callable[[], None],
           say: Say) -> Tuple[bool, str]:
    """Takes what comes from a source, and opens it again, until a signal asks for the end or a
    source that isn't opened again has ended. `restart` is called before each try. Whether all went
    well, and why it ended."""
    last, pause = None, AGAIN
    while True:
        begun = CLOCK.seconds()
        restart()
        try:
            why = read_once(source, waiting, take, say)
        except Ended:
            return True, "asked to end"
        except (OSError, UnicodeError) as fault:
            why = said(fault) if isinstance(fault, OSError) else str(fault)
            if not source.again:
                return False, f"standard input: {why}"
        if not source.again:
            return True, why
        if why != last:
            last = why
            say(why)
        lasted = CLOCK.seconds() - begun
        pause = min(LONGEST, 2 * pause) if source.is_shared and lasted < LONG else AGAIN
        try:
            waiting.pause(pause - lasted)
        except Ended:
            return True, "asked to end"
