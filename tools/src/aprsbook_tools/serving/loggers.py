"""The TNCs that a server logs itself, as `aprs-net log` does."""
import threading
from typing import Callable

from aprsbook_tools.formats import kiss, log_file
from aprsbook_tools.frame_sources.source import Source, Waiting, listen
from aprsbook_tools.frame_sources.stamping import Clock
from aprsbook_tools.frame_sources.writer import Writer


class Logger:
    """Logs a source in a thread: frames are stamped as they come, and written beside that."""

    def __init__(self, source: Source, name: str, folder: str, on_write: Callable[[str], object],
                 say: log_file.Say) -> None:
        def tell(text: str) -> None:
            say(f"{name}: {text}")
        self.source, self.name, self.tell = source, name, tell
        self.clock, self.framer = Clock(tell), kiss.Framer(tell)
        self.writer = Writer(log_file.Logs(folder, tell, on_write=on_write), tell)
        self.thread = threading.Thread(target=self.run, name=f"log {name}", daemon=True)

    def begin(self) -> "Logger":
        self.writer.start()
        self.thread.start()
        return self

    def run(self) -> None:
        well, why = listen(self.source, Waiting(), self.take, self.framer.restart, self.tell)
        if not well:
            self.tell(why)

    def take(self, octets: bytes) -> None:
        for framed in self.framer.feed(octets):
            for moment, receiver, frame in self.clock.stamp(self.name, framed):
                self.writer.put(self.name, log_file.of_frame(moment, receiver, frame))

    def end(self) -> int:
        """Writes what came, and has it on the disk; 1 where some of it is lost. What comes
        thereafter isn't taken."""
        waiting = Waiting()
        waiting.ask()  # who ends a server doesn't wait long
        self.writer.lost += self.clock.lost + len(self.clock.waiting)
        return self.writer.end(waiting)
