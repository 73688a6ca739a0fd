"""The stream of what is new: server-sent events, or the same at once where a proxy cuts streams."""
import asyncio
import email.utils
import json
import re
import time
from typing import Dict, Set

import tornado.web

from aprsbook_tools.serving.answers import Answer
from aprsbook_tools.serving.net import Net
from aprsbook_tools.serving.page_answers import close, flushed

GATHER = 0.05  # seconds: what comes meanwhile goes out together
BEAT = 15  # seconds without anything, after which a listener is told that all is well
FULL = 1 << 15  # bytes of events, after which it is the turn of others
NAMED = 1000  # logs that a listener may say to have
MOST = 1 << 22  # bytes of an answer that isn't a stream


class Events(Answer):
    """What is new in each log, at once, from where the listener says that it has read it."""

    def initialize(self, net: Net) -> None:
        super().initialize(net)
        self.woken, self.is_gone = asyncio.Event(), False
        self.changed: Set[str] = set()  # names of logs that may have something new
        self.at: Dict[str, int] = {}  # how far each was sent
        self.tells = True  # whether there is something new of the net itself

    def on_connection_close(self) -> None:
        self.is_gone = True
        self.woken.set()

    def wake(self, name: str) -> None:
        self.changed.add(name)
        self.woken.set()

    def wake_to_tell(self) -> None:
        self.tells = True
        self.woken.set()

    @property
    def is_over(self) -> bool:
        """Whether the stream ends: by either end, or since the token is taken away."""
        return self.net.hub.has_ended or self.is_gone or not self.net.tokens.holds(self.granted)

    async def get(self) -> None:
        net = self.net
        if net.listening >= net.most:
            raise tornado.web.HTTPError(503)
        self.at = self.places()
        self.changed = {*net.hub.logs, *self.at}
        self.set_header("Content-Type", "text/event-stream")
        self.set_header("Date", email.utils.formatdate(usegmt=True))
        self.set_header("X-Accel-Buffering", "no")  # a proxy doesn't hold it back
        if self.get_query_arguments("once"):
            self.send_once()
            return
        net.listening += 1
        net.hub.waking.add(self.wake)
        net.changed.add(self.wake_to_tell)
        self.write(b"retry: 2000\n\n")
        try:
            while not self.is_over and await flushed(self):
                if not self.send():
                    await self.wait()
        finally:
            net.hub.waking.discard(self.wake)
            net.changed.discard(self.wake_to_tell)
            net.listening -= 1
        if not self.is_gone:
            close(self)

    def send_once(self) -> None:
        """What is new now, for who asks again and again."""
        size = 0
        while size < MOST and self.send():
            size = sum(map(len, self._write_buffer))
        self.write(b"event: beat\ndata: %d\n\n" % int(time.time()))
        self.finish()

    def places(self) -> Dict[str, int]:
        """How far each log was read, `have=NAME:BYTES`, to begin with the last line of that."""
        at: Dict[str, int] = {}
        for it in self.get_query_arguments("have")[:NAMED]:
            name, _, size = it.rpartition(":")
            if name.isprintable() and re.fullmatch(r"\d{1,15}", size, re.ASCII):
                at[name] = self.net.hub.begin_of_line(name, int(size))
        return at

    def send(self) -> bool:
        """Writes the next pieces of the logs that have changed; whether there were any."""
        some = size = 0
        if self.tells:
            self.tells = False
            self.write(b"event: net\ndata: " + json.dumps(self.net.told()).encode() + b"\n\n")
            some = 1
        for name in sorted(self.changed):
            event = self.next_of(name)
            if not event:
                self.changed.discard(name)
                continue
            self.write(event)
            some, size = 1, size + len(event)
            if size >= FULL:
                break
        return bool(some)

    def next_of(self, name: str) -> bytes:
        """The next event of a log, or nothing."""
        hub = self.net.hub
        log = hub.logs.get(name)
        if log is None:
            is_known = self.at.pop(name, None) is not None
            return b"event: gone\ndata: " + name.encode() + b"\n\n" if is_known else b""
        begin = self.at.get(name, 0)
        if log.size < begin:
            self.at.pop(name, None)
            return b"event: anew\ndata: " + name.encode() + b"\n\n"
        piece = hub.piece(name, begin)
        if piece is None:
            return b""
        self.at[name] = piece.end
        return piece.event

    async def wait(self) -> None:
        try:
            await asyncio.wait_for(self.woken.wait(), BEAT)
            await asyncio.sleep(GATHER)
        except asyncio.TimeoutError:
            self.net.tokens.look()
            self.write(b"event: beat\ndata: %d\n\n" % int(time.time()))
        self.woken.clear()
