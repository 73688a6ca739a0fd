"""Answers that add lines to a set, or say its state."""
import errno
import os
import re
import time
from typing import Dict, List, Optional, Sequence

import tornado.web

from aprsbook_tools.errors import Fault, said, words_of
from aprsbook_tools.serving import entries, judging
from aprsbook_tools.serving.answers import Answer
from aprsbook_tools.serving.judging import Judged, Refused
from aprsbook_tools.serving.line_file import Batch, LineFile, Taken
from aprsbook_tools.serving.states import EMPTY, State, state_in
from aprsbook_tools.serving.store import DAYS
from aprsbook_tools.serving.tokens import Grant

LINES = 40_000  # in one batch
NAMED = 100  # refused lines that an answer names


class SetAnswer(Answer):
    """Adds lines to a set."""

    def lines(self) -> List[bytes]:
        """The lines of the body."""
        body = self.request.body
        if body and not body.endswith(b"\n"):
            raise tornado.web.HTTPError(400, reason="A Line Without End")
        lines = body[:-1].split(b"\n") if body else []
        if len(lines) > LINES:
            raise tornado.web.HTTPError(413)
        return lines

    def after(self) -> Optional[State]:
        """The state for which the lines are new."""
        text = self.request.headers.get("Aprs-After")
        try:
            return state_in(text) if text else None
        except ValueError:
            raise tornado.web.HTTPError(400, reason="No State")

    async def put_into(self, to: LineFile, it: Judged, after: Optional[State]) -> None:
        """Adds the lines that were found good, and answers."""
        if it.refused:
            first = it.refused[0]
            self.net.say(f"{self.granted}: lines refused: {len(it.refused)}, the first of them "
                         f"{first.number}, {first.why}: {first.begin!r}")
        try:
            taken = await self.net.store.add(to, Batch(it.good, after))
        except OSError as fault:
            self.net.say(said(fault))
            no_room = fault.errno in (errno.ENOSPC, errno.EDQUOT)
            self.tell({"fault": fault.strerror or "fault"}, 507 if no_room else 500)
            return
        self.answer(taken, it)

    def answer(self, taken: Taken, it: Judged) -> None:
        named = it.refused[:NAMED]
        self.tell({"state": taken.state.text, "added": taken.added, "known": taken.known,
                   "judged": it.total,
                   "refused": [[of.number, of.why, of.begin.decode("ascii", "backslashreplace")]
                               for of in named],
                   "more": len(it.refused) - len(named)}, 200 if taken.fits else 409)


class Push(SetAnswer):
    """Lines of the log of a receiver and a day."""

    def is_allowed(self, grant: Grant) -> bool:
        return grant.may_push(self.path_args[0])

    async def post(self, name: str, day: str) -> None:
        if not judging.is_day(day):
            raise tornado.web.HTTPError(404)
        log = self.net.store.log(name, day)
        if not os.path.exists(log.path) and len(self.net.store.days_of(name)) >= DAYS:
            raise tornado.web.HTTPError(507, reason="Too Many Days")
        lines, after = self.lines(), self.after()
        try:
            judged = await self.net.store.judge(lines)
        except Fault as fault:  # of this machine: the program isn't there, or has no memory
            self.net.say(words_of(fault))
            raise tornado.web.HTTPError(500)
        judged = judging.Own(name, day, self.granted.is_feed).sift(judged)
        self.net.hear_of(name, day, self.clock(), len(judged.refused))
        await self.put_into(log, judged, after)

    def clock(self) -> Optional[float]:
        """By how many seconds the sender's clock is ahead, as far as the way lets it be known."""
        text = self.request.headers.get("Aprs-Clock", "")
        if not re.fullmatch(r"\d{1,15}", text, re.ASCII):
            return None
        return int(text) / 1000 - (time.time() - self.request.request_time())


class States(Push):
    """The states of a receiver's logs, of those days that are named."""

    async def get(self, name: str) -> None:
        store = self.net.store
        days = [it for it in self.get_query_arguments("day") if judging.is_day(it)]
        states: Dict[str, State] = {}
        for day in days[:DAYS] or store.days_of(name):
            log = store.log(name, day)
            states[day] = await store.state(log) if os.path.exists(log.path) else EMPTY
        self.tell({day: state.text for day, state in states.items()})


class Journal(SetAnswer):
    """Entries of a desk."""

    def is_allowed(self, grant: Grant) -> bool:
        return grant.may_write(self.path_args[0])

    async def get(self, name: str) -> None:
        store = self.net.store
        self.tell({"state": (await store.state(store.desk(name))).text})

    async def post(self, name: str) -> None:
        if not re.fullmatch("application/x-ndjson(?:;.*)?",
                            self.request.headers.get("Content-Type", "")):
            raise tornado.web.HTTPError(415)
        judged = judged_entries(self.lines(), name)
        await self.put_into(self.net.store.desk(name), judged, self.after())


def judged_entries(lines: Sequence[bytes], desk: str) -> Judged:
    """Which lines are entries of a desk."""
    good: List[bytes] = []
    refused: List[Refused] = []
    for number, line in enumerate(lines, 1):
        why = entries.refusal(line, desk)
        if why is None:
            good.append(line)
        else:
            refused.append(Refused.of(number, why, line))
    return Judged(good, refused, len(lines))
