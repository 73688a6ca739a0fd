"""Pushes a receiver's logs to a server. The files are the store, and the server's state says where
to go on, so nothing is kept here: whoever was killed, or lost what it knew, begins the same way."""
import errno
import http.client
import json
import os
import re
import ssl
import threading
import time
import urllib.parse
from typing import Any, Callable, Dict, Iterator, List, NamedTuple, Optional, Tuple

from aprsbook_tools.books import inputs
from aprsbook_tools.errors import Fault
from aprsbook_tools.formats import log_file
from aprsbook_tools.serving import judging, signing
from aprsbook_tools.serving.states import EMPTY, State, state_in
from aprsbook_tools.system.clock import CLOCK

BATCH = 1 << 19  # bytes of lines that are sent at once
PIECE = 1 << 20  # bytes that are read at once
ANSWER = 1 << 20  # bytes of an answer
PATIENCE = 30  # seconds for an answer
FIRST, LAST = 1.0, 10.0  # seconds from one try to the next, at first and at last
LEFT_OUT = 10  # lines that are named; of more the number is said
NEAR = 16  # lines: one that equals one of so many before it isn't sent

Say = Callable[[str], None]


class Away(Exception):
    """The server doesn't answer, or can't take anything now."""


class Server:
    """A server that is asked over one connection, which is made again where it ended. A token isn't
    sent: a mark that it makes shows that it is here."""

    def __init__(self, url: str, token: str, authority: Optional[str] = None) -> None:
        try:
            parts = urllib.parse.urlsplit(url)
            self.host, self.port = parts.hostname or "", parts.port
        except ValueError:
            parts, self.host = urllib.parse.urlsplit(""), ""
        if parts.scheme not in ("http", "https") or not self.host or parts.query:
            raise Fault(f"{url} isn't an address such as https://net.example:8443/")
        self.base, self.token = parts.path.rstrip("/"), token
        self.context: Optional[ssl.SSLContext] = None
        if parts.scheme == "https":
            try:
                self.context = ssl.create_default_context(cafile=authority)
            except (OSError, ssl.SSLError) as fault:
                raise Fault(f"{authority}: {fault.strerror or fault}")
        self.connection: Optional[http.client.HTTPConnection] = None

    def connect(self) -> http.client.HTTPConnection:
        if self.context is not None:
            return http.client.HTTPSConnection(self.host, self.port, timeout=PATIENCE,
                                               context=self.context)
        return http.client.HTTPConnection(self.host, self.port, timeout=PATIENCE)

    def close(self) -> None:
        if self.connection is not None:
            self.connection.close()
            self.connection = None

    def ask(self, method: str, path: str, body: bytes = b"",
            after: Optional[State] = None) -> Tuple[int, Dict[str, Any]]:
        """The status of an answer, and what it says. A question may be asked again, since lines are
        harmless twice."""
        headers = {"Content-Type": "text/plain", "Aprs-Clock": str(time.time_ns() // 1_000_000)}
        if after is not None:
            headers["Aprs-After"] = after.text
        mark = None
        if self.token:
            question = signing.Question(method, path, headers.get("Aprs-After", ""), body)
            mark = signing.mark_of(self.token, question)
            headers["Authorization"] = mark.header
        try:
            self.connection = self.connection or self.connect()
            self.connection.request(method, self.base + path, body, headers)
            answer = self.connection.getresponse()
            octets = answer.read(ANSWER)
            if answer.will_close:
                self.close()
        except (OSError, http.client.HTTPException) as fault:
            self.close()
            raise Away(str(fault) or type(fault).__name__)
        return answer.status, self.read(answer, octets, mark)

    def read(self, answer: http.client.HTTPResponse, octets: bytes,
             mark: Optional[signing.Mark]) -> Dict[str, Any]:
        """What an answer says."""
        if answer.status in (401, 403, 404, 421):
            raise Fault(f"the server answers {answer.status} {answer.reason}")
        if answer.status not in (200, 409):
            self.close()
            raise Away(f"the server answers {answer.status} {answer.reason}")
        if mark is not None and answer.getheader(signing.SCHEME) != signing.mark_of_answer(
                self.token, mark, answer.status, octets):
            self.close()
            raise Away("the answer isn't of a server that has this token")
        try:
            value = json.loads(octets)
        except ValueError:
            value = None
        if not isinstance(value, dict):
            raise Away("the server answers with something else")
        return value


class Piece(NamedTuple):
    """Lines of a log without their ends, and where the last one ends."""
    lines: List[bytes]
    end: int


def piece_of(path: str, begin: int, most: int = PIECE) -> Piece:
    """The whole lines of a log from a place on. OSError of what is no file, as a pipe."""
    if os.path.exists(path) and not inputs.is_file(path):
        raise OSError(errno.EINVAL, "it is no file", path)
    with open(path, "rb") as file:
        file.seek(begin)
        octets = file.read(most)
    size = octets.rfind(b"\n") + 1
    if not size and len(octets) == most:  # no line is so long: what follows it is read
        return Piece([], begin + most)
    return Piece(octets[:size - 1].split(b"\n") if size else [], begin + size)


class Place(NamedTuple):
    """How far a log was pushed: the state that the server has then, whether it has just these
    lines, so that all others are new to it, and the last of them."""
    at: int
    state: State
    is_alone: bool
    last: Tuple[bytes, ...] = ()


class Log:
    """A log of a day, and how far it was pushed; None where that has to be asked."""

    def __init__(self, path: str, day: str, name: str) -> None:
        self.path, self.day, self.name = path, day, name
        self.own = judging.Own(name, day, is_feed=True)
        self.place: Optional[Place] = None
        self.before: Optional[Place] = None  # where it was when the server went away
        self.file = 0  # its number, and another one is another file
        self.left_out = 0

    def is_good(self, line: bytes) -> bool:
        """Whether the server won't refuse a line."""
        return log_file.read_line(line) is not None and self.own.refusal(line) is None

    def fresh(self, lines: List[bytes], last: List[bytes]) -> Iterator[bytes]:
        """The lines that are sent behind the last ones, which go on with them."""
        for it in lines:
            if self.is_good(it) and it not in last:
                last.append(it)
                del last[:-NEAR]
                yield it

    def forget(self) -> None:
        """The server may have lost what it had."""
        self.before, self.place = self.place or self.before, None

    def find(self, state: State) -> Place:
        """Where the server stands: behind the lines that have its state. Where there is no such
        place all are sent, and the server knows which it has."""
        if self.before is not None and self.before.state == state:
            return self.before
        here, at, last = EMPTY, 0, []  # type: State, int, List[bytes]
        while here != state:
            piece = piece_of(self.path, at)
            if piece.end == at:
                return Place(0, state, False)
            for line in piece.lines:
                at += len(line) + 1
                for it in self.fresh([line], last):
                    here = here.plus(it)
                if here == state:
                    return Place(at, state, True, (*last,))
            at = piece.end
        return Place(at, state, True)

    def has_grown(self) -> bool:
        """Whether there is something to push. Another file, or one that was cut, is begun again."""
        try:
            it = os.stat(self.path)
        except FileNotFoundError:
            return False
        at = self.place.at if self.place else 0
        if it.st_ino != self.file or it.st_size < at:
            self.file, self.place, self.before = it.st_ino, None, None
        return self.place is None or it.st_size > at

    def leave_out(self, why: str, line: bytes, say: Say) -> None:
        self.left_out += 1
        if self.left_out <= LEFT_OUT:
            say(f"{self.path}: a line isn't taken, {why}: {line[:80]!r}")
        elif self.left_out % 1000 == 0:
            say(f"{self.path}: lines that aren't taken: {self.left_out}")


class Pusher:
    """Pushes the logs of a receiver, and of the radios of its TNC."""

    def __init__(self, server: Server, name: str, folder: str, days: int, say: Say) -> None:
        self.server, self.name, self.folder, self.days, self.say = server, name, folder, days, say
        self.form = re.compile(rf"({judging.radios(name)})\.log")
        self.logs: Dict[str, Log] = {}
        self.added = self.known = 0

    @property
    def left_out(self) -> int:
        """How many lines aren't taken."""
        return sum(it.left_out for it in self.logs.values())

    def look(self) -> List[Log]:
        """The logs of the last days that have something new."""
        try:
            days = sorted(it for it in os.listdir(self.folder) if judging.is_day(it))
        except OSError:
            days = []
        for day in days[-self.days:]:
            for name in names_in(os.path.join(self.folder, day)):
                found = self.form.fullmatch(name)
                path = os.path.join(self.folder, day, name)
                if found and path not in self.logs:
                    self.logs[path] = Log(path, day, found[1])
        return [it for it in self.logs.values() if it.has_grown()]

    def forget(self) -> None:
        """The server may have lost what it had: each state is asked again."""
        self.server.close()
        for it in self.logs.values():
            it.forget()

    def push(self) -> None:
        """Pushes what is new of each log. A log that can't be read, or is refused, holds up no
        other: the first fault of one is raised once all others are pushed."""
        faults: List[Exception] = []
        for log in self.look():
            try:
                while self.push_some(log):
                    pass
            except (Fault, OSError) as fault:
                faults.append(fault)
        if faults:
            raise faults[0]

    def push_some(self, log: Log) -> bool:
        """Pushes the next lines of a log; whether there may be more."""
        if log.place is None:
            _, says = self.server.ask("GET", f"/states/{log.name}?day={log.day}")
            place = log.place = log.find(text_of_state(says.get(log.day)))
            if not place.is_alone and not place.at:
                self.say(f"{log.path}: the server has other lines too, so all are pushed")
        place = log.place
        piece = piece_of(log.path, place.at, BATCH)
        if piece.end == place.at:
            return False
        lines = [*log.fresh(piece.lines, [*place.last])]
        after = place.state if place.is_alone else None
        if not lines:
            log.place = place._replace(at=piece.end)
        else:
            status, says = self.server.ask("POST", f"/push/{log.name}/{log.day}",
                                           b"".join(it + b"\n" for it in lines), after)
            if status == 409:  # somebody else adds to it, or it lost some
                log.place = log.before = None
                return True
            log.place = self.place_of(place, piece, lines, says, log)
        self.say_left_out(log, piece, log.place.at - place.at)
        return True

    def say_left_out(self, log: Log, piece: Piece, size: int) -> None:
        """Says which of the lines that are in the first bytes of a piece aren't sent."""
        for it in piece.lines:
            size -= len(it) + 1
            if size < 0:
                return
            if not log.is_good(it):
                log.leave_out("no line of this log", it, self.say)

    def place_of(self, before: Place, piece: Piece, lines: List[bytes], says: Dict[str, Any],
                 log: Log) -> Place:
        """How far a log is pushed by an answer, which may be about the first lines alone."""
        try:
            state, judged, added = state_in(says["state"]), int(says["judged"]), int(says["added"])
            self.added += added
            self.known += int(says["known"])
            for number, why, _ in says["refused"]:
                log.leave_out(str(why), lines[int(number) - 1], self.say)
        except (KeyError, ValueError, TypeError, IndexError):
            raise Away("the server answers with something else")
        if state.lines < before.state.lines + added:
            raise Away("the server has lost lines")
        end = piece.end
        if judged < len(lines):
            end = before.at + end_of(piece.lines, lines, judged)
        return Place(end, state, before.is_alone, (*before.last, *lines[:judged])[-NEAR:])


def names_in(folder: str) -> List[str]:
    try:
        return [it for it in sorted(os.listdir(folder)) if inputs.is_input(it)]
    except OSError:
        return []


def text_of_state(text: Any) -> State:
    try:
        return state_in(text)
    except (ValueError, TypeError):
        raise Away("the server answers with something else")


def end_of(all_lines: List[bytes], lines: List[bytes], count: int) -> int:
    """Where the last of the first lines ends, among all, whose beginning is 0."""
    at, left = 0, iter(lines[:count])
    wanted = next(left, None)
    for line in all_lines:
        if wanted is None:
            break
        at += len(line) + 1
        if line == wanted:
            wanted = next(left, None)
    return at


def pauses() -> Iterator[float]:
    """Seconds from one try to the next, ever longer, and not the same for all who try."""
    now = FIRST
    while True:
        yield now * (0.5 + int.from_bytes(os.urandom(2), "big") / 65536)
        now = min(2 * now, LAST)


def push_on(pusher: Pusher, each: float, say: Say) -> None:
    """Pushes on and on."""
    waits, is_away = pauses(), False
    while True:
        try:
            pusher.push()
            if is_away:
                say("the server is there again")
            waits, is_away = pauses(), False
            CLOCK.wait(each)
        except (Away, Fault, OSError) as fault:
            if not is_away:
                words = fault.words if isinstance(fault, Fault) else str(fault)
                say(f"{words}; it is tried again")
            is_away = True
            pusher.forget()
            CLOCK.wait(next(waits))


def push_beside(pusher: Pusher, each: float, say: Say) -> threading.Thread:
    """The same in a thread, beside a logger."""
    thread = threading.Thread(target=push_on, args=(pusher, each, say), name="push", daemon=True)
    thread.start()
    return thread


def push_once(pusher: Pusher) -> None:
    """Pushes what is there; a Fault where the server is away, or nothing is there."""
    try:
        pusher.push()
    except Away as fault:
        raise Fault(str(fault))
    if not pusher.logs:
        raise Fault(f"in {pusher.folder} is no log of {pusher.name}")
