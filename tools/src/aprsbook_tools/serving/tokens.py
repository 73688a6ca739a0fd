"""Who may do what: the tokens of a file, and the cookie that a browser gets for one.

A line of the file is a kind, a name and a token. `read` may read alone, `receiver NAME` may write
the logs of NAME, `feed NAME` too, with the names of all its gates, and `desk NAME` may read, and
write the journal of NAME. The file is read again when it changes.
"""
import contextlib
import hashlib
import hmac
import os
import re
import secrets
import stat
import time
from typing import Callable, List, NamedTuple, Optional, Tuple

from aprsbook_tools.errors import ExitStatus, Fault, said
from aprsbook_tools.formats import log_file
from aprsbook_tools.serving import judging, signing
from aprsbook_tools.system import atomic

KINDS = ("read", "receiver", "feed", "desk")
LEAST = 22  # letters of a token: 128 bits in Base64
EACH = 1.0  # seconds: so often it is looked whether the file has changed
COOKIE = re.compile(r"([a-z]+)\.(%s)\.([0-9]{1,12})\.([0-9a-f]{64})" % log_file.RECEIVER, re.ASCII)


class Grant(NamedTuple):
    """What the holder of a token may do."""
    kind: str
    name: str
    token: str

    @property
    def may_read(self) -> bool:
        return self.kind in ("read", "desk", "all")

    def may_push(self, name: str) -> bool:
        """Whether this may write the logs of a receiver, or of one of its radios."""
        return self.kind == "all" or self.kind in ("receiver", "feed") and \
            re.fullmatch(judging.radios(self.name), name) is not None

    def may_write(self, desk: str) -> bool:
        return self.kind == "all" or self.kind == "desk" and self.name == desk

    @property
    def is_feed(self) -> bool:
        return self.kind in ("feed", "all")

    def __str__(self) -> str:
        return f"{self.kind} {self.name}"


ANYONE = Grant("all", "-", "")  # where the server listens to this machine alone


def digest_of(token: str) -> bytes:
    return hashlib.sha256(token.encode("utf-8", "surrogatepass")).digest()


def read_grants(path: str) -> Tuple[List[Grant], List[str]]:
    """What the lines of a file grant, and which lines aren't understood."""
    try:
        with open(path, encoding="utf-8") as file:
            mode = os.fstat(file.fileno()).st_mode
            if os.name != "nt" and mode & (stat.S_IRWXG | stat.S_IRWXO):
                raise Fault(f"{path} can be read by others: chmod 600 {path}", ExitStatus.INPUT)
            text = file.read()
    except UnicodeDecodeError:
        raise Fault(f"{path} isn't in UTF-8")
    except OSError as fault:
        raise Fault(said(fault)) from fault
    grants: List[Grant] = []
    faults: List[str] = []
    for number, line in enumerate(text.splitlines(), 1):
        words = line.split()
        if not words or words[0].startswith("#"):
            continue
        why = refusal(words)
        if why:
            faults.append(f"{path}: line {number}: {why}")
        else:
            grants.append(Grant(words[0], words[1], words[2]))
    return grants, faults


def refusal(words: List[str]) -> Optional[str]:
    """Why the words of a line grant nothing, or None."""
    if len(words) != 3 or words[0] not in KINDS or not re.fullmatch(log_file.RECEIVER, words[1]):
        return f"not KIND NAME TOKEN, with a kind of {', '.join(KINDS)}"
    if len(words[2]) < LEAST or not words[2].isascii():
        return f"a token has at least {LEAST} letters: aprs-net token makes one"
    return None


class Tokens:
    """The tokens of a file; without one anybody may do all."""

    def __init__(self, path: Optional[str], say: log_file.Say) -> None:
        self.path, self.say = path, say
        self.grants: List[Grant] = []
        self.on_change: Callable[[], object] = lambda: None
        self._seen: Tuple[int, ...] = ()
        self._asked = 0.0
        if path is not None:
            self._seen = self.seen_of(path)
            self.grants, faults = read_grants(path)
            if faults or not self.grants:
                raise Fault(faults[0] if faults else f"{path} has no token: aprs-net token")

    @property
    def are_open(self) -> bool:
        return self.path is None

    def seen_of(self, path: str) -> Tuple[int, ...]:
        with contextlib.suppress(OSError):
            it = os.stat(path)
            return it.st_ino, it.st_size, it.st_mtime_ns, it.st_mode
        return ()

    def look(self) -> None:
        """Reads the file again where it has changed. Where it can't be read nobody may anything."""
        if self.path is None or time.monotonic() - self._asked < EACH:
            return
        self._asked = time.monotonic()
        seen = self.seen_of(self.path)
        if seen == self._seen:
            return
        self._seen, self.grants = seen, []
        try:
            self.grants, faults = read_grants(self.path)
        except Fault as fault:
            faults = [fault.words]
        for it in faults:
            self.say(it)
        self.say(f"tokens of {self.path}: {len(self.grants)}")
        self.on_change()

    def holds(self, grant: Grant) -> bool:
        """Whether what was granted still is."""
        return self.are_open or grant in self.grants

    def grant(self, token: str) -> Optional[Grant]:
        """What the holder of a token may do. All are compared, each in the same time."""
        if self.are_open:
            return ANYONE
        self.look()
        asked, found = digest_of(token), None
        for it in self.grants:
            if hmac.compare_digest(digest_of(it.token), asked):
                found = it
        return found

    def grant_of_mark(self, mark: signing.Mark, question: signing.Question) -> Optional[Grant]:
        """What somebody may do whose question has the mark of a token."""
        self.look()
        found = None
        for it in self.grants:
            if signing.is_by(it.token, question, mark):
                found = it
        return found

    def cookie_of(self, grant: Grant, until: int) -> str:
        """What a browser keeps instead of a token: it says nothing of it, and ends."""
        return f"{grant.kind}.{grant.name}.{until}.{cookie_mark(grant, until)}"

    def grant_of_cookie(self, cookie: str, now: float) -> Optional[Grant]:
        self.look()
        kind, name, until, mark = split_cookie(cookie)
        found = None
        for it in self.grants:
            if (it.kind, it.name) == (kind, name) and \
                    hmac.compare_digest(cookie_mark(it, until), mark):
                found = it
        return found if until >= now else None


def cookie_mark(grant: Grant, until: int) -> str:
    return signing.marked(grant.token, "cookie", grant.kind, grant.name, str(until))


def split_cookie(cookie: str) -> Tuple[str, str, int, str]:
    found = COOKIE.fullmatch(cookie)
    return (found[1], found[2], int(found[3]), found[4]) if found else ("", "", -1, "")


def new_token() -> str:
    return secrets.token_urlsafe(24)


def add(path: str, kind: str, name: str) -> str:
    """Adds a new token to a file, which nobody else may read; the token."""
    atomic.check(path)
    with atomic.locked(path):
        text = ""
        if os.path.exists(path):
            grants, _ = read_grants(path)
            if any((it.kind, it.name) == (kind, name) for it in grants):
                raise Fault(f"{path} has a token of {kind} {name}: --remove takes it away")
            with open(path, encoding="utf-8") as file:
                text = file.read()
        token = new_token()
        if text and not text.endswith("\n"):
            text += "\n"
        atomic.write(path, f"{text}{kind} {name} {token}\n".encode(), mode=0o600)
    return token


def remove(path: str, kind: str, name: str) -> None:
    """Takes the tokens of a name out of a file."""
    with atomic.locked(path):
        read_grants(path)  # refuses what is no file of tokens
        with open(path, encoding="utf-8") as file:
            lines = file.read().splitlines(keepends=True)
        kept = [it for it in lines if it.split()[:2] != [kind, name]]
        if kept == lines:
            raise Fault(f"{path} has no token of {kind} {name}")
        atomic.write(path, "".join(kept).encode())
