"""Marks that show that somebody has a token, and don't tell it: for bands on which nothing may be
encrypted. Who repeats a question with its mark gets no more than its first sender: lines that are
added twice are there once."""
import hashlib
import hmac
import os
import re
from typing import NamedTuple, Optional

SCHEME = "Aprs-Mark"  # of the header Authorization, and the name of the answer's header
FORM = re.compile(rf"{SCHEME} ([0-9a-f]{{32}}):([0-9a-f]{{64}})", re.ASCII)


class Question(NamedTuple):
    """What is asked: the method, the path with its query, the state for which the body is new, and
    the body."""
    method: str
    path: str
    after: str
    body: bytes


class Mark(NamedTuple):
    """A number that is used once, and the mark of a question with it."""
    nonce: str
    mark: str

    @property
    def header(self) -> str:
        return f"{SCHEME} {self.nonce}:{self.mark}"


def marked(token: str, *parts: str) -> str:
    text = "\n".join(parts).encode("utf-8", "surrogatepass")
    return hmac.new(token.encode(), text, hashlib.sha256).hexdigest()


def sum_of(body: bytes) -> str:
    return hashlib.sha256(body).hexdigest()


def mark_of(token: str, it: Question, nonce: str = "") -> Mark:
    """The mark of a question by the holder of a token."""
    nonce = nonce or os.urandom(16).hex()
    mark = marked(token, "question", nonce, it.method, it.path, it.after, sum_of(it.body))
    return Mark(nonce, mark)


def mark_in(header: str) -> Optional[Mark]:
    found = FORM.fullmatch(header)
    return Mark(found[1], found[2]) if found else None


def is_by(token: str, it: Question, mark: Mark) -> bool:
    """Whether the holder of a token has asked this."""
    return hmac.compare_digest(mark_of(token, it, mark.nonce).mark, mark.mark)


def mark_of_answer(token: str, question: Mark, status: int, body: bytes) -> str:
    """The mark of the answer to a question: only who has the token too can have answered it."""
    return marked(token, "answer", question.mark, str(status), sum_of(body))
