"""Tokens, marks and cookies."""
import errno
import os
import pathlib
import time
from typing import List, NoReturn

import pytest
from hypothesis import given
from hypothesis import strategies as st

from aprsbook_tools.errors import Fault
from aprsbook_tools.serving import signing, tokens
from aprsbook_tools.serving.tokens import Grant, Tokens
from conftest import tried

SAID: List[str] = []
TOKEN = "t" * 22


def file_of(folder: pathlib.Path, text: str, mode: int = 0o600) -> pathlib.Path:
    path = folder / "tokens"
    path.write_text(text)
    path.chmod(mode)
    return path


def test_who_may_do_what(tmp_path: pathlib.Path) -> None:
    path = tmp_path / "tokens"
    made = {kind: tokens.add(str(path), kind, "HILL") for kind in tokens.KINDS}
    assert path.stat().st_mode & 0o777 == 0o600
    its = Tokens(str(path), SAID.append)
    may = {}
    for kind, token in made.items():
        it = its.grant(token)
        assert it is not None and its.grant(token[:-1] + "!") is None
        may[kind] = (it.may_read, it.may_push("HILL"), it.may_push("HILL-15"),
                     it.may_write("HILL"), it.is_feed)
        assert not any((it.may_push("HILL-16"), it.may_push("HILL2"), it.may_write("COAST")))
    assert may == {"read": (True, False, False, False, False),
                   "receiver": (False, True, True, False, False),
                   "feed": (False, True, True, False, True),
                   "desk": (True, False, False, True, False)}
    with pytest.raises(Fault, match="has a token"):
        tokens.add(str(path), "desk", "HILL")


@pytest.mark.parametrize("text, mode, words", [
    (f"desk BASE {TOKEN}\n", 0o644, "can be read by others"),
    ("", 0o600, "has no token"),
    ("desk BASE short\n", 0o600, "line 1: a token has at least 22 letters"),
    (f"# x\nking BASE {TOKEN}\n", 0o600, "line 2: not KIND NAME TOKEN"),
    (f"desk ../BASE {TOKEN}\n", 0o600, "line 1: not KIND NAME TOKEN"),
    (f"desk BASE {TOKEN} more\n", 0o600, "line 1: not KIND NAME TOKEN"),
])
def test_files_that_are_refused(tmp_path: pathlib.Path, text: str, mode: int, words: str) -> None:
    with pytest.raises(Fault, match=words):
        Tokens(str(file_of(tmp_path, text, mode)), SAID.append)


def test_a_token_that_is_taken_away(tmp_path: pathlib.Path, monkeypatch: pytest.MonkeyPatch
                                    ) -> None:
    monkeypatch.setattr(tokens, "EACH", 0)
    path = file_of(tmp_path, f"desk BASE {TOKEN}\nread GUEST {'g' * 22}\n")
    changes: List[int] = []
    its = Tokens(str(path), SAID.append)
    its.on_change = lambda: changes.append(1)
    base = its.grant(TOKEN)
    assert base is not None and its.holds(base)
    cookie, guest = its.cookie_of(base, int(time.time()) + 9), its.grant("g" * 22)
    assert guest is not None
    kept = its.cookie_of(guest, int(time.time()) + 9)
    tokens.remove(str(path), "desk", "BASE")
    assert its.grant(TOKEN) is None and not its.holds(base) and its.holds(guest)
    assert its.grant_of_cookie(cookie, time.time()) is None
    assert its.grant_of_cookie(kept, time.time()) == guest
    assert changes == [1] and path.stat().st_mode & 0o777 == 0o600
    path.chmod(0o644)
    assert its.grant("g" * 22) is None and "can be read by others" in "".join(SAID)
    path.chmod(0o600)
    assert its.grant("g" * 22) == guest
    os.unlink(path)
    assert its.grant("g" * 22) is None


def test_cookies_end_and_cannot_be_made(tmp_path: pathlib.Path) -> None:
    path = file_of(tmp_path, f"desk BASE {TOKEN}\nread BASE {'g' * 22}\n")
    its = Tokens(str(path), SAID.append)
    it = its.grant(TOKEN)
    assert it is not None
    cookie = its.cookie_of(it, 1000)
    assert TOKEN not in cookie
    assert its.grant_of_cookie(cookie, 1000.0) == it
    assert its.grant_of_cookie(cookie, 1001.0) is None
    assert Tokens(str(path), SAID.append).grant_of_cookie(cookie, 1000.0) == it
    for other in ("", "x", cookie[:-1] + ("0" if cookie[-1] != "0" else "1"),
                  cookie.replace("desk", "read"), cookie.replace("1000", "2000"), cookie + "0"):
        assert its.grant_of_cookie(other, 1000.0) is None


QUESTIONS = st.builds(signing.Question, st.sampled_from(["GET", "POST"]),
                      st.sampled_from(["/push/HILL/2024-06-21", "/push/HILL/2024-06-22"]),
                      st.sampled_from(["", "0-" + 32 * "0"]), st.binary(max_size=8))


@given(QUESTIONS, QUESTIONS)
def test_a_mark_is_of_one_question(one: signing.Question, other: signing.Question) -> None:
    mark = signing.mark_of(TOKEN, one)
    assert signing.mark_in(mark.header) == mark and TOKEN not in mark.header
    assert signing.is_by(TOKEN, other, mark) == (one == other)
    assert not signing.is_by("u" * 22, one, mark)
    answer = signing.mark_of_answer(TOKEN, mark, 200, b"{}")
    assert answer != signing.mark_of_answer(TOKEN, mark, 409, b"{}")
    assert answer != signing.mark_of_answer(TOKEN, signing.mark_of(TOKEN, one), 200, b"{}")


def test_the_command(tmp_path: pathlib.Path) -> None:
    path = tmp_path / "tokens"
    token = tried("token", path, "receiver", "HILL").stdout.decode().strip()
    assert Tokens(str(path), SAID.append).grant(token) == Grant("receiver", "HILL", token)
    tried("token", path, "desk", "BASE")
    assert tried("token", path).stdout == b"receiver HILL\ndesk BASE\n"
    tried("token", "--remove", path, "receiver", "HILL")
    assert tried("token", path).stdout == b"desk BASE\n"
    tried("token", "--remove", path, "receiver", "HILL", status=1)
    tried("token", path, "desk", status=2)
    tried("token", "--remove", path, status=2)
    tried("token", path, "king", "HILL", status=2)
    assert b"no such" in tried("token", tmp_path / "none", status=1).stderr.lower()


@pytest.mark.parametrize("end", ["", "\n"])
def test_a_token_stands_on_a_line_of_its_own(tmp_path: pathlib.Path, end: str) -> None:
    """Also where an editor has left the last line without its end."""
    path = tmp_path / "tokens"
    path.write_text(f"receiver HILL {'x' * 32}{end}")
    path.chmod(0o600)
    token = tokens.add(str(path), "desk", "BASE")
    assert path.read_text() == f"receiver HILL {'x' * 32}\ndesk BASE {token}\n"


def test_a_full_disk_leaves_no_file(tmp_path: pathlib.Path, monkeypatch: pytest.MonkeyPatch
                                    ) -> None:
    """It left an empty one, which `aprs-net serve` refused."""
    def refuse(_: int) -> NoReturn:
        raise OSError(errno.ENOSPC, os.strerror(errno.ENOSPC))
    monkeypatch.setattr(os, "fsync", refuse)
    path = tmp_path / "tokens"
    with pytest.raises(Fault, match="tokens: No space left on device"):
        tokens.add(str(path), "read", "HILL")
    assert [it.name for it in tmp_path.iterdir()] == [".tokens.lock"]
    path.write_text("# a note\n")
    path.chmod(0o600)
    with pytest.raises(Fault, match="tokens: No space left on device"):
        tokens.add(str(path), "read", "HILL")
    assert path.read_text() == "# a note\n"


def test_what_is_no_file_gets_no_token(tmp_path: pathlib.Path) -> None:
    """Of /dev/full it said: chmod 600 /dev/full."""
    for name, words in ("", "is no file"), ("none/tokens", "no folder"):
        with pytest.raises(Fault, match=words):
            tokens.add(str(tmp_path / name), "read", "HILL")
    assert not list(tmp_path.iterdir())
