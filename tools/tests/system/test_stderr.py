"""What is said on standard error, where nobody can be told: the work goes on, and is the same."""
import os
import pathlib
import subprocess
import sys
from typing import List

import pytest
from conftest import EVENING, command, environment

from aprsbook_tools import stderr
from aprsbook_tools.stderr import Level

HILL = pathlib.Path([it for it in EVENING if "hill" in it][0])
CUT = HILL.read_bytes()[:1000]  # of which something has to be said
WHOLE = CUT[:CUT.rfind(b"\n") + 1]
COMMANDS: List[List[str]] = [["mend"], ["import", "monitor"]]


def given(name: str) -> bytes:
    """What a command says something of: a cut line, or a line of another kind."""
    return CUT if name == "mend" else b"2024-06-21T12:00:00Z Q1A>APRS:>Hi\nyesterday Q1A>APRS:>Hi\n"


@pytest.mark.parametrize("words", COMMANDS, ids=lambda it: str(it[0]))
def test_standard_error_is_closed(words: List[str]) -> None:
    """Python's print then writes to standard output, into the midst of a log."""
    text = given(words[0])
    told = subprocess.run(command(*words), input=text, capture_output=True, env=environment())
    done = subprocess.run(command(*words), input=text, stdout=subprocess.PIPE, env=environment(),
                          preexec_fn=lambda: os.close(2))
    assert told.stderr and told.stdout
    assert (done.returncode, done.stdout) == (told.returncode, told.stdout)


@pytest.mark.skipif(not os.path.exists("/dev/full"), reason="needs /dev/full")
def test_standard_error_is_on_the_full_disk(tmp_path: pathlib.Path) -> None:
    new = tmp_path / "new"
    with open("/dev/full", "wb") as full:
        done = subprocess.run(command("mend", "-o", new), input=CUT, stderr=full,
                              env=environment())
    assert done.returncode == 0 and new.read_bytes() == WHOLE


def test_the_reader_of_standard_error_has_gone() -> None:
    reads, writes = os.pipe()
    os.close(reads)
    done = subprocess.run(command("mend"), input=CUT, stdout=subprocess.PIPE, stderr=writes,
                          env=environment())
    os.close(writes)
    assert done.returncode == 0 and done.stdout == WHOLE


@pytest.mark.parametrize("level, said", [
    (Level.QUIET, "wrong"), (Level.PLAIN, "wrong good"), (Level.VERBOSE, "wrong good done")])
def test_how_much_is_said(level: Level, said: str, capsys: pytest.CaptureFixture[str]) -> None:
    stderr.set_level(level)
    try:
        stderr.warn("wrong")
        stderr.note("good")
        stderr.detail("done")
        assert stderr.is_quiet() == (level == Level.QUIET)
    finally:
        stderr.set_level(Level.PLAIN)
    assert capsys.readouterr().err == "".join(f"aprs-net: {it}\n" for it in said.split())


@pytest.mark.skipif(sys.platform != "linux", reason="of bytes that are typed")
@pytest.mark.parametrize("mode", ["0", "1"])
@pytest.mark.parametrize("typed, shown", [
    (b"k\xc3\xa4se", b"k\xc3\xa4se"), (b"k\xe4se", b"k\xe4se"), (b"\x9b1m", b"\\x9b1m"),
    (b"\xc2\x9b1m", b"\\xc2\\x9b1m"), (b"\xe2\x80\xae", b"\\xe2\\x80\\xae")])
def test_words_are_shown_as_they_were_typed(typed: bytes, shown: bytes, mode: str) -> None:
    """Also where Python knows no coding but ASCII. What is an order to a terminal isn't shown."""
    env = environment(LC_ALL="C", PYTHONUTF8=mode)
    befores: List[List[bytes]] = [[], [b"mend"], [b"last-heard", b"--format"]]
    for before in befores:
        words = [*map(os.fsencode, command()), *before, b"x" + typed]
        done = subprocess.run(words, capture_output=True, env=env)
        assert b"udc" not in done.stderr
        assert b"x" + shown in done.stderr or b"--format" in before and typed != shown


@pytest.mark.parametrize("text, shown", [
    ("a\ud800b", "a\\xed\\xa0\\x80b"), ("\udc85", "\\x85"), ("\udcff", "\udcff"),
    (r"\udc41", r"\udc41"), ("\u202e\x1b", r"\xe2\x80\xae\x1b"), ("\U0001f3c3", "\U0001f3c3")])
def test_what_can_be_shown(text: str, shown: str) -> None:
    assert stderr.printable(text) == shown
