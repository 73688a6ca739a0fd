"""A full disk is named, wherever it is, and so is a Python that is too old."""
import errno
import os
import pathlib
import tempfile
from typing import NoReturn

import pytest
from conftest import program

from aprsbook_tools import cli
from aprsbook_tools.errors import ExitStatus, Fault
from aprsbook_tools.system import disk, programs


def test_a_full_folder_for_temporary_files(tmp_path: pathlib.Path, monkeypatch: pytest.MonkeyPatch,
                                           capsys: pytest.CaptureFixture[str]) -> None:
    """`keeper` said "No space left on device" with status 1, and not where."""
    program("aprsbook-table")
    (tmp_path / "net.log").write_bytes(b"")

    def refuse(*_: object, **__: object) -> NoReturn:
        raise OSError(errno.ENOSPC, os.strerror(errno.ENOSPC))
    monkeypatch.setattr(tempfile, "TemporaryFile", refuse)
    assert cli.run(["keeper", str(tmp_path / "net.log")]) == ExitStatus.OUTPUT
    said = capsys.readouterr().err
    assert f"{tempfile.gettempdir()}: No space left on device" in said and "TMPDIR" in said


@pytest.mark.skipif(not os.path.exists("/dev/full"), reason="needs /dev/full")
def test_what_a_program_cannot_write_is_named(monkeypatch: pytest.MonkeyPatch) -> None:
    """It said "cannot write", and not where."""
    program("aprsbook")
    with open("/dev/full", "wb", buffering=0) as full:
        for room, words in (0, "cannot write in /dev: no room is left there"), (9, "cannot write"):
            monkeypatch.setattr(disk, "FEW", 2 ** 80 if room == 0 else 0)
            with pytest.raises(Fault) as caught:
                programs.run("aprsbook", "merge", "--", os.devnull, into=full)
            assert caught.value.words.startswith(words)
            assert caught.value.status == ExitStatus.OUTPUT


def test_an_old_python_is_told_what_is_needed(monkeypatch: pytest.MonkeyPatch,
                                              capsys: pytest.CaptureFixture[str]) -> None:
    """It ended in a traceback: "No module named 'zoneinfo'"."""
    monkeypatch.setattr(cli, "LEAST_PYTHON", (9, 1))
    assert cli.main(["help"]) == ExitStatus.MISSING
    assert "it needs Python 9.1 or later, and this is 3." in capsys.readouterr().err
