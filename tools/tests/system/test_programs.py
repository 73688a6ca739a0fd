"""How programs are found, and where their complaints stand."""
import os
import pathlib
from typing import NoReturn

import pytest
from conftest import lay_script

from aprsbook_tools.errors import ExitStatus, Fault
from aprsbook_tools.formats.forms import form
from aprsbook_tools.system import programs, temporary


def test_a_program_is_found_as_a_shell_finds_it(
        tmp_path: pathlib.Path, monkeypatch: pytest.MonkeyPatch) -> None:
    """A folder of its name, and a file that nobody may run, are none."""
    one, two, three = (tmp_path / it for it in ("one", "two", "three"))
    (one / "aprsbook").mkdir(parents=True)
    for it in two, three:
        it.mkdir()
    (two / "aprsbook").write_text("")
    lay_script(three / "aprsbook", "")
    monkeypatch.setenv("PATH", os.pathsep.join(map(str, (one, two, three, tmp_path / "none"))))
    assert programs.find("aprsbook") == str(three / "aprsbook")
    monkeypatch.setenv("PATH", os.pathsep.join(map(str, (one, two))))
    assert not programs.is_there("aprsbook")
    with pytest.raises(Fault) as fault:
        programs.find("aprsbook")
    assert fault.value.status == ExitStatus.MISSING


@pytest.mark.parametrize("is_refused", [False, True])
def test_a_file_for_some_lines(monkeypatch: pytest.MonkeyPatch, is_refused: bool) -> None:
    """It is one on the disk where a system has none in memory."""
    def refuse(_: str) -> NoReturn:
        raise OSError
    if is_refused:
        monkeypatch.setattr(os, "memfd_create", refuse, raising=False)
    with temporary.short() as file:
        file.write(b"some")
        file.seek(0)
        assert file.read() == b"some"


def test_a_form_is_compiled_once_it_is_asked() -> None:
    letters = form("[a-z]+")
    assert "match" not in vars(letters)
    assert letters.fullmatch("abc") and not letters.fullmatch("ab1")
    assert letters.sub("x", "a1b") == "x1x" and "match" in vars(letters)
    with pytest.raises(AttributeError):
        letters.nothing  # type: ignore[attr-defined]


def test_a_program_is_ended_where_nobody_reads_on(
        tmp_path: pathlib.Path, monkeypatch: pytest.MonkeyPatch) -> None:
    """And the status is that of a signal, where one ended it."""
    monkeypatch.setenv("PATH", str(tmp_path))
    lay_script(tmp_path / "lasting",
               "import os, time\nprint(os.getpid(), flush=True)\ntime.sleep(100)\n")
    monkeypatch.setattr(programs, "BLOCK", 1)  # byte that is read at a time
    lines = iter(programs.blocks("lasting", given=b""))
    number = int(next(it for it in lines if it)[0])
    os.kill(number, 0)
    lines.close()  # type: ignore[attr-defined]
    with pytest.raises(ProcessLookupError):
        os.kill(number, 0)
    lay_script(tmp_path / "killed", "import os\nos.kill(os.getpid(), 9)\n")
    with pytest.raises(Fault) as fault:
        [*programs.lines("killed", given=b"")]
    assert (fault.value.words, fault.value.status) == ("ended by signal 9", ExitStatus.OUTPUT)


def test_what_a_program_is_given_and_says(
        tmp_path: pathlib.Path, monkeypatch: pytest.MonkeyPatch) -> None:
    """Its complaint comes behind its lines, of which the last may be torn."""
    monkeypatch.setenv("PATH", str(tmp_path))
    lay_script(tmp_path / "cut", "import sys\nsys.stdout.write(sys.stdin.read())\n"
               "sys.exit('cut: too short')\n")
    found, lines = [], programs.lines("cut", given=b"one\ntw")
    with pytest.raises(Fault, match="too short") as fault:
        for it in lines:
            found.append(it)
    assert found == ["one", "tw"] and fault.value.status == ExitStatus.INPUT
    (tmp_path / "none").write_text("#!/no such program\n")
    (tmp_path / "none").chmod(0o755)
    with pytest.raises(FileNotFoundError):
        [*programs.lines("none", given=b"")]
