"""A round of a store, in which one file can't be added to."""
import contextlib
import errno
import pathlib
from typing import Iterator, Sequence

import pytest

from aprsbook_tools.errors import ExitStatus, Fault
from aprsbook_tools.serving.line_file import Addition, Batch, LineFile, Taken
from aprsbook_tools.serving.store import Store

LINES = [b"2024-06-21T18:00:0%d.000Z A c0007800" % it for it in range(3)]


@pytest.mark.parametrize("is_begun", [False, True])
def test_a_file_that_is_refused_takes_no_other_with_it(
        tmp_path: pathlib.Path, monkeypatch: pytest.MonkeyPatch, is_begun: bool) -> None:
    """Whoever sent lines to it gets the fault, each, and the others an answer."""
    store = Store(str(tmp_path), 1 << 20, lambda text: None, lambda path: None)
    bad, good = store.log("A", "2024-06-21"), store.log("B", "2024-06-21")
    adding = LineFile.adding

    def fail(*of: object) -> None:
        raise OSError(errno.EIO, "no disk")

    @contextlib.contextmanager
    def refused(it: LineFile, batches: Sequence[Batch], *more: "object") -> Iterator[Addition]:
        if it is bad and not is_begun:
            fail()
        with adding(it, batches, *more) as addition:  # type: ignore[arg-type]
            if it is bad:
                monkeypatch.setattr(addition, "write", fail)
            yield addition
    monkeypatch.setattr(LineFile, "adding", refused)
    found = store.write([(bad, Batch(LINES[:1])), (good, Batch(LINES)), (bad, Batch(LINES[1:]))])
    assert [type(it) for it in found] == [OSError, Taken, OSError]
    assert (tmp_path / "2024-06-21/B.log").read_bytes() == b"".join(it + b"\n" for it in LINES)
    store.end()


def test_a_folder_is_of_one_store(tmp_path: pathlib.Path) -> None:
    """Until it has ended: two would write one journal."""
    store = Store(str(tmp_path), 1 << 20, lambda text: None, lambda path: None)
    with pytest.raises(Fault, match="another `aprs-net serve`") as fault:
        Store(str(tmp_path), 1 << 20, lambda text: None, lambda path: None)
    assert fault.value.status == ExitStatus.OUTPUT
    store.end()
    Store(str(tmp_path), 1 << 20, lambda text: None, lambda path: None).end()
