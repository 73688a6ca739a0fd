"""What a hub sees of the files that others write."""
import asyncio
import pathlib
from typing import List

import pytest

from aprsbook_tools.errors import Fault
from aprsbook_tools.serving import hub
from aprsbook_tools.serving.hub import Hub

DAY = "2024-06-21"


def hub_of(folder: pathlib.Path) -> Hub:
    return Hub(str(folder), [DAY])


def test_a_folder_that_cannot_be_read_ends_nothing(
        tmp_path: pathlib.Path, monkeypatch: pytest.MonkeyPatch) -> None:
    (tmp_path / DAY).mkdir()
    it, said = hub_of(tmp_path), []  # type: Hub, List[str]
    own, looks = it.look, []

    def look() -> None:
        looks.append(1)
        if len(looks) < 3:
            raise Fault(f"{tmp_path}/gone: No such file or directory")
        (tmp_path / DAY / "RX1.log").write_bytes(b"line\n")
        own()
    monkeypatch.setattr(it, "look", look)
    monkeypatch.setattr(hub, "EACH", 0.01)

    async def run() -> None:
        running = asyncio.ensure_future(it.run(lambda *of: None, said.append))
        while not it.logs:
            await asyncio.sleep(0.01)
            assert not running.done()
        running.cancel()
    asyncio.run(asyncio.wait_for(run(), 20))
    assert said == [f"aprs-net: {tmp_path}/gone: No such file or directory"]


def test_a_line_is_carried_where_an_event_can(tmp_path: pathlib.Path) -> None:
    (tmp_path / DAY).mkdir()
    log = tmp_path / DAY / "RX1.log"
    for size, has_lines in [(hub.PIECE - 1, True), (hub.PIECE, True), (hub.LONGEST - 1, True),
                            (hub.LONGEST, False)]:
        log.write_bytes(b"x" * size + b"\n" + b"next\n")
        it = hub_of(tmp_path)
        it.look()
        piece = it.piece(f"{DAY}/RX1.log", 0)
        assert piece and piece.event.startswith(b"event: lines" if has_lines else b"event: grown")
        assert (piece.begin, piece.end) == (0, size + 1)
        following = it.piece(f"{DAY}/RX1.log", piece.end)
        assert following and following.event.endswith(b"data: next\n\n")


def test_days_to_come(tmp_path: pathlib.Path) -> None:
    for way in (DAY, "2024-06-20", "2097-01-01", "site/2098-01-01", "site/2024-06-22/2099-01-01"):
        (tmp_path / way).mkdir(parents=True)
        (tmp_path / way / "RX1.log").touch()
        (tmp_path / way / "R X.log").touch()
    assert sorted(hub_of(tmp_path).logs_to_come()) == [
        ("RX1", "2097-01-01"), ("RX1", "2098-01-01"), ("RX1", "2099-01-01")]
