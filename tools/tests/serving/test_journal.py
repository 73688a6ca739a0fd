"""The journal of all files, and what a power failure leaves of it and of them."""
import asyncio
import os
import pathlib
import random
from typing import Callable, Dict, List, Set, Tuple

import pytest
from hypothesis import given, settings
from hypothesis import strategies as st

from aprsbook_tools.serving import journal, line_file, store
from aprsbook_tools.serving.journal import BLOCK, Journal, Record, records_in
from aprsbook_tools.serving.line_file import Batch
from aprsbook_tools.serving.store import HIDDEN, Store

PAYLOADS = st.lists(st.binary(max_size=9000), min_size=1, max_size=4)


def written(first: int, payloads: List[bytes]) -> bytes:
    return b"".join(Record(first + k, it).write() for k, it in enumerate(payloads))


@given(PAYLOADS, PAYLOADS)
def test_records_come_back(old: List[bytes], new: List[bytes]) -> None:
    before, now = written(1, old), written(1 + len(old), new)
    whole = now + before[len(now):]
    assert len(whole) % BLOCK == 0
    assert [it.payload for it in records_in(whole)] == new
    assert records_in(bytes(BLOCK) + before) == []


@given(PAYLOADS, st.integers(0, 1 << 20), st.binary(min_size=1, max_size=3))
def test_a_torn_record_is_none(payloads: List[bytes], at: int, other: bytes) -> None:
    octets = bytearray(written(5, payloads))
    at %= len(octets) - len(other)
    octets[at:at + len(other)] = bytes(a ^ b for a, b in zip(octets[at:], other))
    found = [it.payload for it in records_in(bytes(octets))]
    assert found == payloads[:len(found)]


def test_a_record_that_is_cut_at_each_byte(tmp_path: pathlib.Path, monkeypatch: pytest.MonkeyPatch
                                           ) -> None:
    """The power fails while a record is written over those of long ago: any of its first bytes are
    on the disk. It is whole or none, and those before it stand."""
    monkeypatch.setattr(journal, "SIZE", 4 * BLOCK)
    it = Journal(str(tmp_path), lambda names: None)
    it.begin()
    for _ in range(10):
        it.put([("old", b"x\n" * 100)])
    it.freeing.result()
    begin, file = it.halves[0].end, it.halves[0]
    before = file.read()
    it.put([("new", b"y\n" * 2500)])
    assert it.halves[0] is file
    now, whole = file.read(), len(Record(it.number, b"new 5000\n" + b"y\n" * 2500).write())
    own = [of.payload for of in records_in(before[:begin])]
    assert own and begin + whole == file.end
    size = len(now[begin:begin + whole].rstrip(b"\0"))
    for cut in range(size + 1):
        found = records_in(now[:begin + cut] + before[begin + cut:])
        assert [of.payload for of in found][:len(own)] == own
        assert len(found) == len(own) + (cut == size), cut
    it.end()


def test_both_halves_are_used_in_turn(tmp_path: pathlib.Path, monkeypatch: pytest.MonkeyPatch
                                      ) -> None:
    monkeypatch.setattr(journal, "SIZE", 4 * BLOCK)
    synced: List[Set[str]] = []
    it = Journal(str(tmp_path), lambda names: synced.append({*names}))
    it.begin()
    for number in range(20):
        it.put([(f"n{number}", b"x\n" * 100)])
    it.freeing.result()
    again = Journal(str(tmp_path), lambda names: None)
    names = [name for record in again.records for name, _ in record.parts]
    assert names == [f"n{number}" for number in range(20 - len(names), 20)] and len(names) >= 4
    assert set().union(*synced) | {*names} == {f"n{number}" for number in range(20)}
    it.end()
    assert Journal(str(tmp_path), lambda names: None).records == []


def written_to_disk() -> int:
    """How many bytes this process had the system write."""
    text = pathlib.Path("/proc/self/io").read_text()
    return int(dict(it.split(": ") for it in text.splitlines())["write_bytes"])


@pytest.mark.skipif(not os.path.exists("/proc/self/io"), reason="needs /proc")
def test_a_record_costs_no_more_than_its_blocks(tmp_path: pathlib.Path) -> None:
    for _ in range(2):  # of a new journal, and of one that was read
        it = Journal(str(tmp_path), lambda names: None)
        it.begin()
        before = written_to_disk()
        for number in range(50):
            it.put([("2024-06-21/HILL.log", b"x" * 100 + b"\n")])
        assert written_to_disk() - before <= 100 * BLOCK
        os.close(it.halves[0].file)
        os.close(it.halves[1].file)


class Disk:
    """What of each file is surely on the disk: what it had when it was synced last."""

    def __init__(self, folder: pathlib.Path, monkeypatch: pytest.MonkeyPatch) -> None:
        self.folder, self.synced = folder, {}  # type: pathlib.Path, Dict[pathlib.Path, bytes]
        self.on_sync: Callable[[], object] = lambda: None
        own = line_file.sync_data

        def sync(file: int) -> None:
            path = pathlib.Path(os.readlink(f"/proc/self/fd/{file}"))
            octets = path.read_bytes()
            own(file)
            if len(octets) >= len(self.synced.get(path, b"")):  # of two threads the later one
                self.synced[path] = octets
            self.on_sync()
        for module in line_file, journal:
            monkeypatch.setattr(module, "sync_data", sync)

    def fail(self, chance: random.Random) -> None:
        """The power fails: of what wasn't synced some blocks are there, and others aren't."""
        for path in self.folder.rglob("*"):
            if not path.is_file() or path.name == "lock":
                continue
            sure, now = self.synced.get(path, b""), path.read_bytes()
            if path not in self.synced and "journal" not in path.name and chance.random() < .3:
                path.unlink()  # its name isn't on the disk
                continue
            if path not in self.synced and "journal" in path.name:
                continue
            size = chance.randint(len(sure), len(now)) if len(now) >= len(sure) else len(sure)
            octets = bytearray(sure.ljust(size, b"\0")[:max(size, len(sure))])
            for at in range(0, size, 512):
                if chance.random() < .5:
                    octets[at:at + 512] = now[at:min(at + 512, size)]
            path.write_bytes(octets)


    def lay(self, folder: pathlib.Path, synced: Dict[pathlib.Path, bytes]) -> pathlib.Path:
        """A folder with nothing but what was synced."""
        for path, octets in synced.items():
            it = folder / path.relative_to(self.folder)
            it.parent.mkdir(parents=True, exist_ok=True)
            it.write_bytes(octets)
        return folder


def day_of(number: int) -> str:
    return f"2024-06-{21 + number % 2}"


@settings(max_examples=25)
@given(seed=st.integers(0, 1 << 30))
def test_what_was_acknowledged_outlives_power_failures(
        tmp_path_factory: pytest.TempPathFactory, seed: int) -> None:
    chance, folder = random.Random(seed), tmp_path_factory.mktemp("power")
    acknowledged: Dict[str, List[bytes]] = {}
    with pytest.MonkeyPatch.context() as patch:
        patch.setattr(journal, "SIZE", 8 * BLOCK)
        patch.setattr(store, "SIZE", 8 * BLOCK)
        patch.setattr(store, "LARGE", 3000)
        patch.setattr(store, "FREE", 0)
        disk = Disk(folder, patch)
        for _ in range(3):
            it = Store(str(folder), 1 << 20, lambda text: None, lambda path: None)
            check(folder, acknowledged)
            for _ in range(chance.randrange(12)):
                asyncio.run(add_some(it, chance, acknowledged))
            it.journal.freeing.result()
            os.close(it.lock)
            disk.fail(chance)
        Store(str(folder), 1 << 20, lambda text: None, lambda path: None).end()
        check(folder, acknowledged)
        assert {path.name for path in (folder / HIDDEN).iterdir()} == {
            "journal-0", "journal-1", "lock"}


def test_the_power_fails_behind_each_sync(tmp_path: pathlib.Path, monkeypatch: pytest.MonkeyPatch
                                          ) -> None:
    """Nothing is on the disk but what was synced by then: what was acknowledged before is there."""
    chance, acknowledged = random.Random(89), {}  # type: random.Random, Dict[str, List[bytes]]
    for module, name, size in ((journal, "SIZE", 8 * BLOCK), (store, "SIZE", 8 * BLOCK),
                               (store, "LARGE", 3000), (store, "FREE", 0)):
        monkeypatch.setattr(module, name, size)
    disk = Disk(tmp_path / "net", monkeypatch)
    failures: List[Tuple[Dict[str, List[bytes]], Dict[pathlib.Path, bytes]]] = []
    disk.on_sync = lambda: failures.append((
        {name: [*lines] for name, lines in acknowledged.items()}, {**disk.synced}))
    it = Store(str(disk.folder), 1 << 20, lambda text: None, lambda path: None)
    for _ in range(25):
        asyncio.run(add_some(it, chance, acknowledged))
    it.end()
    disk.on_sync = lambda: None
    assert len(failures) > 30
    for number, (before, synced) in enumerate(failures):
        folder = disk.lay(tmp_path / str(number), synced)
        Store(str(folder), 1 << 20, lambda text: None, lambda path: None).end()
        check(folder, before)
    check(folder, acknowledged)


async def add_some(it: Store, chance: random.Random, acknowledged: Dict[str, List[bytes]]) -> None:
    names = [f"{day_of(chance.randrange(2))}/RX{chance.randrange(3)}.log" for _ in range(3)]
    lines = [[b"2024-06-21T18:00:00.000Z RX %016x%s" % (
        chance.getrandbits(60), b"78" * chance.choice([1, 30, 2000]))
        for _ in range(chance.randrange(4))] for _ in names]
    it.judging.rest = it.writing.rest = 0
    await asyncio.gather(*(it.add(it.file(name), Batch(its)) for name, its in zip(names, lines)))
    for name, its in zip(names, lines):
        acknowledged.setdefault(name, []).extend(its)


def check(folder: pathlib.Path, acknowledged: Dict[str, List[bytes]]) -> None:
    """All that was acknowledged is there, once, and nothing but lines."""
    for name, lines in acknowledged.items():
        there = (folder / name).read_bytes().split(b"\n") if lines else []
        assert set(lines) <= set(there), name
        assert len(there) == len(set(there)) and not any(b"\0" in it for it in there)
