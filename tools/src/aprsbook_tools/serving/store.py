"""What is kept: the sets of lines below a folder. What is acknowledged is on the disk."""
import asyncio
import contextlib
import errno
import os
import re
import sys
from concurrent.futures import ThreadPoolExecutor
from typing import Callable, Dict, Iterator, List, Sequence, Set, Tuple, Union

from aprsbook_tools.errors import ExitStatus, Fault, said
from aprsbook_tools.formats import log_file
from aprsbook_tools.serving import entries, judging
from aprsbook_tools.serving.journal import SIZE, Journal, Part, size_of
from aprsbook_tools.serving.judging import Judged
from aprsbook_tools.serving.line_file import Addition, Batch, LineFile, Taken, close_holes
from aprsbook_tools.serving.rounds import Rounds
from aprsbook_tools.serving.states import State

try:
    import fcntl
except ImportError:  # not on Windows
    fcntl = None  # type: ignore[assignment]

HIDDEN = ".aprs-net-serve"  # the folder of the journal, which no other command looks into
NAME = re.compile(rf"(?:\d{{4}}-\d\d-\d\d/{log_file.RECEIVER}\.log|"
                  rf"{entries.FOLDER}/{log_file.RECEIVER}\{entries.SUFFIX})", re.ASCII)
ROUND = 0.05  # seconds from one round to the next
LARGE = 1 << 17  # bytes: what a file gets more of at once is synced in the file itself
KEPT = 60  # seconds: so long the hashes of a set are kept
DAYS = 400  # logs of a receiver
FREE = 32 << 20  # bytes of the disk that are left to others

Item = Tuple[LineFile, Batch]


class Store:
    """Adds lines to sets, those that come at about the same time by one sync."""

    def __init__(self, folder: str, most: int, say: log_file.Say,
                 on_growth: Callable[[str], object]) -> None:
        self.folder, self.most, self.say, self.on_growth = folder, most, say, on_growth
        self.files: Dict[str, LineFile] = {}
        self.lock = hold(os.path.join(folder, HIDDEN))
        self.journal = Journal(os.path.join(folder, HIDDEN), self.sync)
        self.recover()
        self.pool = ThreadPoolExecutor(4, "files")
        self.writer = ThreadPoolExecutor(1, "writer")
        self.judging: Rounds[Sequence[bytes], Judged] = Rounds(judging.judge_all, self.pool, ROUND)
        self.writing: Rounds[Item, Taken] = Rounds(self.write, self.writer, 0)

    def recover(self) -> None:
        """Adds what a power failure has kept from files that the journal has."""
        records = self.journal.records
        lines: Dict[str, List[bytes]] = {}
        for record in records:
            for name, octets in record.parts:
                if NAME.fullmatch(name):
                    lines.setdefault(name, []).extend(octets.split(b"\n")[:-1])
        for name, them in lines.items():
            file = self.file(name)
            close_holes(file.path, 2 * SIZE, self.say)
            file.most = sys.maxsize
            with file.adding([Batch(them)], self.say) as addition:
                addition.write()
            file.most = self.most
            added = addition.taken[0].added
            if added:
                self.say(f"{file.path}: lines that the journal gave back: {added}")
            file.forget()
        self.journal.begin()

    def file(self, name: str) -> LineFile:
        """The set of a name, such as 2024-06-21/HILL.log, whose form has been checked."""
        found = self.files.get(name)
        if found is None:
            path = os.path.join(self.folder, *name.split("/"))
            found = self.files[name] = LineFile(path, self.most)
        return found

    def log(self, name: str, day: str) -> LineFile:
        """The log of a receiver and a day, both of which have been checked."""
        return self.file(f"{day}/{name}.log")

    def desk(self, name: str) -> LineFile:
        return self.file(f"{entries.FOLDER}/{name}{entries.SUFFIX}")

    async def state(self, of: LineFile) -> State:
        """The state of a set."""
        return await asyncio.get_running_loop().run_in_executor(self.pool, of.look)

    async def judge(self, lines: Sequence[bytes]) -> Judged:
        """What `aprsbook check` says of lines."""
        return await self.judging.put(lines)

    async def add(self, to: LineFile, batch: Batch) -> Taken:
        """Adds a batch, which is on the disk when this returns."""
        loop = asyncio.get_running_loop()
        # what takes long is read before it is a round's turn
        await loop.run_in_executor(self.pool, to.look, batch.after is None)
        taken = await self.writing.put((to, batch))
        if taken.added:
            self.on_growth(to.path)
        if to.hashes is not None:
            loop.call_later(KEPT, to.forget)
        return taken

    def write(self, items: List[Item]) -> Sequence[Union[Taken, Exception]]:
        """One round: all that came meanwhile, of each file together, by one sync."""
        batches: Dict[LineFile, List[Batch]] = {}
        for file, batch in items:
            batches.setdefault(file, []).append(batch)
        answers: Dict[LineFile, Iterator[Union[Taken, Exception]]] = {}
        with contextlib.ExitStack() as stack:
            begun: List[Tuple[LineFile, Addition]] = []
            for file, its in batches.items():
                try:
                    begun.append((file, stack.enter_context(file.adding(its, self.say))))
                except OSError as fault:
                    answers[file] = iter([fault] * len(its))
            self.check_room(sum(len(it.octets) for _, it in begun))
            self.keep(begun)
            for file, addition in begun:
                try:
                    addition.write()
                    answers[file] = iter(addition.taken)
                except OSError as fault:
                    answers[file] = iter([fault] * len(addition.taken))
        return [next(answers[file]) for file, _ in items]

    def keep(self, begun: List[Tuple[LineFile, Addition]]) -> None:
        """Has what is added on the disk: in the journal, or where it is large in the file."""
        parts: List[Part] = []
        for file, addition in begun:
            octets = addition.octets
            if len(octets) > LARGE:
                addition.write()
                file.sync()
            elif octets:
                parts.append((self.name_of(file), octets))
        while parts:
            some, total = [], 0
            while parts and total + size_of(len(parts[0][1])) + 300 <= SIZE // 2:
                total += len(parts[0][1]) + 300
                some.append(parts.pop(0))
            self.journal.put(some)

    def name_of(self, file: LineFile) -> str:
        return os.path.relpath(file.path, self.folder).replace(os.sep, "/")

    def check_room(self, size: int) -> None:
        """Leaves room on the disk to others, as to the loggers of this machine."""
        if size and hasattr(os, "statvfs"):
            it = os.statvfs(self.folder)
            if it.f_bavail * it.f_frsize < size + FREE:
                raise OSError(errno.ENOSPC, os.strerror(errno.ENOSPC), self.folder)

    def sync(self, names: Set[str]) -> None:
        """Waits until files are on the disk."""
        for name in sorted(names):
            if NAME.fullmatch(name):
                try:
                    self.file(name).sync()
                except OSError as fault:
                    self.say(said(fault))

    def days_of(self, name: str) -> List[str]:
        """The days of which there is a log of a receiver, the last ones first."""
        try:
            days = sorted((it for it in os.listdir(self.folder) if judging.is_day(it)),
                          reverse=True)
        except FileNotFoundError:
            return []
        return [it for it in days if os.path.isfile(self.log(name, it).path)][:DAYS]

    def end(self) -> None:
        """All is on the disk, and the journal is empty."""
        self.writer.shutdown()
        self.pool.shutdown()
        self.journal.end()
        os.close(self.lock)


def hold(folder: str) -> int:
    """Holds a folder for one server: two would write one journal."""
    os.makedirs(folder, exist_ok=True)
    file = os.open(os.path.join(folder, "lock"), os.O_RDWR | os.O_CREAT, 0o600)
    try:
        if fcntl is not None:
            fcntl.flock(file, fcntl.LOCK_EX | fcntl.LOCK_NB)
    except OSError as fault:
        os.close(file)
        raise Fault(f"{os.path.dirname(folder)}: another `aprs-net serve` serves these logs",
                    ExitStatus.OUTPUT) from fault
    return file
