"""What is done of a book at once, by whichever process: a job makes one file of others. A file that
is kept is there whole, with its checksum beside it, or not at all: so a job that was cut is done
again, and one that is done twice does no harm."""
import contextlib
import dataclasses
import hashlib
import json
import os
import socket
import sys
import tempfile
import zlib
from typing import IO, Any, Dict, Iterator, List, Sequence, Tuple, Type, Union

from aprsbook_tools import VERSION
from aprsbook_tools.books import chunks, inputs
from aprsbook_tools.books.inputs import look_at
from aprsbook_tools.errors import ExitStatus, Fault, said
from aprsbook_tools.system import atomic, disk, programs

SUM, JOB = ".sum", ".job"  # endings of names beside a file: its checksum, and how it is made


def size_of(paths: Sequence[str]) -> int:
    """The bytes of files; of those that are there."""
    return sum(os.path.getsize(it) for it in paths if os.path.exists(it))


@dataclasses.dataclass(frozen=True)
class Merge:
    """The book of the lines of ranges of logs."""
    path: str
    gap: int
    ranges: Sequence[chunks.Range]

    @property
    def size(self) -> int:
        return sum(it.end - it.start for it in self.ranges)

    def write(self, into: IO[bytes]) -> None:
        chunks.merge(self.gap, self.ranges, into)


@dataclasses.dataclass(frozen=True)
class Fold:
    """The book of books, or of their rows from a source up to another, without that; an empty text
    is no bound. Compressed books are unpacked beside the file that is made."""
    path: str
    gap: int
    books: Sequence[str]
    since: str = ""
    until: str = ""

    @property
    def size(self) -> int:
        return size_of(self.books)

    def write(self, into: IO[bytes]) -> None:
        try:
            with unpacked(self.books, self.path) as books:
                fold(self.gap, books, into, self.since, self.until)
        except Fault as fault:
            raise self.of_given(fault) from fault

    def of_given(self, fault: Fault) -> Fault:
        """A fault of a book that was given, and wasn't made beside this one, is its own."""
        for it in self.books:
            is_given = os.path.dirname(it) != os.path.dirname(self.path)
            if not fault.words.startswith((f"{it}: line ", f"{it}: other gap")):
                continue
            if is_given:
                return chunks.FaultyLog(fault.words, fault.status, fault.by)
            with contextlib.suppress(OSError):  # so that it isn't kept
                os.unlink(it + SUM)
            words = f"{fault.words}: it was made here, and the next run makes it anew"
            return Fault(words, ExitStatus.OUTPUT, fault.by)
        return fault


@dataclasses.dataclass(frozen=True)
class Unpack:
    """The book of compressed logs. They are unpacked beside the file that is made, and cut into
    pieces of about so many bytes."""
    path: str
    gap: int
    logs: Sequence[str]
    piece: int

    @property
    def size(self) -> int:
        return size_of(self.logs)

    def write(self, into: IO[bytes]) -> None:
        with unpacked(self.logs, self.path) as logs, folder_beside(self.path) as folder:
            books: List[str] = []
            found = chunks.of(logs, self.piece)
            for number, piece in enumerate(found[1:]):
                books.append(os.path.join(folder, f"{number:06}.book"))
                do(Merge(books[-1], self.gap, piece), kept=False)
            if not books:
                chunks.merge(self.gap, found[0] if found else [], into)
                return
            books.append(os.path.join(folder, "last.book"))
            do(Merge(books[-1], self.gap, found[0]), kept=False)
            fold(self.gap, books, into)


Job = Union[Merge, Fold, Unpack]
KINDS: Dict[str, Type[Any]] = {it.__name__: it for it in (Merge, Fold, Unpack)}


def version() -> str:
    """What makes files, so that all that share files are alike."""
    return f"aprs-net {VERSION}, {programs.run('aprsbook', '--version').decode().strip()}"


def text_of(job: Job, by: str) -> str:
    """A job as a text, for those of a version."""
    return json.dumps({"by": by, "kind": type(job).__name__, **dataclasses.asdict(job)}) + "\n"


def read(path: str) -> Job:
    """The job of a file of such a text. That of another version is refused."""
    try:
        with open(path, encoding="ascii") as file:
            fields = json.load(file)
        by, kind = fields.pop("by"), KINDS[fields.pop("kind")]
        if kind is Merge:
            fields["ranges"] = [chunks.Range(*it) for it in fields["ranges"]]
        result: Job = kind(**fields)
    except OSError as fault:
        raise Fault(said(fault), ExitStatus.OUTPUT) from fault
    except (ValueError, KeyError, TypeError) as fault:
        raise Fault(f"{path} is no job: {fault}", ExitStatus.OUTPUT) from fault
    if by != version():
        raise Fault(f"the job is for {by}, and here is {version()}", ExitStatus.OUTPUT)
    return result


# ---- files ----

@contextlib.contextmanager
def folder_beside(path: str) -> Iterator[str]:
    """A folder that goes away, beside a file."""
    with tempfile.TemporaryDirectory(disk.WORK, f".{os.path.basename(path)}.",
                                     os.path.dirname(path)) as folder:
        yield folder


@contextlib.contextmanager
def unpacked(paths: Sequence[str], beside: str) -> Iterator[List[str]]:
    """The files that programs read for these, of which some may be compressed. A fault names the
    compressed one."""
    items = [look_at(it) for it in paths]
    if not any(it.packing for it in items):
        yield [inputs.no_option(it) for it in paths]
        return
    with folder_beside(beside) as folder:
        files = list(inputs.plain(items, folder))
        try:
            yield files
        except Fault as fault:
            for it, file in zip(items, files):
                fault.words = fault.words.replace(file, it.path)
            raise


def sum_of(path: str, most: int = sys.maxsize) -> Tuple[int, int]:
    """The size and the checksum of a file, or of its first bytes: against accidents, since one
    against people costs as much as a merge."""
    size, made = 0, 0
    with open(path, "rb", buffering=0) as file:
        while size < most:
            block = file.read(min(1 << 20, most - size))
            if not block:
                break
            size, made = size + len(block), zlib.crc32(block, made)
    return size, made


def is_whole(job: Job) -> bool:
    """Whether the file of a job, and of no other, is there as it was made."""
    try:
        with open(job.path + SUM, encoding="ascii") as file:
            size, made, name = json.load(file)
        return bool(name == name_of(job) and os.path.getsize(job.path) == size
                    and sum_of(job.path) == (size, made))
    except (OSError, ValueError, TypeError):
        return False


def name_of(job: Job) -> str:
    """A name for a job, which no other has."""
    return hashlib.sha256(text_of(job, "").encode("ascii")).hexdigest()


def do(job: Job, kept: bool) -> None:
    """Makes the file of a job; nothing where it is kept, and there whole."""
    if not kept:
        try:
            with open(job.path, "wb") as file:
                job.write(file)
        except OSError as fault:
            raise Fault(f"{job.path}: {fault.strerror or fault}", ExitStatus.OUTPUT) from fault
    elif not is_whole(job):
        with atomic.writing(job.path, is_named=False) as new:
            job.write(new.file)
            new.file.flush()
            check_made(new.path, job)
        text = json.dumps([*sum_of(job.path), name_of(job)]) + "\n"
        atomic.write(job.path + SUM, text.encode("ascii"), is_named=False)


def check_made(made: str, job: Job) -> None:
    """Refuses to keep what is no whole book, as of a program, a memory or a disk that is broken."""
    if not programs.is_there("aprsbook-fold"):
        return
    try:
        with inputs.named([made]) as names:
            programs.run("aprsbook-fold", "--gap", str(job.gap), "--check", *names)
    except Fault as fault:
        where = socket.gethostname()
        raise Fault(f"{job.path}: what {where} made of it is no whole book: {fault.words}",
                    ExitStatus.OUTPUT) from fault


# ---- folds ----

def fold(gap: int, books: Sequence[str], into: IO[bytes], since: str = "", until: str = "") -> None:
    """The book of books: by aprsbook-fold, which holds a row of each, or else by aprsbook."""
    bounds = [*(["--from", since] if since else []), *(["--until", until] if until else [])]
    with inputs.named(books) as names:
        if bounds or programs.is_there("aprsbook-fold"):  # which alone knows bounds
            programs.write_book(into, "aprsbook-fold", "--gap", str(gap), *bounds, *names)
        else:
            programs.write_book(into, "aprsbook", "merge", "--gap", str(gap), "--", *names)
