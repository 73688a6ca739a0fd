"""A book of logs and books of any size, in bounded memory: pieces of the logs become books side by
side, and books are folded, at most so many at once. Where the jobs are done, an engine knows."""
import dataclasses
import os
import shutil
from typing import IO, Callable, Dict, Iterable, List, Sequence, Set, Tuple

from aprsbook_tools.books import chunks, jobs
from aprsbook_tools.books.chunks import MEGABYTE
from aprsbook_tools.books.executors import Engine
from aprsbook_tools.books.inputs import Input, named, no_option
from aprsbook_tools.books.jobs import Fold, Job, Merge, Unpack
from aprsbook_tools.errors import Fault
from aprsbook_tools.formats import book_file
from aprsbook_tools.reports import table

MOST = 64  # books of one fold
SMALLER = 8  # so many times a compressed log is smaller, about


@dataclasses.dataclass
class Plan:
    """The gap; the folder in which files are made; how many bytes of logs are merged at once, and
    how many books folded."""
    gap: int
    folder: str
    piece: int = 64 * MEGABYTE
    most: int = MOST
    stem: str = ""  # with which the names of files begin
    made: Set[str] = dataclasses.field(default_factory=set)  # files that may go

    def path(self, name: str) -> str:
        result = os.path.join(self.folder, self.stem + name)
        self.made.add(result)
        return result


def is_book(it: Input) -> bool:
    """Whether an input that can be read is a book, by what it begins with or else by its name."""
    return it.is_book if it.packing else chunks.begins(it.path, book_file.BEGIN)


def piece_of(items: Iterable[Input], plan: Plan, width: int) -> int:
    """How many bytes of logs are merged at once, so that no processor stands idle."""
    total = sum(it.size * (SMALLER if it.packing else 1) for it in items)
    return max(chunks.LEAST, min(plan.piece, total // (2 * width)))


def bundles(items: Sequence[Input], size: int) -> List[List[Input]]:
    """Compressed logs, of which at most so many bytes may come to lie on the disk at once."""
    result: List[List[Input]] = []
    held = 0
    for it in items:
        held += it.size * SMALLER
        if not result or held > size or len(result[-1]) == MOST:
            result.append([])
            held = it.size * SMALLER
        result[-1].append(it)
    return result


def books_of(engine: Engine, plan: Plan, items: Sequence[Input]) -> Tuple[List[str], List[str]]:
    """The books that are made of inputs, and the inputs that are books as they are."""
    given = [it.path for it in items if not it.packing and is_book(it)]
    known = set(given)
    rest = [it for it in items if it.path not in known]
    # what is kept is the same however many processors there are
    size = plan.piece if engine.kept else piece_of(rest, plan, engine.width)
    todo = jobs_of(rest, plan, size)
    engine.do("pieces", todo)
    return [it.path for it in todo], given


def books_of_each(engine: Engine, plan: Plan, items: Sequence[Input],
                  pass_over: Callable[[str, str], None]) -> List[str]:
    """Books of each input alone. An input that can't be one is passed over, with the reason."""
    todo: List[Job] = []
    names: Dict[str, str] = {}
    for number, it in enumerate(items):
        of_one = dataclasses.replace(plan, stem=f"{plan.stem}input-{number:06}-")
        try:
            own = jobs_of_one(it, of_one)
        except Fault as fault:  # it is gone since
            pass_over(it.path, fault.words.replace(f"{it.path}: ", ""))
            continue
        names.update({job.path: it.path for job in own})
        todo += own
    bad: Set[str] = set()

    def passed(job: Job, fault: Fault) -> None:
        name = names[job.path]
        if name not in bad:
            pass_over(name, fault.words.replace(f"{name}: ", ""))
        bad.add(name)

    engine.do("inputs", todo, passed)
    books: Dict[str, List[str]] = {}
    for path, name in names.items():
        books.setdefault(name, []).append(path)
    return [path for name, own_ in books.items() if name not in bad for path in own_]


def jobs_of_one(it: Input, plan: Plan) -> List[Job]:
    """The jobs that make books of one input; that of a book is its check."""
    if not it.packing and is_book(it):
        return [Fold(plan.path("as-it-is.book"), plan.gap, [it.path])]
    return jobs_of([it], plan, plan.piece)


def jobs_of(items: Sequence[Input], plan: Plan, size: int) -> List[Job]:
    """The jobs that make books of logs and of compressed logs and books."""
    plain = [it.path for it in items if not it.packing]
    packed = [it for it in items if it.packing]
    todo: List[Job] = []
    # logs without a line are a book without a row
    for number, piece in enumerate(chunks.of(plain, size) or [[]] * bool(plain)):
        todo.append(Merge(plan.path(f"piece-{number:06}.book"), plan.gap, piece))
    logs = [it for it in packed if not is_book(it)]
    for number, bundle in enumerate(bundles(logs, size)):
        todo.append(Unpack(plan.path(f"unpacked-{number:06}.book"), plan.gap,
                           [it.path for it in bundle], size))
    for number, it in enumerate(book for book in packed if is_book(book)):
        todo.append(Fold(plan.path(f"book-{number:06}.book"), plan.gap, [it.path]))
    return todo


# ---- folds ----

def groups(books: Sequence[str], most: int) -> List[List[str]]:
    """Books in as few groups as may be, of like numbers."""
    count, total = -(-len(books) // most), len(books)
    return [list(books[total * n // count:total * (n + 1) // count]) for n in range(count)]


def narrow(engine: Engine, plan: Plan, made: List[str], given: List[str]) -> List[str]:
    """At most so many books as one fold takes, of which the fold is that of all. Books that were
    given, which may be large, are left for the last fold where they can be."""
    level = 0
    while len(made) + len(given) > plan.most:
        if len(made) < 2 or len(given) >= plan.most:
            made, given = made + given, []
        level += 1
        made = level_of(engine, plan, [made], [("", "")], f"level{level}")[0]
    return made + given


def level_of(engine: Engine, plan: Plan, lists: Sequence[Sequence[str]],
             bounds: Sequence[Tuple[str, str]], stem: str) -> List[List[str]]:
    """Of each list of books a shorter one, with the rows between its bounds alone."""
    todo: List[Job] = []
    result: List[List[str]] = []
    for number, (books, (since, until)) in enumerate(zip(lists, bounds)):
        result.append([])
        for at, group in enumerate(groups(books, plan.most)):
            if len(group) == 1 and not since and not until:
                result[-1] += group
                continue
            path = plan.path(f"{stem}-{number:04}-{at:06}.book")
            result[-1].append(path)
            todo.append(Fold(path, plan.gap, [no_option(it) for it in group], since, until))
    engine.do("folds", todo)
    if not engine.kept:
        for path in plan.made.intersection(it for books in lists for it in books):
            if not any(path in books for books in result):
                os.unlink(path)
                plan.made.discard(path)
    return result


def write_book(plan: Plan, books: Sequence[str], into: IO[bytes]) -> None:
    """Writes the book of books; what was made here alone is it already."""
    if len(books) == 1 and books[0] in plan.made:
        with open(books[0], "rb") as file:
            shutil.copyfileobj(file, into, MEGABYTE)
    else:
        jobs.fold(plan.gap, books, into)


# ---- parts, by sources ----

def bounds_of(plan: Plan, books: Sequence[str], parts: int) -> List[Tuple[str, str]]:
    """Bounds of parts that have about as many transmissions each, of a sample: stations, which are
    in the order of the book, of some books, which together are read in the memory of a piece."""
    small = [it for it in books if os.path.getsize(it) <= 2 * plan.piece]
    if not small:
        raise Fault("books are too large to look at: make parts of their logs")
    step = max(1, sum(map(os.path.getsize, small)) // plan.piece)
    sample = small[::step]
    with named(sample) as names:
        stations = table.of(
            table.Station, names, plan.gap, names=("source", "transmissions"))
        counts = [(it.source, it.transmissions or 0) for it in stations]
    total, before = sum(count for _, count in counts), 0
    sources: List[str] = []
    for source, count in counts:
        # a part ends before or after the station in which its end lies, whichever is nearer
        end = total * (len(sources) + 1) / parts
        if before and len(sources) < parts - 1 and before + count / 2 >= end:
            sources.append(source)
        before += count
    return list(zip(["", *sources], [*sources, ""]))


def parts_of(engine: Engine, plan: Plan, books: List[str], parts: int) -> List[str]:
    """Books of the rows of some sources each, in the order of the sources."""
    bounds = bounds_of(plan, books, parts)
    lists: List[List[str]] = [books for _ in bounds]
    level = 0
    while level == 0 or any(len(it) > 1 for it in lists):
        level += 1
        # what is kept of other parts has other names
        lists = level_of(engine, plan, lists, bounds, f"parts{parts}-level{level}")
        bounds = [("", "")] * len(bounds)
    return [it for [it] in lists]
