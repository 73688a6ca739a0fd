"""Makes books of logs and books, only where something has changed.

A book only grows: what it has stays, also where a log is gone, unless it is made anew.
"""
import concurrent.futures
import contextlib
import dataclasses
import hashlib
import itertools
import json
import os
import re
import shlex
import shutil
import tempfile
from typing import Any, Callable, Dict, Iterator, List, Optional, Sequence

from aprsbook_tools import progress
from aprsbook_tools.books import bases, building, executors, inputs, jobs, mending, one_name
from aprsbook_tools.books.building import MOST, Plan
from aprsbook_tools.books.chunks import MEGABYTE
from aprsbook_tools.books.executors import Engine
from aprsbook_tools.books.inputs import Input
from aprsbook_tools.errors import ExitStatus, Fault
from aprsbook_tools.formats import book_file, limits
from aprsbook_tools.system import atomic, disk, packing, programs

READ = limits.MOST_INPUT  # no more of an input is read by programs that hold a book in memory
Say = Callable[[str], None]
PassOver = Callable[[str, str], None]  # is told of an input, and why it is passed over


@dataclasses.dataclass
class Wish:
    """What is asked for: the gap, or None for that of the book; where jobs are done; whether books
    are made anew, and whether faulty inputs are passed over. How many bytes of logs are merged at
    once, and how many books folded; the folder in which a run that was cut goes on, or nothing; and
    whether it is noted of what a book was made."""
    gap: Optional[int] = None
    engine: Engine = dataclasses.field(default_factory=lambda: executors.Here(1))
    anew: bool = False
    pass_over: bool = False
    piece: int = 64 * MEGABYTE
    most: int = MOST
    work: str = ""
    noted: bool = True
    named: Sequence[str] = ()  # what was typed: a book of these isn't left out
    once: Sequence[str] = ()  # files that go away: of pipes, which are read once
    left: List[str] = dataclasses.field(default_factory=list)  # what was left out, all or a part

    @property
    def may_leave_out(self) -> bool:
        """Whether a book is made where an input is faulty: on this machine alone."""
        return isinstance(self.engine, executors.Here)


@contextlib.contextmanager
def work_folder(path: str, wish: Wish, gap: int, items: Sequence[Input]) -> Iterator[str]:
    """A folder that goes away, beside a book, since pieces are as large as the book; or a folder
    that stays, in the one that is asked for, with a name for these inputs and wishes."""
    if wish.work:
        alike = [jobs.version(), gap, wish.piece, wish.most, [
            (os.path.abspath(it.path), it.size, it.changed) for it in items]]
        name = hashlib.sha256(json.dumps(alike).encode()).hexdigest()[:16]
        folder = os.path.join(os.path.abspath(wish.work), name)
        try:
            os.makedirs(folder, exist_ok=True)
        except OSError as fault:
            raise Fault(f"{wish.work}: {fault.strerror}", ExitStatus.OUTPUT) from fault
        atomic.remove_leftovers(folder)
        yield folder
        return
    with contextlib.ExitStack() as stack:
        try:
            folder = stack.enter_context(atomic.work_folder(os.path.realpath(path)))
        except OSError as fault:
            raise Fault(f"{path}: {fault.strerror}", ExitStatus.OUTPUT) from fault
        yield folder


def is_of_work(path: str, work: str) -> bool:
    """Whether a file lies in a folder of `work_folder` that stays."""
    begin = os.path.join(os.path.realpath(work), "")
    real = os.path.realpath(path)
    return bool(work and real.startswith(begin)
                and re.match(r"[0-9a-f]{16}/", real[len(begin):].replace(os.sep, "/")))


# ---- of what a book was made ----

def stamp_of(path: str) -> List[int]:
    status = os.stat(path)
    return [status.st_size, status.st_mtime_ns]


def made_of(gap: int, items: Sequence[Input]) -> Dict[str, Any]:
    """What a book is made of, as it is remembered beside it."""
    return {"gap": gap, "inputs": {it.path: [it.size, it.changed] for it in items}}


def sum_of(path: str, size: int) -> int:
    """The checksum of a file's first bytes."""
    return jobs.sum_of(path, size)[1]


def is_stamp(it: Any) -> bool:
    """Whether something is the size and the time of a file."""
    return isinstance(it, list) and len(it) == 2 and all(type(part) is int for part in it)


def remembered(path: str) -> Dict[str, Any]:
    """Of what a book was made when it was made last; nothing where it has changed since, or where
    what is there isn't what `remember` writes."""
    try:
        found = json.loads(atomic.read_hidden(path, "of"))
        if not isinstance(found, dict) or found.pop("book", None) != stamp_of(path):
            return {}
    except (OSError, ValueError, RecursionError):
        return {}
    stamps, sums, has = found.get("inputs"), found.get("sums"), found.get("has", [])
    if not isinstance(stamps, dict) or not isinstance(sums, dict) or not isinstance(has, list):
        return {}
    is_sound = all(map(is_stamp, stamps.values())) and all(type(it) is int for it in sums.values())
    return found if is_sound and all(isinstance(it, str) for it in has) else {}


def remember(path: str, made: Dict[str, Any], before: Dict[str, Any], say: Say) -> None:
    """Writes down of what a book was made, with the checksums of the inputs. `made` may have the
    labels of books that it has taken, to which others may be news."""
    sums, old = {}, before.get("inputs", {})
    for name, stamp in made["inputs"].items():
        known = before.get("sums", {}).get(name) if old.get(name) == stamp else None
        with contextlib.suppress(OSError):  # gone since, as a log that is compressed each night
            sums[name] = known or sum_of(name, stamp[0])
    text = json.dumps({**made, "sums": sums, "book": stamp_of(path)}, sort_keys=True) + "\n"
    try:
        atomic.write_hidden(path, "of", text.encode("utf-8", "surrogateescape"))
    except Fault as fault:  # the book is made: it will be made again
        say(fault.words)


def say_what_is_gone(path: str, before: Dict[str, Any], items: Sequence[Input], say: Say) -> None:
    """Names inputs that had something else when the book was made last: that stays in it."""
    now = {it.path: it for it in items}
    for name, (size, changed) in sorted(before.get("inputs", {}).items()):
        if name not in now:
            is_packed = any(name + ending in now for ending in packing.OPENERS)
            # one that is there, and isn't named this time, is nothing to tell of
            if not is_packed and not os.path.lexists(name):
                say(f"{name} is gone: what {path} has of it stays")
        elif now[name].size < size:
            say(f"{name} has become shorter: what {path} has of it stays")
        elif (now[name].size, now[name].changed) != (size, changed) and not now[name].is_book \
                and is_changed(name, size, before.get("sums", {}).get(name)):
            say(f"{name} was changed, not only added to: what {path} has of it stays, until it is "
                "made --anew")


def say_what_lacks_its_base(path: str, has: Sequence[str], items: Sequence[Input], say: Say
                            ) -> List[str]:
    """Names inputs that are news to a book that isn't there. The result are the labels of books
    that are: those that were before, and those of the inputs."""
    known = set(has)
    own = [inputs.look_at(path)] if os.path.isfile(path) else []
    for name in bases.without_base([*items, *own], known):
        say(f"{name} is news to a book that is neither {path} nor an input: rows may be missing, "
            "until what was sent before it comes")
    return sorted(known)


def is_changed(path: str, size: int, known: Optional[int]) -> bool:
    """Whether a file's first bytes have another checksum; not where it is gone since."""
    try:
        return sum_of(path, size) != known
    except OSError:
        return False


# ---- a book ----

def old_book(path: str, wish: Wish) -> Optional[int]:
    """The gap of the book that is there, or None where none is, or where it is made anew."""
    if not os.path.lexists(path):
        return None
    gap = inputs.gap_of(path) if os.path.isfile(path) else None
    if gap is None and os.path.isfile(path) and not os.path.getsize(path):
        raise Fault(f"{path} is empty, which no book is: put back a copy, or take it away")
    if gap is None and os.path.lexists(os.path.realpath(path)):
        raise Fault(f"{path} is no book, and isn't replaced")
    return None if wish.anew else gap


def usable(items: Sequence[Input], pass_over: Optional[PassOver] = None) -> List[Input]:
    """The inputs that can be read; others are passed over, where that is asked for."""
    result = []
    for it in items:
        if not it.fault:
            result.append(it)
        elif pass_over:
            pass_over(it.path, it.fault)
        else:
            raise Fault(f"{it.path}: {it.fault}")
    return result


def again(items: Sequence[Input]) -> List[Input]:
    """Inputs as they are now; one that is gone, as it was."""
    return [inputs.look_at(it.path) if os.path.exists(it.path) else it for it in items]


def make(path: str, items: Sequence[Input], wish: Wish, say: Say) -> bool:
    """A book becomes that of itself and of inputs; whether it changed."""
    atomic.check(path)
    with atomic.locked(path) as has_waited:
        # what another run has read meanwhile has grown
        return make_locked(path, again(items) if has_waited else items, wish, say)


def passer(wish: Wish, say: Say, passed: List[str]) -> PassOver:
    """What is told of an input that is left out, all or a part, and why: it says and notes that. A
    Fault where it may not be left out."""
    def pass_over(name: str, why: str) -> None:
        say(f"{name} is passed over: {why}")
        passed.append(name)

    def leave_out(name: str, why: str) -> None:
        is_book = inputs.look_at(name).is_book
        if is_book and (wish.anew or name in wish.named) or not wish.may_leave_out:
            raise Fault(f"{name}: {why.removesuffix(': left out')}")
        say(f"{name}: {why}")
        passed.append(name)
    return pass_over if wish.pass_over else leave_out


def make_locked(path: str, items: Sequence[Input], wish: Wish, say: Say) -> bool:
    old = old_book(path, wish)
    gap = wish.gap or old or book_file.GAP
    if old is not None and gap < old:
        raise Fault(f"{path} has the gap {old}, and can't get the narrower one {gap}: "
                    "make it of the logs, with --anew")
    items = [it for it in items
             if not atomic.is_same(it.path, path) and not is_of_work(it.path, wish.work)]
    made = made_of(gap, items)
    before = remembered(path) if wish.noted else {}
    if wish.noted and not wish.anew and made == {key: before.get(key) for key in made}:
        return False
    passed: List[str] = []
    pass_over = passer(wish, say, passed)
    items = usable(items, pass_over)
    if wish.noted and not wish.anew:
        say_what_is_gone(path, before, items, say)
    one_name.say_where_two_are(items, say)
    has = say_what_lacks_its_base(path, [] if wish.anew else before.get("has", []), items, say)
    with work_folder(path, wish, gap, items) as folder:
        plan = Plan(gap, folder, wish.piece, wish.most)
        books = books_of(plan, items, wish, pass_over)
        with widened(path, old, gap, folder) as own:
            books += own
            is_known = wish.pass_over or passed  # each was looked at
            is_new = bool(books) and write(path, plan, books, None if is_known else (
                lambda: of_each(plan, items, wish, pass_over) + own))
    wish.left += [] if wish.pass_over else passed
    if books:
        if wish.noted and not passed:
            remember(path, {**made, "has": has}, before, say)
        say_what_is_large(path, say)
    return is_new


def write(path: str, plan: Plan, books: Sequence[str],
          again: Optional[Callable[[], List[str]]]) -> bool:
    """Writes the book of books, or, where one that was given is faulty, of those that are made
    again; whether the file became another."""
    with atomic.writing(path) as new:
        try:
            building.write_book(plan, books, new.file)
        except Fault as fault:
            if fault.status != ExitStatus.INPUT or again is None:
                raise
            new.file.seek(0)
            new.file.truncate()
            building.write_book(plan, again(), new.file)
    return new.changed


def books_of(plan: Plan, items: Sequence[Input], wish: Wish, pass_over: PassOver) -> List[str]:
    """Books of inputs, at most so many as are folded at once. Where one is faulty, they are made of
    each alone, and what is faulty is passed over, or what is whole of it taken."""
    engine = wish.engine
    if not wish.pass_over:
        try:
            return building.narrow(engine, plan, *building.books_of(engine, plan, items))
        except Fault as fault:
            if fault.status != ExitStatus.INPUT or not wish.may_leave_out:
                raise
    return of_each(plan, items, wish, pass_over)


def of_each(plan: Plan, items: Sequence[Input], wish: Wish, pass_over: PassOver) -> List[str]:
    """The same of each input alone."""
    engine = wish.engine
    faulty: Dict[str, str] = {}

    def note(path: str, why: str) -> None:
        faulty[path] = why

    told = pass_over if wish.pass_over else note
    made = building.books_of_each(engine, plan, items, told)
    rest = [it for path, why in faulty.items()
            for it in rescued(plan, path, why, pass_over, path in wish.once)]
    rescue = dataclasses.replace(plan, stem="rescued-")
    made += building.books_of_each(engine, rescue, rest, pass_over) if rest else []
    return building.narrow(engine, plan, made, [])


def rescued(plan: Plan, path: str, why: str, leave_out: PassOver, is_once: bool) -> List[Input]:
    """What can be taken of an input that is faulty or gone: what it has become since, where it was
    packed meanwhile, or else the whole lines of a log, which is said."""
    packed = [path + it for it in packing.OPENERS if os.path.exists(path + it)]
    if packed and not os.path.lexists(path):
        return [inputs.look_at(packed[0])]
    it = inputs.look_at(path)
    if it.fault or it.is_book:
        leave_out(path, f"{it.fault or why}: left out")
        return []
    into = plan.path(f"mended-{len(plan.made):06}.log")
    left = mending.mend_into(path, into)
    named = "" if is_once else f" {shlex.quote(path)} -o NEW.log"
    leave_out(path, f"{why}: " + (
        f"its whole lines are taken; aprs-net mend{named} writes them" if left else "left out"))
    return [inputs.look_at(into)] if left else []


def say_what_is_large(path: str, say: Say) -> None:
    """Names a book that is too large for the programs that hold one in memory."""
    size = os.path.getsize(path)
    if size > READ:
        say(f"{path} has {size / 1e9:.1f} GB: aprsbook-fold reads it, and the other programs read "
            "1 GiB at most. Make parts of it, with --parts")


@contextlib.contextmanager
def widened(path: str, old: Optional[int], gap: int, folder: str) -> Iterator[List[str]]:
    """The book that is there, if one is, under a gap that may be wider."""
    real = os.path.realpath(path)
    if old is None or old == gap:
        yield [] if old is None else [real]
        return
    number, into = tempfile.mkstemp(".book", "widened-", folder)
    try:
        with open(number, "wb") as file, inputs.named([real]) as names:
            programs.write_book(file, "aprsbook", "widen", str(gap), *names)
        yield [into]
    finally:
        os.unlink(into)


# ---- parts of a book ----

def make_parts(path: str, items: Sequence[Input], parts: int, wish: Wish, say: Say) -> None:
    """A new folder gets the book of inputs in parts, each with the rows of some stations."""
    if os.path.lexists(path):
        raise Fault(f"{path} is there: parts are made in a new folder", ExitStatus.OUTPUT)
    if not programs.is_there("aprsbook-fold"):
        raise Fault("parts need aprsbook-fold")
    gap = wish.gap or book_file.GAP
    items = usable([it for it in items if not is_of_work(it.path, wish.work)])
    with work_folder(path, wish, gap, items) as folder:
        plan = Plan(gap, folder, wish.piece, wish.most)
        made, given = building.books_of(wish.engine, plan, items)
        books = building.parts_of(wish.engine, plan, made + given, parts)
        with new_folder(path) as new:
            for number, book in enumerate(books, 1):
                into = os.path.join(new, f"{number:04}.book")
                put_beside(book, into, book in plan.made)
                say_what_is_large(into, say)


@contextlib.contextmanager
def new_folder(path: str) -> Iterator[str]:
    """A folder that gets its name once it is whole."""
    real = os.path.realpath(path)
    new = ""
    try:
        new = tempfile.mkdtemp(atomic.SUFFIX, f".{os.path.basename(real)}.", os.path.dirname(real))
        yield new
        os.chmod(new, atomic.mode_of_new(0o777))
        disk.sync_folder(new)
        os.rename(new, real)
        disk.sync_folder(os.path.dirname(real))
    except OSError as fault:
        raise Fault(f"{path}: {fault.strerror}", ExitStatus.OUTPUT) from fault
    finally:
        if new:
            shutil.rmtree(new, ignore_errors=True)


def put_beside(path: str, into: str, is_own: bool) -> None:
    """A file is copied, or gets another name too where it is one's own and that can be; it is on
    the disk then."""
    if is_own:
        with contextlib.suppress(OSError):
            os.link(path, into)
    if not os.path.lexists(into):
        shutil.copyfile(path, into)
    with open(into, "rb+") as file:
        os.fsync(file.fileno())


# ---- a book of each day ----

def set_aside(books: Sequence[Input], items: Sequence[Input], say: Say) -> None:
    """Gives books of days another name, of which no input is there any more."""
    days = {it.day for it in items}
    for it in books:
        if it.is_book and it.day not in days:
            free = (f"{it.path}.gone{number or ''}" for number in itertools.count())
            name = next(name for name in free if not os.path.lexists(name))
            os.rename(it.path, name)
            say(f"{it.path} has no logs any more: it is {name} now")


def make_days(folder: str, items: Sequence[Input], wish: Wish, say: Say) -> List[Fault]:
    """A book of each day of the inputs, FOLDER/DAY.book; the faults of days that couldn't be made,
    whose books stay as they were."""
    try:
        os.makedirs(folder, exist_ok=True)
    except OSError as fault:
        raise Fault(f"{folder}: {fault.strerror}", ExitStatus.OUTPUT) from fault
    days: Dict[str, List[Input]] = {}
    for it in items:
        if it.day:
            days.setdefault(it.day, []).append(it)
        else:
            why = it.fault or "its day is unknown: put it into a folder of its day, as 2024-06-21"
            say(f"{it.path}: {why}: left out")
            wish.left.append(it.path)
    faults: List[Fault] = []
    alone = dataclasses.replace(wish, engine=executors.Here(1))
    with executors.threads(wish.engine.width) as pool:
        waiting = [pool.submit(make, os.path.join(folder, f"{day}.book"), of_day, alone, say)
                   for day, of_day in sorted(days.items())]
        done = concurrent.futures.as_completed(waiting)
        for _ in progress.counted(done, "days", len(waiting)):
            pass
    for future in waiting:
        try:
            future.result()
        except Fault as fault:
            faults.append(fault)
    return faults
