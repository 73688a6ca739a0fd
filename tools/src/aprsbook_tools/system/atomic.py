"""Writes a file whole or not at all.

What is written lies beside the file under a name that begins with a dot and is no input of
anything, and is renamed once it is on the disk. The file keeps its mode and its owner, and a link
stays a link. Where the bytes are those that the file has, it isn't touched.
"""
from __future__ import annotations

import contextlib
import errno
import os
import re
import stat
import threading
import time

from aprsbook_tools import TYPE_CHECKING, stdout
from aprsbook_tools.books import inputs
from aprsbook_tools.errors import ExitStatus, Fault, said
from aprsbook_tools.system import disk, packing

if TYPE_CHECKING:
    from typing import IO, Iterator, List, Optional, Sequence, Union

try:
    import fcntl
except ImportError:  # not on Windows
    fcntl = None  # type: ignore[assignment]

SUFFIX = ".aprs-net-new"
LOCK = "lock"  # a file in it, which is locked while it is in use
DAY = 86_400  # seconds
ASKING = threading.Lock()


class Writing:
    """A file that is being written, and its path for now; `changed` tells, at the end, whether it
    became another."""

    def __init__(self, file: IO[bytes], path: str) -> None:
        self.file, self.path = file, path
        self.changed = False


def check(path: str, given: Sequence[str] = (), is_named: bool = True) -> str:
    """Refuses a path that is no file, an input or a log; the path behind links is the result. A
    link that the user hasn't named is refused: it would lead to a file that isn't meant."""
    if not is_named and os.path.islink(path):
        raise Fault(f"{path} is a link, and isn't written through: take it away", ExitStatus.OUTPUT)
    real = os.path.realpath(path)
    if os.path.basename(path) in ("", ".", "..") or os.path.islink(real):
        raise Fault(f"'{path}' is no file, and can't become one", ExitStatus.OUTPUT)
    if os.path.splitext(real)[1] in packing.OPENERS:
        raise Fault(f"{path}: nothing is written compressed", ExitStatus.ARGUMENTS)
    if any(is_of(real, it) for it in given):
        raise Fault(f"{path} is an input, or would become one", ExitStatus.ARGUMENTS)
    if not os.path.exists(real):
        if not os.path.isdir(os.path.dirname(real)):
            raise Fault(f"{path}: no folder {os.path.dirname(real)} is there", ExitStatus.OUTPUT)
        return real
    if not os.path.isfile(real):
        raise Fault(f"'{path}' is no file, and can't become one", ExitStatus.OUTPUT)
    if is_standard_input(real):
        raise Fault(f"{path} is standard input: it would be replaced", ExitStatus.ARGUMENTS)
    if is_log(real):
        raise Fault(f"{path} is a log, and isn't replaced: take it away first",
                    ExitStatus.ARGUMENTS)
    return real


def is_same(one: str, other: str) -> bool:
    """Whether two paths lead to one file."""
    try:
        return os.path.samefile(one, other)
    except OSError:
        return os.path.realpath(one) == os.path.realpath(other)


def is_of(path: str, given: str) -> bool:
    """Whether a path is that of an input, or of what would be one of a folder."""
    return is_same(path, given) or inputs.is_input(path) and os.path.isdir(given) and \
        path.startswith(os.path.join(os.path.realpath(given), ""))


def is_standard_input(path: str) -> bool:
    """Whether standard input is read from this file."""
    try:
        return os.path.samestat(os.fstat(0), os.stat(path))
    except OSError:
        return False


def is_log(path: str) -> bool:
    """Whether a file is a log by its name or by its first line."""
    if path.endswith(".log"):
        return True
    from aprsbook_tools.formats import log_file  # where a file is replaced alone

    try:
        with open(path, "rb") as file:
            return log_file.begins_as_log(file.read(log_file.LINE + 1))
    except OSError:
        return False


def remove_leftovers(folder: str, name: str = "") -> None:
    """Takes away what runs that were killed have left of a file, or of all of a folder: folders
    that nobody uses at once, and others, and files, after a day."""
    import shutil

    of = re.escape(name) if name else ".+"
    endings = "|".join(map(re.escape, (SUFFIX, disk.WORK)))
    form = re.compile(rf"\.{of}\.[a-z0-9_]{{8}}({endings})", re.DOTALL)
    with contextlib.suppress(OSError):
        for it in os.scandir(folder):
            found = form.fullmatch(it.name)
            if not found:
                continue
            is_old = time.time() - it.stat(follow_symlinks=False).st_mtime > DAY
            if it.is_dir(follow_symlinks=False):
                if is_old or is_left(it.path):
                    shutil.rmtree(it.path, ignore_errors=True)
            elif is_old and found[1] == SUFFIX:
                os.unlink(it.path)


def is_left(folder: str) -> bool:
    """Whether a work folder is one that whoever made it has left."""
    if fcntl is None:
        return False
    try:
        file = disk.open_own(os.path.join(folder, LOCK), os.O_RDWR)
    except OSError:
        return False
    try:
        fcntl.flock(file, fcntl.LOCK_EX | fcntl.LOCK_NB)
    except OSError:
        return False
    finally:
        os.close(file)
    return True


@contextlib.contextmanager
def work_folder(real: str) -> Iterator[str]:
    """A folder beside a file that goes away; if this run is killed, at the next one."""
    import shutil
    import tempfile

    folder, name = os.path.split(real)
    remove_leftovers(folder, name)
    work, file = tempfile.mkdtemp(disk.WORK, f".{name}.", folder), -1
    try:
        if fcntl is not None:
            # it gets its name once it is locked: nobody takes the folder before
            unlocked = os.path.join(work, f".{LOCK}")
            file = os.open(unlocked, os.O_RDWR | os.O_CREAT | os.O_EXCL, 0o600)
            fcntl.flock(file, fcntl.LOCK_EX)
            os.rename(unlocked, os.path.join(work, LOCK))
        yield work
    finally:
        shutil.rmtree(work, ignore_errors=True)
        if file >= 0:
            os.close(file)


def mode_of_new(mode: int) -> int:
    """The mode of a new file or folder. One thread asks at a time: another would take for the
    user's mask what is set here meanwhile."""
    with ASKING:
        mask = os.umask(0o077)
        os.umask(mask)
    return mode & ~mask


def take_over(file: int, real: str, mode: int) -> None:
    """Gives a file the owner and the mode of the one that it replaces; a new one has this mode."""
    try:
        old = os.stat(real)
    except FileNotFoundError:
        mode = mode_of_new(mode)
    else:
        mode = stat.S_IMODE(old.st_mode)
        with contextlib.suppress(OSError, AttributeError):
            os.fchown(file, old.st_uid, old.st_gid)
    with contextlib.suppress(AttributeError):
        os.fchmod(file, mode)


@contextlib.contextmanager
def writing(path: str, given: Sequence[str] = (), is_named: bool = True, mode: int = 0o666
            ) -> Iterator[Writing]:
    """A file to write into, which becomes that of the path where the block ends without a fault."""
    import filecmp
    import tempfile

    real = check(path, given, is_named)
    folder, name = os.path.split(real)
    remove_leftovers(folder, name)
    new = None
    try:
        number, new = tempfile.mkstemp(SUFFIX, f".{name}.", folder)
        with open(new, "wb", opener=lambda _, flags: number) as file:
            result = Writing(file, new)
            yield result
            file.flush()
            take_over(file.fileno(), real, mode)
            os.fsync(file.fileno())
        if os.path.exists(real) and filecmp.cmp(new, real, shallow=False):
            return
        os.replace(new, real)
        new, result.changed = None, True
        disk.sync_folder(folder)
    except OSError as fault:
        if fault.errno is None:
            raise  # of a compressed input
        raise Fault(f"{path}: {fault.strerror or fault}", ExitStatus.OUTPUT) from fault
    finally:
        if new is not None:
            with contextlib.suppress(OSError):
                os.unlink(new)


def write(path: str, octets: bytes, given: Sequence[str] = (), is_named: bool = True,
          mode: int = 0o666) -> bool:
    """A file becomes these bytes; whether it was another before."""
    with writing(path, given, is_named, mode) as new:
        new.file.write(octets)
    return new.changed


def beside(path: str, ending: str) -> str:
    """A hidden name beside a file."""
    folder, name = os.path.split(os.path.realpath(path))
    return os.path.join(folder, f".{name}.{ending}")


def read_hidden(path: str, ending: str) -> bytes:
    """What is hidden beside a file, where that is one's own: no link, and of this user, of root, or
    of the owner of the file. OSError of others."""
    hidden = beside(path, ending)
    file = disk.open_own(hidden, os.O_RDONLY)
    with open(file, "rb") as opened:
        owner = os.fstat(file).st_uid
        if owner not in (0, os.stat(path).st_uid, *([os.geteuid()] if fcntl else [])):
            raise PermissionError(errno.EPERM, "it is somebody else's", hidden)
        return opened.read()


def write_hidden(path: str, ending: str, octets: bytes) -> None:
    """Hides bytes beside a file, in place of what was hidden there, if that was a file."""
    write(beside(path, ending), octets, is_named=False)


@contextlib.contextmanager
def locked(path: str) -> Iterator[bool]:
    """Waits until no other run writes this file, where the system has locks; whether one did."""
    if fcntl is None:
        yield False
        return
    lock = beside(path, "lock")
    try:
        file = disk.open_own(lock, os.O_RDWR | os.O_CREAT)
    except OSError as fault:
        words = said(fault) if os.path.lexists(lock) else f"{path}: {fault.strerror}"
        raise Fault(words, ExitStatus.OUTPUT) from fault
    try:
        has_waited = False
        try:
            fcntl.flock(file, fcntl.LOCK_EX | fcntl.LOCK_NB)
        except BlockingIOError:
            has_waited = True
            fcntl.flock(file, fcntl.LOCK_EX)
        yield has_waited
    finally:
        os.close(file)


def put(path: Optional[str], output: Union[str, bytes], given: Sequence[str] = ()) -> None:
    """Writes a text, in UTF-8, or bytes into a file; to standard output without one or for `-`."""
    octets = output.encode("utf-8", "surrogateescape") if isinstance(output, str) else output
    if path is None or path == "-":
        stdout.write(octets)
    else:
        write(path, octets, given)


def all_of(*paths: Union[str, None, Sequence[str]]) -> List[str]:
    """What a command reads, for `given`: paths, lists of paths, and None for what isn't given."""
    result: List[str] = []
    for it in paths:
        if isinstance(it, str):
            result.append(it)
        elif it is not None:
            result.extend(it)
    return result
