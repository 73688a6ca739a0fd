"""Runs aprsbook, aprsbook-table and aprsbook-fold. Where one fails, its complaint and its status
are those of the Fault."""
from __future__ import annotations

import _thread
import contextlib
import itertools
import os
import re
import signal

from aprsbook_tools import TYPE_CHECKING, stderr
from aprsbook_tools.errors import ExitStatus, Fault
from aprsbook_tools.formats.forms import form
from aprsbook_tools.system import temporary

if TYPE_CHECKING:
    import subprocess
    from typing import IO, Iterator, List, Optional, Sequence, Set, Tuple, Union

    Given = Union[bytes, IO[bytes], None]  # None: standard input as it is

RUNNING: Set["subprocess.Popen[bytes]"] = set()  # what threads have started
STARTING = _thread.allocate_lock()  # `threading` is imported once there are threads
BLOCK = 1 << 16  # bytes that are read at a time
BOOK = form(r"\.book(\.[a-z0-9]+)?\Z")  # so the name of a book ends, also of a packed one
MANY = 100  # files, which any system opens
_has_ended = False  # whether a signal has asked for the end


def path_of(program: str) -> Optional[str]:
    """Where a program stands in the PATH; None where it doesn't."""
    if os.name == "nt":
        import shutil  # which knows the endings of programs there

        return shutil.which(program)
    paths = [os.path.join(folder, program) for folder in os.get_exec_path()]
    return next((it for it in paths if os.access(it, os.X_OK) and os.path.isfile(it)), None)


def is_there(program: str) -> bool:
    """Whether a program is in the PATH."""
    return path_of(program) is not None


def find(program: str) -> str:
    """The path of a program."""
    path = path_of(program)
    if path is None:
        raise Fault(f"the program {program} isn't in the PATH: install aprsbook",
                    ExitStatus.MISSING)
    return path


def check_inputs(paths: Sequence[str]) -> None:
    """Refuses a file whose name says that it is a book and that is empty, which no book is."""
    for path in paths:
        if BOOK.search(path) and os.path.isfile(path) and not os.path.getsize(path):
            raise Fault(f"{path} is empty, which no book is: put back a copy")


def open_many_files(words: int = MANY) -> None:
    """Lets this process, and those that it starts, open as many files as the system allows, where
    a command has many words."""
    if words < MANY:
        return  # as most do: what asks the system is imported late
    try:
        import resource
    except ImportError:  # not on Windows
        return
    soft, hard = resource.getrlimit(resource.RLIMIT_NOFILE)
    if soft != hard:
        try:
            resource.setrlimit(resource.RLIMIT_NOFILE, (hard, hard))
        except (OSError, ValueError):
            pass


def fault_of(command: Sequence[str], status: int, complaint: bytes) -> Fault:
    """What a program's end means: its own words, and its status. Where a signal ended it, that is
    the machine's, as of too little memory, and no input's."""
    program = os.path.basename(command[0])
    words = complaint.decode("utf-8", "backslashreplace").strip()
    if words.startswith(program + ": "):
        words = words[len(program) + 2:]
    if status < 0 or status > 125:
        words = words or f"ended by signal {-status if status < 0 else status - 128}"
        status = ExitStatus.OUTPUT
    return Fault(words or f"ended with status {status}", status, program)


def fault_line(fault: Fault, place: str) -> Optional[Tuple[int, str]]:
    """The number of the line of an input at which a program failed, and the cause; or None."""
    found = re.fullmatch(re.escape(place) + r": line ([0-9]+): (\w+)", fault.words)
    return (int(found[1]), found[2]) if found else None


def go_on() -> None:
    """A Fault where a signal has asked for the end, for a thread that wasn't told."""
    if _has_ended:
        raise Fault("ended by a signal", ExitStatus.OUTPUT)


def end_all() -> None:
    """Ends the programs that threads run; no other begins."""
    global _has_ended
    with STARTING:
        _has_ended = True
        for process in [*RUNNING]:
            process.kill()


class Started:
    """A program that writes into a pipe, as of `subprocess`, whose import takes as long as a small
    report."""

    def __init__(self, command: List[str], given: Optional[IO[bytes]], complaint: IO[bytes]
                 ) -> None:
        begin, end = os.pipe()
        files = [(end, 1), (complaint.fileno(), 2), *([(given.fileno(), 0)] if given else [])]
        try:
            self.number = os.posix_spawn(
                command[0], command, os.environ,
                file_actions=[(os.POSIX_SPAWN_DUP2, *it) for it in files if it[0] != it[1]],
                setsigdef=[signal.SIGPIPE, signal.SIGXFSZ])  # which Python passes over
        except BaseException:
            os.close(begin)
            raise
        finally:
            os.close(end)
        self.stdout = open(begin, "rb")

    def kill(self) -> None:
        """Ends it."""
        with contextlib.suppress(ProcessLookupError):
            os.kill(self.number, signal.SIGKILL)

    def wait(self) -> int:
        """Waits for its end, once; its status."""
        try:
            return os.waitstatus_to_exitcode(os.waitpid(self.number, 0)[1])
        except ChildProcessError:
            return 0  # whoever started this has ends passed over, which tells no status


def start(command: List[str], given: Optional[IO[bytes]], complaint: IO[bytes]
          ) -> Union[Started, "subprocess.Popen[bytes]"]:
    """Starts a program, whose command begins with its path."""
    if hasattr(os, "posix_spawn"):
        return Started(command, given, complaint)
    import subprocess  # on Windows, as below for what is read whole

    return subprocess.Popen(command, stdin=given, stdout=subprocess.PIPE, stderr=complaint)


def run(*command: str, given: Given = b"", into: Optional[IO[bytes]] = None) -> bytes:
    """What a program writes, or nothing where that goes `into` a file."""
    import subprocess

    open_many_files()
    path = find(command[0])
    stderr.detail(f"runs {' '.join(command)}")
    octets = given if isinstance(given, bytes) else None
    stdin: Union[int, IO[bytes], None] = subprocess.PIPE
    if not isinstance(given, bytes):
        stdin = given
    out: Union[int, IO[bytes]] = subprocess.PIPE if into is None else into
    with STARTING:
        go_on()
        process = subprocess.Popen(
            [path, *command[1:]], stdin=stdin, stdout=out, stderr=subprocess.PIPE)
        RUNNING.add(process)
    with process:
        try:
            written, complaint = process.communicate(octets)
        except BaseException:
            process.kill()
            raise
        finally:
            RUNNING.discard(process)
    if process.returncode:
        fault = fault_of(command, process.returncode, complaint)
        if into is not None and fault.words == "cannot write":
            from aprsbook_tools.system import disk  # only where something is wrong

            fault.words = f"cannot write in {folder_of(into)}{disk.room_words(folder_of(into))}"
        raise fault
    return written or b""


def folder_of(file: IO[bytes]) -> str:
    """The folder of a file that is written, or the one for temporary files."""
    if not isinstance(file.name, str):
        import tempfile  # only where something is wrong

        return tempfile.gettempdir()
    from aprsbook_tools.system import disk

    folder = os.path.dirname(file.name)
    return os.path.dirname(folder) if folder.endswith(disk.WORK) else folder  # which goes away


def write_book(into: IO[bytes], *command: str, given: Given = b"") -> None:
    """Writes a book into a file, by a program; one that wrote nothing has made none."""
    before = os.fstat(into.fileno()).st_size
    run(*command, given=given, into=into)
    if os.fstat(into.fileno()).st_size == before:
        program = os.path.basename(command[0])
        raise Fault("wrote nothing, which no book is", ExitStatus.OUTPUT, program)


def blocks_in(file: IO[bytes]) -> Iterator[bytes]:
    """What is read of a file, so many bytes at a time."""
    return iter(lambda: file.read(BLOCK), b"")


def lines_in(file: IO[bytes]) -> Iterator[List[str]]:
    """The lines of what is read, each without its end, many at once."""
    rest = ""
    for block in blocks_in(file):
        *found, rest = (rest + block.decode("ascii", "backslashreplace")).split("\n")
        yield found
    if rest:
        yield [rest]


def hold(file: IO[bytes], given: bytes) -> None:
    """Writes what a program is to read into a file without a buffer, from its beginning."""
    rest = memoryview(given)
    try:
        while rest:
            rest = rest[file.write(rest):]
        file.seek(0)
    except OSError as fault:
        from aprsbook_tools.system import disk

        folder = folder_of(file)
        raise Fault(f"cannot write in {folder}{disk.room_words(folder)}",
                    ExitStatus.OUTPUT) from fault


def lines(*command: str, given: Given = None) -> Iterator[str]:
    """The lines that a program writes, as they come, each without its end. The Fault comes after
    the last: write nothing before all have been read."""
    return itertools.chain.from_iterable(blocks(*command, given=given))


def blocks(*command: str, given: Given = None) -> Iterator[List[str]]:
    """The same, many lines at once."""
    open_many_files(len(command))
    path = find(command[0])
    stderr.detail(f"runs {' '.join(command)}")
    with contextlib.ExitStack() as files:
        complaint = files.enter_context(temporary.short())
        if isinstance(given, bytes):
            held = files.enter_context(temporary.unbuffered())
            hold(held, given)
            given = held
        process = start([path, *command[1:]], given, complaint)
        assert process.stdout is not None
        try:
            yield from lines_in(process.stdout)
        except BaseException:
            process.kill()
            raise
        finally:
            process.stdout.close()
            status = process.wait()
        if status:
            complaint.seek(0)
            raise fault_of(command, status, complaint.read())


def with_gap(program: List[str], gap: Optional[int], inputs: Sequence[str]) -> List[str]:
    """A command with its gap and its inputs; standard input is read where there are none."""
    check_inputs(inputs)
    option = ["--gap", str(gap)] if gap is not None else []
    return [*program, *option, "--", *inputs] if inputs else [*program, *option]
