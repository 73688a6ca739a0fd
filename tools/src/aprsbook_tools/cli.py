"""The command aprs-net: finds the subcommand, runs it, and says what went wrong."""
import gc
import os
import signal
import sys

from aprsbook_tools import TYPE_CHECKING, VERSION, commands, signals, stderr, stdout
from aprsbook_tools.errors import NO_ROOM, ExitStatus, Fault, words_of

if TYPE_CHECKING:
    from sys import UnraisableHookArgs
    from typing import List, NoReturn, Optional, Sequence, Tuple

HELP = """\
aprs-net {version}: logs, books and reports of APRS nets, around aprsbook

usage: aprs-net COMMAND [OPTION].. [ARGUMENT]..

Write a log of the TNC at port 8001, and make a page of it:

  aprs-net log --connect localhost:8001 RX1 logs
  aprs-net page -o page.html logs

{commands}Options, before or behind a command:
  -h, --help     this help, or that of a command
  -q, --quiet    say only what went wrong
  -v, --verbose  say also what is run
  -V, --version  the version

`aprs-net help COMMAND` says more of a command, with examples.
"""


LEAST_PYTHON = (3, 9)
SOON = 0.01  # seconds
OBJECTS = 50_000  # new ones, after which rings of them are looked for: rows of tables are none


class Ended(BaseException):
    """A signal asked for the end: what was begun is cleaned up on the way."""

    def __init__(self, number: int) -> None:
        super().__init__(number)
        self.number = number


def end(number: int, _: object) -> "NoReturn":
    raise Ended(number)


def come_again(lost: "UnraisableHookArgs") -> None:
    """Has a signal come once more that came where Python ends nothing, as when an object goes."""
    fault = lost.exc_value
    number = fault.number if isinstance(fault, Ended) else signal.SIGINT
    if isinstance(fault, (Ended, KeyboardInterrupt)) and hasattr(signal, "setitimer"):
        signal.signal(signal.SIGALRM, lambda *_: os.kill(os.getpid(), number))
        signal.setitimer(signal.ITIMER_REAL, SOON)
    else:
        sys.__unraisablehook__(lost)


def help_text() -> str:
    """What aprs-net is, two examples, and the commands in groups."""
    groups = "".join(
        f"{group}:\n" + "".join(f"  {name:<12} {words}\n" for name, words in names.items()) + "\n"
        for group, names in commands.GROUPS.items())
    return HELP.format(version=VERSION, commands=groups)


def write_out(text: str) -> int:
    """Prints a text; the status."""
    stdout.write(text.encode())
    return ExitStatus.DONE


def split(words: "Sequence[str]") -> "Tuple[List[str], List[str]]":
    """The options before the command, and the command with what follows."""
    count = 0
    while count < len(words) and words[count].startswith("-"):
        count += 1
    return list(words[:count]), list(words[count:])


def dispatch(words: "Sequence[str]") -> int:
    """Does what was typed; the status."""
    before, rest = split(words)
    for word in before:
        if word in ("-h", "--help"):
            rest = ["help", *rest[:1]]
        elif word in ("-V", "--version"):
            return write_out(f"aprs-net {VERSION}\n")
        elif word not in ("-q", "--quiet", "-v", "--verbose"):
            raise Fault(f"no option is called {word} (see aprs-net help)", ExitStatus.ARGUMENTS)
    if not rest:
        stderr.say(help_text(), end="")
        return ExitStatus.ARGUMENTS
    if rest == ["help"]:
        return write_out(help_text())
    name, arguments = (rest[1], ["--help"]) if rest[0] == "help" else (rest[0], rest[1:])
    if name not in commands.NAMES and name not in commands.HIDDEN:
        raise Fault(unknown(name), ExitStatus.ARGUMENTS)
    return run_command(name, [*before, *arguments] if rest[0] != "help" else arguments)


def unknown(name: str) -> str:
    """What is said of a command that isn't there."""
    from aprsbook_tools import argv

    known = commands.MEANT.get(name.lower())
    hint = f"; did you mean {known}?" if known else argv.meant(name, commands.NAMES)
    return f"no command is called {name}{hint} (see aprs-net help)"


def run_command(name: str, words: "Sequence[str]") -> int:
    """Runs a command, whose module is imported now."""
    from aprsbook_tools import argv

    args = argv.parse(argv.parser_of(name), words)
    stderr.set_level(stderr.Level.QUIET if args.quiet else
                     stderr.Level.VERBOSE if args.verbose else stderr.Level.PLAIN)
    status = int(argv.module_of(name).run(args))
    if sys.stdout is not None:
        sys.stdout.flush()
    return status


def run(arguments: "Optional[Sequence[str]]" = None) -> int:
    """Runs what was typed; its status, and in words what went wrong."""
    try:
        return dispatch(sys.argv[1:] if arguments is None else arguments)
    except Fault as fault:
        stderr.say(words_of(fault))
        return fault.status
    except BrokenPipeError:
        raise  # nobody reads standard output any more
    except OSError as fault:
        stderr.say(words_of(fault))
        return ExitStatus.OUTPUT if fault.errno in NO_ROOM else ExitStatus.INPUT
    except (MemoryError, RuntimeError) as fault:
        if isinstance(fault, RuntimeError) and "start new thread" not in str(fault):
            raise
        stderr.warn("no memory is left")
        return ExitStatus.MEMORY


def hold_standard_files() -> None:
    """Where standard input, output or error is closed, the next file that is opened, a log or a
    connection, would get its number, and what is said would go there."""
    for number in range(3):
        try:
            os.fstat(number)
        except OSError:
            os.open(os.devnull, os.O_RDWR)


def main(arguments: "Optional[Sequence[str]]" = None) -> int:
    """The program: as `run`, and ended by a signal as it has to be."""
    hold_standard_files()
    stderr.prepare()
    if sys.version_info < LEAST_PYTHON:
        stderr.warn("it needs Python %d.%d or later, and this is %d.%d" % (
            *LEAST_PYTHON, *sys.version_info[:2]))
        return ExitStatus.MISSING
    gc.set_threshold(OBJECTS)
    signals.heed(end, "SIGTERM", "SIGHUP")
    sys.unraisablehook = come_again
    try:
        status = run(arguments)
    except KeyboardInterrupt:
        status = kill_self(signal.SIGINT)
    except BrokenPipeError:
        status = kill_self(getattr(signal, "SIGPIPE", None))
    except Ended as it:
        status = kill_self(it.number)
    # nothing is left to be said by Python where standard output or error is refused
    for number, file in (1, sys.stdout), (2, sys.stderr):
        try:
            if file is not None:
                file.flush()
        except (OSError, ValueError):
            os.dup2(os.open(os.devnull, os.O_WRONLY), number)
    return status


def kill_self(number: "Optional[int]") -> int:
    """Ends this process by a signal, so that who started it sees that; Windows has no SIGPIPE."""
    if number is None:
        return ExitStatus.OUTPUT
    signal.signal(number, signal.SIG_DFL)
    os.kill(os.getpid(), number)
    return 128 + number
