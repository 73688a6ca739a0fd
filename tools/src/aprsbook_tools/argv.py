"""What was typed: a command's parser, options that stand among inputs, and what was meant."""
from __future__ import annotations

import argparse
import functools
import importlib
import keyword
import os
import re
from types import ModuleType

from aprsbook_tools import TYPE_CHECKING, stdout
from aprsbook_tools.errors import ExitStatus, Fault

if TYPE_CHECKING:
    from typing import IO, Any, Iterable, List, NoReturn, Optional, Sequence, Tuple

WIDTH = 79  # columns of help, on terminals that have them
# its words stay English, as all others here: to look for translations takes half as long as it does
setattr(argparse, "_", str)


def help_width() -> int:
    import shutil  # for help alone, as textwrap below

    return max(20, min(WIDTH, shutil.get_terminal_size().columns - 1))


def formatter(width: int) -> Any:
    """What makes help of at most so many columns."""
    return functools.partial(
        argparse.RawDescriptionHelpFormatter, max_help_position=24, width=width)


def filled(text: str, width: int) -> str:
    """A text whose paragraphs are filled anew; one that begins with a blank stands as it is."""
    import textwrap

    return "\n\n".join(
        it if it.startswith(" ") else textwrap.fill(
            " ".join(it.split()), width, break_long_words=False, break_on_hyphens=False)
        for it in re.split(r"\n\n+", text.strip("\n")))


def examples_text(examples: Iterable[Tuple[str, str]], width: int) -> str:
    """Examples: what each does, and the command."""
    import textwrap

    lines = [f"  {command}\n" + textwrap.indent(textwrap.fill(words, width - 6), " " * 6)
             for words, command in examples]
    return "\n".join(["examples:", *lines]) if lines else ""


class Parser(argparse.ArgumentParser):
    """The parser of a command. What is wrong is a Fault, and no option is abbreviated."""

    def __init__(self, name: str, description: str,
                 examples: Sequence[Tuple[str, str]] = ()) -> None:
        super().__init__(
            prog=f"aprs-net {name}", formatter_class=formatter(WIDTH), allow_abbrev=False)
        self.name, self.said, self.examples = name, description, examples

    def error(self, message: str) -> NoReturn:
        raise Fault(f"{message} (see aprs-net help {self.name})", ExitStatus.ARGUMENTS)

    def format_help(self) -> str:
        """Its help, as wide as the terminal."""
        width = help_width()
        self.formatter_class = formatter(width)
        self.description = filled(self.said, width)
        self.epilog = examples_text(self.examples, width)
        return super().format_help()

    def print_help(self, file: Optional[IO[str]] = None) -> None:
        """Its help on standard output; a Fault where that takes nothing."""
        stdout.write(self.format_help().encode())


def module_of(name: str) -> ModuleType:
    """The module of a command, which has _ for -, and one behind a word of Python."""
    end = "_" if keyword.iskeyword(name) else ""
    return importlib.import_module(f"aprsbook_tools.commands.{name.replace('-', '_')}{end}")


def parser_of(name: str) -> Parser:
    """The parser of a command."""
    module = module_of(name)
    parser = Parser(name, module.DESCRIPTION, module.EXAMPLES)
    module.add_arguments(parser)
    parser.add_argument("-q", "--quiet", action="store_true", help="say only what went wrong")
    parser.add_argument("-v", "--verbose", action="store_true", help="say also what is run")
    return parser


def no_options(words: Sequence[str]) -> List[str]:
    """The words, in which nothing behind a `--` looks like an option: such a path gets a `./`. A
    number below 0 is none, and `-` is standard input."""
    if "--" not in words:
        return list(words)
    end = list(words).index("--")
    rest = words[end + 1 :]
    paths = [os.path.join(".", it) if re.match("-(?![0-9]+$).", it) else it for it in rest]
    return [*words[:end], *paths]


def joined(parser: argparse.ArgumentParser, words: Sequence[str]) -> List[str]:
    """The words, in which a value that begins like a number below 0, as a place south of the
    equator, a zone west of Greenwich or two hours ago, is one with its option."""
    valued = {name for it in parser._actions if it.nargs is None for name in it.option_strings}
    result: List[str] = []
    for word in words:
        option = result[-1] if result else ""
        if option in valued and option.startswith("--") and re.match("-[0-9]", word):
            result[-1] += f"={word}"
        else:
            result.append(word)
    return result


def may_ask_for_help(word: str) -> bool:
    """Whether a word may be `--help`, or letters of options with `-h` among them."""
    return word == "--help" or (word[:1] == "-" and word[1:2] != "-" and "h" in word)


def parse(parser: Parser, words: Sequence[str]) -> argparse.Namespace:
    """Reads a command's arguments; options may stand among and behind the others."""
    words = joined(parser, no_options(words))
    names = [name for it in parser._actions for name in it.option_strings]
    for word in words:
        name = word.partition("=")[0]
        if name.startswith("--") and len(name) > 2 and name not in names:
            parser.error(f"no option is called {name}{meant(name, names)}")
    if not any(map(may_ask_for_help, words)):
        parser.usage = ""  # which is made otherwise, and is said in help alone
    args, rest = parser.parse_known_intermixed_args(words)
    for word in rest:
        parser.error(f"no option is called {word}" if word.startswith("-") else
                     f"one argument too many: {word}")
    return args


# options of other programs, and what is like them here
MEANT = {"--device": "--serial", "--host": "--connect", "--kiss": "--connect",
         "--port": "--connect", "--server": "--connect", "--tcp": "--connect"}


def meant(word: str, known: Sequence[str]) -> str:
    """The known words that are most like one, as a question."""
    import difflib  # only where something is wrong

    found = [it for it in [MEANT.get(word.lower(), "")] if it in known] or \
        difflib.get_close_matches(word.lower(), known, 2, 0.6)
    return f"; did you mean {' or '.join(found)}?" if found else ""
