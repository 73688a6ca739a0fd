#!/usr/bin/env python3
"""Writes the manual page of aprs-net and its completions, of the parsers.

usage: make_pages.py FOLDER VERSION DAY

Writes aprs-net.1, aprs-net.bash, _aprs-net and aprs-net.fish.
"""
import argparse
import os
import re
import sys
import textwrap
from typing import Dict, List

sys.dont_write_bytecode = True
HERE = os.path.dirname(os.path.realpath(__file__))
sys.path.insert(0, os.path.join(HERE, "src"))
from aprsbook_tools import argv, commands  # noqa: E402
from aprsbook_tools.errors import MEANINGS  # noqa: E402

Options = List[argparse.Action]
Parsers = Dict[str, argv.Parser]
NOTE = "Made of the parsers of aprs-net by make_pages.py."
HELPS = {name: words for group in commands.GROUPS.values() for name, words in group.items()}
MAIN = ["help", "--help", "--quiet", "--verbose", "--version"]  # what stands beside commands
EVERYWHERE = ("help", "quiet", "verbose")  # options of each command
ENVIRONMENT = {
    "APRS_NET_DAYS": "The days of follow and watch where --day isn't given, with blanks between "
    "them, such as 2024-06-21.",
    "APRS_NET_GAP": "The gap of follow and watch where --gap isn't given, in seconds.",
    "TMPDIR": "Where inputs are unpacked and books are made meanwhile: a disk with room for them.",
}
FILES = {
    ".net.book.of": "Beside net.book: what aprs-net book has merged into it. Without it, all "
    "inputs are merged again.",
    ".net.book.lock": "Beside net.book, or another file that runs share: it holds back a second "
    "run while one writes. It may be deleted when none runs.",
    ".NAME.xxxxxxxx.aprs-net-new, .NAME.xxxxxxxx.aprs-net-work": "What a run that was killed has "
    "left; the next takes it away after a day.",
    "FOLDER/DAY/NAME.log": "What aprs-net log writes, with the day in UTC; of one's own stations "
    "NAME.own.",
}


def parsers() -> Parsers:
    """The commands' parsers, by name."""
    return {name: argv.parser_of(name) for name in commands.NAMES}


def options(parser: argparse.ArgumentParser) -> Options:
    return [it for it in parser._actions if it.option_strings]


def arguments(parser: argparse.ArgumentParser) -> Options:
    return [it for it in parser._actions if not it.option_strings]


def value(action: argparse.Action) -> str:
    """What stands behind an option, or nothing."""
    if action.nargs == 0:
        return ""
    if isinstance(action.metavar, str):
        return action.metavar
    if action.choices:
        return "|".join(map(str, action.choices))
    return action.dest.upper()


def help_of(action: argparse.Action) -> str:
    return (action.help or "").replace("%%", "%")


# ---- the manual page ----

def filled(text: str) -> str:
    """A text in short lines, in each of which a sentence ends at most at its end."""
    sentences = re.split(r"(?<=[a-z0-9)][.!?]) +(?=[A-Z*-])", " ".join(text.split()))
    return "\n".join(line for it in sentences for line in textwrap.wrap(
        it, 70, break_long_words=False, break_on_hyphens=False))


def roff(text: str) -> str:
    """A text as roff has it: a hyphen that can be copied is \\-."""
    text = text.replace("\\", "\\e").replace("-", "\\-")
    return re.sub(r"(?m)^([.'])", r"\\&\1", text)


def shown(argument: argparse.Action) -> str:
    name = argument.metavar if isinstance(argument.metavar, str) else argument.dest
    if isinstance(argument.choices, dict) or argument.choices and not argument.metavar:
        name = "|".join(map(str, argument.choices))
    words = {"?": f"[{name}]", "*": f"[{name}].. ", "+": f"{name}.."}
    return words.get(str(argument.nargs), name).strip()


def tag(option: argparse.Action) -> str:
    """An option with its value, in bold and italics."""
    names = ", ".join(f"\\fB{roff(it)}\\fR" for it in option.option_strings)
    return names + (f" \\fI{roff(value(option))}\\fR" if value(option) else "")


def paragraphs(text: str) -> List[str]:
    """A description: what is indented stands as it is."""
    lines: List[str] = []
    for part in re.split(r"\n\n+", text.strip("\n")):
        plain = part.startswith(" ")
        lines += [".PP", ".nf", roff(part), ".fi"] if plain else [".PP", roff(filled(part))]
    return lines


def command_lines(name: str, parser: argv.Parser) -> List[str]:
    """What the manual page says of a command."""
    words = " ".join(map(shown, arguments(parser)))
    lines = [f".SS {roff(name)}",
             f"\\fBaprs\\-net {roff(name)}\\fR [\\fIOPTION\\fR].. {roff(words)}"]
    lines += paragraphs(parser.said)
    for argument in arguments(parser):
        if argument.help:
            lines += [".TP", f"\\fI{roff(shown(argument))}\\fR", roff(filled(help_of(argument)))]
    for option in options(parser):
        if option.dest not in EVERYWHERE:
            lines += [".TP", tag(option), roff(filled(help_of(option)))]
    return lines


def listed(heading: str, words: Dict[str, str]) -> List[str]:
    """A section of names with what each is."""
    lines = [f".SH {heading}"]
    for name, meaning in words.items():
        lines += [".TP", f".B {roff(name)}", roff(filled(meaning))]
    return lines


def example_lines(all_parsers: Parsers) -> List[str]:
    lines = [".SH EXAMPLES"]
    for parser in all_parsers.values():
        for words, command in parser.examples:
            lines += [".PP", roff(filled(words[0].upper() + words[1:] + ":")), ".PP", ".nf", ".RS",
                      roff(command), ".RE", ".fi"]
    return lines


def page(version: str, day: str) -> str:
    known = parsers()
    lines = [f'.\\" {NOTE}', f'.TH APRS\\-NET 1 {day} "aprsbook {version}" "User Commands"',
             ".SH NAME", "aprs\\-net \\- logs, books and reports of APRS nets",
             ".SH SYNOPSIS", ".B aprs\\-net", ".I COMMAND", "[\\fIOPTION\\fR]..",
             "[\\fIARGUMENT\\fR]..", ".SH DESCRIPTION",
             "Writes logs of APRS receivers, keeps books of them, and makes pages and",
             "reports, with the programs of", ".BR aprsbook (1).",
             "Options may stand before, among and behind the",
             "arguments; what follows \\fB\\-\\-\\fR is no option.",
             "\\fB\\-q\\fR says only what went wrong, and \\fB\\-v\\fR also what is run.",
             "\\fBaprs\\-net help\\fR \\fICOMMAND\\fR says of a command what stands here."]
    for group, names in commands.GROUPS.items():
        lines.append(f".SH {group.upper()}")
        for name in names:
            lines += command_lines(name, known[name])
    lines += listed("EXIT STATUS", {str(int(it)): words for it, words in MEANINGS.items()})
    lines += [".PP", "A reader of its output that ends early, as head does, ends it by SIGPIPE."]
    lines += listed("ENVIRONMENT", ENVIRONMENT) + listed("FILES", FILES) + example_lines(known)
    lines += [".SH SEE ALSO", ".BR aprsbook (1),", ".BR aprsbook\\-table (1)"]
    return "\n".join(lines) + "\n"


# ---- completions ----

def names_of(parser: argparse.ArgumentParser) -> List[str]:
    return [name for option in options(parser) for name in option.option_strings]


def choices_of(parser: argparse.ArgumentParser) -> Dict[str, List[str]]:
    """The words that may stand behind an option, by its names; those of arguments by nothing."""
    result: Dict[str, List[str]] = {}
    for it in parser._actions:
        if it.choices:
            for name in it.option_strings or [""]:
                result[name] = list(map(str, it.choices))
    return result


def bash() -> str:
    known = parsers()
    lines = [f"# {NOTE}", "_aprs_net() {",
             "    local word=${COMP_WORDS[COMP_CWORD]} words=",
             "    local before=${COMP_WORDS[COMP_CWORD-1]} command=${COMP_WORDS[1]}",
             "    if [ \"$COMP_CWORD\" = 1 ] || [ \"$command\" = help ]; then",
             f"        words='{' '.join(known)} {' '.join(MAIN)}'",
             "        mapfile -t COMPREPLY < <(compgen -W \"$words\" -- \"$word\")",
             "        return", "    fi",
             "    case $command$before in"]
    for name, parser in known.items():
        for option, choices in choices_of(parser).items():
            if option:
                lines.append(f"    {name}{option}) words='{' '.join(choices)}' ;;")
    lines += ["    *)", "        case $command in"]
    for name, parser in known.items():
        words = [*names_of(parser), *choices_of(parser).get("", [])]
        lines.append(f"        {name}) words='{' '.join(words)}' ;;")
    lines += ["        esac", "        ;;", "    esac",
              "    mapfile -t COMPREPLY < <(compgen -W \"$words\" -- \"$word\")", "}",
              "complete -o default -F _aprs_net aprs-net"]
    return "\n".join(lines) + "\n"


def quoted(text: str) -> str:
    """A text within the single quotes of a shell."""
    return text.replace("'", "'\\''")


def zsh_options(parser: argv.Parser) -> List[str]:
    """The options of a command, with what may stand behind each."""
    lines = []
    for option in options(parser):
        text = re.sub(r"[\[\]:]", " ", quoted(help_of(option)))
        end = ""
        if value(option):
            words = " ".join(map(str, option.choices)) if option.choices else ""
            action = f"({words})" if words else "_files"
            end = f":{value(option).lower().replace(':', ' ').replace('|', ' ')}:{action}"
        lines += [f"            '{it}[{text}]{end}' \\" for it in option.option_strings]
    return lines


def zsh() -> str:
    known = parsers()
    lines = ["#compdef aprs-net", f"# {NOTE}", "_aprs_net() {",
             "    local command=$words[2]", "    local -a commands=("]
    for name in known:
        lines.append(f"        '{name}:{quoted(HELPS[name]).replace(':', ' ')}'")
    lines += ["        'help:says more of a command'", "    )",
              "    if (( CURRENT == 2 )) || [ \"$command\" = help ]; then",
              "        _describe command commands", "        return", "    fi",
              "    case $command in"]
    for name, parser in known.items():
        lines += [f"    {name})", "        _arguments \\", *zsh_options(parser)]
        chosen = choices_of(parser).get("")
        if chosen:
            lines.append(f"            '1:form:({' '.join(chosen)})' \\")
        lines += ["            '*:file:_files'", "        ;;"]
    lines += ["    esac", "}", '_aprs_net "$@"']
    return "\n".join(lines) + "\n"


def fish() -> str:
    lines = [f"# {NOTE}"]
    known = parsers()
    for name, words in {**HELPS, "help": "says more of a command"}.items():
        lines.append(f"complete -c aprs-net -n __fish_use_subcommand -f -a {name} "
                     f"-d '{fish_text(words)}'")
    for name in known:
        lines.append(f"complete -c aprs-net -n '__fish_seen_subcommand_from help' -f -a {name}")
    for name, parser in known.items():
        start = f"complete -c aprs-net -n '__fish_seen_subcommand_from {name}'"
        for option in options(parser):
            words_of = [f"-l {it[2:]}" if it.startswith("--") else f"-s {it[1:]}"
                        for it in option.option_strings]
            if option.choices:
                words_of.append(f"-x -a '{' '.join(map(str, option.choices))}'")
            elif value(option):
                words_of.append("-r")
            lines.append(f"{start} {' '.join(words_of)} -d '{fish_text(help_of(option))}'")
        for word in choices_of(parser).get("", []):
            lines.append(f"{start} -a {word}")
    return "\n".join(lines) + "\n"


def fish_text(text: str) -> str:
    return text.replace("\\", "\\\\").replace("'", "\\'")


def main() -> None:
    folder, version, day = sys.argv[1:]
    texts = {"aprs-net.1": page(version, day), "aprs-net.bash": bash(), "_aprs-net": zsh(),
             "aprs-net.fish": fish()}
    os.makedirs(folder, exist_ok=True)
    for name, text in texts.items():
        with open(os.path.join(folder, name), "w", encoding="utf-8", newline="\n") as file:
            file.write(text)


if __name__ == "__main__":
    main()
