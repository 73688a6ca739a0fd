#!/usr/bin/env python3
"""Writes the completions, and the synopsis and the options of the manual pages, of one table.

usage: build/options.py            writes them
       build/options.py --check    says which of them are others, and where the table isn't what
                                   crates/aprs_arguments/src has

The table is completions/programs.txt. For a program NAME it writes completions/NAME.bash, _NAME and
NAME.fish, and in man/NAME.1 what stands between a line `.\\" made: PART` and a line `.\\" end`, or
in a new page all of SYNOPSIS and OPTIONS. A page is written by hand but for that. Needs Python 3.9.
"""
import glob
import itertools
import os
import re
import sys
import textwrap
from typing import Dict, List, NamedTuple, Set, Tuple

TABLE = "completions/programs.txt"
MADE = "made by `make options` of completions/programs.txt: change that, and not this"
# what every program has, and what is said of it
HELP, VERSION = "write help", "write the version"
NOW = "date -u +%Y-%m-%dT%H:%M:%SZ"


class Value(NamedTuple):
    """What stands behind a command: its name, the kind of file that it is, or none, whether it may
    be left out, and whether there may be several."""

    name: str
    file: str
    free: bool
    many: bool


class Row(NamedTuple):
    """A program, a command or a form; `free` is one whose word may be left out."""

    words: List[str]
    values: List[Value]
    says: str
    free: bool

    @property
    def options(self) -> List[str]:
        """The names of its options."""
        return [value.name for value in self.values if value.name.startswith("-")]

    @property
    def places(self) -> List[Value]:
        """Those of its values that are no options."""
        return [value for value in self.values if not value.name.startswith("-")]

    @property
    def path(self) -> str:
        """Its words without the program's name."""
        return " ".join(self.words[1:])


class Option(NamedTuple):
    """An option: its value, the kind of file that it is, and what completions and manual pages say
    of it."""

    value: str
    file: str
    says: str
    manual: str


def read(path: str) -> str:
    """The text of a file, or none where there is no such file."""
    if not os.path.exists(path):
        return ""
    with open(path, encoding="utf8") as file:
        return file.read()


def values_of(cell: str) -> List[Value]:
    """The values in a cell of the table."""
    found = []
    value = r"(\[([^\]]*)\]|([A-Z]+(?::\w+)?|--\w+))(\.\.)?"
    for whole, free, plain, dots in re.findall(value, cell):
        name, _, file = (free or plain).partition(":")
        found.append(Value(name, file, whole.startswith("["), bool(dots)))
    return found


def table() -> Tuple[List[Row], Dict[str, Option]]:
    """The rows of the table, and its options by name."""
    rows, options = [], {}
    for line in read(TABLE).splitlines():
        cells = [cell.strip() for cell in line.split("|")]
        if line.startswith("--"):
            name, _, value = cells[0].partition(" ")
            value, _, file = value.partition(":")
            options[name] = Option(value, file, cells[1], cells[2])
        elif line and not line.startswith("#"):
            words = cells[0].replace("[", "").replace("]", "").split()
            rows.append(Row(words, values_of(cells[1]), cells[2], "[" in cells[0]))
    return rows, options


class Program:
    """A program: its own row, and those of its commands and forms."""

    def __init__(self, name: str, rows: List[Row], options: Dict[str, Option]) -> None:
        self.name, self.options = name, options
        self.rows = [row for row in rows if row.words[0] == name]
        self.top = self.rows[0]
        # what completes it
        self.function = "_" + name.replace("-", "_")
        # it has commands, one of which has to be given
        self.nested = any(not row.free for row in self.below(self.top))

    def below(self, row: Row) -> List[Row]:
        """The commands of a program, or the forms of a command."""
        return [it for it in self.rows if it.words[:-1] == row.words]

    def words_below(self, row: Row) -> str:
        """Their names; behind `help` those of the program."""
        of = self.top if row.path == "help" else row
        return " ".join(it.words[-1] for it in self.below(of))

    def asked(self) -> Dict[str, Option]:
        """The options that the program has."""
        named = {name for row in self.rows for name in row.options}
        return {name: it for name, it in self.options.items() if name in named}


# ---- bash

BASH = """# bash completion of {name}, installed as
# $(PREFIX)/share/bash-completion/completions/{name}
# {made}
{function}() {{
    # bash parts words at colons: they are put together again where no blank stands between
    local line=$COMP_LINE piece
    local -a typed=()
    for piece in "${{COMP_WORDS[@]:0:COMP_CWORD + 1}}"; do
        if [[ ${{#typed[@]}} -eq 0 || $line == [[:blank:]]* ]]; then
            typed+=("$piece")
        else
            typed[-1]+=$piece
        fi
        line=${{line#"${{line%%[![:blank:]]*}}"}}
        line=${{line#"$piece"}}
    done
    # the commands and forms behind which the word stands
    local count=${{#typed[@]}}
    local word=${{typed[-1]}} before=${{typed[count - 2]}} path=' '
    ((count < 3)) || path+="${{typed[1]}} "
    ((count < 4)) || path+="${{typed[2]}} "
    # what may stand here beside options: words, and files or none
    local words='' options='' files=1
    COMPREPLY=()
    case $path in
{cases}
    esac
    case $before in
{values}
    *) if [[ $word == -* ]]; then words=$options files=; fi ;;
    esac
    if [[ -n $files ]]; then
        compopt -o filenames 2> /dev/null
        mapfile -t COMPREPLY < <(compgen -f -- "${{word//\\\\/}}")
    fi
    if [[ -n $words ]]; then
        mapfile -t -O "${{#COMPREPLY[@]}}" COMPREPLY < <(compgen -W "$words" -- "$word")
    fi
    # what stands before the last colon is there already
    if [[ $COMP_WORDBREAKS == *:* && $word == *:* && $word != *'\\:'* ]]; then
        COMPREPLY=("${{COMPREPLY[@]#"${{word%"${{word##*:}}"}}"}}")
    fi
}}
complete -F {function} {name}
"""


def bash_arms(program: Program, row: Row) -> List[str]:
    """The arms of a row: what may stand right behind its words, and what later."""
    path = f" {row.path} ".replace("  ", " ")
    options = " ".join(row.options + ["--help"] + ["--version"] * (row is program.top))
    below, places = program.words_below(row), row.places
    later = f"    '{path}'*) options='{options}' ;;"
    if row.path == "help":
        return [f"    '{path}') words='{below}' files= ;;", f"    '{path}'*) files= ;;"]
    if below and all(it.free for it in program.below(row)):
        return [f"    '{path}') words='{below}' options='{options}' ;;", later]
    if below:
        return [f"    '{path}') words='{below} {options}' options=$words files= ;;", later]
    if places and not places[0].file:
        return [f"    '{path}') options='{options}' files= ;;", later]
    return [later]


def bash(program: Program) -> str:
    """The completion of bash."""
    deepest_first = sorted(program.rows, key=lambda row: -len(row.words))
    arms = [line for row in deepest_first for line in bash_arms(program, row)]
    asked = program.asked()
    untold = " | ".join(name for name, it in asked.items()
                        if it.value not in ("", "MOMENT") and not it.file)
    timed = " | ".join(name for name, it in asked.items() if it.value == "MOMENT")
    values = [f"    {untold}) files= ;;"] if untold else []
    values += [f"    {timed}) words=$({NOW}) files= ;;"] if timed else []
    return BASH.format(
        name=program.name, function=program.function, made=MADE,
        cases="\n".join(arms), values="\n".join(values),
    )


# ---- zsh

ZSH = """#compdef {name}
# zsh completion of {name}, installed as $(PREFIX)/share/zsh/site-functions/_{name}
# {made}

_{name}() {{
    local curcontext=$curcontext state line
    local -a words_here
    local -a help=('(- *)'{{-h,--help}}'[{help}]')
    local -a version=('(- *)'{{-V,--version}}'[{version}]')
{body}
}}
_{name} "$@"
"""


def zsh_given(program: Program, row: Row) -> List[str]:
    """What a call of _arguments is given of the options and places of a row."""
    given = []
    for name in row.options:
        it = program.options[name]
        action = f":{it.file}:_files" if it.file else f":{it.value.lower()}: "
        given.append(f"'{name}[{it.says}]" + (f"{action}'" if it.value else "'"))
    for number, place in enumerate(row.places, 1):
        action = f"{place.file}:_files" if place.file else f"{place.name.lower()}: "
        given.append(f"'{'*' if place.many else number}:{action}'")
    return given


def zsh_words(program: Program, row: Row, margin: str) -> List[str]:
    """Lines that offer the words below a row."""
    rows = program.below(program.top if row.path == "help" else row)
    lines = [f"{margin}words_here=("]
    lines += [f"{margin}    '{it.words[-1]}:{it.says}'" for it in rows]
    return lines + [f"{margin})", f"{margin}_describe -t words word words_here"]


def zsh_row(program: Program, row: Row, margin: str) -> List[str]:
    """Lines for what stands behind the words of a row, the last of which is the first of $words."""
    below = program.below(row)
    if row.path == "help":
        inner = zsh_words(program, row, margin + "    ")
        return [f"{margin}if (( CURRENT == 2 )); then", *inner, f"{margin}fi"]
    given = ["$help"] + ["$version"] * (row is program.top)
    if not below or all(it.free for it in below):
        given += zsh_given(program, row)
        lines = zsh_words(program, row, margin + "    ") if below else []
        if lines:
            lines = [f"{margin}if (( CURRENT == 2 )); then", *lines, f"{margin}fi"]
        return lines + [f"{margin}_arguments " + f" \\\n{margin}    ".join(given)]
    lines = [f"{margin}_arguments -C {' '.join(given)} '1:word:->word' '*::rest:->rest' && return"]
    lines += [f"{margin}if [[ $state == word ]]; then", *zsh_words(program, row, margin + "    ")]
    lines += [f"{margin}else", f"{margin}    case $words[1] in"]
    for it in below:
        lines += [f"{margin}    {it.words[-1]})", *zsh_row(program, it, margin + "        ")]
        lines[-1] += " ;;"
    return lines + [f"{margin}    esac", f"{margin}fi"]


def zsh(program: Program) -> str:
    """The completion of zsh."""
    body = "\n".join(zsh_row(program, program.top, "    "))
    return ZSH.format(name=program.name, made=MADE, help=HELP, version=VERSION, body=body)


# ---- fish

FISH = """# fish completion of {name}, installed as
# $(PREFIX)/share/fish/vendor_completions.d/{name}.fish
# {made}

# whether these words stand right behind the program, and with _end nothing else
function {function}_at
    set -l words (commandline -opc)
    set -l last (math (count $argv) + 1)
    test (count $argv) -eq 0
    or begin
        test (count $words) -ge $last
        and test "$words[2..$last]" = "$argv"
    end
end
function {function}_end
    test (count (commandline -opc)) -eq (math (count $argv) + 1)
    and {function}_at $argv
end

{lines}
"""


def fish_line(program: Program, where: str, what: str, says: str = "") -> str:
    """A line `complete`: where it holds, what it offers, and what that does."""
    when = f" -n '{where.strip()}'" if where else ""
    told = f" -d '{says[0].upper() + says[1:]}'" if says else ""
    return f"complete -c {program.name}{when} {what}{told}"


def fish_row(program: Program, row: Row) -> List[str]:
    """The words below a row, its options, and where no file is wanted."""
    end = f"{program.function}_end {row.path}"
    at = f"{program.function}_at {row.path}" if row.path else ""
    lines = []
    for below in program.below(row):
        plain = "" if below.free else "-f "
        lines.append(fish_line(program, end, f"{plain}-a {below.words[-1]}", below.says))
    if row.path == "help":
        lines.append(fish_line(program, end, f"-f -a '{program.words_below(row)}'"))
    elif not program.below(row) and row.places and not row.places[0].file:
        lines.append(fish_line(program, end, "-f"))
    for name in row.options:
        it = program.options[name]
        offers = f" -a '({NOW})'" if it.value == "MOMENT" else ""
        given = " -r" if it.file else " -x" if it.value else ""
        lines.append(fish_line(program, at, f"-l {name[2:]}{given}{offers}", it.says))
    return lines


def fish(program: Program) -> str:
    """The completion of fish."""
    lines = [line for row in program.rows for line in fish_row(program, row)]
    lines.append(fish_line(program, "", "-s h -l help", HELP))
    where = f"{program.function}_end" if program.nested else ""
    lines.append(fish_line(program, where, "-s V -l version", VERSION))
    return FISH.format(
        name=program.name, function=program.function, made=MADE, lines="\n".join(lines)
    )


# ---- manual pages


def roff(text: str) -> str:
    """A text in roff, a sentence a line; what stands in backquotes is bold."""
    plain = text.replace("\\", "\\e").replace("-", "\\-")
    bold = re.sub(r"`([^`]*)`", r"\\fB\1\\fR", plain)
    return "\n".join(textwrap.fill(it, 80, break_on_hyphens=False) for it in
                     re.split(r"(?<=\.) (?=[A-Z])", bold))


def listed(words: List[str]) -> str:
    """Words with `and` before the last one."""
    return " and ".join(filter(None, [", ".join(words[:-1]), words[-1]]))


def shown(program: Program, value: Value) -> str:
    """A value as a synopsis has it."""
    it = program.options.get(value.name)
    text = f"\\fI{value.name}\\fR"
    if it:
        text = f"\\fB{roff(value.name)}\\fR" + (f"\\ \\fI{it.value}\\fR" if it.value else "")
    return (f"[{text}]" if value.free else text) + "..." * value.many


def synopsis(program: Program) -> List[str]:
    """The ways to call a program: forms of a command that take the same are one."""
    calls = [row for row in program.rows if row is program.top or not program.below(row)]
    if program.below(program.top) and not program.nested:
        calls = program.rows[1:]
    lines = []
    for (before, values), rows in itertools.groupby(calls, lambda it: (it.words[1:-1], it.values)):
        some = list(rows)
        words = "|".join(row.words[-1] for row in some if row is not program.top)
        if some[0].free:
            words = f"[{words}]"
        elif len(some) > 1:
            words = f"{{{words}}}"
        bold = " ".join([*before, words]).strip()
        lines += [f".SY {roff(program.name)}"] + ([f"\\fB{roff(bold)}\\fR"] if bold else [])
        lines += [shown(program, value) for value in values] + [".YS"]
    return lines


def manual_options(program: Program) -> List[str]:
    """The options, each with the commands that take it."""
    lines: List[str] = []
    for name, it in program.asked().items():
        takers = [row for row in program.rows if name in row.options]
        told = "" if takers[0] is program.top else listed([f"`{row.path}`" for row in takers])
        if len(takers) == len(program.rows) - 1:
            told = ""
        said = f"With {told}: {it.manual}" if told else it.manual[0].upper() + it.manual[1:]
        lines += [".TP", f'.BI {roff(name)} " {it.value}"' if it.value else f".B {roff(name)}"]
        lines += [roff(said)]
    for short, name, says in (("h", "help", HELP), ("V", "version", VERSION)):
        behind = ". After a command, write help on that" if program.nested and name == "help" else ""
        lines += [".PP", ".PD 0", ".TP", f".B \\-{short}", ".TP", f".B \\-\\-{name}", ".PD"]
        lines += [f"{says.capitalize()}{behind}."]
    return lines


def with_part(page: str, path: str, part: str, lines: List[str]) -> str:
    """A page with a part made anew: what stands between two lines, or in a new page all of it."""
    mark, end = f'.\\" made: {part}\n', '.\\" end\n'
    before, found, rest = page.partition(mark)
    after = rest.partition(end)[2]
    if not found:
        before, found, rest = page.partition(f".SH {part}\n")
        before += found
        after = rest[("\n" + rest).find("\n.SH ") :]
    if not found or not after:
        sys.exit(f"build/options.py: {path} has no {part}, or nothing behind it")
    return before + mark + "\n".join(lines) + "\n" + end + after


def manual(program: Program) -> str:
    """The manual page as it is, with its parts that are made."""
    path = f"man/{program.name}.1"
    page = with_part(read(path), path, "SYNOPSIS", synopsis(program))
    return with_part(page, path, "OPTIONS", manual_options(program))


# ---- all of it, and the sources


def made(program: Program) -> Dict[str, str]:
    """What is written of a program, by file."""
    return {
        f"completions/{program.name}.bash": bash(program),
        f"completions/_{program.name}": zsh(program),
        f"completions/{program.name}.fish": fish(program),
        f"man/{program.name}.1": manual(program),
    }


def in_sources(program: Program) -> Tuple[Set[str], Set[str]]:
    """The words and the options that the sources have of a program."""
    words: Set[str] = set()
    options: Set[str] = set()
    for path in glob.glob("crates/aprs_arguments/src/*.rt"):
        text = read(path)
        if f'Command::new(alloc, "{program.name}")' in text:
            words |= set(re.findall(r'[cC]ommand(?:::new)?\(\s*alloc,\s*"([\w-]+)"', text))
            words |= set(re.findall(r'PossibleValue::new\("([\w-]+)"\)', text))
            words |= {"help"} if ".subcommand(" in text else set()
            if "Table::named(" in text:
                tables = read("crates/aprs_arguments/src/jobs.rt")
                words |= set(re.findall(r'if name == b"([a-z]+)"', tables))
            options |= {f"--{it}" for it in re.findall(r'option_arg\(\s*alloc,\s*"([\w-]+)"', text)}
            options |= {f"--{it}" for it in re.findall(r'\.long\("(\w+)"\)', text)}
            options |= {"--gap"} if "gap_arg(alloc)" in text else set()
    return words - {program.name}, options


def check(program: Program) -> List[str]:
    """What isn't as it has to be: files that are others, and words that differ from the sources."""
    files = made(program).items()
    wrong = [f"{path} is another one: make options" for path, text in files if read(path) != text]
    words, options = in_sources(program)
    told = {row.words[-1] for row in program.rows[1:]}
    for kind, mine, theirs in (("words", told, words), ("options", set(program.asked()), options)):
        if mine != theirs:
            differ = " ".join(sorted(mine ^ theirs))
            wrong.append(f"{TABLE}: {kind} of {program.name} differ from the sources': {differ}")
    return wrong


def main() -> int:
    """Writes the files, or checks them."""
    os.chdir(os.path.join(os.path.dirname(os.path.abspath(__file__)), ".."))
    rows, options = table()
    names = list(dict.fromkeys(row.words[0] for row in rows))
    programs = [Program(name, rows, options) for name in names]
    built = re.search(r"^PROGRAMS = (.*)$", read("Makefile"), re.M)
    wrong = []
    if not built or built.group(1).split() != names:
        wrong.append(f"{TABLE} has other programs than the Makefile's PROGRAMS: {' '.join(names)}")
    if sys.argv[1:] == ["--check"]:
        wrong += [said for program in programs for said in check(program)]
    else:
        files = [file for program in programs for file in made(program).items()]
        for path, text in files:
            with open(path, "w", encoding="utf8") as file:
                file.write(text)
    for said in wrong:
        print(f"build/options.py: {said}", file=sys.stderr)
    if not wrong and sys.argv[1:]:
        print("completions and manual pages have the table's options, and the table the sources'")
    return 1 if wrong else 0


if __name__ == "__main__":
    sys.exit(main())
