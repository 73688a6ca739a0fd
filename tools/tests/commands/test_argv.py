"""What was typed, and help."""
import argparse
import os
import re
import shlex
import signal
import subprocess
import sys
from typing import List

import pytest
from conftest import command, environment, tried
from standing import Programs, place

from aprsbook_tools import VERSION, argv, commands
from aprsbook_tools.errors import Fault

ALL = [*commands.NAMES, *commands.HIDDEN]


def parsed(*words: str) -> argparse.Namespace:
    return argv.parse(argv.parser_of(words[0]), words[1:])


@pytest.mark.parametrize("words", [["--version"], ["--help"], ["log", "--help"], ["help", "log"]])
def test_help_that_nobody_takes_is_a_fault(words: "list[str]") -> None:
    if not os.path.exists("/dev/full"):
        pytest.skip("needs /dev/full")
    with open("/dev/full", "wb") as full:
        done = subprocess.run(command(*words), env=environment(), stdout=full,
                              stderr=subprocess.PIPE)
    assert (done.returncode, done.stderr.count(b"\n")) == (3, 1), done.stderr


@pytest.mark.parametrize("words", [
    ["tracks", "--format", "gpx", "-o", "out", "net.log"],
    ["tracks", "-o", "out", "--format", "gpx", "net.log"],
    ["tracks", "net.log", "--format", "gpx", "-o", "out"],
    ["tracks", "--format", "gpx", "net.log", "--gap", "60", "--output", "out"],
    ["tracks", "-o", "out", "--format", "gpx", "--", "net.log"],
    ["tracks", "--format", "gpx", "--", "net.log", "-x.log"]])
def test_options_stand_anywhere(words: "list[str]") -> None:
    args = parsed(*words)
    assert args.inputs[0] == "net.log" and args.format == "gpx"


def test_what_stands_behind_two_dashes_is_no_option() -> None:
    args = parsed("page", "--gap", "60", "--", "-x.log", "--y", "z")
    assert args.inputs == [os.path.join(".", it) for it in ("-x.log", "--y")] + ["z"]
    assert parsed("page", "--", "-x.log").inputs == ["./-x.log"]


def test_what_lies_south_and_west_or_ago_is_no_option() -> None:
    args = parsed("keeper", "--at", "-33.5,151.2", "--at", "RX1=-1,-2", "x.log")
    assert args.at == ["-33.5,151.2", "RX1=-1,-2"] and args.inputs == ["x.log"]
    assert parsed("import", "--zone", "-05:00", "monitor").zone == ["-05:00"]
    for words in ["-5", "x.log"], ["--", "-5", "x.log"], ["x.log", "--to", "2024-06-21T18:00:00Z"]:
        numbers = [] if "-5" in words else ["-5"]
        assert parsed("shift", *numbers, *words).seconds == -5
    assert parsed("tracks", "--from", "-2h").since < parsed("tracks", "--from", "-1h").since


def test_what_isn_t_known_is_refused(programs: Programs) -> None:
    programs.run("tracks", "net.log", "--nowhere", status=2)
    programs.run("nothing", status=2)
    programs.run("--nowhere", "tracks", status=2)
    assert "usage: aprs-net tracks" in programs.run("tracks", "--help")


def test_an_option_is_never_abbreviated() -> None:
    """A script would break once another option begins alike."""
    with pytest.raises(Fault, match="no option is called --zo; did you mean --zone"):
        parsed("import", "--zo", "UTC", "monitor")
    with pytest.raises(Fault, match="no option is called --form"):
        parsed("tracks", "--form=csv")


@pytest.mark.parametrize("word, meant", [
    ("trakcs", "tracks"), ("lastheard", "last-heard"), ("ics309", "aprs-net ics-309"),
    ("merge", "aprs-net book"), ("show", "aprsbook show"), ("gpx", "aprs-net tracks --format gpx"),
    ("map", "aprs-net page"), ("MERGE", "aprs-net book")])
def test_what_was_meant_is_said(programs: Programs, word: str, meant: str) -> None:
    programs.run(word, status=2)
    assert f"did you mean {meant}" in programs.said and programs.said.count("\n") == 1


@pytest.mark.parametrize("words", [
    ["log", "--kiss", "localhost:8001", "RX1", "logs"], ["log", "localhost:8001", "RX1"]])
def test_where_a_tnc_is_was_typed_otherwise(programs: Programs, words: "list[str]") -> None:
    """It said of the name that it isn't of 1 to 16 letters, and not what is wrong."""
    programs.run(*words, status=2)
    assert "did you mean --connect" in programs.said or "stands behind --connect" in programs.said


def test_nothing_is_the_help_and_wrong(programs: Programs) -> None:
    assert programs.run(status=2) == ""
    shown = programs.run("--help")
    assert programs.said == "" and shown == programs.run("help") == programs.run("-h")
    programs.run(status=2)
    assert programs.said == shown
    listed = re.findall(r"(?m)^  ([a-z0-9-]+) {2,}", shown)
    assert listed == commands.NAMES and "job" not in listed
    assert shown.count("\n  aprs-net ") == 2


@pytest.mark.parametrize("words", [["-V"], ["--version"], ["-q", "-V"]])
def test_the_version(programs: Programs, words: "list[str]") -> None:
    assert programs.run(*words) == f"aprs-net {VERSION}\n"


@pytest.mark.parametrize("name", ALL)
def test_help_of_each_command(programs: Programs, monkeypatch: pytest.MonkeyPatch, name: str
                              ) -> None:
    monkeypatch.setenv("COLUMNS", "200")
    shown = programs.run("help", name)
    assert shown == programs.run(name, "--help") == programs.run(name, "-h")
    assert max(map(len, shown.splitlines())) <= 80, shown
    assert "\nexamples:\n  " in shown
    assert max(map(len, programs.run("help").splitlines())) <= 80


def test_help_says_what_to_type(programs: Programs) -> None:
    """It had each sign of a percentage twice, which Dire Wolf prints as it stands."""
    assert " -T %Y-%m-%dT%H:%M:%S\n" in programs.run("help", "import")


@pytest.mark.parametrize("words", [["-qh"], ["--from", "-2h", "-h"], ["net.log", "--help"]])
def test_help_has_the_usage_however_it_is_asked_for(programs: Programs, words: "list[str]"
                                                    ) -> None:
    shown = programs.run("tracks", *words)
    assert shown == programs.run("help", "tracks") and "[INPUT ...]" in shown


def commands_in(example: str) -> List[List[str]]:
    """The words of each aprs-net of an example, to a | or another sign of the shell."""
    found: List[List[str]] = []
    words = shlex.split(example)
    for at, word in enumerate(words):
        if word == "aprs-net":
            end = next((it for it in range(at, len(words)) if words[it] in ("|", "&&")), len(words))
            found.append(words[at + 1:end])
    return found


@pytest.mark.parametrize("name", ALL)
def test_examples_are_right(name: str) -> None:
    examples = argv.module_of(name).EXAMPLES
    assert 1 <= len(examples) <= 3
    typed = [it for _, example in examples for it in commands_in(example)]
    assert name in [it[0] for it in typed]
    for words in typed:
        parsed(*words)


@pytest.mark.parametrize("words", [["-q", "tracks"], ["tracks", "-q"], ["tracks", "--quiet"]])
def test_what_goes_well_is_quiet(programs: Programs, words: "list[str]") -> None:
    programs.say(place("18:00", "Q1A", 1, 2))
    programs.run(*words, "net.log")
    assert programs.said == ""


@pytest.mark.parametrize("words", [["-v", "tracks"], ["tracks", "--verbose"]])
def test_what_is_run_is_said(programs: Programs, words: "list[str]") -> None:
    programs.run(*words, "net.log")
    assert programs.said == "aprs-net: runs aprsbook-table -- net.log\n"
    programs.run("tracks", "net.log")
    assert programs.said == ""


def test_a_reader_that_ends_early_ends_it_without_a_word(programs: Programs) -> None:
    """It said that the pipe is broken, with status 3, which stops a script under pipefail."""
    fields = programs.folder / "fields"
    fields.write_text("x\n" * 200_000)
    process = subprocess.Popen(command("csv", "--table", "fields", fields), env=environment(),
                               stdout=subprocess.PIPE, stderr=subprocess.PIPE)
    assert process.stdout is not None and process.stderr is not None
    assert process.stdout.readline() == b"x\n"
    process.stdout.close()
    assert process.wait(20) == -signal.SIGPIPE and process.stderr.read() == b""
    process.stderr.close()


@pytest.mark.parametrize("words", [["--help"], ["--version"], ["help"]])
def test_no_command_is_imported_for_help(words: "list[str]") -> None:
    script = ("import sys; from aprsbook_tools import cli; cli.main(sys.argv[1:]); "
              "sys.exit(' '.join(it for it in sys.modules if it.startswith("
              "('aprsbook_tools.commands.', 'argparse', 'urllib', 'email', 'tempfile')) and "
              "it != 'tempfile') or 0)")
    subprocess.run([sys.executable, "-c", script, *words], env=environment(), check=True,
                   stdout=subprocess.DEVNULL)


# what takes longer to import than a small report takes
LARGE = ("bz2 csv concurrent.futures dataclasses datetime inspect json logging lzma random shutil "
         "tempfile textwrap").split()


def test_a_report_imports_nothing_large(programs: Programs) -> None:
    programs.say(place("18:00", "Q1A", 1, 2), place("18:01", "Q1A", 1, 2))
    script = ("import sys; from aprsbook_tools import cli; cli.main(sys.argv[1:]); "
              f"sys.exit(' '.join(it for it in {LARGE!r} if it in sys.modules) or 0)")
    for name in "last-heard", "stations", "messages":
        subprocess.run([sys.executable, "-S", "-c", script, name, "net.log"], check=True,
                       env=environment(), stdout=subprocess.DEVNULL)


@pytest.mark.parametrize("name", commands.NAMES)
def test_no_command_imports_another(name: str) -> None:
    script = (f"import sys; from aprsbook_tools import argv; argv.parser_of({name!r}); "
              "found = [it for it in sys.modules if it.startswith('aprsbook_tools.commands.')]; "
              "found += [it for it in sys.modules if it in ('urllib.request', 'email', 'http')]; "
              "sys.exit(' '.join(found[1:]) or 0)")
    subprocess.run([sys.executable, "-c", script], env=environment(), check=True)


def test_standard_input_is_a_dash(programs: Programs) -> None:
    programs.say(place("18:00", "Q1A", 1, 2))
    for name in "tracks", "last-heard", "places", "stations", "messages", "ics-309":
        for words in [name], [name, "-"], [name, "--", "-"]:
            tried(*words, cwd=programs.folder)
            assert programs.calls[-1].split()[0] == "aprsbook-table" and \
                "--" not in programs.calls[-1].split()
    tried("last-heard", "-", "net.log", cwd=programs.folder)
    assert programs.calls[-1].split(" -- ")[1].endswith("standard input net.log") or \
        programs.calls[-1].split(" -- ")[1].startswith("net.log")
