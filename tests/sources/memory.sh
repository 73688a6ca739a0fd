#!/bin/sh
# Checks that no source makes up a want of memory. `Memory` of aprs_rows has a private part, so the
# compiler refuses one that is made outside its file; there it is made of an `AllocError`, or by
# `past_all_sizes`, which is called only where the list below says. Of the faults with a value
# `Memory`, and of what an allocation answers, `AllocError` and `AllocFailed`, the list has each
# source that makes or names one, how often, and why. No import gives such a value, or such a type,
# another name, by which it wouldn't be counted; the script tries first whether it refuses these.
# Needs a POSIX system and Python 3.
set -eu
export LC_ALL=C
cd "$(dirname "$0")/../.."
PYTHONPATH=build python3 - << 'end'
import glob
import re
import sys

from rattle_text import masked, read

# how often each source makes a fault of memory
MAKERS = {
    # of an allocation that failed, and where no memory would serve
    "aprs_rows/src/memory.rt": 3,
    # where the number of rows passes the last number, or a row's names of receivers take 4 GiB
    "aprs_book/src/rows/keyed.rt": 1,
    "aprs_book/src/rows/slot.rt": 1,
    "aprs_book/src/stored.rt": 1,
    "aprs_rows/src/store/open_row.rt": 1,
    # the fault that a call answers for the `Memory` of a call below
    "aprs_book/src/book.rt": 3,
    "aprs_bookfile/src/fault.rt": 1,
    "aprs_bookfile/src/row_stream.rt": 1,
    "aprs_bookfile/src/row_reader.rt": 4,
    "aprs_fold/src/fault.rt": 1,
    "aprs_fold/src/opening.rt": 1,
    "aprs_fold/src/taking.rt": 1,
    "aprs_runs/src/fault.rt": 2,
    "aprs_runs/src/fold.rt": 1,
    "aprs_runs/src/gathered.rt": 2,
    "aprs_runs/src/merge.rt": 1,
    "aprs_runs/src/widen.rt": 1,
    "aprs_web/src/written.rt": 4,
    # the same for clap's want of memory, and for that of an opening
    "aprs_arguments/src/arguments.rt": 1,
    "aprs_arguments/src/jobs.rt": 1,
    "aprs_host/src/complaint.rt": 5,
    "aprs_host/src/host.rt": 5,
    "aprs_host/src/news.rt": 5,
    "aprs_host/src/opening.rt": 4,
    "aprs_host/src/texts.rt": 1,
}
# how often each source names what an allocation answers
NAMERS = {
    "aprs_rows/src/memory.rt": 1,
    "aprs_arguments/src/jobs.rt": 1,
    # the allocator of the library for C, where its region is full
    "aprs_arena/src/arena.rt": 1,
}

TESTS = re.compile(r"/aprs_(\w*tests|fixtures)/")

# what gives a want of memory a name of its own, and what doesn't: a text each
HIDING = (
    "use aprs_tool::RunFault::Memory;",
    "use aprs_tool::RunFault::*;",
    "use aprs_tool::RunFault::Memory as Why;",
    "use aprs_tool::RunFault::{Device, Memory};",
    "use aprs_tool::{InputFault, RunFault::{\n    Memory as Why,\n}};",
    "use aprs_tool::{InputFault, RunFault::{self, *}};",
    "pub(crate) use crate::fault::RunFault::Memory;",
    "fn f() {\n    use RunFault::Memory;\n}",
    "use std::io::ErrorKind::OutOfMemory;",
    "use std::alloc::AllocError as Full;",
    "use std::alloc::{AllocFailed as Full, Global};",
    "use aprs_rows::Memory as Full;",
    "use aprs_tool::RunFault as fault;",
    "type Full = aprs_rows::Memory;",
    "type fault = RunFault;",
    "use aprs_tool::RunFault::{self as fault};",
)
OPEN = (
    "use aprs_rows::{Join, Memory};",
    "pub use memory::Memory;",
    "use std::alloc::{AllocError, Global};",
    "use aprs_tool::{InputFault, RunFault};",
    "use aprs_tool::RunFault as Fault;",
    "use std::io::Write as _;",
    "use crate::inputs::*;",
    "ghost use Rattle.aprs_tool.src.fault.RunFault.{Memory};",
    "// use aprs_tool::RunFault::Memory;",
    "type Rows = Vec<Row>;",
)
# each counts as one that is made
MAKING = (
    "Err(RunFault::Memory)",
    "Err(F::Memory)",
    "Err(<RunFault>::Memory)",
    "Err(ErrorKind::OutOfMemory.into())",
    "Err(Memory::past_all_sizes().into())",
)


def code_of(path):
    """The code without comments, imports and clauses."""
    lines, clause = [], 0
    for line in masked(read(path)).split("\n"):
        if clause or re.match(r" *(ensures|requires|ghost)\b.*\{", line):
            clause += line.count("{") - line.count("}")
            continue
        if not re.match(r" *(pub )?(ghost )?use ", line):
            lines.append(line)
    return "\n".join(lines)


def made(code):
    """How often the code makes a fault of memory."""
    values = r"\b(?:\w+::)?Memory(?= \{ \w)|Memory::past_all_sizes\(\)"
    values += r"|(?<!== )(?:\b[A-Z]\w*|>)::(?:OutOf)?Memory\b(?!\)? (?:=>|if\b))"
    return len(re.findall(values, code))


def parted(listed):
    """The parts of a list between its commas, but for those within further brackets."""
    parts, depth = [""], 0
    for mark in listed:
        depth += (mark == "{") - (mark == "}")
        if mark == "," and depth == 0:
            parts.append("")
        else:
            parts[-1] += mark
    return parts


def named_by(tree):
    """Each path of an import, and what it is called here instead, which may be nothing."""
    tree = tree.strip()
    if tree.endswith("}"):
        before, _, listed = tree[:-1].partition("{")
        for part in parted(listed):
            for path, name in named_by(part):
                yield re.sub(r"::self$", "", before + path), name
    elif tree:
        path, _, name = tree.partition(" as ")
        yield path, name


def hidden(text):
    """The imports and types in a text by which a want of memory has another name."""
    code, found = masked(text), []
    for ghost, tree in re.findall(r"(\bghost\s+)?\buse\s+([\w:{}*,\s]+);", code):
        for path, name in [] if ghost else named_by(" ".join(tree.split())):
            *above, last = path.split("::")
            of_type = bool(above) and re.match(r"[A-Z]", above[-1])
            if (
                of_type and last in ("*", "Memory", "OutOfMemory")
                or name and last in ("Memory", "AllocError", "AllocFailed")
                or re.match(r"[A-Z]", last) and re.match(r"[a-z]", name)
            ):
                found.append(f"use {path} as {name}" if name else f"use {path}")
    return found + re.findall(
        r"\btype (?:[a-z]\w* =|\w+ = (?:\w+::)*(?:Memory|AllocError|AllocFailed);)", code
    )


failed = False
for text in HIDING:
    if not hidden(text):
        print(f"tests/sources/memory.sh: doesn't refuse `{text}`")
        failed = True
for text in OPEN:
    if hidden(text):
        print(f"tests/sources/memory.sh: refuses `{text}`")
        failed = True
for text in MAKING:
    if made(text) != 1:
        print(f"tests/sources/memory.sh: counts {made(text)} in `{text}`")
        failed = True
for path in sorted(glob.glob("crates/*/src/**/*.rt", recursive=True)):
    for text in hidden(read(path)):
        print(f"tests/sources/memory.sh: {path} hides a want of memory: {text}")
        failed = True
    if TESTS.search(path):
        continue
    code, short = code_of(path), path[len("crates/"):]
    named = len(re.findall(r"\bAlloc(?:Error|Failed)\b(?![<>])", code))
    for what, found, known in (
        ("makes a fault of memory", made(code), MAKERS),
        ("names an allocation's answer", named, NAMERS),
    ):
        if found != known.get(short, 0):
            print(f"tests/sources/memory.sh: {path} {what} {found} times, not {known.get(short, 0)}")
            failed = True
sys.exit(failed)
end
echo 'each want of memory is one that an allocation answered'
