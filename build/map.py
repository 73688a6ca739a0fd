#!/usr/bin/env python3
"""Prints docs/architecture.md with its map drawn anew, or with --index docs/calls/README.md: what
crates.txt says of each crate and calls the floors, and the first sentence of each lib.rt. Needs
Python 3.
"""
import os
import re
import sys
from typing import Dict, List, Set, Tuple

sys.dont_write_bytecode = True
from rattle_text import read, sentences

PAGE = "docs/architecture.md"
INDEX = """# The crates

<!-- made by `make reading`: change the sources and not this page -->

Each crate, from the highest floor of [the map](../architecture.md#the-map), with what it is. The last
column has the highest crates that it stands on. It may call those below them too, and `crates.txt`
also names crates of the kit. A crate that others call has a page with a caller and its contracts.
"""


def under_each() -> Dict[str, Set[str]]:
    """The crates under each, lowest crates first."""
    under: Dict[str, Set[str]] = {}
    for crate, listed in re.findall(r"^([a-z]\w*)[a-z ]*:(.*)", read("crates.txt"), re.M):
        direct = [it for it in under if it in listed.split()]
        under[crate] = set(direct).union(*(under[it] for it in direct))
    return under


def floors() -> List[Tuple[int, str, List[str]]]:
    """The floors, from above: each with its crates, right above the highest that they call."""
    [names] = re.findall(r"^# floors of the map, from below: (.*)", read("crates.txt"), re.M)
    named = names.split("; ")
    up: Dict[str, int] = {}
    for crate, below in under_each().items():
        up[crate] = 1 + max((up[it] for it in below), default=-1)
    if len(named) != max(up.values()) + 1:
        sys.exit(f"build/map.py: crates.txt names {len(named)} floors, of {max(up.values()) + 1}")
    found = [(n, name, [crate for crate in up if up[crate] == n]) for n, name in enumerate(named)]
    return found[::-1]


def drawn() -> List[str]:
    """The lines of the map."""
    lines = ["```text"]
    for n, name, here in floors():
        lines.append(f"{n:<2} {name:<19} {' '.join(f'{crate:<18}' for crate in here)}".rstrip())
    return lines + ["```"]


def index() -> str:
    """The page that says what each crate is."""
    under, says = under_each(), sentences()
    rows = ["| crate | is | stands on |", "|---|---|---|"]
    for crate in [crate for _, _, here in floors() for crate in here]:
        # those on which it stands through no other
        through = set().union(*(under[it] for it in under[crate]))
        direct = [f"`{it}`" for it in under if it in under[crate] - through]
        name = f"[`{crate}`]({crate}.md)" if os.path.exists(f"docs/calls/{crate}.md") else f"`{crate}`"
        rows.append(f"| {name} | {says[crate]} | {', '.join(direct) or 'none'} |")
    return "\n".join([INDEX] + rows)


if sys.argv[1:] == ["--index"]:
    print(index())
else:
    before, _, rest = read(PAGE).partition("<!-- the map")
    about, _, rest = rest.partition("\n")
    after = rest.partition("<!-- end of the map")[2]
    print("\n".join([before + "<!-- the map" + about] + drawn()), end="\n<!-- end of the map" + after)
