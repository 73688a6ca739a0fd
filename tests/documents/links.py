#!/usr/bin/env python3
"""Checks that each link of the documents leads to a file of this repository, and to a heading there.

usage: tests/documents/links.py

Links to other sites aren't looked at. Needs Python 3.9.
"""
import glob
import os
import re
import sys
from typing import Iterator, List, Set

LINK = re.compile(r"\]\(([^)#\s]*)(?:#([^)\s]+))?\)")


def lines_of(path: str) -> List[str]:
    """The lines of a page without blocks of code."""
    kept: List[str] = []
    inside = False
    with open(path, encoding="utf8") as file:
        for line in file:
            if line.lstrip().startswith("```"):
                inside = not inside
            kept.append("" if inside else line)
    return kept


def anchors_of(path: str) -> Set[str]:
    """The anchors that a page's headings have, and those that it names itself."""
    found: Set[str] = set()
    for line in lines_of(path):
        found.update(re.findall(r'<a (?:id|name)="([^"]+)"', line))
        if heading := re.match(r"#+ (.*)", line):
            shown = re.sub(r"\[([^\]]*)\]\([^)]*\)", r"\1", heading[1]).replace("`", "")
            found.add(re.sub(r"[^\w\- ]", "", shown.strip().lower()).replace(" ", "-"))
    return found


def wrong_links(path: str) -> Iterator[str]:
    """What is wrong with each link of a page."""
    for number, line in enumerate(lines_of(path), 1):
        for to, anchor in LINK.findall(line):
            if "://" in to:
                continue
            target = os.path.normpath(os.path.join(os.path.dirname(path), to)) if to else path
            if not os.path.exists(target):
                yield f"{path}:{number}: there is no {to}"
            elif anchor and target.endswith(".md") and anchor.lower() not in \
                    {it.lower() for it in anchors_of(target)}:
                yield f"{path}:{number}: {target} has no heading #{anchor}"


def main() -> int:
    """Prints what is wrong."""
    os.chdir(os.path.join(os.path.dirname(os.path.abspath(__file__)), "../.."))
    pages = glob.glob("*.md") + glob.glob("docs/*.md") + ["examples/README.md", "tools/README.md"]
    wrong = [said for path in sorted(pages) for said in wrong_links(path)]
    for said in wrong:
        print(f"tests/documents/links.py: {said}", file=sys.stderr)
    if not wrong:
        print("each link of the documents leads somewhere")
    return 1 if wrong else 0


if __name__ == "__main__":
    sys.exit(main())
