#!/usr/bin/env python3
"""Checks that each sentence of the documents and manual pages can be read at once.

usage: tests/documents/sentences.py [--most WORDS] [--draw NUMBER [--seed SEED]] [FILE..]

Prints each sentence of more than 25 words, or more than --most, and each with words that need the
sentence before it; then the status is 1. A code span or a link is one word or as many as it shows,
and blocks of code are passed over. A cell of a table, an item of a list and a tag of a manual page
are texts of their own. With --draw it prints so many sentences, drawn by lot, to be read by
somebody. Without a FILE it reads README.md, CONTRIBUTING.md, CHANGELOG.md, docs/*.md and man/*.1. Needs
Python 3.9.
"""
import argparse
import glob
import os
import random
import re
import sys
from typing import Iterator, List, NamedTuple

MOST = 25
# what refers back to a sentence or a clause that one has to look for
BACK = re.compile(r"\b(of which|so was|so were|and that one|in which case)\b", re.I)
# where a sentence ends: a stop, what closes, and then what can begin the next one
END = re.compile(r"(?<![.])[.?!][)\"*_]*\s+(?=[(*_]*[A-Z0-9`\"\0])")
ITEM = re.compile(r"^\s*(?:[-*]|\d+\.)\s+")


class Text(NamedTuple):
    """A paragraph, an item, a heading or a cell: where it begins, and its words."""

    path: str
    line: int
    words: str


class Sentence(NamedTuple):
    """A sentence, where its text begins, and how many words it has."""

    path: str
    line: int
    said: str
    size: int


def texts_of_page(path: str, lines: List[str]) -> Iterator[Text]:
    """The texts of a page of Markdown, without blocks of code and comments."""
    kept: List[str] = []
    begun, inside = 0, False
    for number, line in enumerate(lines + [""], 1):
        fence = line.lstrip().startswith("```")
        alone = fence or inside or not line.strip() or line.startswith(("#", "|", "<!--"))
        if (alone or ITEM.match(line)) and kept:
            yield Text(path, begun, " ".join(kept))
            kept = []
        if fence:
            inside = not inside
        elif inside or line.startswith("<!--") or not line.strip():
            continue
        elif line.startswith("|"):
            # what stands in a cell with semicolons between is a list, and so are numbered names
            for cell in re.split(r"(?<!\\)\||; |, (?=\d+ \w)", line.strip().strip("|")):
                if not re.fullmatch(r"[\s:-]*", cell):
                    yield Text(path, number, cell.strip())
        elif line.startswith("#"):
            yield Text(path, number, line.lstrip("# "))
        else:
            if not kept:
                begun = number
            kept.append(ITEM.sub("", line, count=1) if not kept else line.strip())


def texts_of_manual(path: str, lines: List[str]) -> Iterator[Text]:
    """The texts of a manual page in roff, without blocks of examples and the head."""
    kept: List[str] = []
    begun, inside = 0, False
    for number, line in enumerate(lines + [".PP"], 1):
        macro = line.split()[0] if line.startswith(".") else ""
        if macro in (".EX", ".SY"):
            inside = True
        elif macro in (".EE", ".YS"):
            inside = False
        if macro and macro not in (".B", ".I", ".BR", ".RB", ".BI", ".IB", ".IR", ".RI"):
            if kept:
                yield Text(path, begun, " ".join(kept))
            kept = []
        elif not inside and line.strip():
            if not kept:
                begun = number
            shown = re.sub(r"\\\((lq|rq|aq)", '"', re.sub(r"\\f[BIRP]|\\&", "", line))
            words = shown.split(maxsplit=1)[1:] if macro else [shown]
            if macro and words:
                # a word of another face is a name, and may end a sentence
                name = re.sub(r"[\s\"]+", "_", words[0]).strip("_")
                words = ["`" + name.rstrip("_).,;:") + "`" + ("." if name.endswith(".") else "")]
            kept += words



def sentences(text: Text) -> Iterator[Sentence]:
    """The sentences of a text; a code span is one word, and a link what it shows."""
    shown = re.sub(r"<!--.*?-->", "", text.words)
    # a sentence may begin with a link, in small letters
    shown = re.sub(r"!?\[([^\]]*)\]\([^)]*\)", "\0\\1", shown)
    spans: List[str] = []

    def kept(span: "re.Match[str]") -> str:
        spans.append(span.group())
        return f"`{len(spans) - 1}`"

    shown = re.sub(r"(`+).+?\1", kept, shown)
    begin = 0
    for end in [match.end() for match in END.finditer(shown)] + [len(shown)]:
        said, begin = shown[begin:end].replace("\0", "").strip(), end
        size = len(re.findall(r"`\d+`|[^\s`]*\w[^\s`]*", said))
        if said:
            whole = re.sub(r"`(\d+)`", lambda span: spans[int(span.group(1))], said)
            yield Sentence(text.path, text.line, whole, size)


def sentences_of(path: str) -> List[Sentence]:
    """All sentences of a file."""
    with open(path, encoding="utf8") as file:
        lines = file.read().split("\n")
    texts = texts_of_page(path, lines) if path.endswith(".md") else texts_of_manual(path, lines)
    return [sentence for text in texts for sentence in sentences(text)]


def main() -> int:
    """Prints what is to be mended, or what was drawn."""
    words = argparse.ArgumentParser(description=__doc__.split("\n", maxsplit=1)[0])
    words.add_argument("--most", type=int, default=MOST)
    words.add_argument("--draw", type=int, default=0)
    words.add_argument("--seed", type=int)
    words.add_argument("files", nargs="*")
    given = words.parse_args()
    if not given.files:
        os.chdir(os.path.join(os.path.dirname(os.path.abspath(__file__)), "../.."))
    pages = ["README.md", "CONTRIBUTING.md", "CHANGELOG.md"]
    files = given.files or pages + sorted(glob.glob("docs/*.md")) + sorted(glob.glob("man/*.1"))
    found = [sentence for path in files for sentence in sentences_of(path)]
    if given.draw:
        whole = [it for it in found if it.size > 5]
        for it in random.Random(given.seed).sample(whole, min(given.draw, len(whole))):
            print(f"{it.path}:{it.line}: {it.said}")
        return 0
    wrong = [it for it in found if it.size > given.most or BACK.search(it.said)]
    for it in wrong:
        print(f"{it.path}:{it.line}: {it.size} words: {it.said}", file=sys.stderr)
    if not wrong:
        print(f"no sentence of the documents has more than {given.most} words")
    return 1 if wrong else 0


if __name__ == "__main__":
    sys.exit(main())
