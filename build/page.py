#!/usr/bin/env python3
"""Builds the page of page/src by esbuild.

usage: build/page.py event PAGE.html [READABLE.html]
       build/page.py reader MODULE.wasm PAGE.html [READABLE.html]

The first is the page of an event, a template that `aprs-net page` fills: a title, the data and what
may be asked for. The second reads logs, has the module in it, and saves pages of events. READABLE
is the same with a script that isn't minified. Needs Python 3.9 and esbuild.
"""
import base64
import hashlib
import json
import pathlib
import re
import shutil
import subprocess
import sys
import zlib
from typing import Dict, List

sys.path.append(str(pathlib.Path(__file__).resolve().parent.parent / "tools/src"))
from aprsbook_tools.page import event_page  # noqa: E402 (it lies there)

PAGE = pathlib.Path(__file__).resolve().parent.parent / "page"
EXAMPLE = PAGE.parent / "examples" / "evening"
MISSING = "esbuild isn't there, which builds the page (Debian: apt install esbuild)"
# what browsers have that run the module
TARGET = "es2022"
FOOTER = "Made by {} from a book of aprsbook."
# the marks in assets/shell.html that are filled when an event's page is made
LATER = {it: f"@{it}@" for it in ("TITLE", "CONNECT", "DATA", "COAST")}


def esbuild(*options: str, given: str = "", folder: pathlib.Path = PAGE) -> bytes:
    """What esbuild writes of a file, or of a text as one that lies in a folder."""
    if shutil.which("esbuild") is None:
        raise SystemExit(f"build/page.py: {MISSING}")
    command = ["esbuild", "--log-level=warning", "--charset=utf8", f"--target={TARGET}", *options]
    done = subprocess.run(command, input=given.encode(), stdout=subprocess.PIPE,
                          cwd=str(folder), check=False)
    if done.returncode:
        raise SystemExit(f"build/page.py: esbuild ended with {done.returncode}")
    return done.stdout


def bundle(entry: str, minify: bool = True, source: pathlib.Path = PAGE / "src") -> str:
    """A module and those that it imports as one script, which leaves no name behind."""
    options = ["--minify"] if minify else []
    text = esbuild(str(source / f"{entry}.js"), "--bundle", "--format=iife", *options).decode()
    if re.search("</?script", text, re.I):
        raise SystemExit(f"build/page.py: {entry}: a script that would end its own element")
    # a page has no control characters; in a minified script tabs stand in strings alone
    return text.replace("\t", "\\t") if minify else text


def asset(name: str) -> str:
    return (PAGE / "assets" / name).read_text(encoding="utf-8").strip()


def style(minify: bool) -> str:
    text = asset("page.css")
    return esbuild("--loader=css", "--minify", given=text).decode() if minify else text


def digest(text: str) -> str:
    return "'sha256-%s'" % base64.b64encode(hashlib.sha256(text.encode()).digest()).decode()


def packed(text: str) -> str:
    return base64.b64encode(zlib.compress(text.encode(), 9)).decode()


def example() -> str:
    """The logs of an evening, which the page that reads logs has with it: by names, packed."""
    logs = {it.name: it.read_text(encoding="ascii") for it in sorted(EXAMPLE.glob("*.log"))}
    return packed(json.dumps(logs))


def policy(script: str, css: str, more: str) -> str:
    """No script runs but this one, nothing is styled by others, and nothing is loaded."""
    return (f"default-src 'none'; script-src {digest(script)}{more}; style-src {digest(css)}; "
            "base-uri 'none'; form-action 'none'")


def filled(values: Dict[str, str]) -> str:
    """The shell with these values in their places."""
    return re.sub("@([A-Z]+)@", lambda it: values[it[1]], asset("shell.html") + "\n")


def event(minify: bool = True, source: pathlib.Path = PAGE / "src",
          has_coast: bool = True) -> str:
    """The page of an event, with what is filled later as marks."""
    script, css = bundle("main-event", minify, source), style(minify)
    text = filled({**LATER, "STYLE": css, "FILES": "", "POLICY": policy(script, css, ""),
                   "FOOTER": FOOTER.format("aprs-net page"), "PARTS": "", "SCRIPT": script})
    found = sorted(re.findall("@[A-Z]+@", text))
    if found != ["@COAST@", "@CONNECT@", "@DATA@", "@TITLE@", "@TITLE@"]:
        raise SystemExit(f"build/page.py: the page of an event has the marks {', '.join(found)}")
    return text.replace("@COAST@", asset("coast.txt")) if has_coast else text


def reader(module: bytes, minify: bool = True, source: pathlib.Path = PAGE / "src") -> str:
    """The page that reads logs, with this module in it, and with the page of an event but for the
    coast, which it has itself."""
    script, css = bundle("main-reader", minify, source), style(minify)
    parts = event_page.as_data({
        "worker": bundle("main-worker", minify, source),
        "module": base64.b64encode(module).decode(), "example": example(),
        "event": packed(event(minify, source, has_coast=False))})
    return filled({
        "TITLE": "aprsbook", "STYLE": css, "FILES": asset("files.html") + "\n",
        "POLICY": policy(script, css, " 'wasm-unsafe-eval'; worker-src blob:"),
        "CONNECT": "; connect-src 'self'", "FOOTER": FOOTER.format("this page"),
        "COAST": asset("coast.txt"), "DATA": "", "SCRIPT": script,
        "PARTS": f'<script type="application/json" id="parts">{parts}</script>\n'})


def put(path: pathlib.Path, text: str) -> None:
    """Writes a file, whole or not at all."""
    path.parent.mkdir(parents=True, exist_ok=True)
    new = path.with_name(path.name + ".new")
    new.write_bytes(text.encode())
    new.replace(path)


def main(words: List[str]) -> None:
    kind, given = words[:1], words[1:]
    module = given.pop(0) if kind == ["reader"] and given else ""
    if kind not in (["event"], ["reader"]) or len(given) not in (1, 2):
        raise SystemExit((__doc__ or "").split("\n\n")[1])
    for minify, path in zip((True, False), given):
        put(pathlib.Path(path), reader(pathlib.Path(module).read_bytes(), minify) if module
            else event(minify))


if __name__ == "__main__":
    main(sys.argv[1:])
