#!/usr/bin/env python3
"""Makes the pictures of docs/evening.md, once the race is over and while its other commands run.

usage: tests/browser/guide.py FOLDER    the folder of the guide's commands, with gate.token in it
"""
import base64
import pathlib
import sys

from browser import Chromium

DOCS = pathlib.Path(__file__).resolve().parent.parent.parent / "docs"
PAGE = "https://localhost:8443/"
SIZE = 1280, 800


def take(page: Chromium, name: str) -> None:
    """Writes a picture of the window into docs/."""
    page.settle()
    shot = page.call("Page.captureScreenshot", format="webp", quality=70)
    (DOCS / name).write_bytes(base64.b64decode(shot["data"]))


def enter(page: Chromium, token: str) -> None:
    """Comes in as a desk."""
    page.open(PAGE, *SIZE)
    page.js(f"document.querySelector('input').value = {token!r}")
    page.js("document.querySelector('form').requestSubmit()")
    page.wait("document.body.innerText.includes('transmissions of')")


def say(page: Chromium, **fields: str) -> None:
    """Adds a line of voice traffic."""
    page.js("document.getElementById('ics-open').click()")
    for name, text in fields.items():
        page.js(f"document.getElementById('own-{name}').value = {text!r}")
    page.js("document.getElementById('own-add').click()")


def main() -> int:
    folder = pathlib.Path(sys.argv[1])
    page = Chromium(takes_any_certificate=True)
    try:
        enter(page, (folder / "gate.token").read_text().strip())
        take(page, "evening-wall.webp")
        say(page, **{"from": "Gate 1", "to": "NET", "text": "118 retired at CP2, is driven down"})
        page.js("document.getElementById('ics-sheets').scrollIntoView()")
        take(page, "evening-desk.webp")
    finally:
        page.close()
    return 0


if __name__ == "__main__":
    sys.exit(main())
