#!/usr/bin/env python3
"""An evening in two places, each a network namespace, over a link that is good, slow, and cut. The
site's command logs its TNC and pushes, and a desk in each place has the page. Says after how long
an emergency is on each desk's screen, and after how long all is there once the link is again.

usage: bench/two_places.py [--seconds N] [--browser Firefox] [--pictures FOLDER] PAGE

PAGE is aprsbook.html; the link is cut for N seconds (15). Needs root, ip, Python 3.9, Debian's
python3-tornado, python3-selenium and a browser, and aprsbook in the PATH.
"""
import argparse
import contextlib
import json
import os
import pathlib
import socket
import subprocess
import sys
import tempfile
import time
from typing import Any, Callable, Iterator, List, Tuple

HERE = pathlib.Path(__file__).resolve().parent
SOURCES = HERE.parent / "tools/src"
sys.path += [str(SOURCES), str(HERE.parent / "tests/browser")]
from aprsbook_tools.formats import ax25, kiss  # noqa: E402 (they lie there)
from aprsbook_tools.serving import tokens  # noqa: E402

BASE, PORT = "10.99.0.1", 8080
TNC = 8001
DAY = time.strftime("%Y-%m-%d", time.gmtime())
MICE = b"`):&l \x1c>/"  # a place in Mic-E, of the destination below
EMERGENCY = "543P0P"  # its message bits are 000: an emergency
# where packets go: from a device in one namespace to one in another, with an address for the ends
WIRES = [("aprs-base", "base0", f"{BASE}/24", "aprs-link", "link0"),
         ("aprs-site", "site0", "10.99.0.2/24", "aprs-link", "link1")]
WAYS = {"good": "0 0 0 0", "slow": "150 100 0.02 0.1", "cut": "0 0 1 0"}
SEES = ("new Promise(done => { const look = () => document.getElementById('news').textContent"
        ".includes(%s) ? requestAnimationFrame(() => done(Date.now())) : setTimeout(look, 10);"
        "look(); })")
LINES = "aprsbook.page.own.lines.map(it => it.text).sort().join('|')"


def ip(*words: str) -> None:
    subprocess.run(["ip", *words], check=True)


def within(place: str, *words: str, **more: Any) -> "subprocess.Popen[str]":
    """A program that runs in a namespace."""
    env = {**os.environ, "PYTHONPATH": str(SOURCES)}
    return subprocess.Popen(["ip", "netns", "exec", place, *words], env=env, text=True, **more)


def own(place: str, *words: str) -> "subprocess.Popen[str]":
    """This script or that of the link in a namespace, which is asked by lines."""
    return within(place, sys.executable, *words, stdin=subprocess.PIPE, stdout=subprocess.PIPE)


def command(place: str, *words: str, said: pathlib.Path) -> "subprocess.Popen[str]":
    with open(said, "a", encoding="utf-8") as file:
        return within(place, sys.executable, "-m", "aprsbook_tools", *words, stderr=file)


def tell(to: "subprocess.Popen[str]", line: str) -> None:
    assert to.stdin
    to.stdin.write(line + "\n")
    to.stdin.flush()


def wait_for(condition: Callable[[], Any], seconds: float = 120) -> float:
    """Waits until a condition holds; after how many seconds it does."""
    begun = time.monotonic()
    while not condition():
        if time.monotonic() > begun + seconds:
            raise SystemExit("bench/two_places.py: waited in vain")
        time.sleep(.02)
    return time.monotonic() - begun


class Desk:
    """A desk's browser, in the namespace of its place."""

    def __init__(self, place: str, browser: str, name: str, token: str) -> None:
        self.process = own(place, __file__, "--desk", browser, f"http://{BASE}:{PORT}/", name,
                           token)
        self.get()

    def ask(self, text: str) -> None:
        tell(self.process, json.dumps(text))

    def get(self) -> Any:
        assert self.process.stdout
        return json.loads(self.process.stdout.readline())

    def js(self, text: str) -> Any:
        self.ask(text)
        return self.get()

    def say(self, text: str) -> None:
        """Adds a line of voice traffic."""
        self.js("(document.getElementById('ics-open').click(), "
                f"document.getElementById('own-text').value = {json.dumps(text)}, "
                "document.getElementById('own-add').click(), "
                "document.getElementById('ics-close').click())")

    def has_line(self, text: str) -> bool:
        return text in str(self.js(LINES)).split("|")


class Evening:
    """A base and a site, the link between them, and a desk at each."""

    def __init__(self, folder: pathlib.Path, page: str, browser: str) -> None:
        self.folder, self.logs, self.site = folder, folder / "logs", folder / "site"
        self.number = 0
        self.running: List["subprocess.Popen[str]"] = []
        names = {name: tokens.add(str(folder / "tokens"), kind, name)
                 for kind, name in [("receiver", "HILL"), ("desk", "BASE"), ("desk", "GATE")]}
        (folder / "hill.token").write_text(names["HILL"])
        self.link = self.begin(own("aprs-link", str(HERE / "slow_link.py"), "link", "link0",
                                   "link1"))
        self.tnc = self.begin(own("aprs-site", __file__, "--tnc"))
        self.begin(command("aprs-base", "serve", "--listen", f"{BASE}:{PORT}", "--plain",
                           "--tokens", str(folder / "tokens"), "--page", page, "--title",
                           "Fell race", str(self.logs), said=folder / "served"))
        self.begin(command("aprs-site", "log", "--connect", f"localhost:{TNC}", "--push",
                           f"http://{BASE}:{PORT}/", "--token", str(folder / "hill.token"), "HILL",
                           str(self.site), said=folder / "pushed"))
        wait_for(lambda: "the page is at" in (folder / "served").read_text())
        self.desks = [Desk(f"aprs-{place}", browser, name, names[name])
                      for place, name in [("base", "BASE"), ("site", "GATE")]]
        self.running += [it.process for it in self.desks]

    def begin(self, it: "subprocess.Popen[str]") -> "subprocess.Popen[str]":
        self.running.append(it)
        return it

    def end(self) -> None:
        for it in reversed(self.running):
            if it.stdin:
                it.stdin.close()
            else:
                it.terminate()
            it.wait()

    def be(self, way: str) -> None:
        tell(self.link, WAYS[way])

    def hear(self, count: int) -> None:
        """The site hears so many frames."""
        for _ in range(count):
            self.number += 1
            tell(self.tnc, ax25.frame(f"Q{self.number % 9}RUN-{self.number % 16}", "APRS",
                                      b">frame %d" % self.number).hex())

    def cry(self) -> Tuple[int, int]:
        """Somebody needs help; after how many milliseconds each desk shows it."""
        self.number += 1
        call = f"Q1S{self.number:03}"
        for it in self.desks:
            it.ask(SEES % json.dumps(call))
        time.sleep(.2)
        begun = time.time_ns() // 1_000_000
        tell(self.tnc, ax25.frame(call, EMERGENCY, MICE).hex())
        base, site = (int(it.get()) - begun for it in self.desks)
        return base, site

    def octets(self, folder: pathlib.Path) -> bytes:
        log = folder / DAY / "HILL.log"
        return log.read_bytes() if log.exists() else b""

    def is_whole(self) -> bool:
        return self.octets(self.site).count(b"\n") == self.number and \
            self.octets(self.site) == self.octets(self.logs)


@contextlib.contextmanager
def places() -> Iterator[None]:
    """The namespaces, and the devices between them."""
    names = ["aprs-base", "aprs-site", "aprs-link"]
    for it in names:
        ip("netns", "add", it)
    try:
        for place, device, address, link, other in WIRES:
            ip("link", "add", device, "netns", place, "type", "veth", "peer", "name", other,
               "netns", link)
            ip("-n", place, "addr", "add", address, "dev", device)
            for where, its in ((place, "lo"), (place, device), (link, other)):
                ip("-n", where, "link", "set", its, "up")
            within(place, sys.executable, str(HERE / "slow_link.py"), "plain", device).wait()
        yield
    finally:
        for it in names:
            ip("netns", "del", it)


def cries(of: Evening, what: str, count: int = 8) -> None:
    times = []
    for _ in range(count):
        times.append(of.cry())
        time.sleep(1)
    for name, its in zip(("base", "site"), zip(*times)):
        middle = sorted(its)[len(its) // 2]
        print(f"{what}: an emergency is on the screen of the {name}'s desk after {middle} ms, at "
              f"most {max(its)} ms (of {count}; load {os.getloadavg()[0]:.0f})", flush=True)


def lead(of: Evening, seconds: float) -> None:
    """The evening."""
    of.hear(20)
    wait_for(of.is_whole)
    cries(of, "a good link")
    of.be("slow")
    cries(of, "150 to 250 ms each way, 2 % lost, 10 % twice")
    of.hear(200)
    print(f"  200 frames more are at the base after {wait_for(of.is_whole):.1f} s", flush=True)
    of.be("cut")
    of.hear(500)
    for desk, text in zip(of.desks, ("said at the base", "said at the site")):
        desk.say(text)
    time.sleep(seconds)
    lack = of.number - of.octets(of.logs).count(b"\n")
    of.be("good")
    print(f"after {seconds:.0f} s without a link: the {lack} frames that the base lacked are "
          f"there after {wait_for(of.is_whole):.1f} s", end="", flush=True)
    took = wait_for(lambda: all(desk.has_line(it) for desk in of.desks
                                for it in ("said at the base", "said at the site")))
    print(f", and each desk's line at the other one {took:.1f} s later", flush=True)
    cries(of, "and then")
    journals = b"".join(it.read_bytes() for it in sorted((of.logs / "desks").iterdir()))
    lines = journals.splitlines()
    print(f"the base's log is the site's, byte for byte: {of.is_whole()}; entries of desks: "
          f"{len(lines)}, twice: {len(lines) - len({*lines})}")


def be_desk(browser: str, url: str, name: str, token: str) -> None:
    """A browser that is asked by lines of standard input for values of its page."""
    from browser import Browser, Chromium
    from firefox import Firefox
    page: Browser = Firefox() if browser == "Firefox" else Chromium()
    page.open(url)
    page.js(f"document.querySelector('input').value = {token!r}")
    page.js("document.querySelector('form').requestSubmit()")
    page.wait("globalThis.aprsbook && location.hash === '#logs=logs.txt'")
    page.wait(f"document.getElementById('connection').textContent.includes('desk {name}')")
    print("null", flush=True)
    for line in sys.stdin:
        text = json.loads(line)
        if text.startswith("picture "):
            page.picture(text[8:])
            text = "null"
        print(json.dumps(page.js(text)), flush=True)
    page.close()


def be_tnc() -> None:
    """A KISS TNC over TCP, which hears the frames of standard input."""
    with socket.create_server(("127.0.0.1", TNC)) as listening:
        connection, _ = listening.accept()
        for line in sys.stdin:
            connection.sendall(kiss.wrap(bytes.fromhex(line)))


def main() -> None:
    if sys.argv[1:2] == ["--desk"]:
        return be_desk(*sys.argv[2:6])
    if sys.argv[1:2] == ["--tnc"]:
        return be_tnc()
    parser = argparse.ArgumentParser(description=(__doc__ or "").split("\n\n")[0])
    parser.add_argument("--seconds", type=float, default=15)
    parser.add_argument("--browser", choices=("Chromium", "Firefox"), default="Chromium")
    parser.add_argument("--pictures", type=pathlib.Path)
    parser.add_argument("page")
    args = parser.parse_args()
    with tempfile.TemporaryDirectory() as name, places():
        evening = Evening(pathlib.Path(name), os.path.abspath(args.page), args.browser)
        try:
            lead(evening, args.seconds)
            for desk, place in zip(evening.desks, ("base", "site")):
                if args.pictures:
                    desk.js(f"picture {args.pictures / f'desk-{place}.png'}")
        finally:
            evening.end()
    return None


if __name__ == "__main__":
    main()
