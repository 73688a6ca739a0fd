"""The page of an event in headless Firefox: nothing runs, nothing is asked for, the map, tables and
times are there, keys reach each control, and paper has what the page has."""
import json
import pathlib
import shutil
import subprocess

import pytest

import hostile
import scale
from browser import Browser
from given import EVENING, TEXTS as texts, event_page, is_, picture
from serving import Server

pytestmark = pytest.mark.browsers("Firefox")

FOUND = "document.getElementById('found').textContent"
MOVED = "location.hash.includes('view=')"
# a control, the keys that are pressed there, and what comes of it
KEYED = [
    ("#map", ["ArrowLeft"], MOVED, True), ("#map", ["0"], MOVED, False),
    ("#in", ["Enter"], MOVED, True), ("#fit", ["Enter"], MOVED, False),
    ("#out", [" "], MOVED, True), ("#map", ["0"], MOVED, False),
    ("#clock", ["Home"], "clock.value", "0"), ("#play", ["Enter"], "play.textContent", "stop"),
    ("#play", ["Enter"], "play.textContent", "play"), ("#clock", ["End"], "clock.value", "1000"),
    ("#since", ["ArrowDown"], "location.hash.includes('since=24')", True),
    ("#since", ["ArrowUp"], "location.hash.includes('since')", False),
    ("#local", [" "], "location.hash.includes('time=local')", True),
    ("#saves summary", ["Enter"], "saves.open", True),
    ("#saves summary", ["Enter"], "saves.open", False),
    ("#adds summary", ["Enter"], "adds.open", True),
    ("#away", [" "], "document.getElementById('told').textContent", ""),
    ("#find", ["q", "1", "m"], FOUND, "2 of 17"),
    ("#kind", ["ArrowDown", "ArrowDown"], FOUND, "0 of 17"), ("#kind", ["Home"], FOUND, "2 of 17"),
    ("#things thead button", ["Enter"], "document.querySelector('#things th').ariaSort",
     "ascending"),
    ("#things .pick", ["ArrowDown", "Enter"], "aprsbook.page.picked", "station Q1MIC-9"),
    ("#one-close", ["Enter"], "one.hidden", True),
    ("#ics-open", ["Enter"], "document.activeElement.id", "ics-incident"),
    ("#ics-by", ["q"], "document.getElementById('ics-by').value", "q"),
    ("#ics-close", ["Enter"], "document.activeElement.id", "ics-open"),
]




def test_evening(page: Browser, folder: pathlib.Path) -> None:
    page.open(event_page(folder / "evening.html", "--title", "Fell race", *EVENING))
    page.wait("document.querySelectorAll('#timeline tbody tr').length > 10")
    is_(page.js("(aprsbook.map.paint(), aprsbook.layers.stations.marks.length)"),
        page.js("aprsbook.net.placed.length"))
    is_(page.js(texts % "#messages .state"),
        ["unanswered", "rejected", "acknowledged", "acknowledged", "acknowledged"])
    is_(page.js(texts % "#receivers tbody th"), ["COAST", "HILL", "NORTH"])
    page.js("(() => { const it = document.getElementById('find'); it.value = 'q1med'; "
            "it.dispatchEvent(new Event('input')) })()")
    is_(page.js(texts % "#things tbody th"), ["Q1MED-7"])
    page.js("document.querySelector('#things .pick').click()")
    is_(page.js("document.getElementById('one-name').textContent"), "Q1MED-7 station")
    picture(page, "evening", whole=True)
    is_(page.requests(), [])


def test_hostile(page: Browser, folder: pathlib.Path) -> None:
    (folder / "hostile.log").write_text("".join(hostile.log()))
    (folder / "hostile.gpx").write_text(hostile.course())
    page.open(event_page(folder / "hostile.html", "--title", hostile.TITLE,
                         "--course", folder / "hostile.gpx", folder / "hostile.log"))
    page.js("Object.values(aprsbook.lists).forEach(it => it.whole())")
    said = page.js(texts % "#things bdi, #messages bdi")
    for text in hostile.TEXTS:
        is_(said.count(hostile.shown(text)), 3)
    is_(page.js("[window.ran === undefined, document.querySelectorAll('script').length, "
                "document.images.length]"), [True, 3, 0])
    is_(page.requests(), [])


def test_keys(page: Browser, folder: pathlib.Path) -> None:
    page.open(event_page(folder / "keys.html", *EVENING))
    page.wait("document.querySelectorAll('#timeline tbody tr').length > 10")
    page.js("(looks.open = true, 1)")  # a menu, as saves and adds
    left = set("in out fit fill sound play clock colours map find kind since looks local saves "
               "adds ics-open".split())
    left |= {"pick station", "miles", "place-form", "measure", "edge"}
    for _ in range(60):  # more would leave the page
        if not left:
            break
        page.key("Tab")
        left.discard(page.js("document.activeElement.id || document.activeElement.className "
                             "|| document.activeElement.parentNode.id"))
    is_(left, set())
    for node, keys, value, wanted in KEYED:
        page.js(f"(document.querySelector({node!r}).focus(), 1)")
        for key in keys:
            page.key(key)
        page.wait(f"({value}) === {json.dumps(wanted)}", 5)


def test_roster(page: Browser, folder: pathlib.Path) -> None:
    (folder / "roster.txt").write_text("Q1RUN-* leader\nQ1MED-7 at the second post\nQ1NINE\n")
    page.open(event_page(folder / "roster.html", *EVENING))
    page.give("#bring", folder / "roster.txt")
    page.wait("told.textContent === 'roster.txt: 3 calls'")
    is_(page.js(texts % "#expected .time"), ["20:02:14", "19:44:12", "not heard isn\u2019t coming"])
    assert ("2 of 3 expected not heard for 30 min: at the second post (Q1MED-7), Q1NINE"
            in page.js(texts % "#news > *"))


def test_paper(page: Browser, folder: pathlib.Path) -> None:
    """The page and the form on paper; the map has the colours of paper meanwhile."""
    page.open(event_page(folder / "paper.html", "--title", "Fell race", *EVENING))
    page.wait("document.querySelectorAll('#timeline tbody tr').length > 10")
    for name, wanted in ("page", ["Fell race", "last heard", "Q1WX-13", "Who heard whom"]), (
            "form", ["ICS 309", "Going up from CP2 (acknowledged)", "prepared by"]):
        path = folder / f"{name}.pdf"
        path.write_bytes(page.pdf())
        assert path.read_bytes().startswith(b"%PDF")
        if shutil.which("pdftotext"):
            done = subprocess.run(["pdftotext", "-layout", path, "-"], stdout=subprocess.PIPE)
            text = done.stdout.decode()
            assert all(it in text for it in wanted), text
        if name == "page":
            page.wait("Math.round(map.getBoundingClientRect().width * devicePixelRatio) === "
                      "document.querySelector('canvas').width", 5)
        page.js("(document.getElementById('ics-open').click(), 1)")
    is_(page.js("document.documentElement.classList.contains('printed')"), False)


def test_served(page: Browser, folder: pathlib.Path) -> None:
    """A page that is served goes on while its server is away, and says so."""
    event_page(folder / "live.html", "--live", "1", EVENING[0])
    with Server(folder) as server:
        page.open(f"http://127.0.0.1:{server.port}/live.html")
        page.wait("stale.textContent.startsWith('nothing was heard for ')")
        event_page(folder / "live.html", "--live", "1", *EVENING)
        page.wait("document.querySelector('header p').textContent.includes('64 transmissions')")
    page.wait("stale.textContent.startsWith('the server has been away since 20')")
    is_(page.js("document.querySelector('#things tbody th').textContent"), "Q1BAY")
    with Server(folder, server.port):
        page.wait("!stale.textContent.includes('away')")


def test_scale(page: Browser, folder: pathlib.Path) -> None:
    scale.judged_stations(page, folder)

