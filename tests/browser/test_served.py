"""The page of a net that `aprs-net serve` hands out: it is told at once what is new, and desks
share what they write down."""
import base64
import contextlib
import http.client
import json
import os
import pathlib
import re
import signal
import socket
import sqlite3
import subprocess
import sys
import time
from typing import Any, Dict, Iterator

import pytest

from browser import Browser, Chromium
from given import REPOSITORY, TEXTS, picture
from test_page_alone import page_text, place

sys.path.append(str(REPOSITORY / "tools/src"))
from aprsbook_tools.serving import tokens  # noqa: E402 (it lies there)

pytest.importorskip("tornado", reason="needs Debian's python3-tornado")
pytestmark = pytest.mark.browsers("Chromium", "Firefox")

DAY = "2024-06-21"
ROWS = "aprsbook.all.rows.length"
LINES = "aprsbook.page.own.lines.map(it => it.text).sort().join('|')"
CONNECTION = "document.getElementById('connection').textContent"
OWN_MAP = "document.getElementById('own-map').textContent"
BROUGHT = "aprsbook.page.brought.map(it => it.name).sort().join('|')"
# `aprsbook check` takes every line, where no program is built
CHECK = "#!/bin/sh\ncat > /dev/null\necho heard 0 passed 0\n"


# a picture of one pixel
PIXEL = base64.b64decode("iVBORw0KGgoAAAANSUhEUgAAAAEAAAABCAYAAAAfFcSJAAAADUlEQVR42mNkYPhf"
                         "DwAChwGA60e6kgAAAABJRU5ErkJggg==")


def make_tiles(path: pathlib.Path) -> None:
    """A map of tiles, of levels 0 to 6."""
    with contextlib.closing(sqlite3.connect(path)) as base, base:
        base.execute("create table tiles (zoom_level int, tile_column int, tile_row int, "
                     "tile_data blob)")
        base.execute("create unique index tile_index on tiles "
                     "(zoom_level, tile_column, tile_row)")
        base.executemany("insert into tiles values (?, ?, ?, ?)", (
            (z, x, y, PIXEL) for z in range(7) for x in range(2 ** z) for y in range(2 ** z)))


class Live:
    """A net that is served of a folder."""

    def __init__(self, folder: pathlib.Path) -> None:
        self.folder, self.logs = folder, folder / "logs"
        (self.logs / DAY).mkdir(parents=True)
        (folder / "page.html").write_text(page_text(), encoding="utf-8")
        for name in ("lakes", "hills"):
            make_tiles(folder / f"{name}.mbtiles")
        self.tokens = {name: tokens.add(str(folder / "tokens"), kind, name) for kind, name in
                       [("receiver", "HILL"), ("desk", "BASE"), ("desk", "GATE")]}
        (folder / "aprsbook").write_text(CHECK)
        (folder / "aprsbook").chmod(0o755)
        with socket.socket() as it:
            it.bind(("127.0.0.1", 0))
            self.port = it.getsockname()[1]

    @property
    def url(self) -> str:
        return f"http://127.0.0.1:{self.port}/"

    def begin(self) -> None:
        env = {**os.environ, "PYTHONPATH": str(REPOSITORY / "tools/src"),
               "PATH": f"{os.environ['PATH']}{os.pathsep}{self.folder}"}
        self.process = subprocess.Popen(
            [sys.executable, "-m", "aprsbook_tools", "serve", "--listen", f"127.0.0.1:{self.port}",
             "--page", self.folder / "page.html", "--tokens", self.folder / "tokens", "--day", DAY,
             "--tiles", self.folder / "lakes.mbtiles", "--tiles", self.folder / "hills.mbtiles",
             "--title", "Fell race", self.logs], env=env, stderr=subprocess.DEVNULL)
        for _ in range(600):
            with contextlib.suppress(OSError):
                socket.create_connection(("127.0.0.1", self.port)).close()
                return
            time.sleep(.05)
        raise AssertionError("no server")

    def end(self, how: int = signal.SIGTERM) -> None:
        self.process.send_signal(how)
        self.process.wait()

    def ask(self, path: str, body: str, token: str, kind: str = "text/plain") -> Dict[str, Any]:
        connection = http.client.HTTPConnection("127.0.0.1", self.port, timeout=20)
        connection.request("POST", path, body, {"Authorization": f"Bearer {self.tokens[token]}",
                                                "Content-Type": kind})
        answer = connection.getresponse()
        says: Dict[str, Any] = json.loads(answer.read())
        assert answer.status == 200, says
        return says

    def push(self, *lines: str) -> None:
        self.ask(f"/push/HILL/{DAY}", "".join(lines), "HILL")

    def write(self, which: int, kind: str, **says: str) -> None:
        """An entry of the other desk."""
        entry = {"at": which, "desk": "GATE", "id": f"{which:032x}", "kind": kind, **says}
        text = json.dumps(entry, sort_keys=True, separators=(",", ":"))
        assert self.ask("/desks/GATE", text + "\n", "GATE", "application/x-ndjson")["added"] == 1

    def journal(self, desk: str = "BASE") -> "list[dict[str, Any]]":
        path = self.logs / "desks" / f"{desk}.jsonl"
        return [json.loads(it) for it in path.read_text().splitlines()] if path.exists() else []


@pytest.fixture
def live(folder: pathlib.Path) -> Iterator[Live]:
    it = Live(folder)
    it.begin()
    yield it
    it.end()


def enter(page: Browser, live: Live) -> None:
    """Comes in by the form, as the desk BASE."""
    page.open(live.url)
    page.js(f"document.querySelector('input').value = '{live.tokens['BASE']}'")
    page.js("document.querySelector('form').requestSubmit()")
    page.wait("globalThis.aprsbook && location.hash === '#logs=logs.txt'")
    page.wait(f"{CONNECTION}.includes('connected as desk BASE')")


def say(page: Browser, text: str) -> None:
    """Adds a line of voice traffic."""
    page.js("document.getElementById('ics-open').click()")
    page.js(f"document.getElementById('own-text').value = {text!r}")
    page.js("document.getElementById('own-add').click()")


def line(number: int) -> str:
    return place(number, "Q1A", receiver="HILL", text=str(number))


def test_lines_come_at_once(page: Browser, live: Live) -> None:
    live.push(line(1), line(2))
    enter(page, live)
    page.wait(f"{ROWS} === 2")
    assert page.js("document.title").endswith("Fell race")
    begun = time.monotonic()
    live.push(line(3))
    page.wait(f"{ROWS} === 3")
    assert time.monotonic() - begun < 10  # long before it would be asked for
    with open(live.logs / DAY / "COAST.log", "a") as file:  # as a logger of this machine
        file.write(line(4).replace("HILL", "COAST"))
    page.wait(f"{ROWS} === 4")
    assert not [it for it in page.requests() if it.endswith("COAST.log")]
    picture(page, "served")


def test_desks_share_what_they_write(page: Browser, live: Live) -> None:
    live.push(line(1))
    enter(page, live)
    page.wait(f"{ROWS} === 1")
    time_of = str(1_718_992_800_000)
    live.write(1, "line", time=time_of, number="1", text="first runner", **{
        "from": "Gate 1", "to": "NET"})
    page.wait(f"{LINES} === 'first runner'")
    say(page, "second runner")
    page.wait(f"{LINES} === 'first runner|second runner'")
    for _ in range(200):
        if [it["text"] for it in live.journal()] == ["second runner"]:
            break
        time.sleep(.05)
    assert [it["text"] for it in live.journal()] == ["second runner"]
    # a line that the other desk wrote is taken away here
    page.js("[...document.querySelectorAll('#ics-sheets tr.own')].find(it => "
            "it.textContent.includes('first runner')).querySelector('button').click()")
    page.wait(f"{LINES} === 'second runner'")
    for _ in range(200):
        if live.journal()[-1]["kind"] == "gone":
            break
        time.sleep(.05)
    assert live.journal()[-1]["of"] == f"{1:032x}"
    picture(page, "served-ics-309")
    page.js("document.getElementById('ics-close').click()")


def test_a_saved_page_carries_what_desks_wrote(page: Browser, live: Live) -> None:
    live.push(line(1))
    enter(page, live)
    page.wait(f"{ROWS} === 1")
    live.write(1, "line", time=str(1_718_992_800_000), number="1", text="first runner", **{
        "from": "Gate 1", "to": "NET"})
    live.write(2, "dealt", alarm="silent Q1A", note="car is on its way")
    live.write(3, "name", call="Q1A", name="Leader")
    page.wait(f"{LINES} === 'first runner'")
    page.wait("aprsbook.page.journal.entries.size === 3")
    saved = live.folder / "saved.html"
    saved.write_text(page.js("aprsfiles.eventPage()"), encoding="utf-8")
    page.open(saved.as_uri())
    page.wait(f"{ROWS} === 1 && {LINES} === 'first runner'")
    assert page.js("aprsbook.page.own.lines[0].desk") == "GATE"
    assert page.js("aprsbook.page.marks.dealtWith('silent Q1A').map(it => it.desk + it.note)"
                   ) == ["GATEcar is on its way"]
    assert "Leader" in page.js(f"{TEXTS % '#things-box td, #things-box th'}.join()")


def test_what_one_desk_deals_with_is_dealt_with_at_all(page: Browser, live: Live) -> None:
    live.push(line(1))
    enter(page, live)
    page.wait(f"{ROWS} === 1")
    silent = f"{TEXTS % '#news > *'}.find(it => / silent for /.test(it)).split(' ')[0]"
    page.wait(f"{silent} === '1'")
    live.write(1, "dealt", alarm="home Q1A", note="went home")
    page.wait(f"{silent} === '0'")
    # who and when is said where the station is picked, and it is taken back here
    page.js("document.querySelector('#things .pick').click()")
    page.wait("document.getElementById('one-about').textContent.includes('went home (GATE, ')")
    page.js("[...document.querySelectorAll('#one-about button')]"
            ".find(it => it.textContent === 'take back').click()")
    page.wait(f"{silent} === '1'")
    page.js("[...document.querySelectorAll('#one-about button')]"
            ".find(it => it.textContent === 'dealt with').click()")
    page.wait(f"{silent} === '0'")
    for _ in range(200):
        if len(live.journal()) == 2:
            break
        time.sleep(.05)
    gone, dealt = live.journal()
    assert gone["of"] == f"{1:032x}" and dealt["kind"] == "dealt"
    assert re.fullmatch("silent Q1A [0-9-]+T[0-9:.]+Z", dealt["alarm"])


def test_what_a_desk_sets_all_pages_show(page: Browser, live: Live) -> None:
    live.push(line(1))
    enter(page, live)
    live.write(1, "setting", name="title", value="Fell race, second day")
    page.wait("document.getElementById('title').textContent === 'Fell race, second day'")
    live.write(2, "name", call="Q1A", name="Leader")
    page.wait(f"{TEXTS % '#things-box td, #things-box th'}.join().includes('Leader')")
    live.write(3, "setting", name="roster", value="Q1B Sweep\nQ1A Runner 1\n")
    page.wait(f"{TEXTS % '#roster-box td, #roster-box th'}.join().includes('Sweep')")
    # a desk's name for a station counts before the roster's
    page.wait(f"{BROUGHT} === 'names of desks|roster of the net'")
    assert page.js("aprsbook.page.settings.names.shown('Q1A')") == "Leader (Q1A)"
    assert page.js("document.getElementById('silent').value") == "30"
    live.write(4, "setting", name="silent", value="7")
    page.wait("document.getElementById('silent').value === '7'")
    live.write(5, "note", call="Q1A", text="has no lights")
    page.wait(f"{TEXTS % '#desk li'}.join().includes('has no lights')")
    # and what this desk sets
    page.js("document.querySelector('#desk input').value = 'Third day'")
    page.js("document.querySelector('#desk button').click()")
    page.wait("document.getElementById('title').textContent === 'Third day'")


def set_for_all(page: Browser, words: str, change: str) -> None:
    """Changes a field beside a button with these words, and presses it."""
    page.js("(() => { const button = [...document.querySelectorAll('#desk button')]"
            f".find(it => it.textContent.startsWith({words!r})); const field = button.parentNode"
            f".querySelector('select, textarea, input'); {change}; button.click(); }})()")


def test_the_map_the_course_and_the_roster_are_one_for_all(page: Browser, live: Live) -> None:
    live.push(line(1))
    enter(page, live)
    page.wait(f"{OWN_MAP} === 'Own map: lakes.mbtiles.'")
    page.wait("aprsbook.layers.tiles.most === 6")
    assert page.js("aprsbook.layers.tiles.find('6/31/20').then(it => it.size)") == len(PIXEL)
    live.write(1, "setting", name="tiles", value="hills.mbtiles")
    page.wait(f"{OWN_MAP} === 'Own map: hills.mbtiles.'")
    set_for_all(page, "set the map", "field.value = ''")
    page.wait(f"{OWN_MAP} === ''")
    assert [it["value"] for it in live.journal() if it.get("name") == "tiles"] == [""]
    # a course of 150 kB, which the other desk sets, and then none
    places = ",".join(f"[{-3.5 + k / 1e4:.6f},{54.5 + k / 1e4:.6f}]" for k in range(7000))
    course = '{"type":"LineString","coordinates":[%s]}' % places
    live.write(2, "setting", name="course", value=course)
    page.wait("aprsbook.layers.vectors.all.length === 1")
    assert page.js("aprsbook.layers.vectors.all[0].lines[0].length") == 21_000
    live.write(3, "setting", name="course", value="")
    page.wait("aprsbook.layers.vectors.all.length === 0")
    # this desk chooses a long one of its own, which is thinned, and what is no map is said
    points = "".join(f'<trkpt lat="{54.5 + k / 1e5:.7f}" lon="{-3.5 + k / 2e5:.7f}"></trkpt>\n'
                     for k in range(20_000))
    (live.folder / "course.gpx").write_text(f"<gpx><trk><trkseg>{points}</trkseg></trk></gpx>")
    page.give("#desk input[type=file]", live.folder / "course.gpx")
    set_for_all(page, "set the course", "")
    page.wait("aprsbook.layers.vectors.all.length === 1")
    assert 5_000 < page.js("aprsbook.layers.vectors.all[0].lines[0].length / 3") <= 20_000
    (live.folder / "course.gpx").write_text("no map")
    page.give("#desk input[type=file]", live.folder / "course.gpx")
    set_for_all(page, "set the course", "")
    page.wait("document.getElementById('told').textContent.startsWith('course.gpx: ')")
    set_for_all(page, "set the course", "field.value = ''")
    page.wait("aprsbook.layers.vectors.all.length === 0")
    # a desk changes the roster that is there
    live.write(4, "setting", name="roster", value="Q1B Sweep\n")
    page.wait("document.querySelector('#desk textarea').value === 'Q1B Sweep\\n'")
    set_for_all(page, "set the roster", "field.value += 'Q1C Lead\\n'")
    page.wait(f"{TEXTS % '#roster-box td, #roster-box th'}.join().includes('Lead')")
    assert page.js(f"{TEXTS % '#roster-box td, #roster-box th'}.join()").count("Sweep") == 1
    set_for_all(page, "set the roster", "field.value = ''")
    page.wait(f"{BROUGHT} === ''")


def test_while_the_server_is_away(page: Browser, live: Live) -> None:
    live.push(line(1))
    enter(page, live)
    page.wait(f"{ROWS} === 1 && {OWN_MAP} === 'Own map: lakes.mbtiles.'")
    live.end(signal.SIGKILL)
    page.wait(f"{CONNECTION}.startsWith('not connected')")
    page.wait("document.getElementById('stale').textContent.includes('server has been away')")
    say(page, "while it was away")
    page.wait(f"{CONNECTION}.includes('1 entry of this desk not sent yet')")
    live.begin()
    live.push(line(2))
    page.wait(f"{ROWS} === 2")
    page.wait(f"{CONNECTION} === 'connected as desk BASE'")
    assert [it["text"] for it in live.journal()] == ["while it was away"]
    assert len(live.journal()) == 1
    assert not [it for it in page.problems() if it["level"] == "SEVERE" and
                "ERR_CONNECTION_REFUSED" not in it["message"] and
                "ERR_INCOMPLETE_CHUNKED" not in it["message"]]


@pytest.mark.browsers("Chromium")
def test_tabs_have_one_stream(page: Chromium, live: Live) -> None:
    """Eight tabs of one browser, which opens six connections, are told at once what is new; and the
    others go on where the one is closed that listens."""
    enter(page, live)
    first = page.driver.current_window_handle
    page.driver.set_page_load_timeout(60)
    for _ in range(7):
        page.driver.switch_to.new_window("tab")
        page.driver.get(live.url)
        page.wait(f"{CONNECTION}.includes('connected as desk BASE')", 20)
    live.push(line(1))
    assert page.driver.window_handles[0] == first and len(page.driver.window_handles) == 8
    for handle in page.driver.window_handles:
        page.driver.switch_to.window(handle)
        page.wait(f"globalThis.aprsbook.all && {ROWS} === 1", 20)
    page.driver.switch_to.window(first)
    page.driver.close()
    live.push(line(2))
    live.write(1, "line", time="1718992800000",
               **{"from": "A", "to": "B", "number": "", "text": "x"})
    for handle in page.driver.window_handles:
        page.driver.switch_to.window(handle)
        page.wait(f"{ROWS} === 2 && {LINES} === 'x'", 20)
