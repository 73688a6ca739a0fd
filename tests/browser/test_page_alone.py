"""What the page that reads logs does by itself: what files are, damaged lines, Windows' spellings,
folders, logs that are followed. The module is a stand-in."""
import contextlib
import functools
import gzip
import http.server
import io
import json
import pathlib
import shutil
import sqlite3
import tempfile
import threading
import time
from typing import Any, BinaryIO, Dict, Mapping, Optional, Set, Union

import pytest

import by_hand
import hostile
import scale
from browser import Browser, Chromium, Place
from given import REPOSITORY, TABLE, is_, picture
from serving import Server

HERE = pathlib.Path(__file__).resolve().parent
TOLD = ("Object.fromEntries([...document.querySelectorAll('#files tbody tr')].map(it => "
        "[it.querySelector('th').textContent, it.querySelector('.verdict').textContent]))")
MORE = ("Object.fromEntries([...document.querySelectorAll('#files tbody tr')].map(it => "
        "[it.querySelector('th').textContent, it.querySelector('.more').textContent]))")
MADE = "aprsfiles.made() !== null"
ROWS = "aprsbook.all.rows.length"
# the colour of the map beside its middle
BESIDE_MIDDLE = ("(() => { const { map } = aprsbook, { width, height } = map.canvas; "
                 "map.paint(); return map.pen.getImageData(0.4 * width, 0.42 * height, 1, 1)"
                 ".data.slice(0, 3).join() })()")
# how many pixels of the middle of a red map, without lines of degrees, aren't red
OTHERS = """(() => { const { map, layers } = aprsbook, { line } = map.colours;
    map.colours.line = 'transparent';
    layers.stations.things = [];
    map.paint();
    const { width, height } = map.canvas;
    const { data } = map.pen.getImageData(80, 20, width - 220, height - 100);
    map.colours.line = line;
    let others = 0;
    for (let at = 0; at < data.length; at += 4)
        if (data[at] !== 200 || data[at + 1] !== 30 || data[at + 2] !== 30) others++;
    return others })()"""
EMPTY_MODULE = b"\0asm\1\0\0\0"


@functools.lru_cache(maxsize=None)
def page_text() -> str:
    """The page with the stand-in in place of the module and its host."""
    with tempfile.TemporaryDirectory() as name:
        source = pathlib.Path(name, "src")
        shutil.copytree(REPOSITORY / "page/src", source)
        shutil.copyfile(HERE / "stand_in.js", source / "worker/wasm-host.js")
        return by_hand.reader(EMPTY_MODULE, source)


def line(second: int, source: str, text: str, receiver: str = "RX1") -> str:
    frame = hostile.address("APRS", 0xE0) + hostile.address(source, 0x60, 1) + b"\x03\xf0"
    clock = f"2024-06-21T{18 + second // 3600:02}:{second // 60 % 60:02}:{second % 60:02}Z"
    return hostile.line(clock, receiver, frame + text.encode())


def place(second: int, source: str, minutes: float = 30.0, receiver: str = "RX1",
          text: str = "") -> str:
    return line(second, source, f"!54{minutes:05.2f}N/00330.00W>{text}", receiver)


def log(count: int, receiver: str = "RX1") -> str:
    return "".join(place(100 * k, f"Q1A-{k % 15 + 1}", 30 + k % 20, receiver, f"no. {k}")
                   for k in range(count))


def fresh(page: Browser, folder: pathlib.Path, url: Optional[str] = None) -> None:
    path = folder / "page.html"
    path.write_text(page_text(), encoding="utf-8")
    page.open(url or path.as_uri(), 1280, 1100)
    page.wait("!document.getElementById('choose').disabled")


def give(page: Browser, folder: pathlib.Path, files: Mapping[str, Union[str, bytes]]) -> None:
    for name, text in files.items():
        (folder / name).write_bytes(text if isinstance(text, bytes) else text.encode())
    page.give("#choose", *[folder / name for name in files])
    page.wait(f"aprsfiles.files.length >= {len(files)} || told.textContent !== ''")
    page.wait("document.getElementById('progress').hidden")


def test_damaged(page: Browser, folder: pathlib.Path) -> None:
    """All damaged lines are shown, and left out at a click; the rest is read."""
    lines = log(20).splitlines(True)
    lines[3] = lines[3].replace("c000", "c0zz", 1)
    lines[10] = "torn by a power cut\n"
    lines[12] = lines[12].replace(" RX1 ", " R!1 ")
    fresh(page, folder)
    give(page, folder, {"hill.log": "".join(lines)[:-9]})
    is_(page.js(TOLD)["hill.log"], "line 4: Hex")
    more = page.js(MORE)["hill.log"]
    for word in ("hexadecimal", "4 damaged lines", "line 11: Moment: torn by a power cut",
                 "line 13: Receiver", "line 20: NoNewline", "leave out these 4 lines"):
        assert word in more, (word, more)
    picture(page, "damaged")
    page.js("document.querySelector('#files .leave').click()")
    page.wait(f"{MADE} && {ROWS} === 16")
    is_(page.js(TOLD)["hill.log"], "heard 16 passed 0")
    assert "4 lines left out" in page.js(MORE)["hill.log"]
    is_(page.js("aprsbook.data.notes"), ["hill.log: 4 damaged lines left out"])
    is_(page.problems(), [])


def test_strangers(page: Browser, folder: pathlib.Path) -> None:
    """What is no log is named as what it is, and no more of it is read than its beginning."""
    fresh(page, folder)
    give(page, folder, {"photo.log": b"\x89PNG\r\n\x1a\n" + bytes(2000), "a.log": log(3),
                        "zeros.log": bytes(3 << 20),
                        "words.log": "so much is written here\n" * 9000})
    page.wait(MADE)
    told = page.js(TOLD)
    is_(told["photo.log"], "is a picture, which no log is, and can\u2019t be drawn as a map: this "
        "browser can\u2019t unpack it, which is damaged or too large")
    is_([told["zeros.log"], told["words.log"]], ["is no log", "is no log"])
    is_(page.js("aprsfiles.files.map(it => [it.name, it.bytes.length]).sort()")[1:],
        [["photo.log", 0], ["words.log", 0], ["zeros.log", 0]])
    is_(len(page.js("aprsbook.data.notes")), 3)
    # a folder of them doesn't fill the page
    give(page, folder, {f"{k}.png": "%PDF-1.7" for k in range(9)})
    page.wait("aprsbook.data.notes.length === 12")
    is_(page.js("[...document.querySelectorAll('#news span')].map(it => it.textContent)")[5:],
        ["and 7 more"])


def test_windows(page: Browser, folder: pathlib.Path) -> None:
    """Logs as Windows writes them are read, and that is said."""
    text = log(5).replace("\n", "\r\n")
    fresh(page, folder)
    give(page, folder, {"crlf.log": text, "mark.log": b"\xef\xbb\xbf" + text.encode(),
                        "wide.log": b"\xff\xfe" + text.encode("utf-16-le"), "plain.log": log(5)})
    page.wait(MADE)
    is_(set(page.js(TOLD).values()), {"heard 5 passed 0"})
    more = page.js(MORE)
    is_(more, {"crlf.log": "as Windows writes it: CR LF", "plain.log": "",
               "mark.log": "as Windows writes it: a byte order mark, CR LF",
               "wide.log": "as Windows writes it: UTF-16, CR LF"})
    is_(page.js(ROWS), 5)


def test_names(page: Browser, folder: pathlib.Path) -> None:
    """No name turns what stands beside it."""
    name = "log\u202egnp.log"
    fresh(page, folder)
    give(page, folder, {name: log(2)})
    is_(page.js("document.querySelector('#files th[scope=row]').textContent"),
        "log\\xe2\\x80\\xaegnp.log")


@pytest.mark.browsers("Chromium")
@pytest.mark.parametrize("width, height, most", [(1440, 900, 300), (1024, 600, 270),
                                                 (360, 640, 470)])
def test_first_view(page: Chromium, folder: pathlib.Path, width: int, height: int,
                    most: int) -> None:
    """The map is in the first view below four logs, whose table folds; a damaged one opens it."""
    fresh(page, folder)
    page.size(width, height)
    give(page, folder, {f"{it}.log": log(5, it) for it in ("RX1", "RX2", "RX3", "RX4")})
    page.wait(MADE)
    top = page.js("document.getElementById('map').getBoundingClientRect().top")
    assert top <= most, top
    said = "[fold.open, document.getElementById('fold-text').textContent]"
    is_(page.js(said), [False, "4 files"])
    give(page, folder, {"torn.log": log(5, "RX5") + "no line\n"})
    page.wait(f"{MADE} && aprsfiles.files.length === 5")
    is_(page.js(said), [True, "5 files, 1 of them not read"])


@pytest.mark.browsers("Chromium")
@pytest.mark.parametrize("width, height, most", [(1440, 900, 380), (1024, 600, 350)])
def test_first_view_of_much_news(page: Chromium, folder: pathlib.Path, width: int, height: int,
                                 most: int) -> None:
    """Also below three rows of news, a roster and checkpoints, with four logs one of whose clocks
    is wrong."""
    fresh(page, folder)
    page.size(width, height)
    logs = {f"{it}.log": log(20, it) + place(5400, f"Q1SOS-{n + 1}", 31, it, "EMERGENCY") +
            line(5400 + n, "Q1ASK", f":Q1NET    :are you there?{{{n}", it) +
            line(5500, "Q1ZERO", "!0000.00N/00000.00E>", it)
            for n, it in enumerate(("RX1", "RX2", "RX3"))}
    late = "".join(place(3600 + 100 * k, f"Q1A-{k % 15 + 1}", 30 + k % 20, "RX4", f"no. {k}")
                   for k in range(20))
    roster = "call,name\n" + "".join(f"Q1OFF-{k},Helper {k}\n" for k in range(1, 9))
    give(page, folder, {**logs, "RX4.log": late, "roster.csv": roster,
                        "points.txt": "Start 54.5 -3.5 200\nTop 54.6 -3.5 200\n"})
    page.wait(f"{MADE} && document.querySelector('#passed tbody tr') !== null")
    news = page.js("[...document.querySelectorAll('#news > *')].map(it => it.textContent)")
    for word in ("EMERGENCY", "unanswered", "silent", "expected not heard", "clock of RX4", "0, 0"):
        assert any(word in it for it in news), (word, news)
    top = page.js("document.getElementById('map').getBoundingClientRect().top")
    assert top <= most, (top, news)


@pytest.mark.browsers("Chromium")
def test_many_receivers(page: Chromium, folder: pathlib.Path) -> None:
    """A log of 2,000 receivers that heard the same is drawn, and says whose clocks are compared."""
    fresh(page, folder)
    give(page, folder, {"many.log": "".join(
        place(100 * k, "Q1A", 30 + k, f"R{n}") for k in range(4) for n in range(2000))})
    page.wait(f"{MADE} && {ROWS} === 4", 120)
    page.wait("document.getElementById('compared').textContent !== ''")
    is_(page.js("document.getElementById('compared').textContent"),
        "Those of the 64 that heard most are compared.")


@pytest.mark.browsers("Chromium")
def test_a_long_course(page: Chromium, folder: pathlib.Path) -> None:
    """A long course says how far it is read, and XML that is too deep isn't called ill-formed."""
    fresh(page, folder)
    points = "".join(f'<trkpt lat="54.5" lon="{k / 1e5}"/>' for k in range(140_000))
    page.js("(() => { const told = document.getElementById('told'); window.said = [];"
            "new MutationObserver(() => said.push(told.textContent))"
            ".observe(told, { childList: true, characterData: true, subtree: true }) })()")
    give(page, folder, {"a.log": log(1), "course.gpx":
                        f"<gpx><trk><trkseg>{points}</trkseg></trk></gpx>"})
    page.wait("said.at(-1) === 'course.gpx: a map'", 120)
    assert "course.gpx: reading" in page.js("said")
    assert any("places so far" in it for it in page.js("said")), page.js("said")
    deep = "<kml>" + "<Folder>" * 6000 + "</Folder>" * 6000 + "</kml>"
    give(page, folder, {"deep.kml": deep})
    page.wait("said.at(-1).startsWith('deep.kml')")
    assert "not well-formed" not in page.js("said.at(-1)"), page.js("said.at(-1)")


def drop(page: Chromium, *paths: Place) -> None:
    data = {"items": [], "files": list(map(str, paths)), "dragOperationsMask": 1}
    for kind in "dragEnter", "dragOver", "drop":
        page.call("Input.dispatchDragEvent", type=kind, x=300, y=130, data=data)


@pytest.mark.browsers("Chromium")
def test_folders(page: Chromium, folder: pathlib.Path) -> None:
    """Files in dropped folders are read, and tiles of a web map are drawn below all else."""
    (folder / "logs/day").mkdir(parents=True)
    (folder / "logs/a.log").write_text(log(3))
    (folder / "logs/day/b.log").write_text(log(4, "RX2"))
    for x in range(2002, 2012):
        (folder / f"tiles/12/{x}").mkdir(parents=True)
        for y in range(1280, 1320):
            (folder / f"tiles/12/{x}/{y}.png").write_bytes(TILE)
    # a browser lets no page on a disk read a folder that is dropped
    fresh(page, folder)
    for _ in range(2):
        drop(page, folder / "logs")
        page.wait("document.getElementById('progress').hidden && aprsfiles.files.length === 1")
        time.sleep(0.2)
    is_(page.js(TOLD), {"logs": "drop the files in it, or choose it as a folder"})
    page.give("#choose-folder", folder / "logs")
    page.wait(f"{MADE} && aprsfiles.files.length === 3")
    with Server(folder) as server:
        fresh(page, folder, f"http://127.0.0.1:{server.port}/page.html")
        drop(page, folder / "logs")
        page.wait(f"{MADE} && aprsfiles.files.length === 2")
        is_(sorted(page.js(TOLD)), ["a.log", "b.log"])
        drop(page, folder / "tiles")
        page.wait("aprsbook.layers.tiles.size === 400")
        red_tiles(page)
        carries(page, folder)


def red_tiles(page: Browser) -> None:
    """A red tile lies below the middle of the map."""
    page.js("(aprsbook.map.look('54.65,-3.5,20'), aprsbook.map.paint())")
    page.wait("[...aprsbook.layers.tiles.made.values()].some(Boolean)")
    page.wait(f"{BESIDE_MIDDLE} === '200,30,30'")
    assert "400 tiles" in page.js("document.getElementById('own-map').textContent")
    # no seam between two of them, where they are drawn smaller and larger than they are
    for where in "54.65,-3.5,20", "54.65,-3.5,33.3", "54.6,-3.52,71":
        page.js(f"(aprsbook.map.look('{where}'), aprsbook.map.paint())")
        page.wait("[...aprsbook.layers.tiles.made.values()].every(Boolean)")
        is_((where, page.js(OTHERS)), (where, 0))
    page.js("(aprsbook.map.look('54.65,-3.5,20'), aprsbook.map.paint())")
    picture(page, "tiles")


def carries(page: Browser, folder: pathlib.Path) -> None:
    """The saved page has the tiles around the places, as far as they may be."""
    path = page.saves_in(folder) / "event.html"
    page.js("(saves.open = true, 1)")
    page.wait("most.checkVisibility()")
    for most, some in (("0", False), ("5", True)):
        page.js(f"(most.value = '{most}', document.getElementById('event').click(), 1)")
        for _ in range(200):
            if path.exists() and ('"tiles":{' in path.read_text(encoding="utf-8")) == some:
                break
            time.sleep(0.05)
        else:
            raise AssertionError(f"tiles of {most} MB")
    assert page.js("document.getElementById('status').textContent").startswith("event.html has ")
    page.open(path.as_uri())
    page.wait("aprsbook.net !== null")
    is_red(page, "", "54.52,-3.5,20")
    is_(page.problems(), [])


def mbtiles(path: pathlib.Path) -> None:
    """An MBTiles file of red tiles of level 12."""
    with contextlib.closing(sqlite3.connect(path)) as base:
        base.execute("CREATE TABLE tiles (zoom_level, tile_column, tile_row, tile_data)")
        base.execute("CREATE INDEX it ON tiles (zoom_level, tile_column, tile_row)")
        for x in range(2002, 2012):
            for y in range(1280, 1320):
                base.execute("INSERT INTO tiles VALUES (12, ?, ?, ?)", (x, 4095 - y, TILE))
        base.commit()


def own_map(page: Browser) -> str:
    return str(page.js("document.getElementById('own-map').textContent"))


def is_red(page: Browser, words: str, where: str = "54.65,-3.5,20") -> None:
    """The map is red beside its middle, and says of what."""
    page.js(f"(aprsbook.map.look('{where}'), aprsbook.map.paint())")
    page.wait(f"{BESIDE_MIDDLE} === '200,30,30'")
    is_(own_map(page), words)


def test_archives(page: Browser, folder: pathlib.Path) -> None:
    """Squares in a database are drawn by slices; a database of something else is named."""
    fresh(page, folder)
    mbtiles(folder / "map.mbtiles")
    with contextlib.closing(sqlite3.connect(folder / "other.db")) as base:
        base.execute("CREATE TABLE x (y)")
    (folder / "a.log").write_text(log(3))
    page.give("#choose", *[folder / name for name in ("a.log", "map.mbtiles", "other.db")])
    page.wait(MADE)
    is_(page.js(TOLD)["other.db"], "is a database (SQLite), which no log is, and can\u2019t be "
        "drawn as a map: it has no table of tiles")
    is_(sorted(page.js(TOLD)), ["a.log", "other.db"])
    is_red(page, "Own map: map.mbtiles.")
    page.js("document.getElementById('away').click()")
    is_(own_map(page), "")


def test_image_overlay(page: Browser, folder: pathlib.Path) -> None:
    """A picture lies where three of its corners are, which are asked for or come in a file."""
    fresh(page, folder)
    (folder / "a.log").write_text(log(3))
    (folder / "sheet.png").write_bytes(TILE)
    # degrees for a pixel, and the middle of the first: 55 N 4 W, and a degree wide and high
    size = 1 / 256
    (folder / "sheet.pgw").write_text(f"{size}\n0\n0\n-{size}\n{-4 + size / 2}\n{55 - size / 2}\n")
    page.give("#choose", folder / "a.log", folder / "sheet.png")
    page.wait(f"{MADE} && !document.getElementById('overlay').hidden")
    put = ("((...all) => { all.forEach((it, k) => { "
           "document.getElementById('corner-' + k).value = it }); "
           "document.getElementById('lay').click(); return told.textContent })")
    is_(page.js(put + "('55, -4', '55, -3', '91, 0')"),
        "sheet.png: a corner is written as 54.5, -3.6, and not as 91, 0")
    is_(page.js(put + "('55, -4', '55, -3', '55, -2')"),
        "sheet.png: the three corners lie in one line")
    is_(page.js(put + "('55, -4', '55, -3', '54, -4')"), "")
    is_red(page, "Own map: sheet.png.")
    page.js("document.getElementById('away').click()")
    page.give("#bring", folder / "sheet.pgw", folder / "sheet.png")
    page.wait("aprsbook.layers.images.all.length === 1")
    is_red(page, "Own map: sheet.png.")


def choose(page: Browser, name: str, value: Union[str, bool]) -> None:
    page.js(f"(() => {{ const it = document.getElementById('{name}'); "
            f"if (it.type === 'checkbox') it.checked = {json.dumps(value)}; "
            f"else it.value = {json.dumps(value)}; it.dispatchEvent(new Event('change')) }})()")


def click(page: Chromium, x: float, y: float, kind: str = "mouse") -> None:
    for name in "Moved", "Pressed", "Released":
        page.call("Input.dispatchMouseEvent", type="mouse" + name, x=x, y=y, button="left",
                  clickCount=1, pointerType=kind)


@pytest.mark.browsers("Chromium")
def test_units(page: Chromium, folder: pathlib.Path) -> None:
    """Miles and the form of places are kept by the browser; a line is measured by clicks."""
    text = "/036/A=001000"
    fresh(page, folder)
    give(page, folder, {"a.log": place(0, "Q1A", 30, text=text)})
    page.wait(MADE)
    choose(page, "place-form", "mgrs")
    choose(page, "miles", True)
    page.wait("document.querySelector('#things .where').textContent === '30U VF 67619 39269'")
    fresh(page, folder)
    give(page, folder, {"a.log": place(0, "Q1A", 30, text=text)})
    page.wait("document.querySelector('#things .where')?.textContent === '30U VF 67619 39269'")
    is_(page.js("miles.checked"), True)
    choose(page, "miles", False)
    choose(page, "place-form", "")
    page.wait("document.querySelector('#things .where').textContent === '54.5000, -3.5000'")
    box = page.js("(aprsbook.map.look('54.5,-3.5,10'), aprsbook.map.paint(), "
                  "document.getElementById('map').scrollIntoView({ block: 'center' }), "
                  "measure.click(), "
                  "document.getElementById('map').getBoundingClientRect().toJSON())")
    middle = box["x"] + box["width"] / 2, box["y"] + box["height"] / 2
    click(page, *middle)
    click(page, middle[0] + 100, middle[1])
    is_(page.js("way.textContent"), "10.0 km at 090\u00b0")
    assert page.js("spot.textContent").startswith("54.49"), page.js("spot.textContent")
    assert " \u00b7 30U VF 7" in page.js("spot.textContent"), page.js("spot.textContent")
    page.js("dispatchEvent(new KeyboardEvent('keydown', { key: 'Escape' }))")
    is_(page.js("[way.textContent, measure.getAttribute('aria-pressed')]"), ["", "false"])


@pytest.mark.browsers("Chromium")
def test_edge(page: Chromium, folder: pathlib.Path) -> None:
    """The edge of the map is dragged, by keys too; on a wide screen lists stand beside."""
    fresh(page, folder)
    give(page, folder, {"a.log": log(3)})
    page.wait(MADE)
    sizes = ("(() => { const it = document.getElementById('map').getBoundingClientRect(), "
             "beside = document.getElementById('said').getBoundingClientRect(); "
             "return [it.width, it.height, beside.x > it.right, beside.y > it.bottom] })()")
    key = ("(name => document.getElementById('edge').dispatchEvent(new KeyboardEvent('keydown', "
           "{ key: name, cancelable: true })))")
    for width, turned, back in ((1400, "ArrowLeft", 0), (900, "ArrowDown", 1)):
        page.size(width, 860)
        page.settle()
        before = page.js(sizes)
        is_(before[2:], [back == 0, back == 1])
        said = page.js("['orientation', 'valuemin', 'valuenow', 'valuemax'].map(it => "
                       "document.getElementById('edge').getAttribute('aria-' + it))")
        is_(said[0], "horizontal" if back else "vertical")
        assert int(said[1]) <= int(said[2]) <= int(said[3]), said
        page.js(f"{key}('{turned}')")
        page.settle()
        after = page.js(sizes)
        assert after[back] < before[back] if back == 0 else after[back] == before[back] + 40, after
        page.js(f"{key}('Home')")
        page.settle()
        is_(page.js(sizes), before)
    grip = page.js("(document.getElementById('edge').scrollIntoView({ block: 'center' }), "
                   "document.getElementById('edge').getBoundingClientRect().toJSON())")
    x, y = grip["x"] + grip["width"] / 2, grip["y"] + 4
    for kind, down in (("Moved", 0), ("Pressed", 0), ("Moved", 60), ("Released", 60)):
        page.call("Input.dispatchMouseEvent", type="mouse" + kind, x=x, y=y + down, button="left",
                  buttons=1, clickCount=1)
    page.settle()
    assert abs(page.js(sizes)[1] - before[1] - 60) < 8, (page.js(sizes), before)
    assert "high=" in page.js("location.hash")


def test_turns(page: Browser, folder: pathlib.Path) -> None:
    """What an older turn has to say of its progress isn't said once another has come."""
    fresh(page, folder)
    slow = place(0, "Q1A", 30, "SLOW900")
    give_slow = {"slow.log": slow, "a.log": log(3)}
    for name, text in give_slow.items():
        (folder / name).write_text(text)
    page.give("#choose", *[folder / name for name in give_slow])
    page.wait("document.getElementById('status').textContent.startsWith('merging')")
    page.js("[...document.querySelectorAll('#files button')].at(-1).click()")
    page.wait(f"{MADE} && aprsfiles.files.length === 1")
    time.sleep(1.5)
    is_(page.js("document.getElementById('progress').hidden"), True)
    assert "merging" not in page.js("document.getElementById('status').textContent")


def test_twice(page: Browser, folder: pathlib.Path) -> None:
    """A log that is dropped twice stands there once; another one of its name stands beside it."""
    (folder / "day").mkdir()
    for name, text in {"a.log": log(3), "day/a.log": log(4), "b.png": "%PDF-1.7"}.items():
        (folder / name).write_text(text)
    fresh(page, folder)
    for _ in range(2):
        page.js("(document.getElementById('status').textContent = '', 1)")
        page.give("#choose", folder / "a.log", folder / "a.log", folder / "day/a.log",
                  folder / "b.png")
        page.wait("document.getElementById('status').textContent.includes(' of 2 files, ')")
        is_(page.js(f"[{ROWS}, aprsfiles.files.length]"), [4, 3])


def test_taken(page: Browser, folder: pathlib.Path) -> None:
    """A file that is taken away just before its book is drawn isn't drawn."""
    fresh(page, folder)
    (folder / "a.log").write_text(log(3))
    # the last moment before it is drawn
    page.js("(new MutationObserver(() => { "
            "if (document.getElementById('status').textContent.startsWith('drawing')) "
            "document.querySelector('#files td button').click() "
            "}).observe(document.getElementById('status'), { childList: true }), 1)")
    page.give("#choose", folder / "a.log")
    page.wait("document.getElementById('files-box').hidden === false || !aprsfiles.files.length")
    page.wait("!aprsfiles.files.length && document.getElementById('progress').hidden")
    time.sleep(0.5)
    is_(page.js(f"[{ROWS}, aprsfiles.made(), document.getElementById('net').hidden]"),
        [0, None, True])
    is_(page.problems(), [])


def test_huge(page: Browser, folder: pathlib.Path) -> None:
    """What is larger than an input may be isn't read, packed or not."""
    fresh(page, folder)
    for name in ("huge.log", "huge.log.gz"):
        (folder / name).write_bytes(log(1000).encode())
    packed = gzip.compress(log(1000).encode() + bytes(1 << 24))
    (folder / "huge.log.gz").write_bytes(packed)
    with open(folder / "huge.log", "r+b") as huge:
        huge.truncate((1 << 30) + 1)
    page.js("(window.read = [], Blob.prototype.arrayBuffer = (own => function () { "
            "read.push(this.size); return own.call(this) })(Blob.prototype.arrayBuffer), 1)")
    page.give("#choose", folder / "huge.log", folder / "huge.log.gz")
    page.wait("aprsfiles.files.length === 2", 30)
    told = page.js(TOLD)
    is_(told["huge.log"], "can't be read: it has more than 1 GiB")
    # zeros after a log are a damaged line of it
    assert told["huge.log.gz"].startswith("line 1001: "), told
    assert max(page.js("read")) <= 65536, page.js("read")


def test_large_file(page: Browser, folder: pathlib.Path) -> None:
    """A large file isn't kept in memory but read when it is needed; one that is gone meanwhile is
    named, and one with a damaged line is put right as others are."""
    fresh(page, folder)
    lines = [place(9 * k, f"Q1A-{k % 15 + 1}", 30 + k % 20, "BIG", f"big {k}") for k in range(900)]
    page.js("(aprsfiles.limits.kept = 60000, 1)")
    kept = "aprsfiles.files.map(it => it.bytes instanceof Blob)"
    (folder / "big.log").write_text("".join(lines))
    (folder / "small.log").write_text(log(3, "RX2"))
    page.give("#choose", folder / "big.log", folder / "small.log")
    page.wait(f"{MADE} && {ROWS} === 903")
    is_(page.js(kept), [True, False])
    # the same file once more is no other one
    page.give("#choose", folder / "big.log", folder / "small.log")
    page.wait("document.getElementById('progress').hidden")
    is_(page.js("aprsfiles.files.length"), 2)
    (folder / "big.log").unlink()
    (folder / "more.log").write_text(log(4, "RX3"))
    page.give("#choose", folder / "more.log")
    # what was read of it stays, as long as it needn't be read again
    page.wait(f"{MADE} && {ROWS} === 904")
    page.js("(gap.value = '31', gap.dispatchEvent(new Event('change')), 1)")
    page.wait(f"{TOLD}['big.log'] === \"can't be read any more: it has changed, or is gone\"")
    page.js("[...document.querySelectorAll('#files button')].find(it => "
            "it.ariaLabel === 'take big.log away').click()")
    page.wait(f"{MADE} && {ROWS} === 4")
    lines[7] = "torn\n"
    (folder / "big.log").write_text("".join(lines))
    page.give("#choose", folder / "big.log")
    page.wait(f"{MADE} && {TOLD}['big.log'] === 'line 8: Moment'")
    page.js("document.querySelector('#files .leave').click()")
    page.wait(f"{MADE} && {ROWS} === 903")
    is_(page.js(kept), [False, False, False])
    is_(page.problems(), [])


def test_fault(page: Browser, folder: pathlib.Path) -> None:
    """A fault that nobody thought of is said, and nothing waits for ever."""
    fresh(page, folder)
    page.js("(aprsbook.layers.tiles.take = () => { throw new Error('no room') }, 1)")
    page.js("aprsfiles.add([Object.defineProperty(new File(['x'], '1.png'), 'way', "
            "{ value: '3/1/1.png' })])")
    is_(page.js("[document.getElementById('status').textContent.endsWith('no room'), "
                "document.getElementById('progress').hidden]"), [True, True])


def test_stopped(page: Browser, folder: pathlib.Path) -> None:
    """A worker that stops takes its own file along alone, and another one takes its place."""
    fresh(page, folder)
    for turn in range(4):
        give(page, folder, {f"bad{turn}.log": place(0, "Q1A", 30, "CRASH")})
        page.wait(f"aprsfiles.files.length === {turn + 1}")
        assert "a worker stopped: " in page.js(TOLD)[f"bad{turn}.log"], page.js(TOLD)
    give(page, folder, {"good.log": log(3)})
    page.wait(f"{MADE} && {ROWS} === 3")


def test_skipped(page: Browser, folder: pathlib.Path) -> None:
    """By keys one is past many files at once."""
    fresh(page, folder)
    give(page, folder, {f"{k:02}.log": log(1, f"RX{k}") for k in range(30)})
    page.wait(MADE)
    page.js("document.getElementById('adds').querySelector('summary').focus()")
    page.key("Tab")
    is_(page.js("document.activeElement.textContent"), "past the files, to the map")
    page.js("document.activeElement.click()")
    page.key("Tab")
    is_(page.js("document.activeElement.id"), "in")


def test_brought(page: Browser, folder: pathlib.Path) -> None:
    """A roster of a spreadsheet and a KML beside a log; faults of the roster have their lines."""
    kml = ("<?xml version='1.0'?><kml xmlns='http://www.opengis.net/kml/2.2'><Document><Placemark>"
           "<name>pier</name><Point><coordinates>-3.5,54.5,0</coordinates></Point></Placemark>"
           "<Placemark><LineString><coordinates>-3.5,54.5 -3.4,54.6</coordinates></LineString>"
           "</Placemark></Document></kml>")
    fresh(page, folder)
    who = "\ufeffnumber;callsign;name\r\n1;Q1A-2;\"The; leader\"\r\n2;not a call;x\r\n"
    give(page, folder, {"a.log": log(3), "course.kml": kml, "who.csv": who})
    page.wait(MADE)
    told = page.js("told.textContent")
    for it in "course.kml: a map", "who.csv: 1 call, line 3: not a call is no call":
        assert it in told, told
    is_(page.js("aprsbook.layers.vectors.all.map(it => "
                "[it.lines.length, it.points.map(one => one.name)])"),
        [[1, ["pier"]]])
    page.wait("[...document.querySelectorAll('#things th bdi')].some(it => "
              "it.textContent === 'The; leader (Q1A-2)')")


def test_clock(page: Browser, folder: pathlib.Path) -> None:
    """A clock that is off is put right, which is said and saved, and left as it was."""
    fresh(page, folder)
    late = "".join(place(100 * k + 3600, f"Q1A-{k % 15 + 1}", 30 + k % 20, "COAST", f"no. {k}")
                   for k in range(9))
    give(page, folder, {"a.log": log(9, "RX1"), "b.log": log(9, "RX2"), "coast.log": late})
    page.wait(f"{MADE} && document.querySelectorAll('#receivers tr').length === 4")
    is_(page.js(ROWS), 18)
    page.js("document.querySelector('#receivers button.clock').click()")
    page.wait(f"{MADE} && {ROWS} === 9")
    is_(page.js("aprsbook.data.notes"), ["the clock of COAST was put 60 min back here"])
    page.wait("document.querySelector('#receivers .clock')?.textContent === 'leave as it was'")
    assert "put 60 min back here" in page.js(MORE)["coast.log"]
    path = page.saves_in(folder) / "coast.put-right.log"
    page.js("document.querySelector('#files .moved').click()")
    for _ in range(100):
        if path.exists() and path.read_text().startswith("2024-06-21T18:00:00.000Z COAST"):
            break
        time.sleep(0.05)
    else:
        raise AssertionError("the log that is put right isn't saved")
    page.js("document.querySelector('#receivers .clock').click()")
    page.wait(f"{MADE} && {ROWS} === 18")
    is_(page.js("aprsbook.data.notes"), [])
    # a second click before it is done is no other one
    page.wait("document.querySelector('#receivers .clock')?.textContent === 'put right'")
    page.js("(it => { it.click(); it.click() })(document.querySelector('#receivers .clock'))")
    page.wait(f"{MADE} && {ROWS} === 9")
    is_(page.js("aprsbook.data.notes"), ["the clock of COAST was put 60 min back here"])
    # what is no longer there has no note
    page.js("[...document.querySelectorAll('#files button')].find(it => "
            "it.ariaLabel === 'take coast.log away').click()")
    page.wait(f"{MADE} && aprsbook.net.receivers.length === 2")
    is_(page.js("aprsbook.data.notes"), [])


def test_two_clocks(page: Browser, folder: pathlib.Path) -> None:
    """Where two clocks are apart and none is known to be right, each is put right by the other."""
    fresh(page, folder)
    late = "".join(place(100 * k + 3600, f"Q1A-{k % 15 + 1}", 30 + k % 20, "COAST", f"no. {k}")
                   for k in range(9))
    give(page, folder, {"a.log": log(9, "RX1"), "coast.log": late})
    page.wait(f"{MADE} && document.querySelectorAll('#receivers .clock').length === 2")
    is_(sorted(page.js("[...document.querySelectorAll('#receivers .clock')]"
                       ".map(it => it.ariaLabel)")),
        ["put right by COAST the clock of RX1", "put right by RX1 the clock of COAST"])
    page.js("[...document.querySelectorAll('#receivers .clock')].find(it => "
            "it.ariaLabel.endsWith(' COAST')).click()")
    page.wait(f"{MADE} && {ROWS} === 9")
    is_(page.js("aprsbook.data.notes"), ["the clock of COAST was put 60 min back here"])


def own_line(page: Browser, text: str, at: str = "2024-06-21T18:05:00") -> None:
    """Adds a line of the operator's own to the form."""
    for name, value in (("at", at), ("from", "CP1"), ("to", "Net"), ("text", text)):
        page.js(f"(document.getElementById('own-{name}').value = {value!r}, 1)")
    page.js("document.getElementById('own-add').click()")


LOGGED = ("[...document.querySelectorAll('#ics-sheets tbody tr.own')]"
          ".map(it => it.querySelector('.text bdi').textContent)")


def test_example(page: Browser, folder: pathlib.Path) -> None:
    """A first page that shows what a log looks like, and tries one."""
    fresh(page, folder)
    shown = "document.getElementById('first').checkVisibility()"
    is_(page.js(shown), True)
    picture(page, "first")
    # two clicks bring each file once
    page.js("(document.getElementById('example').click(), "
            "document.getElementById('example').click(), 1)")
    page.wait(f"{MADE} && aprsfiles.files.length === 3")
    time.sleep(1)
    is_(page.js(f"[aprsfiles.files.length, {MADE}, document.getElementById('progress').hidden]"),
        [3, True, True])
    is_(page.js(shown), False)
    assert page.js("aprsbook.net.placed.length") > 1
    picture(page, "example")


def test_own_lines(page: Browser, folder: pathlib.Path) -> None:
    """The operator's own lines are kept, saved with the event, and read back of its page."""
    # a page of its own origin keeps them; one on a disk may not
    with Server(folder) as server:
        url = f"http://127.0.0.1:{server.port}/page.html"
        fresh(page, folder, url)
        give(page, folder, {"a.log": log(3)})
        page.wait(MADE)
        page.js("document.getElementById('ics-open').click()")
        own_line(page, "")
        is_(page.js("document.getElementById('own-told').textContent"),
            "A line has a time and a message.")
        for text in ("by <b>voice</b>", "=1+1"):
            own_line(page, text)
        is_(page.js(LOGGED), ["by <b>voice</b>", "=1+1"])
        csv = page.js("aprsbook.savedText('messages (CSV)')")
        assert "2024-06-21T18:05:00.000Z,CP1,,Net,'=1+1,own" in csv, csv
        event = page.js("aprsfiles.eventPage()")
        # loaded again, they are there
        fresh(page, folder, url)
        give(page, folder, {"a.log": log(3)})
        page.wait(MADE)
        page.js("document.getElementById('ics-open').click()")
        is_(page.js(LOGGED), ["by <b>voice</b>", "=1+1"])
        page.js("document.querySelector('#ics-sheets .own button').click()")
        is_(page.js(LOGGED), ["=1+1"])
    (folder / "event.html").write_text(event, encoding="utf-8")
    page.open((folder / "event.html").as_uri())
    page.wait("aprsbook.net !== null")
    page.js("document.getElementById('ics-open').click()")
    is_(page.js(LOGGED), ["by <b>voice</b>", "=1+1"])
    # another browser: the page of the event brings them
    fresh(page, folder)
    page.js("(localStorage.clear(), 1)")
    fresh(page, folder)
    page.give("#choose", folder / "event.html", folder / "a.log")
    page.wait(MADE)
    is_(page.js("told.textContent"),
        "event.html: 2 lines of another desk, which the form ICS-309 offers")
    page.js("document.getElementById('ics-open').click()")
    is_(page.js(LOGGED), [])
    page.js("document.querySelector('#own-desks button').click()")
    is_(page.js(LOGGED), ["by <b>voice</b>", "=1+1"])
    page.js("(localStorage.clear(), 1)")


def test_other_days(page: Browser, folder: pathlib.Path) -> None:
    """Lines that the browser keeps of another day are left out, which is said."""
    with Server(folder) as server:
        fresh(page, folder, f"http://127.0.0.1:{server.port}/page.html")
        page.js("(localStorage.setItem('aprsbook lines: APRS net', JSON.stringify({ gone: [], "
                "lines: [1718388000, 1718992800].map(at => ({ at, from: '', to: '', id: '', "
                "text: `at ${at}` })) })), 1)")
        give(page, folder, {"a.log": log(3)})
        page.wait(MADE)
        page.js("document.getElementById('ics-open').click()")
        is_(page.js(LOGGED), ["at 1718992800"])
        is_(page.js("document.getElementById('own-told').textContent"),
            "Left out, more than a day off: 1 line.")
        assert "at 1718388000" not in page.js("aprsfiles.eventPage()")
        page.js("(localStorage.clear(), 1)")


@pytest.mark.browsers("Chromium")
def test_denied(page: Chromium, folder: pathlib.Path) -> None:
    """Where a browser keeps nothing, the page works, and says that it keeps no lines."""
    denied = ("Object.defineProperty(window, 'localStorage', "
              "{ get() { throw new DOMException('denied', 'SecurityError') } })")
    script = page.call("Page.addScriptToEvaluateOnNewDocument", source=denied)
    fresh(page, folder)
    give(page, folder, {"a.log": log(3)})
    page.wait(MADE)
    choose(page, "miles", True)
    page.js("document.getElementById('ics-open').click()")
    own_line(page, "by voice")
    is_(page.js(LOGGED), ["by voice"])
    is_(page.js("document.getElementById('own-told').textContent"),
        "This browser keeps no lines: save the page of the event, which has them.")
    assert "by voice" in page.js("aprsfiles.eventPage()")
    is_(page.problems(), [])
    page.call("Page.removeScriptToEvaluateOnNewDocument", identifier=script["identifier"])


LONGEST = """(() => { window.task = 0;
    new PerformanceObserver(list => list.getEntries().forEach(it => {
        window.task = Math.max(window.task, it.duration) })).observe({ type: 'longtask' });
    return 1 })()"""


@pytest.mark.browsers("Chromium")
def test_saves(page: Browser, folder: pathlib.Path) -> None:
    """No save of a large net stops the page, and the page of the event is whole."""
    fresh(page, folder)
    give(page, folder, {"a.log": log(3)})
    page.wait(MADE)
    page.js(f"(async () => {{ const rows = {TABLE % 'rows'}, at = rows.indexOf('\\n') + 1; "
            "const many = aprsbook.tableOf(rows.slice(0, at) + rows.slice(at).repeat(40000)); "
            "await aprsbook.show({ ...aprsbook.data, rows: many }) })()")
    # all lists wait their turn
    time.sleep(2)
    page.saves_in(folder)
    names = {"event": "event.html", "places and tracks (GPX)": "net.gpx",
             "places and tracks (GeoJSON)": "net.geojson", "table (TSV)": "table.tsv"}

    def measure() -> Dict[str, float]:
        page.js(LONGEST)
        tasks = {}
        for name, file in names.items():
            (folder / file).unlink(missing_ok=True)
            page.js("(task = 0, [...document.querySelectorAll('#saves button')].find(it => "
                    f"it.id === '{name}' || it.textContent === '{name}').click(), 1)")
            for _ in range(600):
                if (folder / file).exists():
                    break
                time.sleep(0.05)
            time.sleep(0.3)
            tasks[file] = page.js("task")
        return tasks

    scale.judged(measure, dict.fromkeys(names.values(), 150), "saves of 120,000 rows, longest task")
    saved = (folder / "event.html").read_text(encoding="utf-8")
    data = json.loads(saved.partition('id="data">')[2].partition("</script>")[0])
    is_(data["rows"].count("\n"), 120_001)
    is_(page.js("aprsfiles.eventPage().then(it => it.length)"), len(saved))


def test_new(page: Browser, folder: pathlib.Path) -> None:
    """What is new since one looked is marked and counted, where logs are followed."""
    server = serve(folder, set(), {})
    (folder / "logs.txt").write_text("a.log")
    (folder / "a.log").write_text(log(4))
    fresh(page, folder, f"http://127.0.0.1:{server.server_port}/page.html#logs=logs.txt")
    page.wait(f"{MADE} && {ROWS} === 4")
    new = "[...document.querySelectorAll('#things tr.new')].map(it => it.dataset.key)"
    is_([page.js("document.getElementById('looked').hidden"), page.js(new)], [True, []])
    (folder / "a.log").write_text(log(4) + place(900, "Q1NEW") + place(901, "Q1A-1", 31))
    follow_until(page, f"{MADE} && {ROWS} === 6")
    is_(page.js(new), ["station Q1NEW"])
    assert page.js("document.getElementById('looked').textContent").startswith("1 new since ")
    assert page.js("document.title").startswith("(1) ")
    picture(page, "new")
    page.js("document.getElementById('looked').click()")
    page.wait(f"{new}.length === 0")
    is_(page.js("document.getElementById('looked').hidden"), True)
    server.shutdown()
    server.server_close()


FOLLOW = "(document.getElementById('follow').dispatchEvent(new Event('change')), 1)"


class Hanging(http.server.ThreadingHTTPServer):
    """A server that never answers for some paths, and with another status for others."""
    daemon_threads = True


def serve(folder: pathlib.Path, hang: Set[str], fail: Dict[str, int]) -> Hanging:
    class Handler(http.server.SimpleHTTPRequestHandler):
        def __init__(self, *of: Any) -> None:
            super().__init__(*of, directory=str(folder))

        def log_message(self, *_: Any) -> None:
            pass

        def send_head(self) -> Union[io.BytesIO, BinaryIO, None]:
            name = self.path.rpartition("/")[2]
            if name in hang:
                time.sleep(8)
            if name in fail:
                self.send_error(fail[name])
                return None
            return super().send_head()

    server = Hanging(("127.0.0.1", 0), Handler)
    threading.Thread(target=server.serve_forever, daemon=True).start()
    return server


def follow_until(page: Browser, condition: str) -> None:
    """Asks for all logs, again and again, until something holds."""
    for _ in range(30):
        page.js(FOLLOW)
        try:
            return page.wait(condition, 3)
        except AssertionError:
            pass
    raise AssertionError("never came true: " + condition)


def test_followed(page: Browser, folder: pathlib.Path) -> None:
    """Each log by itself: one that hangs, fails, is damaged or is taken off the list is said, and
    what was read of it stays."""
    hang: Set[str] = set()
    fail: Dict[str, int] = {}
    server = serve(folder, hang, fail)
    names = ["a.log", "b.log", "c.log", "d.log"]
    for k, name in enumerate(names):
        (folder / name).write_text(log(5 + k, f"RX{k}"))
    # what is none of this server takes no other log along, and a log that stands there twice is one
    (folder / "logs.txt").write_text("\n".join(["// the hill", "http://[", *names, names[0]]))
    fresh(page, folder, f"http://127.0.0.1:{server.server_port}/page.html")
    page.js("(aprsfiles.pace.limit = 2000, 1)")
    page.js("(() => { const it = document.getElementById('follow'); it.value = 'logs.txt'; "
            "it.dispatchEvent(new Event('change')) })()")
    follow_until(page, f"{MADE} && {ROWS} === 8")
    is_(page.js("[aprsfiles.files.length, stale.textContent.split(';')[0]]"),
        [4, "logs.txt: no log of this server: // the hill"])
    hang.add("a.log")
    fail["b.log"] = 500
    # a bad line amid good ones, of a log that grows
    (folder / "c.log").write_text(log(7, "RX2") + "torn\n" + place(5000, "Q1NEW", receiver="RX2"))
    (folder / "logs.txt").write_text("\n".join(names[:3]))
    follow_until(page, f"{MADE} && {ROWS} === 9")
    follow_until(page, f"{MORE}['a.log'].startsWith('no answer within 2 s, since 20')")
    more = page.js(MORE)
    assert more["b.log"].startswith("the server answers 500, since 20"), more
    assert "1 line left out" in more["c.log"], more
    is_(more["d.log"], "no longer on the list; what was read of it stays")
    is_(sorted(page.js("aprsbook.net.receivers.map(it => it.name)")),
        ["RX0", "RX1", "RX2", "RX3"])
    fail["logs.txt"] = 503
    follow_until(page, "stale.textContent.startsWith('logs.txt: the server answers 503, since 20')")
    hang.clear()
    fail.clear()
    follow_until(page, f"{MORE}['a.log'] === '' && stale.textContent.indexOf('503') < 0")
    server.shutdown()
    server.server_close()


def test_begun_anew(page: Browser, folder: pathlib.Path) -> None:
    """What was read of a log that begins anew, or is emptied, stays, and is named."""
    server = serve(folder, set(), {})
    (folder / "logs.txt").write_text("a.log")
    (folder / "a.log").write_text(log(4))
    fresh(page, folder, f"http://127.0.0.1:{server.server_port}/page.html#logs=logs.txt")
    page.wait(f"{MADE} && {ROWS} === 4")
    (folder / "a.log").write_text(place(900, "Q1NEW"))
    follow_until(page, f"{MADE} && {ROWS} === 5")
    is_(sorted(page.js(TOLD).items()), [("a.log", "heard 1 passed 0"),
                                        ("a.log, before it began anew", "heard 4 passed 0")])
    (folder / "a.log").write_text("")
    follow_until(page, f"{TOLD}['a.log'] === 'heard 0 passed 0' && {MADE} && {ROWS} === 5")
    is_(page.js(TOLD)["a.log, before it began anew"], "heard 5 passed 0")
    # a page in its place takes nothing away
    (folder / "a.log").write_text("<!DOCTYPE html><p>log in")
    follow_until(page, f"{TOLD}['a.log'].startsWith('is a web page') && {MADE} && {ROWS} === 5")
    server.shutdown()
    server.server_close()


def tile() -> bytes:
    """A red picture of 256 by 256."""
    import struct
    import zlib

    def part(kind: bytes, data: bytes) -> bytes:
        return (struct.pack(">I", len(data)) + kind + data +
                struct.pack(">I", zlib.crc32(kind + data)))

    rows = (b"\0" + bytes([200, 30, 30]) * 256) * 256
    return (b"\x89PNG\r\n\x1a\n" + part(b"IHDR", struct.pack(">IIBBBBB", 256, 256, 8, 2, 0, 0, 0)) +
            part(b"IDAT", zlib.compress(rows)) + part(b"IEND", b""))


TILE = tile()
