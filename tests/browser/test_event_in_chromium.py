"""The page of an event in headless Chromium: text off the air does nothing, the controls work."""
import csv
import io
import itertools
import json
import pathlib
import shutil
import subprocess
import time
import xml.etree.ElementTree
from typing import List, Tuple

import pytest

import hostile
import scale
from browser import Chromium, Place
from by_hand import message, moment, page_of, place, row
from given import EVENING, PICTURES, TABLE, TEXTS as texts, event_page, is_, picture
from serving import Server

pytestmark = pytest.mark.browsers("Chromium")

CONTROLS = "button slider searchbox combobox checkbox link table img group textbox".split()
shown = texts % "#things tbody tr th"
SENT = "document.querySelector('#things th[data-column=sent]')"
sorted_by_sent = SENT + ".getAttribute('aria-sort')"
FIND = "document.getElementById('find')"
marks = "(aprsbook.map.paint(), aprsbook.layers.stations.marks.length)"
BADGES = texts % "#news > *"
PICK = "[...document.querySelectorAll('.pick')].find(it => it.textContent === %r).click()"



def placed(*inputs: Place) -> int:
    """How many things have a place, by the table of the inputs."""
    command = ["aprsbook-table", *inputs]
    table = subprocess.run(command, stdout=subprocess.PIPE, check=True).stdout.decode()
    rows = csv.DictReader(io.StringIO(table), delimiter="\t", quoting=csv.QUOTE_NONE)
    return len({(it["kind"], it["name"]) if it["kind"] in ("object", "item")
                else ("station", it["source"]) for it in rows if it["latitude"]})



def change(page: Chromium, name: str, value: str, kind: str = "change") -> None:
    page.js(f"(() => {{ const it = document.getElementById({name!r}); it.value = {value!r}; "
            f"it.dispatchEvent(new Event({kind!r})) }})()")


def test_hostile(page: Chromium, folder: pathlib.Path) -> None:
    (folder / "hostile.log").write_text("".join(hostile.log()))
    (folder / "hostile.gpx").write_text(hostile.course())
    url = event_page(folder / "hostile.html", "--title", hostile.TITLE,
                     "--course", folder / "hostile.gpx", folder / "hostile.log")
    page.open(url)
    is_(page.js("document.title"), hostile.TITLE)
    page.js("Object.values(aprsbook.lists).forEach(it => it.whole())")
    said = page.js(texts % "#things bdi, #messages bdi")
    for text in hostile.TEXTS:
        # a comment, a status and a message
        is_(said.count(hostile.shown(text)), 3)
    is_(said.count("caf\\xe9 \\xff\\x80"), 1)
    is_(page.js("aprsbook.layers.stations.things.length"),
        len(hostile.TEXTS) + 1 + 2 * len(hostile.NAMES))
    is_(page.js("aprsbook.layers.vectors.all[0].points[0].name"), hostile.TEXTS[0])
    page.js("document.querySelectorAll('.pick, th button').forEach(it => "
            "it.dispatchEvent(new Event('click')))")
    is_(page.js("[window.ran === undefined, document.querySelectorAll('script').length, "
                "document.querySelectorAll('img, iframe, #net b').length]"), [True, 3, 0])
    is_(page.requests(), [url])
    is_(page.problems(), [])
    picture(page, "hostile", whole=True)
    # were a text not escaped, the page's policy would still stop it
    page.js("""(() => {
        const add = (tag, of) =>
            Object.assign(document.body.appendChild(document.createElement(tag)), of);
        add("script", { textContent: "window.ran = 5" });
        add("img", { src: "http://127.0.0.1:9/x.png" });
        add("div", { innerHTML: "<a onclick='window.ran = 6' id=more>x</a>" });
        document.getElementById("more").click();
        fetch("http://127.0.0.1:9/x").catch(() => 0);
    })()""")
    time.sleep(0.3)
    is_(page.js("window.ran === undefined"), True)
    is_([it for it in page.happened("Network.responseReceived") if "127.0.0.1" in str(it)], [])


def test_contained(page: Chromium, folder: pathlib.Path) -> None:
    """Marks that pile up and text that runs the other way stay in their cell."""
    zalgo = "a" + "\\xcc\\x83" * 60
    lines = [place(k, f"Q1A{k}", 54.5, -3.5 + k / 100, zalgo if k == 3 else "plain")
             for k in range(7)]
    page.open(page_of(folder / "zalgo.html", "".join(lines)))
    is_(page.js("getComputedStyle(document.querySelector('#things .about bdi')).contain"), "paint")
    heights = page.js("[...document.querySelectorAll('#things tbody tr')]"
                      ".map(it => it.clientHeight)")
    assert max(heights) - min(heights) <= 2, heights
    # nor does a name of the roster run over what is beside it
    roster = "Q1A0 Runner 118\nQ1A1 The sweeper\nQ1A2 Medical\n"
    for width in 360, 700, 820, 1000, 1280, 1600:
        page.open(page_of(folder / "names.html", "".join(lines[:3]), roster=roster), width, 900)
        is_((width, page.js("[...document.querySelectorAll('#things :is(td, th)')].filter(it => "
                            "it.scrollWidth > it.clientWidth + 1).map(it => it.textContent)")),
            (width, []))


def test_times_of_two_years(page: Chromium, folder: pathlib.Path) -> None:
    """On a phone a time with its date stays in its column of the form ICS-309."""
    said = "".join(message("Q1A", "Q1B", "?", "unanswered", it, id="1") for it in (1, 1500))
    said = said.replace("2024-06-22", "2025-06-22")
    page.open(page_of(folder / "years.html", place(0, "Q1A", 54.5, -3.5), said), 390, 800)
    page.js("document.getElementById('ics-open').click()")
    is_(page.js(texts % "#ics-sheets .time"), ["2024-06-21 00:01:00", "2025-06-22 01:00:00"])
    is_(page.js("[...document.querySelectorAll('#ics-sheets .time')].filter(it => "
                "it.scrollWidth > it.clientWidth).length"), 0)


def test_dates_beside_calls(page: Chromium, folder: pathlib.Path) -> None:
    """On a phone neither a call nor a time with its date runs out of its cell of a list."""
    said = "".join(message("Q1NET", it, "?", "unanswered", at, id="1")
                   for it in ("Q1MED-7", "BLN1RACE") for at in (1, 1500))
    over = ("[...document.querySelectorAll('#messages td, #bulletins td')].filter(it => {"
            "const of = document.createRange(); of.selectNodeContents(it);"
            "return of.getBoundingClientRect().right > it.getBoundingClientRect().right; })"
            ".map(it => it.textContent)")
    roster = "Q1NET Net control\nQ1MED-7 Medic"
    for width, name, year in itertools.product((320, 360), ("", roster), ("2024", "2025")):
        page.open(page_of(folder / "dates.html", place(0, "Q1A", 54.5, -3.5),
                          said.replace("2024-06-22", f"{year}-06-22"), roster=name), width, 800)
        is_((width, name, year, page.js(over)), (width, name, year, []))


def test_long_receivers(page: Chromium, folder: pathlib.Path) -> None:
    """On a phone the names of receivers, of 16 letters, are broken in the list of stations."""
    for width in 320, 360:
        page.open(page_of(folder / "long.html", place(
            0, "Q1A", 54.5, -3.5, receivers="BASE_COAST_NORTH,BASE_COAST_SOUTH")), width, 800)
        is_(page.js("(it => it.scrollWidth - it.clientWidth)"
                    "(document.getElementById('things-box'))"), 0)


def test_a_tool_that_is_on(page: Chromium, folder: pathlib.Path) -> None:
    """A tool of the map that is on is told from the others by its colour, the system's too."""
    page.open(page_of(folder / "tools.html", place(0, "Q1A", 54.5, -3.5)))
    look = "(it => [it.borderTopColor, it.color, it.outline])(getComputedStyle(%s))"
    measure, play = (look % f"document.getElementById('{it}')" for it in ("measure", "play"))
    is_(page.js(measure), page.js(play))
    page.js("document.getElementById('measure').click()")
    on, off = page.js(measure), page.js(play)
    assert on[0] != off[0] and on[1] != off[1], (on, off)
    page.call("Emulation.setEmulatedMedia", features=[{"name": "forced-colors", "value": "active"}])
    assert page.js(measure)[2] != page.js(play)[2]
    page.call("Emulation.setEmulatedMedia", features=[])


def test_marks_without_a_font(page: Chromium, folder: pathlib.Path) -> None:
    """A message of marks that no font has pushes no column out of its box."""
    lines = place(0, "Q1A", 54.5, -3.5)
    marks = "".join("\\x%02x" % it for it in ("a" + chr(0x1DA9B) * 60).encode()[1:])
    page.open(page_of(folder / "marks.html", lines, message(
        "Q1A", "Q1B", "a" + marks, "unanswered", 1, id="1")), 1280, 800)
    is_(page.js("(it => it.scrollWidth <= it.clientWidth)"
                "(document.getElementById('messages-box'))"),
        True)


def test_forced_colours(page: Chromium, folder: pathlib.Path) -> None:
    """Where the system chooses colours, who is in need stands out from the other news."""
    rows = place(0, "Q1A", 54.5, -3.5) + row(
        "mic-e", 1, "Q1MED", latitude="54.5000000", longitude="-3.5000000", ambiguity=0,
        compressed="no", symbol="/>", says="emergency")
    page.open(page_of(folder / "need.html", rows, message("Q1A", "Q1B", "?", "unanswered", 1)))
    page.call("Emulation.setEmulatedMedia", features=[{"name": "forced-colors", "value": "active"}])
    of = "getComputedStyle(document.querySelector('#news > %s')).backgroundColor"
    is_(page.js("matchMedia('(forced-colors: active)').matches"), True)
    assert page.js(of % ".alarm") != page.js(of % ":not(.alarm)")
    page.call("Emulation.setEmulatedMedia", features=[])


def test_a_phone_shows_what_is_told(page: Chromium, folder: pathlib.Path) -> None:
    """On a narrow page what is told of a pick comes into view, with or without a place."""
    rows = "".join(place(k, f"Q1A{k}", 54.5, -3.5 + k / 100) for k in range(9))
    url = page_of(folder / "phone.html", rows + row("status", 9, "Q1NO", text="no place"))
    for name in "Q1A3", "Q1NO":
        page.open(url, 360, 640)
        page.js(PICK % name)
        page.settle()
        top, bottom = page.js("(it => [it.top, it.bottom])(document.getElementById('one-name')"
                              ".getBoundingClientRect())")
        assert 0 <= top and bottom <= 640, (name, top, bottom)


def test_edges(page: Chromium, folder: pathlib.Path) -> None:
    """On a map that became another size all names are whole."""
    rows = "".join(place(k, f"Q1LONG-{k}", 54.5 + k / 100, -3.5 + k % 2 / 50) for k in range(8))
    url = page_of(folder / "edges.html", rows, roster="Q1LONG-* A long name of it\n")
    page.open(url, 1280, 900)
    for width in 1280, 700, 820, 360:
        page.size(width, 900)
        page.settle()
        cut = page.js("(() => { const { map } = aprsbook, { pen } = map, "
                      "{ width } = map.view, write = pen.fillText, cut = []; "
                      "pen.fillText = (text, x, y) => { "
                      "if (x < 0 || x + pen.measureText(text).width > width + 1) cut.push(text); "
                      "write.call(pen, text, x, y) }; map.paint(); pen.fillText = write; "
                      "return cut })()")
        is_((width, [it for it in cut if "Q1" in it]), (width, []))


def test_controls(page: Chromium, folder: pathlib.Path) -> None:
    url = event_page(folder / "evening.html", "--title", "Fell race", *EVENING)
    page.open(url)
    is_(page.requests(), [url])
    is_(page.problems(), [])
    is_(page.js(marks), placed(*EVENING))
    page.js(SENT + ".firstChild.click()")
    is_(page.js(shown + "[0]"), "Q1NET")
    page.js(SENT + ".firstChild.click()")
    is_(page.js(sorted_by_sent), "ascending")
    change(page, "find", "q1med", "input")
    found = page.js(shown)
    assert 0 < len(found) < 17
    is_(page.js("found.textContent"), f"{len(found)} of 17")
    is_(page.js(marks), len(found))
    change(page, "find", "", "input")
    change(page, "kind", "object")
    is_(page.js("aprsbook.layers.stations.things.every(it => it.kind === 'object')"), True)
    assert page.js(marks) > 0
    change(page, "kind", "")
    page.js(PICK % "Q1RUN-7")
    is_(page.js("document.getElementById('one-name').textContent"), "Q1RUN-7 station")
    is_(page.js("document.querySelectorAll('#places tbody tr').length"), 9)
    picture(page, "picked")
    # the clock: half way, fewer have been anywhere; and what is chosen outlives loading again
    change(page, "clock", "100", "input")
    assert 0 < page.js(marks) < placed(*EVENING)
    before = [page.js("document.getElementById('then').textContent"), page.js(marks)]
    page.js("map.focus()")
    hash_before = page.js("location.hash")
    for key in "+", "ArrowLeft", "ArrowUp", "-":
        page.key(key)
        assert page.js("location.hash") != hash_before, key
        hash_before = page.js("location.hash")
    page.reload()
    page.wait("aprsbook.layers.stations.picked === 'station Q1RUN-7'")
    is_(page.js("location.hash"), hash_before)
    is_(page.js("document.getElementById('then').textContent"), before[0])
    is_(page.js(sorted_by_sent), "ascending")
    page.js("map.focus()")
    page.key("0")
    assert "view" not in page.js("location.hash")
    is_(page.js(marks), before[1])
    mouse(page)
    is_(page.problems(), [])


def mouse(page: Chromium) -> None:
    """The wheel zooms, a drag moves, a click picks; replaying comes to the end and stops there."""
    corner = page.js("(() => { const it = map.getBoundingClientRect(); return [it.x, it.y] })()")
    x, y = corner[0] + 90, corner[1] + 90
    page.call("Input.dispatchMouseEvent", type="mouseWheel", x=x, y=y, deltaX=0, deltaY=-99)
    page.wait("location.hash.includes('view=')")
    middle = page.js("location.hash")
    for kind, by in ("mousePressed", 0), ("mouseMoved", 40), ("mouseReleased", 40):
        page.call("Input.dispatchMouseEvent", type=kind, x=x + by, y=y, button="left", buttons=1,
                  clickCount=1)
    page.wait(f"location.hash !== {json.dumps(middle)}")
    page.js("fit.click()")
    change(page, "clock", "950", "input")
    page.js("play.click()")
    page.wait("clock.value === '1000' && play.textContent === 'play'")
    is_(page.js(marks), placed(*EVENING))
    x, y = page.js("aprsbook.layers.stations.marks.filter(it => it.thing.name === 'Q1BAY')"
                   ".map(it => [it.x, it.y])[0]")
    for kind in "mousePressed", "mouseReleased":
        page.call("Input.dispatchMouseEvent", type=kind, x=corner[0] + x, y=corner[1] + y,
                  button="left", buttons=1, clickCount=1)
    page.wait("aprsbook.page.picked === 'station Q1BAY'")
    # from what was picked before, at 54.5208, -3.5139: 1.11 km to the south and 6.57 to the west
    told = page.js("document.getElementById('one-about').textContent")
    assert "from Q1RUN-7" in told and "6.7 km, 260\u00b0" in told, told


def test_names(page: Chromium, folder: pathlib.Path) -> None:
    page.open(event_page(folder / "evening.html", "--live", "600", *EVENING))
    page.wait("document.querySelectorAll('#timeline tbody tr').length > 10")
    page.js("(looks.open = true, 1)")  # a menu, as saves and adds
    nodes = page.call("Accessibility.getFullAXTree")["nodes"]
    controls = [it for it in nodes if not it["ignored"] and it["role"]["value"] in CONTROLS]
    assert len(controls) > 50
    is_([it["role"] for it in controls if not it.get("name", {}).get("value")], [])
    # all are reached with the tab key, the rows of a table by one stop and then the arrow keys
    reached = set()
    for _ in range(110):
        page.key("Tab")
        reached.add(page.js("document.activeElement.id || document.activeElement.className "
                            "|| document.activeElement.parentNode.id"))
    wanted = ("in out fit fill sound play clock colours map find kind live since looks local saves "
              "adds ics-open").split()
    assert reached >= {*wanted, "pick station"}, reached
    page.js("document.querySelector('#things .pick').focus()")
    page.key("ArrowDown")
    is_(page.js("document.activeElement.textContent"), page.js(shown + "[1]"))
    page.key("End")
    is_(page.js("document.activeElement.textContent"), page.js(shown + ".at(-1)"))


def test_widths(page: Chromium, folder: pathlib.Path) -> None:
    url = event_page(folder / "evening.html", "--title", "Fell race, 21 June 2024", *EVENING)
    (folder / "hostile.log").write_text("".join(hostile.log()))
    long = event_page(folder / "hostile.html", "--title", "x" * 300, str(folder / "hostile.log"))
    for scheme, widths in (("light", (320, 360, 640, 650, 800, 1200, 1280, 1920)),
                           ("dark", (360, 700, 1280, 1920))):
        for width in widths:
            for at in long, url:
                page.open(at, width, 844, scheme)
                is_(page.js("document.documentElement.scrollWidth <= innerWidth"), True)
            # nor does a table of the evening in its box
            page.wait("document.querySelectorAll('#timeline tbody tr').length > 10")
            is_(page.js("[...document.querySelectorAll('.wide')]"
                        ".filter(it => it.scrollWidth > it.clientWidth).map(it => it.id)"), [])
            picture(page, f"{width}-{scheme}")
            picture(page, f"{width}-{scheme}-whole", whole=True)
    (folder / "empty.log").write_text("")
    page.open(event_page(folder / "empty.html", folder / "empty.log"))
    is_(page.js("document.querySelector('header p').textContent"), "Nothing was heard yet.")
    is_(page.problems(), [])


def test_times(page: Chromium, folder: pathlib.Path) -> None:
    """Dates where more than one day is shown, the last hours alone, and local time."""
    lines = [place(600, "Q1OLD", 54.5, -3.5), place(1390, "Q1MID", 54.6, -3.5),
             place(1445, "Q1NEW", 54.7, -3.5)]
    messages = (message("Q1OLD", "Q1NEW", "old", "unanswered", 600, id=1) +
                message("Q1NEW", "Q1MID", "new", "unanswered", 1445, id=2))
    page.call("Emulation.setTimezoneOverride", timezoneId="Pacific/Auckland")
    page.open(page_of(folder / "days.html", "".join(lines), messages))
    times = texts % "#things time"
    is_(page.js(times), ["21 Jun 23:10:00", "22 Jun 00:05:00", "21 Jun 10:00:00"])
    is_(page.js(BADGES)[:2], ["2 messages unanswered", "2 stations silent for over 30 min"])
    change(page, "since", "6")
    is_(page.js(times), ["21 Jun 23:10:00", "22 Jun 00:05:00"])
    # what wants doing stays in sight
    is_(page.js(BADGES)[:2], ["2 messages unanswered (1 earlier than is shown)",
                              "2 stations silent for over 30 min (1 earlier than is shown)"])
    change(page, "since", "1")
    change(page, "since", "24")
    is_(len(page.js(times)), 3)
    # in Auckland it is twelve hours later in June: one day
    page.js("local.click()")
    change(page, "since", "6")
    is_(page.js(times), ["11:10:00", "12:05:00"])
    assert "UTC+12:00" in page.js("about.textContent")
    page.call("Emulation.setTimezoneOverride", timezoneId="")
    # a net that goes on, and in whose last hour nothing was heard
    page.open(page_of(folder / "days.html", "".join(lines), messages, live=3600) + "#since=1")
    is_(page.js("about.textContent"), "Nothing was heard in this time.")
    page.wait("document.getElementById('timeline-box').textContent === 'none'")
    page.wait("stale.textContent.startsWith('nothing was heard for ')")
    is_(page.problems(), [])


def test_messages(page: Chromium, folder: pathlib.Path) -> None:
    """The states are the table's; bulletins stand apart; Mic-E has its places."""
    messages = (message("Q1A", "Q1B", "help needed{01}", "unnumbered", 1, outcome="unanswered") +
                message("Q1A", "Q1B", "on my way{02}AA", "unnumbered", 2, outcome="acknowledged",
                        answer=moment(3), answer_source="Q1B") +
                message("Q1A", "Q1B", "a set {} of braces", "unnumbered", 3) +
                message("Q1A", "Q1B", "no room", "rejected", 3, id=6) +
                message("Q1A", "BLN1", "open at 18", "unnumbered", 4) +
                message("Q1A", "Q1B", "all well", "acknowledged", 5, 6, id=7))
    where = {"latitude": "33.26", "longitude": "-124.5", "ambiguity": 0, "compressed": "no"}
    mice = row("mic-e", 2, "Q1MIC-9", "RX1,RX2", via="Q1DIG*,WIDE2-1", course=251, speed_knots=20,
               says="en-route", symbol="/j", text="hello\\x5c", **where)
    # a symbol may be a colon, and its table a backslash
    fire = place(5, "Q1FIRE", 33.3, -124.4, "here: it burns", symbol="/:")
    shed = place(6, "Q1SHED", 33.3, -124.3, "x", symbol="\\x5c\\x5c")
    rows = mice + place(4, "Q1A", 33.2, -124.4) + fire + shed
    page.open(page_of(folder / "mice.html", rows, messages))
    is_(page.js(BADGES)[:2], ["1 message unanswered", "1 message rejected"])
    is_(page.js(texts % "#messages td.state"),
        ["unanswered", "rejected", "unnumbered", "acknowledged", "acknowledged"])
    is_(page.js("[...document.querySelectorAll('#messages td.state')].map(it => it.title)")[-1],
        "by Q1B, 2024-06-21 00:03:00 UTC")
    is_(page.js(texts % "#bulletins td.text"), ["open at 18"])
    things = {name: [where, about.strip()] for name, where, about in page.js(
        "[...document.querySelectorAll('#things tbody tr')]"
        ".map(it => ['th', '.where', '.about'].map(one => it.querySelector(one).textContent))")}
    is_(things["Q1MIC-9"], ["33.2600, -124.5000", "251\u00b0, 37 km/h, en route hello\\"])
    is_(things["Q1FIRE"][1], "here: it burns")
    is_(things["Q1SHED"][1], "x")
    page.wait("!!document.querySelector('#repeated')")
    is_(page.js(texts % "#repeated thead th"), ["station", "Q1DIG", "sent"])
    # the form, and what it saves
    page.js("document.getElementById('ics-open').click()")
    is_(page.js("document.querySelector('main').checkVisibility()"), False)
    is_(page.js("document.querySelectorAll('#ics-sheets tbody tr').length"), 6)
    picture(page, "ics-309")
    pdf = page.pdf()
    assert pdf.startswith(b"%PDF")
    if PICTURES:
        (pathlib.Path(PICTURES) / "ics-309.pdf").write_bytes(pdf)
    sheet = list(csv.reader(io.StringIO(page.js(
        "aprsbook.savedText('messages (CSV)')"))))
    is_(sheet[1], [moment(1), "Q1A", "", "Q1B", "help needed{01}", "unanswered"])
    is_(len(sheet), 7)
    is_(page.problems(), [])


def test_links(page: Chromium, folder: pathlib.Path) -> None:
    """The news lead to what they tell of, out of the map too; the address keeps what was chosen."""
    said = message("Q1A", "Q1B", "hi", "unanswered", 2, id=2)
    page.open(page_of(folder / "links.html", place(0, "Q1A", 54.5, -3.5), said) + "#time=local",
              700, 500)
    page.js("(fill.click(), document.querySelector('#news a[href=\"#said\"]').click(), 1)")
    is_(page.js("[location.hash, document.body.classList.contains('full'), "
                "document.activeElement.id, Math.round(said.getBoundingClientRect().y)]"),
        ["#time=local", False, "said", 0])
    page.key("Tab")
    assert page.js("said.contains(document.activeElement)")


def test_rest(page: Chromium, folder: pathlib.Path) -> None:
    """Rows that aren't printed are said."""
    said = "".join(message("Q1A", "Q1B", f"no. {k}", "unanswered", k / 60, id=k)
                   for k in range(5004))
    page.open(page_of(folder / "rest.html", place(0, "Q1A", 54.5, -3.5), said))
    rest = texts % "#messages-box .rest, #things-box .rest"
    is_(page.js(rest), ["", ""])
    page.js("dispatchEvent(new Event('beforeprint'))")
    is_(page.js(f"[{rest}, document.querySelectorAll('#messages tbody tr').length]"),
        [["and 4 more", ""], 5000])
    page.js("dispatchEvent(new Event('afterprint'))")


def test_long_texts(page: Chromium, folder: pathlib.Path) -> None:
    """A message of octets that are no letters doesn't push others out of sight."""
    said = (message("Q1A", "Q1B", "\\x00" * 67, "unanswered", 1, id=1) +
            message("Q1A", "Q1B", "hi", "unanswered", 2, id=2))
    page.open(page_of(folder / "long.html", place(0, "Q1A", 54.5, -3.5), said), 700, 900)
    high = page.js("[...document.querySelectorAll('#messages .text')].map(it => "
                   "[it.title.length, it.getBoundingClientRect().height])")
    is_([it[0] for it in high], [2, 4 * 67])
    # and a line for what deals with it
    assert high[1][1] < 190, high


def test_world(page: Chromium, folder: pathlib.Path) -> None:
    """Over the date line and round the pole: short tracks, and no place off the earth."""
    ferry = "".join(place(k, "Q1FERRY", -17.5, (179.95 + k / 100 + 180) % 360 - 180)
                    for k in range(11))
    page.open(page_of(folder / "ferry.html", ferry))
    is_(page.js(marks), 1)
    # 0.1 degree of longitude at 17.5 south is 10.6 km; the map is no wider than that takes
    scale, width = page.js("[aprsbook.map.view.scale, aprsbook.map.view.width]")
    assert 10000 < 6371008.8 / scale * width < 30000
    lines = json.loads(page.js(
        "aprsbook.savedText('places and tracks (GeoJSON)')"))
    track = lines["features"][-1]["geometry"]["coordinates"]
    is_([it[0][0] for it in track], [179.95, -180])
    is_(track[0][-1][0], 180)
    picture(page, "ferry")
    trek = "".join(place(k, "Q1TREK", 89.9, 30 * k - 180) for k in range(12))
    page.open(page_of(folder / "pole.html", place(1, "Q1POLE", 90, 0) + trek))
    is_(page.js(marks), 2)
    picture(page, "pole")
    # all that the canvas is told to write
    page.js("""(() => { const pen = aprsbook.map.pen, write = pen.fillText; window.wrote = [];
        pen.fillText = (...it) => { wrote.push(it[0]); write.apply(pen, it) };
        for (let k = 0; k < 60; k++) { aprsbook.map.zoom(0.8); aprsbook.map.paint(); }
        })()""")
    wrote = page.js("wrote")
    assert any("\u00b0" in it for it in wrote)
    assert all(float(it[:it.index("\u00b0")]) <= (90 if it[-1] in "NS" else 180)
               for it in wrote if "\u00b0" in it)
    is_(page.problems(), [])


def test_brought(page: Chromium, folder: pathlib.Path) -> None:
    """Base maps and a roster, dropped on the page and taken away; what isn't one is named."""
    (folder / "coast.geojson").write_text(json.dumps({"type": "FeatureCollection", "features": [
        {"type": "Feature", "properties": {"name": "pier"},
         "geometry": {"type": "Point", "coordinates": [-3.5, 54.5]}},
        {"type": "Feature", "properties": None, "geometry": {
            "type": "LineString", "coordinates": [[-3.5, 54.5], [-3.4, 54.6]]}}]}))
    (folder / "race.gpx").write_text(hostile.course())
    (folder / "roster.txt").write_text("Q1RUN-* leader\nq1nine-9, not here\n\nQ1MED-7;\"=1+1\"\n")
    (folder / "bad.gpx").write_text("<gpx")
    (folder / "far.geojson").write_text('{"type":"Point","coordinates":[0,91]}')
    page.open(event_page(folder / "evening.html", *EVENING))
    for name in "coast.geojson", "race.gpx", "roster.txt":
        page.give("#bring", folder / name)
        page.wait(f"told.textContent.startsWith('{name}')")
    is_(page.js("aprsbook.layers.vectors.all.map(it => "
                "[it.lines.length, it.points.map(one => one.name)])"),
        [[1, ["pier"]], [1, [hostile.TEXTS[0]]]])
    is_(page.js(texts % "#expected tbody th"), ["Q1RUN-*", "Q1NINE-9", "Q1MED-7"])
    is_(page.js(texts % "#expected .time"), ["20:02:14", "not heard isn\u2019t coming", "19:44:12"])
    assert ("2 of 3 expected not heard for 30 min: not here (Q1NINE-9), =1+1 (Q1MED-7)"
            in page.js(BADGES)), page.js(BADGES)
    # who was heard is shown on the map at a click
    is_(page.js(texts % "#expected .pick"), ["Q1RUN-*", "Q1MED-7"])
    page.js("document.querySelector('#expected .pick').click()")
    page.wait("aprsbook.page.picked?.includes('Q1RUN-')")
    is_(page.problems(), [])
    # Chromium has a word of its own on XML that isn't well-formed
    for name in "bad.gpx", "far.geojson":
        page.give("#bring", folder / name)
        page.wait(f"told.textContent.startsWith('{name}') && told.className === 'bad'")
    page.js("away.click()")
    is_(page.js("[aprsbook.layers.vectors.all.length, roster.hidden]"), [0, True])
    page.open(event_page(folder / "roster.html", "--roster", folder / "roster.txt", *EVENING))
    is_(page.js(texts % "#expected tbody th"), ["Q1RUN-*", "Q1NINE-9", "Q1MED-7"])


def test_clocks(page: Chromium, folder: pathlib.Path) -> None:
    """A receiver whose clock is two hours ahead is named; one that is right isn't."""
    lines = []
    for k in range(9):
        lines += [place(10 * k, f"Q1A{k % 3}", 54.5, -3.5, f"no. {k}", "RX1,RX2"),
                  place(10 * k + 120, f"Q1A{k % 3}", 54.5, -3.5, f"no. {k}", "COAST")]
    page.open(page_of(folder / "clock.html", "".join(lines)))
    page.wait("!!document.querySelector('#receivers')")
    is_(page.js(texts % "#receivers tbody td:last-child"), ["+2 h", "within 30 s", "within 30 s"])
    assert "the clock of COAST is +2 h from the others" in page.js(BADGES)


def test_needs(page: Chromium, folder: pathlib.Path) -> None:
    """Who is in need comes first of all news, in words, and with a sound that is switched on."""
    where = {"latitude": "54.51", "longitude": "-3.47", "symbol": "/j"}
    rows = (place(1, "Q1A", 54.5, -3.5) + place(2, "Q1NUL", 0, 0) + row("beacon", 3, "Q1ODD") +
            row("mic-e", 10, "Q1MIC-9", says="emergency", text="help", **where) +
            row("mic-e", 9, "Q1MIC-8", says="priority", **where))
    page.open(page_of(folder / "needs.html", rows, roster="Q1MIC-9 Runner 118\n"))
    is_(page.js(BADGES)[:2], ["EMERGENCY: Runner 118 (Q1MIC-9), 00:10:00",
                              "priority: Q1MIC-8, 00:09:00"])
    is_(page.js("document.querySelector('#news > *').className"), "alarm")
    is_(page.js(BADGES)[-2:], ["1 station at 0, 0, which is no fix",
                               "1 transmission of a kind that this page doesn\u2019t know"])
    page.js("(aprsbook.page.alarm.play = () => { window.rung = (window.rung || 0) + 1 }, 1)")
    page.js("sound.click()")
    is_(page.js("[window.rung, location.hash]"), [1, "#sound=on"])
    new = json.dumps(row("mic-e", 11, "Q1MIC-7", says="emergency", **where))
    page.js("aprsbook.show({ ...aprsbook.data, "
            f"rows: aprsbook.tableOf({TABLE % 'rows'} + {new}) }})")
    page.wait("window.rung === 2")
    # a screen reader hears of the new one alone, and the same need in other words is none
    is_(page.js("(it => [it.getAttribute('role'), it.textContent])"
                "(document.getElementById('needs'))"), ["alert", "EMERGENCY: Q1MIC-7, 00:11:00"])
    page.js("local.click()")
    page.js("local.click()")
    is_(page.js("window.rung"), 2)
    # they stay in sight where the map fills the window
    page.js("fill.click()")
    is_(page.js("(() => { const { x, y } = document.querySelector('#news > .alarm')"
                ".getBoundingClientRect(); return document.elementFromPoint(x + 20, y + 5)"
                ".className })()"), "alarm")
    page.js("fill.click()")
    # a click on the news picks who it is, and what isn't on the map is told as what it is
    page.js("document.querySelector('#news > a').click()")
    is_(page.js("[aprsbook.page.picked, document.getElementById('one').hidden]"),
        ["station Q1MIC-7", False])
    page.js(PICK % "Q1ODD")
    assert "1 other (beacon)" in page.js("document.getElementById('one-about').textContent")
    is_(page.problems(), [])


def test_sheets_are_numbered(page: Chromium, folder: pathlib.Path) -> None:
    """On paper each sheet says which of how many it is."""
    if not shutil.which("pdftotext"):
        pytest.skip("needs Debian's poppler-utils")
    rows = "".join(place(n, f"Q1A-{n}", 54.5 + n / 1000, -3.5) for n in range(200))
    page.open(page_of(folder / "paper.html", rows))
    page.wait("document.querySelectorAll('#timeline tbody tr').length")
    (folder / "paper.pdf").write_bytes(page.pdf())
    done = subprocess.run(["pdftotext", "-layout", folder / "paper.pdf", "-"],
                          stdout=subprocess.PIPE, check=True)
    sheets = done.stdout.decode().split("\f")[:-1]
    assert len(sheets) > 2
    for n, sheet in enumerate(sheets, 1):
        assert sheet.rstrip().endswith(f"{n} of {len(sheets)}"), sheet[-300:]


def test_mute(page: Chromium, folder: pathlib.Path) -> None:
    """A page that was loaded again says that its sound isn't heard, until somebody clicks in it."""
    url = page_of(folder / "mute.html", place(0, "Q1A", 54.5, -3.5))
    page.open(url)
    is_(page.js("mute.textContent"), "")
    page.open(url + "#sound=on")
    assert "not heard before you click" in page.js("mute.textContent")
    for kind in "mousePressed", "mouseReleased":
        page.call("Input.dispatchMouseEvent", type=kind, x=5, y=5, button="left", clickCount=1)
    page.wait("mute.textContent === ''")
    is_(page.problems(), [])


def test_shown(page: Chromium, folder: pathlib.Path) -> None:
    """What is picked comes into view on the map, and its row is marked."""
    rows = "".join(place(k, f"Q{k:03}", 54.5 + k % 9 / 100, -3.5) for k in range(120))
    page.open(page_of(folder / "shown.html", rows), 1280, 700)
    page.js("(document.getElementById('list').scrollIntoView(), 1)")
    page.js("document.querySelectorAll('#things .pick')[7].click()")
    is_(page.js("(() => { const { top, bottom } = map.getBoundingClientRect(); "
                "return top >= 0 && bottom <= innerHeight })()"), True)
    is_(page.js(texts % "#things tr.picked th"), ["Q007"])
    # one that is picked on the map has its row marked too, far down in its list
    page.js("(aprsbook.layers.stations.onPick('station Q099'), 1)")
    is_(page.js(texts % "#things tr.picked th"), ["Q099"])
    is_(page.js("(() => { const row = document.querySelector('tr.picked').getBoundingClientRect(), "
                "box = document.getElementById('things-box').getBoundingClientRect(); "
                "return row.top >= box.top && row.bottom <= box.bottom })()"), True)


def test_hidden(page: Chromium, folder: pathlib.Path) -> None:
    """What the news name is shown, also where the time, the words or the map's moment hide it."""
    where = {"latitude": "54.51", "longitude": "-3.47", "symbol": "/j"}
    rows = (row("mic-e", 10, "Q1MIC-9", says="emergency", **where) +
            "".join(place(120 + k, "Q1B", 54.5 + k / 1000, -3.5) for k in range(60)))
    page.open(page_of(folder / "hidden.html", rows,
                      message("Q1NET", "Q1B", "where are you", "unanswered", 20, id="1")))
    change(page, "since", "1")
    is_(page.js(shown), ["Q1B"])
    is_(page.js(BADGES), ["EMERGENCY: Q1MIC-9, 00:10:00",
                          "1 message unanswered (1 earlier than is shown)",
                          "1 station silent for over 30 min (1 earlier than is shown)"])
    page.js("document.querySelectorAll('#news > a')[1].click()")
    is_(page.js("[since.value, document.activeElement.id]"), ["0", "said"])
    change(page, "since", "1")
    change(page, "find", "Q1B", "input")
    change(page, "clock", "0", "input")
    page.js("document.querySelector('#news > a').click()")
    page.wait("aprsbook.page.picked === 'station Q1MIC-9'")
    is_(page.js("[since.value, %s.value, clock.value, then.textContent]" % FIND),
        ["0", "", "1000", "02:59:00"])
    is_(page.js("(aprsbook.map.paint(), "
                "aprsbook.layers.stations.marks.some(it => it.picked))"), True)
    is_(page.js("location.hash"), "#pick=station+Q1MIC-9")
    is_(page.problems(), [])


def test_far(page: Chromium, folder: pathlib.Path) -> None:
    """The map opens on what is near most; the rest is said, and shown at a click."""
    rows = "".join(place(k, f"Q1A{k}", 54.5 + k / 500, -3.5) for k in range(9))
    rows += place(10, "Q1FAR", -20, 100) + "".join(place(k, f"Q1Z{k}", 0, 0) for k in range(5))
    page.open(page_of(folder / "far.html", rows))
    km = "aprsbook.map.view.width / aprsbook.map.view.scale * 6371"
    assert page.js(km) < 20
    is_(page.js(marks), 9)
    is_(page.js("far.textContent").split(" not ")[0], "1 place far from the others")
    page.js("fit.click()")
    assert page.js(km) > 5000
    is_(page.js(marks), 10)
    page.js("fit.click()")
    assert page.js(km) < 20


def touch(page: Chromium, kind: str, *spots: Tuple[float, float]) -> None:
    page.call("Input.dispatchTouchEvent", type=kind,
              touchPoints=[{"x": x, "y": y} for x, y in spots])


def test_touch(page: Chromium, folder: pathlib.Path) -> None:
    """On a telephone one finger on the map scrolls the page, and two move the map."""
    rows = "".join(place(k, f"Q1ABCD-{k}", 54.5 + k / 500, -3.5) for k in range(9))
    messages = message("Q1ABCD-10", "Q1EFGH-11", "are you there", "unanswered", 5, id=1)
    page.open(page_of(folder / "touch.html", rows, messages), 360, 640)
    page.call("Emulation.setTouchEmulationEnabled", enabled=True, maxTouchPoints=2)
    page.js("(map.scrollIntoView({ block: 'center' }), 1)")
    x, y = page.js("(() => { const it = map.getBoundingClientRect(); "
                   "return [it.x + it.width / 2, it.y + it.height / 2] })()")
    view = page.js("aprsbook.map.view.middle")
    before = page.js("scrollY")
    touch(page, "touchStart", (x, y))
    for k in range(1, 12):
        touch(page, "touchMove", (x, y - 10 * k))
    touch(page, "touchEnd")
    page.wait(f"scrollY > {before} + 20")
    is_(page.js("aprsbook.map.view.middle"), view)
    time.sleep(1)  # until it no longer glides
    page.js("(map.scrollIntoView({ block: 'center' }), 1)")
    before = page.js("scrollY")
    touch(page, "touchStart", (x - 40, y), (x + 40, y))
    for k in range(1, 12):
        touch(page, "touchMove", (x - 40 + 4 * k, y - 5 * k), (x + 40 + 4 * k, y - 5 * k))
    touch(page, "touchEnd")
    page.wait(f"aprsbook.map.view.middle[0] < {view[0]}")
    is_(page.js("scrollY"), before)
    page.call("Emulation.setTouchEmulationEnabled", enabled=False)
    # and the time of a message isn't cut
    is_(page.js("[...document.querySelectorAll('#messages-box, #messages time')]"
                ".filter(it => it.scrollWidth > it.clientWidth + 1 && it.clientWidth).length"), 0)
    box, last = page.js("[messages, document.querySelector('#messages .time + .time time')]"
                        ".map(it => it.getBoundingClientRect().right)")
    assert last <= box


def test_keys(page: Chromium, folder: pathlib.Path) -> None:
    """Escape closes a menu and leaves the map that fills the window; the clock says its time."""
    rows = place(1, "Q1A", 54.5, -3.5) + place(9, "Q1A", 54.6, -3.5)
    page.open(page_of(folder / "keys.html", rows))
    is_(page.js("clock.getAttribute('aria-valuetext')"), "00:09:00")
    page.js("document.querySelector('#saves summary').focus()")
    page.key("Enter")
    page.js("(saves.open = true, document.querySelector('#saves button').focus(), 1)")
    page.key("Escape")
    is_(page.js("[saves.open, document.activeElement.tagName]"), [False, "SUMMARY"])
    page.js("map.focus()")
    page.key("f")
    page.wait("aprsbook.map.view.width > 1200 && aprsbook.map.view.height > 700")
    is_(page.js("fill.getAttribute('aria-pressed')"), "true")
    # what it covers has no stop of the tab key
    is_(page.js("['controls', 'beside'].map(it => document.getElementById(it).inert)"),
        [True, True])
    picture(page, "full")
    page.key("Escape")
    page.wait("aprsbook.map.view.width < 1000")
    is_(page.js("document.querySelectorAll('[inert]').length"), 0)
    is_(page.problems(), [])


# where the list of stations is scrolled, how many of its rows are built, and which is in focus
STANDS = """(() => { const box = document.getElementById('things-box');
    return [box.scrollTop, box.querySelectorAll('tbody tr').length,
        document.activeElement.textContent.slice(0, 9)] })()"""


def test_stays(page: Chromium, folder: pathlib.Path) -> None:
    """Another drawing leaves a list where it is scrolled, and the keyboard in its row; a row that
    is picked says so."""
    rows = "".join(place(k % 60, f"Q1A{k:03}", 54.5, -3.5) for k in range(150))
    page.open(page_of(folder / "stays.html", rows))
    page.js("(document.getElementById('things-box').scrollTop = 500, 1)")
    page.wait("document.querySelectorAll('#things tbody tr').length > 30")
    page.js("document.querySelectorAll('#things .pick')[29].focus({ preventScroll: true })")
    before = page.js(STANDS)
    is_([before[0], before[2]], [500, "Q1A029"])
    page.js("aprsbook.refresh()")
    is_(page.js(STANDS), before)
    page.js(PICK % "Q1A029")
    is_(page.js(texts % "#things .pick[aria-pressed=true]"), ["Q1A029"])
    is_(page.problems(), [])


TAP = """(() => { const { map, layers: { stations } } = aprsbook; map.paint();
    const it = stations.marks.find(it => it.thing.name === %r); map.tap(it.x, it.y); map.paint();
    return [stations.fan.keys.length, aprsbook.page.picked] })()"""


def test_marks(page: Chromium, folder: pathlib.Path) -> None:
    """Marks in one place have a number and fan out; colours are said; thousands are density."""
    rows = "".join(place(k, f"Q1CLB-{k + 1}", 54.5, -3.5) for k in range(5))
    rows += "".join(place(k, "Q1A", 54.5 + k / 900, -3.4, receivers="RX2") for k in range(40))
    page.open(page_of(folder / "marks.html", rows), 1280, 900)
    is_(page.js(TAP % "Q1CLB-2"), [5, None])
    picture(page, "fan")
    apart = page.js("aprsbook.layers.stations.marks.filter(it => it.thing.name !== 'Q1A')"
                    ".map(it => it.x)")
    assert max(apart) - min(apart) > 30, apart
    is_(page.js(TAP % "Q1CLB-3"), [5, "station Q1CLB-3"])
    page.key("Escape")
    is_(page.js("aprsbook.layers.stations.fan.isOpen"), False)
    is_(page.js(TAP % "Q1A"), [0, "station Q1A"])
    picture(page, "track")
    is_(page.js("legend.textContent"), "")
    for way, words in (("receiver", "RX2RX1several"), ("kind", "stationobjectitem"),
                       ("age", "heard within 5 minheard within 15 minheard within 30 min"
                        "heard within 60 minbefore that")):
        change(page, "colours", way)
        is_(page.js("legend.textContent"), words)
    many = "".join(place(n % 90, f"Q{n:04}", 54 + n % 71 / 300, -4 + n % 83 / 300)
                   for n in range(3000))
    page.open(page_of(folder / "dense.html", many), 1280, 900)
    page.wait("aprsbook.layers.stations.isDense")
    assert page.js("dense.textContent").startswith("Each square has 1 to ")
    picture(page, "dense")
    page.js("(aprsbook.map.look('54.1,-3.9,40'), aprsbook.map.paint())")
    is_(page.js("[aprsbook.layers.stations.isDense, dense.textContent]"), [False, ""])
    is_(page.problems(), [])


def test_graphs(page: Chromium, folder: pathlib.Path) -> None:
    """What is picked has its transmissions, and graphs of what they say."""
    rows = "".join(place(5 * k, "Q1WX", 54.5, -3.5, symbol="/_", temperature_f=50 + k,
                         humidity=60 + k % 9, wind_mph=k, gust_mph=k + 3)
                   for k in range(9) if k not in (3, 4, 5, 6))
    rows += row("telemetry", 46, "Q1WX", a1=7) + row("telemetry", 47, "Q1WX", a1=9)
    page.open(page_of(folder / "graphs.html", rows + place(1, "Q1A", 54.6, -3.5)), 1280, 900)
    page.js(PICK % "Q1WX")
    is_(page.js(texts % "#one-graphs figcaption"),
        ["temperature \u00b0C, last 14.4 \u00b0C", "wind, and gusts m/s, last 3.6 m/s",
         "humidity %, last 68 %", "telemetry 1 as sent, last 9"])
    # a gap isn't joined
    is_(page.js("document.querySelector('.graph .line').getAttribute('d').split('M').length"), 3)
    is_(page.js("document.querySelectorAll('#frames tbody tr').length"), 7)
    assert "a1 9" in page.js("document.querySelector('#frames tbody tr').textContent")
    picture(page, "graphs", whole=True)
    page.open(page_of(folder / "graphs.html", rows) + "#pick=station+Q1WX", 360, 640, "dark")
    is_(page.js("document.documentElement.scrollWidth"), 360)
    is_(page.problems(), [])


def test_coast(page: Chromium, folder: pathlib.Path) -> None:
    """Coasts below the map, also across the date line, and whose they are."""
    rows = place(1, "Q1A", 51.5, -0.1) + place(2, "Q1B", 40.7, -74) + place(3, "Q1C", -33.9, 151.2)
    page.open(page_of(folder / "coast.html", rows))
    page.wait("aprsbook.layers.coast.land.rings.length > 1000")
    land = page.js("(() => { const it = document.createElement('canvas').getContext('2d'); "
                   "it.fillStyle = aprsbook.map.colours.land; it.fillRect(0, 0, 1, 1); "
                   "return [...it.getImageData(0, 0, 1, 1).data] })()")
    # in view alone, without marks: land and sea, each seen from above and from far around
    for north, east, is_land in ((47, 2, 1), (51, -21, 0), (-26, 134, 1), (-46, -141, 0),
                                 (-81, 7, 1), (67, 176, 1), (41, -101, 1), (3, -4, 0)):
        for near in 0.02, 0.2:
            got = page.js("(() => { const { map, layers } = aprsbook; layers.stations.things = []; "
                          f"map.look('{north},{east},{near}'); map.paint(); "
                          "return [...map.pen.getImageData(map.canvas.width / 2, "
                          "map.canvas.height / 2, 1, 1).data] })()")
            is_((north, east, near, got == land), (north, east, near, bool(is_land)))
    assert "Natural Earth" in page.js("document.querySelector('footer').textContent")
    page.js("(aprsbook.map.look('30,-40,0.03'), aprsbook.map.paint())")
    picture(page, "coast")


def test_shore(page: Chromium, folder: pathlib.Path) -> None:
    """A fine coast around the evening, where GMT is there: St Bees Head and the sea off it."""
    if not shutil.which("gmt"):
        print("left out: a fine coast (no gmt is there)")
        return
    page.open(event_page(folder / "shore.html", *EVENING))
    page.wait("aprsbook.layers.coast.shore.of !== null")
    assert "GSHHG" in page.js("document.querySelector('footer').innerText")
    for spot, colour, said in (("54.513,-3.62,60", "land", ""), ("54.5,-3.66,60", "sheet", ""),
                               ("54.513,-3.62,200", "sheet", "rough coast")):
        got = page.js("(() => { const { map, layers } = aprsbook, wrote = [], "
                      "write = map.pen.fillText; layers.stations.things = []; "
                      f"map.look('{spot}'); map.pen.fillText = (...it) => {{ "
                      "wrote.push(it[0]); write.apply(map.pen, it) }; "
                      "map.paint(); map.pen.fillText = write; "
                      "const at = map.pen.getImageData(map.canvas.width / 2 + 3, "
                      "map.canvas.height / 2 + 3, 1, 1).data; map.pen.fillStyle = "
                      f"map.colours.{colour}; map.pen.fillRect(0, 0, 1, 1); "
                      "return [map.pen.getImageData(0, 0, 1, 1).data.join() === at.join(), "
                      "wrote.find(it => it.includes('coast')) ?? ''] })()")
        is_((spot, got), (spot, [True, said]))
    page.js("(aprsbook.map.fill(true), aprsbook.map.fit(), aprsbook.map.paint())")
    picture(page, "shore")


def test_saves(page: Chromium, folder: pathlib.Path) -> None:
    """GPX, KML, GeoJSON and CSV have the places of tracks; no cell is a formula."""
    (folder / "all.log").write_text("".join(hostile.log()))
    page.open(event_page(folder / "saves.html", folder / "all.log"))
    saved = {name: page.js(f"aprsbook.savedText({name!r})")
             for name in page.js("Object.keys(aprsbook.SAVES)")}
    rows = list(csv.DictReader(io.StringIO(saved["places (CSV)"])))
    command: List[Place] = ["aprsbook-history", folder / "all.log"]
    own = subprocess.run(command, stdout=subprocess.PIPE, check=True)
    count = sum(it.startswith((b"position", b"object", b"item")) for it in own.stdout.splitlines())
    is_(len(rows), count)
    for cells in [*csv.reader(io.StringIO(saved["places (CSV)"])),
                  *csv.reader(io.StringIO(saved["messages (CSV)"]))]:
        for it in cells:
            assert not it.startswith(("=", "+", "@", "\t", "\r")), it
            assert not it.startswith("-") or float(it) <= 0, it
    for name in "places and tracks (GPX)", "places and tracks (KML)":
        xml.etree.ElementTree.fromstring(saved[name].encode())
    points = [it for it in json.loads(saved["places and tracks (GeoJSON)"])["features"]
              if it["geometry"]["type"] == "Point"]
    is_(len(points), count)
    is_(saved["table (TSV)"].count("\n") - 1, own.stdout.count(b"\n"))


def test_scale(page: Chromium, folder: pathlib.Path) -> None:
    """2,000 stations: the time to the first picture, for a letter in find, and for a move."""
    scale.judged_stations(page, folder)
    assert page.js("document.querySelectorAll('#things tbody tr').length") < 200
    assert page.js("document.documentElement.scrollHeight") < 9000
    # of a long list the first rows come at once, and those before stay in the places of the rest
    change(page, "find", "", "input")
    page.wait(f"{shown}.length === 26 && {shown}.at(-1) === 'Q0025-11'")
    rows = page.js(f"(() => {{ {FIND}.value = 'q1'; {FIND}.dispatchEvent(new Event('input')); "
                   f"return {shown} }})()")
    is_((len(rows), rows[0], rows[-1]), (26, "Q1000-11", "Q0025-11"))
    page.wait(f"{shown}.length === 26 && {shown}.at(-1) === 'Q1025-6'")
    picture(page, "many")


def test_many(page: Chromium, folder: pathlib.Path) -> None:
    """10,000 stations are moved as smoothly as a wheel turns."""
    scale.judged_stations(page, folder, 10000, scale.MANY)


def test_slices(page: Chromium, folder: pathlib.Path) -> None:
    """A large net is drawn in slices: until then the one before stays, and a later one comes in
    its place."""
    lines = [place(n % 1400, f"Q{n % 300}", 54 + n % 50 / 25, -4 + n % 61 / 20, f"no. {n}")
             for n in range(40000)]
    page.open(page_of(folder / "small.html", place(1, "Q1OLD", 54.5, -3.5)))
    page.js("(window.names = () => aprsbook.net.things.map(it => it.name), "
            "window.small = aprsbook.data, "
            f"window.large = {{ ...small, rows: aprsbook.tableOf({TABLE % 'rows'}"
            f".split('\\n')[0] + '\\n' + {json.dumps(''.join(lines))}) }}, 1)")
    for then, wanted in ("1", 300), ("aprsbook.refresh()", 300), ("aprsbook.show(small)", 1):
        page.js("aprsbook.show(small)")
        is_(page.js("(async () => { const drawn = aprsbook.show(large), before = names(); "
                    f"{then}; await drawn; return [before, names().length] }})()"),
            [["Q1OLD"], wanted])
        page.wait(f"document.querySelectorAll('#things tbody tr').length === {min(26, wanted)}")
    is_(page.problems(), [])


def test_live(page: Chromium, folder: pathlib.Path) -> None:
    path = folder / "live.html"
    event_page(path, "--live", "1", EVENING[0])
    page.open(f"file://{path}#find=net&things=5d")

    def loads() -> int:
        return len(page.happened("Page.loadEventFired"))

    event_page(path, "--live", "1", *EVENING)
    # one question, since an answer is lost where the page loads itself anew meanwhile
    page.wait("document.querySelector('header p').textContent.includes('64 transmissions') && "
              f"{FIND}.value === 'net' && location.hash.includes('things=5d')")
    page.key("Shift")
    page.forget()
    for _ in range(25):
        page.key("Shift")
        time.sleep(0.1)
    is_(loads(), 0)
    page.open(f"file://{path}#live=off")
    page.forget()
    time.sleep(2.5)
    page.js("1")
    is_(loads(), 0)
    is_(page.problems(), [])


def test_written(page: Chromium, folder: pathlib.Path) -> None:
    """What is written in the form isn't lost where a page on a disk loads itself again."""
    url = page_of(folder / "written.html", place(0, "Q1A", 54.5, -3.5), live=60)
    page.open(url)
    page.js("document.getElementById('ics-open').click()")
    change(page, "ics-net", "145.500", "input")
    page.js("ics.dispatchEvent(new Event('input'))")
    change(page, "own-text", "12 needs water", "input")
    page.js("(window.old = true, aprsbook.alive.touched = aprsbook.alive.asked = 0, 1)")
    # not while a line is being written
    time.sleep(3)
    written = "document.getElementById('own-text').value"
    is_(page.js(f"[window.old, {written}]"), [True, "12 needs water"])
    page.js("document.getElementById('own-add').click()")
    page.js("(aprsbook.alive.touched = aprsbook.alive.asked = 0, 1)")
    page.wait("!window.old && !!document.querySelector('#ics-sheets .own .text')")
    is_(page.js("[document.getElementById('ics').hidden, document.getElementById('ics-net').value, "
                "document.querySelector('#ics-sheets .own .text').firstChild.textContent]"),
        [False, "145.500", "12 needs water"])
    is_(page.problems(), [])


def test_asleep(page: Chromium, folder: pathlib.Path) -> None:
    """A page that goes on and wakes: receivers and expected stations are silent too, and it says
    how old it is, not that nothing was heard."""
    rows = place(0, "Q1A", 54.5, -3.5, receivers="RX1") + place(9, "Q1B", 54.6, -3.5,
                                                                receivers="RX2")
    page.open(page_of(folder / "asleep.html", rows, live=60, roster="Q1A\nQ1B\n") + "#live=off")

    def at(minute: float) -> None:
        page.js(f"(Date.now = () => Date.parse({moment(minute)!r}), aprsbook.tick(), 1)")

    silent = ("['receivers', 'roster', 'things'].map(it => document.querySelectorAll("
              "`#${it}-box tr.silent`).length)")
    at(10)
    page.js("(aprsbook.alive.answered = Date.now(), 1)")
    at(11)
    is_(page.js(f"[{silent}, stale.textContent]"), [[0, 0, 0], ""])
    at(31)
    is_(page.js(silent), [1, 1, 1])
    at(70)
    is_(page.js(f"[{silent}, stale.textContent]"),
        [[2, 2, 2], "this was loaded 60 min ago, at 2024-06-21 00:10:00 UTC"])
    # what is said already isn't said each second again
    is_(page.js("(async () => { let told = 0; const watch = { childList: true, subtree: true }; "
                "new MutationObserver(() => told++).observe(stale, watch); "
                "aprsbook.tick(); aprsbook.tick(); await 0; return told })()"), 0)
    # a clock that is behind counts no ages below nothing without a word
    at(-60)
    is_(page.js("document.querySelector('#things .age').textContent"), "\u221260 min")
    assert "dated 69 min after now" in page.js("stale.textContent"), page.js("stale.textContent")
    is_(page.problems(), [])


def test_served(page: Chromium, folder: pathlib.Path) -> None:
    """From a server: the data alone are asked for again, and the page stays while that is away."""
    event_page(folder / "live.html", "--live", "1", EVENING[0])
    with Server(folder) as server:
        page.open(f"http://127.0.0.1:{server.port}/live.html")
        is_(page.problems(), [])
        event_page(folder / "live.html", "--live", "1", *EVENING)
        page.forget()
        page.wait("document.querySelector('header p').textContent.includes('64 transmissions')")
        is_(page.happened("Page.loadEventFired"), [])
    page.wait("stale.textContent.startsWith('the server has been away since 20')")
    is_(page.js("document.querySelector('#things tbody th').textContent"), "Q1BAY")
    with Server(folder, server.port) as server:
        page.wait("!stale.textContent.includes('away')")
        # one that takes the question and doesn't answer
        server.answers.clear()
        page.wait("stale.textContent.startsWith('the server has been away since 20')")
        server.answers.set()
        page.wait("!stale.textContent.includes('away')")

