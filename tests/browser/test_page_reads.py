"""The page that reads logs with its module: what it makes of files is what the programs make of
them, byte for byte, and what is wrong is named as they name it."""
import base64
import collections
import datetime
import gzip
import hashlib
import json
import os
import pathlib
import random
import shutil
import subprocess
import sys
import time
from typing import Counter, Dict, List, Optional, Sequence, Union

import pytest

import hostile
import scale
from browser import Browser, Chromium, Place
from given import EVENING, EXAMPLES, PAGE, RUNS, TABLE, is_, needs, picture
from serving import Server

pytestmark = [needs("aprsbook", "aprsbook-history", "aprsbook-table", "aprs-net"),
              pytest.mark.skipif(not PAGE.is_file(), reason=f"needs {PAGE}: make page")]

os.environ["LC_ALL"] = "C.UTF-8"  # by which browsers find any name
STATUS = "document.getElementById('status').textContent"
MADE = "aprsfiles.made() !== null"
# the runs since HEAR_RUNS, but for that by which it is counted who repeated whom
ASKED = "window.asked.filter(it => it !== 'rows 1')"
BOOK = "btoa(String.fromCharCode(...aprsfiles.made().book))"
# each file, and what is said of it
TOLD = ("Object.fromEntries([...document.querySelectorAll('#files tbody tr')]"
        ".map(it => [it.querySelector('th').textContent, "
        "it.querySelector('.verdict').textContent]))")
MORE = TOLD.replace("verdict", "more")
# what a command of the program makes of the book that the page made
OF_BOOK = ("aprsfiles.run(%r, 30, [aprsfiles.made().book])"
           ".then(it => btoa(String.fromCharCode(...it.bytes)))")
COMMANDS = ["check", "convert text", "convert kind", "convert kiss", "convert log",
            "convert capture", "merge", "merge", "show", "show", "history", "widen"]


def program(words: List[str], files: Sequence[Place] = (),
            given: Optional[bytes] = None) -> "subprocess.CompletedProcess[bytes]":
    if words[0] == "history":
        words = ["aprsbook-history", *words[1:]]
    elif words[0] in ("rows", "messages"):
        words = ["aprsbook-table", *words]
    else:
        words = ["aprsbook", *words]
    return subprocess.run([*words, *map(str, files)], input=given, stdout=subprocess.PIPE,
                          stderr=subprocess.PIPE)


# the page has no fine coast, which the tool has where GMT is
EVENT_PAGE = ["aprs-net", "page", "--coast", "rough"]


def checked(path: pathlib.Path) -> str:
    """How many lines a log has, as check says."""
    return program(["check"], [path]).stdout.decode().splitlines()[-1]


def event_of(page: Browser) -> str:
    """The page of an event that the page makes."""
    return str(page.js("aprsfiles.eventPage()"))


def same_page(page: Browser, own: bytes) -> bool:
    """Whether the page of an event that the page makes is that of aprs-net page."""
    return event_of(page) == own.decode()


def base64_of(text: bytes) -> str:
    return base64.b64encode(text).decode()



def fresh(page: Browser, url: Optional[str] = None) -> None:
    page.open(url or PAGE.as_uri(), 1280, 1400)
    page.wait("!document.getElementById('choose').disabled")


# from now on, the page keeps which runs it asks for, and over how many inputs
HEAR_RUNS = """(() => {
    const post = Worker.prototype.postMessage;
    window.asked = [];
    Worker.prototype.postMessage = function (...it) {
        const { command, inputs } = it[0][2];
        if (inputs) window.asked.push(`${command} ${inputs.length}`);
        post.apply(this, it);
    };
    return 1; })()"""


def quiet(page: Browser) -> None:
    """Nothing was asked of any server, and no message was written, where the browser says so."""
    is_([it for it in page.requests() if not it.startswith(("blob:", "file:"))], [])
    is_(page.problems(), [])


def test_same(page: Browser) -> None:
    fresh(page)
    page.js(HEAR_RUNS)
    page.give("#choose", *EVENING)
    page.wait(MADE)
    is_(page.js(BOOK), base64_of(program(["merge"], EVENING).stdout))
    # the rows didn't wait for the book, and nothing was done twice
    asked = page.js(ASKED)
    is_((asked[:2], sorted(asked[2:])),
        (["rows 3", "merge 3"], ["check 1"] * 3 + ["messages 1"]))
    for command in "history", "show":
        is_(page.js(OF_BOOK % command), base64_of(program([command], EVENING).stdout))
    for table in "rows", "messages":
        is_(page.js(TABLE % table), program([table], EVENING).stdout.decode())
    own = subprocess.run([*EVENT_PAGE, *EVENING], stdout=subprocess.PIPE, check=True).stdout
    is_(same_page(page, own), True)
    is_(page.js("(aprsbook.map.paint(), aprsbook.layers.stations.marks.length)"),
        page.js("aprsbook.net.placed.length"))
    for name in sorted(page.js(TOLD)):
        is_(page.js(TOLD)[name], checked(EXAMPLES / "evening" / name))
    picture(page, "evening")
    quiet(page)


def test_saves(page: Browser, folder: pathlib.Path) -> None:
    """What a click saves is what the programs and aprs-net page write."""
    folder = page.saves_in(folder)
    fresh(page)
    drop(page, *EVENING)
    page.wait(MADE)
    for name, words in (("net.book", ["aprsbook", "merge"]), ("net.txt", ["aprsbook", "show"]),
                        ("history.txt", ["aprsbook-history"]), ("event.html", EVENT_PAGE)):
        button = {"net.book": "book", "net.txt": "listing (text)", "history.txt": "history (text)",
                  "event.html": "page of the event (HTML)"}[name]
        page.js("[...document.querySelectorAll('#saves button')]"
                f".find(it => it.textContent === {button!r}).click()")
        own = subprocess.run([*words, *EVENING], stdout=subprocess.PIPE, check=True).stdout
        if name == "event.html":
            is_(same_page(page, own), True)
            own = event_of(page).encode()
        for _ in range(200):
            if (folder / name).exists() and (folder / name).read_bytes() == own:
                break
            time.sleep(0.05)
        else:
            raise AssertionError(f"{name} is another")


def test_minute(page: Browser, folder: pathlib.Path) -> None:
    """From the page and three logs to book, map and a printed ICS-309 within a minute."""
    began, path = time.monotonic(), page.saves_in(folder) / "net.book"
    fresh(page)
    page.give("#choose", *EVENING)
    page.wait(MADE)
    for name in "book", "ics-open":
        page.js(f"(document.getElementById({name!r}).click(), 1)")
    (folder / "ics.pdf").write_bytes(page.pdf())
    while not path.exists() or path.read_bytes() != program(["merge"], EVENING).stdout:
        assert time.monotonic() - began < 60
        time.sleep(0.05)
    is_(page.js("aprsbook.layers.stations.marks.length"), page.js("aprsbook.net.placed.length"))
    if shutil.which("pdftotext"):
        said = subprocess.run(["pdftotext", "-layout", folder / "ics.pdf", "-"],
                              stdout=subprocess.PIPE, check=True).stdout.decode()
        for it in "ICS 309", "1. incident", "Going up from CP2 (acknowledged)", "6. prepared by":
            assert it in said, said
    print(f"{page.name}: book, map and a printed form after {time.monotonic() - began:.1f} s")


def test_faults(page: Browser, folder: pathlib.Path) -> None:
    log = EVENING[0].read_bytes()
    book = program(["merge"], EVENING).stdout
    files = {
        "bad.log": log[:2000] + b"Z" + log[2001:], "crlf.log": log.replace(b"\n", b"\r\n"),
        "cut.book": book[:-30], "empty.log": b"", "net.book": book,
        "packed.log.gz": gzip.compress(log),
        "wide.book": program(["widen", "60"], EVENING[:1]).stdout,
        "heard.kiss": program(["convert", "kiss"], EVENING[:1]).stdout,
        "torn.log": log[:-5],
    }
    for name, text in files.items():
        (folder / name).write_bytes(text)
    fresh(page)
    page.give("#choose", *[folder / name for name in files])
    page.wait(MADE)
    told = page.js(TOLD)
    for name in "bad.log", "cut.book", "wide.book", "torn.log":
        said = program(["merge"], [folder / name]).stderr.decode()
        is_(f"aprsbook: {folder / name}: {told[name]}\n", said)
    is_(told["heard.kiss"], "give the receiver's name and the moment")
    is_([told["packed.log.gz"], told["crlf.log"]], 2 * [checked(EVENING[0])])
    is_(told["empty.log"], "heard 0 passed 0")
    is_(page.js(BOOK), base64_of(book))
    for command in "history", "show":
        is_(page.js(OF_BOOK % command),
            base64_of(program([command], [folder / "net.book"]).stdout))
    notes = page.js("aprsbook.data.notes")
    is_(sorted(it.split(" ")[0] for it in notes),
        ["bad.log", "cut.book", "heard.kiss", "torn.log", "wide.book"])
    # a stream gets a receiver and a moment; the focus stays, though the page reads meanwhile
    page.js("(document.querySelector('#files input').select(), 1)")
    for key in "TAPE":
        page.key(key)
    page.key("Tab")
    time.sleep(0.3)
    page.wait("document.activeElement.placeholder !== undefined && aprsfiles.made() !== null")
    for key in "2024-06-21T18:00:00Z":
        page.key(key)
    page.key("Tab")
    page.wait("aprsbook.net?.receivers.some(it => it.name === 'TAPE')")
    is_(page.js("document.activeElement.textContent"), "take away")
    picture(page, "faults")
    # so does it where files are taken away
    page.js("(document.querySelector('#files td:last-child button').focus(), 1)")
    for k in range(9):
        page.key(" ")
        page.wait(f"aprsfiles.files.length === {8 - k}")
    is_(page.js("document.activeElement.id"), "choose")
    quiet(page)


def drop(page: Browser, *paths: pathlib.Path, items: Sequence[Dict[str, str]] = ()) -> None:
    """Drops files, or other items; Firefox has no such call, and chooses the files."""
    if not isinstance(page, Chromium):
        if paths:
            page.give("#choose", *[it for it in paths if it.is_file()])
        return
    data = {"items": items, "files": list(map(str, paths)), "dragOperationsMask": 1}
    for kind in "dragEnter", "dragOver", "drop":
        page.call("Input.dispatchDragEvent", type=kind, x=300, y=130, data=data)


def change(page: Browser, name: str, value: str) -> None:
    page.js(f"(() => {{ const it = document.getElementById({name!r}); it.value = {value!r}; "
            "it.dispatchEvent(new Event('change')); return 1 })()")


def test_names(page: Browser, folder: pathlib.Path) -> None:
    """Any name, and one name twice; a file can be chosen again."""
    paths = [folder / "my log (1) [x].log", folder / "\u0433\u043e\u0440\u0430.log",
             folder / "day/my log (1) [x].log"]
    (folder / "day").mkdir()
    for path, own in zip(paths, EVENING):
        path.write_bytes(own.read_bytes())
    fresh(page)
    page.give("#choose", *paths)
    page.wait(MADE)
    is_(page.js("[...document.querySelectorAll('#files tbody th')].map(it => it.textContent)"),
        [paths[0].name, paths[2].name, paths[1].name])
    is_(page.js(BOOK), base64_of(program(["merge"], EVENING).stdout))
    page.js("(document.querySelector('#files button').click(), 1)")
    page.wait(f"aprsfiles.files.length === 2 && {MADE}")
    sizes = page.js("aprsfiles.files.map(it => it.bytes.length)")
    left = [path for path in paths if path.stat().st_size in sizes]
    is_(page.js(BOOK), base64_of(program(["merge"], left).stdout))
    is_(page.js("document.getElementById('choose').files.length"), 0)
    page.give("#choose", *[path for path in paths if path not in left])
    page.wait(f"aprsfiles.files.length === 3 && {MADE}")
    is_(page.js(BOOK), base64_of(program(["merge"], EVENING).stdout))
    quiet(page)


def test_unread(page: Browser, folder: pathlib.Path) -> None:
    """A folder, an empty book and a file that is cut off are named, with others or alone."""
    (folder / "logs").mkdir()
    (folder / "net.book").write_bytes(b"")
    (folder / "torn.log.gz").write_bytes(gzip.compress(EVENING[0].read_bytes())[:-9])
    bad = {"net.book": "is empty, which no book is",
           "torn.log.gz": "can't be read: gzip can't unpack it"}
    if page.name == "Chromium":
        bad["logs"] = "drop the files in it, or choose it as a folder"
    goods: List[List[pathlib.Path]] = [[], EVENING]
    for good in goods:
        fresh(page)
        drop(page, folder / "logs", *[folder / name for name in bad if name != "logs"], *good)
        page.wait(MADE if good else f"{STATUS} === 'no file can be read'")
        told = page.js(TOLD)
        is_({name: told[name] for name in bad}, bad)
        is_(page.js("document.getElementById('progress').hidden"), True)
    is_(page.js(BOOK), base64_of(program(["merge"], EVENING).stdout))
    is_(page.js("aprsbook.data.notes"),
        [f"{name} was left out: {why}" for name, why in sorted(bad.items())])
    # a link is no file, and doesn't take the place of the page
    before = page.js(f"[location.href, {STATUS}]")
    drop(page, items=[{"mimeType": "text/uri-list", "data": "about:blank"}])
    time.sleep(0.3)
    is_(page.js(f"[location.href, {STATUS}]"), before)
    is_(page.js("document.getElementById('progress').hidden"), True)
    # a capture that begins within a frame, and a moment that is none
    (folder / "tape.kiss").write_bytes(program(["convert", "kiss"], EVENING[:1]).stdout[9:])
    fresh(page)
    page.give("#choose", folder / "tape.kiss")
    page.wait(f"{TOLD}['tape.kiss'] === \"give the receiver's name and the moment\"")
    for moment, wanted in ("2024-06-21 18:00", "the receiver isn't written as RX1, or the moment "
                           "as 2024-06-21T18:00:00Z"), ("2024-06-21T18:00:00Z", None):
        page.js("(() => { const it = document.querySelectorAll('#files input')[1]; "
                f"it.value = {moment!r}; it.dispatchEvent(new Event('change')); return 1 }})()")
        page.wait(f"{TOLD}['tape.kiss'] === {json.dumps(wanted)}" if wanted else MADE)
    is_(page.js("aprsfiles.made().book.length > 1000"), True)
    quiet(page)


def test_options(page: Browser) -> None:
    """A gap that is none is named, and the page keeps what it shows; a title is shown at once."""
    fresh(page)
    page.give("#choose", *EVENING)
    page.wait(MADE)
    page.js(HEAR_RUNS)
    change(page, "name", "Fell race")
    page.wait("document.title === 'Fell race'")
    change(page, "silent", "5")
    page.wait("document.getElementById('news').textContent.includes('silent for over 5 min')")
    is_(page.js(f"[{ASKED}.length, {MADE}]"), [0, True])
    for gap in "", "0", "1.5", "3601":
        change(page, "gap", gap)
        is_(page.js(f"[{STATUS}, aprsfiles.made(), document.getElementById('book').disabled]"),
            ["the gap has to be a whole number of seconds, from 1 to 3600", None, True])
    change(page, "gap", "60")
    page.wait(MADE)
    is_(page.js(BOOK), base64_of(program(["merge", "--gap", "60"], EVENING).stdout))
    own = subprocess.run([*EVENT_PAGE, "--gap", "60", "--title", "Fell race", "--silent", "5",
                          *EVENING], stdout=subprocess.PIPE, check=True).stdout
    is_(same_page(page, own), True)
    quiet(page)


def test_brought(page: Browser, folder: pathlib.Path) -> None:
    """Rosters as Windows writes them, one of which is put right, beside a map that is none."""
    files = {"ours.csv": b"\xef\xbb\xbfQ1RUN-*;leader\r\nQ1MED-7;second post\r\n",
             "their.txt": b"Q1NINE\r\nQ1TEN", "course.gpx": b"<gpx><wpt lat='91' lon='0'/></gpx>"}
    for name, text in files.items():
        (folder / name).write_bytes(text)
    fresh(page)
    drop(page, *[folder / name for name in files], *EVENING)
    page.wait(MADE)
    is_(sorted(page.js("told.textContent").split("; ")),
        ["course.gpx: a place off the earth", "ours.csv: 2 calls", "their.txt: 2 calls"])
    (folder / "their.txt").write_bytes(b"Q1WX-13\r\n")
    drop(page, folder / "their.txt")
    page.wait("told.textContent.startsWith('their.txt: 1 call; ')")
    is_(page.js("aprsbook.page.roster.list.map(it => it.call).sort()"),
        ["Q1MED-7", "Q1RUN-*", "Q1WX-13"])
    page.wait(MADE)
    roster = folder / "both.txt"
    roster.write_text("call,name,group,number\nQ1RUN-*,leader,,\nQ1MED-7,second post,,\n"
                      "Q1WX-13,,,\n")
    own = subprocess.run([*EVENT_PAGE, "--roster", roster, *EVENING], stdout=subprocess.PIPE,
                         check=True).stdout
    is_(same_page(page, own), True)
    quiet(page)


def test_first_minutes(page: Browser, folder: pathlib.Path) -> None:
    """A net is led with the page alone: an emergency, a silent runner, an unanswered message, a
    wrong clock and a damaged log are seen without a click."""
    frame = hostile.address("543PPP", 0xE0) + hostile.address("Q1SOS-9", 0x60, 1) + b"\x03\xf0"
    frame += bytes([0x60, 121, 58, 28, 28, 28, 28]) + b"j/help"
    coast = EVENING[0].read_text()
    late = coast.replace(" COAST ", " LATE ")
    for hour in "18", "19", "20":
        late = late.replace(f"T{hour}:", f"T{int(hour) - 2}:")
    files = {"sos.log": hostile.line("2024-06-21T20:28:00Z", "COAST", frame), "late.log": late,
             "torn.log": coast.replace("c000", "c0zz", 1),
             "who.txt": "Q1SOS-9 sweeper\nQ1MED-7 second post\nQ1NET\n"}
    for name, text in files.items():
        (folder / name).write_text(text)
    fresh(page)
    page.give("#choose", *EVENING, *[folder / name for name in files])
    page.wait(f"{MADE} && told.textContent.startsWith('who.txt')")
    page.wait("document.getElementById('news').textContent.includes('sweeper')")
    is_(page.js("[...document.querySelectorAll('#news > *')].map(it => it.textContent)"), [
        # a message of a clock that is two hours off is one of another time
        "EMERGENCY: sweeper (Q1SOS-9), 20:28:00", "4 messages unanswered", "1 message rejected",
        "6 stations silent for over 30 min",
        "1 of 3 expected not heard for 30 min: second post (Q1MED-7)",
        "the clock of LATE is \u22122 h from the others", "torn.log was left out: line 1: Hex"])
    is_(page.js("[...document.querySelectorAll('#news > *')].every(it => { "
                "const { top, bottom } = it.getBoundingClientRect(); "
                "return top >= 0 && bottom <= innerHeight && it.checkVisibility() })"), True)
    # a long line that is damaged is broken, and what can be done with each file stays in view
    is_(page.js("(it => it.scrollWidth > it.clientWidth)(document.getElementById('files-box'))"),
        False)
    picture(page, "first-minutes")
    quiet(page)


def test_narrow(page: Browser, folder: pathlib.Path) -> None:
    """On a telephone names of files stay whole, and no table runs past its box."""
    if page.name != "Chromium":
        return  # Firefox keeps its width
    log = folder / "receiver-coast-2024-06-21-evening.log"
    log.write_bytes(EVENING[0].read_bytes())
    (folder / "roster.txt").write_text("Q1RUN leader\nQ1MED-7 at the second post\nQ1NINE\n")
    (folder / "tape.kiss").write_bytes(program(["convert", "kiss"], EVENING[:1]).stdout)
    for width in 320, 360:
        page.open(PAGE.as_uri(), width, 844)
        page.wait("!document.getElementById('choose').disabled")
        page.give("#choose", log, folder / "roster.txt", folder / "tape.kiss", *EVENING[1:])
        page.wait(MADE + " && document.querySelectorAll('#timeline tbody tr').length > 10")
        is_(page.js("[...document.querySelectorAll('.wide'), document.documentElement]"
                    ".filter(it => it.scrollWidth > it.clientWidth).map(it => it.id)"), [])
        is_(page.js("document.querySelector('#files tbody th').clientHeight < 70"), True)
    picture(page, "narrow")


def test_hostile(page: Browser, folder: pathlib.Path) -> None:
    bad = folder / "<img src=x onerror='window.ran=1'>.log"
    bad.write_text("".join(hostile.log()))
    worse = folder / "<b>.log"
    worse.write_text("<script>window.ran=2</script>\n")
    fresh(page)
    page.give("#choose", bad, worse)
    page.wait(MADE)
    time.sleep(0.3)
    is_(page.js("[window.ran === undefined, document.images.length]"), [True, 0])
    assert bad.name in page.js(TOLD)
    quiet(page)


GO = """window.go = async (command, options, inputs) => {
    const bytes = inputs.map(it => Uint8Array.from(atob(it), c => c.charCodeAt(0)));
    const got = await aprsfiles.run(command, options, bytes);
    let text = '';
    for (const b of got.bytes) text += String.fromCharCode(b);
    return [got.status, btoa(text), got.input, got.line, got.fault];
}"""


class Inputs:
    """Inputs at random: parts of logs, books and streams, damaged ones among them."""

    def __init__(self, seed: int) -> None:
        self.random = random.Random(seed)
        paths = [*EVENING, EXAMPLES / "sample.log", EXAMPLES / "millis.log"]
        logs = [it.read_bytes() for it in paths]
        books = [program(["merge", "--gap", gap], given=b"".join(some)).stdout
                 for gap in ("30", "60") for some in (logs[:3], logs[1:])]
        self.texts = logs + books
        self.streams = [program(["convert", "kiss"], given=it).stdout for it in logs]

    def one(self, command: str) -> bytes:
        some = self.random
        text = some.choice(self.streams if command == "convert capture" else self.texts)
        it = bytearray(text)
        if some.random() < 0.6 and not it.startswith((b"APRSBOOK", b"\xc0")):
            lines = text.splitlines(True)
            at = some.randrange(len(lines))
            it = bytearray(b"".join(lines[at:at + 1 + some.randrange(40)]))
        for _ in range(some.choice([0, 0, 0, 1, 1, 2, 3])):
            at, how = some.randrange(len(it) or 1), some.randrange(3)
            if how == 0:
                del it[at:at + 1 + some.randrange(9)]
            elif how == 1 and it:
                it[min(at, len(it) - 1)] = some.choice(b"0123456789abcdefAF \nZ:-cR\0\xff")
            else:
                it.insert(at, some.randrange(256))
        return bytes(it)


def test_random(page: Browser, folder: pathlib.Path) -> None:
    fresh(page)
    page.js(f"({GO}, 1)")
    inputs = Inputs(3)
    by: Counter[int] = collections.Counter()
    for _ in range(RUNS):
        command = inputs.random.choice(COMMANDS)
        several = command in ("merge", "show", "history")
        many = inputs.random.randrange(1, 5) if several else 1
        given = [inputs.one(command) for _ in range(many)]
        gap = inputs.random.choice([30, 30, 30, 60, 1, 3600])
        options: Union[int, List[str]] = gap
        words = command.split()
        if several:
            words += ["--gap", str(gap)]
        elif command == "widen":
            words += [str(gap)]
        elif command == "convert capture":
            receiver, moment = options = ["RX1", "2024-05-01T12:00:00.250Z"]
            words += ["--receiver", receiver, "--moment", moment]
        names = [folder / str(k) for k in range(len(given))]
        for name, text in zip(names, given):
            name.write_bytes(text)
        own = program(words, names)
        status, text, index, line, fault = page.js(
            f"go({json.dumps(command)}, {json.dumps(options)}, "
            f"{json.dumps(list(map(base64_of, given)))})")
        place = f"line {line}: " if fault[:1].isupper() else ""
        told = f"{names[index]}: {place}{fault}\n" if status else ""
        by[own.returncode] += 1
        is_((status, base64.b64decode(text)), (own.returncode, own.stdout))
        is_(told, own.stderr.decode().partition(": ")[2])
    print(f"{page.name}: {RUNS} random runs as the program's, by status {dict(by)}")
    quiet(page)


def test_follow(page: Browser, folder: pathlib.Path) -> None:
    """Served beside logs: what has grown is merged, and a server that goes away is missed alone."""
    shutil.copy(PAGE, folder / "net.html")
    (folder / "logs.txt").write_text("# receivers\ncoast.log\nhill.log\n")
    coast, hill = [it.read_bytes() for it in EVENING[:2]]
    (folder / "coast.log").write_bytes(coast)
    (folder / "hill.log").write_bytes(hill[:3001])
    with Server(folder) as server:
        fresh(page, f"http://127.0.0.1:{server.port}/net.html#logs=logs.txt")
        page.wait(MADE)
        whole = hill[:hill.rindex(b"\n", 0, 3001) + 1]
        is_(page.js(BOOK), base64_of(program(["merge"], given=coast + whole).stdout))
        (folder / "hill.log").write_bytes(hill)
        page.js("(document.getElementById('follow').dispatchEvent(new Event('change')), 1)")
        book = base64_of(program(["merge"], given=coast + hill).stdout)
        page.wait(f"{MADE} && {BOOK} === '{book}'")
        # the rest of the log alone was asked for
        assert any(it.startswith("bytes=") for it in server.ranges), server.ranges
    page.js("(document.getElementById('follow').dispatchEvent(new Event('change')), 1)")
    page.wait("stale.textContent.startsWith('the server has been away since 20')")
    is_(page.js("document.querySelector('#things tbody th').textContent"), "Q1BAY")
    with Server(folder, server.port):
        page.js("(document.getElementById('follow').dispatchEvent(new Event('change')), 1)")
        page.wait("!stale.textContent.includes('away')")
    is_([it for it in page.requests() if not it.startswith(("blob:", "http://127.0.0.1:"))], [])


def test_missed(page: Browser, folder: pathlib.Path) -> None:
    """A followed log that isn't there holds back no other; one that is taken away stays away, and
    one that was dropped is another, by the same name."""
    shutil.copy(PAGE, folder / "net.html")
    logs = dict(zip(["coast.log", "my hill (1) #2 50%.log", "north.log"],
                    [it.read_bytes() for it in EVENING]))
    (folder / "logs.txt").write_text("gone.log\r\n" + "\r\n".join(logs))
    (folder / "day").mkdir()
    for name, text in logs.items():
        (folder / name).write_bytes(text)
    (folder / "day/coast.log").write_bytes(logs["coast.log"][:1000])
    again = "(document.getElementById('follow').dispatchEvent(new Event('change')), 1)"
    with Server(folder) as server:
        fresh(page, f"http://127.0.0.1:{server.port}/net.html")
        page.give("#choose", folder / "day/coast.log")
        page.wait("document.getElementById('status').textContent === 'no file can be read'")
        change(page, "follow", "log.txt")
        page.wait("stale.textContent.includes('log.txt: the server answers 404')")
        change(page, "follow", "logs.txt")
        page.wait(f"{MADE} && !stale.textContent.includes('404')")
        is_(page.js(BOOK), base64_of(program(["merge"], EVENING).stdout))
        is_(sorted(page.js("aprsfiles.files.map(it => it.name)")),
            ["coast.log", "coast.log", "gone.log", "my hill (1) #2 50%.log", "north.log"])
        is_(page.js(TOLD)["gone.log"], "the server answers 404")
        is_(page.js("aprsbook.data.notes.length"), 2)
        # what was read once stays, though the server has it no longer
        (folder / "north.log").unlink()
        page.js(again)
        page.wait(f"{MADE} && {MORE}['north.log'].startsWith('the server answers 404, since 20')")
        is_(page.js(BOOK), base64_of(program(["merge"], EVENING).stdout))
        (folder / "north.log").write_bytes(logs["north.log"])
        (folder / "gone.log").write_bytes(b"")
        page.js(again)
        page.wait(f"{MADE} && {TOLD}['gone.log'] === 'heard 0 passed 0'")
        is_(page.js(TOLD)["north.log"], checked(EVENING[2]))
        page.js("([...document.querySelectorAll('#files button')].at(-1).click(), 1)")
        page.wait(f"aprsfiles.files.length === 4 && {MADE}")
        page.js(again)
        time.sleep(0.5)
        is_(page.js("aprsfiles.files.map(it => it.name).includes('north.log')"), False)
        is_(page.js(BOOK), base64_of(program(["merge"], EVENING[:2]).stdout))


# from now on, when files were given, when they were shown, for how long no timer had its turn, and,
# where the browser says so, how long the longest task was
WATCH = """(() => {
    let last = performance.now();
    window.still = window.came = window.task = 0;
    if (PerformanceObserver.supportedEntryTypes.includes('longtask'))
        new PerformanceObserver(list => list.getEntries().forEach(it => {
            window.task = Math.max(window.task, it.duration) })).observe({ type: 'longtask' });
    setInterval(() => {
        const now = performance.now();
        window.still = Math.max(window.still, now - last);
        last = now; }, 20);
    new MutationObserver(() => {
        if (/ in [0-9.]+ s$/.test(document.getElementById('status').textContent))
            requestAnimationFrame(() => setTimeout(() => {
                window.came ||= performance.now() }));
    }).observe(document.getElementById('status'), { childList: true });
    document.getElementById('choose').addEventListener('change', () => {
        window.went = performance.now(); }, true);
    return 1; })()"""
DIGEST = """Promise.all(
    [aprsfiles.made().book, aprsbook.data.rows, aprsbook.data.messages]
    .map(it => crypto.subtle.digest('SHA-256', it)))
    .then(them => them.map(it => [...new Uint8Array(it)]))"""


def dropped(page: Browser, what: str, logs: Sequence[pathlib.Path], wanted: Dict[str, float],
            limits: str = "{}") -> None:
    """Gives logs to the page, and prints how long it takes until they are shown."""
    def measure() -> Dict[str, float]:
        fresh(page)
        page.js(f"(Object.assign(aprsfiles.limits, {limits}), 1)")
        page.js(WATCH)
        page.js(HEAR_RUNS)
        page.give("#choose", *logs)
        page.wait("window.came > 0", 120)
        times: Dict[str, float] = page.js("({ shown: came - went, still, task })")
        return times

    scale.judged(measure, wanted, f"{what} dropped in {page.name}")
    own = [program([command], logs).stdout for command in ("merge", "rows", "messages")]
    is_(page.js(DIGEST), [list(hashlib.sha256(it).digest()) for it in own])


def test_large(page: Browser, folder: pathlib.Path) -> None:
    """200,000 lines of three receivers: how long until they are shown, and the page goes on."""
    make_log = EXAMPLES.parent / "bench/make_log.py"
    subprocess.run([sys.executable, make_log, "200000", folder], check=True)
    dropped(page, "200,000 lines", sorted(folder.glob("*.log")), {"shown": 3000, "task": 100})


def test_larger(page: Browser, folder: pathlib.Path) -> None:
    """More than 64 MB: the evening on each of 320 days, its lines ten times. The rows are the
    book's then, and aren't made of all the files; files and book may go to and fro, and files may
    be merged in parts."""
    logs = [folder / it.name for it in EVENING]
    for own, path in zip(EVENING, logs):
        text = own.read_bytes()
        days = (datetime.date(2024, 1, 1) + datetime.timedelta(day) for day in range(320))
        path.write_bytes(b"".join(10 * text.replace(b"2024-06-21", str(day).encode())
                                  for day in days))
    assert sum(it.stat().st_size for it in logs) > 2 ** 26
    small = "kept: 1e6, alone: 1e6"
    for limits, merges in [("{}", ["merge 3"]), (f"{{ {small} }}", ["merge 3"]),
                           (f"{{ {small}, together: 4e7 }}", ["merge 2", "merge 2"])]:
        dropped(page, "more than 64 MB", logs, {}, limits)
        # each log was looked into before it was read
        is_(sorted(page.js("[...window.asked]")),
            ["check 1"] * 6 + [*merges, "messages 1", "rows 1"])

