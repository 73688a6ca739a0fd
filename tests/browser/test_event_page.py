"""aprs-net page without a browser: what came off the air is data alone."""
import base64
import hashlib
import html
import itertools
import json
import pathlib
import re
import resource
import subprocess
from typing import Any, Dict, List, Tuple

import hostile
from browser import Place
from given import EXAMPLES, needs

pytestmark = needs("aprsbook", "aprsbook-table", "aprs-net")
LOGS = sorted(map(str, EXAMPLES.glob("evening/*.log")))
DATA = re.compile('<script type="application/json" id="data">(.*?)</script>', re.S)
INSIDE = re.compile(r"<(style|script)>(.*?)</\1>", re.S)


def event_page(*arguments: Place, **keywords: Any) -> str:
    command: List[Place] = ["aprs-net", "page", *arguments]
    done = subprocess.run(command, stdout=subprocess.PIPE, check=True, **keywords)
    return str(done.stdout, "utf-8")


def output(*command: Place) -> str:
    return subprocess.run(command, stdout=subprocess.PIPE, check=True).stdout.decode("ascii")


def own(text: str) -> str:
    return "'sha256-" + base64.b64encode(hashlib.sha256(text.encode()).digest()).decode() + "'"


def read(text: str) -> Tuple[str, Dict[str, Any]]:
    """The page's frame, without its data and its title, and the data, after what holds for each."""
    [data] = DATA.findall(text)
    assert not re.search("[<>&]", data)
    assert not re.search("[\0-\x09\x0b-\x1f\x7f-\x9f\u2028-\u202e\u2066-\u2069]", text)
    value, frame = json.loads(data), DATA.sub("", text)
    title = html.escape(value["title"])
    frame = frame.replace(f"<title>{title}</title>", "", 1)
    frame = frame.replace(f'<h1 id="title">{title}</h1>', "", 1)
    [(_, style), (_, script)] = INSIDE.findall(frame)
    asks = "; connect-src 'self'" if value["live"] else ""
    policy = (f"default-src 'none'; script-src {own(script)}; style-src {own(style)}; "
              f"base-uri 'none'; form-action 'none'{asks}")
    assert f'http-equiv="Content-Security-Policy" content="{policy}"' in frame
    return frame.replace(asks, "", 1), value


def test_order(folder: pathlib.Path) -> None:
    pages = {event_page(*order) for order in itertools.permutations(LOGS)}
    assert len(pages) == 1
    text = pages.pop()
    _, data = read(text)
    # a book has one copy of each transmission: who repeated whom is known of logs alone
    of_book = text.replace(f',"repeats":{json.dumps(data["repeats"])}', "")
    assert data["repeats"].count("\n") > 1 and len(of_book) < len(text)
    (folder / "net.book").write_text(output("aprsbook", "merge", *LOGS))
    assert event_page(folder / "net.book") == of_book
    with open(folder / "net.book", "rb") as book:
        assert event_page(stdin=book) == of_book
    assert data["title"] == "APRS net" and data["notes"] == [] and data["gap"] == 30
    assert data["rows"] == output("aprsbook-table", "rows", *LOGS)
    assert data["messages"] == output("aprsbook-table", "messages", *LOGS)
    (folder / "page.html").write_text("before")
    event_page("-o", folder / "page.html", "--title", "Fell race", "--note", "a.log is cut", *LOGS)
    data = read((folder / "page.html").read_text())[1]
    assert data["title"] == "Fell race" and data["notes"] == ["a.log is cut"]
    assert sorted(it.name for it in folder.iterdir()) == ["net.book", "page.html"]


def test_hostile(folder: pathlib.Path) -> None:
    (folder / "hostile.log").write_text("".join(hostile.log()))
    (folder / "hostile.gpx").write_text(hostile.course())
    (folder / "-x.log").write_text("".join(hostile.log()))
    frame, data = read(event_page("--title", hostile.TITLE, "--note", hostile.TEXTS[0],
                                  "--live", "60", "--course", folder / "hostile.gpx",
                                  folder / "hostile.log"))
    assert frame == read(event_page(*LOGS))[0]
    assert data["title"] == hostile.TITLE and data["maps"] == [hostile.course()]
    other = read(event_page("--gap", "60", "--", "-x.log", cwd=folder))[1]
    assert other["rows"] == data["rows"] and other["gap"] == 60


def test_nothing(folder: pathlib.Path) -> None:
    (folder / "empty.log").write_text("")
    assert read(event_page(folder / "empty.log"))[1]["rows"].count("\n") == 1


def refused(folder: pathlib.Path, *arguments: Place, status: int = 1, **keywords: Any) -> str:
    (folder / "page.html").write_text("before")
    done = subprocess.run(["aprs-net", "page", "-o", folder / "page.html", *arguments],
                          stdout=subprocess.PIPE, stderr=subprocess.PIPE, **keywords)
    assert done.returncode == status and done.stdout == b"", done
    assert (folder / "page.html").read_text() == "before"
    assert not list(folder.glob("*.new*"))
    return str(done.stderr, "utf-8")


BAD_MAPS = [
    "2024", "<gpx>", "<svg/>", '<gpx><wpt lat="x" lon="1"/></gpx>',
    '<gpx><wpt lat="91" lon="1"/></gpx>', "<gpx><wpt/></gpx>", "[1]", "[]", '{"type": 1',
    '{"type": "Topology"}', '{"type": "Point"}', '{"type": "Point", "coordinates": [0, 95]}',
    '{"type": "Point", "coordinates": ["0", "x"]}', '{"type": "Point", "coordinates": "ab"}',
    '{"type": "LineString", "coordinates": []}',
]


def test_refused(folder: pathlib.Path) -> None:
    (folder / "torn.log").write_text("2024-06-21T18:00")
    assert "torn.log" in refused(folder, folder / "torn.log")
    for text in BAD_MAPS:
        (folder / "course").write_text(text)
        said = refused(folder, "--course", folder / "course", EXAMPLES / "sample.log")
        assert re.fullmatch("aprs-net: .*\n", said), (text, said)
    assert "nowhere" in refused(folder, "--course", folder / "nowhere.gpx", LOGS[0])
    assert "nowhere" in refused(folder, "--roster", folder / "nowhere.txt", LOGS[0])

    # a disk that is full
    def limit() -> None:
        resource.setrlimit(resource.RLIMIT_FSIZE, (20000, 20000))

    assert refused(folder, *LOGS, status=3, preexec_fn=limit)


def test_two(folder: pathlib.Path) -> None:
    """Two at once write one page or the other, whole."""
    commands: List[List[Place]] = [
        ["aprs-net", "page", "-o", folder / "page.html", "--title", title, *LOGS] for title in "ab"]
    for _ in range(3):
        for one in [subprocess.Popen(command) for command in commands]:
            assert one.wait() == 0
        assert read((folder / "page.html").read_text())[1]["title"] in "ab"
    assert [it.name for it in folder.iterdir()] == ["page.html"]


def test_contrast() -> None:
    def light(colour: str) -> float:
        digits = colour[1:] if len(colour) == 7 else "".join(2 * digit for digit in colour[1:])
        parts = [int(digits[n:n + 2], 16) / 255 for n in (0, 2, 4)]
        parts = [it / 12.92 if it <= 0.04045 else ((it + 0.055) / 1.055) ** 2.4 for it in parts]
        return 0.2126 * parts[0] + 0.7152 * parts[1] + 0.0722 * parts[2]

    style = INSIDE.findall(read(event_page(LOGS[0]))[0])[0][1]
    blocks = re.findall(r":root(?:\.printed)? ?\{([^}]*)\}", style)
    assert len(blocks) == 3
    for block in blocks:
        colours = dict(re.findall(r"--(\w+): ?(#\w+)", block))
        tracks = [name for name in colours if re.fullmatch("t[0-9]", name)]
        for ink in "ink soft station object item bad good warn".split() + tracks:
            for below in "paper", "sheet":
                dark, bright = sorted([light(colours[ink]), light(colours[below])])
                assert (bright + 0.05) / (dark + 0.05) >= 4.5, (ink, below)

