"""The page and the tool say the same of 200 random logs, and of as many tables: tracks, messages,
rosters, clocks and texts. Logs need the programs, and tables none."""
import json
import pathlib
import random
import shutil
import subprocess
import xml.etree.ElementTree
from typing import Any, Dict, List, NamedTuple, Tuple

import pytest
from conftest import run
from random_logs import TEXTS, log_of
from standing import at, message, place, put, row, shown, table_text, tracks_of

from aprsbook_tools import table_output
from aprsbook_tools.commands.clocks import spans_of
from aprsbook_tools.commands.ics_309 import in_order, table_of
from aprsbook_tools.commands.roster import last_of
from aprsbook_tools.page import repeats
from aprsbook_tools.reports import table
from aprsbook_tools.reports.last_heard import COLUMNS, heard_of
from aprsbook_tools.reports.roster import Roster, read_roster
from aprsbook_tools.reports.table import Message, Row
from aprsbook_tools.reports.tracks import things_of

PAGE = pathlib.Path(__file__).resolve().parents[3] / "page/src"
CASES = 200
GAP = 30  # seconds
FEWEST = 2  # transmissions, of which the page says something
WITHIN = 6  # seconds by which clocks of random logs that are right differ
GPX = "{http://www.topografix.com/GPX/1/1}"
KML = "{http://www.opengis.net/kml/2.2}"
CALLS = ["Q1A", "Q1A-7", "Q1B", "Q1B-15", "Q1NET"]
NAMES = ["CP 1", "LEADER", "=A", "<x>", "ü", "\u202ex", "a\udce9b", "\ufeff", "\U0001f3c3"]
TO_ALL = {"BLN1": "bulletin", "BLNA": "announcement", "NWS-X": "weather-bulletin"}
STATES = ["unnumbered", "unanswered", "acknowledged", "rejected"]
LINES = [
    "Q1A Leader",
    "q1b-* Sweepers, 2",
    "Q1NET,Control,Base,1",
    '"Q1A-7";"Medic; one";',
    "# none",
    "",
    "Q1TOOLONG x",
    "Q1GONE\tGone\tBack\t118",
    "Q1A-0 again",
    'Q1C Leader "Bob"',
    '"Q1D" "Back, ""two""" x',
    'Q1E "',
    '"""',
    'Q1F"x y"',
    "Q1G ",
    "call,bib,name",
    "Q1H  a  b ",
    ",Q1I",
    'Q1K,"a',
    "q1b-15",
    "-7",
    ",Q1MED-7,second post",
    "second post,Q1L,x",
    "\tQ1M\tmast",
    ";Q1N;n",
    'Q1O,"Con\ntrol",Base',
    'Q1P "first\nsecond"',
    'Q1R;"never closed',
    ",,,,",
    ' ;"";;',
    "sep=;",
]
HEADS = [
    "sep=;\nname;call",
    "call,bib,name",
    "Callsign,Location",
    "call,",
    "call",
    "call,name,name",
    "number,callsign,name",
    "NAME;Station;who",
    "no\tcall\tteam",
    ",callsign,name",
    "number callsign",
]
PATHS = ["", "", "WIDE1-1", "WIDE2*", "Q1DIG*", "Q1DIG*,WIDE2-1", "Q1DIG*,WIDE1*,Q1TOP*,WIDE2-1",
         "RELAY*,TRACE3-2*", "Q1TOP*,Q1DIG*"]
EASTS = [-180.0, -179.5, -3.5, 0.0, 3.25, 179.5, 180.0]


class Case(NamedTuple):
    """What both are given: tables as texts, and a roster; a log, where the tables are of one."""

    rows_text: str
    messages_text: str
    roster: str
    log: bytes = b""

    @property
    def rows(self) -> List[Row]:
        return [*table.read(Row, self.rows_text.splitlines())]

    @property
    def messages(self) -> List[Message]:
        messages = table.read(Message, self.messages_text.splitlines())
        return in_order(it for it in messages if it.is_traffic)


def clock(some: random.Random) -> str:
    return f"{some.randrange(24):02}:{some.randrange(60):02}:{some.randrange(60):02}"


def row_of(some: random.Random) -> Row:
    """A row of any kind, heard for some seconds, by one or more."""
    time, source, text = clock(some), some.choice(CALLS), some.choice(TEXTS)
    spot = some.choice([0.0, 54.5, -12.25, 54.5123456]), some.choice(EASTS)
    said: Dict[str, Any] = {"text": text, "symbol": some.choice(["/>", "\\k", "A_"])}
    if some.random() < 0.3:
        said.update(course=some.randrange(1, 361), speed_knots=some.randrange(99), altitude_m=304.8)
    if some.random() < 0.2:
        said.update(ambiguity=None, compressed=True)
    if some.random() < 0.2:
        said.update(ambiguity=some.randrange(5))
    kind = some.choice(["position", "position", "thing", "thing", "mic-e", "status"])
    if kind == "status":
        it = row(kind, time, source, text=text)
    elif kind == "thing":
        said.update(kind=some.choice(["object", "item"]), state=some.choice(["live", "killed"]))
        it = put(time, source, some.choice(NAMES), *spot, **said)
    else:
        says = "en-route" if kind == "mic-e" else ""
        it = place(time, source, *spot, kind=kind, says=says, **said)
    ears = some.choice([("RX1",), ("RX2",), ("RX1", "RX2")])
    later = at(time)[:20] + f"{some.randrange(1000):03}Z"
    path = tuple(filter(None, some.choice(PATHS).split(",")))
    return it._replace(last=later, receivers=ears, receiver=ears[-1], via=path,
                       gate=some.choice(["", "", "", "Q1GATE"]))


def roster_of(some: random.Random) -> str:
    lines = some.sample(LINES, some.randrange(len(LINES)))
    if some.random() < 0.5:
        lines.insert(0, some.choice(HEADS))
    return some.choice(["\n", "\r\n"]).join(lines)


def message_of(some: random.Random) -> Message:
    """A message of any class."""
    to, number = some.choice([*CALLS, *TO_ALL]), some.choice(["", "7"])
    class_ = TO_ALL.get(to) or some.choice(["message", "message", "query", "telemetry", "answer"])
    return message(clock(some), some.choice(CALLS), to, some.choice(TEXTS), id=number,
                   state=some.choice(STATES), outcome=some.choice(STATES), class_=class_,
                   number=number or some.choice(["", "07"]))


def tables_of(seed: int) -> Case:
    """Tables made up, whatever the programs can say."""
    some = random.Random(seed)
    rows = [row_of(some) for _ in range(some.randrange(12))]
    messages = [message_of(some) for _ in range(some.randrange(6))]
    return Case(table_text(Row, rows), table_text(Message, messages), roster_of(some))


def logged(seed: int) -> Case:
    """The tables of a log."""
    some = random.Random(seed)
    log = log_of(some)
    of = {word: run("aprsbook-table", word, given=log).decode() for word in ("rows", "messages")}
    return Case(of["rows"], of["messages"], roster_of(some), log)


@pytest.fixture(scope="module", params=[tables_of, logged])
def both(request: pytest.FixtureRequest) -> List[Tuple[Case, Any]]:
    """Cases, each with what the page says of it."""
    if shutil.which("node") is None or not PAGE.is_dir():
        pytest.skip("needs node, and the page that reads tables")
    cases = [request.param(seed) for seed in range(CASES)]
    given = [
        {"rows": it.rows_text, "messages": it.messages_text, "roster": it.roster} for it in cases
    ]
    script = pathlib.Path(__file__).resolve().parent / "page_says.mjs"
    done = subprocess.run(
        ["node", script, PAGE], input=json.dumps(given).encode(), capture_output=True
    )
    assert done.returncode == 0, done.stderr.decode()
    return list(zip(cases, json.loads(done.stdout)))


def made(form: str, case: Case) -> str:
    return "".join(tracks_of(form, things_of(case.rows)))


def messages_csv(messages: List[Message], roster: Roster) -> str:
    return "".join(table_output.lines_of("csv", *table_of(messages, roster)))


def test_csv_of_places(both: List[Any]) -> None:
    for case, said in both:
        assert made("csv", case) == said["places (CSV)"], case


def test_csv_of_messages(both: List[Any]) -> None:
    for case, said in both:
        assert messages_csv(case.messages, Roster()) == said["messages (CSV)"], case


def test_csv_of_messages_with_names(both: List[Any]) -> None:
    for case, said in both:
        assert messages_csv(case.messages, read_roster(case.roster)) == said["named"], case


def features(text: str) -> List[Any]:
    """What a GeoJSON has, but for properties that only one of both says."""
    kept = "kind name state first last receivers source symbol comment".split()
    return [
        [
            it["geometry"],
            {
                name: value
                for name, value in it["properties"].items()
                if name in kept and value != ""
            },
        ]
        for it in json.loads(text)["features"]
    ]


def test_geojson(both: List[Any]) -> None:
    for case, said in both:
        assert features(made("geojson", case)) == features(
            said["places and tracks (GeoJSON)"]
        ), case


def gpx(text: str) -> List[Any]:
    """Waypoints and tracks of a GPX: places, times and names."""

    def point(it: Any) -> List[Any]:
        return [
            it.tag,
            it.get("lat"),
            it.get("lon"),
            it.findtext(GPX + "time"),
            it.findtext(GPX + "name"),
        ]

    root = xml.etree.ElementTree.fromstring(text)
    tracks = [
        [it.findtext(GPX + "name"), [list(map(point, run)) for run in it.findall(GPX + "trkseg")]]
        for it in root.findall(GPX + "trk")
    ]
    return [[point(it) for it in root.findall(GPX + "wpt")], tracks]


def test_gpx(both: List[Any]) -> None:
    for case, said in both:
        assert gpx(made("gpx", case)) == gpx(said["places and tracks (GPX)"]), case


def kml(text: str) -> List[Any]:
    """Names and coordinates of a KML."""
    root = xml.etree.ElementTree.fromstring(text)
    return [
        [it.findtext(KML + "name"), [line.text for line in it.iter(KML + "coordinates")]]
        for it in root.iter(KML + "Placemark")
    ]


def test_kml(both: List[Any]) -> None:
    for case, said in both:
        assert kml(made("kml", case)) == kml(said["places and tracks (KML)"]), case


def test_roster(both: List[Any]) -> None:
    for case, said in both:
        roster = read_roster(case.roster)
        stations = heard_of(
            table.columns(Row, case.rows_text.splitlines(), names=COLUMNS))
        told = []
        for it in roster.expected:
            last = last_of(it, stations)  # by clocks that are right
            told.append([it.call, it.name, it.group, it.bib, last.order[0] if last else "never"])
        assert told == said["expected"], case
        assert [it.line for it in roster.faults] == said["faults"], case


def test_who_repeated_whom(both: List[Any]) -> None:
    for case, said in both:
        assert repeats.text_of((it, 1) for it in case.rows) == said["repeats"], case
    assert any(said["repeats"] for _, said in both) or both[0][0].log


def test_clocks(both: List[Any], tmp_path: pathlib.Path) -> None:
    """A row says when the first of its receivers heard it: within it none differs from another."""
    compared = 0
    for case, said in both:
        if not case.log:
            continue
        (tmp_path / "net.log").write_bytes(case.log)
        spans = spans_of([str(tmp_path / "net.log")], 5)
        assert len({(it.one, it.other) for it in spans}) == len(spans), case
        told = {(it.one, it.other): it.ahead for it in spans if len(it.frames) >= FEWEST}
        page = {(it["a"], it["b"]): it["by"] for it in said["clocks"]}
        far = {names for names, ahead in told.items() if abs(ahead) > GAP}
        assert far == {names for names, by in page.items() if abs(by) > GAP}, case
        assert all(abs(told[names] - page[names]) < WITHIN for names in far), (told, page)
        compared += len(far)
    assert compared > 100 or not both[0][0].log


def test_bytes_as_texts() -> None:
    """Any bytes, as the table shows them."""
    some = random.Random(71)
    pieces = [it.encode("utf-8", "surrogateescape") for it in TEXTS]
    octets = [b"".join(some.choices(pieces, k=3)) for _ in range(CASES)]
    octets += [some.randbytes(some.randrange(1, 12)) for _ in range(10 * CASES)]
    texts = [shown(it.decode("utf-8", "surrogateescape")) for it in octets]
    if shutil.which("node") is None or not PAGE.is_dir():
        pytest.skip("needs node, and the page that reads tables")
    script = (
        'import { readFileSync } from "node:fs"; import { pathToFileURL } from "node:url";'
        "const { said } = await import(pathToFileURL(process.argv[1]).href);"
        'process.stdout.write(JSON.stringify(JSON.parse(readFileSync(0, "utf8")).map(said)));'
    )
    done = subprocess.run(
        ["node", "--input-type=module", "-e", script, PAGE / "util/text.js"],
        input=json.dumps(texts).encode(),
        capture_output=True,
    )
    assert done.returncode == 0, done.stderr.decode()
    assert json.loads(done.stdout) == [table.text_of(it) for it in texts]
