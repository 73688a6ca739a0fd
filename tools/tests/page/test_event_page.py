"""The page of an event, and the book and the page of a net that runs."""
import gzip
import io
import json
import os
import pathlib
import pkgutil
import re
import signal
import subprocess
import sys
import zipfile
from typing import Any, Dict

import pytest
from conftest import started, wait_for
from hypothesis import given
from hypothesis import strategies as st
from standing import Programs, place, row

import aprsbook_tools
from aprsbook_tools.books import merged_inputs, net_logs
from aprsbook_tools.errors import Fault
from aprsbook_tools.page import event_page, repeats
from aprsbook_tools.system import programs

DATA = re.compile('<script type="application/json" id="data">(.*?)</script>', re.S)
BUILD = pathlib.Path(__file__).resolve().parents[3] / "build" / "pyz.py"
LINE = "2024-06-21T18:00:00.000Z RX1 c0c0\n"


def data_of(text: str) -> Dict[str, Any]:
    [data] = DATA.findall(text)
    value: Dict[str, Any] = json.loads(data)
    return value


def test_a_page_has_what_it_is_told(programs: Programs, tmp_path: pathlib.Path) -> None:
    (tmp_path / "names").write_text("Q1RUN-* Runners\n")
    (tmp_path / "course").write_text('{"type": "Point", "coordinates": [1, 2]}')
    programs.say(place("18:00", "Q1A", 1, 2, text="</script>"))
    data = data_of(
        programs.run(
            "page",
            "--title",
            "Fell <race>",
            "--live",
            "60",
            "--silent",
            "15",
            "--roster",
            "names",
            "--course",
            "course",
            "--note",
            "one",
            "net.log",
        )
    )
    assert (data["title"], data["live"], data["silent"], data["gap"]) == ("Fell <race>", 60, 15, 30)
    assert data["roster"] == "Q1RUN-* Runners\n" and data["notes"] == ["one"]
    assert data["maps"] == ['{"type": "Point", "coordinates": [1, 2]}']


def test_the_template(tmp_path: pathlib.Path, monkeypatch: pytest.MonkeyPatch) -> None:
    """It is that of the package, or else of the newest release, or it is said what to do."""
    package = tmp_path / "tools" / "src" / "aprsbook_tools"
    monkeypatch.setattr(aprsbook_tools, "__file__", str(package / "__init__.py"))
    monkeypatch.setattr(pkgutil, "get_data", lambda *_: None)
    event_page.template.cache_clear()
    with pytest.raises(Fault, match="make event-page.*apt install esbuild"):
        event_page.template()
    for version in "0.9.0", "0.10.0":
        (tmp_path / "release" / version).mkdir(parents=True)
        with zipfile.ZipFile(tmp_path / "release" / version / "aprs-net.pyz", "w") as archive:
            archive.writestr("aprsbook_tools/data/event.html", version)
    assert event_page.template() == "0.10.0"
    event_page.template.cache_clear()
    monkeypatch.undo()


def test_what_is_filled() -> None:
    page = "<title>@TITLE@</title>policy@CONNECT@ <script>@DATA@</script> @OTHER@"
    data = {"title": "a <b> @DATA@", "live": 0, "rows": "</script>&\u2028"}
    assert event_page.filled(page, data) == (
        "<title>a &lt;b&gt; @DATA@</title>policy <script>"
        '{"title":"a \\u003cb\\u003e @DATA@","live":0,"rows":"\\u003c/script\\u003e\\u0026\u2028"}'
        "</script> @OTHER@"
    )
    assert "policy; connect-src 'self' " in event_page.filled(page, {"title": "", "live": 60})


def test_tables_are_filled_in_piece_by_piece() -> None:
    """However long they are, no piece is, and the page is the same."""
    rows, data = 'a\t"<b>\\x41&\n' * 20_000, {"title": "net", "live": 0}
    tables = {"rows": io.BytesIO(rows.encode()), "messages": io.BytesIO(b"one\n")}
    found = [*event_page.pieces("<@DATA@>", data, tables)]
    assert "".join(found) == event_page.filled("<@DATA@>", {**data, "rows": rows,
                                                            "messages": "one\n"})
    assert len(found) > 5 and max(map(len, found)) < 6 * programs.BLOCK


def test_a_roster_s_fault_doesn_t_end_a_page(programs: Programs, tmp_path: pathlib.Path) -> None:
    """A net that runs needs its page, which says the fault too."""
    (tmp_path / "names").write_text("Q1A\nQ1RUNNER nine\n")
    data = data_of(programs.run("page", "--roster", "names", "net.log"))
    assert data["roster"] == "Q1A\nQ1RUNNER nine\n" and data["notes"] == []
    assert programs.said == "aprs-net: names: line 2: 'Q1RUNNER' is no call\n"


BAD_MAPS = [
    "2024",
    "<gpx>",
    "<svg/>",
    '<gpx><wpt lat="x" lon="1"/></gpx>',
    '<gpx><wpt lat="91" lon="1"/></gpx>',
    "<gpx><wpt/></gpx>",
    "[1]",
    "[]",
    '{"type": 1',
    '{"type": "Topology"}',
    '{"type": "Point"}',
    '{"type": "Point", "coordinates": [0, 95]}',
    '{"type": "Point", "coordinates": ["0", "x"]}',
    '{"type": "Point", "coordinates": "ab"}',
    '{"type": "LineString", "coordinates": []}',
    "<kml><coordinates>1</coordinates></kml>",
    "<kml><Point><coordinates>0,91</coordinates></Point></kml>",
    "<kml><coord>1 x</coord></kml>",
    "[" * 100_000,
]


@pytest.mark.parametrize(
    "text",
    [
        "<kml><Point><coordinates> 1,2,3\n4,5 </coordinates></Point></kml>",
        '<kml xmlns="http://www.opengis.net/kml/2.2"><coord>1 2 3</coord></kml>',
        '<gpx><wpt lat="2" lon="1"/></gpx>',
        '{"type": "LineString", "coordinates": [[1, 2], [3, 4]]}',
    ],
)
def test_a_map_is_taken(programs: Programs, tmp_path: pathlib.Path, text: str) -> None:
    (tmp_path / "course").write_text(text)
    assert data_of(programs.run("page", "--course", "course", "net.log"))["maps"] == [text]


@pytest.mark.parametrize("text", BAD_MAPS, ids=lambda it: str(it)[:30])
def test_what_is_no_map_is_refused(programs: Programs, tmp_path: pathlib.Path, text: str) -> None:
    (tmp_path / "course").write_text(text)
    (tmp_path / "page.html").write_text("before")
    programs.run("page", "-o", "page.html", "--course", "course", "net.log", status=1)
    assert programs.said.startswith("aprs-net: course: ") and programs.said.count("\n") == 1
    assert (tmp_path / "page.html").read_text() == "before"


def test_a_page_of_logs_says_who_repeated_whom(programs: Programs, tmp_path: pathlib.Path) -> None:
    """By all receptions, as keeper has it; a book has one copy of each transmission."""
    programs.say(row("status", "18:00", "Q1A", via=("Q1DIG*", "Q1TOP*")),
                 row("status", "18:01", "Q1B"))
    (tmp_path / "a.log.gz").write_bytes(gzip.compress(LINE.encode()))
    (tmp_path / "a.book").write_text("APRSBOOK 3 30\nEND 0\n")
    data = data_of(programs.run("page", "a.log.gz", "net.log"))
    assert data["repeats"] == "Q1DIG\tQ1A\t1\nQ1TOP\tQ1DIG\t1\n"
    assert [*data][-3:] == ["rows", "messages", "repeats"]
    assert "repeats" not in data_of(programs.run("page", "net.log", "a.book"))


def test_large_logs_have_no_repeats(
    programs: Programs, tmp_path: pathlib.Path, monkeypatch: pytest.MonkeyPatch
) -> None:
    programs.say(row("status", "18:00", "Q1A", via=("Q1DIG*",)))
    (tmp_path / "net.log").write_text(LINE)
    for most, is_there in (len(LINE), True), (len(LINE) - 1, False):
        monkeypatch.setattr(repeats, "MOST", most)
        assert ("repeats" in data_of(programs.run("page", "net.log"))) is is_there
        assert (repeats.of_log(LINE.encode()) is not None) is is_there


def test_a_log_that_grows_is_of_one_state(tmp_path: pathlib.Path) -> None:
    log = tmp_path / "a.log"
    log.write_text(LINE)
    for most, is_copied in (len(LINE), True), (len(LINE) - 1, False):
        with merged_inputs.plain([str(log)], most) as [file]:
            assert (file != str(log)) is is_copied
            assert pathlib.Path(file).read_text() == LINE
        assert log.exists()


@pytest.mark.parametrize("output", ["net.log", "other.log", "old", "net.book", "names", "course"])
def test_an_input_or_a_log_is_never_replaced(
    programs: Programs, tmp_path: pathlib.Path, output: str
) -> None:
    """`event-page -o *.log` replaced the first log by a page."""
    (tmp_path / "net.log").write_text(LINE)
    (tmp_path / "other.log").write_text("")
    (tmp_path / "old").write_text(LINE)
    (tmp_path / "net.book").write_text("APRSBOOK 3 30\nEND 0\n")
    (tmp_path / "names").write_text("Q1A\n")
    (tmp_path / "course").write_text('{"type": "Point", "coordinates": [1, 2]}')
    before = (tmp_path / output).read_bytes()
    programs.run(
        "page",
        "--roster",
        "names",
        "--course",
        "course",
        "-o",
        output,
        "net.log",
        "net.book",
        status=2,
    )
    assert (tmp_path / output).read_bytes() == before


def test_the_page_isn_t_written_again(programs: Programs, tmp_path: pathlib.Path) -> None:
    programs.run("page", "-o", "page.html", "net.log")
    before = os.stat("page.html")
    programs.run("page", "-o", "page.html", "net.log")
    assert os.stat("page.html").st_ino == before.st_ino
    assert os.stat("page.html").st_mtime_ns == before.st_mtime_ns


# ---- a net that runs ----


@pytest.fixture
def net(programs: Programs) -> Programs:
    folder = programs.folder / "logs/2024-06-21"
    folder.mkdir(parents=True)
    (folder / "RX1.log").write_text(LINE)
    return programs


NOW = ["follow", "--day", "2024-06-21", "logs", "out"]


def made(net: Programs, name: str) -> str:
    return (net.folder / "out" / name).read_text()


def test_a_book_and_a_page_are_made(net: Programs) -> None:
    net.run(*NOW)
    assert made(net, "net.book") == "APRSBOOK 3 30\n" + LINE and "</html>" in made(
        net, "index.html"
    )
    assert sorted(os.listdir("out")) == ["index.html", "net.book"] and net.said == ""


def test_the_page_of_a_net_says_who_repeated_whom(net: Programs) -> None:
    net.say(row("status", "18:00", "Q1A", via=("Q1DIG*",)))
    net.run(*NOW)
    assert data_of(made(net, "index.html"))["repeats"] == "Q1DIG\tQ1A\t1\n"


def test_neither_is_written_again_where_nothing_has_changed(net: Programs) -> None:
    """Both were written each minute: a copy to another host sent all of it again."""
    net.run(*NOW)
    before = [os.stat(f"out/{name}").st_mtime_ns for name in ("net.book", "index.html")]
    net.run(*NOW)
    assert before == [os.stat(f"out/{name}").st_mtime_ns for name in ("net.book", "index.html")]


def test_an_output_is_no_option_of_it(net: Programs) -> None:
    """`net-now .. -o FILE` gave the option to the page, and left index.html empty."""
    net.run(*NOW, "-o", "FILE", status=2)
    assert not (net.folder / "out").exists()


def test_torn_lines_are_named(net: Programs) -> None:
    (net.folder / "logs/2024-06-21/RX1.log").write_text(LINE[:20] + "\n" + LINE + LINE[:9])
    (net.folder / "logs/2024-06-21/RX2.log").write_text(
        LINE.replace("\n", "\r\n").replace("RX1", "RX2")
    )
    net.run(*NOW)
    assert net.said == "aprs-net: logs/2024-06-21/RX1.log: lines left out: 2\n"
    assert data_of(made(net, "index.html"))["notes"] == [
        "logs/2024-06-21/RX1.log: lines left out: 2"
    ]
    assert made(net, "net.book") == "APRSBOOK 3 30\n" + LINE + LINE.replace("RX1", "RX2")


def test_compressed_logs(net: Programs) -> None:
    packed = gzip.compress((LINE.replace("RX1", "RX2") * 100).encode(), mtime=0)
    folder = net.folder / "logs/2024-06-21"
    (folder / "RX2.log.gz").write_bytes(packed)
    net.run(*NOW)
    assert made(net, "net.book").count("RX2") == 100
    (folder / "RX2.log.gz").write_bytes(packed[:-20])
    (folder / "gone.log").symlink_to("nowhere")
    net.run(*NOW, status=1)
    notes = data_of(made(net, "index.html"))["notes"]
    assert [re.sub(r".*/([a-zA-Z0-9]*)\..*(can't be read).*", r"\1 \2", it) for it in notes] == [
        "RX2 can't be read",
        "gone can't be read",
    ]
    assert LINE in made(net, "net.book")


@pytest.mark.parametrize("folder", ["none", "empty", "logs"])
def test_no_log_of_these_days_leaves_both(net: Programs, folder: str) -> None:
    net.run(*NOW)
    before = {
        name: (made(net, name), os.stat(f"out/{name}").st_mtime_ns) for name in os.listdir("out")
    }
    (net.folder / "empty").mkdir()
    (net.folder / "logs/2024-06-22").mkdir()
    net.run("follow", "--day", "2024-06-22", folder, "out", status=1)
    assert net.said == f"aprs-net: in {folder} is no log of 2024-06-22\n"
    assert before == {
        name: (made(net, name), os.stat(f"out/{name}").st_mtime_ns) for name in os.listdir("out")
    }


def test_today_and_yesterday(net: Programs) -> None:
    for _ in range(2):  # should midnight come between
        days = net_logs.last_days()
        for day in days:
            folder = net.folder / "logs" / day
            folder.mkdir(exist_ok=True)
            (folder / "RX1.log").write_text(LINE.replace("2024-06-21", day) + LINE[:7])
        net.run("follow", "logs", "out")
        if days == net_logs.last_days():
            break
    assert made(net, "net.book") == "APRSBOOK 3 30\n" + "".join(
        LINE.replace("2024-06-21", day) for day in days
    )
    # a last line of today is being written
    assert net.said == f"aprs-net: logs/{days[0]}/RX1.log: lines left out: 1\n"


def test_days_and_gap_of_the_environment(net: Programs, monkeypatch: pytest.MonkeyPatch) -> None:
    """GAP had no effect in one unit of two."""
    monkeypatch.setenv("APRS_NET_DAYS", "2024-06-21 2024-06-22")
    monkeypatch.setenv("APRS_NET_GAP", "60")
    net.run("follow", "logs", "out")
    assert [it for it in net.calls if it.startswith("aprsbook merge")] == [
        "aprsbook merge --gap 60"
    ]
    assert data_of(made(net, "index.html"))["gap"] == 60
    for name, value in ("APRS_NET_GAP", "x"), ("APRS_NET_DAYS", "today"):
        monkeypatch.setenv(name, value)
        net.run("follow", "logs", "out", status=2)
        assert f"{name}: " in net.said
        monkeypatch.delenv(name)


LINES = st.lists(
    st.sampled_from(
        [
            LINE.encode(),
            b"x\n",
            b"2024-06-21T18:00:00Z RX1 C0C0\r\n",
            b"\0\n",
            b"2024-06-21T18:00:00.000Z RX1 c0c\n",
            b"\n",
        ]
    ),
    max_size=6,
)


@given(LINES, st.binary(max_size=5).filter(lambda it: b"\n" not in it))
def test_whole_lines_are_whole_and_stay(lines: "list[bytes]", rest: bytes) -> None:
    kept, torn, unended = net_logs.whole_lines(b"".join(lines) + rest)
    assert net_logs.whole_lines(kept) == (kept, 0, False)
    assert kept.count(b"\n") + torn == len(lines) and unended == bool(rest)


def test_logs_of_other_machines_lie_in_folders_of_their_own(tmp_path: pathlib.Path) -> None:
    """Two machines may call a receiver alike, and none takes the other's place."""
    day = "2024-06-21"
    for name in f"{day}/RX1.log", f"hill/{day}/RX1.log", f"coast/{day}/RX1.log.gz", \
            "hill/2024-06-22/RX1.log", f".git/{day}/RX1.log", f"hill/more/{day}/RX1.log":
        (tmp_path / name).parent.mkdir(parents=True, exist_ok=True)
        (tmp_path / name).write_bytes(b"")
    assert net_logs.logs_of(str(tmp_path), [day]) == [
        (day, str(tmp_path / it)) for it in (
            f"{day}/RX1.log", f"coast/{day}/RX1.log.gz", f"hill/{day}/RX1.log",
            f"hill/more/{day}/RX1.log")]
    assert net_logs.logs_of(str(tmp_path / "nowhere"), [day]) == []


def test_a_system_s_fault_doesn_t_end_a_turn(net: Programs) -> None:
    """As where the place of the page isn't there for a while."""
    (net.folder / "out").write_text("")
    with started("follow", "--every", "1", *NOW[1:], rate=10) as process:
        try:
            assert process.stderr is not None
            assert process.stderr.readline() == b"aprs-net: out: File exists\n"
            os.unlink(net.folder / "out")
            wait_for(lambda: os.path.exists("out/index.html"), "a page")
        finally:
            process.terminate()


def test_again_and_again(net: Programs) -> None:
    """A turn that fails doesn't end it, and what is new comes into the page."""
    log = net.folder / "logs/2024-06-21/RX1.log"
    log.rename(net.folder / "log")
    with started("follow", "--every", "1", *NOW[1:], rate=10) as process:
        try:
            assert process.stderr is not None
            assert b"is no log of 2024-06-21" in process.stderr.readline()
            (net.folder / "log").rename(log)
            wait_for(lambda: os.path.exists("out/index.html"), "a page")
            before = made(net, "net.book")
            with open(log, "a") as more:
                more.write(LINE.replace("RX1", "RX2"))
            wait_for(lambda: made(net, "net.book") == before + LINE.replace("RX1", "RX2"), "a row")
        finally:
            process.terminate()
        assert process.wait(20) == -signal.SIGTERM
    assert sorted(os.listdir("out")) == ["index.html", "net.book"]


def test_one_file_leaves_no_other_when_it_is_killed(
    programs: Programs, tmp_path: pathlib.Path
) -> None:
    pyz, held = tmp_path / "a b" / "aprs-net.pyz", tmp_path / "held"
    held.mkdir()
    subprocess.run([sys.executable, BUILD, pyz], check=True)
    (tmp_path / "logs" / "2024-06-21").mkdir(parents=True)
    (tmp_path / "logs" / "2024-06-21" / "RX1.log").write_text(LINE)
    words = ["follow", "--every", "60", "--day", "2024-06-21", "logs", "out"]
    keeps = {**os.environ, "TMPDIR": str(held)}
    process = subprocess.Popen([sys.executable, pyz, *words], env=keeps)
    page = tmp_path / "out" / "index.html"
    try:
        wait_for(page.exists)
    finally:
        process.kill()
        process.wait()
    assert [*held.iterdir()] == []
    assert data_of(page.read_text())["title"] == "APRS net"
