"""aprs-net import: what other programs have written down, each with its zone."""
import codecs
import datetime
import importlib.util
import io
import pathlib
import re
import struct
import subprocess
import tracemalloc
from typing import IO, Any, List, Tuple, cast

import pytest
from hypothesis import given, strategies as st

from aprsbook_tools.commands import import_ as import_command
from aprsbook_tools.errors import Fault
from aprsbook_tools.formats import ax25, kiss, log_file, moments, zones
from aprsbook_tools.imports import Heard, Options, Refused, direwolf_csv, lines as line_formats
from conftest import EVENING, SAMPLES, command, environment, program, run, tried


def imported(text: bytes, *options: object, status: int = 0) -> Tuple[List[bytes], str]:
    """The lines of the log, and what is said."""
    done = tried("import", *options, given=text, status=status)
    lines = done.stdout.splitlines()
    assert all(map(log_file.read_line, lines))
    return lines, done.stderr.decode()


def read(line: bytes) -> log_file.Line:
    found = log_file.read_line(line)
    assert found is not None, line
    return found


def heads(lines: List[bytes]) -> List[str]:
    """The moments and the receivers of lines."""
    return [f"{moments.text_of(it.moment)} {it.receiver}" for it in map(read, lines)]


def frame(line: bytes) -> bytes:
    return kiss.unwrap(bytes.fromhex(read(line).digits.decode())[1:-1])


CALLS = st.from_regex(r"[A-Z0-9]{1,6}(-([1-9]|1[0-5]))?", fullmatch=True)
HOPS = st.lists(st.tuples(CALLS, st.booleans()), max_size=8)


@given(CALLS, CALLS, HOPS, st.binary(min_size=1, max_size=256).filter(lambda it: b"<" not in it))
def test_what_dire_wolf_prints_is_read_back(
        source: str, destination: str, hops: List[Tuple[str, bool]], information: bytes) -> None:
    path = ",".join([destination] + [call + "*" * star for call, star in hops])
    made = ax25.frame(source, path, information)
    shown = re.sub(rb"[^ -~]", lambda it: b"<0x%02x>" % it[0][0], information)
    text = b"[0.3 2024-06-21T18:00:00] %s>%s:%s\n" % (source.encode(), path.encode(), shown)
    [found] = line_formats.monitor(io.BytesIO(text), Options())
    assert isinstance(found, Heard) and found.frame == made
    assert moments.text_of(found.moment) == "2024-06-21T18:00:00.000Z"


@pytest.mark.parametrize("path", EVENING)
def test_the_evenings_logs_come_back_byte_for_byte(path: str) -> None:
    program("aprsbook")
    log, text = (run("aprsbook", "convert", form, path) for form in ("log", "text"))
    own, wolf, name = b"", b"", ""
    for head, line in zip(map(read, log.splitlines()), text.splitlines()):
        name, moment = head.receiver, moments.text_of(head.moment).encode()
        own += moment + b" " + line + b"\n"
        line = re.sub(rb"\\x(..)", rb"<0x\1>", re.sub(rb"\*(?=,[^:]*\*)", b"", line))
        wolf += b"\nQ1DIG audio level = 50(12/12)\n[0.3 " + moment[:-1] + b"] " + line + b"\n"
    for words, given_ in (["monitor", "--bytes", "aprsbook"], own), (["direwolf"], wolf):
        assert imported(given_, *words, "--name", name) == (log.splitlines(), "")


# ---- zones ----

@pytest.mark.parametrize("time, told", [
    ("2024-06-21 18:00:00", "2024-06-21T18:00:00.000Z"),
    ("2024-06-21T18:00:00Z", "2024-06-21T18:00:00.000Z"),
    ("2024-06-21 18:00:00 UTC", "2024-06-21T18:00:00.000Z"),
    ("2024-06-21 18:00:00.25", "2024-06-21T18:00:00.250Z"),
    ("2024-06-21T00:30:00+02:00", "2024-06-20T22:30:00.000Z"),
    ("2024-06-21 18:00:00 -0430", "2024-06-21T22:30:00.000Z"),
    ("2024-06-21 18:00:00 +02", "2024-06-21T16:00:00.000Z"),
    ("2024-06-21 18:00:00+02", "2024-06-21T16:00:00.000Z"),
    ("2024-06-21 18:00:00 UTC+2", "2024-06-21T16:00:00.000Z"),
    ("2024-06-21 18:00:00 GMT-10:30", "2024-06-22T04:30:00.000Z")])
def test_a_time_has_its_zone(time: str, told: str) -> None:
    lines, said = imported(f"{time} Q1NET>APRS:>Hi\n".encode(), "monitor")
    assert (heads(lines), said) == ([f"{told} TEXT"], "")


@pytest.mark.parametrize("time", [
    "2024-06-21 18:00:00 CEST", "2024-06-21 18:00:00 EDT", "2024-06-21 06:00:00 PM",
    "2024-06-21 06:00:00 pm", "2024-06-21 06:00:00AM", "2024-06-21 18:00:00 UTC+20",
    "2024-06-31T12:00:00Z", "1969-12-31T23:59:59Z", "2100-01-01 00:00:00", "yesterday"])
def test_a_time_that_cannot_be_told_is_refused_with_its_line(time: str) -> None:
    text = f"2024-06-21 18:00:00 Q1NET>APRS:>Hi\n{time} Q1NET>APRS:>Ho\n".encode()
    lines, said = imported(text, "monitor", status=1)
    assert len(lines) == 1 and said.startswith("aprs-net: line 2: ") and time in said


def test_a_zone_by_its_letters_is_said() -> None:
    text = b"""2024-06-21 20:00:00 CEST Q1NET>APRS:>Hi
2024-12-21 19:00:00 CET Q1NET>APRS:>Hi
2024-06-21 20:00:00 Q1NET>APRS:>Hi
"""
    told = ["2024-06-21T18:00:00.000Z TEXT", "2024-12-21T18:00:00.000Z TEXT"]
    by_hand = ["--zone", "CEST=+02:00", "--zone", "CET=UTC+1", "--zone", "+02:00"]
    for words in ["--zone", "Europe/Berlin"], by_hand:
        assert heads(imported(text, "monitor", *words)[0]) == [*told, told[0]]


def test_an_hour_that_comes_twice_and_one_that_never_comes() -> None:
    """In Berlin 02:00 to 03:00 came twice on 27 October 2024, and not at all on 31 March."""
    text = b"".join(b"2024-10-27 %s Q1NET>APRS:>Hi\n" % it for it in (
        b"01:59:00", b"02:10:00", b"02:50:00", b"02:10:00", b"02:50:00 CEST", b"02:50:00 CET"))
    lines, _ = imported(text, "monitor", "--zone", "Europe/Berlin")
    assert [it[11:16] for it in heads(lines)] == [
        "23:59", "00:10", "00:50", "01:10", "00:50", "01:50"]
    never = b"2024-03-31 02:30:00 Q1NET>APRS:>Hi\n"
    lines, said = imported(never, "monitor", "--zone", "Europe/Berlin", status=1)
    assert lines == [] and "put forward" in said


@pytest.mark.parametrize("zone", ["Mars", "+25:00", "CEST=Mars", "", "../etc/passwd"])
def test_a_zone_that_is_none_is_refused(zone: str) -> None:
    assert b"is no zone" in tried("import", "--zone", zone, "monitor", status=2).stderr


@pytest.mark.skipif(importlib.util.find_spec("tzdata") is not None, reason="has tzdata")
def test_where_no_zones_are_known_by_name_it_is_said(tmp_path: pathlib.Path) -> None:
    """As on Windows."""
    nowhere = environment(PYTHONTZPATH=str(tmp_path))
    words = ["import", "--zone", "Europe/Berlin", "monitor"]
    assert b"pip install tzdata" in tried(*words, status=2, env=nowhere).stderr
    text = b"2024-06-21 18:00:00 Q1NET>APRS:>Hi\n"
    tried("import", "--zone", "+02:00", "monitor", given=text, env=nowhere)


# whole minutes: a time shown in a zone of whole minutes comes back
@given(st.integers(0, (moments.END - 1) // 60_000), st.integers(-14 * 60 + 1, 14 * 60 - 1))
def test_a_moment_comes_back_from_any_zone(minute: int, offset: int) -> None:
    local = datetime.datetime(1970, 1, 1) + datetime.timedelta(minutes=minute + offset)
    sign, (hours, minutes) = "-" if offset < 0 else "+", divmod(abs(offset), 60)
    text = f"{local:%Y-%m-%d %H:%M:%S} {sign}{hours:02}:{minutes:02}"
    if local.year < 1000:
        return
    found = zones.find(text.encode())
    assert found is not None and zones.Zones().read(*found) == minute * 60_000


# ---- what was sent, and what never came by radio ----

WOLF = b"""[0.3 2024-06-21T18:00:00] Q1NET>APRS:>heard
[0 2024-06-21T18:00:01] Q1NET>APRS:>heard too
[0H 2024-06-21T18:00:02] Q0OWN>APRS,Q1DIG*:>sent at once
[0L 2024-06-21T18:00:03] Q0OWN>APRS:>sent
[1.is 2024-06-21T18:00:04] Q1NET>APRS,TCPIP*:>of the Internet
[rx>ig] Q1NET>APRS:>passed on
[ig>tx] Q1NET>APRS:>passed on
"""


def test_what_dire_wolf_sent_itself_is_left_out(tmp_path: pathlib.Path) -> None:
    lines, said = imported(WOLF, "direwolf", "--name", "HILL")
    assert heads(lines) == ["2024-06-21T18:00:00.000Z HILL", "2024-06-21T18:00:01.000Z HILL"]
    assert said.endswith("left out: 2\n") and said.count("\n") == 1
    own = tmp_path / "own.log"
    assert imported(WOLF, "direwolf", "--name", "HILL", "--sent", own) == (lines, "")
    assert heads(own.read_bytes().splitlines()) == [
        "2024-06-21T18:00:02.000Z HILL", "2024-06-21T18:00:03.000Z HILL"]


APRX = b"""2024-06-21 18:00:00.123 Q0GATE-1  R Q1NET>APRS,Q1DIG*:>heard
2024-06-21 18:00:01.000 Q0GATE-1  T Q0GATE-1>APRX29:>sent
2024-06-21 18:00:02.000 APRSIS    R Q1NET>APRS,TCPIP*,qAC,T2TEST:>of the Internet
2024-06-21 18:00:03.000 Q0GATE-1  d *Q1NET>APRS,NOGATE:>not passed on, but heard
2024-06-21 18:00:03.500 Q0GATE-1  d #Q1NET>APRS:>a copy, but heard: <0xffffffe4><0x07>
2024-06-21 18:00:04.000 APRSIS    T Q0GATE-1>APRX29,TCPIP*:>sent there
"""


def test_what_aprx_sent_and_what_came_of_aprs_is_is_left_out(tmp_path: pathlib.Path) -> None:
    own = tmp_path / "own.log"
    lines, said = imported(APRX, "aprx", "--sent", own)
    assert (heads(lines), said) == ([f"2024-06-21T18:00:{it}Z Q0GATE-1"
                                     for it in ("00.123", "03.000", "03.500")], "")
    assert frame(lines[2]).endswith(b"heard: \xe4\x07")
    assert heads(own.read_bytes().splitlines()) == ["2024-06-21T18:00:01.000Z Q0GATE-1"]
    [first, *_] = imported(APRX, "aprx", "--zone", "+02:00")[0]
    assert first.startswith(b"2024-06-21T16:00:00.123Z")


# ---- what the programs themselves wrote of these frames ----

HALF = "!5432.58N/00327.36W"
FRAMES = [ax25.frame(source, path, text.encode()) for source, path, text in (
    ("Q1RUN-7", "APDW17,Q1DIG*,WIDE2-1", HALF + ">088/036/A=001234Käppeli <b> ☂"),
    ("Q1NET", "APRS,WIDE1-1", '>Net control, "Base"'),
    ("Q1NET", "APRS,Q1DIG*,WIDE1*", '>Net control, "Base"'),
    ("Q1DIG", "APRS,WIDE1*,WIDE2*", ";START    *211800z5432.58N/00327.36WEStart"),
    ("Q1A-9", "543PPP,WIDE1-1", "`y:\x1cl \x1c>/"),
    ("Q1NET", "APRS", "):AID!5432.58N/00327.36W+"),
    ("Q1NET", "APRS", ":Q1RUN-7  :Water is low{01"),
    ("Q1RUN-7", "APRS,TCPIP*", ">third party not"),
    ("Q1NET", "APRS,NOGATE", ">not for the Internet"))]


@pytest.mark.parametrize("name, words, first, last, end", [
    ("aprx-2.9.1.rf", ["aprx"], "2026-11-28T13:03:44.822Z Q0GATE-1",
     "2026-11-28T13:03:47.932Z Q0GATE-1", b""),
    # the line feeds were sent
    ("direwolf-1.6.txt", ["direwolf", "--zone", "Europe/Berlin"], "2026-11-28T13:04:10.000Z TEXT",
     "2026-11-28T13:04:10.000Z TEXT", b"\n"),
    ("xastir-2.1.8.tnc", ["xastir"], "2026-11-28T13:08:21.000Z TEXT",
     "2026-11-28T13:08:23.000Z TEXT", b"")])
def test_all_frames_of_a_programs_own_text(
        name: str, words: List[str], first: str, last: str, end: bytes) -> None:
    lines, _ = imported((SAMPLES / name).read_bytes(), *words)
    assert [frame(it) for it in lines] == [it + end for it in FRAMES]
    assert [heads(lines)[0], heads(lines)[-1]] == [first, last]


def test_dire_wolfs_own_csv() -> None:
    """`Q1DIG?` stands there for a digipeater that is known by WIDE1* alone."""
    lines, said = imported((SAMPLES / "direwolf-1.6.csv").read_bytes(), "direwolf-csv")
    status = '>Net control, "Base"'.encode()
    made = [("Q1RUN-7", ",Q1DIG*", (HALF + ">088/036/A=001234Käppeli <b> ☂").encode()),
            ("Q1NET", "", status), ("Q1NET", ",Q1DIG*", status),
            ("Q1A-9", "", b"!5430.00N/00330.00W>"), ("Q1RUN-7", ",TCPIP*", b">third party not"),
            ("Q1NET", "", b">not for the Internet")]
    assert [frame(it) for it in lines] == [
        ax25.frame(source, "APZCSV" + path, text) for source, path, text in made]
    assert said.count("isn't made anew") == said.count("\n") == 3


def test_xastirs_own_log_of_the_internet_has_nothing_that_was_heard() -> None:
    lines, said = imported((SAMPLES / "xastir-2.1.8.net").read_bytes(), "xastir")
    assert lines == [] and "nothing was found" in said


# ---- feeds, and other programs ----

FEED = b"""# aprsc 2.1.19 01 Jan 2024 00:00:00 GMT T2TEST 127.0.0.1:14580
Q1RUN-7>APDW17,Q1DIG,WIDE1*,WIDE2-1,qAR,Q0GATE-1:!5432.58N/00327.36W>caf\xc3\xa9 <0x41> \\x41
Q1RUN-7>APDW17,qAO,Q0OTHER:!5432.58N/00327.36W>caf\xc3\xa9 <0x41> \\x41
Q1NET>APDW17,TCPIP*,qAC,T2TEST:>sent over the net alone
Q1lower>APDW17,qAR,Q0GATE-1:>no call
Q1NET>APDW17,Q1NETTOOLONG,qAR,Q0GATE-1:>no call either
Q1ABC-A>APDW17,qAR,Q0GATE-1:>a call of D-STAR
Q1NET>APDW17,qAR,ABCDEFGHIJKLMNOPQ:>a gate of 17 letters
"""


def test_a_feed_has_the_gates_as_receivers() -> None:
    lines, said = imported(FEED, "monitor", "--igate", "--stamp", "--bytes", "raw")
    assert [read(it).receiver for it in lines] == ["Q0GATE-1", "Q0OTHER"]
    text = "!5432.58N/00327.36W>café <0x41> \\x41".encode()
    assert frame(lines[0]) == ax25.frame("Q1RUN-7", "APDW17,Q1DIG*,WIDE1*,WIDE2-1", text)
    for name in "Q1lower is no", "Q1NETTOOLONG is no", "Q1ABC-A is no", "ABCDEFGHIJKLMNOPQ can't":
        assert name in said
    assert said.count("\n") == 4


def test_raw_packets_of_aprs_fi() -> None:
    text = b"""2024-06-21 20:00:00 CEST: Q1NET>APRS,WIDE1*,qAR,Q0GATE-1:>Hi <0x1c> there
2024-06-21 20:00:09 CEST: Q1NET>APRS,TCPIP*,qAC,T2TEST:>over the net
2024-06-21 20:00:10 CEST: Q1NET>APRS,qAR,Q0GATE-1:>again [Duplicate position packet]
"""
    lines, said = imported(text, "aprs-fi", "--zone", "CEST=+02:00")
    assert (heads(lines), said) == (
        ["2024-06-21T18:00:00.000Z Q0GATE-1", "2024-06-21T18:00:10.000Z Q0GATE-1"], "")
    assert frame(lines[0]).endswith(b">Hi \x1c there") and frame(lines[1]).endswith(b">again")
    assert imported(text, "aprs-fi", status=1)[0] == []


def test_packets_of_aprs_fi_that_dire_wolf_quotes() -> None:
    """Dire Wolf 1.6 has two in src/decode_aprs.c, where it says that 25 characters of a time stand
    before each."""
    time = b"2012-02-27 21:19:13 EST: "
    text = b"".join(time + it + b"\n" for it in (
        b"WB2OSZ-1>APN383,qAR,N1EDU-2:!4237.14NS07120.83W#PHG7130Chelmsford, MA",
        b"KB1KTR-8>TR3U6T,KB1KTR-9*,WB2OSZ-1*,WIDE2*,qAR,W1XM:`c1<0x1f>l!t>/>\"4^}"))
    lines, said = imported(text, "aprs-fi", "--zone", "America/New_York")
    assert (heads(lines), said) == (
        [f"2012-02-28T02:19:13.000Z {it}" for it in ("N1EDU-2", "W1XM")], "")
    assert [frame(it) for it in lines] == [
        ax25.frame("WB2OSZ-1", "APN383", b"!4237.14NS07120.83W#PHG7130Chelmsford, MA"),
        ax25.frame("KB1KTR-8", "TR3U6T,KB1KTR-9*,WB2OSZ-1*,WIDE2*", b"`c1\x1fl!t>/>\"4^}")]
    assert len(time) == 25


def test_xastir_has_its_moments_in_lines_of_their_own() -> None:
    text = b"""# 1718992800  Fri Jun 21 20:00:00 CEST 2024
Q1NET>APRS,Q1DIG*:>Hi
# 1718992805  Fri Jun 21 20:00:05 CEST 2024
Q1NET>APRS:>Ho 12:00:00
"""
    assert heads(imported(text, "xastir", "--name", "HILL")[0]) == [
        "2024-06-21T18:00:00.000Z HILL", "2024-06-21T18:00:05.000Z HILL"]


def test_yaac_has_milliseconds_or_times() -> None:
    text = b"1718992800123,TNC1,Q1NET>APRS:>Hi\n2024-06-21T18:00:01.5Z\tTNC1\tQ1NET>APRS:>Ho\n"
    assert heads(imported(text, "yaac")[0]) == [
        "2024-06-21T18:00:00.123Z TEXT", "2024-06-21T18:00:01.500Z TEXT"]


CSV = b"""chan,utime,isotime,source,heard,level,error,dti,name,symbol,latitude,longitude,\
speed,course,altitude,frequency,offset,tone,system,status,telemetry,comment
0,1718992800,2024-06-21T18:00:00Z,Q1RUN-7,Q1DIG,50(12/12),0,!,Q1RUN-7,/>,49.058333,-72.029167,\
36.0,88,376.1,,,,,,,"Hi, all"
0,1718992801,2024-06-21T18:00:01Z,Q1NET,Q1NET,50(12/12),0,>,Q1NET,,,,,,,,,,,,,net control
0,1718992802,2024-06-21T18:00:02Z,Q1NET,Q1NET,50(12/12),0,;,START,/E,49.058333,-72.029167,,,,,,,,,,
"""


def test_dire_wolfs_csv_becomes_frames_that_say_so() -> None:
    lines, said = imported(CSV, "direwolf-csv", "--name", "HILL")
    assert [frame(it) for it in lines] == [
        ax25.frame("Q1RUN-7", "APZCSV,Q1DIG*", b"!4903.50N/07201.75W>088/036/A=001234Hi, all"),
        ax25.frame("Q1NET", "APZCSV", b">net control")]
    assert "line 4: a report that begins with ';'" in said and said.count("\n") == 1
    assert b"has no column" in tried("import", "direwolf-csv", given=b"a,b\n", status=1).stderr


@pytest.mark.parametrize("torn", [
    b'0,1718992800,2024-06-21T18:00:00Z,Q1A,Q1A,,0,>,Q1A,,,,,,,,,,,,,"cut sh',
    b"0,1718992800,2024-06-21T18:00:00Z,Q1A", b"\0" * 200,
    b"0,1718992800,2024-06-21T18:00:00Z,Q1A,Q1A,,0,>,Q1A,,,,,,,,,,,,,cut\0\0",
    b'0,1718992800,2024-06-21T18:00:00Z,Q1A,Q1A,,0,>,Q1A,,,,,,,,,,,,,"' + b"x" * 200_000],
    ids=["quote", "fields", "nul", "end", "long"])
def test_a_line_of_a_csv_that_was_cut_short_takes_no_other_in(torn: bytes) -> None:
    """What a power cut left; and files of days, one after another, have a head each."""
    lines, said = imported(CSV + torn + b"\n" + CSV, "direwolf-csv", "--name", "HILL")
    assert len(lines) == 4 and "line 5: no whole line of 22 fields" in said
    assert said.count("\n") == 3


@pytest.mark.parametrize("utime", [b"", b"x", b"-1", b"4102444800", b"9" * 5000],
                         ids=["none", "x", "-1", "2100", "long"])
def test_a_moment_of_a_csv_that_cannot_be_told(utime: bytes) -> None:
    text = CSV.replace(b"1718992800", utime)
    assert text != CSV and "line 2" in imported(text, "direwolf-csv", status=1)[1]


ATEST = b"""DECODED[1] 1:02.345 N0CALL audio level = 50(21/22)     |||||||||
  000:  82 a0 a4 a6 40 40 e0 9c 60 86 82 98 98 6f 03 f0  ....@@..`....o..
  010:  3e 48 69                                         >Hi
------
"""


def test_a_recording() -> None:
    lines, _ = imported(ATEST, "atest", "--start", "2024-05-01T12:00:00Z")
    assert lines == [b"2024-05-01T12:01:02.345Z TAPE "
                     b"c00082a0a4a64040e09c60868298986f03f03e4869c0"]
    assert b"--start" in tried("import", "atest", given=ATEST, status=2).stderr


HI = bytes.fromhex("82a0a4a64040e09c60868298986f03f03e4869")


@pytest.mark.parametrize("order, magic, fine", [
    ("<", 0xA1B2C3D4, 1000), (">", 0xA1B2C3D4, 1000), ("<", 0xA1B23C4D, 1_000_000)])
@pytest.mark.parametrize("link, first", [(202, b"\x10"), (3, b"")])
def test_a_capture_of_packets(order: str, magic: int, fine: int, link: int, first: bytes) -> None:
    octets = first + HI
    text = struct.pack(order + "IHHIIII", magic, 2, 4, 0, 0, 65535, link)
    text += struct.pack(order + "IIII", 1718992800, 345 * fine, len(octets), len(octets)) + octets
    lines, _ = imported(text, "pcap", "--name", "HILL")
    assert heads(lines) == ["2024-06-21T18:00:00.345Z HILL"] and frame(lines[0]) == HI
    assert b"cut short in packet 1" in tried("import", "pcap", given=text[:-1], status=1).stderr


def test_a_book_back_to_a_log() -> None:
    row = f"T 2024-05-01T12:00:00.000Z 2024-05-01T12:00:05.000Z RX1,RX2 RX2 {HI.hex()}\n"
    text = b"APRSBOOK 3 30\n" + row.encode() + b"END 1\n"
    lines, _ = imported(text, "book")
    assert heads(lines) == ["2024-05-01T12:00:05.000Z RX2"] and frame(lines[0]) == HI
    old = text.replace(b"APRSBOOK 3 30", b"APRSBOOK 1").replace(b".000Z", b"Z")
    assert imported(old, "book") == (lines, "")
    for wrong in text[:-3], text[:-6], text[:-2] + b"2\n", text + b"x", b"", \
            text.replace(b"3 30", b"4 30"), text.replace(b"-05-01T", b"-05-32T"):
        tried("import", "book", given=wrong, status=1)


# ---- what can't be taken, and outputs ----

def test_frames_that_cannot_be_are_said() -> None:
    text = b"""2024-06-21T12:00:00Z Q1NET>APRS:
2024-06-21T12:00:00Z Q1NET>APRS,A,B,C,D,E,F,G,H,I:>too many
2024-06-21T12:00:00Z Q1NET>APRS:%s
2024-06-21 12:00:00.25 Q1NET>APRS:>kept\r
""" % (b"x" * 257)
    lines, said = imported(text, "monitor")
    assert heads(lines) == ["2024-06-21T12:00:00.250Z TEXT"] and said.count("\n") == 2


@pytest.mark.parametrize("name", ["aprx", "yaac", "aprs-fi", "xastir"])
def test_a_text_of_another_program_is_not_passed_over_in_silence(name: str) -> None:
    lines, said = imported((SAMPLES / "direwolf-1.6.csv").read_bytes(), name)
    assert lines == [] and said == \
        f"aprs-net: nothing was found that {name} has of what was heard\n"


def test_an_output_is_whole_and_no_input(tmp_path: pathlib.Path) -> None:
    text, log = tmp_path / "wolf.txt", tmp_path / "new.log"
    text.write_bytes(WOLF)
    tried("import", "direwolf", text, "-o", text, status=2)
    assert text.read_bytes() == WOLF
    tried("import", "direwolf", text, "-o", log)
    before = log.read_bytes()
    assert len(before.splitlines()) == 2
    tried("import", "direwolf", text, "-o", log, status=2)
    assert log.read_bytes() == before
    for wrong in ["--name", "a b.c"], ["--name", ""], ["--bytes", "hex"]:
        tried("import", *wrong, "direwolf", text, status=2)


def test_what_was_sent_has_a_file_of_its_own(tmp_path: pathlib.Path) -> None:
    words = "-o", tmp_path / "new.log", "--sent", tmp_path / "." / "new.log"
    assert b"--sent" in tried("import", "direwolf", *words, given=WOLF, status=2).stderr
    assert [*tmp_path.iterdir()] == []


TIMED = {"monitor": b"1718992800 Q1NET>APRS:>Hi\r\n", "yaac": b"1718992800000 Q1NET>APRS:>Hi\r\n",
         "xastir": b"# 1718992800 x\r\nQ1NET>APRS:>Hi\r\n",
         "aprs-fi": b"2024-06-21 18:00:00: Q1NET>APRS,qAR,TEXT:>Hi\r\n",
         "aprx": b"2024-06-21 18:00:00.000 TEXT R Q1NET>APRS:>Hi\r\n"}


@pytest.mark.parametrize("name", [*TIMED])
def test_a_text_that_another_system_saved(name: str) -> None:
    """A byte order mark is no part of a line, and UTF-16 isn't passed over."""
    marked = codecs.BOM_UTF8 + TIMED[name]
    assert heads(imported(marked, name)[0]) == ["2024-06-21T18:00:00.000Z TEXT"]
    done = tried("import", name, given=TIMED[name].decode().encode("utf-16"), status=1)
    assert b"standard input: in UTF-16" in done.stderr and done.stdout == b""


@pytest.mark.parametrize("size, kept", [(1024, True), (2047, True), (2048, False), (60_000, False)])
def test_a_frame_that_no_log_has_is_refused(size: int, kept: bool) -> None:
    """Or the log would have a line that is too long, at which aprsbook ends."""
    octets = HI.ljust(size, b"x")
    text = struct.pack("<IHHIIII", 0xA1B2C3D4, 2, 4, 0, 0, 65535, 3)
    text += struct.pack("<IIII", 1718992800, 0, size, size) + octets
    lines, said = imported(text, "pcap")
    assert len(lines) == kept and said.count("none of the air") == (not kept)
    rows = [b"  000:  %s \n" % octets[at:at + 16].hex(" ").encode() for at in range(0, size, 16)]
    told = b"DECODED[1] 1:02.345 x\n" + b"".join(rows) + b"------\n"
    assert len(imported(told, "atest", "--start", "2024-05-01T12:00:00Z")[0]) == kept


@pytest.mark.parametrize("name, begin, often, end", [
    ("direwolf", b"2024-06-21 18:00:00", b" [0L", b" Q1NET>APRS:>Hi"),
    ("direwolf", b"2024-06-21 18:00:00", b" [ig", b" Q1NET>APRS:>Hi"),
    ("aprx", b"2024-06-21 18:00:00 ", b"xxxx", b" Q1NET>APRS:>Hi"),
    ("aprs-fi", b"2024-06-21 18:00:00 Q1NET>APRS,qAR,Q0GATE:>Hi", b" [Too old", b""),
    ("atest", b"DECODED[1]  ", b"9999", b":00.000 x")])
def test_a_line_of_any_length_takes_no_time(
        name: str, begin: bytes, often: bytes, end: bytes) -> None:
    text = begin + often * 100_000 + end
    tried("import", "--start", "2024-05-01T12:00:00Z", name, given=text, timeout=20)


def test_standard_output_that_takes_nothing() -> None:
    with open("/dev/full", "wb") as full:
        done = subprocess.run(command("import", "direwolf"), input=WOLF, stdout=full,
                              stderr=subprocess.PIPE, env=environment())
    assert done.returncode == 3 and done.stderr.count(b"\n") == 1, done.stderr


def test_a_moment_that_no_log_has_is_refused() -> None:
    text = b"9999999999 Q1A>APRS:>x\n1718992800 Q1A>APRS:>y\n"
    lines, said = imported(text, "monitor", status=1)
    assert heads(lines) == ["2024-06-21T18:00:00.000Z TEXT"] and "1970 to 2099" in said


def found_of(text: bytes, options: Options) -> List[object]:
    return [*line_formats.monitor(io.BytesIO(text), options)]


PACKET = b"Q1RUN-7>APDW17:>Hi"


def test_times_without_a_day_have_the_one_that_is_said() -> None:
    """Also over midnight."""
    clocks = b"23:59:58", b"23:59:59.5", b"00:00:01"
    text = b"".join(b"[0.3 %s] %s\n" % (it, PACKET) for it in clocks)
    found = found_of(text, Options(zones=zones.Zones((), "2024-06-21")))
    assert [moments.text_of(it.moment) for it in found if isinstance(it, Heard)] == [
        "2024-06-21T23:59:58.000Z", "2024-06-21T23:59:59.500Z", "2024-06-22T00:00:01.000Z"]
    refused = found_of(text, Options())
    assert [getattr(it, "words") for it in refused] == [
        "its time has no day, which --date DAY says"] * 3


@pytest.mark.parametrize("time, told", [
    (b"21.06.2024 18:00:00", "2024-06-21T18:00:00.000Z"),
    (b"1.6.2024, 18:00:00.25", "2024-06-01T18:00:00.250Z"),
    (b"21.06.2024 18:00:00 +02:00", "2024-06-21T16:00:00.000Z")])
def test_days_with_points(time: bytes, told: str) -> None:
    [found] = found_of(b"%s %s\n" % (time, PACKET), Options())
    assert isinstance(found, Heard) and moments.text_of(found.moment) == told


@pytest.mark.parametrize("fraction, milliseconds", [
    ("5", 500), ("05", 50), ("005", 5), ("0005", 0), ("", 0)])
def test_a_fraction_of_a_second(fraction: str, milliseconds: int) -> None:
    zero = moments.milliseconds("2024-06-21T18:00:00Z")
    assert zones.Zones().read("2024-06-21", "18:00:00", fraction) == zero + milliseconds


def test_times_of_an_hour_that_comes_twice_are_noted() -> None:
    it = zones.Zones(["Europe/Berlin"])
    for clock in "01:10:00", "02:30:00", "03:10:00":
        it.read("2024-10-27", clock)
    assert it.doubtful == ["2024-10-27 02:30:00"]


@pytest.mark.parametrize("north, east", [
    ("99", "3"), ("-90.1", "3"), ("54", "300"), ("1e300", "3"), ("nan", "3"), ("54", "inf")])
def test_a_position_off_the_earth_is_refused(north: str, east: str) -> None:
    text = (f"{','.join(direwolf_csv.NEEDED)}\n"
            f"1718992800,Q1A,Q1A,!,/>,{north},{east},here\n").encode()
    [found] = direwolf_csv.read(io.BytesIO(text), Options())
    assert isinstance(found, Refused) and "is no place on the earth" in found.words


class Endless(io.RawIOBase):
    """A file of NUL bytes, of which nobody may take all at once."""

    def __init__(self, size: int) -> None:
        self.left = size

    def readable(self) -> bool:
        return True

    def readinto(self, buffer: Any) -> int:
        size = min(len(buffer), self.left)
        assert size <= 1 << 20
        buffer[:size] = bytes(size)  # it may have what another reader left
        self.left -= size
        return size


@pytest.mark.parametrize("name", ["monitor", "aprx", "yaac", "xastir", "direwolf-csv", "atest"])
def test_no_line_is_held_without_a_bound(name: str) -> None:
    file = io.BufferedReader(Endless(16 << 20))
    options = Options(start=0)
    tracemalloc.start()
    try:
        found = [*import_command.READERS[name][0](cast(IO[bytes], file), options)]
    except Fault:
        found = []
    _, most = tracemalloc.get_traced_memory()
    tracemalloc.stop()
    assert len(found) <= 1 and most < 8 << 20
