"""Pages of an event of tables by hand, without a program."""
import functools
import pathlib
import sys
from typing import Dict, List, Mapping, Optional

from given import REPOSITORY

sys.path += [str(REPOSITORY / "build"), str(REPOSITORY / "tools/src")]
import page as build  # noqa: E402 (it lies there)
from aprsbook_tools.page import event_page  # noqa: E402

COLUMNS = (
    "kind first last receivers receiver source destination via gate name state id latitude "
    "longitude ambiguity compressed symbol stamp course speed_knots altitude_m wind_from wind_mph "
    "gust_mph temperature_f rain_hour rain_day rain_midnight humidity pressure_tenths luminosity "
    "telemetry_sequence a1 a2 a3 a4 a5 bits says text").split()
MESSAGE_COLUMNS = (
    "source addressee id text state first last answer answer_source reply_ack reply_answer gate "
    "class number outcome outcome_moment").split()


def moment(minute: float) -> str:
    seconds = round(60 * minute)
    return (f"2024-06-{21 + seconds // 86400:02}T{seconds // 3600 % 24:02}:{seconds // 60 % 60:02}:"
            f"{seconds % 60:02}.000Z")


def line(columns: List[str], fields: Mapping[str, object]) -> str:
    unknown = set(fields) - set(columns)
    assert not unknown, unknown
    return "\t".join(str(fields.get(name, "")) for name in columns) + "\n"


def row(kind: str, minute: float, source: str, receivers: str = "RX1", **fields: object) -> str:
    """A row of a table, heard at a minute of that day by these."""
    at = {"first": moment(minute), "last": moment(minute)}
    return line(COLUMNS, {"kind": kind, "source": source, "destination": "APRS",
                          "receivers": receivers, "receiver": receivers.split(",")[-1], **at,
                          **fields})


def place(minute: float, source: str, north: float, east: float, text: str = "",
          receivers: str = "RX1", **fields: object) -> str:
    """A position."""
    where: Dict[str, object] = {
        "latitude": f"{north:.7f}", "longitude": f"{east:.7f}", "ambiguity": 0,
        "compressed": "no", "symbol": "/>", "text": text, **fields}
    return row("position", minute, source, receivers, **where)


def message(source: str, addressee: str, text: str, state: str, first: float,
            last: Optional[float] = None, **fields: object) -> str:
    """A row of the table of messages."""
    last = first if last is None else last
    kind = "bulletin" if addressee.startswith("BLN") else "message"
    came = {"class": kind, "number": fields.get("id", ""), "outcome": state,
            "outcome_moment": fields.get("answer", "")}
    return line(MESSAGE_COLUMNS, {"source": source, "addressee": addressee, "text": text,
                                  "state": state, "first": moment(first), "last": moment(last),
                                  **came, **fields})


def tables(rows: str, messages: str = "") -> Dict[str, str]:
    """Both tables, each with its head."""
    return {"rows": line(COLUMNS, {it: it for it in COLUMNS}) + rows,
            "messages": line(MESSAGE_COLUMNS, {it: it for it in MESSAGE_COLUMNS}) + messages}


def reader(module: bytes, source: pathlib.Path) -> str:
    """The page that reads logs with a module, of these sources."""
    return build.reader(module, source=source)


@functools.lru_cache(maxsize=None)
def template() -> str:
    """The page of an event, as it is built of the sources that stand here."""
    return build.event()


def page_of(path: pathlib.Path, rows: str, messages: str = "", **options: object) -> str:
    """The page of these rows and messages."""
    data: Dict[str, object] = {
        "title": "APRS net", "gap": 30, "live": 0, "silent": 30, "maps": [], "roster": "",
        "notes": [], **tables(rows, messages), **options}
    path.write_text(event_page.filled(template(), data), encoding="utf-8")
    return "file://" + str(path)
