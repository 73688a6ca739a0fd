"""The page of an event: a template that is filled, and maps that are drawn below all else."""
import contextlib
import functools
import html
import json
import pathlib
import pkgutil
import re
import xml.etree.ElementTree
import zipfile
from typing import IO, Any, Dict, Iterator, List, Mapping, Optional

import aprsbook_tools
from aprsbook_tools.books import inputs
from aprsbook_tools.errors import Fault
from aprsbook_tools.system import programs, temporary, user_text

TEMPLATE = "data/event.html"  # within the package, as `make event-page` builds it
MISSING = (
    "the page of an event isn't built: make event-page, which needs esbuild (Debian: apt "
    "install esbuild)"
)
MARKS = re.compile("@(TITLE|CONNECT|DATA)@")
COAST = re.compile('<script type="text/plain" id="coast">(.*?)</script>', re.S)
GEOMETRIES = "Point MultiPoint LineString MultiLineString Polygon MultiPolygon".split()
TYPES = [*GEOMETRIES, "GeometryCollection", "Feature", "FeatureCollection"]


def tree() -> pathlib.Path:
    """The folder of the sources, or where they are installed as they stand there."""
    return pathlib.Path(aprsbook_tools.__file__).resolve().parent.parent.parent.parent


def newest(name: str) -> Optional[pathlib.Path]:
    """A file of the newest release that lies in a tree of the sources."""
    def number(it: pathlib.Path) -> List[int]:
        return [int(n) for n in re.findall(r"\d+", it.parent.name)]
    found = [*tree().glob(f"release/*/{name}")]
    return max(found, key=number) if found else None


def released() -> Optional[str]:
    """The page of an event of the newest release, within its archive of aprs-net."""
    it = newest("aprs-net.pyz")
    if it is None:
        return None
    with zipfile.ZipFile(it) as archive:
        return archive.read(f"aprsbook_tools/{TEMPLATE}").decode()


@functools.lru_cache(maxsize=None)
def template() -> str:
    """The page of an event, with marks for what is filled; within aprs-net.pyz too."""
    try:
        made = pkgutil.get_data("aprsbook_tools", TEMPLATE)
    except OSError:
        made = None
    text = made.decode() if made else released()
    if text is None:
        raise Fault(MISSING)
    return text


def world_coast() -> str:
    """The coasts of the world, packed, which each page has."""
    found = COAST.search(template())
    if not found:
        raise Fault("the page of an event has no coast")
    return found[1].strip()


def in_html(json_text: str) -> str:
    """JSON that can stand in HTML."""
    return json_text.replace("&", "\\u0026").replace("<", "\\u003c").replace(">", "\\u003e")


def as_data(value: Any) -> str:
    """A value as JSON that can stand in HTML."""
    return in_html(json.dumps(value, ensure_ascii=False, separators=(",", ":")))


def data_pieces(data: Dict[str, Any], tables: Mapping[str, IO[bytes]]) -> Iterator[str]:
    """Data as JSON that can stand in HTML, and behind them tables, however long these are."""
    text = as_data(data)
    if not tables:
        yield text
        return
    before = text[:-1]
    for name, file in tables.items():
        yield f'{before},"{name}":"'
        file.seek(0)
        for block in programs.blocks_in(file):
            yield in_html(json.dumps(block.decode("ascii"), ensure_ascii=False)[1:-1])
        before = '"'
    yield '"}'


def pieces(page: str, data: Dict[str, Any], tables: Mapping[str, IO[bytes]]) -> Iterator[str]:
    """A page with these data: title, live, silent, gap, maps, roster, notes; of a book the tables
    rows and messages, and of logs repeats. One that is live may ask its server for more."""
    values = {
        "TITLE": html.escape(data["title"]),
        "CONNECT": "; connect-src 'self'" if data["live"] else "",
    }
    texts = iter(MARKS.split(page))
    yield next(texts)
    for mark in texts:
        if mark == "DATA":
            yield from data_pieces(data, tables)
        else:
            yield values[mark]
        yield next(texts)


def filled(page: str, data: Dict[str, Any]) -> str:
    """The same as a text, of data that have the tables too."""
    return "".join(pieces(page, data, {}))


def check_spot(north: Any, east: Any) -> None:
    """Refuses a place off the earth."""
    if not (abs(float(north)) <= 90 and abs(float(east)) <= 540):
        raise ValueError(f"a place off the earth: {north}, {east}")


def check_xml(text: str) -> None:
    root = xml.etree.ElementTree.fromstring(text.encode())
    name = root.tag.rpartition("}")[2]
    if name not in ("gpx", "kml"):
        raise ValueError("no GPX and no KML")
    (check_gpx if name == "gpx" else check_kml)(root)


def check_gpx(root: xml.etree.ElementTree.Element) -> None:
    for node in root.iter():
        if node.tag.rpartition("}")[2] in ("trkpt", "rtept", "wpt"):
            check_spot(node.get("lat", "nan"), node.get("lon", "nan"))


def check_kml(root: xml.etree.ElementTree.Element) -> None:
    for node in root.iter():
        name, text = node.tag.rpartition("}")[2], node.text or ""
        if name == "coordinates":
            for spot in text.split():
                east, north = spot.split(",")[:2]
                check_spot(north, east)
        elif name == "coord":
            east, north = text.split()[:2]
            check_spot(north, east)


def check_coordinates(value: List[Any]) -> None:
    if isinstance(value[0], list):
        for it in value:
            check_coordinates(it)
    else:
        check_spot(value[1], value[0])


def check_shape(it: Dict[str, Any]) -> None:
    if it["type"] not in TYPES:
        raise ValueError("no GeoJSON")
    if it["type"] in GEOMETRIES:
        check_coordinates(it["coordinates"])
    for part in it.get("features", []) + it.get("geometries", []):
        check_shape(part)
    if it.get("geometry"):
        check_shape(it["geometry"])


def read_map(path: str) -> str:
    """The text of a GPX, KML or GeoJSON file, in which each place has been looked at."""
    text = user_text.read(path)
    try:
        if text.lstrip().startswith("<"):
            check_xml(text)
        else:
            check_shape(json.loads(text))
    except (AttributeError, LookupError, TypeError, OverflowError, RecursionError,
            json.JSONDecodeError) as fault:
        raise Fault(f"{path}: no GPX, no KML and no GeoJSON") from fault
    except (xml.etree.ElementTree.ParseError, ValueError) as fault:
        raise Fault(f"{path}: {fault}") from fault
    return text


@contextlib.contextmanager
def tables_of(book: str, gap: Optional[int]) -> Iterator[Dict[str, IO[bytes]]]:
    """What the page has of a book: two of its tables, in files that go away."""
    with contextlib.ExitStack() as stack, inputs.named([book]) as names:
        files: Dict[str, IO[bytes]] = {}
        for name in "rows", "messages":
            files[name] = stack.enter_context(temporary.file())
            command = programs.with_gap(["aprsbook-table", name], gap, names)
            programs.run(*command, into=files[name])
        yield files
