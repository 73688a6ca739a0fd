"""Places and tracks for other programs: tables, GPX 1.1, GeoJSON (RFC 7946) and KML 2.2. Each is
written thing by thing; what follows all points waits in a file."""
from __future__ import annotations

import io
import re

from aprsbook_tools import TYPE_CHECKING
from aprsbook_tools.formats.forms import form
from aprsbook_tools.geo import Spot, cut_at_date_line
from aprsbook_tools.reports.roster import Roster
from aprsbook_tools.reports.table import Station
from aprsbook_tools.reports.tracks import Place, SortedRow, Thing, place_of
from aprsbook_tools.system import temporary

if TYPE_CHECKING:
    from typing import Any, Callable, Dict, Iterable, Iterator, List, Sequence

    from aprsbook_tools.formats.spreadsheet import Cell

    Places = Iterable[Sequence[Place]]  # those of each thing

HEAD = (
    "kind name state first last receivers source lat lon ambiguity symbol course speed_knots "
    "altitude_m comment tactical"
).split()
XML = '<?xml version="1.0" encoding="UTF-8"?>\n'


def degrees(value: float) -> str:
    """Degrees with seven decimals."""
    return f"{value:.7f}"


def line_of(place: Place, roster: Roster) -> List[Cell]:
    """A place as the fields of HEAD."""
    row = place.row
    return [
        place.kind,
        place.name,
        place.state,
        row.first,
        row.last,
        " ".join(row.receivers),
        row.source,
        *place.spot,
        place.ambiguity,
        row.symbol,
        row.course,
        row.speed_knots,
        row.altitude_m,
        row.text,
        tactical_of(place.kind, place.name, roster),
    ]


def lines_of(things: Iterable[Thing], roster: Roster) -> Iterator[List[Cell]]:
    """Each place of each thing."""
    return (line_of(place, roster) for it in things for place in it.places)


def head_of(roster: Roster) -> List[str]:
    """The columns: with that of tactical names where there are some."""
    return HEAD if roster.has_names else HEAD[:-1]


def places_of_stations(stations: Iterable[Station]) -> Iterator[List[Place]]:
    """The last position of each station that has one."""
    for it in stations:
        row = SortedRow("position", it.last, it.last, (it.receiver,), it.receiver, it.source, "",
                        "", it.latitude, it.longitude, it.ambiguity, it.compressed, it.symbol,
                        None, None, None, it.text)
        place = place_of(row)
        if place:
            yield [place]


def tactical_of(kind: str, name: str, roster: Roster) -> str:
    """The tactical name of a station."""
    return roster.name_of(name) if kind == "station" else ""


def label_of(place: Place, roster: Roster) -> str:
    """What a reader calls a thing."""
    return roster.said(place.name) if place.kind == "station" else place.name


def escape(text: str) -> str:
    """A text in which no markup stands."""
    return text.replace("&", "&amp;").replace("<", "&lt;").replace(">", "&gt;")


NO_XML = form("[^\t\n\r\u0020-\ud7ff\ue000-\ufffd\U00010000-\U0010ffff]")


def markup(text: str) -> str:
    """A text in XML; what no XML may have is shown as \\xNN."""

    def put(found: "re.Match[str]") -> str:
        octets = found[0].encode("utf-8", "surrogatepass")
        return "".join(f"\\x{it:02x}" for it in octets)

    return escape(text if text.isprintable() else NO_XML.sub(put, text)).replace('"', "&quot;")


def with_tracks(
    things: Iterable[Thing], points: Callable[[Thing], str], track: Callable[[Thing], str]
) -> Iterator[str]:
    """The points of all things, and behind them the tracks of those that moved."""
    with io.TextIOWrapper(temporary.file(), "utf-8", newline="") as waiting:
        for it in things:
            yield points(it)
            if it.has_moved:
                waiting.write(track(it))
        waiting.seek(0)
        yield from iter(lambda: waiting.read(1 << 16), "")


# ---- GPX ----


def description_of(place: Place) -> str:
    """By whom a place was heard, how much of it is left out, and its comment."""
    row = place.row
    words = f"heard by {', '.join(row.receivers)}"
    if row.ambiguity:
        words = f"digits left out: {row.ambiguity}; {words}"
    return f"{words}; {row.text}" if row.text else words


def point_of(tag: str, place: Place, name: str = "", more: str = "") -> str:
    """A point of GPX: a waypoint, or one of a track."""
    row, (north, east) = place.row, place.spot
    lat, lon = f"{north:.7f}", f"{east:.7f}"
    # its longitudes end below 180
    lon = lon.replace("180.", "-180.") if lon.startswith("180.") else lon
    height = f"<ele>{row.altitude_m:.1f}</ele>" if row.altitude_m is not None else ""
    return (
        f'<{tag} lat="{lat}" lon="{lon}">{height}<time>{row.first}</time>{name}'
        f"<desc>{markup(description_of(place))}</desc>{more}</{tag}>\n"
    )


def waypoint_of(place: Place, roster: Roster) -> str:
    killed = "<sym>killed</sym>" if place.is_killed else ""
    name = f"<name>{markup(label_of(place, roster))}</name>"
    return point_of("wpt", place, name, f"{killed}<type>{place.kind}</type>")


def track_of(thing: Thing, roster: Roster) -> str:
    """A track of GPX; a kill ends a segment."""
    label = label_of(thing.places[0], roster)  # the same of each place
    parts = [f"<trk><name>{markup(label)}</name><type>{thing.kind}</type>\n"]
    for run in thing.segments:
        points = "".join(point_of("trkpt", place) for place in run)
        parts.append(f"<trkseg>\n{points}</trkseg>\n")
    return "".join([*parts, "</trk>\n"])


def gpx(body: Iterable[str], title: str) -> Iterator[str]:
    yield (f'{XML}<gpx version="1.1" creator="aprsbook" xmlns="http://www.topografix.com/GPX/1/1">'
           f"\n<metadata><name>{markup(title)}</name></metadata>\n")
    yield from body
    yield "</gpx>\n"


def gpx_of(things: Iterable[Thing], roster: Roster, title: str = "APRS net") -> Iterator[str]:
    """The last place of each is a waypoint, and what moved has a track."""
    return gpx(with_tracks(things, lambda it: waypoint_of(it.now, roster),
                           lambda it: track_of(it, roster)), title)


def gpx_points(places: Places, roster: Roster, title: str = "APRS net") -> Iterator[str]:
    return gpx((waypoint_of(it, roster) for own in places for it in own), title)


# ---- GeoJSON ----


def position_of(spot: Spot) -> List[float]:
    return [spot.east, spot.north]


def properties_of(place: Place, roster: Roster) -> Dict[str, Any]:
    """What is said of a place, by the names of HEAD; what isn't known isn't there."""
    said = dict(zip(HEAD, line_of(place, roster)))
    said["receivers"] = ",".join(place.row.receivers)
    return {
        name: value
        for name, value in said.items()
        if name not in ("lat", "lon") and value not in (None, "")
    }


def feature(shape: str, coordinates: Any, properties: Dict[str, Any]) -> str:
    """A feature, on a line of its own, behind the comma of the one before."""
    import json  # for this format alone

    geometry = {"type": shape, "coordinates": coordinates}
    said = {"type": "Feature", "geometry": geometry, "properties": properties}
    return ",\n" + json.dumps(said, ensure_ascii=False, separators=(",", ":"))


def point_feature(place: Place, roster: Roster) -> str:
    return feature("Point", position_of(place.spot), properties_of(place, roster))


def lines_cut(thing: Thing) -> List[List[List[float]]]:
    """The segments of a track, cut where they cross the date line."""
    return [
        [position_of(spot) for spot in line]
        for run in thing.segments
        for line in cut_at_date_line([it.spot for it in run])
    ]


def lines_feature(thing: Thing, roster: Roster) -> str:
    """The lines of what moved, if there are any."""
    lines = lines_cut(thing)
    said = {"kind": thing.kind, "name": thing.name}
    if tactical_of(thing.kind, thing.name, roster):
        said["tactical"] = tactical_of(thing.kind, thing.name, roster)
    return feature("MultiLineString", lines, said) if lines else ""


def collection_of(features: Iterable[str]) -> Iterator[str]:
    """Features as a collection."""
    yield '{"type":"FeatureCollection","features":['
    before = ",\n"
    for it in features:
        yield it.replace(before, "\n", 1) if before and it else it
        before = before if not it else ""
    yield "\n\n]}\n" if before else "\n]}\n"


def geojson_of(things: Iterable[Thing], roster: Roster, title: str = "") -> Iterator[str]:
    """A point for each place, and lines for what moved."""
    def points(thing: Thing) -> str:
        return "".join(point_feature(it, roster) for it in thing.places)
    return collection_of(with_tracks(things, points, lambda it: lines_feature(it, roster)))


def geojson_points(places: Places, roster: Roster, title: str = "") -> Iterator[str]:
    return collection_of(point_feature(it, roster) for own in places for it in own)


# ---- KML ----


def coordinates_of(spot: Spot) -> str:
    return f"{degrees(spot.east)},{degrees(spot.north)}"


def placemark_of(place: Place, roster: Roster) -> str:
    """A description is read as HTML: what came off the air is its text."""
    return (
        f"<Placemark><name>{markup(label_of(place, roster))}</name>"
        f"<description>{markup(escape(description_of(place)))}</description>"
        f"<TimeStamp><when>{place.row.first}</when></TimeStamp>"
        f"<Point><coordinates>{coordinates_of(place.spot)}</coordinates></Point></Placemark>\n"
    )


def lines_placemark(thing: Thing, roster: Roster) -> str:
    lines = "".join(
        "<LineString><tessellate>1</tessellate><coordinates>"
        + " ".join(coordinates_of(place.spot) for place in run)
        + "</coordinates></LineString>"
        for run in thing.segments
    )
    return (
        f"<Placemark><name>{markup(label_of(thing.places[0], roster))} track</name>"
        f"<MultiGeometry>{lines}</MultiGeometry></Placemark>\n"
    )


def kml(body: Iterable[str], title: str) -> Iterator[str]:
    yield (f'{XML}<kml xmlns="http://www.opengis.net/kml/2.2"><Document>'
           f"<name>{markup(title)}</name>\n")
    yield from body
    yield "</Document></kml>\n"


def kml_of(things: Iterable[Thing], roster: Roster, title: str = "APRS net") -> Iterator[str]:
    """A placemark for the last place of each, and one with lines for what moved."""
    return kml(with_tracks(things, lambda it: placemark_of(it.now, roster),
                           lambda it: lines_placemark(it, roster)), title)


def kml_points(places: Places, roster: Roster, title: str = "APRS net") -> Iterator[str]:
    return kml((placemark_of(it, roster) for own in places for it in own), title)


# by format: what is written of things, with their tracks, and of places, each as a point
TRACKS: Dict[str, Callable[[Iterable[Thing], Roster, str], Iterator[str]]] = {
    "gpx": gpx_of, "geojson": geojson_of, "kml": kml_of}
POINTS: Dict[str, Callable[[Places, Roster, str], Iterator[str]]] = {
    "gpx": gpx_points, "geojson": geojson_points, "kml": kml_points}
