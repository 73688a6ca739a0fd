"""The commands. Each is a module of this package with a DESCRIPTION, EXAMPLES (in words, and as
typed), `add_arguments(parser)` and `run(args) -> int`, which is imported when it runs."""
from aprsbook_tools import TYPE_CHECKING

if TYPE_CHECKING:
    from typing import Dict

GROUPS: "Dict[str, Dict[str, str]]" = {
    "Logs": {
        "log": "write a log of a receiver, for days on end",
        "import": "write a log of what another program has written down",
        "mend": "write the lines of a log that are whole",
        "clocks": "tell how receivers' clocks differ",
        "shift": "move the moments of a log whose clock was wrong",
        "pcap": "write the frames of a log for Wireshark",
    },
    "Books": {
        "book": "make a book of logs and books, and keep it up to date",
        "mail": "write what is new to each neighbour of a club",
        "sqlite": "make a database of SQLite with the tables of a book",
        "csv": "write a table of a book, or fields of your own, as CSV",
    },
    "Reports": {
        "last-heard": "who was heard last, and when, the most silent first",
        "roster": "who of those expected wasn't heard, and since when",
        "passed": "who came by each checkpoint, and when",
        "messages": "each message, with its answer",
        "ics-309": "the communications log of a net",
        "stations": "each station, with its last position and status",
        "places": "every place, or the last one of each",
        "tracks": "places and tracks, also as GPX, GeoJSON or KML",
        "keeper": "who is heard direct, over how many hops, and who repeats whom",
    },
    "Pages and nets": {
        "page": "make a page of a net or an event",
        "follow": "keep the book and the page of a net that runs",
        "serve": "serve a net that runs, to sites and desks",
        "push": "bring a receiver's logs to a server",
        "token": "let sites, desks and readers take part in a net",
        "watch": "tell of silence, unanswered messages and emergencies",
    },
    "Many machines": {
        "cluster": "make a book by many machines",
    },
}
# what other commands run
HIDDEN = ["job"]
NAMES = [name for group in GROUPS.values() for name in group]
# what the words of other programs, and of aprsbook, are here
MEANT = {
    "check": "aprsbook check",
    "convert": "aprsbook convert",
    "export": "aprs-net csv",
    "geojson": "aprs-net tracks --format geojson",
    "gpx": "aprs-net tracks --format gpx",
    "ics309": "aprs-net ics-309",
    "kml": "aprs-net tracks --format kml",
    "listen": "aprs-net log",
    "map": "aprs-net page",
    "merge": "aprs-net book",
    "show": "aprsbook show",
    "version": "aprs-net --version",
}
