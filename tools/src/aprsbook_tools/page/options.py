"""What a page is told beside its inputs, and the page of it."""
import argparse
import contextlib
import io
import itertools
import os
from typing import Any, Callable, Dict, Iterable, Iterator, List, Optional, Sequence

from aprsbook_tools import arguments, stderr
from aprsbook_tools.formats import book_file
from aprsbook_tools.page import basemap, event_page
from aprsbook_tools.reports.roster import read_roster
from aprsbook_tools.system import atomic, programs, user_text


def add_options(parser: argparse.ArgumentParser) -> None:
    """What a page is told, beside its inputs."""
    count = arguments.whole_number(0, 1_000_000)
    arguments.add_title(parser, "the page's title")
    parser.add_argument(
        "--live",
        type=count,
        default=0,
        metavar="SECONDS",
        help="the page asks for itself again after so many seconds, and ages count to "
        "now; without it they count to the last moment of the inputs",
    )
    parser.add_argument(
        "--silent",
        type=count,
        default=30,
        metavar="MINUTES",
        help="a station that wasn't heard for so long is marked (30)",
    )
    parser.add_argument(
        "--course",
        action="append",
        default=[],
        metavar="FILE",
        help="GPX, KML or GeoJSON, drawn below all else, such as the course of a race",
    )
    parser.add_argument(
        "--roster",
        metavar="FILE",
        help="who is expected: a call or a call with -* and a name in each line",
    )
    parser.add_argument(
        "--note",
        action="append",
        default=[],
        metavar="TEXT",
        help="stands above all else, such as what was left out",
    )
    basemap.add_options(parser)


def brought(args: argparse.Namespace) -> Dict[str, Any]:
    """The files and options of a page. What isn't understood of a roster is said here, and by the
    page itself."""
    roster = user_text.read(args.roster) if args.roster else ""
    for it in read_roster(roster).words_of_faults():
        stderr.warn(f"{args.roster}: {it}")
    return {
        "title": args.title,
        "live": args.live,
        "silent": args.silent,
        "maps": [event_page.read_map(it) for it in args.course],
        "roster": roster,
        "notes": args.note,
    }


@contextlib.contextmanager
def page_of(
    book: str,
    gap: Optional[int],
    said: Dict[str, Any],
    below: Callable[[Iterable[str]], Dict[str, Any]],
    notes: Sequence[str] = (),
    repeats: Optional[str] = None,
) -> Iterator[Iterator[bytes]]:
    """The page of a book in pieces, however large it is; what lies below its marks is made of the
    lines of the table of rows. It has who repeated whom by all receptions where that is known."""
    # in the order of a page that the page saves
    data: Dict[str, Any] = {"title": said["title"], "gap": gap or book_file.GAP, **said}
    data["notes"] = [*said["notes"], *notes]
    with event_page.tables_of(book, gap) as tables:
        tables["rows"].seek(0)
        data.update(below(itertools.chain.from_iterable(programs.lines_in(tables["rows"]))))
        if repeats is not None:
            tables["repeats"] = io.BytesIO(repeats.encode())
        pieces = event_page.pieces(event_page.template(), data, tables)
        yield (it.encode("utf-8", "surrogateescape") for it in pieces)


def files_of(args: argparse.Namespace) -> List[str]:
    """The files that a page is made of, beside its inputs."""
    tiles = [args.tiles] if args.tiles and os.path.isfile(args.tiles) else []
    return [*atomic.all_of(args.roster, args.course), *tiles]
