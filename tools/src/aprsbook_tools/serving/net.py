"""What all answers have: the net that is served, and what is known of its sites."""
import time
from typing import Any, Callable, Dict, List, NamedTuple, Optional, Set

from aprsbook_tools.formats import log_file, moments
from aprsbook_tools.serving.hub import Hub
from aprsbook_tools.serving.store import Store
from aprsbook_tools.serving.tokens import Grant, Tokens

CLOCK = 5.0  # seconds: a clock that is off by more is told; a slow link makes some of it
MOVED = 1.0  # seconds: it is told again where it has moved by more
TRIES = 10  # wrong tokens of an address in a minute
HOUR = 3600  # seconds: who comes again after as many is said again


class Settings(NamedTuple):
    """What the page is told of the net, where no desk has said it otherwise."""
    title: str = "APRS net"
    silent: int = 30
    roster: str = ""
    courses: List[str] = []
    tiles: Dict[str, str] = {}  # paths of archives by their names; the first is shown


class Site:
    """A receiver's site: when it pushed last, and by how many seconds its clock is ahead."""

    def __init__(self) -> None:
        self.pushed = 0.0
        self.clock = 0.0
        self.seemed = 0.0  # what the clock seemed to be in the push before
        self.refused = 0
        self.strange_day = ""  # the last day of which it has lines that no page shows
        self.strange_days: Set[str] = set()


class Wrong:
    """Addresses that came with wrong tokens, for a minute."""

    def __init__(self) -> None:
        self.counts: Dict[str, int] = {}
        self.minute = 0

    def count(self, address: str) -> int:
        minute = int(time.monotonic() // 60)
        if minute != self.minute or len(self.counts) > 10_000:
            self.counts, self.minute = {}, minute
        self.counts[address] = self.counts.get(address, 0) + 1
        return self.counts[address]

    def is_often(self, address: str) -> bool:
        return self.count(address) > TRIES


class Net:
    """What is served, to whom, and what is said of it."""

    def __init__(self, store: Store, hub: Hub, tokens: Tokens, page: bytes, settings: Settings,
                 listeners: int, say: log_file.Say) -> None:
        self.store, self.hub, self.tokens, self.say = store, hub, tokens, say
        self.page, self.settings, self.most = page, settings, listeners
        self.hosts: List[str] = []  # by which names it is asked
        self.is_secure = False  # whether browsers reach it by TLS alone
        # takes a connection as one of who has shown this; whether there is room for it
        self.know: Callable[[Any, Grant], bool] = lambda connection, grant: True
        self.listening = 0
        self.wrong = Wrong()
        self.sites: Dict[str, Site] = {}
        self.changed: "set[Callable[[], None]]" = set()  # who wants to know of changes in `told`
        self._seen: Dict[str, float] = {}
        tokens.on_change = self.tell

    def told(self) -> Dict[str, Any]:
        """What each page is told beside the lines."""
        it = self.settings
        return {"title": it.title, "silent": it.silent, "roster": it.roster,
                "courses": it.courses, "tiles": [*it.tiles], "days": self.hub.days,
                "sites": {name: {"clock": round(site.clock, 1), "refused": site.refused,
                                 "day": site.strange_day}
                          for name, site in sorted(self.sites.items())}}

    def tell(self) -> None:
        for it in [*self.changed]:
            it()

    def meet(self, grant: Grant, address: str) -> None:
        """Says who connects."""
        self.say_hourly(f"{grant if grant.token else 'somebody'} is there, from {address}")

    def say_hourly(self, words: str) -> None:
        """Says something of who comes again and again, and again where an hour went by without."""
        now = time.monotonic()
        if now - self._seen.get(words, -HOUR) >= HOUR:
            self.say(words)
        if len(self._seen) > 10_000:
            self._seen.clear()
        self._seen[words] = now

    def hear_of(self, name: str, day: str, clock: Optional[float], refused: int) -> None:
        """What a push says of a site: its clock, and a day that no page shows."""
        site = self.sites.setdefault(name, Site())
        before = (site.clock, site.strange_day, site.refused)
        site.pushed = time.time()
        site.refused += refused
        if clock is not None:
            self.hear_of_clock(name, site, clock)
        if day > max(self.hub.days) or clock is not None and self.is_by_clock(day, clock):
            self.hear_of_day(name, day)
        if before != (site.clock, site.strange_day, site.refused):
            self.tell()

    def is_by_clock(self, day: str, clock: float) -> bool:
        """Whether a day that no page shows is today by a clock that is ahead by so many seconds."""
        return day not in self.hub.days and day == day_at(time.time() + clock)

    def hear_of_day(self, name: str, day: str) -> None:
        """Of lines that no page shows, since a clock is wrong."""
        site = self.sites.setdefault(name, Site())
        if day in site.strange_days:
            return
        site.strange_days.add(day)
        site.strange_day = max(site.strange_days)
        why = "which is to come" if day > max(self.hub.days) else "which is today by its clock"
        self.say(f"{name} has lines of {day}, {why}: no page shows them; set its clock, and move "
                 "them by `aprs-net shift`")
        self.tell()

    def hear_of_clock(self, name: str, site: Site, clock: float) -> None:
        """Of a clock that is off. What was long on its way seems to be of one that is behind, so
        that has to be said twice."""
        is_sure = clock > -CLOCK or abs(clock - site.seemed) <= CLOCK
        site.seemed = clock
        if not is_sure or abs(clock - site.clock) <= MOVED:
            return
        before, site.clock = site.clock, clock if abs(clock) > CLOCK else 0.0
        if before or site.clock:
            self.say(f"{name}: {clock_words(site.clock)}")


def day_at(moment: float) -> str:
    """The day of a moment, in seconds since 1970, or nothing where no log has it."""
    milliseconds = round(1000 * moment)
    return moments.text_of(milliseconds)[:10] if 0 <= milliseconds < moments.END else ""


def clock_words(clock: float) -> str:
    """What is said of a clock that is ahead by so many seconds, or behind."""
    if not clock:
        return "its clock is right again"
    return f"its clock is {abs(clock):.0f} s {'ahead' if clock > 0 else 'behind'}: set it"
