"""Times of the page at scale, in ms until it is painted: of a net of 2,000 stations, and what is
wanted. They are judged where the machine has little else to do, and else are only counted."""
import pathlib
import time
from typing import Callable, Dict, List, Mapping

from browser import Browser
from by_hand import page_of, place

# of the page as it opens, and as it is shown again; of a letter in "find", the middle one of six
# and the slowest; and of a frame of a drag, the middle one of sixty and the longest; of 10,000
# stations a frame of a drag alone
MANY = {"step": 60}
WANTED = {"first": 1000, "shown": 1000, "letter": 50, "slowest": 250, "step": 20, "longest": 100}
TIMES = """(async () => {
    const frame = () => new Promise(requestAnimationFrame);
    const painted = async () => { await frame(); await new Promise(done => setTimeout(done)) };
    const spent = async run => { const from = performance.now();
        await run(); await painted(); return performance.now() - from };
    const find = document.getElementById("find"), letters = [], steps = [];
    const shown = await spent(() => aprsbook.show(aprsbook.data));
    await new Promise(done => setTimeout(done, 1000)); // until all tables are there again
    for (const word of ["q", "q1", "q10", "q1", "q", ""]) letters.push(await spent(() => {
        find.value = word; find.dispatchEvent(new Event("input")) }));
    const box = map.getBoundingClientRect(), x = box.x + 200, y = box.y + 200;
    const point = (kind, k) => map.dispatchEvent(new PointerEvent(kind, { bubbles: true,
        pointerId: 1, clientX: x + 4 * k, clientY: y - 2 * k }));
    point("pointerdown", 0);
    await frame();
    for (let k = 0, last = await frame(); k < 60; k++) {
        point("pointermove", k);
        const now = await frame(); steps.push(now - last); last = now }
    point("pointerup", 60);
    for (const list of [letters, steps]) list.sort((a, b) => a - b);
    return { first: performance.getEntriesByName("first-contentful-paint")[0]?.startTime ?? 0,
        shown, letter: letters[3], slowest: letters.at(-1), step: steps[30],
        longest: steps.at(-1) }
})()"""


def is_quiet() -> bool:
    """Whether the processors had nothing to do for most of a second."""
    def spent() -> List[int]:
        with open("/proc/stat") as stat:
            return list(map(int, stat.readline().split()[1:9]))

    try:
        before = spent()
        time.sleep(1)
        after = spent()
    except OSError:
        return False  # who knows
    ticks = [b - a for a, b in zip(before, after)]
    return ticks[3] + ticks[4] > 0.8 * sum(ticks)


def judged(measure: Callable[[], Dict[str, float]], wanted: Mapping[str, float], what: str) -> None:
    """Prints times, and is sure of those wanted, by the third time at the latest, where it is quiet
    before and after."""
    for turn in range(3):
        quiet = is_quiet()
        times = measure()
        quiet = is_quiet() and quiet
        slow = [name for name, most in wanted.items() if times[name] > most]
        words = "" if quiet else " (not judged: the machine does other work)"
        print(f"{what}, in ms:", {name: round(it) for name, it in times.items()}, words, flush=True)
        if not quiet or not slow:
            return
    raise AssertionError(f"{what}: too slow: {slow}")


def judged_stations(page: Browser, folder: pathlib.Path, count: int = 2000,
                    wanted: Mapping[str, float] = WANTED) -> None:
    """So many stations with three places each."""
    lines = [place(3 * n % 1400, f"Q{n:04}-{n % 15 + 1}", 54 + n % 50 / 25,
                   -4 + n % 61 / 20 + k / 100, f"mobile {n}")
             for n in range(count) for k in range(3)]
    url = page_of(folder / "many.html", "".join(lines))

    def measure() -> Dict[str, float]:
        page.open(url)
        page.wait("document.querySelectorAll('#timeline tbody tr').length > 10")
        times: Dict[str, float] = page.js(TIMES)
        return times

    judged(measure, wanted, f"{count:,} stations in {page.name}")
