#!/usr/bin/python3
"""Measures how large logs are shown by the page that reads logs, in Chromium: the seconds until
they are shown, the processor seconds of all of Chromium's processes, and the most memory that these
have at once, with what they share counted once (PSS).

usage: page.py PAGE.html [LINES]    in three logs of bench/make_log.py (5000000), or in those of the
                                    folder LOGS of the environment; needs Debian's python3-selenium
                                    and chromium-driver, and Linux
"""
import os
import pathlib
import subprocess
import sys
import tempfile
import threading
import time
from typing import Dict, List, Tuple

HERE = pathlib.Path(__file__).resolve().parent
sys.dont_write_bytecode = True
sys.path.append(str(HERE.parent / "tests/browser"))
from browser import Chromium  # noqa: E402 (it lies there)

SHOWN = r"/ in [0-9.]+ s$/.test(document.getElementById('status').textContent)"
TICK = os.sysconf("SC_CLK_TCK")


class Watch(threading.Thread):
    """Watches the processes that one has begun, those that they began too, five times a second."""

    def __init__(self, root: int) -> None:
        super().__init__(daemon=True)
        self.root = root
        # by process, what it is and its processor seconds; memory by kinds, when it was the most
        self.spent: Dict[int, Tuple[str, float]] = {}
        self.most: Dict[str, int] = {}
        self.goes_on = True

    def run(self) -> None:
        while self.goes_on:
            self.look()
            time.sleep(0.2)

    def look(self) -> None:
        memory: Dict[str, int] = {}
        for process, kind, seconds in processes(self.root):
            self.spent[process] = kind, seconds
            memory[kind] = memory.get(kind, 0) + memory_of(process)
        if sum(memory.values()) > sum(self.most.values()):
            self.most = memory

    def seconds(self) -> Dict[str, float]:
        """Processor seconds by kinds of processes."""
        sums: Dict[str, float] = {}
        for kind, seconds in list(self.spent.values()):
            sums[kind] = sums.get(kind, 0) + seconds
        return sums


def processes(root: int) -> List[Tuple[int, str, float]]:
    """A process and those below it: number, kind, processor seconds."""
    parents: Dict[int, int] = {}
    spent: Dict[int, float] = {}
    for it in pathlib.Path("/proc").glob("[0-9]*/stat"):
        try:
            fields = it.read_text().rpartition(") ")[2].split()
        except OSError:
            continue  # it ended
        parents[int(it.parent.name)] = int(fields[1])
        spent[int(it.parent.name)] = (int(fields[11]) + int(fields[12])) / TICK
    below, found = {root}, {root}
    while found:
        found = {it for it, parent in parents.items() if parent in found and it not in below}
        below |= found
    return [(it, kind_of(it), spent[it]) for it in below if it in spent]


def kind_of(process: int) -> str:
    try:
        text = pathlib.Path(f"/proc/{process}/cmdline").read_bytes().decode()
    except OSError:
        return "ended"
    words = text.replace("\0", " ").split()
    kinds = [it.partition("=")[2] for it in words if it.startswith("--type=")]
    return (kinds or [pathlib.Path(it).name for it in words] or ["ended"])[0]


def memory_of(process: int) -> int:
    try:
        text = pathlib.Path(f"/proc/{process}/smaps_rollup").read_text()
    except OSError:
        return 0
    return sum(int(it.split()[1]) << 10 for it in text.splitlines() if it.startswith("Pss:"))


def measured(page: str, logs: List[pathlib.Path]) -> None:
    """Prints what these logs take."""
    browser = Chromium()
    try:
        browser.open(pathlib.Path(page).resolve().as_uri())
        browser.wait("!document.getElementById('choose').disabled")
        watch = Watch(browser.driver.service.process.pid)
        watch.look()
        before = sum(watch.seconds().values())
        watch.start()
        begun = time.monotonic()
        browser.give("#choose", *logs)
        while not browser.js(SHOWN):
            time.sleep(0.2)
        seconds, shown = time.monotonic() - begun, watch.seconds()
        print(browser.js("document.getElementById('status').textContent"))
        time.sleep(5)  # lists that wait their turn
        watch.goes_on = False
        watch.join()
        watch.look()
        told(watch, seconds, sum(shown.values()) - before)
    finally:
        browser.close()


def told(watch: Watch, seconds: float, shown: float) -> None:
    after = watch.seconds()
    print(f"shown after {seconds:.1f} s, with {shown:.1f} s of processor time; "
          f"of all until 5 s later: " + words({k: round(v, 1) for k, v in after.items()}, "s"))
    print(f"at most {sum(watch.most.values()) / 1e9:.2f} GB at once: "
          + words({k: round(v / 1e6) for k, v in watch.most.items()}, "MB"))
    print("load:", os.getloadavg()[0])


def words(of: Dict[str, float], unit: str) -> str:
    return ", ".join(f"{name} {value} {unit}" for name, value in of.items() if value)


def main() -> None:
    if len(sys.argv) not in (2, 3):
        sys.exit(__doc__)
    with tempfile.TemporaryDirectory() as folder:
        lines = sys.argv[2] if len(sys.argv) > 2 else "5000000"
        given = os.environ.get("LOGS", folder)
        if given == folder:
            subprocess.run([sys.executable, HERE / "make_log.py", lines, folder], check=True)
        measured(sys.argv[1], sorted(pathlib.Path(given).glob("*.log")))


if __name__ == "__main__":
    main()
