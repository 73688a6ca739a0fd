"""Chromium that counts which parts of the page's script each test runs."""
import json
import pathlib
import re
from typing import Dict

from browser import Chromium


class Counting(Chromium):
    """What workers run isn't counted: each has an engine of its own."""
    def begin(self) -> None:
        super().begin()
        self.call("Profiler.enable")
        self.call("Profiler.startPreciseCoverage", callCount=True, detailed=True)
        # of each script, by its length, a byte for each letter: 1 where it ran
        self.ran: Dict[int, bytes] = {}

    def open(self, url: str, width: int = 1280, height: int = 860, scheme: str = "light") -> None:
        self.count()
        super().open(url, width, height, scheme)

    def reload(self) -> None:
        self.count()
        super().reload()

    def count(self) -> None:
        """Takes what ran since it was asked last."""
        try:
            scripts = self.call("Profiler.takePreciseCoverage")["result"]
        except RuntimeError:
            return  # of another window
        for it in scripts:
            parts = [(part["startOffset"], -part["endOffset"], part["count"])
                     for function in it["functions"] for part in function["ranges"]]
            fresh = bytearray(max(-end for _, end, _ in parts))
            # a part within another stands after it
            for begin, end, count in sorted(parts):
                fresh[begin:-end] = bytes([count > 0]) * (-end - begin)
            if it["url"]:
                self.add(bytes(fresh))

    def add(self, fresh: bytes) -> None:
        size, before = len(fresh), self.ran.get(len(fresh), b"")
        both = int.from_bytes(before, "big") | int.from_bytes(fresh, "big")
        self.ran[size] = both.to_bytes(size, "big")

    def write(self, folder: pathlib.Path, file: str, test: str, seconds: float) -> None:
        """Writes what a test ran: of each script its length, and where what ran begins and ends."""
        self.count()
        ran = {size: [it.span() for it in re.finditer(b"\1+", some)]
               for size, some in self.ran.items()}
        self.ran.clear()
        (folder / f"{file}-{test}.json").write_text(json.dumps(
            {"file": file, "test": test, "seconds": seconds, "ran": ran}))
