#!/usr/bin/env python3
"""Stands for TNCs, to try a net at home: offers the frames of logs at TCP ports, as Dire Wolf does.

usage: tnc.py PORT LOG..    the first log at this port of this machine, the next at the one above

The logs are played together, a minute in a second, once somebody is connected to each port. It ends
where they end. Needs Python 3.9 and the modules of aprs-net beside this folder.
"""
import asyncio
import contextlib
import pathlib
import sys
from typing import List

sys.path.append(str(pathlib.Path(__file__).resolve().parent.parent / "tools/src"))
from aprsbook_tools.formats import log_file  # noqa: E402 (it lies there)

FASTER = 60  # a minute in a second


class Tnc:
    """A port, and who is connected to it."""

    def __init__(self, path: str) -> None:
        with open(path, "rb") as file:
            found = [log_file.read_whole(line) for line in file]
        self.lines: List[log_file.Line] = [it for it in found if it is not None]
        if not self.lines:
            raise ValueError(f"{path} has no line of a log")
        self.listeners: List[asyncio.StreamWriter] = []
        self.is_heard = asyncio.Event()

    async def connect(self, _: asyncio.StreamReader, listener: asyncio.StreamWriter) -> None:
        """Keeps who connects."""
        self.listeners.append(listener)
        self.is_heard.set()

    async def play(self, begin: int) -> None:
        """Sends each frame when it is due, to whoever is connected then."""
        done = begin
        for line in self.lines:
            await asyncio.sleep(max(0, line.moment - done) / 1000 / FASTER)
            done = max(done, line.moment)
            for listener in self.listeners:
                if not listener.is_closing():
                    listener.write(bytes.fromhex(line.digits.decode()))

    def end(self) -> None:
        for listener in self.listeners:
            listener.close()


async def play(port: int, paths: List[str]) -> None:
    tncs = [Tnc(path) for path in paths]
    for at, it in enumerate(tncs):
        await asyncio.start_server(it.connect, "127.0.0.1", port + at)
    for it in tncs:
        await it.is_heard.wait()
    begin = min(line.moment for it in tncs for line in it.lines)
    await asyncio.gather(*(it.play(begin) for it in tncs))
    await asyncio.sleep(1)  # for what was sent last
    for it in tncs:
        it.end()


def main() -> int:
    if len(sys.argv) < 3 or not sys.argv[1].isdecimal():
        print("usage: tnc.py PORT LOG..", file=sys.stderr)
        return 2
    try:
        with contextlib.suppress(KeyboardInterrupt):
            asyncio.run(play(int(sys.argv[1]), sys.argv[2:]))
    except (OSError, OverflowError, ValueError) as fault:
        print(f"tnc.py: {fault}", file=sys.stderr)
        return 1
    return 0


if __name__ == "__main__":
    sys.exit(main())
