#!/usr/bin/env python3
"""A link between two devices of a network namespace that is slow, and loses, repeats and reorders
packets, as `tc netem` does where the kernel has it.

usage: bench/slow_link.py plain DEVICE..
       bench/slow_link.py link DEVICE DEVICE

plain: a device gives packets their sums itself, and cuts them, since a link carries them as they
are. link: carries packets. A line of standard input says how, from then on: by how many
milliseconds they are late, by how many more at most, what part of them is lost, and what part comes
twice. `0 0 1 0` cuts the link. Needs root and Linux.
"""
import array
import fcntl
import heapq
import os
import random
import selectors
import socket
import struct
import sys
import time
from typing import Dict, List, NamedTuple, Tuple

ETHERTOOL, SUMS = 0x8946, 0x17  # ioctl of ethtool, and its word for sums of packets that are sent
ANY = 3  # each protocol, as a packet socket names them
SENT = 4  # a packet that this machine has sent itself
LARGEST = 1 << 16


class Way(NamedTuple):
    """How packets are carried."""
    late: float = 0  # seconds
    spread: float = 0
    lost: float = 0
    twice: float = 0


def way_in(text: str) -> Way:
    late, spread, lost, twice = map(float, text.split())
    return Way(late / 1000, spread / 1000, lost, twice)


def plain(device: str) -> None:
    value = array.array("I", [SUMS, 0])
    with socket.socket(socket.AF_INET, socket.SOCK_DGRAM) as it:
        fcntl.ioctl(it, ETHERTOOL, struct.pack("16sP", device.encode(), value.buffer_info()[0]))


def opened(device: str) -> socket.socket:
    it = socket.socket(socket.AF_PACKET, socket.SOCK_RAW, socket.htons(ANY))
    it.bind((device, ANY))
    it.setblocking(False)
    return it


class Link:
    """Carries packets between two devices."""

    def __init__(self, one: str, other: str) -> None:
        ends = opened(one), opened(other)
        self.to: Dict[socket.socket, socket.socket] = {ends[0]: ends[1], ends[1]: ends[0]}
        self.way = Way()
        self.waiting: List[Tuple[float, int, socket.socket, bytes]] = []
        self.count = 0

    def take(self, end: socket.socket) -> None:
        octets, (_, _, kind, *_) = end.recvfrom(LARGEST)
        if kind == SENT:
            return
        for _ in range(2 if random.random() < self.way.twice else 1):
            if random.random() >= self.way.lost:
                due = time.monotonic() + self.way.late + random.random() * self.way.spread
                self.count += 1
                heapq.heappush(self.waiting, (due, self.count, self.to[end], octets))

    def send(self) -> None:
        while self.waiting and self.waiting[0][0] <= time.monotonic():
            _, _, end, octets = heapq.heappop(self.waiting)
            try:
                end.send(octets)
            except OSError:
                pass  # the device is down, or has no room: the packet is lost

    def run(self) -> None:
        with selectors.DefaultSelector() as waits:
            for it in self.to:
                waits.register(it, selectors.EVENT_READ)
            waits.register(sys.stdin, selectors.EVENT_READ)
            while True:
                rest = self.waiting[0][0] - time.monotonic() if self.waiting else None
                for key, _ in waits.select(rest if rest is None else max(0, rest)):
                    if isinstance(key.fileobj, socket.socket):
                        self.take(key.fileobj)
                        continue
                    line = os.read(0, 1000).decode()
                    if not line:
                        return
                    self.way = way_in(line.splitlines()[-1])
                self.send()


def main(words: List[str]) -> None:
    if words[:1] == ["plain"] and len(words) > 1:
        for it in words[1:]:
            plain(it)
    elif words[:1] == ["link"] and len(words) == 3:
        Link(words[1], words[2]).run()
    else:
        raise SystemExit((__doc__ or "").split("\n\n")[1])


if __name__ == "__main__":
    main(sys.argv[1:])
