"""aprs-net pcap: the frames of a log as a capture that Wireshark reads."""
import argparse
import struct
from typing import IO, Iterator, Sequence

from aprsbook_tools import arguments
from aprsbook_tools.books import merged_inputs, receptions
from aprsbook_tools.formats import kiss, log_file
from aprsbook_tools.imports.files import AX25_KISS
from aprsbook_tools.system import atomic, streams

DESCRIPTION = """\
Writes the frames of logs, of those lines that hold one, as a capture of packets that Wireshark
reads. Logs are put one after another."""
EXAMPLES = [
    ("a log in Wireshark", "aprs-net pcap hill.log -o hill.pcap"),
    ("a book", "aprs-net import book net.book | aprs-net pcap -o net.pcap"),
]


def add_arguments(parser: argparse.ArgumentParser) -> None:
    arguments.add_output(parser)
    arguments.add_inputs(parser, "a log, or a folder of logs")


def packets(file: IO[bytes], name: str) -> Iterator[bytes]:
    """A record of each frame of a log."""
    for _, read in log_file.lines_in(file, name):
        *pieces, unended = bytes.fromhex(read.digits.decode()).split(kiss.FEND)
        frames = [it for it in pieces if it]
        if len(frames) == 1 and not unended:
            octets = frames[0][:1] + kiss.unwrap(frames[0])
            seconds, rest = divmod(read.moment, 1000)
            yield struct.pack("<IIII", seconds, rest * 1000, len(octets), len(octets)) + octets


def capture(paths: Sequence[str]) -> Iterator[bytes]:
    """The capture of logs: its head, and a record of each frame."""
    yield struct.pack("<IHHIIII", 0xA1B2C3D4, 2, 4, 0, 0, 65535, AX25_KISS)
    for path in paths:
        log = arguments.one_input(path)
        with streams.opened(log) as file:
            name = streams.name_of(log)
            yield from streams.read_of(packets(file, name), name)


def run(args: argparse.Namespace) -> int:
    named = [it for it in args.inputs if it != "-"]
    if not named:
        streams.put(args.output, capture(["-"]), atomic.all_of(args.inputs))
        return 0
    last = ["-"] if "-" in args.inputs else []
    with merged_inputs.spooled(named) as paths:
        logs = [*receptions.logs_of(paths), *last]
        streams.put(args.output, capture(logs), atomic.all_of(args.inputs))
    return 0
