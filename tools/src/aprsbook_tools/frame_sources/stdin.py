"""Standard input as a source of frames."""
import os
import sys

from aprsbook_tools import stderr
from aprsbook_tools.errors import Fault
from aprsbook_tools.frame_sources.source import Input, Source, Waiting


class StandardInput(Source):
    """Standard input, once."""
    again = False

    def open(self, waiting: Waiting) -> Input:
        if sys.stdin is None:
            raise Fault("standard input is closed")
        if sys.stdin.isatty():
            stderr.note("reads frames from the terminal: --connect or --serial names a TNC")
        return Input(0, lambda size: os.read(0, size), lambda: None)
