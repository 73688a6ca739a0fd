"""Signals that ask for the end."""
import signal
import subprocess
import sys

import pytest
from conftest import environment

# what an object does as it goes, in which Python takes no exception
LOST = """
import os, sys, time
from aprsbook_tools import cli

class Last:
    def __del__(self):
        os.kill(os.getpid(), {number})
        time.sleep(0.1)

def dispatch(words):
    Last()
    time.sleep(20)
    return 0

cli.dispatch = dispatch
sys.exit(cli.main())
"""


@pytest.mark.skipif(not hasattr(signal, "setitimer"), reason="needs timers")
@pytest.mark.parametrize("name", ["SIGTERM", "SIGHUP", "SIGINT"])
def test_a_signal_is_not_lost_where_nothing_can_be_ended(name: str) -> None:
    """As in the midst of an import: the command went on, with lines of Python's on the terminal."""
    number = getattr(signal, name)
    done = subprocess.run([sys.executable, "-c", LOST.format(number=int(number))], timeout=60,
                          env=environment(), capture_output=True)
    assert (done.returncode, done.stderr) == (-number, b"")
