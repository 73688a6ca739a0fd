"""What waits for input, for a time or for a signal."""
import os
import select
import signal

from aprsbook_tools.frame_sources import source

NUMBERS = signal.SIGINT, signal.SIGTERM, signal.SIGHUP


def test_a_signal_right_before_a_wait_ends_it() -> None:
    """Its handler runs after the system's wait, which has to end by something that is readable."""
    before = [signal.getsignal(it) for it in NUMBERS]
    waiting = source.Waiting()
    try:
        waiting.heed()
        os.kill(os.getpid(), signal.SIGTERM)
        assert select.select(waiting.wakes, [], [], 5)[0] == waiting.wakes
    finally:
        signal.set_wakeup_fd(-1)
        for number, handler in zip(NUMBERS, before):
            signal.signal(number, handler)
