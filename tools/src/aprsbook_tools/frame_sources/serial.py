"""A serial port with a TNC in KISS mode."""
import os
import re
from typing import Any, List

from aprsbook_tools.errors import ExitStatus, Fault
from aprsbook_tools.frame_sources.source import Input, Source, Waiting


class Serial(Source):
    """A serial port, which may be unplugged and come back."""
    open_words, end_words = "the serial port is open", "the serial port is gone"

    def __init__(self, path: str, baud: int) -> None:
        self.path, self.baud = path, baud

    def open(self, waiting: Waiting) -> Input:
        try:
            import fcntl
            import termios
        except ImportError:
            return self.open_elsewhere()
        flags = os.O_RDONLY | os.O_NOCTTY | os.O_NONBLOCK
        file = os.open(self.path, flags)
        try:
            make_raw(file, self.baud)
            # of two that read, each would get some of the bytes
            fcntl.flock(file, fcntl.LOCK_EX | fcntl.LOCK_NB)
        except BlockingIOError:
            os.close(file)
            raise OSError(f"{self.path}: another logger reads it")
        except (OSError, termios.error) as fault:
            os.close(file)
            raise OSError(f"{self.path}: {fault.args[-1]}")
        return Input(file, lambda size: os.read(file, size), lambda: os.close(file))

    def open_elsewhere(self) -> Input:
        try:
            import serial  # type: ignore[import] # not needed on Linux, and without types
        except ImportError:
            raise Fault("a serial port needs pyserial here: python3 -m pip install pyserial",
                        ExitStatus.MISSING)
        port = serial.Serial(self.path, self.baud, timeout=None)
        return Input(0, lambda size: bytes(port.read(1) + port.read(port.in_waiting)), port.close)


def make_raw(file: int, baud: int) -> None:
    """Sets a terminal to bytes of eight bits as they come, at a speed."""
    import termios
    import tty
    speed = getattr(termios, f"B{baud}")
    tty.setraw(file)
    mode: List[Any] = termios.tcgetattr(file)
    mode[2] &= ~(termios.CSTOPB | getattr(termios, "CRTSCTS", 0))
    mode[2] |= termios.CLOCAL | termios.CREAD
    mode[4] = mode[5] = speed
    termios.tcsetattr(file, termios.TCSANOW, mode)


def speeds() -> List[int]:
    """The speeds of serial ports in bauds that this system knows."""
    try:
        import termios
    except ImportError:
        return [1200, 2400, 4800, 9600, 19200, 38400, 57600, 115200]
    return sorted(int(it[1:]) for it in dir(termios) if re.fullmatch(r"B[1-9][0-9]+", it))
