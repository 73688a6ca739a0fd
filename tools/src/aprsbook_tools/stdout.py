"""Bytes on standard output, for whoever or whatever reads them."""
import errno
import os
import select
import sys

from aprsbook_tools.errors import ExitStatus, Fault, said


def write(octets: bytes) -> None:
    """Writes bytes, all of them; a Fault where they are refused."""
    try:
        if sys.stdout is None:
            raise OSError(errno.EBADF, "it is closed")
        sys.stdout.flush()
        left = memoryview(octets)
        while left:
            try:
                left = left[os.write(1, left):]
            except BlockingIOError:  # another program set it so
                select.select([], [1], [])
    except BrokenPipeError:
        raise  # nobody reads it any more: the command ends as by SIGPIPE
    except OSError as fault:
        raise Fault(f"standard output: {said(fault)}", ExitStatus.OUTPUT) from fault
