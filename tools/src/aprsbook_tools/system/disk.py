"""What waits until it is on the disk, and files that aren't reached through links."""
from __future__ import annotations

import contextlib
import errno
import os
import stat

NO_LINK = getattr(os, "O_NOFOLLOW", 0)
WORK = ".aprs-net-work"  # with which the name of a folder ends that goes away
AT_ONCE = getattr(os, "O_NONBLOCK", 0)  # a pipe is opened without a wait, and refused then


def open_own(path: str, flags: int, mode: int = 0o666) -> int:
    """Opens a file that nobody named, but a command made: no link is followed, and it has to be a
    file. OSError of others."""
    try:
        file = os.open(path, flags | NO_LINK | AT_ONCE, mode)
    except OSError as fault:
        if fault.errno in (errno.ELOOP, errno.EMLINK) and os.path.islink(path):
            words = "it is a link, and is neither read nor written: take it away"
            raise OSError(errno.ELOOP, words, path) from fault
        raise
    if not stat.S_ISREG(os.fstat(file).st_mode):
        os.close(file)
        raise OSError(errno.EINVAL, "it is no file: take it away", path)
    return file


def sync(file: int) -> None:
    """Waits until what was written into a file is on the disk."""
    getattr(os, "fdatasync", os.fsync)(file)


def sync_folder(folder: str) -> None:
    """Waits until a new name is on the disk, on systems where a folder can be opened."""
    with contextlib.suppress(OSError):
        file = os.open(folder, os.O_RDONLY)
        try:
            os.fsync(file)
        finally:
            os.close(file)


def mount_of(path: str) -> str:
    """The folder at which the disk is mounted that has a path, which needn't be there yet."""
    at = os.path.realpath(path)
    while not os.path.ismount(at) and os.path.dirname(at) != at:
        at = os.path.dirname(at)
    return at


FEW = 1 << 16  # bytes: a disk with less room is full


def room_words(folder: str) -> str:
    """What is said of a folder where nothing more can be written, if its disk is full."""
    with contextlib.suppress(OSError, AttributeError):
        status = os.statvfs(folder)
        if status.f_bavail * status.f_frsize < FEW:
            return ": no room is left there"
    return ""
