"""Files as they are looked at ahead of a recording: neither pipes nor devices are opened."""

from __future__ import annotations

import fcntl
import os
import stat
from functools import cache
from typing import Optional

from bpfrec.formats.limits import MAX_LISTING_LEN

KINDS = {stat.S_IFREG: "file", stat.S_IFDIR: "directory", stat.S_IFIFO: "pipe"}


class Unread(Exception):
    """A file can't be read: why."""


STREAM = "-"


@cache
def typed() -> bytes:
    """What standard input has, which is read once; a byte more than a text may have shows that it is longer."""
    with open(0, "rb", closefd=False) as stream:
        return stream.read(MAX_LISTING_LEN + 1)


def kind_of(path: str) -> str:
    """What may be opened for reading there: `file`, which standard input is too, `directory`, `pipe` or `device`."""
    if path == STREAM:
        return "file"
    try:
        mode = os.stat(path).st_mode
    except (FileNotFoundError, NotADirectoryError):
        raise Unread("missing") from None
    except PermissionError:
        raise Unread("forbidden") from None
    except (OSError, ValueError) as fault:
        raise Unread(getattr(fault, "strerror", None) or str(fault)) from None
    if not os.access(path, os.R_OK):
        raise Unread("forbidden")
    if stat.S_ISSOCK(mode):
        raise Unread("a socket")
    return KINDS.get(stat.S_IFMT(mode), "device")


def read_text(path: str) -> str:
    """The text of a file, which is bounded as that of settings and listings is."""
    try:
        if path == STREAM:
            data = typed()
        else:
            with open(path, "rb") as file:
                data = file.read(MAX_LISTING_LEN + 1)
    except IsADirectoryError:
        raise Unread("a directory") from None
    except OSError as fault:
        raise Unread(fault.strerror) from None
    if len(data) > MAX_LISTING_LEN:
        raise Unread(f"longer than {MAX_LISTING_LEN} bytes")
    try:
        return data.decode()
    except UnicodeDecodeError as fault:
        line = data.count(b"\n", 0, fault.start) + 1
        raise Unread(f"no UTF-8 in line {line}") from None


def lock(descriptor: int) -> bool:
    """Locks a file as long as it is open, as a recorder does while it writes: whether no other program had."""
    try:
        fcntl.flock(descriptor, fcntl.LOCK_EX | fcntl.LOCK_NB)
    except BlockingIOError:
        return False
    except OSError:
        pass  # a file system without locks
    return True


def file_id(path: str) -> Optional[tuple[int, int]]:
    """The device and the inode of a file, which are the same under each of its names."""
    try:
        status = os.stat(path)
    except (OSError, ValueError):
        return None
    return status.st_dev, status.st_ino


def is_locked(path: str) -> bool:
    """Whether another program has locked a file, as a recorder does while it writes."""
    try:
        with open(path, "rb+") as file:
            return not lock(file.fileno())
    except OSError:
        return False  # a file that may not be written
