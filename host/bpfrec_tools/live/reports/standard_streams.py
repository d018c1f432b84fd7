"""What live writes on its standard streams, so that nobody who doesn't read them holds up a recording."""

from __future__ import annotations

import fcntl
import os
import select
import stat
from typing import Optional

from bpfrec_tools.live.reports import journal
from bpfrec_tools.live.said import said

# How long a line waits for room, in seconds; after one that had none, the next ones don't wait.
LINE_PAUSE = 0.2
# A pipe that can be written has room for so much.
PART_LEN = 4_096


def has_room(descriptor: int, seconds: float) -> bool:
    """Whether a stream takes bytes without waiting, now or within some seconds."""
    look = select.poll()
    look.register(descriptor, select.POLLOUT)
    told = look.poll(seconds * 1_000)
    return bool(told) and bool(told[0][1] & select.POLLOUT)


class Lines:
    """Lines on standard error. One that it has no room for is left out and counted in the next one that it takes."""

    def __init__(self, descriptor: int = 2) -> None:
        self.descriptor, self.left_out = descriptor, 0
        self.is_journal = journal.is_read_from(descriptor)

    def put(self, *lines: str) -> None:
        """Writes lines, or counts them as left out."""
        for line in lines:
            if self.left_out and self.write(said(f"{self.left_out} lines were left out: standard error had no room")):
                self.left_out = 0
            if self.left_out or not self.write(line):
                self.left_out += 1

    def write(self, line: str) -> bool:
        """Writes a line: whether there was room, or there never is any."""
        data = os.fsencode(f"{journal.with_priority(line) if self.is_journal else line}\n")
        try:
            while data:
                if not has_room(self.descriptor, 0 if self.left_out else LINE_PAUSE):
                    return False
                data = data[os.write(self.descriptor, data[:PART_LEN]) :]
        except OSError:
            # Nobody can be told.
            pass
        return True


class Printed:
    """What goes to standard output, as much at a time as it has room for."""

    def __init__(self, descriptor: int = 1) -> None:
        self.descriptor = reopened(descriptor)
        self.waiting = bytearray()
        self.has_failed = False

    def put(self, text: str) -> None:
        """Takes a text; what there is room for is written at once."""
        if not self.has_failed:
            self.waiting += os.fsencode(text)
            self.write()

    def write(self) -> None:
        """Writes what there is room for. A stream that can't be written has failed, and takes no more."""
        try:
            while self.waiting and has_room(self.descriptor, 0):
                del self.waiting[: os.write(self.descriptor, bytes(self.waiting[:PART_LEN]))]
        except BlockingIOError:
            pass
        except OSError:
            self.fail()
        if self.waiting and is_broken(self.descriptor):
            self.fail()

    def fail(self) -> None:
        """Gives up what waits."""
        self.has_failed = True
        self.waiting.clear()


def is_broken(descriptor: int) -> bool:
    """Whether nobody will read a stream any more, or it can't be looked at."""
    look = select.poll()
    look.register(descriptor, select.POLLOUT)
    return any(event & (select.POLLERR | select.POLLNVAL) for _, event in look.poll(0))


def reopened(descriptor: int, flags: int = os.O_WRONLY) -> int:
    """A pipe or a terminal as a descriptor of our own that never waits; all else as it is."""
    found = another(descriptor, flags)
    return descriptor if found is None else found


def another(descriptor: int, flags: int) -> Optional[int]:
    """A descriptor of its own of a pipe or a terminal; None of all else."""
    try:
        mode, given = os.fstat(descriptor).st_mode, fcntl.fcntl(descriptor, fcntl.F_GETFL) & os.O_ACCMODE
        if (stat.S_ISFIFO(mode) or stat.S_ISCHR(mode)) and given in (flags, os.O_RDWR):
            return os.open(f"/proc/self/fd/{descriptor}", flags | os.O_NONBLOCK | os.O_NOCTTY | os.O_CLOEXEC)
    except OSError:
        pass
    return None
