"""Calls of the kernel that Python has no functions for: what ends a program with its pipe, capabilities, and watches of
files. Where they can't be had, as under a Python without ctypes, live does without them."""

from __future__ import annotations

import contextlib
import fcntl
import os
import signal
import struct
from typing import Any, Iterator

try:
    import ctypes

    LIBC: Any = ctypes.CDLL(None, use_errno=True)
except (ImportError, MemoryError, OSError):
    LIBC = None

FALLOC_FL_KEEP_SIZE = 1
PR_CAP_AMBIENT, PR_CAP_AMBIENT_IS_SET, PR_CAP_AMBIENT_RAISE, PR_CAP_AMBIENT_CLEAR_ALL = 47, 1, 2, 4
# The bits of a set.
MOST_CAPABILITIES = 64
# The version of capset(2) that has two words of each set, and this process.
CAPABILITIES = struct.pack("Ii", 0x20080522, 0)
NO_CAPABILITIES = bytes(24)
# What happens to a watched file, as inotify(7) has it.
MODIFIED, CHANGED, OPENED, RENAMED = 0x2, 0x4, 0x20, 0x800
# The watch number, what happened, a cookie, and the length of a name behind them.
EVENT = struct.Struct("iIII")
EVENTS_LEN = 1 << 16


def end_at_hangup(process: int, descriptor: int) -> None:
    """Has the kernel kill a process once the pipe of this descriptor has no writer any more, until `stay_at_hangup` of
    the same descriptor, here or in another process that shares it."""
    try:
        fcntl.fcntl(descriptor, fcntl.F_SETOWN, process)
        fcntl.fcntl(descriptor, fcntl.F_SETSIG, signal.SIGKILL)
        fcntl.fcntl(descriptor, fcntl.F_SETFL, os.O_NONBLOCK | os.O_ASYNC)
    except OSError:
        pass


def stay_at_hangup(descriptor: int) -> None:
    """Takes back what `end_at_hangup` has done."""
    fcntl.fcntl(descriptor, fcntl.F_SETFL, os.O_NONBLOCK)


def give_capabilities_up() -> None:
    """Gives up all capabilities, but as root: nothing needs one any more, nor what is started from now on."""
    if LIBC and os.geteuid() != 0:
        LIBC.prctl(PR_CAP_AMBIENT, PR_CAP_AMBIENT_CLEAR_ALL, 0, 0, 0)
        LIBC.capset(CAPABILITIES, NO_CAPABILITIES)


@contextlib.contextmanager
def capabilities_of_children(are_given: bool) -> Iterator[None]:
    """Whether a program that is started meanwhile gets the capabilities that a service gives to live."""
    held = [] if are_given else ambient_capabilities()
    if held:
        LIBC.prctl(PR_CAP_AMBIENT, PR_CAP_AMBIENT_CLEAR_ALL, 0, 0, 0)
    try:
        yield
    finally:
        for capability in held:
            LIBC.prctl(PR_CAP_AMBIENT, PR_CAP_AMBIENT_RAISE, capability, 0, 0)


def ambient_capabilities() -> list[int]:
    """The capabilities that a program gets which is started; none of root, whose programs have all."""
    if not LIBC or os.geteuid() == 0:
        return []
    return [it for it in range(MOST_CAPABILITIES) if LIBC.prctl(PR_CAP_AMBIENT, PR_CAP_AMBIENT_IS_SET, it, 0, 0) == 1]


def adjust(state: bytearray) -> int:
    """Fills in the kernel's state of the clock: less than 0 where it can't be had."""
    if not LIBC:
        return -1
    return int(LIBC.adjtimex((ctypes.c_char * len(state)).from_buffer(state)))


def checked(result: int) -> int:
    """What a call returned; an OSError where it failed."""
    if result < 0:
        number = ctypes.get_errno()
        raise OSError(number, os.strerror(number))
    return result


def reserve(descriptor: int, length: int) -> None:
    """Has the disk keep so many bytes of room for a file, whose size stays; without, where that can't be done."""
    if LIBC:
        LIBC.fallocate(descriptor, FALLOC_FL_KEEP_SIZE, ctypes.c_long(0), ctypes.c_long(length))


def open_watches() -> int:
    """A descriptor from which events of watched files are read, without waiting."""
    if not LIBC:
        raise OSError("no watches can be had")
    return checked(LIBC.inotify_init1(os.O_NONBLOCK | os.O_CLOEXEC))


def add_watch(descriptor: int, path: str, events: int) -> int:
    """Watches a file for these events alone: the number of the watch, which a file has once."""
    return checked(LIBC.inotify_add_watch(descriptor, os.fsencode(path), events))


def remove_watch(descriptor: int, watch: int) -> None:
    """Ends a watch; one that has ended with its file is left as it is."""
    LIBC.inotify_rm_watch(descriptor, watch)


def read_events(descriptor: int) -> Iterator[tuple[int, int]]:
    """The events that are there: the number of the watch, and what happened."""
    try:
        data = os.read(descriptor, EVENTS_LEN)
    except BlockingIOError:
        return
    at = 0
    while at < len(data):
        watch, events, _, length = EVENT.unpack_from(data, at)
        yield watch, events
        at += EVENT.size + length
