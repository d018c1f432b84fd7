"""The thread that forces a recording to its disk and writes the facts beside it, for which nobody waits."""

from __future__ import annotations

import contextlib
import errno
import os
import threading
import time
from typing import Callable, Optional, Protocol

from bpfrec_tools.cli.streams import force_folder

# Facts that change are written so often at most, in seconds; the last ones at once.
FACTS_PAUSE = 1.0


class Told(Protocol):
    """Who is told what a keeper did, by its thread."""

    def synced(self, moment: float) -> None:
        """The file is on its disk up to a moment."""

    def sync_failed(self, why: str) -> None:
        """The file couldn't be forced to its disk."""

    def writing_failed(self) -> None:
        """Facts couldn't be written."""


class Keeper(threading.Thread):
    """Forces one file to its disk every so many seconds, and its folder once; and writes facts that it is given."""

    def __init__(self, descriptor: int, folder: str, pause: float, told: Told) -> None:
        super().__init__(daemon=True, name="keeper")
        self.descriptor, self.folder, self.pause, self.told = os.dup(descriptor), folder, pause, told
        self.changed = threading.Condition()
        self.facts: Optional[Callable[[], object]] = None
        # Why the file couldn't be forced to its disk, first.
        self.sync_fault: Optional[str] = None
        self.is_ending = self.is_released = False
        self.next_sync = self.next_write = time.monotonic()

    def write(self, facts: Callable[[], object]) -> None:
        """Has facts written soon, in place of those that wait; once it ends none any more."""
        with self.changed:
            if not self.is_ending:
                self.facts = facts
                self.changed.notify()

    def release(self) -> None:
        """Closes the file, which is forced to its disk no more: its room is free where it is removed. One that ends is
        forced a last time and closed all the same."""
        with self.changed:
            self.is_released = not self.is_ending
            self.changed.notify()

    def end(self) -> None:
        """Ends the thread once it has written the facts that it has."""
        with self.changed:
            self.is_ending = True
            self.changed.notify()

    def run(self) -> None:
        """Does what is due until it is ended."""
        if self.pause:
            # The recorder tells of a disk that fails.
            with contextlib.suppress(OSError):
                force_folder(self.folder or ".")
        while True:
            with self.changed:
                while not self.is_due():
                    self.changed.wait(self.seconds_left())
                facts = self.facts if self.is_ending or self.facts_are_due() else None
                self.facts = None if facts else self.facts
                is_ending = self.is_ending
            if is_ending or self.is_released:
                # What a killed recorder left is forced too, and the last facts say where that fails.
                self.sync(is_last=True)
                self.close()
            if facts:
                self.try_to_write(facts)
            if is_ending and not facts:
                return
            self.sync()

    def facts_are_due(self) -> bool:
        """Whether facts are to be written now."""
        return self.facts is not None and time.monotonic() >= self.next_write

    def is_due(self) -> bool:
        """Whether there is something to do now."""
        is_let_go = self.is_ending or (self.is_released and self.descriptor >= 0)
        is_sync_due = self.forces() and time.monotonic() >= self.next_sync
        return is_let_go or is_sync_due or self.facts_are_due()

    def seconds_left(self) -> Optional[float]:
        """How long until something is due; None where nothing is."""
        moments = [self.next_sync] * self.forces() + [self.next_write] * (self.facts is not None)
        return max(0.0, min(moments) - time.monotonic()) if moments else None

    def forces(self) -> bool:
        """Whether the file is forced to its disk, now and then."""
        return self.pause > 0 and self.descriptor >= 0

    def try_to_write(self, facts: Callable[[], object]) -> None:
        """Writes facts, and tells where that can't be done."""
        self.next_write = time.monotonic() + FACTS_PAUSE
        try:
            facts()
        except OSError:
            self.told.writing_failed()

    def sync(self, is_last: bool = False) -> None:
        """Forces the file to its disk, where it is due or ends."""
        begun = time.monotonic()
        if not self.forces() or self.is_released or (begun < self.next_sync and not is_last):
            return
        self.next_sync = begun + self.pause
        try:
            os.fdatasync(self.descriptor)
        except OSError as error:
            if error.errno != errno.EINVAL:
                # The kernel tells of what it couldn't write once, and a later call may succeed.
                self.sync_fault = self.sync_fault or str(error.strerror)
                self.told.sync_failed(self.sync_fault)
            return
        self.told.synced(begun)

    def close(self) -> None:
        """Closes the file."""
        if self.descriptor >= 0:
            os.close(self.descriptor)
            self.descriptor = -1
