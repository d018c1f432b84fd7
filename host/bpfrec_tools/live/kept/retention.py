"""A ring of recordings: of those that followed one another the oldest are removed, where newer ones or the disk need
their room. None is removed whose audit didn't say yes, or for one that couldn't be forced to its disk."""

from __future__ import annotations

import os
import stat
import threading
from dataclasses import dataclass, field
from typing import Callable, Optional

from bpfrec.formats.answers import Verdict
from bpfrec.formats.names import facts_path
from bpfrec_tools.live.kept.names import remove
from bpfrec_tools.live.parts.part import Part
from bpfrec_tools.live.parts.recorder import Recorder
from bpfrec_tools.live.said import said

# How often the room on the disk is looked at, in seconds.
PAUSE = 1.0


@dataclass
class Kept:
    """A recording that is whole and approved: its name, which file that was, and what goes with it beside its facts."""

    out: str
    device: int
    number: int
    beside: list[str] = field(default_factory=list)

    def is_there(self) -> bool:
        """Whether the name is still that file's."""
        try:
            found = os.lstat(self.out)
        except OSError:
            return False
        return stat.S_ISREG(found.st_mode) and (found.st_dev, found.st_ino) == (self.device, self.number)


def approved(recorder: Recorder, status: int) -> Optional[Kept]:
    """A recording that has ended, and its audit too; None of one that wasn't approved."""
    lines = recorder.text("audit").splitlines()
    is_approved = status == 0 and bool(lines) and Verdict.of(lines[-1]).is_yes()
    if not is_approved or recorder.descriptor is None or not recorder.is_there():
        return None
    found = os.fstat(recorder.descriptor)
    return Kept(recorder.about.out, found.st_dev, found.st_ino)


class Retention(Part):
    """The recordings of a run that may be removed. `keep` is how many of them stay at most, and `keep_free` how many
    bytes are to be free on their disk; `free` tells that, and `err` takes a line for each that is removed. `let_go`
    takes what has to go and why, and calls what removes it once nothing is made of it any more."""

    def __init__(
        self,
        keep: Optional[int],
        keep_free: Optional[int],
        free: Callable[[], int],
        let_go: Callable[[str, str, Callable[[], None]], None],
        err: Callable[[str], None],
    ) -> None:
        self.keep, self.keep_free, self.free, self.let_go, self.err = keep, keep_free, free, let_go, err
        self.kept: list[Kept] = []
        # How many have to go that are still in work.
        self.leaving = 0
        self.next_look = 0.0
        self.threads: list[threading.Thread] = []

    def add(self, kept: Kept) -> None:
        """A recording counts from now on, since it is approved and on its disk."""
        self.kept.append(kept)
        while self.keep is not None and len(self.kept) > self.keep:
            self.remove_oldest(f"--keep {self.keep}")

    def deadline(self) -> Optional[float]:
        """When the disk is looked at next; None where nothing could be removed."""
        return self.next_look if self.keep_free is not None and self.kept else None

    def tick(self, now: float) -> None:
        """Removes recordings where the disk has too little room."""
        if self.keep_free is None or now < self.next_look:
            return
        self.next_look = now + PAUSE
        if self.kept and not self.is_removing() and self.free() < self.keep_free:
            self.remove_oldest(f"--keep-free {self.keep_free}")

    def is_removing(self) -> bool:
        """Whether the room of a recording may still come free."""
        return self.leaving > 0 or any(it.is_alive() for it in self.threads)

    def remove_oldest(self, why: str) -> None:
        """Removes the oldest recording, with its facts; one that has another name by now is left as it is."""
        oldest = self.kept.pop(0)
        if not oldest.is_there():
            return
        self.err(said(f"{oldest.out} was removed: {why}"))
        self.leaving += 1
        self.let_go(oldest.out, f"it was removed: {why}", lambda: self.remove(oldest))

    def remove(self, kept: Kept) -> None:
        """Removes a recording of which nothing is made any more. A long file takes a moment, for which nobody waits."""
        self.leaving -= 1
        if not kept.is_there():
            return
        thread = threading.Thread(target=removed, args=(kept,))
        thread.start()
        self.threads = [*(it for it in self.threads if it.is_alive()), thread]

    def join(self) -> None:
        """Waits until all are removed."""
        for thread in self.threads:
            thread.join()


def removed(kept: Kept) -> None:
    """Removes a recording, its facts, and what goes with it."""
    for path in (kept.out, facts_path(kept.out), *kept.beside):
        remove(path)
