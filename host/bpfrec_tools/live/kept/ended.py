"""What is still made of recordings that have ended: hash and signature, a whole Chapter 11 file, and the room of those
that a ring removes."""

from __future__ import annotations

from collections.abc import Callable, Sequence
from functools import partial
from typing import Optional

from bpfrec_tools.live.arguments import Arguments
from bpfrec_tools.live.kept.hashes import Ended, Hashes, ended_of
from bpfrec_tools.live.kept.names import Files
from bpfrec_tools.live.kept.noted import Entry
from bpfrec_tools.live.kept.retention import Kept, Retention, approved
from bpfrec_tools.live.kept.signer import signer_of
from bpfrec_tools.live.kept.whole_files import WholeFiles
from bpfrec_tools.live.model import Recording
from bpfrec_tools.live.parts.guard import Guard
from bpfrec_tools.live.parts.loop import Loop
from bpfrec_tools.live.parts.recorder import Recorder
from bpfrec_tools.live.reports.observers import Observers
from bpfrec_tools.live.said import said

# What the end waits for is said after so many seconds, and again after so many.
FIRST, PAUSE = 2.0, 10.0


class EndProgress:
    """Says it. `awaited` say what isn't done yet, nothing where all is, and `err` takes a line for who watches."""

    def __init__(self, awaited: Sequence[Callable[[], str]], err: Callable[[str], None]) -> None:
        self.awaited, self.err = awaited, err
        self.next_at: Optional[float] = None

    def deadline(self, now: float) -> float:
        """When it is said next."""
        if self.next_at is None:
            self.next_at = now + FIRST
        return self.next_at

    def tick(self, now: float) -> None:
        """Says what isn't done yet, where that is due."""
        if now < self.deadline(now):
            return
        self.next_at = now + PAUSE
        for what in filter(None, (awaited() for awaited in self.awaited)):
            self.err(said(f"waits for {what}"))


class EndedRecordings:
    """Makes it. `free` tells how many bytes the disk has free, and `err` takes a line for who watches."""

    def __init__(
        self,
        given: Arguments,
        files: Files,
        loop: Loop,
        guard: Guard,
        observers: Observers,
        free: Callable[[], int],
        err: Callable[[str], None],
    ) -> None:
        signer = signer_of(given.sign, guard)
        self.hashes = Hashes(loop, files, signer, observers.signing_failed, observers.hashing_failed, err)
        self.whole_files = WholeFiles(given.setup if given.makes_whole_files else None, files, loop, guard, err)
        self.retention = Retention(given.keep, given.keep_free, free, self.let_go, err)
        self.progress = EndProgress((self.hashes.awaited, self.whole_files.awaited), err)

    @property
    def status(self) -> int:
        """That of the first thing that couldn't be made."""
        return self.hashes.status or self.whole_files.status

    def made_of(self, recorder: Recorder, status: int) -> Callable[[Optional[Entry]], None]:
        """What takes the last facts of a recording that has ended so, once it was forced to its disk a last time."""
        return partial(self.add, recorder.recording, approved(recorder, status), ended_of(recorder))

    def add(self, recording: Recording, kept: Optional[Kept], ended: Optional[Ended], facts: Optional[Entry]) -> None:
        """A recording has been forced to its disk a last time. It counts, if it was approved, and is to be hashed."""
        is_kept = kept is not None and not recording.is_unforced
        self.hashes.add(recording.number, ended, facts, partial(self.hashed, kept if is_kept else None))
        if kept and is_kept:
            self.retention.add(kept)

    def hashed(self, kept: Optional[Kept], beside: tuple[str, ...]) -> None:
        """A recording was hashed, and signed, where that could be done."""
        if kept:
            kept.beside.extend(beside)
            self.whole_files.add(kept)

    def let_go(self, out: str, why: str, remove: Callable[[], None]) -> None:
        """A recording has to go: it is removed once nothing is made of it any more."""
        self.hashes.let_go(out, why, lambda: self.whole_files.let_go(out, why, remove))

    def finish(self, turn: Callable[[], None], is_given_up: Callable[[], bool]) -> None:
        """Waits until all is made and removed, unless nobody waits for that any more."""
        self.hashes.finish(turn, is_given_up)
        self.whole_files.finish(turn, is_given_up)
        self.retention.join()
