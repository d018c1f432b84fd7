"""Watches of OUT: when the recorder opens it, where it goes, and how it grows."""

from __future__ import annotations

import os
import time
from typing import Callable, Optional

from bpfrec_tools.live.kept.names import is_special, remove
from bpfrec_tools.live.model import Phase, Recording
from bpfrec_tools.live.parts import system
from bpfrec_tools.live.parts.part import Part
from bpfrec_tools.live.parts.recorder import Recorder
from bpfrec_tools.live.parts.watches import Watches
from bpfrec_tools.live.said import said

# How often the size of a recording is looked at while it grows, in seconds.
SIZE_PAUSE = 0.05
# The kernel tells of an open a moment before it is seen: so it is looked for again, at most so often.
OPEN_PAUSE, MOST_LOOKS = 0.02, 50


class Outputs(Part):
    """The watched outputs. `opened` is called once a recorder has opened OUT, and `err` with a line for who watches."""

    def __init__(
        self, watches: Watches, has_size: bool, opened: Callable[[Recorder], None], err: Callable[[str], None]
    ) -> None:
        self.watches, self.has_size, self.opened, self.err = watches, has_size, opened, err
        # The recording whose growth is looked at, and when that is due again.
        self.growing: Optional[Recorder] = None
        self.look_at: Optional[float] = None
        # The recording that somebody has opened, how often it is looked whether its recorder has, and when.
        self.opening: Optional[Recorder] = None
        self.looks, self.open_look_at = 0, 0.0

    def watch(self, recorder: Recorder) -> None:
        """Watches OUT: until the recorder has opened it for that, and then for where it is, and its size."""
        if recorder.descriptor is None or not recorder.is_created:
            self.watch_special(recorder)
            return
        events = system.OPENED if recorder.recording.phase is Phase.OPENING else system.RENAMED | system.CHANGED
        if self.has_size and self.look_at is None and recorder.recording.phase is Phase.GOING:
            events |= system.MODIFIED
        recorder.watch = self.watches.add(f"/proc/self/fd/{recorder.descriptor}", events, lambda: self.look(recorder))

    def watch_special(self, recorder: Recorder) -> None:
        """Watches a pipe or a device until the recorder has opened it."""
        if recorder.recording.phase is not Phase.OPENING:
            self.end(recorder)
        elif recorder.descriptor is None and is_special(recorder.about.out):
            recorder.watch = self.watches.add(recorder.about.out, system.OPENED, lambda: self.look(recorder))

    def end(self, recorder: Recorder) -> None:
        """Watches OUT no more."""
        if recorder.watch is not None:
            self.watches.remove(recorder.watch)
            recorder.watch = None
        if self.growing is recorder:
            self.growing = self.look_at = None
        if self.opening is recorder:
            self.opening = None

    def ended(self, recorder: Recorder) -> None:
        """Looks at OUT a last time while its recorder has it."""
        self.look(recorder)

    def concluded(self, recorder: Recorder, _: int) -> None:
        """Watches OUT no more."""
        self.end(recorder)

    def look(self, recorder: Recorder) -> None:
        """Sees whether the recorder has opened OUT, and whether OUT is where it was."""
        if recorder.recording.phase is Phase.OPENING:
            self.look_for_open(recorder, MOST_LOOKS)
            return
        if (
            recorder.is_created
            and not recorder.is_moved
            and not recorder.is_there()
            and not recorder.recording.has_failed
        ):
            recorder.is_moved = True
            self.err(moved(recorder))
        if self.has_size and recorder.recording.phase is Phase.GOING and self.look_at is None:
            # The kernel tells of each write, which is too often.
            self.growing, self.look_at = recorder, time.monotonic() + SIZE_PAUSE
            self.watch(recorder)

    def look_for_open(self, recorder: Recorder, looks: int) -> None:
        """Sees whether the recorder has opened OUT; where it hasn't, so often again."""
        if recorder.is_opened():
            self.opening = None
            self.opened(recorder)
            self.watch(recorder)
        else:
            self.opening = recorder if looks else None
            self.looks, self.open_look_at = looks, time.monotonic() + OPEN_PAUSE

    def deadline(self) -> Optional[float]:
        """When something is looked at again."""
        moments = [self.look_at, self.open_look_at if self.opening else None]
        return min((it for it in moments if it is not None), default=None)

    def tick(self, now: float) -> None:
        """Looks at what is due, and has the kernel tell of the next write again."""
        if self.opening and now >= self.open_look_at:
            self.look_for_open(self.opening, self.looks - 1)
        if self.look_at is not None and now >= self.look_at:
            recorder, self.growing, self.look_at = self.growing, None, None
            if recorder:
                self.watch(recorder)


def moved(recorder: Recorder) -> str:
    """What is said of an OUT that isn't where it was created."""
    to = os.readlink(f"/proc/self/fd/{recorder.descriptor}")
    if to.endswith(" (deleted)"):
        return said(f"{recorder.about.out} was removed: it is recorded on, and gone at its end")
    return said(f"{recorder.about.out} was moved to {to}: it is recorded on there")


def is_empty(recorder: Recorder) -> bool:
    """Whether nothing is in an OUT that was created for this recording, or none was."""
    try:
        return not recorder.is_created or os.stat(recorder.about.out).st_size == 0
    except OSError:
        return False


def discard(recorder: Recorder) -> None:
    """Removes an OUT that was created for this recording."""
    if recorder.is_created and recorder.is_there():
        remove(recorder.about.out)
    recorder.is_created = False


def room_beside(recording: Recording) -> int:
    """How many bytes are free on the disk of OUT."""
    try:
        found = os.statvfs(os.path.dirname(recording.out) or ".")
    except OSError:
        return 0
    return found.f_bavail * found.f_frsize
