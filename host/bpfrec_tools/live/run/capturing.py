"""The capture of a run: what comes of it while it goes on, and what interfaces lost."""

from __future__ import annotations

import time
from typing import TYPE_CHECKING

from bpfrec_tools.live.model import KILLED
from bpfrec_tools.live.parts.interruptions import FAILED, Link
from bpfrec_tools.live.said import said

if TYPE_CHECKING:
    from bpfrec_tools.live.run.run import Run


class Capturing:
    """What a run does with the capture of all interfaces, and tells its machine and its parts of it."""

    def __init__(self, run: Run) -> None:
        self.run = run

    def start(self) -> None:
        """Starts it."""
        run = self.run
        if run.observers.is_on():
            run.capture.read_counts(run.observers.counted)
        if run.console.takes_lines():
            run.capture.read_lines(run.err, run.console.terminal.is_shown())
        run.capture.start(run.guard.all, self.ended)

    def ended(self, status: int) -> None:
        """It has ended."""
        self.look_at_events()
        if status > KILLED:
            self.note_killed()
        for line in self.run.capture.end(status):
            self.run.err(line)
        self.run.machine.capture_ended(status, time.monotonic())

    def note_killed(self) -> None:
        """Notes that no interface brings frames any more, which a capture that was killed couldn't."""
        run = self.run
        feeds = [it.about.feed for it in run.recordings.all.values()]
        if run.events.origins and feeds:
            counter, feed = run.marks.counter_of(time.monotonic_ns()), max(feeds)
            for it in run.folder.routes:
                run.events.interruptions.take(Link(it.interface, counter, FAILED, feed))

    def look_at_events(self) -> None:
        """Takes what it has noted."""
        run = self.run
        if run.events.read() == 0:
            return
        if run.events.origins:
            run.marks.begin_clock()
            run.machine.capture_ready()
        run.observers.linked(run.events.take_links())
        for recorder in run.recordings.all.values():
            run.durability.write(recorder)

    def report_losses(self) -> bool:
        """Tells what interfaces lost in all, as the last lines: whether one did."""
        self.run.events.read()
        for lost in self.run.events.lost_in_all:
            self.run.err(said(lost.sentence()))
        return bool(self.run.events.lost_in_all)
