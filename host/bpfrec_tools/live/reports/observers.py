"""The observer of a run, where there is one, told what happens."""

from __future__ import annotations

import time
from typing import Callable, Iterable, Optional, Sequence

from bpfrec.formats.clock_state import ClockState
from bpfrec_tools.live.kept.noted import Entry
from bpfrec_tools.live.parts.folder import Folder
from bpfrec_tools.live.parts.interruptions import UNREAD, Link
from bpfrec_tools.live.parts.part import Part
from bpfrec_tools.live.parts.recorder import Recorder
from bpfrec_tools.live.run.ports import Counts, Marked, Observer, Sent, Setup
from bpfrec_tools.live.said import said

# What is said of the status where nobody observes the run.
NOT_KEPT = said("status: it wasn't kept from the beginning on")
# How often an observer is told that time goes by, in seconds.
TICK = 1.0


class Observers(Part):
    """Tells an observer; without one nothing is done."""

    def __init__(self, observer: Optional[Observer], folder: Folder, err: Callable[[str], None]) -> None:
        self.observer, self.folder, self.err = observer, folder, err
        self.next_tick = time.monotonic()
        # Each channel's filter by now, as people know it.
        self.filters = folder.filter_names()
        self.is_ending = False

    def is_on(self) -> bool:
        """Whether somebody observes."""
        return self.observer is not None

    def begun(self, recorder: Recorder) -> None:
        """A recorder has opened OUT."""
        interfaces = {it.channel: it.interface for it in self.folder.routes}
        names = self.folder.names
        setups = [Setup(it, interfaces.get(it), made, names.get(it, "")) for it, made in self.filters.items()]
        if self.observer:
            self.observer.recording_begun(recorder.recording.number, recorder.about.out, setups, time.monotonic())

    def counted(self, interface: str, counts: Counts) -> None:
        """The capture has counted an interface's frames."""
        if self.observer:
            self.observer.capture_counted(interface, counts, time.monotonic())

    def linked(self, links: Iterable[Link]) -> None:
        """Interfaces bring no frames from now on, or do again; one that nobody reads is reported in a line too."""
        for link in links:
            if link.away == UNREAD:
                self.err(said(f"{link.interface}: no recorder reads its frames, which wait for the next recording"))
            if self.observer:
                self.observer.linked(link.interface, link.away, time.monotonic())

    def published(self, address: str, sent: Optional[Sent]) -> None:
        """So much was sent to an address by now; None where its publisher has died."""
        if self.observer:
            self.observer.published(address, sent, time.monotonic())

    def changed(self, channel: int, version: int, name: str) -> None:
        """A line changed a filter of the recording that goes on."""
        self.filters[channel] = name
        if self.observer:
            self.observer.filter_changed(channel, version, name)

    def marked(self, recorder: Recorder, mark: Entry) -> None:
        """A recording has one more mark."""
        if self.observer:
            self.observer.marked(Marked(recorder.about.out, **mark), time.monotonic())

    def report(self) -> Sequence[str]:
        """How the run goes, as lines."""
        return self.observer.report(time.monotonic()) if self.observer else [NOT_KEPT]

    def forced(self, _: Recorder, moment: float) -> None:
        """The recording that goes on was forced to its disk."""
        if self.observer:
            self.observer.synced(moment)

    def sync_failed(self, recorder: Recorder, why: str) -> None:
        """A recording couldn't be forced to its disk."""
        if self.observer:
            self.observer.sync_failed(recorder.about.out, why)

    def signing_failed(self, path: str, why: str) -> None:
        """The facts of a recording couldn't be signed."""
        if self.observer:
            self.observer.signing_failed(path, why)

    def hashing_failed(self, path: str, why: str) -> None:
        """A recording has no hash."""
        if self.observer:
            self.observer.hashing_failed(path, why)

    def clock_seen(self, state: ClockState, most: Optional[float]) -> None:
        """How right the clock is."""
        if self.observer:
            self.observer.clock_seen(state, most)

    def stopped(self, recorder: Recorder, killed_by: Optional[int]) -> None:
        """A recorder has ended since its output failed, or was ended by this signal."""
        if self.observer:
            self.observer.recorder_stopped(recorder.recording.number, recorder.about.out, killed_by)

    def concluded(self, recorder: Recorder, status: int) -> None:
        """A recording has ended, and its audit too."""
        report, audit = recorder.text("report").splitlines(), recorder.text("audit").splitlines()
        if self.observer:
            self.observer.recording_ended(recorder.recording.number, status, time.monotonic(), report, audit)

    def ending(self) -> None:
        """No other recording will begin; it is told once."""
        if self.observer and not self.is_ending:
            self.is_ending = True
            self.observer.ending()

    def all_ended(self) -> None:
        """All has ended."""
        if self.observer:
            self.observer.ended(time.monotonic())

    # ---- time

    def deadline(self) -> Optional[float]:
        """When the observer is told next that time goes by."""
        return self.next_tick if self.observer else None

    def tick(self, now: float) -> None:
        """Tells the observer that a second has gone by."""
        if self.observer and now >= self.next_tick:
            self.next_tick = max(self.next_tick + TICK, now)
            self.observer.tick(now)
