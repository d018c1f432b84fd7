"""What is kept safe of each recording: its bytes on the disk, and the facts beside it."""

from __future__ import annotations

import os
from typing import Callable, NamedTuple, Optional

from bpfrec.formats.names import facts_path, signature_path
from bpfrec_tools.live.kept.facts import Entry, Writer
from bpfrec_tools.live.kept.keeper import Keeper
from bpfrec_tools.live.kept.names import remove
from bpfrec_tools.live.parts.events import Events
from bpfrec_tools.live.parts.loop import Loop
from bpfrec_tools.live.parts.part import Part
from bpfrec_tools.live.parts.recorder import Recorder
from bpfrec_tools.live.said import said

# Why a recording isn't on its disk of which the recorder alone was told so.
UNFORCED = "the recorder's fsync failed"


class KeeperPorts(NamedTuple):
    """What keepers have beside them: `synced` takes a recording and the moment up to which it is on its disk,
    `sync_failed` one that couldn't be forced there and why; `following` gives the OUT that follows one, and `made_of`
    what takes the last facts of one that has ended so."""

    synced: Callable[[Recorder, float], None]
    sync_failed: Callable[[Recorder, str], None]
    following: Callable[[Recorder], Optional[str]]
    made_of: Callable[[Recorder, int], Callable[[Optional[Entry]], None]]


class KeeperReports:
    """What a recording's keeper tells, brought to the loop."""

    def __init__(self, durability: Durability, recorder: Recorder) -> None:
        self.durability, self.recorder, self.soon = durability, recorder, durability.loop.call_soon

    def synced(self, moment: float) -> None:
        """The recording is on its disk up to a moment."""
        self.soon(lambda: self.durability.synced(self.recorder, moment))

    def sync_failed(self, why: str) -> None:
        """The recording couldn't be forced to its disk."""
        self.soon(lambda: self.durability.sync_failed(self.recorder, why))

    def writing_failed(self) -> None:
        """Its facts couldn't be written."""
        self.soon(lambda: self.durability.writing_failed(self.recorder))


class Durability(Part):
    """The keepers of a run's recordings. `err` takes a line for who watches."""

    def __init__(
        self, loop: Loop, writer: Writer, events: Events, ports: KeeperPorts, err: Callable[[str], None]
    ) -> None:
        self.loop, self.writer, self.events, self.err = loop, writer, events, err
        self.synced, self.sync_failed, self.following, self.made_of = ports
        self.threads: list[Keeper] = []

    def begun(self, recorder: Recorder) -> None:
        """A recorder has opened OUT: from now on it is forced to its disk."""
        if not recorder.is_created or recorder.descriptor is None:
            return
        if self.writer.files.is_forced:
            # Those that are there are of what was overwritten.
            for path in (facts_path(recorder.about.out), signature_path(facts_path(recorder.about.out))):
                remove(path)
        folder, pause = os.path.dirname(recorder.about.out), self.writer.given.sync
        try:
            recorder.keeper = Keeper(recorder.descriptor, folder, pause, KeeperReports(self, recorder))
            recorder.keeper.start()
        except (OSError, RuntimeError) as error:
            recorder.keeper = None
            self.err(said(f"{recorder.about.out} isn't forced to its disk, and has no facts: {error}"))
            return
        self.threads = [*(thread for thread in self.threads if thread.is_alive()), recorder.keeper]
        self.write(recorder)

    def write(self, recorder: Recorder) -> None:
        """Has the facts of a recording written that goes on."""
        if recorder.keeper and self.events.origins:
            about, noted, keeper = recorder.about, self.events.facts(recorder.about.feed), recorder.keeper
            keeper.write(lambda: self.writer.write(about, {**noted, "sync_fault": keeper.sync_fault}, None))

    def concluded(self, recorder: Recorder, status: int) -> None:
        """Has the last facts of a recording written, which name the OUT that follows, and its folder removed. What is
        still made of it begins after that, and once it was forced to its disk a last time."""
        following, done = self.following(recorder), self.made_of(recorder, status)
        self.events.read()
        about, noted, keeper = recorder.about, self.events.facts(recorder.about.feed), recorder.keeper
        is_written = bool(self.events.origins) and recorder.is_created

        def last() -> None:
            facts = None
            try:
                if is_written and keeper:
                    noted["sync_fault"] = keeper.sync_fault
                    facts = self.writer.write(about, noted, status, following)
            finally:
                self.writer.folder.remove(about.number)
                self.loop.call_soon(lambda: done(facts))

        self.events.forget(about.feed)
        if keeper:
            keeper.write(last)
            keeper.end()
        else:
            self.writer.folder.remove(about.number)
            done(None)

    def join(self) -> None:
        """Waits until all is written."""
        for thread in self.threads:
            thread.end()
            thread.join()
        self.loop.take_calls()

    def writing_failed(self, recorder: Recorder) -> None:
        """Tells that facts couldn't be written."""
        if not recorder.is_told and not recorder.recording.has_failed:
            recorder.is_told = True
            self.err(said(f"{facts_path(recorder.about.out)} can't be written"))
