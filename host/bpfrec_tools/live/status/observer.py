"""What `live` tells of a run, brought to the page, the metrics and the terminal."""

from __future__ import annotations

import os
import socket
import time
from collections.abc import Callable, Iterable, Sequence
from typing import Optional

from bpfrec.formats.clock_state import ClockState
from bpfrec.formats.follow import MOST_PACKETS
from bpfrec.formats.limits import TOP_KEYS
from bpfrec_tools.live.run.ports import Counts, Marked, Observer, Sent, Setup
from bpfrec_tools.live.status.alarms import AlarmChange, AlarmChanges, alarms_of
from bpfrec_tools.live.status.endpoint import Endpoint
from bpfrec_tools.live.status.growth import Growth
from bpfrec_tools.live.status.model import Model
from bpfrec_tools.live.status.table import report_of
from bpfrec_tools.live.status.terminal import Terminal
from bpfrec_tools.live.status.view import ClockView

# The longest packet where the settings say nothing.
USUAL_LIMIT = TOP_KEYS["limit"].default or 0
# So many pieces of a recording that has ended are read at once, at most.
MOST_PIECES = 16


class Status(Observer):
    """The observer of a run, by which it is watched. Moments are those of `time.monotonic`; all calls come from one
    thread."""

    def __init__(
        self,
        endpoint: Optional[Endpoint] = None,
        terminal: Optional[Terminal] = None,
        sync: float = 1,
        limit: int = USUAL_LIMIT,
        has_ring: bool = False,
        now: Optional[float] = None,
    ) -> None:
        self.model = Model(time.monotonic() if now is None else now, sync, has_ring)
        self.limit, self.terminal, self.host = limit, terminal, socket.gethostname()
        self.growths: dict[int, Growth] = {}
        # Who is told of alarms that begin and end.
        self.changes = AlarmChanges()
        self.alarm_changed: Callable[[AlarmChange], None] = lambda _: None
        # It takes its port at once, so that one that can't be had is refused before anything is recorded.
        if endpoint:
            # Here, since few runs have one.
            from bpfrec_tools.live.status.server import Server
        self.server = Server(endpoint) if endpoint else None

    def start(self) -> None:
        """Begins to serve, by a thread; from then on no process may be copied by `fork` alone."""
        if self.server:
            self.server.start()

    def address(self) -> Optional[str]:
        """Where the page is, as a browser takes it."""
        return f"http://{self.server.endpoint}/" if self.server else None

    # ---- what happens

    def recording_begun(self, number: int, path: str, channels: Iterable[Setup], now: float) -> None:
        """A recorder has opened OUT, which is empty: from now on its file is followed, also where it is moved."""
        self.growths[number] = Growth(path)
        self.growths[number].read_on(0)
        self.model.recording_begun(number, os.path.basename(path), channels, now)

    def capture_counted(self, interface: str, counts: Counts, now: float) -> None:
        """The capture has counted so much of an interface since the run began."""
        self.model.capture_counted(interface, counts, now)

    def linked(self, interface: str, away: Optional[str], now: float) -> None:
        """An interface brings no frames from now on, for this reason, or by None it does again."""
        self.model.linked(interface, away, now)

    def published(self, address: str, sent: Optional[Sent], now: float) -> None:
        """So much was sent to a station by now; None where its publisher has died."""
        self.model.published(address, sent, now)

    def filter_changed(self, channel: int, version: int, name: str) -> None:
        """A line changed a filter of the recording that goes on, to one of this name."""
        self.model.filter_changed(channel, version, name)

    def marked(self, mark: Marked, now: float) -> None:
        """A recording has one more mark."""
        self.model.marked(mark, os.path.basename(mark.path), now)

    def report(self, now: float) -> list[str]:
        """How the run goes, as lines, by all that its recordings have by now."""
        for number, growth in self.growths.items():
            self.follow(number, growth, now)
        self.look_at_disk()
        view = self.model.view(now)
        return report_of(view, alarms_of(view, self.limit))

    def synced(self, now: float) -> None:
        """The recording that goes on was forced to its disk."""
        self.model.synced(now)

    def sync_failed(self, path: str, why: str) -> None:
        """A recording couldn't be forced to its disk; it is told once of each."""
        self.model.sync_failed(os.path.basename(path), why)

    def signing_failed(self, path: str, why: str) -> None:
        """The facts of a recording that has ended couldn't be signed."""
        self.model.unsigned = f"{os.path.basename(path)} isn't signed: {why}"

    def hashing_failed(self, path: str, why: str) -> None:
        """A recording that has ended has no hash."""
        self.model.unhashed = f"{os.path.basename(path)} has no hash: {why}"

    def clock_seen(self, state: ClockState, most: Optional[float]) -> None:
        """How right the clock is, and by how many seconds it may be off, where somebody asks for that."""
        self.model.clock = ClockView(state, most)

    def recording_ended(
        self, number: int, status: int, now: float, report: Sequence[str] = (), audit: Sequence[str] = ()
    ) -> None:
        """A recorder has ended, with this status and these lines, and so has the audit of what it recorded."""
        growth = self.growths.pop(number, None)
        if growth:
            for _ in range(MOST_PIECES):
                if not self.follow(number, growth, now):
                    break
            growth.close()
        self.model.recording_ended(number, status, report, audit)

    def recorder_stopped(self, number: int, path: str, killed_by: Optional[int]) -> None:
        """A recorder takes no more frames, since its output failed, or this signal ended it."""
        self.model.recorder_stopped(number, os.path.basename(path), killed_by)

    def tick(self, now: float) -> None:
        """Once a second: reads on in what grows, looks at the disk, and tells how it goes."""
        for number, growth in self.growths.items():
            self.follow(number, growth, now)
        self.look_at_disk()
        self.model.pass_time(now)
        self.publish(now)

    def ending(self) -> None:
        """No other recording will begin."""
        self.model.is_ending = True

    def ended(self, now: float) -> None:
        """All has ended; the page says so until `close`, and the table is taken away."""
        self.model.ended()
        self.publish(now)
        if self.terminal:
            self.terminal.clear()

    def close(self) -> None:
        """Ends the server and the table."""
        for growth in self.growths.values():
            growth.close()
        self.growths.clear()
        if self.server:
            self.server.stop()
        if self.terminal:
            self.terminal.close()

    # ---- how

    def follow(self, number: int, growth: Growth, now: float) -> bool:
        """Reads on in a recording: whether there may be more at once."""
        told = growth.read_on()
        self.model.grown(number, growth, told, now)
        return len(told) == MOST_PACKETS

    def look_at_disk(self) -> None:
        """Asks how much is free where the recording is, also where its file was moved to."""
        current = self.growths.get(self.model.current) if self.model.current is not None else None
        if not current or current.descriptor < 0:
            return
        try:
            found = os.fstatvfs(current.descriptor)
            self.model.has_room(found.f_bavail * found.f_frsize)
        except OSError:
            self.model.has_room(None)

    def publish(self, now: float) -> None:
        """Tells how it goes, from now on."""
        view = self.model.view(now)._replace(host=self.host, utc=time.time())
        alarms = alarms_of(view, self.limit)
        for change in self.changes.take(alarms):
            self.alarm_changed(change)
        if self.server:
            self.server.answers.take(view, alarms)
        if self.terminal and not self.model.is_ended:
            self.terminal.draw(view, alarms)
