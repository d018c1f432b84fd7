"""What is known of a run while it goes on. It has no clock: each call gets the moment, in seconds of a clock that
nobody sets. What is kept doesn't grow with the run."""

from __future__ import annotations

from collections import deque
from collections.abc import Iterable, Sequence
from math import floor
from operator import add
from typing import Optional

from bpfrec.formats.answers import Report
from bpfrec.formats.clock_state import ClockState
from bpfrec.formats.records import End
from bpfrec_tools.live.run.ports import Counts, Marked, Sent, Setup
from bpfrec_tools.live.status.channel import Channel
from bpfrec_tools.live.status.growth import Growth, Kept, Told
from bpfrec_tools.live.status.view import (
    HISTORY_SECONDS,
    Audits,
    ChannelView,
    ClockView,
    DiskView,
    EndedView,
    GroundView,
    MarkView,
    RecordingView,
    State,
    SyncView,
    View,
    since,
)

NOTHING = Sent(0, 0, 0)


class Ground:
    """A ground station, by its address."""

    def __init__(self, address: str) -> None:
        self.address = address
        self.before = self.sent = NOTHING
        self.lost_at: Optional[float] = None
        self.is_sent_to = False

    def take(self, sent: Optional[Sent], now: float) -> None:
        """Its publisher has sent so much by now; None where it has died."""
        if sent is None:
            self.before, self.sent, self.is_sent_to = self.total(), NOTHING, False
            return
        if sent.lost > self.sent.lost:
            self.lost_at = now
        self.sent, self.is_sent_to = sent, True

    def total(self) -> Sent:
        """What was sent in this run."""
        return Sent(*map(add, self.before, self.sent))

    def view(self, now: float) -> GroundView:
        """The station at this moment."""
        return GroundView(self.address, *self.total(), self.is_sent_to, since(self.lost_at, now))


# So many recordings that have ended are kept, and so many marks; other recordings are counted.
MOST_ENDED, MOST_MARKS = 32, 32


class Going:
    """A recording whose file may still grow."""

    def __init__(self, number: int, name: str, now: float) -> None:
        self.number, self.name, self.begun = number, name, now
        self.bytes = self.unread = 0
        self.fault: Optional[str] = None

    def view(self, now: float, rate: Optional[float]) -> RecordingView:
        """The recording at this moment."""
        return RecordingView(self.number, self.name, now - self.begun, self.bytes, rate, self.unread, self.fault)


class Model:
    """A run. `sync` is how often OUT is forced to its disk, in seconds, and 0 for never; `has_ring` says that old
    recordings are removed to make room, so that the disk doesn't fill."""

    def __init__(self, now: float, sync: float, has_ring: bool = False) -> None:
        self.begun, self.sync, self.has_ring = now, sync, has_ring
        self.synced_at: Optional[float] = None
        # How many recordings couldn't be forced to their disk, and what is said of the last.
        self.sync_faults, self.sync_fault = 0, ""
        # What is said of the last facts that couldn't be signed, and of the last recording without a hash.
        self.unsigned = self.unhashed = self.killed = ""
        # Whether the recorder of the recording that goes on takes no more frames.
        self.has_stopped = False
        self.channels: dict[int, Channel] = {}
        self.going: dict[int, Going] = {}
        self.current: Optional[int] = None
        self.is_ending = self.is_ended = False
        self.free: Optional[int] = None
        # What was written in all, second by second, by which it is known how fast.
        self.written, self.sizes = 0, deque([(now, 0)], HISTORY_SECONDS + 1)
        self.second = 0
        self.recordings: deque[EndedView] = deque(maxlen=MOST_ENDED)
        self.audits = Audits(0, 0, 0)
        # The last marks, each with the moment when it was noted.
        self.marks: deque[tuple[float, MarkView]] = deque(maxlen=MOST_MARKS)
        self.clock = ClockView(ClockState())
        # The stations that are sent to, by their addresses.
        self.ground: dict[str, Ground] = {}
        # What was said last of interfaces, and when.
        self.links: dict[Optional[str], tuple[Optional[str], float]] = {}

    # ---- what happens

    def recording_begun(self, number: int, name: str, channels: Iterable[Setup], now: float) -> None:
        """A recording begins, of these channels."""
        self.going[number] = Going(number, name, now)
        self.current, self.has_stopped = number, False
        self.synced_at = None
        kept = {}
        for setup in channels:
            kept[setup.channel] = self.channels.get(setup.channel) or self.new_channel(setup, now)
            kept[setup.channel].begin(setup.interface, setup.filter)
        self.channels = dict(sorted(kept.items()))

    def new_channel(self, setup: Setup, now: float) -> Channel:
        """A channel that comes, whose interface may be away already."""
        made = Channel(setup, now)
        if setup.interface in self.links:
            made.link(*self.links[setup.interface])
        return made

    def capture_counted(self, interface: str, counts: Counts, now: float) -> None:
        """The capture has counted so much of an interface since the run began."""
        for channel in self.channels.values():
            if channel.interface == interface:
                channel.count(counts, now)

    def linked(self, interface: str, away: Optional[str], now: float) -> None:
        """An interface brings no frames from now on, for this reason, or by None it does again."""
        self.links[interface] = (away, now)
        for channel in self.channels.values():
            if channel.interface == interface:
                channel.link(away, now)

    def published(self, address: str, sent: Optional[Sent], now: float) -> None:
        """So much was sent to a station by now; None where its publisher has died."""
        self.ground.setdefault(address, Ground(address)).take(sent, now)

    def filter_changed(self, channel: int, version: int, name: str) -> None:
        """A channel's filter is this version in the recording that goes on, of this name."""
        if channel in self.channels:
            self.channels[channel].install(version, name)

    def marked(self, mark: Marked, name: str, now: float) -> None:
        """A recording of this name has one more mark."""
        self.marks.append((now, MarkView(name, mark.counter, mark.time, mark.text, 0)))

    def grown(self, number: int, growth: Growth, told: Sequence[Told], now: float) -> None:
        """A recording's file has grown by packets that tell this."""
        going = self.going.get(number)
        if not going:
            return
        self.written += max(growth.size - going.bytes, 0)
        going.bytes, going.unread, going.fault = growth.size, growth.unread(), growth.fault
        for piece in told:
            self.take(piece, number == self.current, now)

    def take(self, told: Told, is_current: bool, now: float) -> None:
        """Takes what a packet tells."""
        found = self.channels.get(told.channel) if told else None
        if not told or not found:
            return
        if isinstance(told, Kept):
            found.keep(told.frames, told.bytes, now)
        elif isinstance(told, End) and is_current:
            found.has_ended = True

    def synced(self, now: float) -> None:
        """The recording that goes on was forced to its disk."""
        self.synced_at = now

    def sync_failed(self, name: str, why: str) -> None:
        """A recording couldn't be forced to its disk."""
        self.sync_faults, self.sync_fault = self.sync_faults + 1, f"{name} can't be forced to its disk: {why}"

    def has_room(self, free: Optional[int]) -> None:
        """So many bytes are free on the recording's disk."""
        self.free = free

    def recording_ended(self, number: int, status: int, report: Sequence[str], audit: Sequence[str]) -> None:
        """A recording has ended, with the status of its recorder, or where that is 0 of its audit; with the lines of
        its report and of its audit, which are none where there was none."""
        going = self.going.pop(number, None)
        if not going:
            return
        if number == self.current:
            self.current = None
        reports = [it for it in map(Report.of, report) if it]
        size = reports[-1].bytes if reports else going.bytes
        ended = EndedView(number, going.name, size, status, audit[-1] if audit else None)
        self.recordings.append(ended)
        yes, no, none = self.audits
        if ended.audit is None:
            self.audits = Audits(yes, no, none + 1)
        else:
            self.audits = Audits(yes, no + 1, none) if ended.is_refused() else Audits(yes + 1, no, none)

    def recorder_stopped(self, number: int, name: str, killed_by: Optional[int]) -> None:
        """A recorder takes no more frames, since its output failed, or this signal ended it."""
        self.has_stopped = self.has_stopped or number == self.current
        if killed_by is not None:
            self.killed = f"the recorder of {name} was ended by signal {killed_by}"

    def ended(self) -> None:
        """The run has ended."""
        self.is_ended, self.current = True, None

    def pass_time(self, now: float) -> None:
        """Closes the seconds that are over by now, of which the run had one when it had gone on for half a second, and
        so on, so that a timer of a second meets each once. What came in a time of several is spread over them."""
        passed = floor(now - self.begun + 0.5) - self.second
        if passed <= 0:
            return
        self.second += passed
        self.sizes.append((now, self.written))
        for channel in self.channels.values():
            channel.pass_time(passed, now)

    # ---- what is shown

    def rate(self) -> Optional[float]:
        """How many bytes a second were written in the last minute; None where that isn't known yet."""
        (begin, before), (end, after) = self.sizes[0], self.sizes[-1]
        return (after - before) / (end - begin) if end > begin else None

    def state(self) -> State:
        """Whether a recording goes on."""
        if self.is_ended:
            return State.ENDED
        return State.WAITING if self.current is None or self.has_stopped else State.RECORDING

    def view(self, now: float) -> View:
        """The run at this moment."""
        rate = self.rate()
        going = self.going[self.current] if self.current is not None else None
        left = self.free / rate if self.free is not None and rate and going and not self.has_ring else None
        return View(
            now=now,
            state=self.state(),
            uptime=now - self.begun,
            recording=going.view(now, rate) if going else None,
            disk=None if self.free is None else DiskView(self.free, left),
            sync=SyncView(self.sync, since(self.synced_at, now), self.sync_faults, self.sync_fault),
            channels=self.channel_views(now),
            recordings=tuple(self.recordings),
            audits=self.audits,
            marks=tuple(mark._replace(age=now - moment) for moment, mark in self.marks),
            clock=self.clock,
            is_ending=self.is_ending,
            unsigned=self.unsigned,
            unhashed=self.unhashed,
            killed=self.killed,
            ground=tuple(it.view(now) for it in self.ground.values()),
        )

    def channel_views(self, now: float) -> tuple[ChannelView, ...]:
        """The channels, by their IDs."""
        return tuple(it.view(now) for it in self.channels.values())
