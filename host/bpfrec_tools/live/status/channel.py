"""A channel of a run: what was counted of it, second by second."""

from __future__ import annotations

from collections import deque
from typing import Optional

from bpfrec_tools.live.parts.expressions import ALL
from bpfrec_tools.live.run.ports import Counts, Setup
from bpfrec_tools.live.status.view import (
    HISTORY_SECONDS,
    ChannelView,
    FilterView,
    LinkView,
    Second,
    Unkept,
    lost,
    since,
)

# Counts that come closer together than this make no rate of their own, and those that are older tell none, in seconds.
LEAST_BETWEEN, MOST_BETWEEN = 0.5, 2.5
NOTHING = Counts(0, 0, 0, 0, 0, 0)
# The fields of a second that have what was kept.
KEPT = (Second._fields.index("kept_frames"), Second._fields.index("kept_bytes"))


class Channel:
    """A channel. The capture's counts come at a phase of their own, so a rate is that between two of them."""

    def __init__(self, setup: Setup, now: float) -> None:
        self.channel, self.interface, self.name = setup.channel, setup.interface, setup.name
        self.filter = FilterView(ALL, 0)
        self.version, self.has_ended = 0, False
        # The last counts, and those of the last second's end; moments of the last counts, frame and loss.
        self.counts: Optional[Counts] = None
        self.counts_before = NOTHING
        self.counted_at: Optional[float] = None
        self.frame_at: Optional[float] = None
        self.lost_at: Optional[float] = None
        # Why it brings no frames, or brought none last, and since when that is so, or is over; how often it was so.
        self.away, self.why, self.interruptions = False, "", 0
        self.linked_at: Optional[float] = None
        # When it first came, or its last kept packet did, and what was offered then.
        self.begun = self.kept_at = now
        self.offered_when_kept = NOTHING
        # The counts by which rates are told, and the rates of frames and bytes.
        self.base: tuple[float, Counts] = (now, NOTHING)
        self.rates: Optional[tuple[float, float]] = None
        # When counts came again behind a pause. How many seconds have passed since the counts by which rates are told,
        # and behind a pause how many had, until they are the rates of all these.
        self.resumed_at: Optional[float] = None
        self.passed = 0
        self.pause: Optional[int] = None
        self.kept_frames = self.kept_bytes = self.kept_frames_before = self.kept_bytes_before = 0
        self.history: deque[Second] = deque(maxlen=HISTORY_SECONDS)

    def begin(self, interface: Optional[str], name: str) -> None:
        """A recording begins, with the filter of this name."""
        self.interface, self.filter = interface, self.filter._replace(name=name)
        self.version, self.has_ended = 0, False

    def count(self, counts: Counts, now: float) -> None:
        """Takes what was counted since the run began; a count that goes back is taken as it is."""
        last = self.counts or NOTHING
        if counts.frames > last.frames:
            self.frame_at = now
        if lost(counts) > lost(last):
            self.lost_at = now
        if self.counts is None:
            self.base, self.passed = (now, counts), 0
        elif self.counted_at is not None and now - self.counted_at > MOST_BETWEEN:
            # What came in the pause is counted now and in a moment.
            self.resumed_at, self.rates = now, None
        elif now - (self.resumed_at or self.base[0]) >= LEAST_BETWEEN:
            self.pause, self.resumed_at = None if self.resumed_at is None else self.passed, None
            self.rates = rates_between(self.base, (now, counts))
            self.base, self.passed = (now, counts), 0
        self.counts, self.counted_at = counts, now

    def link(self, away: Optional[str], now: float) -> None:
        """The interface brings no frames from now on, for this reason, or by None it does again."""
        self.interruptions += away is not None
        self.away, self.why, self.linked_at = away is not None, away or self.why, now

    def install(self, version: int, name: str) -> None:
        """The filter is this version now, of this name."""
        self.version, self.filter = version, FilterView(name, self.filter.changes + 1)

    def keep(self, frames: int, size: int, now: float) -> None:
        """The recording has a packet of so many frames more."""
        self.kept_frames += frames
        self.kept_bytes += size
        if frames:
            self.kept_at, self.offered_when_kept = now, self.counts or NOTHING

    def pass_time(self, passed: int, now: float) -> None:
        """So many seconds have passed since the last call."""
        counts = self.counts or NOTHING
        before, self.counts_before = self.counts_before, counts
        frames, self.kept_frames_before = self.kept_frames - self.kept_frames_before, self.kept_frames
        size, self.kept_bytes_before = self.kept_bytes - self.kept_bytes_before, self.kept_bytes
        has_rates = self.rates and self.counted_at is not None and now - self.counted_at <= MOST_BETWEEN
        rates = self.rates if has_rates and self.rates else (None, None)
        last = Second(
            offered_frames=rates[0],
            offered_bytes=rates[1],
            kept_frames=frames / passed,
            kept_bytes=size / passed,
            dropped=max(counts.dropped - before.dropped, 0),
            missed=max(counts.missed - before.missed, 0),
            skipped=max(counts.skipped - before.skipped, 0),
            waited=max(counts.waited - before.waited, 0),
            version=self.version,
            age=since(self.frame_at, now),
        )
        # What was lost and waited is told once, in the last of them.
        earlier = last._replace(dropped=0, missed=0, skipped=0, waited=0)
        self.history.extend([earlier] * (min(passed, HISTORY_SECONDS) - 1))
        self.history.append(last)
        self.passed += passed
        if self.pause is not None:
            self.spread(self.pause + passed)
            self.pause = None

    def spread(self, seconds: int) -> None:
        """After a pause of the counts the last second has the rates of the whole pause: each of so many seconds gets them,
        and the mean of what was kept."""
        last, at = self.history[-1], range(max(len(self.history) - seconds, 0), len(self.history))
        frames, size = (sum(self.history[it][field] or 0 for it in at) / len(at) for field in KEPT)
        for second in at:
            self.history[second] = self.history[second]._replace(
                offered_frames=last.offered_frames,
                offered_bytes=last.offered_bytes,
                kept_frames=frames,
                kept_bytes=size,
            )

    def unkept(self, now: float) -> Optional[Unkept]:
        """What was offered since a kept frame was last seen; None where nobody counts."""
        if self.counts is None:
            return None
        frames = self.counts.frames - self.offered_when_kept.frames
        return Unkept(now - self.kept_at, max(frames, 0), max(self.counts.bytes - self.offered_when_kept.bytes, 0))

    def view(self, now: float) -> ChannelView:
        """The channel at this moment. What came and what was kept are read at moments of their own, and what was kept has
        come."""
        counts, kept = self.counts, (self.kept_frames, self.kept_bytes)
        came = counts and counts._replace(frames=max(counts.frames, kept[0]), bytes=max(counts.bytes, kept[1]))
        return ChannelView(
            channel=self.channel,
            interface=self.interface,
            name=self.name,
            version=self.version,
            counts=came,
            counts_age=since(self.counted_at, now),
            frame_age=since(self.frame_at, now),
            lost_age=since(self.lost_at, now),
            kept_frames=self.kept_frames,
            kept_bytes=self.kept_bytes,
            seconds=now - self.begun,
            has_ended=self.has_ended,
            unkept=self.unkept(now),
            history=tuple(self.history),
            filter=self.filter,
            link=LinkView(self.away, self.why, since(self.linked_at, now), self.interruptions),
        )


def rates_between(begin: tuple[float, Counts], end: tuple[float, Counts]) -> tuple[float, float]:
    """Frames and bytes a second between two counts; one that goes back is taken as nothing."""
    length, before, after = end[0] - begin[0], begin[1], end[1]
    return max(after.frames - before.frames, 0) / length, max(after.bytes - before.bytes, 0) / length
