"""A reading of frames: one after the other, in the order of the recordings or by time."""

from __future__ import annotations

import heapq
from typing import Iterator, Optional, Sequence

from bpfrec.channels import Part, Ranges
from bpfrec.core.index import Place
from bpfrec.core.recordings import last_moments
from bpfrec.core.times import Order
from bpfrec.formats.body import (
    FCS_WRONG,
    FRAME_ERROR,
    LENGTH_BITS,
    MOST_NETWORK,
    MOST_SPEED,
    NETWORK_BIT,
    SPEED_AT,
    chosen,
)
from bpfrec.formats.limits import NANOSECONDS_A_TICK
from bpfrec.sources import Source
from bpfrec.values import Frame, frame_of


class Taken:
    """What a reading takes of recordings, which stay open as long as it does: parts of them, or all that one has."""

    def __init__(self, keeps_open: object, sources: Sequence[Source], parts: Optional[list[Part]]) -> None:
        self.keeps_open, self.sources, self.parts = keeps_open, sources, parts
        self.skipped = 0

    def in_order(self) -> Iterator[Frame]:
        """The frames in the order of the packets, one recording after the other."""
        for source in self.sources:
            parts = {it.recorded_as: it for it in self.parts or [] if it.source is source}
            places = {
                number: {it.at for it in part.places} for number, part in parts.items() if part.ranges is not None
            }
            for place in source.index.all_places():
                number = place.channel
                if self.parts is None:
                    yield from self.frames_at(source, place, number, None)
                elif number in parts and (number not in places or place.at in places[number]):
                    yield from self.frames_at(source, place, parts[number].channel, parts[number].ranges)
            source.refuse_damage()

    def by_time(self) -> Iterator[Frame]:
        """The frames by time; of equal times the part that comes first goes first."""
        self.refuse_damage()
        moments = last_moments(it.recording for it in self.sources)
        streams = []
        for number, part in enumerate(self.parts or []):
            recording = part.source.recording
            streams.append(self.placed(number, part, Order(recording.times, moments[recording.run()])))
        for _, _, frame in heapq.merge(*streams):
            yield frame

    def refuse_damage(self) -> None:
        """Refuses recordings of which a damaged place is known."""
        for source in self.sources:
            source.refuse_damage()

    def placed(self, number: int, part: Part, order: Order) -> Iterator[tuple[int, int, Frame]]:
        """The frames of a part, each with its place among those of all parts."""
        place_of = order.of
        for place in part.places:
            for frame in self.frames_at(part.source, place, part.channel, part.ranges):
                yield place_of(frame.counter), number, frame

    def frames_at(self, source: Source, place: Place, channel: int, ranges: Ranges) -> list[Frame]:
        """The frames of a packet; none where it is damaged and skipped."""
        body = source.body(place)
        if body is None:
            return []
        rows, skipped = chosen(body[0], ranges)
        self.skipped += skipped
        version, data = source.version_at(place), body[1]
        # Each frame of a recording comes through here, so names are local.
        clock, make, found = source.clock, frame_of, []
        low, high, moment = clock.spans[0]
        for counter, word, begin in rows:
            if not low <= counter < high:
                low, high, moment = clock.span_at(counter)
            time_ns = None if moment is None else moment + counter * NANOSECONDS_A_TICK
            frame, has_error = data[begin : begin + (word & LENGTH_BITS)], word & FRAME_ERROR != 0
            network, speed = word >> NETWORK_BIT & MOST_NETWORK, word >> SPEED_AT & MOST_SPEED
            found.append(make(channel, counter, time_ns, frame, word >= FCS_WRONG, has_error, network, speed, version))
        return found


class Reading(Iterator[Frame]):
    """The frames that `Recording.frames` was asked for, once each, as an iterator. It keeps the recording open."""

    def __init__(self, taken: Taken, by_time: bool) -> None:
        self._taken = taken
        self._frames = taken.by_time() if by_time else taken.in_order()

    def __iter__(self) -> Iterator[Frame]:
        return self._frames

    def __next__(self) -> Frame:
        return next(self._frames)

    @property
    def skipped(self) -> int:
        """How many frames it has skipped so far, since they are no Ethernet frames with their FCS: they have another
        content, or fewer than 18 bytes. `bpfrec extract` skips them too."""
        return self._taken.skipped
