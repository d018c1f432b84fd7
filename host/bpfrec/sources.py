"""One recording of those that are open: what it has, its times, and its damaged places."""

from __future__ import annotations

import io
import os
import stat
from bisect import bisect_right
from typing import BinaryIO, NamedTuple, Optional, Union

from bpfrec import values
from bpfrec.core.index import Index, Place
from bpfrec.core.recordings import Recording
from bpfrec.core.times import Time, Times
from bpfrec.errors import BadFacts, Damaged, Fault, NotARecording, NoTimes
from bpfrec.formats import facts, packet
from bpfrec.formats.body import Frames, Range
from bpfrec.formats.held import File
from bpfrec.formats.limits import HEADER_LEN, MAX_COUNTER
from bpfrec.formats.names import facts_path

# What names a recording or a file of facts. Of facts None is the file beside the recording, if it is there, True one that
# must be there, and False none.
Path = Union[str, "os.PathLike[str]"]
Given = Union[Path, bool, None]


class Span(NamedTuple):
    """The counters from `low` on and before `high`, whose times count from one moment; None where nobody knows it."""

    low: int
    high: int
    moment: Optional[int]


class Clock:
    """The times of a recording's counters, by its facts."""

    def __init__(self, known: Optional[facts.Facts]) -> None:
        holding = known.holding if known else []
        lows = [it.counter for it in holding]
        moments = [it.moment if it.scale else None for it in holding]
        # Before the first origin nobody knows the time.
        self.lows = [0, *lows]
        self.spans = [Span(*it) for it in zip(self.lows, [*lows, MAX_COUNTER + 1], [None, *moments])]

    def span_at(self, counter: int) -> Span:
        """The span that a counter is in."""
        return self.spans[bisect_right(self.lows, counter) - 1]


class Source:
    """A recording, by its number among those that are open. Its damaged places are kept in `faults`."""

    def __init__(self, number: int, file: File, given: Given, is_strict: bool) -> None:
        self.number, self.path, self.file, self.is_strict = number, file.path, file, is_strict
        self.faults: dict[int, Fault] = {}
        self.first_fault: Optional[Fault] = None
        self.judge_beginning(file.read_at(0, HEADER_LEN))
        self.index = Index(file, self.note)
        self.judge_packets()
        self.facts = self.own_facts() if self.index.whole and given is None else self.facts_by(given)
        self.clock = Clock(self.facts)
        self.recording = Recording(self.index, Times(self.facts))

    # ---- what is refused

    def judge_beginning(self, head: bytes) -> None:
        """Refuses a file that doesn't begin with a packet's header, but an empty one, which is a recording of nothing."""
        found = packet.header_fault(head) if len(head) == HEADER_LEN else (1, "Truncated")
        if self.is_strict and head and found:
            raise NotARecording(self.path, f"it doesn't begin as a recording: {found[1]} at byte 0")

    def judge_packets(self) -> None:
        """Refuses a file in which no packet is found."""
        while not (self.is_strict or self.index.packets or self.index.is_read()):
            self.index.read_on()
        if self.index.is_read() and self.file.size and not self.index.packets and not self.is_strict:
            raise NotARecording(self.path, "no packet of a recording is in it")

    def note(self, fault: packet.Fault, length: int) -> None:
        """Notes a damaged place, also one that is found again."""
        found = self.faults.setdefault(fault.at, Fault(self.path, fault.at, fault.name, length))
        if self.first_fault is None or fault.at < self.first_fault.place:
            self.first_fault = found

    def refuse_damage(self, before: Optional[int] = None) -> None:
        """Refuses a damaged place before another one, or any, unless such places are skipped."""
        first = self.first_fault
        if self.is_strict and first and (before is None or first.place < before):
            raise Damaged(first.path, first.place, first.kind, first.length)

    # ---- what it says of its times

    def own_facts(self) -> Optional[facts.Facts]:
        """What a whole file says of its times, which stands in all of it."""
        self.index.read()
        try:
            return self.index.whole.facts() if self.index.whole else None
        except facts.NoFacts as fault:
            raise BadFacts(self.path, str(fault)) from None

    def facts_by(self, given: Given) -> Optional[facts.Facts]:
        """The facts that are given, or those beside it."""
        path = facts_path(self.path) if given is None or given is True else os.fsdecode(given or b"")
        if given is False or given is None and not os.path.exists(path):
            return None
        try:
            return facts.read(path)
        except facts.NoFacts as fault:
            raise BadFacts(path, str(fault)) from None

    def utc_at(self, counter: int) -> Optional[int]:
        """The time of a counter, in nanoseconds since 1970 UTC; None where nobody knows it."""
        origin = self.facts.origin_at(counter) if self.facts else None
        return self.facts.moment_of(counter) if self.facts and origin and origin.scale else None

    def public_facts(self) -> Optional[values.Facts]:
        """Its facts as the package gives them."""
        known = self.facts
        if known is None:
            return None
        origins = tuple(values.Origin(it.counter, it.moment, it.scale, it.tai_offset) for it in known.origins)
        marks = tuple(values.Mark(it.counter, self.utc_at(it.counter), it.text) for it in known.marks)
        return values.Facts(known.host, known.program, dict(known.interfaces), origins, dict(known.losses), marks)

    def ranges(self, since: Optional[int], until: Optional[int]) -> Optional[list[Range]]:
        """The counters from one time on and before another; None where that is all of them."""
        if since is None and until is None:
            return None
        if not self.recording.times.are_known():
            why = "the scale of its times is unknown" if self.facts else "there are no facts beside it"
            raise NoTimes(self.path, why)
        begin, end = (None if it is None else Time(it) for it in (since, until))
        return self.recording.times.ranges(begin, end)

    # ---- its packets

    def body(self, place: Place) -> Optional[tuple[Frames, bytes]]:
        """The frames of a packet, and the data that have them; None where they are others, or are damaged and skipped."""
        self.refuse_damage(place.at)
        found = self.index.body(place)
        if found is None:
            self.refuse_damage(place.at + 1)
        return found

    def version_at(self, place: Place) -> Optional[int]:
        """The version of a channel's filter that accepted the frames of a packet."""
        return None if place.program < 0 else self.index.channels[place.channel].programs[place.program].version


def opened(path: Union[Path, BinaryIO]) -> File:
    """A recording that is a regular file, or one that is open."""
    if isinstance(path, io.TextIOBase):
        raise TypeError(f"a recording is opened for bytes, as by open(.., 'rb'), and {path!r} is for text")
    if not isinstance(path, (str, os.PathLike)):
        name = getattr(path, "name", None)
        return File(name if isinstance(name, str) else repr(path), path)
    name = os.fsdecode(path)
    # Before it is opened, since a pipe would be waited for.
    if not stat.S_ISREG(os.stat(name).st_mode):
        raise NotARecording(name, "it is no regular file")
    return File(name, open(name, "rb"))
