"""What is gathered of a recording, packet by packet: counts, rates, gaps, versions of filters, and damaged places.

What is kept doesn't grow with the recording. Times are ticks of 100 ns.
"""

from __future__ import annotations

from bisect import bisect_left
from collections import Counter, defaultdict
from itertools import chain
from operator import sub
from typing import NamedTuple, Optional, Union

from bpfrec.formats.body import Frames
from bpfrec.formats.limits import MAX_VERSIONS, TICKS_A_SECOND
from bpfrec.formats.packet import Damage, Packet
from bpfrec.formats.reader import reader_of
from bpfrec.formats.records import End, Program
from bpfrec.formats.whole_file import WholeFile, begins_whole_file
from bpfrec_tools.cli.progress import Progress, size_of
from bpfrec_tools.info import whole_file

# How many damaged places, gaps in sequence numbers and origins are told one by one; and how many gaps in time.
MOST_PLACES, MOST_GAPS = 1_000, 100
# Of the rates: how many seconds are known each. Of a timeline: the ticks of its finest bars, and how many of all are
# known.
MOST_SECONDS, FINEST, MOST_TIMES = 100_000, TICKS_A_SECOND // 1_000, 1_000
KINDS: dict[type, str] = {Frames: "frames", Program: "program", End: "end", type(None): "other"}


class Rates:
    """How many frames have their counters in each `ticks` ticks; in twice as many where these would be too many."""

    __slots__ = ("ticks", "most", "counts")

    def __init__(self, ticks: int, most: int) -> None:
        self.ticks, self.most = ticks, most
        self.counts: defaultdict[int, int] = defaultdict(int)

    def take(self, counters: list[int], is_rising: bool) -> None:
        """Takes the counters of a packet."""
        if is_rising:
            self.take_rising(counters)
        else:
            for at, count in Counter(it // self.ticks for it in counters).items():
                self.counts[at] += count
        while len(self.counts) > self.most:
            self.counts, self.ticks = self.wider(2 * self.ticks), 2 * self.ticks

    def take_rising(self, counters: list[int]) -> None:
        """Takes counters none of which is less than the one before."""
        ticks, begin, end = self.ticks, 0, len(counters)
        while begin < end:
            at = counters[begin] // ticks
            until = end if counters[-1] // ticks == at else bisect_left(counters, (at + 1) * ticks, begin)
            self.counts[at] += until - begin
            begin = until

    def wider(self, ticks: int) -> defaultdict[int, int]:
        """The counts of as many ticks, which are a multiple of its own."""
        times = ticks // self.ticks
        found: defaultdict[int, int] = defaultdict(int)
        for at, count in self.counts.items():
            found[at // times] += count
        return found

    def greatest(self) -> Optional[int]:
        """The most frames of any of these times; None where there are no frames."""
        return max(self.counts.values(), default=None)

    def seconds(self) -> int:
        """How many seconds each of these times has."""
        return self.ticks // TICKS_A_SECOND


class Gaps:
    """The longest gaps between two frames, each with the counter at which it begins."""

    __slots__ = ("longest", "kept")

    def __init__(self) -> None:
        self.longest = 0
        self.kept: list[tuple[int, int]] = []

    def take(self, counters: list[int], gaps: list[int], most: int) -> None:
        """Takes the times before the frames of a packet, of which `most` is the longest."""
        self.longest = max(self.longest, most)
        if most <= TICKS_A_SECOND:
            return
        self.kept += [(gap, counter - gap) for gap, counter in zip(gaps, counters) if gap > TICKS_A_SECOND]
        if len(self.kept) > MOST_GAPS:
            self.kept = sorted(self.kept, reverse=True)[:MOST_GAPS]


class Version(NamedTuple):
    """A version of a channel's filter: its number, the first frame that met it, with its counter, and its instructions.
    Versions with the same instructions that follow one another are one, up to the number `until`: they close packets
    and change nothing."""

    number: int
    first: int
    counter: int
    insns: bytes
    until: int

    def name(self) -> str:
        """The number, or the first and the last one."""
        return str(self.number) if self.until == self.number else f"{self.number} to {self.until}"


class Channel:
    """What a recording has of a channel."""

    # Of a damaged recording there may be 65,535.
    __slots__ = (
        *("frames", "bytes", "marked", "steps_back", "first", "last", "least", "greatest", "rates", "times", "gaps"),
        *("versions", "version_count", "hidden_versions", "end", "end_counter", "name", "first_time", "last_time"),
    )

    def __init__(self) -> None:
        self.frames, self.bytes, self.marked, self.steps_back = 0, 0, 0, 0
        self.first: Optional[int] = None
        self.last = self.least = self.greatest = 0
        self.rates, self.times, self.gaps = Rates(TICKS_A_SECOND, MOST_SECONDS), Rates(FINEST, MOST_TIMES), Gaps()
        self.versions: list[Version] = []
        # All versions, and those of them that aren't told one by one.
        self.version_count = self.hidden_versions = 0
        self.end: Optional[End] = None
        self.end_counter = 0
        # By a whole file: the channel's name, and the times of its first and last frame, in ticks since 1970.
        self.name = ""
        self.first_time: Optional[int] = None
        self.last_time: Optional[int] = None

    def take(self, frames: Frames) -> None:
        """Takes the frames of a packet."""
        counters = frames.counters
        if not counters:
            return
        if self.first is None:
            self.first = self.last = self.least = self.greatest = counters[0]
        gaps = list(map(sub, counters, chain((self.last,), counters)))
        shortest, longest = min(gaps), max(gaps)
        if shortest < 0:
            self.steps_back += sum(it < 0 for it in gaps)
        self.gaps.take(counters, gaps, longest)
        for rates in (self.rates, self.times):
            rates.take(counters, shortest >= 0)
        least, greatest = (min(counters), max(counters)) if shortest < 0 else (counters[0], counters[-1])
        self.least, self.greatest, self.last = min(self.least, least), max(self.greatest, greatest), counters[-1]
        self.frames += len(counters)
        self.bytes += frames.bytes
        self.marked += frames.marked

    def take_version(self, program: Program, counter: int) -> None:
        """Takes the record of a version, with the counter of the first frame that met it."""
        self.version_count += 1
        if self.versions and self.versions[-1].insns == program.insns and not self.hidden_versions:
            self.versions[-1] = self.versions[-1]._replace(until=program.version)
        elif len(self.versions) < MAX_VERSIONS:
            self.versions.append(Version(program.version, program.first, counter, program.insns, program.version))
        else:
            self.hidden_versions += 1

    def counters(self) -> Optional[tuple[int, int, int, int]]:
        """The first, the last, the least and the greatest counter; None where there are no frames."""
        return None if self.first is None else (self.first, self.last, self.least, self.greatest)

    def span(self) -> Optional[int]:
        """The ticks between the first frame and the last; None where there are no frames."""
        return None if self.first is None else self.last - self.first

    def mean_rate(self) -> Optional[float]:
        """Frames a second, on the whole; None where no time goes by."""
        is_known = self.frames > 1 and self.greatest > self.least
        return self.frames * TICKS_A_SECOND / (self.greatest - self.least) if is_known else None

    def longest_gap(self) -> Optional[int]:
        """The longest time between two frames, in ticks; None where there are no two."""
        return self.gaps.longest if self.frames > 1 else None

    def offered(self) -> Optional[int]:
        """How many frames the channel was offered; None without the record of its end."""
        return None if self.end is None else self.end.offered

    def dropped(self) -> Optional[int]:
        """How many frames the filter dropped; None without the record of its end."""
        return None if self.end is None else self.end.offered - self.end.kept

    def last_offered(self) -> Optional[int]:
        """The counter of the last frame that the channel was offered; None where that isn't known."""
        return self.end_counter if self.end and self.end.offered else None


class Missing(NamedTuple):
    """Sequence numbers of a channel ID that are missing before the packet at a place."""

    at: int
    channel: int
    first: int
    missing: int


class Recording:
    """What a recording has on the whole, and of each channel."""

    def __init__(self) -> None:
        self.channels: defaultdict[int, Channel] = defaultdict(Channel)
        self.kinds: Counter[str] = Counter()
        self.bytes = 0
        # By channel ID: the sequence number that comes next, and how many are missing.
        self.next: dict[int, int] = {}
        self.missing: Counter[int] = Counter()
        self.gaps: list[Missing] = []
        self.gap_count = 0
        self.damages: list[Damage] = []
        # Of each of these the channel and the first counter of the last frames before it; None where there are none.
        self.before: list[Optional[tuple[int, int]]] = []
        self.last_frames: Optional[tuple[int, int]] = None
        self.damage_count, self.damaged_bytes = 0, 0
        # What it says itself of names and times, where it begins as a whole file.
        self.whole: Optional[WholeFile] = None

    def take(self, piece: Union[Packet, Damage]) -> None:
        """Takes a packet, or what stands in the place of packets."""
        if isinstance(piece, Damage):
            self.take_damage(piece)
            return
        header, what = piece.header, piece.what
        self.bytes += len(piece.bytes)
        if not piece.at and begins_whole_file(piece.bytes):
            self.whole = WholeFile()
        self.kinds[whole_file.kind_of(self.whole, piece) if self.whole and what is None else KINDS[type(what)]] += 1
        self.follow(piece)
        if isinstance(what, Frames):
            self.take_frames(header.channel, what)
            self.last_frames = header.channel, header.counter
        elif isinstance(what, Program):
            self.channel(what.channel).take_version(what, header.counter)
        elif isinstance(what, End):
            channel = self.channel(what.channel)
            channel.end, channel.end_counter = what, header.counter

    def channel(self, number: int) -> Channel:
        """The channel of this ID, with its name where the file has it."""
        found = self.channels[number]
        if self.whole:
            found.name = self.whole.name_of(number)
        return found

    def take_frames(self, number: int, frames: Frames) -> None:
        """Takes a packet of frames, whose times are by the last time packet ahead."""
        channel = self.channel(number)
        is_first = channel.first is None
        channel.take(frames)
        if self.whole and frames.counters:
            channel.last_time = self.whole.ticks_of(frames.counters[-1])
            if is_first:
                channel.first_time = self.whole.ticks_of(frames.counters[0])

    def packet_kinds(self) -> list[str]:
        """The kinds of packets that it may have."""
        *known, other = KINDS.values()
        return [*known, *(whole_file.KINDS.values() if self.whole else ()), other]

    def follow(self, packet: Packet) -> None:
        """Compares a packet's sequence number with that of the packet before it."""
        channel, sequence = packet.header.channel, packet.header.sequence
        wanted = self.next.get(channel, 0)
        self.next[channel] = (sequence + 1) % 256
        count = (sequence - wanted) % 256
        if count:
            self.missing[channel] += count
            self.gap_count += 1
            if len(self.gaps) < MOST_PLACES:
                self.gaps.append(Missing(packet.at, channel, wanted, count))

    def take_damage(self, damage: Damage) -> None:
        """Counts bytes that are no packet."""
        self.bytes += damage.length
        self.damage_count, self.damaged_bytes = self.damage_count + 1, self.damaged_bytes + damage.length
        if len(self.damages) < MOST_PLACES:
            self.damages.append(damage)
            self.before.append(self.last_frames)


def read(path: str, is_summed: bool = True, is_quiet: bool = True) -> Recording:
    """What a recording has; its data checksums are summed where `is_summed` says so."""
    recording = Recording()
    with open(path, "rb") as file, Progress("reading", size_of(path), is_quiet) as progress:
        reader = reader_of(file, is_summed)
        for piece in reader.pieces():
            recording.take(piece)
            progress.at(reader.at)
    return recording
