"""Recordings that are drawn packet by packet, with what is known of them since they were drawn."""

import random
from collections import Counter
from typing import NamedTuple, Optional

from frames import COMPUTER, FRAMES, body_of, end_data, insns_of, packet_of, program_data

TICKS = 10**7
OTHER = 0x40
JUNK = b"\xaa"


class Version(NamedTuple):
    """A version of a filter, the first frame that met it, and its counter."""

    number: int
    first: int
    counter: int
    insns: bytes


class Channel:
    """What was drawn of a channel: frames as counters, marks and lengths, versions, and the end."""

    def __init__(self) -> None:
        self.frames: list[tuple[int, int, int]] = []
        self.versions: list[Version] = []
        # How many frames were offered and kept, and the counter of the last one.
        self.end: Optional[tuple[int, int, int]] = None

    def counters(self) -> list[int]:
        return [it for it, _, _ in self.frames]

    def gaps(self) -> list[int]:
        """The ticks between one frame and the next."""
        known = self.counters()
        return [later - counter for counter, later in zip(known, known[1:])]


class DrawnRecording:
    """A recording: its bytes, and what they are by channel, packet and place."""

    def __init__(self) -> None:
        self.data = bytearray()
        self.channels: dict[int, Channel] = {}
        self.kinds: Counter[str] = Counter()
        self.sequences: Counter[int] = Counter()
        self.skipped: Counter[int] = Counter()
        # The places of missing sequence numbers: place, channel ID, first number, and how many.
        self.missing: list[tuple[int, int, int, int]] = []
        # The damaged places: place, fault, length, and the channel and the counter of the packet of frames before.
        self.damages: list[tuple[int, str, int, Optional[tuple[int, int]]]] = []
        self.before: Optional[tuple[int, int]] = None

    def channel(self, number: int) -> Channel:
        return self.channels.setdefault(number, Channel())

    def packet(self, channel: int, data: bytes, kind: int, counter: int) -> bytes:
        """A packet that continues its channel's sequence."""
        sequence = self.sequences[channel] % 256
        self.sequences[channel] += 1
        return packet_of(channel, data, sequence, kind, counter, True)

    def add(self, channel: int, data: bytes, kind: int, counter: int, name: str) -> None:
        """Adds a packet, before which sequence numbers may have been skipped."""
        # A number has eight bits, so that more of them can't be told.
        skipped = self.skipped.pop(channel, 0) % 256
        if skipped:
            first = (self.sequences[channel] - skipped) % 256
            self.missing.append((len(self.data), channel, first, skipped))
        self.data += self.packet(channel, data, kind, counter)
        self.kinds[name] += 1

    def skip(self, channel: int, count: int) -> None:
        """Leaves sequence numbers out."""
        self.sequences[channel] += count
        self.skipped[channel] += count

    def add_frames(self, channel: int, frames: list[tuple[int, int, int]]) -> None:
        """Adds a packet of frames: a counter, marks and a length of each."""
        body = body_of((counter, marks << 30, bytes(length)) for counter, marks, length in frames)
        self.add(channel, body, FRAMES, frames[0][0], "frames")
        self.channel(channel).frames += frames
        self.before = channel, frames[0][0]

    def add_program(self, channel: int, first: int, counter: int, insns: bytes) -> None:
        """Adds the next version of a channel's filter."""
        versions = self.channel(channel).versions
        self.add(0, program_data(channel, len(versions), insns, first), COMPUTER, counter, "program")
        versions.append(Version(len(versions), first, counter, insns))

    def add_end(self, channel: int, dropped: int, counter: int) -> None:
        """Adds the end of a channel."""
        known = self.channel(channel)
        known.end = len(known.frames) + dropped, len(known.frames), counter
        self.add(0, end_data(channel, *known.end[:2]), COMPUTER, counter, "end")

    def add_other(self, channel: int) -> None:
        """Adds a packet of another recorder."""
        self.add(channel, b"another's data", OTHER, 0, "other")

    def add_junk(self, words: int) -> None:
        """Adds bytes that are no packet."""
        self.damages.append((len(self.data), "Sync", 4 * words, self.before))
        self.data += 4 * words * JUNK

    def add_lost(self, channel: int, counter: int) -> None:
        """Adds a packet of frames whose data were changed."""
        self.skipped[channel] += 1
        made = bytearray(self.packet(channel, body_of([(counter, 0, bytes(60))]), FRAMES, counter))
        made[40] ^= 1
        self.damages.append((len(self.data), "DataChecksum", len(made), self.before))
        self.data += made


def drawn_insns(draw: random.Random) -> bytes:
    return insns_of((0, 0, 0, draw.randrange(2**32)), (6, 0, 0, draw.randrange(2)))


def drawn_frames(draw: random.Random, counter: int) -> list[tuple[int, int, int]]:
    """Frames from a counter on: close to one another, far apart, at once, or one step back."""
    found = []
    for _ in range(draw.randrange(1, 60)):
        found.append((counter, draw.choice([0, 0, 0, 1, 2, 3]), draw.randrange(18, 90)))
        step = draw.choice([0, 1, 700, 10_000, draw.randrange(3 * TICKS)])
        counter = max(counter + draw.choice([1, 1, 1, 1, 1, 1, 1, -1]) * step, 0)
    return found


def drawn_recording(draw: random.Random) -> DrawnRecording:
    """A recording of some channels, with damage and with missing packets."""
    made, counters = DrawnRecording(), {it: draw.randrange(2**40) for it in draw.sample(range(1, 65_536), 3)}
    for channel, counter in counters.items():
        made.add_program(channel, 0, counter, drawn_insns(draw))
    for _ in range(draw.randrange(60)):
        channel = draw.choice(list(counters))
        kind = draw.choice(["frames"] * 6 + ["version", "same", "skip", "junk", "lost", "other"])
        frames = drawn_frames(draw, counters[channel])
        known = made.channel(channel)
        if kind == "skip":
            made.skip(channel, draw.choice([1, 2, 16, 17, 255]))
        elif kind == "junk":
            made.add_junk(draw.randrange(1, 30))
            made.add_other(9)
        elif kind == "lost":
            made.add_lost(channel, counters[channel])
            made.add_other(9)
        elif kind == "other":
            made.add_other(channel)
        elif kind in ("version", "same"):
            insns = known.versions[-1].insns if kind == "same" else drawn_insns(draw)
            made.add_program(channel, len(known.frames) + draw.randrange(9), counters[channel], insns)
        else:
            made.add_frames(channel, frames)
            counters[channel] = frames[-1][0] + draw.choice([0, 5, 20 * TICKS])
    for channel in list(counters)[draw.randrange(2) :]:
        made.add_end(channel, draw.randrange(70_000), counters[channel])
    return made
