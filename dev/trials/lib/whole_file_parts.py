"""Whole Chapter 11 files for trials: of drawn recordings, by the second writer, and taken apart to be damaged."""

import io
import random
from collections.abc import Callable, Iterable
from typing import Any, NamedTuple

from drawn_recording import DrawnRecording, drawn_insns
from frames import packet_of
from packets import packets_in
from second import Check
from whole_file import INDEX, MOST_NAMED, File, Origin, Setup, whole_file

SECOND = 10_000_000
# 2025-12-01 12:00:00.250000123.
ORIGIN = 1_764_590_400_250_000_123


def recorded(draw: random.Random, channels: list[int], start: int, seconds: int) -> DrawnRecording:
    """A recording whose counters rise over that many seconds, with packets in the order of their last frames."""
    made = DrawnRecording()
    ends = []
    for channel in channels:
        made.add_program(channel, 0, start, drawn_insns(draw))
        count = draw.choice([0, 1, 5, 300])
        counters = sorted(start + draw.randrange(seconds * SECOND) for _ in range(count))
        frames = [(it, draw.choice([0, 0, 1, 2]), draw.randrange(18, 200)) for it in counters]
        while frames:
            size = draw.randrange(1, 80)
            ends.append((frames[:size][-1][0], channel, frames[:size]))
            frames = frames[size:]
    for _, channel, frames in sorted(ends):
        made.add_frames(channel, frames)
    for channel in channels:
        counters = made.channel(channel).counters()
        made.add_end(channel, draw.choice([0, 3]), counters[-1] if counters else start)
    return made


def sample_recording() -> bytes:
    """Two channels over three seconds and, after a silence, the seventh; and a third that was offered nothing."""
    made = DrawnRecording()
    for channel in (5, 9):
        made.add_program(channel, 0, 1_000, drawn_insns(random.Random(1)))
    for second in (0, 1, 2, 6):
        for channel in (5, 9):
            counter = second * SECOND + 1_000 * channel
            made.add_frames(channel, [(counter, 0, 60), (counter + 500, 1, 61)])
    for channel in (5, 9):
        made.add_end(channel, 0, 6 * SECOND + 9_500)
    made.add_end(12, 0, 0)
    return bytes(made.data)


SAMPLE_SETUP = Setup(
    (Origin(0, ORIGIN),),
    host="bench 3",
    program="bpfrec 0.1.0",
    attributes=("G\\SC:U",),
    channels={5: ("eth5", 3), 9: ("wing", 0)},
)


def sample(most_named: int = MOST_NAMED) -> bytes:
    """The whole file of these."""
    return bytes(whole_file(sample_recording(), SAMPLE_SETUP, most_named).data)


class Part(NamedTuple):
    """A packet of a file, as it is written anew."""

    channel: int
    sequence: int
    kind: int
    counter: int
    data: bytes

    def bytes(self) -> bytes:
        return packet_of(self.channel, self.data, self.sequence, self.kind, self.counter, True)


Change = Callable[[list[Part]], list[Part]]
Edit = Callable[[bytes], bytes]


def parts_of(data: bytes) -> list[Part]:
    """The packets of a file."""
    found = []
    for at, channel, kind, counter, body in packets_in(data):
        found.append(Part(channel, data[at + 13], kind, counter, body))
    return found


def bytes_of(parts: Iterable[Part]) -> bytes:
    return b"".join(it.bytes() for it in parts)


def rebuilt(parts: Iterable[Part], most_named: int = MOST_NAMED) -> bytes:
    """The file of these packets with sequence numbers and an index that are right."""
    file = File(most_named)
    for part in parts:
        if part.kind != INDEX:
            file.put("part", part.channel, part.kind, part.counter, part.data)
    file.end()
    return bytes(file.data)


def faults_of(data: bytes, most_named: int = MOST_NAMED) -> list[str]:
    """What is wrong with a file, each with the place of its packet."""
    found: list[str] = []
    Check(lambda at, fault: found.append(f"{at} {fault}"), most_named).read(io.BytesIO(data))
    return found


def number_of(parts: list[Part], kind: int, which: int) -> int:
    """The number of the packet of a type; negative numbers count from the last one."""
    return [number for number, it in enumerate(parts) if it.kind == kind][which]


def place_of(parts: list[Part], kind: int, which: int) -> int:
    """The place of its first byte."""
    return len(bytes_of(parts[: number_of(parts, kind, which)]))


def with_fields(kind: int, which: int, /, **fields: Any) -> Change:
    """Has one packet other fields."""

    def change(parts: list[Part]) -> list[Part]:
        at = number_of(parts, kind, which)
        return [*parts[:at], parts[at]._replace(**fields), *parts[at + 1 :]]

    return change


def with_data(kind: int, which: int, edit: Edit) -> Change:
    """Has one packet other data."""

    def change(parts: list[Part]) -> list[Part]:
        at = number_of(parts, kind, which)
        return [*parts[:at], parts[at]._replace(data=edit(parts[at].data)), *parts[at + 1 :]]

    return change


def without(kind: int, which: int) -> Change:
    """Leaves a packet out."""

    def change(parts: list[Part]) -> list[Part]:
        at = number_of(parts, kind, which)
        return [*parts[:at], *parts[at + 1 :]]

    return change


def exchanged(one: int, other: int) -> Change:
    """Has two packets in each other's place, by their numbers."""

    def change(parts: list[Part]) -> list[Part]:
        found = list(parts)
        found[one], found[other] = parts[other], parts[one]
        return found

    return change


def byte_set(at: int, value: int) -> Edit:
    return lambda data: data[:at] + bytes((value,)) + data[at + 1 :]


def replaced(old: str, new: str) -> Edit:
    return lambda data: data.replace(old.encode(), new.encode("latin-1"), 1)
