"""Judges a whole file packet by packet: all that is wrong, and what the file has. What is kept doesn't grow with it."""

from __future__ import annotations

from typing import BinaryIO, Callable, Iterator, Optional

from second.contents import Clock, Frame, clock_in, frame_faults, frames_in, record_in
from second.index import MOST_NAMED, Index, is_index
from second.order import Order, Placed, Turn
from second.packets import FRAMES, OWN_CHANNEL, RECORD, SETUP, TIME, Packet, Unread, Wrong, packets_of
from second.setup_record import Setup, setup_faults

Faults = Iterator[str]


class Total:
    """What a channel has in all: packets, frames, and the times of the first and the last, in ticks since 1970."""

    def __init__(self) -> None:
        self.packets = self.frames = 0
        self.first: Optional[int] = None
        self.last: Optional[int] = None

    def take(self, frames: list[Frame], clock: Optional[Clock]) -> None:
        """Takes the frames of a packet, whose times are by the last time packet."""
        self.packets += 1
        self.frames += len(frames)
        if clock:
            self.last = clock.ticks(frames[-1].counter)
            self.first = clock.ticks(frames[0].counter) if self.first is None else self.first


class Check:
    """A file as far as it was read. `tell` gets each thing that is wrong, with the place of its packet; `show` the
    frames of each packet, with what the last time packet says."""

    def __init__(self, tell: Callable[[int, str], None], most_named: int = MOST_NAMED) -> None:
        self.tell = tell
        self.show: Callable[[Packet, list[Frame], Clock], None] = lambda *_: None
        self.setup: Optional[Setup] = None
        self.setup_counter, self.setup_data = 0, b""
        self.order, self.index = Order(), Index(most_named)
        self.channels: dict[int, Total] = {}
        self.packets = self.times = self.records = self.indexes = self.sums = self.wrong = 0

    def name_of(self, channel: int) -> str:
        """The name of a channel's data source; `-` where it isn't known."""
        found = self.setup.channels.get(channel) if self.setup else None
        return found.label if found else "-"

    def read(self, file: BinaryIO, begun: bytes = b"") -> None:
        """Judges a file, of which the bytes `begun` were read."""
        at = last = 0
        try:
            for packet in packets_of(file, begun):
                self.take(packet)
                last, at = packet.at, packet.at + packet.length
        except Unread as fault:
            self.report(at, str(fault))
        self.report_all(self.order.end())
        if not self.order.is_stream:
            for line in self.index.end():
                self.report(last, line)

    def report(self, at: int, fault: str) -> None:
        """Something is wrong with the packet at a place."""
        self.wrong += 1
        self.tell(at, fault)

    def take(self, packet: Packet) -> None:
        """Takes the next packet."""
        greatest = self.order.greatest
        for fault in (*packet.faults, *self.order.take(packet)):
            self.report(packet.at, fault)
        try:
            for fault in self.contents_faults(packet, greatest):
                self.report_contents(packet, fault)
        except Wrong as wrong:
            self.report_contents(packet, str(wrong))
        self.packets += 1
        self.sums += packet.has_sum

    def report_contents(self, packet: Packet, fault: str) -> None:
        """Something is wrong with what a packet holds, as is known where its bytes are wrong."""
        if not packet.faults:
            self.report(packet.at, fault)

    def contents_faults(self, packet: Packet, greatest: int) -> Faults:
        """What is wrong with what a packet holds, behind headers whose greatest counter this is."""
        kind, channel = packet.kind, packet.channel
        if is_index(packet) and self.order.is_stream:
            yield "an index packet in a stream"
            return
        if is_index(packet):
            self.indexes += 1
            yield from self.index.take_index(packet, greatest)
            return
        if not self.order.is_stream:
            yield from self.index.take(packet)
        if channel == OWN_CHANNEL and kind == SETUP:
            yield from self.take_setup(packet)
        elif channel == OWN_CHANNEL and kind == RECORD:
            yield from self.take_record(packet, greatest)
        elif self.setup and self.setup.kind_of(channel) != kind or kind not in (TIME, FRAMES):
            yield f"the setup record has no channel {channel} of type {kind:#04x}"
        elif kind == TIME:
            yield from self.take_time(packet)
        else:
            yield from self.take_frames(packet)

    def take_setup(self, packet: Packet) -> Faults:
        """Takes the setup record, which a stream repeats."""
        if packet.at and self.order.is_stream:
            if packet.data != self.setup_data:
                yield "a setup record of another text"
            return
        if packet.at:
            yield "a setup record within the file"
            return
        self.setup_data = packet.data
        self.setup_counter = packet.counter
        self.setup = Setup(packet.data)
        self.order.is_stream = self.setup.is_stream()
        yield from setup_faults(self.setup)

    def take_record(self, packet: Packet, greatest: int) -> Faults:
        """Takes the record of a program or of an end."""
        self.records += 1
        record = record_in(packet.data)
        if self.setup and self.setup.kind_of(record.channel) != FRAMES:
            yield f"the setup record has no channel {record.channel}, which a record names"
        if not record.has_counter and packet.counter != greatest:
            yield "the counter of an end that was offered nothing isn't the greatest"
        turn = Turn(not record.has_counter, packet.counter if record.has_counter else 0, record.channel)
        # The counts of a run's end are those of all its recordings, of which the last may have been offered nothing.
        if record.is_end and packet.counter == greatest and not self.order.turns.is_next(turn):
            turn = Turn(True, 0, record.channel)
        yield from self.order.take_turn(turn, packet.counter)

    def take_time(self, packet: Packet) -> Faults:
        """Takes a time packet; one that can't be read as if it agreed with the last one."""
        self.times += 1
        try:
            clock = clock_in(packet)
        except Wrong as wrong:
            self.report_all(self.order.suppose_time(packet.at, packet.counter))
            raise wrong
        if self.order.clock is None and self.setup:
            yield from first_time_faults(self.setup, self.setup_counter, clock)
        self.report_all(self.order.take_time(packet.at, clock))

    def report_all(self, faults: Iterator[Placed]) -> None:
        """Faults of packets at their places."""
        for place, fault in faults:
            self.report(place, fault)

    def take_frames(self, packet: Packet) -> Faults:
        """Takes a packet of frames."""
        frames = frames_in(packet.data)
        clock = self.order.clock
        self.channels.setdefault(packet.channel, Total()).take(frames, clock)
        if clock:
            self.show(packet, frames, clock)
        yield from frame_faults(packet.counter, frames)
        turn = Turn(False, packet.counter, packet.channel)
        yield from self.order.take_turn(turn, max(it.counter for it in frames))


def first_time_faults(setup: Setup, counter: int, clock: Clock) -> Faults:
    """What is wrong with the first time packet beside the setup record, whose counter this is."""
    if counter != clock.counter:
        yield "the setup record has another counter than the first time packet"
    if setup.is_external() != clock.is_external:
        yield "the time packet has another source than the setup record"
    if setup.begins() != clock.date_and_time():
        yield f"the setup record says {setup.begins()}, and the first time packet {clock.date_and_time()}"
