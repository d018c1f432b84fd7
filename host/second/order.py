"""The order of a whole file's packets: what stands first, the counters, the time packets, and the channels' turns."""

from __future__ import annotations

from bisect import bisect_right
from typing import Iterator, NamedTuple, Optional

from second.contents import TICKS_A_HUNDREDTH, TICKS_A_SECOND, Clock
from second.packets import INDEX, SETUP, TIME, Packet

# How far behind the greatest counter a header may be, and from a time packet on whatever follows it.
MOST_BEHIND, MOST_AHEAD = TICKS_A_SECOND, TICKS_A_SECOND + 1
# Where another origin begins, its first time packet stands up to 10 ms later. Where the clock is set twice within these,
# it may be later still; no file says so, and that time is missing is true of it.
FIRST_MOMENT = TICKS_A_HUNDREDTH
LATE = "the last time packet lies over a second ahead"


class Placed(NamedTuple):
    """A fault of the packet at a place."""

    at: int
    fault: str


class Turn(NamedTuple):
    """What decides when a channel's packet goes out: those without a counter last, then by counter and channel."""

    is_without: bool
    counter: int
    channel: int


class Turns:
    """The packets of channels as they went out. Each had to have the least turn of all that came next of their channels;
    so it has a greater one than all others since its channel's last packet."""

    def __init__(self) -> None:
        self.count = 0
        # By channel, the number of its last packet.
        self.last: dict[int, int] = {}
        # The numbers and turns of packets that have a greater one than all behind them.
        self.numbers: list[int] = []
        self.turns: list[Turn] = []

    def is_next(self, turn: Turn) -> bool:
        """Whether the next packet goes out in its turn."""
        at = bisect_right(self.numbers, self.last.get(turn.channel, -1))
        return at == len(self.turns) or self.turns[at] < turn

    def take(self, turn: Turn) -> bool:
        """Takes the next packet: whether it went out in its turn."""
        is_right = self.is_next(turn)
        while self.turns and self.turns[-1] <= turn:
            self.numbers.pop()
            self.turns.pop()
        self.numbers.append(self.count)
        self.turns.append(turn)
        self.last[turn.channel] = self.count
        self.count += 1
        return is_right


class Order:
    """The order of the packets as far as they were read."""

    def __init__(self) -> None:
        self.count = 0
        # Whether the packets are those of a stream: in the order in which they were recorded, with late ones, and of the
        # time packets between two of them the last alone.
        self.is_stream = False
        # The greatest counter of a header, and of a frame or of a header that is no time packet's; the least of all
        # that have one by themselves.
        self.greatest, self.latest = 0, -1
        self.least: Optional[int] = None
        self.clock: Optional[Clock] = None
        # The places of the first and the last time packet, of which the last but the first is followed by what is due
        # then; and the first tick.
        self.first_at, self.first_tick = 0, -1
        self.due_at: Optional[int] = None
        # By channel, the sequence number that comes next.
        self.sequences: dict[int, int] = {}
        self.turns = Turns()
        # The place of the first packet since the last time packet that is over a second behind it, and whether that is
        # wrong whatever follows.
        self.late: Optional[int] = None
        self.is_late = False

    def take(self, packet: Packet) -> Iterator[str]:
        """Takes a packet, but for what it holds: what is wrong with its header."""
        sequence = self.sequences.get(packet.channel, 0)
        self.sequences[packet.channel] = (packet.sequence + 1) % 256
        if packet.sequence != sequence:
            yield f"sequence number {packet.sequence} of channel {packet.channel}, and {sequence} comes next"
        if self.count < 2 and packet.kind != (SETUP, TIME)[self.count]:
            yield "a file begins with its setup record and a time packet"
        if not self.is_stream and packet.counter < self.greatest - MOST_BEHIND:
            yield "the counter lies over a second behind an earlier one"
        if packet.kind not in (TIME, SETUP):
            yield from self.take_distance(packet)
        self.count += 1
        self.greatest = max(self.greatest, packet.counter)

    def take_distance(self, packet: Packet) -> Iterator[str]:
        """Judges how far a packet is from the last time packet."""
        ahead = packet.counter - self.clock.counter if self.clock else 0
        if ahead > MOST_AHEAD and self.late is None:
            self.late = packet.at
        self.is_late |= ahead > MOST_AHEAD + FIRST_MOMENT
        if packet.kind != INDEX:
            if self.due_at is not None and ahead < 0:
                yield "a time packet stands ahead of what is earlier"
            self.due_at = None

    # ---- time packets

    def suppose_time(self, at: int, counter: int) -> Iterator[Placed]:
        """Takes a time packet that can't be read as if it agreed with the last one."""
        if self.clock:
            yield from self.take_time(at, self.clock.at(counter))

    def take_time(self, at: int, clock: Clock) -> Iterator[Placed]:
        """Takes the time packet at a place: what is wrong with it, or with one ahead of it."""
        before, self.clock = self.clock, clock
        if before is None:
            self.first_at, self.first_tick = at, clock.counter
            return
        self.due_at = at
        if clock.is_external != before.is_external:
            yield Placed(at, "the time packet has another source than the one ahead of it")
        if clock.counter <= before.counter:
            yield Placed(at, "time packets don't rise")
        elif clock.counter <= self.latest:
            yield Placed(at, "the time packet stands behind a frame or a record of its time")
        is_next = clock.zero() == before.zero() and clock.hundredths == before.next_second()
        second = before.next_second() * TICKS_A_HUNDREDTH - before.zero()
        if not is_next and not self.is_stream and clock.counter > second + FIRST_MOMENT:
            yield Placed(at, "a time packet is missing ahead of it")
        yield from self.late_faults(is_next)

    def late_faults(self, is_next: bool) -> Iterator[Placed]:
        """The first packet that was over a second behind the last time packet; a little more is right where another
        origin begins, so that no whole second is next."""
        if self.late is not None and (self.is_late or is_next):
            yield Placed(self.late, LATE)
        self.late, self.is_late = None, False

    # ---- frames and records

    def take_turn(self, turn: Turn, last: int) -> Iterator[str]:
        """Takes a packet of frames or a record, whose last counter this is: what is wrong with its place."""
        if not turn.is_without:
            self.least = turn.counter if self.least is None else min(self.least, turn.counter)
            self.latest = max(self.latest, last)
        if not self.is_stream and not self.turns.take(turn):
            yield "a packet ahead of it had to stand behind it"

    def end(self) -> Iterator[Placed]:
        """What is wrong at the end of the file."""
        yield from self.late_faults(True)
        if self.due_at is not None:
            yield Placed(self.due_at, "nothing follows the last time packet")
        if self.clock and self.least is not None:
            if not self.least - FIRST_MOMENT < self.first_tick <= self.least + TICKS_A_SECOND:
                yield Placed(self.first_at, f"the first time packet is far from the least counter, {self.least}")
