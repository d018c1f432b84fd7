"""A second writer of streams, by docs/user/formats/whole_file.md alone: plain and slow, a packet of the recording at a
time.

It takes from the second writer of whole files what both have: pieces, the clock, and the bytes of packets. `Stream` has
what went out so far, and raises `Refused` where nothing more does.
"""

import struct
from typing import Iterator, NamedTuple, Optional

from frames import COMPUTER, FRAMES, body_of
from packets import frames_in
from whole_file import (
    CHANNELS,
    MOST_DISORDER,
    SETUP,
    TIME,
    File,
    Piece,
    Refused,
    Setup,
    judge_year,
    pieces_of,
    setup_body,
)
from whole_file_clock import Mark, marks_of, rules_of, time_body

# A setup record goes out once more 10 s of ticks behind the last one.
SETUP_TICKS = 100_000_000
# No index: no number of packets is named.
NO_INDEX = 1 << 62


class Waiting(NamedTuple):
    """A piece on its way: its channel, whether it is an end, and itself."""

    channel: int
    is_end: bool
    piece: Piece


class Stream:
    """What goes out of a recording, packet by packet."""

    def __init__(self, setup: Setup) -> None:
        free = next((it for it in range(1, CHANNELS) if it not in setup.channels), 0)
        if not free:
            raise Refused(7, "Full", 0)
        self.setup, self.time_channel = setup, free
        self.file = File(NO_INDEX)
        self.ends: list[Waiting] = []
        self.marks: Optional[Iterator[Mark]] = None
        self.ahead: Optional[Mark] = None
        self.text, self.setup_tick = b"", 0
        self.late = self.other = 0

    def line(self) -> str:
        """What the command prints at the end."""
        counts = self.file.counts
        sent = " ".join(f"{it} {counts[it]}" for it in ("packets", "records", "times"))
        return f"{sent} late {self.late} other {self.other}"

    def put(self, at: int, channel: int, kind: int, counter: int, data: bytes) -> None:
        """Puts out what goes out of a packet."""
        if kind == FRAMES and channel:
            self.check(channel, at)
            frames = frames_in(data)
            least = min((it.counter for it in frames), default=None)
            self.put_pieces(
                at, least, [Waiting(channel, False, it) for it in pieces_of(Piece(at, None, tuple(frames)))]
            )
        elif (kind, channel, data[4:8]) == (COMPUTER, 0, b"CBPR"):
            record_kind, named = struct.unpack_from("<HH", data, 8)
            self.check(named, at)
            is_counted = record_kind == 1 or struct.unpack_from("<Q", data, 12)[0] > 0
            least = counter if is_counted else None
            self.put_pieces(at, least, [Waiting(named, record_kind != 1, Piece(at, least, record=data))])
        else:
            self.other += 1

    def check(self, channel: int, at: int) -> None:
        if channel not in self.setup.channels:
            raise Refused(1, "Other", at)

    def put_pieces(self, at: int, least: Optional[int], pieces: list[Waiting]) -> None:
        if self.marks is None and least is None:
            for piece in pieces:
                if any(it.channel == piece.channel for it in self.ends):
                    raise Refused(1, "Other", at)
            self.ends += pieces
            return
        if self.marks is None:
            assert least is not None
            self.begin(least)
            pieces, self.ends = pieces + self.ends, []
        for piece in pieces:
            self.put_piece(piece)

    # ---- setup and time

    def begin(self, least: int) -> None:
        self.marks = marks_of(rules_of(self.setup.origins), least)
        first = next(self.marks, None)
        if first is None:
            raise Refused(4, "Origin", 0)
        judge_year(first)
        self.text = setup_body(self.setup, self.setup.channels, self.time_channel, first, False)
        self.put_setup(first.tick)
        self.put_time(first)
        self.ahead = next(self.marks, None)

    def put_due(self, counter: int) -> None:
        """Puts out the last of the time packets that are due, and ahead of it the setup record, where that is."""
        assert self.marks is not None
        due = None
        while self.ahead and self.ahead.tick <= counter:
            due, self.ahead = self.ahead, next(self.marks, None)
        if due is None:
            return
        if due.tick >= self.setup_tick + SETUP_TICKS:
            self.put_setup(due.tick)
        self.put_time(due)

    def put_setup(self, tick: int) -> None:
        self.file.write("setup", 0, SETUP, tick, self.text)
        self.setup_tick = tick

    def put_time(self, mark: Mark) -> None:
        judge_year(mark)
        body = time_body(mark, self.setup.is_external)
        self.file.write("times", self.time_channel, TIME, mark.tick, body)

    # ---- pieces

    def put_piece(self, waiting: Waiting) -> None:
        """Puts out a piece, in as many packets as time packets cut it into."""
        piece = waiting.piece
        frames = piece.frames
        while True:
            greatest = self.file.greatest
            own = frames[0].counter if frames else piece.counter
            counter = greatest if own is None else max(own, greatest) if waiting.is_end else own
            self.put_due(counter)
            if counter + MOST_DISORDER < self.file.greatest:
                self.late += 1
            if not frames:
                self.file.write("records", 0, COMPUTER, counter, piece.record)
                return
            later = (at for at, it in enumerate(frames) if self.ahead and it.counter >= self.ahead.tick)
            count = next(later, len(frames))
            words = [(it.counter, it.word & ~0xFFFF, it.bytes) for it in frames[:count]]
            self.file.write("packets", waiting.channel, FRAMES, counter, body_of(words))
            frames = frames[count:]
            if not frames:
                return
