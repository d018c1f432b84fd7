"""A recording as streams of packets: one, and another where its clock gets a new origin or a further channel comes."""

from __future__ import annotations

import time
from itertools import islice
from typing import Optional

from bpfrec.formats.facts import Origin
from bpfrec_tools.publish.datagrams import Datagrams
from bpfrec_tools.publish.recording import Placed, Recording
from bpfrec_tools.publish.stream import Broken, Stream

# How much is read of the recording at once, of how many packets, and how often one looks for more, in seconds.
PIECE, MOST_AT_ONCE, PAUSE = 1 << 18, 256, 0.01


class Streaming:
    """A recording that goes out in datagrams."""

    def __init__(self, recording: Recording, datagrams: Datagrams) -> None:
        self.recording, self.datagrams = recording, datagrams
        self.stream: Optional[Stream] = None
        # By what the stream was begun, and where in the recording.
        self.at = 0
        self.channels: dict[int, int] = {}
        self.origins: list[Origin] = []
        # How many bytes of the next packet it has taken, and whether it takes no more by now.
        self.written, self.is_full = 0, False
        self.late = self.others = 0

    def go_on(self) -> None:
        """Writes what is due into the stream, and sends what comes of it; or waits a little."""
        has_come = not self.recording.waiting and self.recording.read_on()
        pause = self.write_due()
        if self.stream:
            self.stream.wait(0.0 if has_come else pause, self.is_full)
            self.stream.read()
            if self.stream.is_over:
                self.end()
        elif not has_come:
            time.sleep(pause)
        self.datagrams.beat()

    def write_due(self) -> float:
        """Writes the packets that are due, as far as the stream takes them: for how many seconds nothing else is due."""
        self.is_full = False
        while self.recording.waiting and not self.is_full:
            due = self.recording.due_in(self.recording.waiting[0])
            if due > 0:
                return min(due, PAUSE)
            self.write()
        return PAUSE

    def write(self) -> None:
        """Writes what can go into the stream at once, as far as that takes it."""
        if not self.written and not self.is_of_stream(self.recording.waiting[0]):
            self.begin()
        self.write_to(self.end_of_part())

    def write_to(self, end: int) -> None:
        """Writes up to a place, as far as the stream takes it."""
        begin = self.recording.waiting[0].at + self.written
        data = self.recording.file.read_at(begin, min(end - begin, PIECE))
        if not data:
            raise Broken(f"{self.recording.path}: read 1 Truncated {self.recording.place()}")
        assert self.stream
        taken = self.stream.write(data)
        self.is_full = taken < len(data)
        self.written += taken
        waiting = self.recording.waiting
        while waiting and self.written >= waiting[0].length:
            self.written -= waiting[0].length
            self.recording.pass_by(waiting.popleft())

    def finish_packet(self) -> None:
        """Writes the rest of a packet of which the stream has a part."""
        while self.written and self.stream and not self.stream.is_over:
            first = self.recording.waiting[0]
            self.write_to(first.at + first.length)
            self.stream.wait(PAUSE, self.is_full)
            self.stream.read()

    def end_of_part(self) -> int:
        """The place up to which packets follow one another that are due and go into the same stream: what is written at
        once comes out at once. It isn't looked for further than what is read at once."""
        packets = islice(self.recording.waiting, MOST_AT_ONCE)
        first = next(packets)
        end = first.at + first.length
        for placed in packets:
            is_next = placed.at == end and end < first.at + PIECE
            if not is_next or not self.is_of_stream(placed) or self.recording.due_in(placed) > 0:
                break
            end += placed.length
        return end

    def is_of_stream(self, placed: Placed) -> bool:
        """Whether a packet goes into the stream that was begun last."""
        is_named = not placed.channel or placed.channel in self.channels
        return self.stream is not None and is_named and self.origins == self.recording.origins()

    def begin(self) -> None:
        """Begins another stream behind the last one, from the next packet on."""
        self.end()
        recording = self.recording
        self.at, self.channels, self.origins = recording.place(), recording.channels(), recording.origins()
        setup = recording.setup(self.channels, self.at)
        self.stream = Stream(setup, self.datagrams.add, self.datagrams.flush)
        recording.repeat_filters()

    def end(self) -> None:
        """Ends the stream: what is left of it goes out."""
        stream, self.stream = self.stream, None
        if stream is None:
            return
        try:
            late, others = stream.end()
        except Broken as why:
            where = f" of its stream from byte {self.at} on" if self.at else ""
            raise Broken(f"{self.recording.path}: {why}{where}") from None
        self.late += late
        self.others += others
