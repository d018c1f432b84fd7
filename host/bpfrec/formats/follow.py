"""A recording's file that may still grow, followed packet by packet.

Of each packet its front is read: the header, and as much of its data as tells how many frames it has, or which end it
is; a record is read whole where it is asked for. Frames are never read, and no data checksum is taken, but behind
damaged places of a recording that has ended.
"""

from __future__ import annotations

from typing import Callable, Iterator, NamedTuple, Optional, Union

from bpfrec.formats.body import NETWORK_AT, BadBody
from bpfrec.formats.held import ReadAt
from bpfrec.formats.limits import (
    BODY_WORD_LEN,
    END_RECORD_LEN,
    ETHERNET_DATA,
    FRAME_HEADER_LEN,
    HEADER_LEN,
    INSN_LEN,
    MAX_ETHERNET_PACKET_LEN,
    MAX_INSNS,
    PROGRAM_HEAD_LEN,
)
from bpfrec.formats.packet import SYNC, Fault, Header, header_of, header_or_fault
from bpfrec.formats.reader import Reader
from bpfrec.formats.records import End, Program, record_in

# How much a call looks at, at most: packets; damaged places, bytes behind each, and places in these that look like
# packets.
MOST_PACKETS, MOST_FAULTS, MOST_SEARCHED, MOST_PLACES = 4_096, 4, 1 << 20, 1_024
# What is read of a packet at once, and the longest record, which is read whole: that of a program.
FRONT_LEN = HEADER_LEN + END_RECORD_LEN
MOST_RECORD_LEN = PROGRAM_HEAD_LEN + MAX_INSNS * INSN_LEN


class Front(NamedTuple):
    """A packet that is whole in the file: its place, its header, and the bytes that it begins with."""

    at: int
    header: Header
    held: bytes

    def data(self) -> bytes:
        """The first bytes of its data."""
        return self.held[HEADER_LEN : HEADER_LEN + self.header.data_len]

    def has_frames(self) -> bool:
        """Whether it is a packet of a channel's frames."""
        return self.header.is_plain() and self.header.kind == ETHERNET_DATA and self.header.channel > 0

    def network(self) -> Optional[int]:
        """The network identifier of its first frame; None where it has none."""
        data = self.data()
        return data[NETWORK_AT] if self.has_frames() and len(data) >= BODY_WORD_LEN + FRAME_HEADER_LEN else None


class Follower:
    """The packets of a file from its first byte on; `at` is the place up to which it was read. `take` gets each packet
    once it is whole, and raises BadBody for one whose data aren't what its header says."""

    def __init__(self, read_at: ReadAt, take: Callable[[Front], None]) -> None:
        self.read_at, self.take = read_at, take
        self.at = self.size = 0
        self.is_searching = False
        # Whether the file begins as a whole one, in which setup records may be long.
        self.is_whole = False
        # Goes on behind damaged places of a recording that has ended; there is none while it grows.
        self.reader: Optional[Reader] = None

    def end(self, size: int) -> None:
        """The recording has ended, with so many bytes. From now on a packet that is cut is damaged, and what is behind a
        damaged place is judged as `Reader` does it, with the data."""
        self.reader, self.is_searching = Reader(self.read_at, size), False

    def read_on(self, size: int, most: int = MOST_PACKETS) -> Iterator[Fault]:
        """Has the packets taken that are whole by now in a file of `size` bytes, at most `most`, and gives the faults of
        damaged places, a few at most; the rest comes at the next call. Of a recording that has ended `at` is behind the
        damaged place when its fault is given."""
        self.size = size
        taken = faults = 0
        while taken < most and faults < MOST_FAULTS and (not self.is_searching or self.search()):
            found = self.next()
            if found is None:
                return
            if isinstance(found, Front):
                taken += 1
                continue
            faults += 1
            fault = self.leave(found)
            if fault:
                yield fault

    def next(self) -> Union[Front, Fault, None]:
        """The next packet, which was taken, or its fault; None where there is none that is whole yet."""
        found = self.front()
        if isinstance(found, Front):
            try:
                self.take(found)
            except BadBody:
                return Fault(5, "Body", self.at)
            self.at += found.header.packet_len
        return found

    def front(self) -> Union[Front, Fault, None]:
        """The packet that begins here, or its fault; None where it isn't whole yet."""
        rest = self.size - self.at
        held = self.read_at(self.at, FRONT_LEN) if rest >= HEADER_LEN else b""
        if len(held) >= HEADER_LEN:
            self.is_whole = self.is_whole or not self.at and header_of(held[:HEADER_LEN]).is_setup()
            found = self.header_of(held)
            if not isinstance(found, Header):
                return Fault(*found, self.at)
            if found.packet_len <= rest:
                return Front(self.at, found, held)
        return Fault(1, "Truncated", self.at) if self.reader and rest > 0 else None

    def header_of(self, held: bytes) -> Union[Header, tuple[int, str]]:
        """The header that these bytes begin with, or their fault. While the file grows, a packet that is longer than any
        that is written into it has one too, since it would be waited for."""
        found = header_or_fault(held)
        is_long = isinstance(found, Header) and found.packet_len > self.most_len(found)
        return (4, "Length") if is_long and not self.reader else found

    def most_len(self, header: Header) -> int:
        """How long a packet of this header is at most."""
        return header.most_len() if self.is_whole else MAX_ETHERNET_PACKET_LEN

    def record(self, front: Front) -> Union[Program, End, None]:
        """The record that a packet is, which is read whole; None where it is none."""
        header, data = front.header, front.data()
        if not header.is_plain() or not header.may_be_record() or header.data_len > MOST_RECORD_LEN:
            return None
        if header.data_len > len(data):
            data = self.read_at(front.at + HEADER_LEN, header.data_len)
        return record_in(data)

    def channel(self, front: Front) -> int:
        """The channel that a packet of frames or a record is of; 0 of others."""
        record = None if front.has_frames() else self.record(front)
        return front.header.channel if front.has_frames() else record.channel if record else 0

    # ---- behind damage

    def leave(self, fault: Fault) -> Optional[Fault]:
        """Leaves a damaged place, at once where the recording has ended, else by `search`: its fault; None where the
        file was cut or changed meanwhile."""
        if not self.reader:
            self.is_searching = True
            return fault
        self.reader.go_to(self.at)
        found = self.reader.next()
        if isinstance(found, Fault):
            self.reader.search()
        self.at = self.reader.at if found else self.size
        return found if isinstance(found, Fault) else None

    def search(self) -> bool:
        """Goes on behind a damaged place: whether it is at a packet again, behind which another one stands or the file
        ends. It looks at a piece of the file; the next call goes on from there."""
        piece = self.read_at(self.at + 1, MOST_SEARCHED)
        offset = 0
        for _ in range(MOST_PLACES):
            offset = piece.find(SYNC, offset)
            if offset < 0 or offset + HEADER_LEN > len(piece):
                break
            begins = self.begins_again(self.at + 1 + offset, piece[offset : offset + HEADER_LEN])
            if begins:
                self.at += 1 + offset
                self.is_searching = False
                return True
            if begins is None:
                break
            offset += 1
        # The last bytes may begin a header that isn't whole yet.
        passed = offset if offset >= 0 else len(piece) - HEADER_LEN + 1
        self.at += max(passed, 0)
        return False

    def begins_again(self, at: int, head: bytes) -> Optional[bool]:
        """Whether these bytes of that place are a packet's header and packets go on behind it; None where that can't be
        seen yet."""
        found = self.header_of(head)
        if not isinstance(found, Header):
            return False
        end = at + found.packet_len
        after = self.read_at(end, HEADER_LEN)
        if end != self.size and len(after) < HEADER_LEN:
            return None
        return end == self.size or isinstance(self.header_of(after), Header)
