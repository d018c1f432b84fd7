"""The reader of recordings, by docs/user/formats/recording.md: one packet after the other, and on behind a damaged place.

It reads as `bpfrec list` does, up to the first fault, and can then look for the place where packets begin again. It was
written from that document alone, so it is a second reader beside the program's.
"""

from __future__ import annotations

from typing import BinaryIO, Iterator, Optional, Union

from bpfrec.formats.held import Held, ReadAt, length_of, reading_on
from bpfrec.formats.limits import CHECKSUM_LEN, HEADER_LEN
from bpfrec.formats.packet import Damage, Fault, Header, Packet, body_fault, word_sum
from bpfrec.formats.search import Search


class Reader(Held):
    """The packets of an input, one after the other. Where data checksums are known to be right, they needn't be
    summed."""

    def __init__(self, read_at: ReadAt, left: Optional[int], is_summed: bool = True) -> None:
        super().__init__(read_at, left)
        self.is_summed = is_summed
        # The sequence number that comes next, by channel ID.
        self.sequences: dict[int, int] = {}
        self.searching = Search(self, self.sequences)
        # The place up to which bytes were summed.
        self.summed_to = 0

    def judged(self) -> Union[Packet, Fault, None]:
        """The packet that begins here, or its fault; None where the input ends here."""
        found = self.header(0)
        if found is None:
            return Fault(1, "Truncated", self.at) if self.held else None
        if not isinstance(found, Header):
            return Fault(*found, self.at)
        header = found
        if not self.fill(header.packet_len):
            return Fault(1, "Truncated", self.at)
        data = bytes(memoryview(self.held)[HEADER_LEN : HEADER_LEN + header.data_len])
        what, fault = body_fault(header, data, lambda: not self.is_summed or self.has_right_sum(header))
        if fault:
            return Fault(*fault, self.at)
        return Packet(self.at, header, bytes(memoryview(self.held)[: header.packet_len]), what)

    def has_right_sum(self, header: Header) -> bool:
        """Whether the data checksum of the packet here is the sum of its data. Bytes of a packet before that was wrong
        are summed by blocks, so that such packets may overlap."""
        begin, end = HEADER_LEN, header.packet_len - CHECKSUM_LEN
        told = int.from_bytes(self.held[end : end + CHECKSUM_LEN], "little")
        is_known = self.at + begin < self.summed_to
        self.summed_to = max(self.summed_to, self.at + end)
        with memoryview(self.held) as view:
            if is_known:
                return self.searching.sums.of_part(view, self.at, self.at + begin, self.at + end) == told
            return word_sum(view[begin:end]) == told

    def next(self) -> Union[Packet, Fault, None]:
        """The next packet, or the fault at which the reading ends; None at the end."""
        found = self.judged()
        if isinstance(found, Packet):
            self.sequences[found.header.channel] = (found.header.sequence + 1) % 256
            self.pass_over(len(found.bytes))
        return found

    def pieces(self) -> Iterator[Union[Packet, Damage]]:
        """All packets, also those behind damaged ones, and the damages between them."""
        while True:
            found = self.next()
            if found is None:
                return
            yield found if isinstance(found, Packet) else Damage(found, self.search())

    def search(self) -> int:
        """Passes over what is damaged, up to the next packet or to the end: how many bytes."""
        return self.searching.skip()


def reader_of(file: BinaryIO, is_summed: bool = True) -> Reader:
    """The packets of an open file or a pipe, from where it is on."""
    return Reader(reading_on(file), length_of(file), is_summed)
