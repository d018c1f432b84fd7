"""The search for the next packet behind a damaged place, in a time that grows as the bytes do, whatever they are."""

from __future__ import annotations

import re
import struct
from typing import Optional

from bpfrec.formats.body import BadBody
from bpfrec.formats.held import Held
from bpfrec.formats.limits import CHECKSUM_LEN, HEADER_LEN, MAX_FRAME_LEN
from bpfrec.formats.packet import Header, header_of, what_in, word_sum

# In a search a packet may be as long as this: any header of drawn bytes may claim four gigabytes.
MOST_SEARCHED = 1 << 20
# So many sequence numbers may be missing before a packet that is found by itself.
MOST_MISSING = 16
# So many bytes of data may be judged in vain, and so many more for each byte that is passed over. The data of headers
# that lead to no other may use half of them, so that what is whole behind such headers is still found.
MOST_SPARE, SPARE_A_BYTE = 4 * MOST_SEARCHED, 4
# How a header begins whose packet has whole words and isn't too long.
BEGINNING_LEN = 8
BEGINNING = re.compile(rb"\x25\xeb..[" + re.escape(bytes(range(0, 256, 4))) + rb"].[\0-\x10]\0", re.DOTALL)
# Sums are made by blocks of so many bytes, each of which is summed once; so many are kept before those behind are forgotten.
WORD_LEN, BLOCK, MOST_BLOCKS = 4, 256, 1 << 14


class Search:
    """What is known of the bytes of an input by all searches in it; `sequences` are the numbers that come next, by
    channel ID."""

    def __init__(self, held: Held, sequences: dict[int, int]) -> None:
        self.held, self.sequences = held, sequences
        self.sums, self.spare = BlockSums(), MOST_SPARE
        # Of one search: the place up to which all bytes belong to the damaged packet, by a header that is right, and
        # places from which packets lead nowhere.
        self.begin, self.inside = 0, 0
        self.broken: set[int] = set()

    def skip(self) -> int:
        """Passes over what is damaged, up to the next packet or to the end: how many bytes."""
        held = self.held
        for length in self.claims():
            if self.goes_on(length) and held.fill(length):
                held.pass_over(length)
                return length
        self.begin, self.inside, self.broken = held.at, self.end_of_packet(), set()
        self.pass_over(1)
        while self.reach_beginning():
            spare = self.spare
            if self.begins_again():
                # What was judged is read now.
                self.spare = spare
                return held.at - self.begin
            self.pass_over(1)
        return held.at - self.begin

    def pass_over(self, count: int) -> None:
        """Goes on by bytes that are held."""
        self.held.pass_over(count)
        self.spare = min(self.spare + SPARE_A_BYTE * count, MOST_SPARE)

    def reach_beginning(self) -> bool:
        """Goes on to the next place at which a header may begin, or to the end: whether there is one."""
        held = self.held
        while held.fill(BEGINNING_LEN):
            found = BEGINNING.search(held.held)
            at = found.start() if found else None
            # It holds the bytes, which can't go while it does.
            del found
            if at is not None:
                self.pass_over(at)
                return True
            self.pass_over(len(held.held) - BEGINNING_LEN + 1)
        self.pass_over(len(held.held))
        return False

    def claims(self) -> list[int]:
        """How long the damaged packet may be, by what its header says."""
        header = self.held.header(0)
        if header is None:
            return []
        if not isinstance(header, Header):
            header = header_of(self.held.head(0))
        found = [header.packet_len, header.whole_len()]
        return [it for it in found if HEADER_LEN <= it <= MOST_SEARCHED and it % 4 == 0]

    def goes_on(self, offset: int) -> bool:
        """Whether packets go on that many bytes on: a header stands there, or the input ends."""
        return self.held.ends_at(offset) or self.header(offset) is not None

    def header(self, offset: int) -> Optional[Header]:
        """The header that many bytes on; None where none stands there."""
        found = self.held.header(offset)
        return found if isinstance(found, Header) else None

    def end_of_packet(self) -> int:
        """The place up to which all bytes belong to the damaged packet, by a header that is right."""
        header = self.header(0)
        return self.held.at + (header.packet_len if header else 0)

    def begins_again(self) -> bool:
        """Whether packets begin again here, with a right data checksum where there is one, also of another's packet.
        Frames may hold packets of another recording: so those that stand within a packet whose header is right must
        lead beyond its end; and elsewhere they lead further than a frame is long or to the input's end, or else the
        packet stands where all do, a multiple of 4 bytes behind, and goes on in its channel's sequence numbers."""
        at = self.held.at
        if at in self.broken:
            self.broken.discard(at)
            return False
        header = self.header(0)
        if header is None:
            return False
        stands_alone = at >= self.inside and self.follows(header)
        end = min(self.inside, at + MOST_SEARCHED) if at < self.inside else at + MAX_FRAME_LEN
        leads_on = self.goes_on(header.packet_len)
        # Only headers are looked at so far.
        if not (leads_on or stands_alone or at + header.packet_len > end):
            return False
        is_packet = self.is_packet(0, header, 0 if leads_on else MOST_SPARE // 2) and self.has_right_sum(0, header)
        return is_packet and (stands_alone or self.leads_to(end))

    def follows(self, header: Header) -> bool:
        """Whether a packet here stands where all do, and goes on in its channel's sequence numbers."""
        missing = (header.sequence - self.sequences.get(header.channel, 0)) % 256
        return (self.held.at - self.begin) % 4 == 0 and missing <= MOST_MISSING

    def is_packet(self, offset: int, header: Header, reserve: int) -> bool:
        """Whether the packet of a header is whole and right, as far as it isn't another's. Its data are judged while
        more than a reserve of bytes is left for that."""
        if header.packet_len > MOST_SEARCHED or not self.held.fill(offset + header.packet_len):
            return False
        if not header.has_judged_data():
            return True
        if header.data_len > self.spare - reserve:
            return False
        self.spare -= header.data_len
        begin = offset + HEADER_LEN
        try:
            what = what_in(header, bytes(memoryview(self.held.held)[begin : begin + header.data_len]))
        except BadBody:
            return False
        return what is None or self.has_right_sum(offset, header)

    def has_right_sum(self, offset: int, header: Header) -> bool:
        """Whether the data checksum of a packet, where it has one, is the sum of its data."""
        if not header.has_checksum():
            return True
        held, begin, end = self.held, offset + HEADER_LEN, offset + header.packet_len - CHECKSUM_LEN
        told = int.from_bytes(held.held[end : end + CHECKSUM_LEN], "little")
        with memoryview(held.held) as view:
            return self.sums.of_part(view, held.at, held.at + begin, held.at + end) == told

    def leads_to(self, end: int) -> bool:
        """Whether packets that begin here follow one another beyond that place, or to the input's end. Those that
        don't are broken."""
        at, passed = self.held.at, []
        while at < end:
            offset = at - self.held.at
            if self.held.ends_at(offset):
                return True
            passed.append(at)
            header = None if at in self.broken else self.header(offset)
            if header is None or not self.is_packet(offset, header, 0):
                self.broken.update(passed)
                return False
            at += header.packet_len
        return at > end


# ---- sums of many parts of the same bytes, of little-endian words of 32 bits, modulo 2^32


def short_sum(part: memoryview) -> int:
    """The sum of the words of at most a block."""
    return sum(struct.unpack(f"<{len(part) // WORD_LEN}I", part))


class BlockSums:
    """What was summed of bytes that are held, for words that begin at each of the four places of a word."""

    def __init__(self) -> None:
        # The first block that is known, and the sums of the blocks from it up to each.
        self.first = [0] * WORD_LEN
        self.totals: list[list[int]] = [[0] for _ in range(WORD_LEN)]

    def of_part(self, held: memoryview, at: int, begin: int, end: int) -> int:
        """The sum of the bytes from one place up to another, which are whole words; those that are held begin at
        `at`."""
        turn = begin % WORD_LEN
        low, high = -(-(begin - turn) // BLOCK), (end - turn) // BLOCK
        if low >= high:
            return word_sum(held[begin - at : end - at])
        totals, first = self.totals[turn], self.first[turn]
        if not first <= low <= high < first + len(totals):
            self.know(held, at, turn, low, high)
            totals, first = self.totals[turn], self.first[turn]
        ahead = held[begin - at : low * BLOCK + turn - at]
        behind = held[high * BLOCK + turn - at : end - at]
        return (short_sum(ahead) + totals[high - first] - totals[low - first] + short_sum(behind)) % (1 << 32)

    def know(self, held: memoryview, at: int, turn: int, low: int, high: int) -> None:
        """Sums the blocks up to one that weren't; those far behind are forgotten."""
        first, totals = self.first[turn], self.totals[turn]
        if not first <= low < first + len(totals):
            self.first[turn], self.totals[turn] = low, [0]
        elif low - first > MOST_BLOCKS:
            self.first[turn], self.totals[turn] = low, totals[low - first :]
        totals = self.totals[turn]
        for block in range(self.first[turn] + len(totals) - 1, high):
            begin = block * BLOCK + turn - at
            totals.append(totals[-1] + short_sum(held[begin : begin + BLOCK]))
