"""Packets: their headers, their checksums, and the faults of both."""

from __future__ import annotations

import struct
from typing import Callable, NamedTuple, Optional, Union

from bpfrec.formats.body import BadBody, Frames, walk
from bpfrec.formats.limits import (
    CHECKSUM_LEN,
    COMPUTER_GENERATED_DATA,
    ETHERNET_DATA,
    HEADER_LEN,
    MAX_ETHERNET_PACKET_LEN,
    MAX_SETUP_PACKET_LEN,
    RECORD_CHANNEL,
    SETUP,
    SYNC_PATTERN,
)
from bpfrec.formats.records import End, Program, record_in

# What a packet holds; None where it is another recorder's.
What = Union[Frames, Program, End, None]
SYNC = SYNC_PATTERN.to_bytes(2, "little")
# The packet flags: of a secondary header and its time, and of a data checksum of 32 bits.
SECONDARY_HEADER, CHECKSUM = 0xC0, 0x03
HEADER = struct.Struct("<HHIIBBBBIHH")
WORDS = struct.Struct("<11H")
# How words are summed, see word_sum.
PIECE_LEN = 4096
EVERY_OTHER_WORD = int.from_bytes(b"\xff\xff\xff\xff\0\0\0\0" * (PIECE_LEN // 8), "little")
FEW_LONGS = 64
FEW_BYTES = 256
LONGS = [struct.Struct(f"<{count}I") for count in range(FEW_BYTES // 4 + 1)]
MAX_LONG = (1 << 64) - 1


class Fault(NamedTuple):
    """Why bytes are no packet, in the words of `bpfrec list`."""

    number: int
    name: str
    at: int

    def __str__(self) -> str:
        return f"read {self.number} {self.name} {self.at}"


class Header(NamedTuple):
    """The header of a packet; the counter is in ticks of 100 ns."""

    channel: int
    packet_len: int
    data_len: int
    version: int
    sequence: int
    flags: int
    kind: int
    counter: int

    def is_plain(self) -> bool:
        """Whether it has no secondary header, and no data checksum or one of 32 bits."""
        return not self.flags & SECONDARY_HEADER and self.flags & CHECKSUM in (0, CHECKSUM)

    def may_be_record(self) -> bool:
        """Whether it has the kind and the channel of records."""
        return self.kind == COMPUTER_GENERATED_DATA and self.channel == RECORD_CHANNEL

    def is_setup(self) -> bool:
        """Whether it is that of a setup record, as whole files have it."""
        return self.kind == SETUP and self.channel == RECORD_CHANNEL

    def most_len(self) -> int:
        """How long a packet of its type is at most."""
        return MAX_SETUP_PACKET_LEN if self.is_setup() else MAX_ETHERNET_PACKET_LEN

    def has_judged_data(self) -> bool:
        """Whether its data may be frames or a record."""
        return self.is_plain() and (self.kind == ETHERNET_DATA or self.may_be_record())

    def has_checksum(self) -> bool:
        """Whether a data checksum of 32 bits ends the packet."""
        return self.flags & CHECKSUM == CHECKSUM

    def whole_len(self) -> int:
        """The length that a packet of such data has."""
        return HEADER_LEN + self.data_len + -self.data_len % 4 + (CHECKSUM_LEN if self.has_checksum() else 0)


class Packet(NamedTuple):
    """A packet, whole, with what it holds; None where it is another's."""

    at: int
    header: Header
    bytes: bytes
    what: What


class Damage(NamedTuple):
    """Bytes that are no packet, and the fault that they begin with."""

    fault: Fault
    length: int


def word_sum(data: Union[bytes, bytearray, memoryview]) -> int:
    """The sum of the little-endian words of 32 bits of these bytes, which are whole words, modulo 2^32. Python adds
    long numbers fastest: of each piece every other word is taken out, so that each sum has room in 64 bits; the sums
    are folded to few, and the remainder by 2^64 - 1 adds these. Of few bytes that isn't worth it."""
    if len(data) <= FEW_BYTES:
        few: int = sum(LONGS[len(data) // 4].unpack_from(data))
        return few % (1 << 32)
    sums = 0
    for at in range(0, len(data), PIECE_LEN):
        number = int.from_bytes(data[at : at + PIECE_LEN], "little")
        sums += (number & EVERY_OTHER_WORD) + (number >> 32 & EVERY_OTHER_WORD)
    half = 8 * PIECE_LEN // 2
    while half >= FEW_LONGS * 8:
        sums = (sums >> half) + (sums & (1 << half) - 1)
        half //= 2
    return sums % MAX_LONG % (1 << 32)


def has_right_sum(packet: Union[bytes, bytearray]) -> bool:
    """Whether a packet's data checksum is the sum of its data."""
    body = memoryview(packet)[HEADER_LEN:]
    return word_sum(body[:-CHECKSUM_LEN]) == int.from_bytes(body[-CHECKSUM_LEN:], "little")


def header_or_fault(head: bytes) -> Union[Header, tuple[int, str]]:
    """The header that 24 bytes are, or the fault of those that are none, as its number and name."""
    if head[:2] != SYNC:
        return 2, "Sync"
    if sum(WORDS.unpack_from(head)) & 0xFFFF != head[22] | head[23] << 8:
        return 3, "Checksum"
    header = header_of(head)
    room = header.packet_len - HEADER_LEN - (CHECKSUM_LEN if header.has_checksum() else 0)
    is_long = header.kind == ETHERNET_DATA and header.packet_len > MAX_ETHERNET_PACKET_LEN
    if header.packet_len % 4 or room < 0 or header.data_len > room or is_long:
        return 4, "Length"
    return header


def header_fault(head: bytes) -> Optional[tuple[int, str]]:
    """The fault of 24 bytes that are no header; None where they are one."""
    found = header_or_fault(head)
    return None if isinstance(found, Header) else found


def header_of(head: bytes) -> Header:
    """The header that 24 bytes are."""
    _, channel, packet_len, data_len, version, sequence, flags, kind, low, high, _ = HEADER.unpack_from(head)
    return Header(channel, packet_len, data_len, version, sequence, flags, kind, low | high << 32)


def what_in(header: Header, data: bytes) -> What:
    """What a packet of this header holds; None where it is another's."""
    if not header.has_judged_data():
        return None
    return walk(data) if header.kind == ETHERNET_DATA else record_in(data)


def body_fault(header: Header, data: bytes, is_sum_right: Callable[[], bool]) -> tuple[What, Optional[tuple[int, str]]]:
    """What a packet holds, and the fault of its body, as its number and name. Of another's packet the data checksum
    isn't judged."""
    what: What = None
    fault: Optional[tuple[int, str]] = None
    try:
        what = what_in(header, data)
    except BadBody:
        fault = 5, "Body"
    if what is None and fault is None:
        return None, None
    if header.has_checksum() and not is_sum_right():
        return None, (8, "DataChecksum")
    return what, fault


def body_of(header: Header, packet: bytes) -> tuple[What, Optional[tuple[int, str]]]:
    """What a packet that is read whole holds, and the fault of its body."""
    return body_fault(header, data_of(header, packet), lambda: has_right_sum(packet))


def data_of(header: Header, packet: bytes) -> bytes:
    """The data of a packet that is read whole."""
    return packet[HEADER_LEN : HEADER_LEN + header.data_len]
