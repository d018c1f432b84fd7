"""The transfer header of Chapter 10, format 1, which each datagram of packets begins with."""

from __future__ import annotations

import struct
from typing import NamedTuple, Optional

FORMAT, WHOLE, PART = 1, 0, 1
# Numbers of datagrams have 24 bits.
NUMBERS = 1 << 24
HEAD, PART_HEAD = struct.Struct("<I"), struct.Struct("<III")
# A part that begins a packet has its whole header, so that a receiver knows how long it is.
MIN_DATAGRAM_LEN, MAX_DATAGRAM_LEN, DATAGRAM_STEP = 64, 65_507, 4
# What an Ethernet frame of 1,500 bytes takes behind the headers of IPv4 and UDP.
USUAL_DATAGRAM_LEN = 1_472


class Part(NamedTuple):
    """Where a datagram that is a part of a packet belongs: the packet's channel and sequence number, and the place of the
    part's first byte."""

    channel: int
    sequence: int
    at: int


class Datagram(NamedTuple):
    """A datagram: its number, whole packets, which may be none, or a part of one, and where that belongs."""

    number: int
    part: Optional[Part]
    data: bytes


def whole_head(number: int) -> bytes:
    """The header of a datagram of whole packets."""
    return HEAD.pack(number % NUMBERS << 8 | WHOLE << 4 | FORMAT)


def part_head(number: int, part: Part) -> bytes:
    """The header of a datagram that is a part of a packet."""
    return PART_HEAD.pack(number % NUMBERS << 8 | PART << 4 | FORMAT, part.sequence << 16 | part.channel, part.at)


def datagram_in(data: bytes) -> Optional[Datagram]:
    """The datagram that bytes are; None where they have no such header."""
    if len(data) < HEAD.size:
        return None
    (word,) = HEAD.unpack_from(data)
    if word & 0xFF == WHOLE << 4 | FORMAT:
        return Datagram(word >> 8, None, data[HEAD.size :])
    if word & 0xFF != PART << 4 | FORMAT or len(data) <= PART_HEAD.size:
        return None
    _, place, at = PART_HEAD.unpack_from(data)
    if place >> 24:
        return None
    return Datagram(word >> 8, Part(place & 0xFFFF, place >> 16, at), data[PART_HEAD.size :])
