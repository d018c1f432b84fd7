"""The packets of a whole file, one after the other, with what is wrong with their bytes."""

from __future__ import annotations

import struct
from typing import BinaryIO, Iterator, NamedTuple

HEADER, SUM_LEN = struct.Struct("<HHIIBBBBIHH"), 4
SYNC, VERSION, FLAGS = 0xEB25, 8, 3
# The types of packets.
RECORD, SETUP, INDEX, TIME, FRAMES = 0x00, 0x01, 0x03, 0x11, 0x68
# The channel of all but time and frames.
OWN_CHANNEL = 0
MOST_LENGTH, MOST_SETUP_LENGTH = 524_288, 134_217_728
# How many bytes are read at once, so that memory follows those that come.
PIECE = 1 << 16


class Unread(Exception):
    """Why the reading can't go on."""


class Wrong(Exception):
    """What is wrong with what a packet holds."""


class Packet(NamedTuple):
    """A packet: the place of its first byte, its length, its header's fields, its data, what is wrong with its bytes, and
    whether it has a data checksum."""

    at: int
    length: int
    channel: int
    kind: int
    sequence: int
    counter: int
    data: bytes
    faults: tuple[str, ...]
    has_sum: bool


class Lengths(NamedTuple):
    """How long a packet is, and its data."""

    packet: int
    data: int


def begins_whole_file(head: bytes) -> bool:
    """Whether these first bytes of a file are the header of a setup record, as no recording has it."""
    if len(head) < HEADER.size:
        return False
    sync, channel, *_, kind, _, _, _ = HEADER.unpack_from(head)
    return (sync, channel, kind) == (SYNC, OWN_CHANNEL, SETUP)


def packets_of(file: BinaryIO, begun: bytes = b"") -> Iterator[Packet]:
    """The packets of a file, of which the bytes `begun` were read; it ends by Unread at one that can't be read."""
    at, head = 0, begun + read_up_to(file, HEADER.size - len(begun))
    while head:
        if len(head) < HEADER.size:
            raise Unread("cut")
        lengths = lengths_in(head)
        body = read_up_to(file, lengths.packet - HEADER.size)
        if len(body) < lengths.packet - HEADER.size:
            raise Unread("cut")
        yield packet_of(at, head, body)
        at += lengths.packet
        head = read_up_to(file, HEADER.size)


def read_up_to(file: BinaryIO, count: int) -> bytes:
    """The next bytes of a file: that many, or those up to its end."""
    parts = []
    while count:
        part = file.read(min(count, PIECE))
        if not part:
            break
        parts.append(part)
        count -= len(part)
    return b"".join(parts)


def lengths_in(head: bytes) -> Lengths:
    """The lengths that a header has, where it is right."""
    sync, _, packet_len, data_len, _, _, _, kind, _, _, noted = HEADER.unpack(head)
    if sync != SYNC:
        raise Unread("no sync pattern")
    added = sum(struct.unpack("<11H", head[:-2])) % 2**16
    if added != noted:
        raise Unread(f"header checksum {noted:04x}, the words add up to {added:04x}")
    most = MOST_SETUP_LENGTH if kind == SETUP else MOST_LENGTH
    if packet_len != HEADER.size + data_len + -data_len % 4 + SUM_LEN or packet_len > most:
        raise Unread(f"lengths {packet_len} {data_len}")
    return Lengths(packet_len, data_len)


def packet_of(at: int, head: bytes, body: bytes) -> Packet:
    """The packet that a header and a body are."""
    _, channel, length, data_len, version, sequence, flags, kind, low, high, _ = HEADER.unpack(head)
    has_sum = flags == FLAGS
    faults = [f"data type version {version}"] if version != VERSION else []
    faults += body_faults(body, data_len) if has_sum else [f"packet flags {flags:#04x}"]
    return Packet(at, length, channel, kind, sequence, low | high << 32, body[:data_len], tuple(faults), has_sum)


def word_sum(body: bytes) -> int:
    """The sum of the words of 32 bits of a body, part by part."""
    view = memoryview(body)
    parts = (view[at : at + PIECE] for at in range(0, len(body), PIECE))
    return sum(sum(struct.unpack(f"<{len(part) // 4}I", part)) for part in parts)


def body_faults(body: bytes, data_len: int) -> Iterator[str]:
    """What is wrong with the data checksum and the filler of a body."""
    (noted,) = struct.unpack("<I", body[-SUM_LEN:])
    added = (word_sum(body) - noted) % 2**32
    if added != noted:
        yield f"data checksum {noted:08x}, the words add up to {added:08x}"
    elif any(body[data_len:-SUM_LEN]):
        yield "filler that isn't zero"
