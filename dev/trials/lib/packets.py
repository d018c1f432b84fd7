"""The one reader of packets in trials, by docs/user/formats/ alone: those of a recording, and the frames of one."""

import struct
from collections.abc import Iterator
from typing import NamedTuple


class Frame(NamedTuple):
    """A frame of a body, with its word."""

    counter: int
    word: int
    bytes: bytes


def packets_in(recording: bytes) -> Iterator[tuple[int, int, int, int, bytes]]:
    """The place, channel, type, counter and data of each packet."""
    at = 0
    while at < len(recording):
        channel, length, data_length = struct.unpack_from("<HII", recording, at + 2)
        low, high = struct.unpack_from("<IH", recording, at + 16)
        data = recording[at + 24 : at + 24 + data_length]
        yield at, channel, recording[at + 15], low | high << 32, data
        at += length


def frames_in(data: bytes) -> list[Frame]:
    """The frames of a body."""
    found, at = [], 4
    for _ in range(struct.unpack_from("<I", data)[0] & 0xFFFF):
        low, high, word = struct.unpack_from("<IHxxI", data, at)
        length = word & 0x3FFF
        found.append(Frame(low | high << 32, word & ~0xFFFF | length, data[at + 12 : at + 12 + length]))
        at += 12 + length + length % 2
    return found
