"""The bodies of packets of frames, each walked once."""

from __future__ import annotations

import struct
from itertools import repeat
from typing import Iterable, NamedTuple, Optional, Sequence

from bpfrec.formats.limits import (
    BODY_WORD_LEN,
    COUNTER_LEN,
    FRAME_HEADER_LEN,
    MAX_COUNTER,
    MAX_FRAME_LEN,
    MIN_FRAME_LEN,
)

# A frame's head: its counter in six bytes, two that aren't judged, and its word, which is behind these eight.
FRAME, WORD_AT, WORD_LEN = struct.Struct("<QI"), 8, 4
# Where data have the network identifier of the first frame, the third byte of its word.
NETWORK_AT = BODY_WORD_LEN + WORD_AT + 2
# The bits of a frame's word: both error flags, the content, which is 0 of a frame, the speed, the network and the length.
FCS_WRONG, FRAME_ERROR, CONTENT = 1 << 31, 1 << 30, 3 << 28
SPEED_AT, MOST_SPEED, NETWORK_BIT, MOST_NETWORK = 24, 15, 16, 255
LENGTH_BITS = MAX_FRAME_LEN
# The error flags of a word's two highest bits, as the marks of a feed.
MARKS = (0, 2, 1, 3)
# The first words that have a mark or another content, and a mark.
FIRST_CONTENT, FIRST_MARKED = 1 << 28, FRAME_ERROR


class BadBody(Exception):
    """A body that isn't what its packet's header says."""


class Frames(NamedTuple):
    """A body of frames: of each its counter, its word, and where its bytes begin; the bytes of all, how many have
    marks, and whether each is a frame with its check sequence."""

    counters: list[int]
    words: Sequence[int]
    places: Sequence[int]
    bytes: int
    marked: int
    are_whole: bool


class Range(NamedTuple):
    """Counters from one on and before another."""

    low: int
    high: int


# A frame's counter, its word, and where its bytes begin.
Row = tuple[int, int, int]


def walk(data: bytes) -> Optional[Frames]:
    """The frames of a body; None where its format is another's."""
    if len(data) < BODY_WORD_LEN:
        raise BadBody
    word = int.from_bytes(data[:BODY_WORD_LEN], "little")
    if word >> 28:
        return None
    return equal_frames(data, word & 0xFFFF) or other_frames(data, word & 0xFFFF)


def equal_frames(data: bytes, count: int) -> Optional[Frames]:
    """Frames that all have the first one's length, which are read at once; None where they haven't."""
    first = BODY_WORD_LEN + WORD_AT
    length = int.from_bytes(data[first : first + 2], "little") & LENGTH_BITS
    stride = FRAME_HEADER_LEN + length + (length & 1)
    if not count or BODY_WORD_LEN + stride * count != len(data):
        return None
    columns = [data[first + at :: stride] for at in range(WORD_LEN)]
    are_constant = [it.count(it[:1]) == count for it in columns]
    if not (are_constant[0] and are_constant[1]):
        return None
    counters = list(
        struct.unpack(f"<{count}Q", joined([data[BODY_WORD_LEN + at :: stride] for at in range(COUNTER_LEN)], 8))
    )
    places = range(BODY_WORD_LEN + FRAME_HEADER_LEN, len(data) + 1, stride)[:count]
    if not all(are_constant):
        return frames_of(counters, struct.unpack(f"<{count}I", joined(columns, WORD_LEN)), places)
    one = frames_of(counters[:1], [int.from_bytes(data[first : first + WORD_LEN], "little")], places[:1])
    return Frames(counters, [one.words[0]] * count, places, one.bytes * count, one.marked * count, one.are_whole)


def joined(columns: list[bytes], width: int) -> bytearray:
    """Numbers of that many bytes, of which each column has one byte of each, the lowest first."""
    found = bytearray(width * len(columns[0]))
    for at, column in enumerate(columns):
        found[at::width] = column
    return found


def other_frames(data: bytes, count: int) -> Frames:
    """Frames of any lengths, one after the other."""
    try:
        return frames_along(data, count)
    except struct.error:
        raise BadBody from None


def frames_along(data: bytes, count: int) -> Frames:
    """The same, where a frame's head may be past the end, which `struct` then says."""
    at, unpack = BODY_WORD_LEN, FRAME.unpack_from
    counters: list[int] = []
    words: list[int] = []
    places: list[int] = []
    add, add_word, add_place, word = counters.append, words.append, places.append, 0
    for _ in repeat(None, count):
        counter, word = unpack(data, at)
        add(counter)
        add_word(word)
        at += FRAME_HEADER_LEN
        add_place(at)
        at += (word & LENGTH_BITS) + 1 & -2
    # The last frame's filler may be missing.
    if at != len(data) and (at != len(data) + 1 or not word & 1):
        raise BadBody
    if counters and max(counters) > MAX_COUNTER:
        counters = [it & MAX_COUNTER for it in counters]
    return frames_of(counters, words, places)


def frames_of(counters: list[int], words: Sequence[int], places: Sequence[int]) -> Frames:
    """The frames of these counters, words and places."""
    lengths = [it & LENGTH_BITS for it in words]
    are_long = min(lengths, default=MIN_FRAME_LEN) >= MIN_FRAME_LEN
    if max(words, default=0) < FIRST_CONTENT:
        return Frames(counters, words, places, sum(lengths), 0, are_long)
    marked = sum(it >= FIRST_MARKED for it in words)
    return Frames(counters, words, places, sum(lengths), marked, are_long and not any(it & CONTENT for it in words))


def chosen(frames: Frames, ranges: Optional[list[Range]] = None) -> tuple[Iterable[Row], int]:
    """The frames with their check sequences whose counters are in one of these ranges, by default all; and how many have
    such a counter and another content, or fewer than 18 bytes."""
    rows: Iterable[Row] = zip(frames.counters, frames.words, frames.places)
    if ranges is not None:
        rows = [row for row in rows if any(low <= row[0] < high for low, high in ranges)]
    if frames.are_whole:
        return rows, 0
    every = [*rows]
    found = [row for row in every if not row[1] & CONTENT and row[1] & LENGTH_BITS >= MIN_FRAME_LEN]
    return found, len(every) - len(found)
