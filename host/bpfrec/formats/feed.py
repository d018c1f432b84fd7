"""Feeds: records of Ethernet frames, one after the other, by docs/user/formats/filters.md."""

from __future__ import annotations

import struct
from typing import BinaryIO, NamedTuple, Optional

from bpfrec.formats.limits import MAX_FRAME_LEN, MAX_MARKS, MIN_FRAME_LEN, RECORD_HEAD_LEN

# A record's head: its counter, in 32 and 16 bits, its marks, and its frame's length.
RECORD_HEAD = struct.Struct("<IHBH")


class FeedEnd(NamedTuple):
    """How a feed ends: how many frames it has, where its last whole record ends, and the fault there."""

    frames: int
    at: int
    fault: Optional[str]


def head_fault(marks: int, length: int) -> Optional[str]:
    """What is wrong with a record's head; None where nothing is."""
    if not MIN_FRAME_LEN <= length <= MAX_FRAME_LEN:
        return "Length"
    return "Marks" if marks > MAX_MARKS else None


def end_of(feed: BinaryIO, has_time_marks: bool = False) -> FeedEnd:
    """Reads a feed up to its end or its first fault; time marks are none where it may have some."""
    frames = at = 0
    while True:
        head = feed.read(RECORD_HEAD_LEN)
        if not head:
            return FeedEnd(frames, at, None)
        if len(head) < RECORD_HEAD_LEN:
            return FeedEnd(frames, at, "Truncated")
        _, _, marks, length = RECORD_HEAD.unpack(head)
        if has_time_marks and marks == length == 0:
            at += RECORD_HEAD_LEN
            continue
        fault = head_fault(marks, length)
        if fault is None and len(feed.read(length)) < length:
            fault = "Truncated"
        if fault is not None:
            return FeedEnd(frames, at, fault)
        frames += 1
        at += RECORD_HEAD_LEN + length
