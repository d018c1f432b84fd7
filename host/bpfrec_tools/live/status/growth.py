"""A recording that grows, and what its packets tell, by their headers and the first bytes of their data.

What stands here is what the recorder says that it wrote. `bpfrec audit` judges it.
"""

from __future__ import annotations

import os
import stat
from typing import NamedTuple, Optional, Union

from bpfrec.formats.body import BadBody
from bpfrec.formats.follow import MOST_PACKETS, Follower, Front
from bpfrec.formats.limits import BODY_WORD_LEN, ETHERNET_DATA, FRAME_HEADER_LEN, HEADER_LEN
from bpfrec.formats.packet import Header, header_fault
from bpfrec.formats.records import End, Program


class Kept(NamedTuple):
    """Frames that a packet has, and their bytes, each frame of an odd number of bytes with its filler."""

    channel: int
    frames: int
    bytes: int


# What a packet tells; None where it is another's.
Told = Union[Kept, Program, End, None]


class Growth:
    """A recording's file from its first byte on. `size` is its length at the last call, `fault` what was wrong with it
    last, and `faults` how often something was."""

    def __init__(self, path: str) -> None:
        self.path, self.descriptor = path, -1
        self.size = self.faults = 0
        self.fault: Optional[str] = None
        self.follower = Follower(self.read_at, self.take)
        # What packets told that nobody took yet.
        self.told: list[Told] = []
        # The first header, by which a file is known that was emptied and written anew.
        self.first, self.is_cut = b"", False

    def unread(self) -> int:
        """How many bytes weren't looked at yet."""
        return max(self.size - self.follower.at, 0)

    def read_at(self, at: int, length: int) -> bytes:
        """Bytes at a place."""
        return os.pread(self.descriptor, length, at)

    def close(self) -> None:
        """Closes the file."""
        if self.descriptor >= 0:
            os.close(self.descriptor)
        self.descriptor = -1

    def read_on(self, most: int = MOST_PACKETS) -> list[Told]:
        """What the packets tell that came since the last call, of at most `most`; the rest comes at the next one."""
        try:
            if self.is_open():
                self.look()
                for fault in self.follower.read_on(self.size, most):
                    self.note(str(fault))
        except OSError as error:
            self.note(f"{error.strerror}")
        told, self.told = self.told, []
        return told

    def note(self, fault: str) -> None:
        """Notes what is wrong with the file."""
        self.fault = fault
        self.faults += 1

    def is_open(self) -> bool:
        """Whether the file could be opened, now or before. One that isn't there yet is waited for; what is no regular
        file isn't touched, since whoever opens a pipe takes part in it."""
        if self.descriptor >= 0:
            return True
        try:
            if stat.S_ISREG(os.stat(self.path).st_mode):
                self.descriptor = os.open(self.path, os.O_RDONLY | os.O_NONBLOCK | os.O_NOCTTY | os.O_CLOEXEC)
                self.begin()
        except FileNotFoundError:
            return False
        return self.descriptor >= 0

    def begin(self) -> None:
        """A recording begins in the file."""
        self.follower, self.first, self.is_cut = Follower(self.read_at, self.take), b"", False

    def look(self) -> None:
        """Takes the file's length, and sees whether it was cut."""
        self.size, at = os.fstat(self.descriptor).st_size, self.follower.at
        if self.size < at and not self.is_cut:
            self.note(f"cut from {at} to {self.size} bytes")
            self.is_cut = True
        if not self.is_cut:
            return
        first = self.read_at(0, HEADER_LEN)
        if len(first) == HEADER_LEN and first != self.first and header_fault(first) is None:
            # It is another one.
            self.begin()
        elif self.size >= at:
            # The recorder writes on where it was.
            self.is_cut = False

    def take(self, front: Front) -> None:
        """Takes what a packet tells."""
        self.told.append(self.told_by(front))
        self.first = self.first or front.held[:HEADER_LEN]

    def told_by(self, front: Front) -> Told:
        """What a packet tells."""
        if front.header.is_plain() and front.header.kind == ETHERNET_DATA:
            return kept_by(front.header, front.data())
        return self.follower.record(front)


def kept_by(header: Header, data: bytes) -> Optional[Kept]:
    """The frames of a packet whose data begin so; None where its format is another's."""
    if header.data_len < BODY_WORD_LEN:
        raise BadBody
    word = int.from_bytes(data[:BODY_WORD_LEN], "little")
    if word >> 28:
        return None
    frames = word & 0xFFFF
    size = header.data_len - BODY_WORD_LEN - frames * FRAME_HEADER_LEN
    if size < 0:
        raise BadBody
    return Kept(header.channel, frames, size)
