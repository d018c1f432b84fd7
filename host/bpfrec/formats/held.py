"""The bytes of an input: at any place of a file, and those from a place on, read as they are needed."""

from __future__ import annotations

import io
import os
import stat
from typing import BinaryIO, Callable, Optional, Union

from bpfrec.formats.limits import HEADER_LEN
from bpfrec.formats.packet import Header, header_or_fault

# How many bytes are read at once, where fewer are needed, and at most.
PIECE, MOST_READ = 1 << 16, 1 << 20
# Gives up to so many bytes from a place on.
ReadAt = Callable[[int, int], bytes]


class File:
    """An open file of which bytes at any place are read; `size` is how many it had when it was opened. One of the system
    is read without a move of its own place, any other by its calls, as one in memory or a packed one."""

    def __init__(self, path: str, file: BinaryIO) -> None:
        self.path, self.file = path, file
        is_of_system = isinstance(getattr(file, "raw", file), io.FileIO)
        self.descriptor = file.fileno() if is_of_system else None
        self.size = file.seek(0, os.SEEK_END) if self.descriptor is None else os.fstat(self.descriptor).st_size
        self.is_closed = False

    def read_at(self, at: int, length: int) -> bytes:
        """Bytes at a place; a fault has the file's path."""
        self.refuse_closed()
        try:
            if self.descriptor is not None:
                return os.pread(self.descriptor, length, at)
            self.file.seek(at)
            return self.file.read(length)
        except OSError as error:
            error.filename = self.path
            raise

    def size_now(self) -> int:
        """How many bytes it has by now."""
        return self.size if self.descriptor is None else os.fstat(self.descriptor).st_size

    def refuse_closed(self) -> None:
        """Refuses a file that is closed."""
        if self.is_closed or self.file.closed:
            raise ValueError(f"{self.path}: the recording is closed")

    def identity(self) -> tuple[int, int]:
        """What tells it from all others, by whatever name they were opened."""
        if self.descriptor is None:
            return 0, id(self.file)
        found = os.fstat(self.descriptor)
        return found.st_dev, found.st_ino


class Held:
    """Those that are held, and what follows: up to `left` bytes, as far as that is known."""

    def __init__(self, read_at: ReadAt, left: Optional[int]) -> None:
        self.read_at, self.left = read_at, left
        self.at, self.held, self.is_over = 0, bytearray(), False
        # The place that was looked at last, and the header there or its fault: a search asks for them again.
        self.seen: tuple[int, Union[Header, tuple[int, str], None]] = (0, None)

    def go_to(self, at: int) -> None:
        """Goes on to a place of a file whose length is known, which isn't before this one."""
        count = at - self.at
        if self.left is not None and count > len(self.held):
            self.left -= count - len(self.held)
        self.pass_over(count)

    def rest(self) -> Optional[int]:
        """How many bytes are left; None where that isn't known."""
        return None if self.left is None else len(self.held) + self.left

    def fill(self, count: int) -> bool:
        """Reads on until that many bytes are held, or the input has ended; whether they are."""
        if self.left is not None and count > len(self.held) + self.left:
            return False
        while len(self.held) < count and not self.is_over:
            needed = min(max(count - len(self.held), PIECE), MOST_READ)
            piece = self.read_at(self.at + len(self.held), needed if self.left is None else min(needed, self.left))
            self.is_over = not piece
            self.held += piece
            if self.left is not None:
                self.left -= len(piece)
        return len(self.held) >= count

    def ends_at(self, offset: int) -> bool:
        """Whether the input ends that many bytes on."""
        rest = self.rest()
        if rest is not None:
            return rest == offset
        return not self.fill(offset + 1) and len(self.held) == offset

    def pass_over(self, count: int) -> None:
        """Goes on by bytes that are held."""
        del self.held[:count]
        self.at += count

    def head(self, offset: int) -> bytes:
        """The bytes of a header that many bytes on; fewer where the input ends before."""
        if len(self.held) < offset + HEADER_LEN:
            rest = self.rest()
            self.fill(offset + HEADER_LEN if rest is None else max(min(offset + HEADER_LEN, rest), 0))
        return bytes(self.held[offset : offset + HEADER_LEN])

    def header(self, offset: int) -> Union[Header, tuple[int, str], None]:
        """The header that many bytes on, or its fault; None where the input ends before."""
        place, seen = self.seen
        if seen is None or place != self.at + offset:
            head = self.head(offset)
            seen = header_or_fault(head) if len(head) == HEADER_LEN else None
            self.seen = self.at + offset, seen
        return seen


def reading_on(file: BinaryIO) -> ReadAt:
    """Reads an input from where it is on, as a pipe; a fault has its name."""

    def read(_: int, count: int) -> bytes:
        try:
            return file.read(count)
        except OSError as error:
            error.filename = file.name
            raise

    return read


def length_of(file: BinaryIO) -> Optional[int]:
    """How many bytes an input has: of a regular file those that it has now, so that a recording that goes on may be read
    too; None where that isn't known."""
    found = os.fstat(file.fileno())
    return found.st_size if stat.S_ISREG(found.st_mode) and found.st_size else None
