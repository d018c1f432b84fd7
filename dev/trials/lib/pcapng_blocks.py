"""The one reader of pcapng files in trials: little-endian blocks, by the standard alone."""

import io
import struct
from collections.abc import Iterator
from typing import IO, NamedTuple

SECTION, INTERFACE, PACKET = 0x0A0D0D0A, 1, 6
# Codes of options: the name is an interface's, and the flags are a frame's.
COMMENT, NAME, FLAGS = 1, 2, 2
# Where the options of a block begin in its body; those of a frame stand behind its bytes.
OPTIONS_AT = {SECTION: 16, INTERFACE: 8, PACKET: 20}
# The bytes around a body: its kind, and its length twice.
AROUND = 12


class Frame(NamedTuple):
    """A frame: its interface, its moment in the interface's unit, and its bytes."""

    interface: int
    moment: int
    bytes: bytes


class Block(NamedTuple):
    """A block: its kind, and what stands between its lengths."""

    kind: int
    body: bytes

    def frame(self) -> Frame:
        """The frame of a packet's block."""
        interface, high, low, length = struct.unpack_from("<4I", self.body)
        return Frame(interface, high << 32 | low, self.body[20 : 20 + length])

    def options(self) -> Iterator[tuple[int, bytes]]:
        """The codes and values of its options."""
        length = len(self.frame().bytes) if self.kind == PACKET else 0
        at = OPTIONS_AT[self.kind] + length + -length % 4
        while at < len(self.body):
            code, length = struct.unpack_from("<HH", self.body, at)
            yield code, self.body[at + 4 : at + 4 + length]
            at += 4 + length + -length % 4

    def text(self, code: int) -> str:
        """The texts of its options of a code, each with lines of its own."""
        return "\n".join(value.decode(errors="replace") for other, value in self.options() if other == code)

    def flags(self) -> int:
        """The flags of a frame; 0 where it has none."""
        return int.from_bytes(dict(self.options()).get(FLAGS, b""), "little")


def blocks_of(stream: IO[bytes]) -> Iterator[Block]:
    """The blocks of a stream, as they come; ValueError where one isn't well formed."""
    while head := stream.read(8):
        kind, length = struct.unpack("<II", head)
        body = stream.read(max(length, AROUND) - 8)
        if length < AROUND or length % 4 or body[-4:] != head[4:]:
            raise ValueError(f"a block of a wrong length, {length}")
        yield Block(kind, body[:-4])


def blocks_in(capture: bytes) -> list[Block]:
    """The blocks of a whole file."""
    return list(blocks_of(io.BytesIO(capture)))


def frames_in(capture: bytes) -> list[Frame]:
    """The frames of a file."""
    return [it.frame() for it in blocks_in(capture) if it.kind == PACKET]


def lines_at_frames(capture: bytes) -> list[str]:
    """The lines of the comments of frames."""
    return [line for it in blocks_in(capture) if it.kind == PACKET for line in it.text(COMMENT).splitlines()]
