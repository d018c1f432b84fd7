"""Capture files that are written by hand, classic and pcapng, in both byte orders."""

import struct

from frames import with_check_sequence

CAPTURE_HEAD = "IHHiIII"
CAPTURED_HEAD = "IIII"
NANOSECONDS, MICROSECONDS = 0xA1B23C4D, 0xA1B2C3D4

# ---- frames


def frame_of(mark: int, length: int = 60) -> bytes:
    """An ARP frame with a byte of its own, without its check sequence."""
    return bytes.fromhex("ffffffffffff0200000000010806") + bytes([mark]) * (length - 14)


def whole(frame: bytes) -> bytes:
    return with_check_sequence(frame)


# ---- classic captures


def capture_head(magic: int, longest: int = 65_535, link: int = 1) -> bytes:
    return struct.pack("<" + CAPTURE_HEAD, magic, 2, 4, 0, 0, longest, link)


def captured(seconds: int, units: int, frame: bytes, length: int | None = None) -> bytes:
    """A frame of a classic capture, of which there were so many bytes."""
    wire = len(frame) if length is None else length
    return struct.pack("<" + CAPTURED_HEAD, seconds, units, len(frame), wire) + frame


def frames_in(capture: bytes) -> list[tuple[int, int, bytes, int]]:
    """The seconds, the units, the bytes and the length on the wire of each frame of a little-endian capture."""
    found, at = [], 24
    while at < len(capture):
        seconds, units, length, wire = struct.unpack_from("<" + CAPTURED_HEAD, capture, at)
        found.append((seconds, units, capture[at + 16 : at + 16 + length], wire))
        at += 16 + length
    return found


def times_of(capture: bytes) -> list[int]:
    """The moment of each frame of a capture in nanoseconds."""
    return [seconds * 10**9 + units for seconds, units, _, _ in frames_in(capture)]


def with_wrong_sequences(capture: bytes) -> bytes:
    """A capture of check sequences in which each tenth one is wrong."""
    damaged, at, number = bytearray(capture), 24, 0
    while at < len(damaged):
        length = struct.unpack_from("<I", damaged, at + 8)[0]
        damaged[at + 16 + length - 1] ^= 1 if number % 10 == 0 else 0
        at, number = at + 16 + length, number + 1
    return bytes(damaged)


# ---- pcapng


def option(order: str, code: int, value: bytes) -> bytes:
    return struct.pack(order + "HH", code, len(value)) + value + bytes(-len(value) % 4)


def block(order: str, kind: int, body: bytes) -> bytes:
    body += bytes(-len(body) % 4)
    length = struct.pack(order + "I", 12 + len(body))
    return struct.pack(order + "I", kind) + length + body + length


def section(order: str) -> bytes:
    return block(order, 0x0A0D0D0A, struct.pack(order + "IHHq", 0x1A2B3C4D, 1, 0, -1))


def interface(order: str, *options: bytes, link: int = 1, most: int = 0) -> bytes:
    return block(order, 1, struct.pack(order + "HHI", link, 0, most) + b"".join(options))


def packet(order: str, number: int, units: int, frame: bytes, *options: bytes, length: int = 0) -> bytes:
    head = struct.pack(order + "IIIII", number, units >> 32, units & 0xFFFFFFFF, len(frame), length or len(frame))
    return block(order, 6, head + frame + bytes(-len(frame) % 4) + b"".join(options))


def old_packet(order: str, number: int, units: int, frame: bytes, drops: int = 0) -> bytes:
    head = struct.pack(order + "HHIIII", number, drops, units >> 32, units & 0xFFFFFFFF, len(frame), len(frame))
    return block(order, 2, head + frame)


def simple_packet(order: str, frame: bytes, length: int = 0) -> bytes:
    return block(order, 3, struct.pack(order + "I", length or len(frame)) + frame)


def flags(value: int) -> bytes:
    return option("<", 2, struct.pack("<I", value))


SECOND = 1_700_000_000
# The check sequence of the fifth frame.
WRONG = whole(frame_of(5))[:-1] + b"\0"


def all_blocks() -> bytes:
    """A file with each kind of block, two sections in both byte orders, each kind of time."""
    nanoseconds, halves = option("<", 9, b"\x09"), option(">", 9, b"\x81")
    before, kept = option("<", 14, struct.pack("<q", SECOND)), option("<", 13, b"\x04")
    at = SECOND * 10**9
    return b"".join(
        [
            section("<"),
            interface("<", nanoseconds),
            interface("<", before, kept, option("<", 0, b"")),
            packet("<", 0, at + 250, frame_of(1)),
            block("<", 0x0BAD, b"unknown"),
            packet("<", 1, 3, whole(frame_of(2))),
            packet("<", 1, 4, WRONG),
            packet("<", 0, at + 5000, frame_of(6), flags(1 << 24)),
            packet("<", 0, at + 5100, whole(frame_of(7)), flags(4 << 5 | 1 << 28)),
            old_packet("<", 0, at + 6000, frame_of(8)),
            simple_packet("<", frame_of(9, 62)),
            packet("<", 0, at + 7000, frame_of(10), length=61),
            section(">"),
            interface(">", halves),
            packet(">", 0, 2 * SECOND + 1, frame_of(11)),
            simple_packet(">", frame_of(12)),
        ]
    )


# The records of its frames, by the origin SECOND.
BLOCKS_RECORDS = [
    (2, 0, whole(frame_of(1))),
    (30, 0, whole(frame_of(2))),
    (40, 1, WRONG),
    (50, 1, whole(frame_of(6))),
    (51, 2, whole(frame_of(7))),
    (60, 0, whole(frame_of(8))),
    (60, 0, whole(frame_of(9, 62))),
    (5_000_000, 0, whole(frame_of(11))),
    (5_000_000, 0, whole(frame_of(12))),
]
