"""The one writer of frames, of a feed's records and of a recording's packets, by docs/user/formats/, for trials and
benches.

Nothing here is the program's own: what it reads and writes is compared with this.
"""

import struct
import zlib
from collections.abc import Iterable
from pathlib import Path
from typing import NamedTuple

HEAD = bytes.fromhex("020000000002 020000000001 88b5")
# The types of packets.
COMPUTER, FRAMES = 0x00, 0x68
SYNC, HEADER_LENGTH = 0xEB25, 24
# What begins a record, its kinds, and the bytes of an instruction.
TAG, PROGRAM, END, INSN_LEN = b"CBPR", 1, 2, 8


class Record(NamedTuple):
    """A record of a feed."""

    counter: int
    marks: int
    frame: bytes


# ---- frames


def numbered(number: int, length: int = 60) -> bytes:
    return HEAD + number.to_bytes(8, "big") + bytes(length - len(HEAD) - 8)


def number_of(frame: bytes) -> int:
    return int.from_bytes(frame[len(HEAD) : len(HEAD) + 8], "big")


def with_check_sequence(frame: bytes) -> bytes:
    return frame + zlib.crc32(frame).to_bytes(4, "little")


# ---- feeds


def record_of(counter: int, frame: bytes, marks: int = 0) -> bytes:
    return counter.to_bytes(6, "little") + bytes((marks,)) + len(frame).to_bytes(2, "little") + frame


def feed_of(records: Iterable[tuple[int, int, bytes]]) -> bytes:
    """The feed of records, each of a counter, marks and a frame."""
    return b"".join(record_of(counter, frame, marks) for counter, marks, frame in records)


def counted_feed(frames: Iterable[bytes], first: int = 0) -> bytes:
    """The feed of frames whose counters are their numbers."""
    return b"".join(record_of(counter, frame) for counter, frame in enumerate(frames, first))


def write_feed(path: Path, frames: Iterable[tuple[int, bytes]]) -> None:
    """Writes a feed of frames, each with its counter."""
    with open(path, "wb", buffering=1 << 20) as feed:
        for counter, frame in frames:
            feed.write(record_of(counter, frame))


def records(feed: bytes) -> list[Record]:
    found, at = [], 0
    while at < len(feed):
        length = int.from_bytes(feed[at + 7 : at + 9], "little")
        found.append(Record(int.from_bytes(feed[at : at + 6], "little"), feed[at + 6], feed[at + 9 : at + 9 + length]))
        at += 9 + length
    return found


def counters(feed: bytes) -> list[int]:
    return [it.counter for it in records(feed)]


def numbers(feed: bytes) -> list[int]:
    return [number_of(it.frame) for it in records(feed)]


def numbers_in(parts: Iterable[list[Record]]) -> list[int]:
    """The numbers of the frames of feeds that follow one another."""
    return [number_of(it.frame) for part in parts for it in part]


# ---- packets


def sum_of(data: bytes, width: int) -> int:
    """The sum of the words of so many bytes, as such a word."""
    whole = data + bytes(-len(data) % width)
    return sum(struct.unpack(f"<{len(whole) // width}{'H' if width == 2 else 'I'}", whole)) % 256**width


def header_of(channel: int, lengths: tuple[int, int], sequence: int, kind: int, counter: int, is_summed: bool) -> bytes:
    """A packet's header; its lengths are those of the packet and of its data."""
    head = struct.pack(
        "<HHIIBBBBIH", SYNC, channel, *lengths, 8, sequence % 256, 3 * is_summed, kind, counter % 2**32, counter >> 32
    )
    return head + sum_of(head, 2).to_bytes(2, "little")


def packet_of(channel: int, data: bytes, sequence: int, kind: int, counter: int, is_summed: bool) -> bytes:
    """A packet with a data checksum or without."""
    body = data + bytes(-len(data) % 4)
    body += sum_of(body, 4).to_bytes(4, "little") if is_summed else b""
    return header_of(channel, (HEADER_LENGTH + len(body), len(data)), sequence, kind, counter, is_summed) + body


def body_of(frames: Iterable[tuple[int, int, bytes]]) -> bytes:
    """A body of frames: counters, words without their lengths, and bytes."""
    parts = [struct.pack("<QI", counter, word | len(it)) + it + bytes(len(it) % 2) for counter, word, it in frames]
    return struct.pack("<I", len(parts)) + b"".join(parts)


def frames_packet(frames: Iterable[tuple[int, int, bytes]], sequence: int, counter: int, is_summed: bool) -> bytes:
    """A packet of frames of channel 1."""
    return packet_of(1, body_of(frames), sequence, FRAMES, counter, is_summed)


def record_data(kind: int, channel: int, rest: bytes, word: int = 0) -> bytes:
    """The data of a packet of a record: what each has, and the rest of its kind."""
    return struct.pack("<I4sHH", word, TAG, kind, channel) + rest


def insns_of(*insns: tuple) -> bytes:
    """The bytes of instructions."""
    return b"".join(struct.pack("<HBBI", *it) for it in insns)


def program_data(channel: int, version: int, insns: bytes, first: int = 0) -> bytes:
    """The data of the packet of a program, which is in force from a frame on."""
    return record_data(PROGRAM, channel, struct.pack("<IQHH", version, first, len(insns) // INSN_LEN, 0) + insns)


def end_data(channel: int, offered: int, kept: int) -> bytes:
    """The data of the packet of a channel's end."""
    return record_data(END, channel, struct.pack("<QQ", offered, kept))


def program_packet(
    channel: int,
    version: int,
    insn: tuple = (6, 0, 0, 1),
    is_summed: bool = True,
    count: int = 1,
    sequence: int = 0,
    counter: int = 0,
) -> bytes:
    """The packet of a program of one instruction, as often as `count` says, from frame 0 on."""
    data = program_data(channel, version, insns_of(insn) * count)
    return packet_of(0, data, sequence, COMPUTER, counter, is_summed)


def end_packet(channel: int, count: int, sequence: int = 1, is_summed: bool = True, counter: int = 9) -> bytes:
    """The packet of the end of a channel, of whose frames all were kept."""
    return packet_of(0, end_data(channel, count, count), sequence, COMPUTER, counter, is_summed)
