"""Corners of formats, made once for all that read them: captures in pcapng, recordings, and the origins of facts, each
with what is to be read in it."""

import struct
from collections.abc import Callable, Iterator
from typing import NamedTuple

from frames import COMPUTER, FRAMES, body_of, end_data, end_packet, packet_of, program_packet, with_check_sequence
from pcapng import interface, old_packet, option, packet, simple_packet

# ---- captures: options of interfaces and of frames, by their codes

FLAGS, RESOLUTION, CHECK_SEQUENCE_LEN, OFFSET = 2, 9, 13, 14
FRAME = bytes(range(60))
TICKS = 10**7


class Read(NamedTuple):
    """A frame of a capture as it is to be read: its counter since 1970, None where it has no time."""

    counter: int | None
    data: bytes = FRAME
    is_whole: bool = True
    has_check_sequence: bool = False
    marks: int = 0


class Capture(NamedTuple):
    """A section of a capture: its blocks behind the head, and its frames, or what is wrong with the first one."""

    blocks: Callable[[str], list[bytes]]
    frames: list[Read]
    fault: str = ""


def number(order: str, value: int, length: int = 4) -> bytes:
    return value.to_bytes(length, "little" if order == "<" else "big", signed=value < 0)


def flagged(order: str, *values: int) -> bytes:
    """A frame with these flags, of a microsecond."""
    return packet(order, 0, 1, FRAME, *(option(order, FLAGS, number(order, it)) for it in values))


def flags_of(*values: tuple[int, ...]) -> Callable[[str], list[bytes]]:
    return lambda order: [interface(order), *(flagged(order, *it) for it in values)]


def lengths_of(described: int | None, flags: int | None) -> Callable[[str], list[bytes]]:
    """A frame whose check sequence has a length by its interface, by its flags, or by both."""

    def blocks(order: str) -> list[bytes]:
        options = [] if described is None else [option(order, CHECK_SEQUENCE_LEN, bytes([described]))]
        return [interface(order, *options), flagged(order, *([] if flags is None else [flags << 5]))]

    return blocks


def second_interfaces(order: str, count: int) -> list[bytes]:
    """Interfaces whose times count from the second of their own number."""
    return [interface(order, option(order, OFFSET, number(order, it, 8))) for it in range(count)]


NAMED = (0, 1, 255, 256, 257, 299)


def old_blocks(order: str) -> list[bytes]:
    """Frames of old blocks, each of which says that so many were dropped."""
    return [*second_interfaces(order, 300), *(old_packet(order, it, 5, FRAME, drops=0xFFFF) for it in NAMED)]


def units_of(resolution: int, offset: int, units: int) -> Callable[[str], list[bytes]]:
    """A frame so many units behind an offset in seconds."""

    def blocks(order: str) -> list[bytes]:
        options = option(order, RESOLUTION, bytes([resolution])), option(order, OFFSET, number(order, offset, 8))
        return [interface(order, *options), packet(order, 0, units, FRAME)]

    return blocks


def lengths() -> Iterator[tuple[str, Capture]]:
    """What an interface and flags say together: the flags count, where they say something."""
    for described in (None, 0, 2, 4, 32):
        for flags in (None, 0, 1, 2, 4, 8, 15):
            length = flags or (4 if described == 32 else described or 0)
            fault = "" if length in (0, 4) else f"check sequences of {length} bytes, where Ethernet has 4"
            frames = [Read(10, has_check_sequence=length == 4)] * (not fault)
            yield f"check_sequence_{described}_{flags}", Capture(lengths_of(described, flags), frames, fault)


# The bits of flags that say nothing of a fault, but those of a length.
SILENT = [*range(5), *range(9, 24)]
CAPTURES: dict[str, Capture] = {
    "flag_of_a_wrong_check_sequence": Capture(flags_of((1 << 24,)), [Read(10, marks=1)]),
    "flags_of_other_faults": Capture(flags_of(*((1 << it,) for it in range(25, 32))), [Read(10, marks=2)] * 7),
    "flags_of_no_fault": Capture(flags_of(*((1 << it,) for it in SILENT)), [Read(10)] * len(SILENT)),
    "all_flags": Capture(
        flags_of((0xFFFFFE1F,), (0xFFFFFE1F | 4 << 5,)), [Read(10, marks=3), Read(10, has_check_sequence=True, marks=3)]
    ),
    "flags_twice": Capture(
        flags_of((1 << 24 | 4 << 5, 1 << 25), (2 << 5, 4 << 5), (4 << 5, 1 << 31)),
        [Read(10, has_check_sequence=True, marks=it) for it in (3, 0, 2)],
    ),
    **dict(lengths()),
    "old_blocks_of_interfaces_over_255": Capture(old_blocks, [Read(TICKS * it + 50) for it in NAMED]),
    "old_block_of_no_interface": Capture(
        lambda order: [interface(order), old_packet(order, 256, 5, FRAME)], [], "no interface 256 at byte 48"
    ),
    "simple_block_of_many_interfaces": Capture(
        lambda order: [*second_interfaces(order, 300), simple_packet(order, FRAME)], [Read(None)]
    ),
    "units_of_10_to_the_minus_19": Capture(units_of(19, 0, 2**64 - 1), [Read(18_446_744)]),
    "units_of_10_to_the_minus_18": Capture(units_of(18, 0, 2**64 - 1), [Read(184_467_440)]),
    "units_of_10_to_the_minus_20": Capture(units_of(20, 0, 1), [], "time resolution 20 of interface 0"),
    "units_of_2_to_the_minus_63": Capture(units_of(0x80 | 63, 0, 2**64 - 1), [Read(19_999_999)]),
    "units_of_2_to_the_minus_64": Capture(units_of(0x80 | 64, 0, 1), [], "time resolution 192 of interface 0"),
    "seconds": Capture(units_of(0, 0, 2**40), [Read(2**40 * TICKS % 2**48)]),
    "before_1970": Capture(units_of(9, -1, 999_999_899), [Read(2**48 - 2)]),
    "carry": Capture(units_of(9, 1, 1_999_999_999), [Read(29_999_999)]),
}

# ---- classic captures, by the words of their heads

MICROSECONDS, NANOSECONDS = 0xA1B2C3D4, 0xA1B23C4D
# The link type of Ethernet says by a bit that it has check sequences, and of how many words of 16 bits.
HAS_CHECK_SEQUENCE, WORDS = 1 << 26, 1 << 28


class Classic(NamedTuple):
    """A classic capture: its magic number and link type, its frames' heads, and what is to be read in it."""

    magic: int
    link: int
    heads: list[tuple[int, int, int]]
    frames: list[Read]
    fault: str = ""

    def bytes(self, order: str) -> bytes:
        head = struct.pack(order + "IHHiIII", self.magic, 2, 4, 0, 0, 65_535, self.link)
        return head + b"".join(struct.pack(order + "IIII", *it[:2], len(FRAME), it[2]) + FRAME for it in self.heads)


def classic_link(link: int, length: int, fault: str = "") -> Classic:
    """A frame under a link type, by which its check sequence has a length."""
    return Classic(NANOSECONDS, link, [(0, 100, 60)], [Read(1, has_check_sequence=length == 4)] * (not fault), fault)


def lacks_four(length: int) -> str:
    return f"check sequences of {length} bytes, where Ethernet has 4"


LAST = 2**32 - 1
CLASSIC: dict[str, Classic] = {
    "check_sequence": classic_link(1 | HAS_CHECK_SEQUENCE | 2 * WORDS, 4),
    "words_without_their_bit": classic_link(1 | 2 * WORDS, 0),
    "bit_without_words": classic_link(1 | HAS_CHECK_SEQUENCE, 0),
    "check_sequence_of_2_bytes": classic_link(1 | HAS_CHECK_SEQUENCE | WORDS, 2, lacks_four(2)),
    "check_sequence_of_30_bytes": classic_link(1 | HAS_CHECK_SEQUENCE | 15 * WORDS, 30, lacks_four(30)),
    "other_bits_of_the_link": classic_link(0x03FF_0001, 0),
    "link_of_17_bits": classic_link(0x0001_0000, 0, "link type 0 (NULL) of interface 0, where Ethernet is 1"),
    "last_microsecond": Classic(MICROSECONDS, 1, [(LAST, 999_999, 60)], [Read((LAST * TICKS + 9_999_990) % 2**48)]),
    "last_nanosecond": Classic(NANOSECONDS, 1, [(LAST, 999_999_999, 60)], [Read((LAST * TICKS + 9_999_999) % 2**48)]),
    "units_over_a_second": Classic(MICROSECONDS, 1, [(1, LAST, 60)], [Read(TICKS + LAST * 10)]),
    "cut_and_longer": Classic(
        NANOSECONDS, 1, [(0, 100, 61), (0, 200, 59)], [Read(1, is_whole=False), Read(2, is_whole=True)]
    ),
}

# ---- recordings: frames of channel 1, each of a counter, its word without the length, and its bytes

WRONG_CHECK_SEQUENCE, OTHER_ERROR = 1 << 31, 1 << 30


class Recording(NamedTuple):
    """A recording: its packets, the frames of channel 1 in it, and the ends of channels, each with its counts."""

    data: bytes
    frames: list[tuple[int, int, bytes]]
    ends: list[tuple[int, int, int]] = []


def frame_of(length: int, mark: int) -> bytes:
    """A frame of so many bytes with its check sequence."""
    return with_check_sequence(bytes((at * 7 + mark) % 256 for at in range(length - 4)))


def of_frames(frames: list[tuple[int, int, bytes]], is_summed: bool, has_filler: bool = True) -> bytes:
    """A packet of frames; the last one's filler may be missing."""
    body = body_of(frames)
    body = body if has_filler else body[: len(body) - len(frames[-1][2]) % 2]
    return program_packet(1, 0, is_summed=is_summed) + packet_of(1, body, 0, FRAMES, 0, is_summed)


def end_of(channel: int, offered: int, kept: int) -> bytes:
    """The packet of an end."""
    return packet_of(0, end_data(channel, offered, kept), 1, COMPUTER, 9, True)


ODD = [(32, 0, frame_of(61, 1)), (33, 0, frame_of(65, 2))]
MARKED = [(at, word, frame_of(60, at)) for at, word in enumerate((0, WRONG_CHECK_SEQUENCE, OTHER_ERROR, 3 << 30))]
LONGEST = [(2**48 - 1, 0, frame_of(16_383, 3)), (0, 0, frame_of(18, 4)), (2**32, 0, frame_of(64, 5))]
ENDS = [(1, 2**32, 2**32), (2, 2**40 + 3, 2**33 + 1), (3, 2**64 - 1, 2**53 + 1)]
RECORDINGS: dict[str, Recording] = {
    "without_the_last_filler": Recording(of_frames(ODD, False, has_filler=False), ODD),
    "without_the_last_filler_summed": Recording(of_frames(ODD, True, has_filler=False), ODD),
    "marked": Recording(of_frames(MARKED, True), MARKED),
    "longest": Recording(of_frames(LONGEST, True), LONGEST),
    "ends_over_32_bits": Recording(b"".join(end_of(*it) for it in ENDS), [], ENDS),
    "ends": Recording(end_packet(7, 2**32 - 1), [], [(7, 2**32 - 1, 2**32 - 1)]),
}

# ---- recordings with one full packet, by its frames: of channel 1, with a program before it and an end behind

# The longest packet of frames, and its bytes around frames, but for a data checksum.
MOST_PACKET, AROUND, FRAME_HEAD, LEAST_FRAME = 524_288, 24 + 4, 12, 18


class Full(NamedTuple):
    """A recording whose second packet is full: its bytes, and its frames."""

    data: bytes
    frames: list[tuple[int, int, bytes]]
    is_summed: bool


def filling(length_of: Callable[[int], int], room: int) -> list[tuple[int, int, bytes]]:
    """Frames of these lengths, each a tick behind the one before, that take all of a room to its last byte."""
    found: list[tuple[int, int, bytes]] = []
    while room:
        length = length_of(len(found))
        if 0 != room - FRAME_HEAD - length - length % 2 < FRAME_HEAD + min(length, LEAST_FRAME):
            length = room - FRAME_HEAD - length_of(0) % 2
        found.append((1_000 + len(found), 0, frame_of(length, len(found)) if length >= LEAST_FRAME else b""))
        room -= FRAME_HEAD + length + length % 2
    return found


def full(length_of: Callable[[int], int], is_summed: bool = True, length: int = MOST_PACKET) -> Full:
    """A recording with a packet of this length, and one of a frame behind it."""
    frames = filling(length_of, length - AROUND - 4 * is_summed)
    later = (frames[-1][0] + 1, 0, frame_of(LEAST_FRAME, 7))
    packets = [
        program_packet(1, 0, is_summed=is_summed, counter=1_000),
        packet_of(1, body_of(frames), 0, FRAMES, 1_000, is_summed),
        packet_of(1, body_of([later]), 1, FRAMES, later[0], is_summed),
        end_packet(1, len(frames) + 1, 1, is_summed, later[0]),
    ]
    return Full(b"".join(packets), [*frames, later], is_summed)


# How each is made. Those of the first profile have no data checksum: with one, the packet of 524,284 bytes may be as long
# as the others.
FULL: dict[str, Callable[[], Full]] = {
    "short": lambda: full(lambda _: 60),
    "odd": lambda: full(lambda _: 61),
    "equal": lambda: full(lambda _: 20),
    "least": lambda: full(lambda _: LEAST_FRAME),
    "longest": lambda: full(lambda _: 16_383),
    "all_lengths": lambda: full(lambda at: LEAST_FRAME + at),
    "all_lengths_without_sums": lambda: full(lambda at: LEAST_FRAME + at, False, MOST_PACKET - 4),
    "short_without_sums": lambda: full(lambda _: 60, False),
    "empty": lambda: full(lambda _: 0),
}

# ---- origins of facts, with the counters of frames that have their times by them

LAST_MOMENT = "253370764799.999999999"
ORIGINS: dict[str, tuple[list[tuple], list[int]]] = {
    "before_1970": ([("-0.000000150", 0, None), ("-62135596800.000000000", 9, None)], [0, 1, 2, 9, 10]),
    "carry": ([("1.999999900", 0, None), ("1.999999950", 5, None), ("2.999999999", 9, None)], [0, 1, 2, 5, 6, 9, 10]),
    "carry_by_many": ([("1764590400.999999999", 0, None)], [9_999_999, 10_000_000, 2**48 - 1]),
    "past_5137": ([("99999999999.999999900", 0, None), ("100000000000.000000000", 9, None)], [0, 1, 9]),
    "last_year": ([(LAST_MOMENT, 0, None)], [0, 1, 2**48 - 1]),
    "tai_past_5137": ([("100000000036.999999900", 0, None, "TAI", 37)], [0, 1, 2]),
}
