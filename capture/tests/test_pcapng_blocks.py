"""Blocks and options of pcapng files, in both byte orders (capture/src/pcapng_file.c and capture_file.c)."""

import random
import struct
from fractions import Fraction
from functools import partial
from typing import NamedTuple

import pcapng
import pytest
from c_units import Script

FRAME = bytes(range(60))
SECTION, INTERFACE, OLD_PACKET, SIMPLE_PACKET, PACKET, UNKNOWN = 0x0A0D0D0A, 1, 2, 3, 6, 0x0BAD
END_OF_OPTIONS, FLAGS, NAME, RESOLUTION, FCS_LEN, OFFSET = 0, 2, 2, 9, 13, 14
ANOTHER = ": capture --interface N takes another one alone"
MOST_BLOCK, MOST_CAPTURED, MOST_INTERFACES = 1 << 24, 262_144, 65_536
UNITS = {it: 10**it for it in (0, 1, 3, 6, 7, 9, 12, 18, 19)}
UNITS |= {0x80 | it: 2**it for it in (0, 1, 10, 20, 32, 62, 63)}


class Frame(NamedTuple):
    """A frame as it was read: its counter since 1970, None where it has no time."""

    counter: object
    data: bytes
    is_whole: bool = True
    has_fcs: bool = False
    marks: int = 0


def frame_of(text: str) -> Frame:
    counter, whole, fcs, marks, data = text.split(" ")
    return Frame(None if counter == "-" else int(counter), bytes.fromhex(data), whole == "1", fcs == "1", int(marks))


class Read(NamedTuple):
    """The frames of a file, and what is wrong with it; nothing where all was read."""

    frames: list[Frame]
    fault: str

    def counters(self) -> list[object]:
        return [it.counter for it in self.frames]


class Unit(Script):
    """Makes files in a byte order, and has them read."""

    PROGRAM = "pcapng_blocks"

    def by_order(self, order: str) -> "Unit":
        self.order = order
        self.option, self.block = partial(pcapng.option, order), partial(pcapng.block, order)
        self.interface, self.simple_packet = partial(pcapng.interface, order), partial(pcapng.simple_packet, order)
        self.packet, self.old_packet = partial(pcapng.packet, order), partial(pcapng.old_packet, order)
        # An interface, and its first frame.
        self.plain, self.one = self.interface(), self.packet(0, 1, FRAME)
        return self

    def number(self, value: int, length: int = 4) -> bytes:
        return value.to_bytes(length, "little" if self.order == "<" else "big", signed=value < 0)

    def section(self, major: int = 1, magic: int = 0x1A2B3C4D) -> bytes:
        return self.block(SECTION, struct.pack(self.order + "IHHq", magic, major, 0, -1))

    def described(self, code: int, value: bytes, link: int = 1) -> bytes:
        """An interface with an option."""
        return self.interface(self.option(code, value), link=link)

    def read_bytes(self, data: bytes, chosen: int = -1) -> Read:
        self.path.write_bytes(data)
        frames, fault = self.ask("file", self.path, chosen).split(";", 1)
        return Read([frame_of(it) for it in frames.split(",") if it], fault)

    def read(self, *blocks: bytes, chosen: int = -1) -> Read:
        """Reads a section of these blocks, of one of its interfaces or all."""
        return self.read_bytes(self.section() + b"".join(blocks), chosen)

    def options(self, data: bytes) -> list[str]:
        return self.ask("options", int(self.order == ">"), data.hex()).split(",")[:-1]


@pytest.fixture(params=["<", ">"], ids=["little", "big"])
def file(request: pytest.FixtureRequest, unit: Unit) -> Unit:
    return unit.by_order(request.param)


def test_options_are_read_up_to_the_end_of_their_block_and_no_byte_behind_it(file: Unit) -> None:
    given = file.option(7, b"abc") + file.option(8, b"") + file.option(9, b"abcdefgh")
    for length in range(len(given) + 1):
        count = sum(end <= length for end in (8, 12, 24))
        assert file.options(given[:length]) == ["7 616263", "8 ", "9 6162636465666768"][:count], length


def test_an_option_may_be_as_long_as_its_field_says_and_a_longer_one_or_their_end_ends_them(file: Unit) -> None:
    long, last, end = file.option(7, b"x" * 65_535), file.option(8, b"y"), file.option(END_OF_OPTIONS, b"")
    assert file.options(long + last + end + last) == [f"7 {'78' * 65_535}", "8 79"]
    for length in (5, 6, 0x7FFF, 0x8000, 0xFFFC, 0xFFFD, 0xFFFF):
        assert file.options(last + struct.pack(file.order + "HH", 8, length) + b"abcd") == ["8 79"], length


@pytest.mark.parametrize("resolution", UNITS)
def test_if_tsresol_and_if_tsoffset_say_what_units_are_rounded_down_to_ticks(file: Unit, resolution: int) -> None:
    draw, blocks = random.Random(resolution), []
    moments: list[Fraction] = []
    for offset in (0, 1, -1, 1_764_590_400, 2**63 - 1, -(2**63), draw.randrange(-(2**40), 2**40)):
        options = file.option(RESOLUTION, bytes([resolution])), file.option(OFFSET, file.number(offset, 8))
        for units in (0, 1, 2**32 - 1, 2**32, 2**64 - 1, draw.randrange(2**64), draw.randrange(2**40)):
            blocks += [file.interface(*options), file.packet(len(moments), units, FRAME)]
            moments.append(Fraction(units, UNITS[resolution]) + offset)
    assert file.read(*blocks).counters() == [it * 10**9 // 1 // 100 % 2**48 for it in moments]


@pytest.mark.parametrize("resolution", [20, 21, 0x7F, 0x80 | 64, 0x80 | 65, 0xFF])
def test_a_resolution_of_more_units_than_64_bits_count_is_refused(file: Unit, resolution: int) -> None:
    described = file.described(RESOLUTION, bytes([resolution]))
    found = file.read(file.plain, described, file.one, file.packet(1, 1, FRAME))
    assert (len(found.frames), found.fault) == (1, f"time resolution {resolution} of interface 1")
    assert file.read(described, chosen=0) == Read([], "")


def test_of_an_option_that_is_given_twice_the_last_counts_and_others_say_nothing(file: Unit) -> None:
    """Neither do those of another length than theirs."""
    others = [file.option(code, bytes([9] * length)) for code in (1, NAME, 3, 4, 65_535) for length in (1, 8)]
    others += [file.option(OFFSET, file.number(5, length)) for length in (4, 7, 9)]
    others += [file.option(code, b"") for code in (RESOLUTION, FCS_LEN)]
    first, last = (file.option(RESOLUTION, bytes([it])) for it in (9, 0))
    for options in ([*others, first, last], [first, last, *others]):
        assert file.read(file.interface(*options), file.packet(0, 3, FRAME)).frames == [Frame(30_000_000, FRAME)]


def test_each_kind_of_block_with_a_frame_gives_it_and_others_are_skipped(file: Unit) -> None:
    """A simple packet block has no time, and others have microseconds where no option says more."""
    blocks = [file.block(UNKNOWN, b"unknown"), file.plain, file.one, file.block(5, bytes(64))]
    blocks += [file.old_packet(0, 2, FRAME[:59]), file.simple_packet(FRAME[:58])]
    blocks += [file.packet(0, 3, FRAME[:14], length=60), file.packet(0, 4, b"")]
    frames = [Frame(10, FRAME), Frame(20, FRAME[:59]), Frame(None, FRAME[:58]), Frame(30, FRAME[:14], False)]
    assert file.read(*blocks) == Read([*frames, Frame(40, b"")], "")


def test_a_simple_packet_is_cut_by_the_snapshot_length_of_its_interface(file: Unit) -> None:
    blocks = file.simple_packet(FRAME[:20], 60), *(file.simple_packet(FRAME[:it]) for it in (20, 19))
    frames = [Frame(None, FRAME[:20], False), Frame(None, FRAME[:20]), Frame(None, FRAME[:19])]
    assert file.read(file.interface(most=20), *blocks) == Read(frames, "")


def test_if_fcslen_says_whether_frames_have_check_sequences_of_4_bytes_and_others_are_refused(file: Unit) -> None:
    """In bytes or bits."""
    for length in (0, 1, 2, 3, 4, 5, 15, 16, 31, 32, 33, 255):
        refused = Read([], f"check sequences of {length} bytes, where Ethernet has 4")
        for frame in (file.one, file.old_packet(0, 1, FRAME), file.simple_packet(FRAME)):
            found = file.read(file.described(FCS_LEN, bytes([length])), frame)
            is_read = length in (0, 4, 32)
            assert [it.has_fcs for it in found.frames] == [length > 0] if is_read else found == refused
        if length in (1, 2, 3, 5, 15):
            flags = file.option(FLAGS, file.number(length << 5))
            assert file.read(file.plain, file.packet(0, 1, FRAME, flags)) == refused


def test_flags_of_a_packet_say_the_length_of_its_check_sequence_and_what_was_wrong(file: Unit) -> None:
    """A wrong check sequence is mark 1, other faults of the wire are mark 2."""
    cases = {0: (False, 0), 4 << 5: (True, 0), 1 << 24: (False, 1), 1 << 23: (False, 0), 3: (False, 0)}
    cases |= {1 << bit: (False, 2) for bit in range(25, 32)} | {0xFF00_0000 | 4 << 5: (True, 3)}
    given = [(file.number(value), wanted) for value, wanted in cases.items()]
    # Flags have four bytes.
    for flags, wanted in [*given, (file.number(4 << 5, 3), (False, 0))]:
        (found,) = file.read(file.plain, file.packet(0, 1, FRAME[:59], file.option(FLAGS, flags))).frames
        assert (found.has_fcs, found.marks) == wanted, flags.hex()


def test_each_section_has_its_own_byte_order_and_interfaces(file: Unit) -> None:
    other = ">" if file.order == "<" else "<"
    first = file.section() + file.described(RESOLUTION, b"\x09") + file.plain + file.packet(0, 100, FRAME)
    first += file.packet(1, 100, FRAME) + pcapng.section(other) + pcapng.interface(other)
    first += pcapng.packet(other, 0, 1, FRAME)
    found = file.read_bytes(first + pcapng.packet(other, 1, 1, FRAME))
    assert (found.counters(), found.fault) == ([1, 1_000, 10], f"no interface 1 at byte {len(first)}")


def test_of_a_chosen_interface_the_frames_of_each_section_are_read_and_no_others(file: Unit) -> None:
    """Others may be of a link type or a resolution that isn't read."""
    other = file.described(RESOLUTION, b"\x7f", link=113)
    part = other, file.plain, file.one, file.packet(1, 2, FRAME)
    found = file.read(*part, file.simple_packet(FRAME), file.section(), *part, chosen=1)
    assert found == Read([Frame(20, FRAME)] * 2, "")
    assert file.read(*part, chosen=2) == Read([], "no interface 2")
    assert file.read(*part, chosen=0).fault == "link type 113 (LINUX_SLL) of interface 0, where Ethernet is 1"


def test_a_link_type_other_than_ethernet_is_refused_with_its_first_frame(file: Unit) -> None:
    for link, name in [(0, "NULL"), (2, "unknown"), (113, "LINUX_SLL"), (65_535, "unknown")]:
        found = file.read(file.plain, file.interface(link=link), file.packet(1, 1, FRAME))
        assert found == Read([], f"link type {link} ({name}) of interface 1, where Ethernet is 1{ANOTHER}")
    assert file.read(file.interface(link=113)) == Read([], "")


def test_a_frame_of_an_interface_that_no_block_describes_is_refused(file: Unit) -> None:
    for named in (1, 2, 0xFFFF, 0x10000, 0xFFFFFFFF):
        assert file.read(file.plain, file.packet(named, 1, FRAME)) == Read([], f"no interface {named} at byte 48")
    for frame in (file.one, file.old_packet(0, 1, FRAME), file.simple_packet(FRAME)):
        assert file.read(frame) == Read([], "no interface 0 at byte 28")


def test_a_section_has_as_many_interfaces_as_can_be_named(file: Unit) -> None:
    most, last = file.plain * MOST_INTERFACES, MOST_INTERFACES - 1
    assert file.read(most, file.packet(last, 1, FRAME), chosen=last) == Read([Frame(10, FRAME)], "")
    assert file.read(most, file.plain).fault == f"more than 65536 interfaces at byte {28 + 20 * MOST_INTERFACES}"


def test_a_file_that_is_cut_within_a_block_is_refused_at_its_end_after_the_frames_before(file: Unit) -> None:
    parts = file.section(), file.plain, file.one, file.simple_packet(FRAME[:17])
    whole, ends = b"".join(parts), [sum(map(len, parts[:count])) for count in range(1, 5)]
    for length in range(4, len(whole) + 1):
        found = file.read_bytes(whole[:length])
        assert len(found.frames) == sum(end <= length for end in ends[2:]), length
        assert found.fault == ("" if length in ends else f"cut short at byte {length}"), length


def test_what_is_no_capture_file_or_of_another_version_is_refused(file: Unit) -> None:
    cases = dict.fromkeys((b"", b"\x0a", b"\x0a\x0d\x0d", bytes(40), b"\xff" * 40), "no pcap or pcapng file")
    cases |= {file.section(it): f"pcapng version {it}" for it in (0, 2, 0x100)}
    at_0 = "byte order of the section at byte 0"
    cases |= {file.section(magic=it): at_0 for it in (0, 0x1A2B3C4E, 0x2B1A4D3C)}
    for data, fault in cases.items():
        assert file.read_bytes(data) == Read([], fault)


LEAST = {SECTION: 28, INTERFACE: 20, OLD_PACKET: 32, SIMPLE_PACKET: 16, PACKET: 32, 5: 12, UNKNOWN: 12}


@pytest.mark.parametrize("kind", LEAST)
def test_a_block_of_a_length_that_it_can_not_have_is_refused_where_it_begins(file: Unit, kind: int) -> None:
    """Shorter than its fields, not of words of four bytes, longer than 16 MiB, or another one at its end."""
    body = struct.pack(file.order + "IHHq", 0x1A2B3C4D, 1, 0, -1) + bytes(100)
    lengths = [0, 1, 4, 8, LEAST[kind] - 4, LEAST[kind] + 1, LEAST[kind] + 2, LEAST[kind] + 3]
    for length in [*lengths, MOST_BLOCK + 4, 0x7FFF_FFFC, 0x8000_0000, 0xFFFF_FFFC, 0xFFFF_FFFF]:
        found = file.read(file.plain, struct.pack(file.order + "II", kind, length) + body)
        assert found == Read([], f"block length {length} at byte 48"), length
    for length in (0, 88, 96, 0xFFFF_FFFF):
        found = file.read(file.plain, file.one[:-4] + file.number(length))
        assert found == Read([], f"block lengths 92 and {length} at byte 48")


def test_a_captured_length_up_to_the_end_of_its_block_is_read_and_one_beyond_refused(file: Unit) -> None:
    def with_captured(block: bytes, at: int, captured: int) -> Read:
        return file.read(file.plain, block[:at] + file.number(captured) + block[at + 4 :])

    simple = file.simple_packet(FRAME)
    for captured in (0, 1, 59, 60):
        assert with_captured(file.one, 20, captured).frames[0].data == FRAME[:captured]
    for captured in (61, 64, 65, MOST_CAPTURED, MOST_CAPTURED + 1, 0x8000_0000, 0xFFFF_FFFF):
        for found in (with_captured(file.one, 20, captured), with_captured(simple, 8, captured)):
            assert found == Read([], f"captured length {captured} at byte 48"), captured


def test_frames_and_blocks_are_read_up_to_their_most(file: Unit) -> None:
    for make in (partial(file.packet, 0, 1), file.simple_packet):
        found = file.read(file.plain, make(bytes(MOST_CAPTURED)), file.one)
        assert [len(it.data) for it in found.frames] == [MOST_CAPTURED, 60]
        found = file.read(file.plain, make(bytes(MOST_CAPTURED + 1)))
        assert found.fault == f"captured length {MOST_CAPTURED + 1} at byte 48"
    assert file.read(file.plain, file.block(UNKNOWN, bytes(MOST_BLOCK - 12)), file.one).counters() == [10]
