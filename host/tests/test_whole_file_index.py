"""Tries the reader of whole Chapter 11 files on damage of the index and of bytes: each is named at its place."""

import random
import struct
from typing import NamedTuple

import pytest
from frames import sum_of
from support import judge, judge_quietly
from whole_file import MOST_NAMED
from whole_file_parts import (
    Change,
    Edit,
    Part,
    byte_set,
    bytes_of,
    faults_of,
    parts_of,
    place_of,
    sample,
    with_data,
    with_fields,
    without,
)

RECORD, SETUP, INDEX, TIME, FRAMES = 0x00, 0x01, 0x03, 0x11, 0x68


# ---- what is wrong with the index


class Broken(NamedTuple):
    """A change of a file's packets with its index; what is wrong then, and the packet that is named."""

    change: Change
    fault: str
    kind: int
    which: int
    most_named: int = MOST_NAMED


def of_index(which: int, edit: Edit, fault: str, most_named: int = MOST_NAMED) -> Broken:
    return Broken(with_data(INDEX, which, edit), fault, INDEX, which, most_named)


def fewer_entries(length: int) -> Edit:
    """An index packet without its last entry, which has this length."""
    return lambda data: struct.pack("<I", struct.unpack_from("<I", data)[0] - 1) + data[4:-length]


def numbered(change: Change) -> Change:
    """A change behind which sequence numbers are made anew."""

    def renumbered(parts: list[Part]) -> list[Part]:
        found, counts = [], dict.fromkeys(range(65_536), 0)
        for part in change(parts):
            found.append(part._replace(sequence=counts[part.channel] % 256))
            counts[part.channel] += 1
        return found

    return renumbered


ANOTHER, OF_ROOT = "entry 1 of a node has another {} than the packet at 0", "a root doesn't name its nodes"
OF_CHAIN, AT_END = (
    "a root doesn't name the root before, or itself as the first",
    "the file doesn't end with a root that names all",
)
INDEX_DAMAGES = {
    "a sequence number": Broken(
        with_fields(FRAMES, 1, sequence=77), "sequence number 77 of channel 9, and 0 comes next", FRAMES, 1
    ),
    "a node's counter": Broken(
        with_fields(INDEX, 0, counter=1), "the counter lies over a second behind an earlier one", INDEX, 0
    ),
    "a root's counter": Broken(
        with_fields(INDEX, 1, counter=60_009_499), "the counter of an index packet isn't the greatest", INDEX, 1
    ),
    "an entry's counter": of_index(0, byte_set(4, 0x01), ANOTHER.format("counter")),
    "an entry's channel": of_index(0, byte_set(12, 0x01), ANOTHER.format("channel")),
    "an entry's type": of_index(0, byte_set(14, 0x68), ANOTHER.format("type")),
    "an entry's zero": of_index(0, byte_set(15, 0x01), ANOTHER.format("zero")),
    "an entry's place": of_index(0, byte_set(16, 0x04), ANOTHER.format("place")),
    "an entry less": of_index(0, fewer_entries(20), "a node names 20 packets, and 21 stand ahead of it"),
    "a node of no entry": of_index(0, lambda _: b"\0\0\0\x80", "the word of an index packet is 0x80000000"),
    "other bits of a node's word": of_index(0, byte_set(2, 1), "the word of an index packet is 0x80010015"),
    "a node without its bit": of_index(0, byte_set(3, 0), "the word of an index packet is 0x15"),
    "an index packet without its word": of_index(0, lambda _: b"", "the word of an index packet is 0x0"),
    "a root's node": of_index(1, byte_set(12, 0), OF_ROOT),
    "the counter of a root's node": of_index(1, byte_set(4, 0), OF_ROOT),
    "a root that isn't the first": of_index(1, byte_set(28, 0), OF_CHAIN),
    "a chain that is broken": of_index(5, byte_set(44, 0), OF_CHAIN, 2),
    "a root without the root before": of_index(5, fewer_entries(16), OF_ROOT, 2),
    "a packet that no node names": Broken(
        numbered(lambda parts: [*parts[:18], parts[17], *parts[18:]]),
        "a node names 21 packets, and 22 stand ahead of it",
        INDEX,
        0,
    ),
    "a packet behind the root": Broken(
        numbered(lambda parts: [*parts, parts[-3]]), "a packet behind the end of the index", RECORD, -1
    ),
    "a node behind the root": Broken(
        numbered(lambda parts: [*parts, parts[-2]]), "a node behind the last one", INDEX, 2
    ),
    "no node": Broken(numbered(without(INDEX, 0)), OF_ROOT, INDEX, 0),
    "no root": Broken(without(INDEX, -1), AT_END, INDEX, -1),
    "no index": Broken(lambda parts: parts[:-2], AT_END, RECORD, -1),
    "a node that isn't full": Broken(
        numbered(with_data(INDEX, 0, fewer_entries(20))), "a node names 1 packets, and 2 stand ahead of it", INDEX, 0, 2
    ),
    "no node between packets": Broken(
        numbered(without(INDEX, 0)), "no node names the 2 packets ahead of it", RECORD, 0, 2
    ),
    "no root between nodes": Broken(numbered(without(INDEX, 2)), "no root names the 2 nodes ahead of it", INDEX, 2, 2),
}


@pytest.mark.parametrize("what", INDEX_DAMAGES)
def test_damage_of_the_index_is_named_at_its_place(what: str) -> None:
    """First of all that follows from it."""
    damage = INDEX_DAMAGES[what]
    changed = damage.change(parts_of(sample(damage.most_named)))
    place = place_of(changed, damage.kind, damage.which)
    found = faults_of(bytes_of(changed), damage.most_named)
    judge(what, found[:1] == [f"{place} {damage.fault}"], (place, found))


# ---- what is wrong with bytes


def changed_header(data: bytes, at: int, value: int) -> bytes:
    """A file whose first header has another byte, and a right sum."""
    head = byte_set(at, value)(data)[:22]
    return head + sum_of(head, 2).to_bytes(2, "little") + data[24:]


def flipped(data: bytes, at: int) -> bytes:
    return byte_set(at, data[at] ^ 0x40)(data)


def test_packets_whose_bytes_are_wrong_are_named() -> None:
    """The packets behind are judged too, where the header is right; else the reading ends there."""
    good = sample()
    parts = parts_of(good)
    frames, time = place_of(parts, FRAMES, 1), place_of(parts, TIME, 1)
    node, end = place_of(parts, INDEX, 0), place_of(parts, INDEX, 1)
    version, flags = faults_of(changed_header(good, 12, 7)), faults_of(changed_header(good, 14, 0))
    judge("a version", version == ["0 data type version 7"], version)
    judge("flags", flags == ["0 packet flags 0x00"], flags)
    for at in (frames + 24, frames + 120, time + 28, node + 40, end + 30, len(good) - 1):
        found = faults_of(flipped(good, at))
        place = max(it for it in places_of(parts) if it <= at)
        judge_quietly(f"byte {at}", len(found) == 1 and found[0].startswith(f"{place} data checksum "), found)


def places_of(parts: list[Part]) -> list[int]:
    """The places of all packets."""
    return [len(bytes_of(parts[:number])) for number in range(len(parts))]


@pytest.mark.parametrize("at", range(24))
def test_a_changed_byte_of_a_header_ends_the_reading(at: int) -> None:
    good = sample()
    place = place_of(parts_of(good), FRAMES, 1)
    found = faults_of(flipped(good, place + at))
    fault = "no sync pattern" if at < 2 else "header checksum "
    judge_quietly(f"byte {at}", found[0].startswith(f"{place} {fault}") and len(found) == 2, found)
    judge_quietly("what is behind isn't known", found[1].endswith(" the file doesn't end with a root that names all"))


def test_lengths_that_no_packet_has_end_the_reading() -> None:
    good = sample()
    for at, value in ((4, 0xFC), (8, 0x00), (7, 0x7F), (11, 0x01)):
        found = faults_of(changed_header(good, at, value))
        judge_quietly(f"byte {at}", found[0].startswith("0 lengths "), found)
    long = Part(0, 0, SETUP, 0, bytes(134_217_728 - 28)).bytes()
    judge("the longest setup record", "lengths" not in faults_of(long)[0], faults_of(long)[:1])
    frames = Part(5, 0, FRAMES, 0, bytes(524_288 - 24)).bytes()
    judge("a packet that is too long", faults_of(frames)[0] == "0 lengths 524292 524264", faults_of(frames))


def test_a_file_that_is_cut_is_named_at_the_packet_that_is_cut() -> None:
    """At each byte but where packets end, and there for want of a root."""
    good = sample()
    places = [*places_of(parts_of(good)), len(good)]
    for length in range(len(good)):
        found = faults_of(good[:length])
        place = max(it for it in places if it <= length)
        fault = f"{place} cut" if length not in places else " the file doesn't end with a root that names all"
        judge_quietly(f"cut to {length} bytes", any(it == fault or it.endswith(fault) for it in found), found)


def test_hostile_files_end_in_seconds_and_without_a_fault_of_the_reader() -> None:
    """Each byte of the data set to some values, with right sums; and bytes that were drawn."""
    draw, good = random.Random(5), parts_of(sample())
    for _ in range(3_000):
        at = draw.randrange(len(good))
        data = bytearray(good[at].data)
        for _ in range(draw.choice([1, 1, 4])):
            data[draw.randrange(len(data))] = draw.choice([0, 1, 0x7F, 0x80, 0xFF, draw.randrange(256)])
        kind = draw.choice([good[at].kind] * 9 + [RECORD, SETUP, INDEX, TIME, FRAMES])
        counter = draw.choice([good[at].counter] * 9 + [0, 2**48 - 1, draw.randrange(2**48)])
        parts = [*good[:at], good[at]._replace(data=bytes(data), kind=kind, counter=counter), *good[at + 1 :]]
        faults_of(bytes_of(parts))
