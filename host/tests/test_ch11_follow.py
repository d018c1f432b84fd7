"""Tries the follower of recordings that grow: byte by byte, behind damage of each kind, at the end of a recording, and
how much a call takes.

What it should find is taken from the reader of whole recordings (host/bpfrec/formats/reader.py).
"""

import os
import random
import tempfile
from functools import partial
from pathlib import Path
from typing import BinaryIO, cast

import pytest
from bpfrec.formats.body import BadBody
from bpfrec.formats.follow import MOST_FAULTS, MOST_SEARCHED, Follower, Front
from bpfrec.formats.packet import Damage, Fault, Packet
from bpfrec.formats.reader import reader_of
from bpfrec.formats.records import End, Program
from frames import COMPUTER, FRAMES, HEADER_LENGTH, end_packet, header_of, packet_of, program_packet
from reading import SAMPLES, packets_of
from recorder import RECORDINGS
from scripted import frames
from support import judge, judge_quietly

SEED = 11
# Of both profiles, and with packets of other recorders.
WHOLE = [*SAMPLES, *(RECORDINGS / f"{it}.ch11" for it in ("both_profiles", "frames", "secondary_header", "setup"))]
by_name = pytest.mark.parametrize("sample", WHOLE, ids=lambda sample: sample.name)
# The body of frames that no packet has room for.
TOO_MANY = b"\xff\xff\0\0" + bytes(40)


def read_at(descriptor: int, at: int, length: int) -> bytes:
    return os.pread(descriptor, length, at)


class Followed:
    """A file that grows, and the packets that were taken of it. One that says that it has 65,535 frames is refused."""

    def __init__(self, data: bytes = b"") -> None:
        self.file = cast(BinaryIO, tempfile.TemporaryFile(buffering=0))
        self.file.write(data)
        self.taken: list[Front] = []
        self.follower = Follower(partial(read_at, self.file.fileno()), self.take)

    def take(self, front: Front) -> None:
        if front.header.kind == FRAMES and front.data()[:2] == TOO_MANY[:2]:
            raise BadBody
        self.taken.append(front)

    def size(self) -> int:
        return os.fstat(self.file.fileno()).st_size

    def read_on(self, most: int = 1_000) -> list[Fault]:
        return list(self.follower.read_on(self.size(), most))

    def read_all(self) -> list[Fault]:
        """What further calls give until they move no more."""
        found, before = [], -1
        while before != self.follower.at:
            before = self.follower.at
            found += self.read_on()
        return found

    def places(self) -> list[int]:
        return [it.at for it in self.taken]

    def channels(self) -> list[int]:
        return [it.header.channel for it in self.taken]


# ---- as it grows


@by_name
def test_a_packet_is_taken_with_its_last_byte_and_no_sooner(sample: Path) -> None:
    data = sample.read_bytes()
    packets, followed = packets_of(data), Followed()
    for length in range(1, len(data) + 1):
        followed.file.write(data[length - 1 : length])
        judge_quietly(f"at {length} no fault", followed.read_on() == [])
        wanted = [it.at for it in packets if it.at + len(it.bytes) <= length]
        judge_quietly(f"at {length} those that are whole", followed.places() == wanted, followed.places())
    judge("headers are the reader's", [it.header for it in followed.taken] == [it.header for it in packets])
    for front, packet in zip(followed.taken, packets):
        begin = packet.bytes[HEADER_LENGTH : HEADER_LENGTH + packet.header.data_len]
        judge_quietly("a front is how its data begin", begin.startswith(front.data()) and (front.data() or not begin))


def test_two_files_are_followed_side_by_side() -> None:
    one, other = Followed(), Followed()
    for turn in range(1, 9):
        one.file.write(frames(1, turn))
        other.file.write(frames(2, turn) * 2)
        judge_quietly("no fault", one.read_on() + other.read_on() == [])
    judge("each has its own packets", (one.channels(), other.channels()) == ([1] * 8, [2] * 16))


def test_a_file_of_two_recorders_has_the_packets_of_both() -> None:
    both = (RECORDINGS / "setup.ch11").read_bytes() + SAMPLES[0].read_bytes()
    followed = Followed(both)
    judge("no fault", followed.read_on() == [])
    judge("all packets", followed.places() == [it.at for it in packets_of(both)] and len(followed.taken) > 3)
    records = [followed.follower.record(it) for it in followed.taken]
    wanted = [it.what if isinstance(it.what, (Program, End)) else None for it in packets_of(both)]
    judge("and records are the reader's", records == wanted and None in wanted, records)


def test_a_record_is_read_whole_and_one_that_is_longer_than_any_is_not_read(monkeypatch: pytest.MonkeyPatch) -> None:
    long = packet_of(0, bytes(4) + b"CBPR" + bytes(400_000), 0, COMPUTER, 0, True)
    followed, counts, pread = Followed(program_packet(3, 7, count=4_096) + long), [], os.pread

    def counted(descriptor: int, count: int, at: int) -> bytes:
        counts.append(count)
        return pread(descriptor, count, at)

    monkeypatch.setattr(os, "pread", counted)
    followed.read_on()
    found = followed.follower.record(followed.taken[0])
    judge("the longest program", isinstance(found, Program) and len(found.insns) == 8 * 4_096, found)
    judge("what is longer is another's", followed.follower.record(followed.taken[1]) is None)
    judge("and of neither more than that is read", sum(counts) < 33_000, counts)


# ---- behind damage

OTHER = frames(2, 9, is_summed=False)
DAMAGES = {
    "sync": (b"\0" + OTHER[1:], "2 Sync"),
    "checksum": (OTHER[:22] + b"\x77\x77" + OTHER[24:], "3 Checksum"),
    "no multiple of 4": (header_of(2, (len(OTHER) + 1, 9), 0, FRAMES, 0, False) + OTHER[24:], "4 Length"),
    "data beyond the packet": (header_of(2, (len(OTHER), len(OTHER)), 0, FRAMES, 0, False) + OTHER[24:], "4 Length"),
    "frames beyond any packet": (header_of(2, (1 << 20, 9), 0, FRAMES, 0, False) + OTHER[24:], "4 Length"),
    "body": (packet_of(2, TOO_MANY, 0, FRAMES, 0, False), "5 Body"),
    "zeros": (bytes(len(OTHER)), "2 Sync"),
    "noise": (random.Random(SEED).randbytes(len(OTHER)), "2 Sync"),
}


@pytest.mark.parametrize("has_ended", [False, True], ids=["growing", "ended"])
@pytest.mark.parametrize("name", DAMAGES)
def test_damage_of_each_kind_is_a_fault_and_what_follows_is_taken(name: str, has_ended: bool) -> None:
    """Alike while the file grows and once it has ended."""
    bad, fault = DAMAGES[name]
    one = frames(1, 4)
    followed = Followed(one * 3 + bad + one * 4)
    if has_ended:
        followed.follower.end(followed.size())
    faults = followed.read_all()
    judge("its place is told, once", [str(it) for it in faults] == [f"read {fault} {3 * len(one)}"], faults)
    judge("what stands behind is taken", followed.channels() == [1] * 7, followed.channels())
    judge("to the end", followed.follower.at == followed.size())


def test_damage_is_passed_as_the_file_grows_byte_by_byte() -> None:
    for name, (bad, fault) in DAMAGES.items():
        followed, faults, one = Followed(frames(1, 1)), [], frames(1, 2)
        for byte in bad + one * 2:
            followed.file.write(bytes([byte]))
            faults += followed.read_on()
        judge_quietly(f"{name}: one fault", [it.name for it in faults] == [fault.split()[1]], faults)
        judge_quietly(f"{name}: the packets behind it", followed.channels() == [1] * 3, followed.channels())


def test_a_header_within_damage_is_believed_only_where_another_follows() -> None:
    followed = Followed(b"damage!!" + frames(9, 1)[:HEADER_LENGTH] + bytes(40) + frames(1, 1) * 2 + bytes(2_000))
    followed.read_all()
    judge("it isn't", 9 not in followed.channels(), followed.channels())


def test_a_packet_that_is_longer_than_any_of_a_recorder_is_not_waited_for() -> None:
    """Of a recording that has ended such a packet is another recorder's."""
    long = packet_of(5, bytes(600_000), 0, 0x40, 0, False)
    followed = Followed(long + frames(1, 1) * 3)
    judge("it is a fault", [str(it) for it in followed.read_all()] == ["read 4 Length 0"])
    judge("and what follows is taken", followed.channels() == [1, 1, 1])
    followed = Followed(long + frames(1, 1) * 3)
    followed.follower.end(followed.size())
    judge("once it has ended it is taken", followed.read_all() == [] and followed.channels() == [5, 1, 1, 1])


def test_of_an_ended_recording_is_left_out_what_the_reader_leaves_out() -> None:
    draw = random.Random(SEED)
    parts = [program_packet(1, 0), *(frames(1 + it % 2, it % 3, draw.randrange(18, 40)) for it in range(4))]
    whole = b"".join([*parts, end_packet(1, 9)])
    for at in range(len(whole)):
        data = whole[:at] + bytes([whole[at] ^ draw.randrange(1, 256)]) + whole[at + 1 :]
        with tempfile.TemporaryFile() as file:
            file.write(data)
            file.flush()
            taken: list[int] = []
            follower = Follower(partial(read_at, file.fileno()), lambda front: take_whole(front, data, taken))
            follower.end(len(data))
            faults = [(it, follower.at - it.at) for it in follower.read_on(len(data), 1_000)]
            file.seek(0)
            pieces = list(reader_of(cast(BinaryIO, file)).pieces())
        judge_quietly(f"byte {at}: faults", faults == [tuple(it) for it in pieces if isinstance(it, Damage)])
        judge_quietly(f"byte {at}: packets", taken == [it.at for it in pieces if isinstance(it, Packet)], taken)


def take_whole(front: Front, data: bytes, taken: list[int]) -> None:
    """Takes a packet that is right with all its data."""
    packet = packets_of(data[front.at : front.at + front.header.packet_len])
    if len(packet) != 1 or len(packet[0].bytes) != front.header.packet_len:
        raise BadBody
    taken.append(front.at)


# ---- the end


def test_a_packet_that_is_cut_is_waited_for_until_the_recording_has_ended() -> None:
    one = frames(1, 1, 20)
    for length in range(len(one) * 2 + 1):
        followed = Followed((one * 2)[:length])
        judge_quietly(f"{length}: no fault while it grows", followed.read_all() == [])
        followed.follower.end(followed.size())
        whole = length // len(one) * len(one)
        wanted = [Fault(1, "Truncated", whole)] if length > whole else []
        judge_quietly(f"{length}: at the end", followed.read_all() == wanted and followed.follower.at == length)


def test_what_a_search_had_left_is_judged_at_the_end() -> None:
    followed = Followed(frames(1, 1) + b"damage!!" * 9 + frames(1, 2)[:20])
    judge("the place", [it.name for it in followed.read_all()] == ["Sync"])
    followed.follower.end(followed.size())
    judge("the rest is damaged too", len(followed.read_all()) == 1 and followed.follower.at == followed.size())


def test_a_file_that_is_cut_after_its_end_has_no_more_packets() -> None:
    followed = Followed(frames(1, 1) * 4)
    followed.follower.end(followed.size())
    followed.file.truncate(len(frames(1, 1)) * 2)
    faults = list(followed.follower.read_on(len(frames(1, 1)) * 4, 100))
    judge("those that are left", faults == [] and followed.channels() == [1, 1], faults)
    judge("and then none", followed.follower.at == len(frames(1, 1)) * 4)


# ---- how much a call takes


def test_a_call_takes_as_many_packets_as_it_is_asked_for() -> None:
    followed, counts = Followed(frames(1, 1) * 10), []
    for most in (0, 1, 3, 5, 5, 5):
        before = len(followed.taken)
        followed.read_on(most)
        counts.append(len(followed.taken) - before)
    judge("and the rest at the next ones", counts == [0, 1, 3, 5, 1, 0], counts)


@pytest.mark.parametrize("has_ended", [False, True], ids=["growing", "ended"])
def test_a_call_meets_few_damaged_places(has_ended: bool) -> None:
    followed = Followed((packet_of(1, TOO_MANY, 0, FRAMES, 0, False) + frames(1, 1) * 2) * 20)
    if has_ended:
        followed.follower.end(followed.size())
    judge("a few", len(followed.read_on()) == MOST_FAULTS)
    judge("and all in the end", len(followed.read_all()) == 20 - MOST_FAULTS and len(followed.taken) == 40)


def test_a_call_searches_a_piece_of_what_is_damaged() -> None:
    one, length = frames(1, 1), 3 * MOST_SEARCHED
    followed, places = Followed(bytes(length) + one * 2), []
    while not followed.taken:
        followed.read_on()
        places.append(followed.follower.at)
    judge("a mebibyte a call", max(b - a for a, b in zip([0, *places], places[:-1])) <= MOST_SEARCHED, places)
    judge("to what is behind", followed.places() == [length, length + len(one)], followed.places())
