"""Tries the datagrams that bpfrec publish sends by a reader of its own, and what bpfrec receive makes of them."""

import random
import struct
import time
from pathlib import Path
from typing import NamedTuple

import pytest
from bpfrec.formats.packet import Header
from bpfrec.formats.transfer import Datagram, Part, datagram_in
from bpfrec_tools.publish.datagrams import Datagrams
from bpfrec_tools.receive import output
from bpfrec_tools.receive.assembling import Assembling
from bpfrec_tools.receive.output import Files
from bpfrec_tools.receive.window import MOST_BEHIND, WIDTH, Window
from frames import packet_of
from support import judge, judge_quietly, judge_same
from whole_file import SETUP
from whole_file_parts import parts_of, replaced, sample

SEEDS = range(60)
TURN = 1 << 24


class Sent(NamedTuple):
    """A datagram by a plain reading of its layout."""

    number: int
    kind: int
    channel: int
    sequence: int
    at: int
    data: bytes


def read(datagram: bytes) -> Sent:
    (word,) = struct.unpack_from("<I", datagram)
    judge_quietly("format 1", word & 15 == 1, hex(word))
    number, kind = word >> 8, word >> 4 & 15
    if kind == 0:
        return Sent(number, kind, 0, 0, 0, datagram[4:])
    channel, sequence, zero, at = struct.unpack_from("<HBBI", datagram, 4)
    judge_quietly("a part, with zeros", (kind, zero) == (1, 0), (kind, zero))
    return Sent(number, kind, channel, sequence, at, datagram[12:])


def sent(packets: list[bytes], most: int, together: int = 3) -> list[bytes]:
    """The datagrams of packets, of which each `together` are flushed."""
    found: list[bytes] = []
    datagrams = Datagrams(most, found.append)
    for at, packet in enumerate(packets):
        datagrams.add(packet)
        if at % together == together - 1:
            datagrams.flush()
    datagrams.flush()
    return found


def drawn_packets(draw: random.Random) -> list[bytes]:
    """Packets of drawn lengths, among them some with a setup record's."""
    found = []
    for number in range(draw.randrange(1, 30)):
        data = draw.randbytes(draw.choice([0, 1, 4, 30, 200, 1_440, 1_441, draw.randrange(9_000)]))
        found.append(packet_of(draw.randrange(1, 65_536), data, number, 0x68, draw.randrange(2**48), True))
    return found


@pytest.mark.parametrize("seed", SEEDS)
def test_datagrams_have_all_packets_in_order(seed: int) -> None:
    draw = random.Random(seed)
    packets, most = drawn_packets(draw), draw.choice([64, 100, 1_472, 65_504])
    datagrams = sent(packets, most, draw.choice([1, 3, 100]))
    judge_quietly("none is longer", max(map(len, datagrams)) <= most)
    read_in = [read(it) for it in datagrams]
    judge_quietly("their numbers", [it.number for it in read_in] == list(range(len(datagrams))))
    judge("all bytes, in order", b"".join(it.data for it in read_in) == b"".join(packets))
    ahead = 0
    for one in read_in:
        if one.kind == 1:
            head = b"".join(packets)[ahead - one.at :][:24]
            judge_quietly("its packet's channel", one.channel == int.from_bytes(head[2:4], "little"))
            judge_quietly("its packet's number", one.sequence == head[13])
            judge_quietly("it doesn't fit", int.from_bytes(head[4:8], "little") > most - 4)
        ahead += len(one.data)


def test_as_many_packets_as_fit_go_together() -> None:
    packet = packet_of(1, bytes(68), 0, 0x68, 0, True)
    judge_quietly("96 bytes", len(packet) == 96)
    judge_same("15 of 96 bytes in 1,444", [len(it) for it in sent([packet] * 31, 1_444, 100)], [1_444, 1_444, 100])
    judge("one byte less takes 14", [len(it) for it in sent([packet] * 15, 1_443, 100)] == [1_348, 100])


def test_the_headers_have_these_bytes() -> None:
    found: list[bytes] = []
    datagrams = Datagrams(36, found.append)
    datagrams.number = 0x1_00_00_05
    datagrams.add(packet_of(0x0102, bytes(8), 0x0A, 0x68, 0, True))
    datagrams.most, datagrams.room = 100, 96
    datagrams.add(packet_of(3, bytes(4), 0, 0x68, 0, True))
    datagrams.flush()
    judge("a part that begins a packet", found[0][:12].hex() == "110500000201" "0a0000000000", found[0][:12].hex())
    judge("the next", found[1][:12].hex() == "110600000201" "0a0018000000", found[1][:12].hex())
    judge("whole packets", found[2][:4].hex() == "01070000", found[2][:4].hex())


def test_in_a_silence_a_datagram_without_a_packet_goes_out_each_second(monkeypatch: pytest.MonkeyPatch) -> None:
    now = [100.0]
    monkeypatch.setattr(time, "monotonic", lambda: now[-1])
    found: list[bytes] = []
    datagrams = Datagrams(1_472, found.append)
    for moment, count in ((100.9, 0), (101.0, 1), (101.9, 1), (102.0, 2), (102.5, 3), (103.4, 3), (103.5, 4)):
        now.append(moment)
        if moment == 102.5:
            datagrams.add(packet_of(1, bytes(68), 0, 0x68, 0, True))
            datagrams.flush()
        datagrams.beat()
        judge_quietly(f"{moment}", len(found) == count, len(found))
    judge("with the next numbers", [it[:4].hex() for it in found] == ["01000000", "01010000", "01020000", "01030000"])
    judge("and nothing else", [len(it) for it in found] == [4, 4, 100, 4] and datagrams.packets == 1)


# ---- the window


class Watched:
    """A window, with what it gives."""

    def __init__(self, *numbers: int) -> None:
        self.taken: list[int] = []
        self.gaps: list[tuple[int, int]] = []
        self.restarts = 0
        self.window = Window(self.take, lambda count, number: self.gaps.append((count, number)), self.restart)
        self.add(*numbers)

    def take(self, datagram: Datagram) -> None:
        self.taken.append(datagram.number)

    def restart(self) -> None:
        self.restarts += 1

    def add(self, *numbers: int) -> None:
        for number in numbers:
            self.window.add(Datagram(number % TURN, None, b""))

    def counts(self) -> tuple[int, int]:
        return self.window.lost, self.window.doubled


@pytest.mark.parametrize("seed", SEEDS)
def test_what_changes_places_within_64_is_put_in_order(seed: int) -> None:
    draw = random.Random(seed)
    first = draw.choice([0, 70, TURN - 150])
    numbers = list(range(first, first + 300))
    gone = {it for it in numbers[1:-1] if draw.random() < 0.05}
    twice = [it for it in numbers if it not in gone and draw.random() < 0.1]
    came = [it for it in sorted(numbers + twice) if it not in gone]
    order = sorted(came, key=lambda it: it + draw.random() * (WIDTH - 2)) if first == 0 else came
    watched = Watched(*order)
    watched.window.give_up()
    wanted = [it % TURN for it in numbers if it not in gone]
    judge("each once, in order", watched.taken == wanted, (len(watched.taken), len(wanted)))
    judge("counts", watched.counts() == (len(gone), len(twice)), (watched.counts(), len(gone), len(twice)))
    judge("each gap", sum(it for it, _ in watched.gaps) == len(gone) and watched.restarts == 0)


def test_a_gap_is_waited_for_no_longer_than_64_datagrams() -> None:
    watched = Watched(0, *range(2, 2 + WIDTH - 1))
    judge("it waits", watched.taken == [0])
    watched.add(WIDTH + 1)
    judge("and goes on", watched.taken == [0, *range(2, WIDTH + 2)] and watched.gaps == [(1, 2)], watched.gaps)
    watched.add(1)
    judge("one that comes later is thrown away", watched.counts() == (1, 1) and len(watched.taken) == WIDTH + 1)


def test_a_receiver_that_comes_late_has_lost_nothing() -> None:
    watched = Watched(1_000, 1_001)
    judge("it begins there", (watched.taken, watched.counts()) == ([1_000, 1_001], (0, 0)))


def test_the_first_datagrams_may_change_places() -> None:
    watched = Watched(2, 0, 1, 3)
    judge("in order", (watched.taken, watched.counts()) == ([0, 1, 2, 3], (0, 0)), watched.taken)


def test_another_stream_is_followed_where_it_begins() -> None:
    watched = Watched(*range(500), *range(10))
    judge("by number 0", (watched.restarts, watched.taken[500:]) == (1, list(range(10))), watched.taken[500:])
    late = Watched(*range(500), *range(3, 40))
    wanted = list(range(3 + MOST_BEHIND - 1, 40))
    judge("or where it goes on", (late.restarts, late.taken[500:]) == (1, wanted), late.taken[500:])
    short = Watched(*range(10))
    for number in range(5):
        short.window.add(Datagram(number, None, b"another"))
    judge("however short the one before was", (short.restarts, len(short.taken)) == (1, 15), short.taken)
    stray = Watched(*range(20), 0, 5, *range(20, 500))
    judge_quietly("its own first one begins none", (stray.restarts, stray.counts()) == (0, (0, 2)), stray.counts())
    stray = Watched(*range(500), 7, 7, 100, 101, 102, 5, 500, 501)
    judge("old ones that stray begin none", (stray.restarts, stray.taken[500:]) == (0, [500, 501]), stray.taken[500:])
    judge("and are counted", stray.counts() == (0, 6), stray.counts())


# ---- packets put together


def assembled(datagrams: list[bytes]) -> tuple[list[bytes], int, Window]:
    """The packets of datagrams as they come, how much is damaged, and the window."""
    packets: list[bytes] = []

    def take(_: Header, packet: bytes) -> None:
        packets.append(packet)

    assembling = Assembling(take)
    window = Window(assembling.add, lambda *_: assembling.gap(), assembling.gap)
    damaged = 0
    for data in datagrams:
        datagram = datagram_in(data)
        if datagram is None:
            damaged += 1
        else:
            window.add(datagram)
    window.give_up()
    return packets, damaged + assembling.damaged, window


@pytest.mark.parametrize("seed", SEEDS)
def test_packets_of_which_all_came_are_whole(seed: int) -> None:
    """Whatever is lost, those that it didn't touch come once and in order, and nothing else."""
    draw = random.Random(seed)
    packets = drawn_packets(draw)
    datagrams = sent(packets, draw.choice([64, 200, 1_472]), draw.choice([1, 3]))
    packets_found, damaged, _ = assembled(datagrams)
    judge_quietly("all, where nothing is lost", packets_found == packets and damaged == 0, damaged)
    gone = {it for it in range(len(datagrams)) if draw.random() < 0.05}
    touched, ahead = set(), 0
    ends = [sum(map(len, packets[: it + 1])) for it in range(len(packets))]
    for number, datagram in enumerate(datagrams):
        length = len(read(datagram).data)
        begins = [0, *ends]
        for at in range(len(packets)):
            if number in gone and begins[at] < ahead + length and ends[at] > ahead:
                touched.add(at)
        ahead += length
    found, damaged, window = assembled([it for at, it in enumerate(datagrams) if at not in gone])
    wanted = [it for at, it in enumerate(packets) if at not in touched]
    judge("what is whole", found == wanted, (len(found), len(wanted), sorted(gone)))
    lost_ahead_of_the_last = [it for it in gone if any(at not in gone for at in range(it, len(datagrams)))]
    judge("lost ones are counted, not as damaged", (window.lost, damaged) == (len(lost_ahead_of_the_last), 0), damaged)


@pytest.mark.parametrize("seed", SEEDS)
def test_a_packet_that_was_changed_is_counted_and_never_given(seed: int) -> None:
    draw = random.Random(seed)
    packets = drawn_packets(draw)
    datagrams = sent(packets, draw.choice([100, 1_472]))
    which = draw.randrange(len(datagrams))
    changed = bytearray(datagrams[which])
    # The number alone isn't judged.
    changed[draw.choice([0, *range(4, len(changed))])] ^= 1 << draw.randrange(8)
    found, damaged, _ = assembled([*datagrams[:which], bytes(changed), *datagrams[which + 1 :]])
    judge("none is given that wasn't sent", all(it in packets for it in found))
    judge("and it is counted", damaged > 0 or found == packets, (len(found), len(packets)))


def test_what_has_no_transfer_header_is_none() -> None:
    whole, part = b"\x01\x05\0\0" + bytes(8), bytes.fromhex("11050000 0201 0a 00 18000000 ff")
    judge("whole packets", datagram_in(whole) == Datagram(5, None, bytes(8)))
    judge("a part", datagram_in(part) == Datagram(5, Part(0x0102, 10, 24), b"\xff"))
    judge("no packet", datagram_in(whole[:4]) == Datagram(5, None, b""))
    for data in (b"", b"\x01\0\0", part[:12], b"\x02" + whole[1:], b"\x21" + whole[1:], b"\x10" + part[1:]):
        judge_quietly(data.hex(), datagram_in(data) is None)
    judge("zeros that are none", datagram_in(part[:7] + b"\x01" + part[8:]) is None)


# ---- the file


def given_to(files: Files, data: bytes) -> None:
    """Gives a receiver's file the packets of a whole file."""
    at = 0
    while at < len(data):
        channel, length, data_length = struct.unpack_from("<HII", data, at + 2)
        header = Header(channel, length, data_length, 8, data[at + 13], 3, data[at + 15], 0)
        files.take(header, data[at : at + length])
        at += length


def test_a_file_is_the_stream(work: Path) -> None:
    """From its first setup record on, with those that are repeated."""
    files = Files(str(work / "out.ch10"), False)
    data = sample()
    setup = data[: int.from_bytes(data[4:8], "little")]
    given_to(files, data[len(setup) :][:40])
    given_to(files, data + setup)
    files.end()
    judge("its bytes", (work / "out.ch10").read_bytes() == data + setup)
    judge("what is ahead of a first one is skipped", (files.skipped, data[15]) == (1, SETUP), files.skipped)


def test_what_came_ahead_of_a_setup_record_is_behind_it_in_the_file(work: Path) -> None:
    """A record that is repeated, since the first one was lost."""
    setup, *rest = (it.bytes() for it in parts_of(sample()))
    repeated = parts_of(setup)[0]._replace(sequence=7).bytes()
    files = Files(str(work / "out.ch10"), False)
    given_to(files, b"".join([*rest[:5], repeated, *rest[5:]]))
    files.end()
    judge("all packets", (work / "out.ch10").read_bytes() == b"".join([repeated, *rest]) and files.skipped == 0)


def test_what_waits_for_a_setup_record_is_bounded(work: Path, monkeypatch: pytest.MonkeyPatch) -> None:
    monkeypatch.setattr(output, "MOST_KEPT", 2_000)
    files = Files(str(work / "out.ch10"), False)
    given_to(files, sample()[int.from_bytes(sample()[4:8], "little") :])
    judge("the last ones wait", files.kept_len <= 2_000 and files.kept and files.skipped > 3, files.kept_len)


def test_another_recording_has_another_file(work: Path) -> None:
    (work / "out_00002.ch10").write_text("another's")
    files = Files(str(work / "out.ch10"), False)
    one, two = sample(), replaced("eth5", "eth6")(sample())
    three = replaced("eth6", "eth7")(two)
    for data in (one, two, three):
        given_to(files, data)
    judge("it has ended", files.restart())
    given_to(files, three)
    files.end()
    judge("the first", (work / "out.ch10").read_bytes() == one)
    judge("one that is there is left", (work / "out_00002.ch10").read_text() == "another's")
    judge("another", (work / "out_00003.ch10").read_bytes() == two)
    judge("and its next stream", (work / "out_00004.ch10").read_bytes() == three)
    judge("which begins anew", (work / "out_00005.ch10").read_bytes() == three)


def test_a_recording_that_has_not_ended_is_known(work: Path) -> None:
    files = Files(str(work / "out.ch10"), False)
    parts = parts_of(sample())
    ends = [it for it in parts if it.channel == 0 and it.data[8:10] == b"\2\0"]
    given_to(files, b"".join(it.bytes() for it in parts if it not in ends))
    judge("without its ends", not files.restart())
