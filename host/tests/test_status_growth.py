"""Tries how the status follows a recording that grows: in any pieces, cut, overwritten, damaged, and what it costs.

What it should find is taken from the reader of whole recordings (host/bpfrec_tools/formats/ch11), which sees all frames.
"""

import os
import random
from collections import Counter
from pathlib import Path

import pytest
from bpfrec.formats.body import Frames
from bpfrec.formats.follow import MOST_PACKETS
from bpfrec.formats.records import End
from frames import end_packet, packet_of
from reading import SAMPLES, packets_of
from recorder import RECORDINGS, make_feed, record, write_settings
from scripted import Flight, Growth, Kept, Wire, alarms, frames, program
from support import BPFREC, judge, judge_quietly, outcome

SEED = 64
# Of both profiles, and one with packets of both.
WHOLE = [
    *SAMPLES,
    *(RECORDINGS / it for it in ("both_profiles.ch11", "frames.ch11", "passed.ch11", "secondary_header.ch11")),
]
by_name = pytest.mark.parametrize("sample", WHOLE, ids=lambda sample: sample.name)


def wanted_of(data: bytes) -> list:
    """What each packet of whole recordings tells, by the reader that sees all of it."""
    found: list[object] = []
    for packet in packets_of(data):
        if isinstance(packet.what, Frames):
            odd = packet.header.data_len - 4 - 12 * len(packet.what.counters)
            found.append(Kept(packet.header.channel, len(packet.what.counters), odd))
        else:
            found.append(packet.what)
    return found


def everything(growing: Growth) -> list:
    told: list = []
    while part := growing.read_on():
        told += part
    return told


def long_recording() -> bytes:
    """Three channels, packets of many lengths, with data checksums and without, programs and ends."""
    draw = random.Random(SEED)
    parts = [program(channel, 0) for channel in (1, 2, 3)]
    for turn in range(60):
        parts.append(frames(draw.randrange(1, 4), draw.randrange(0, 9), draw.randrange(18, 90), bool(turn % 3)))
        parts += [program(2, turn, turn)] if turn % 20 == 7 else []
    return b"".join([*parts, *(end_packet(channel, 9) for channel in (1, 2, 3))])


# ---- in pieces


@by_name
def test_a_recording_that_is_cut_anywhere_is_read_as_far_as_it_is_whole(work: Path, sample: Path) -> None:
    data, path = sample.read_bytes(), work / "cut.ch11"
    wanted = wanted_of(data)
    for length in range(len(data) + 1):
        path.write_bytes(data[:length])
        growing = Growth(str(path))
        first = everything(growing)
        judge_quietly(f"cut to {length}: the packets before", first == wanted_of(data[:length])[: len(first)])
        judge_quietly(f"cut to {length}: is no fault", growing.fault is None, growing.fault)
        judge_quietly(f"cut to {length}: the rest is to come", growing.unread() == length - growing.follower.at)
        with open(path, "ab") as file:
            file.write(data[length:])
        judge_quietly(f"cut to {length}: and the rest", first + everything(growing) == wanted)
        judge_quietly(f"cut to {length}: all is read", growing.unread() == 0)
        growing.close()


def test_a_file_that_comes_later_is_waited_for(work: Path) -> None:
    growing = Growth(str(work / "later.ch11"))
    judge("what isn't there yet is waited for", growing.read_on() == [] and growing.fault is None)
    (work / "later.ch11").write_bytes(frames(1, 3))
    judge("and read once it is", growing.read_on() == [Kept(1, 3, 750)])
    os.rename(work / "later.ch11", work / "moved.ch11")
    (work / "later.ch11").write_bytes(frames(9, 9))
    with open(work / "moved.ch11", "ab") as file:
        file.write(frames(2, 5))
    judge("also where it is moved meanwhile", growing.read_on() == [Kept(2, 5, 1_250)])


def test_a_recording_by_the_recorder_is_followed_whole(work: Path) -> None:
    if not BPFREC.exists():
        pytest.skip("it needs bin/bpfrec")
    feed = make_feed(work / "a.feed", 5_000)
    settings = write_settings(work, [feed, make_feed(work / "b.feed", 300)], ["half", "none"])
    judge_quietly("it is recorded", record(settings, work / "out.ch11").returncode == 0)
    told = everything(Growth(str(work / "out.ch11")))
    judge("each packet tells what it has", told == wanted_of((work / "out.ch11").read_bytes()))
    kept: Counter[int] = Counter()
    for piece in told:
        if isinstance(piece, Kept):
            kept[piece.channel] += piece.frames
    ends = {it.channel: it.kept for it in told if isinstance(it, End)}
    judge("as many frames as its ends say", ends == {1: kept[1], 2: 0} and kept[1] > 2_000, (ends, kept))


# ---- cut and overwritten


def test_a_file_that_is_cut_while_it_grows_is_read_on(work: Path) -> None:
    path, one = work / "cut.ch11", frames(1, 4)
    path.write_bytes(one * 5)
    growing = Growth(str(path))
    everything(growing)
    with open(path, "r+b") as file:
        file.truncate(len(one) * 2)
        holds = growing.read_on() == [] and growing.fault == f"cut from {5 * len(one)} to {2 * len(one)} bytes"
        judge("a cut is told", holds)
        judge("once", (growing.read_on(), growing.faults) == ([], 1))
        file.seek(len(one) * 5)
        file.write(one * 2)
    judge("and what follows is read", growing.read_on() == [Kept(1, 4, 1_000)] * 2)


def test_a_file_that_is_emptied_is_told_and_read_anew(work: Path) -> None:
    path = work / "anew.ch11"
    path.write_bytes(frames(1, 4) * 5)
    growing = Growth(str(path))
    everything(growing)
    path.write_bytes(b"")
    judge("that it is empty is told", growing.read_on() == [] and growing.faults == 1)
    path.write_bytes(frames(2, 6) * 2)
    judge("another recording is read from its beginning", growing.read_on() == [Kept(2, 6, 1_500)] * 2)
    with open(path, "r+b") as file:
        file.truncate(len(frames(2, 6)))
        judge("which isn't another one where it is cut", growing.read_on() == [] and growing.faults == 2)


# ---- damaged


def test_another_format_of_frames_is_passed(work: Path) -> None:
    path, one = work / "format.ch11", frames(1, 2)
    path.write_bytes(packet_of(1, b"\x02\0\0\x10" + bytes(40), 0, 0x68, 0, True) + one)
    growing = Growth(str(path))
    judge("is another's", everything(growing) == [None, Kept(1, 2, 500)] and growing.fault is None, growing.fault)


def test_a_body_that_claims_too_many_frames_is_a_fault(work: Path) -> None:
    broken = (RECORDINGS / "bad_body.ch11").read_bytes()
    path = work / "bad.ch11"
    path.write_bytes(frames(1, 1) + frames(1, 1).replace(b"\x01\0\0\0", b"\xff\xff\0\0", 1) + broken + frames(3, 1) * 2)
    growing = Growth(str(path))
    told = everything(growing)
    holds = growing.faults >= 1 and told[-1] == Kept(3, 1, 250)
    judge("more frames than have room are a fault", holds, (told, growing.fault))


@pytest.mark.parametrize("turn", range(200))
def test_no_drawn_damage_raises_or_hangs(work: Path, turn: int) -> None:
    """Whatever the bytes are, a call ends, and nothing is raised; the status tells of it."""
    draw, path = random.Random(SEED + turn), work / "random.ch11"
    data = bytearray(long_recording())
    for _ in range(draw.randrange(1, 30)):
        at = draw.randrange(len(data))
        data[at : at + draw.randrange(0, 9)] = draw.randbytes(draw.randrange(0, 9))
    path.write_bytes(data)
    growing = Growth(str(path))
    for _ in range(300):
        growing.read_on()
    holds = growing.unread() < 2_000
    judge_quietly("it goes on to where no packet is whole", holds, (growing.follower.at, growing.size))


# ---- what isn't a recording


def test_a_pipe_and_a_device_are_not_opened(work: Path) -> None:
    os.mkfifo(work / "pipe")
    growing = Growth(str(work / "pipe"))
    judge("a pipe is not opened", growing.read_on() == [] and growing.descriptor < 0 and growing.fault is None)
    null = Growth("/dev/null")
    judge("nor a device", null.read_on() == [] and null.descriptor < 0)


def test_what_cannot_be_opened_is_told(work: Path) -> None:
    (work / "file").write_text("")
    growing = Growth(str(work / "file" / "below"))
    judge("what can't be opened is told", growing.read_on() == [] and growing.fault == "Not a directory", growing.fault)


# ---- what it costs


def test_a_call_reads_a_bounded_number_of_packets(work: Path) -> None:
    path, one = work / "many.ch11", frames(1, 200)
    path.write_bytes(one * 5_000)
    growing, counts = Growth(str(path)), []
    read = Path("/proc/self/io")
    before = int(read.read_text().split()[1])
    while part := growing.read_on():
        counts.append(len(part))
    passed = int(read.read_text().split()[1]) - before
    judge("pieces of 4,096 packets", counts == [MOST_PACKETS, 5_000 - MOST_PACKETS], counts)
    judge(f"{passed} of {len(one) * 5_000} bytes are read", passed < 5_000 * 60)


def test_a_filter_that_keeps_nothing_is_an_alarm(work: Path) -> None:
    """It is an alarm before the recording ends, and in the recording it is so."""
    flight = Flight(work, {1: Wire("eth0", kept=0), 2: Wire("eth1", kept=100)}).flown(60)
    found = [(it.name, it.channel) for it in alarms.alarms_of(flight.status.model.view(flight.now()), 65_536)]
    judge("the channel whose filter keeps nothing is red, and no other", found == [("keeps_nothing", 1)], found)
    flight.end_recording()
    if BPFREC.exists():
        told = outcome(BPFREC, "list", flight.path).stdout
        judge("as the recording has it", " 1 68 " not in told.replace(" 2 68 ", ""), told[:200])
