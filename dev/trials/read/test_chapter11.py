"""Tries `bpfrec chapter11`: its files are those of a second writer, byte for byte, and a reader that shares no code with
either finds nothing wrong with them."""

import datetime
import hashlib
import random
import struct
from pathlib import Path

import pytest
from drawn_recording import DrawnRecording, drawn_insns
from frames import FRAMES, body_of, packet_of
from reading import SAMPLES
from second_opinion import opinion_at
from support import judge, judge_quietly
from whole_file import Origin, Setup
from whole_file_parts import recorded
from whole_file_trials import chapter11, judge_file

pytestmark = pytest.mark.wanted("bin/bpfrec")
SECOND, DAY = 10_000_000, 86_400
LAST_COUNTER = 2**48 - 1
# 2025-12-01 12:00:00.250000123, and the sum of the file of the recording of 248 bytes with this origin.
ORIGIN = 1_764_590_400_250_000_123
ONE_SUM = "bc7788fb6bd5a9b95dc6af282ea8a3d1a4b274476766c991a927b7373ea32e74"
NOW = Setup((Origin(0, ORIGIN),))


def judge_whole(work: Path, what: str, data: bytes, setup: Setup = NOW) -> str:
    """The file is that of the second writer, and right for the reader of such files: the line that was printed."""
    line = judge_file(work, what, data, setup)
    judge_quietly(f"{what}: not refused", line.startswith("times "), line)
    opinion = opinion_at(work / "flight.ch10")
    judge_quietly(f"{what}: by a second opinion", opinion.is_right, opinion.lines[:3])
    return line


def frame(counter: int, length: int = 60) -> tuple[int, int, int]:
    return counter, 0, length


# ---- recordings of all kinds


def test_the_least_recording(work: Path) -> None:
    done = chapter11(work, [SAMPLES[1].read_bytes()], 'origin = "1764590400.250000123"\n')
    judge("what is printed", done.stdout == "times 1 packets 1 records 3 index 2 bytes 1192\n", done)
    data = (work / "flight.ch10").read_bytes()
    judge("its bytes", len(data) == 1_192 and hashlib.sha256(data).hexdigest() == ONE_SUM)


IN_TAI = 'counter = 0, origin = "1764590437.250000123"'


@pytest.mark.parametrize(
    "setup",
    [
        f'origins = [{{ {IN_TAI}, scale = "TAI", tai_offset = 37 }}]',
        f'scale = "TAI"\ntai_offset = 37\norigins = [{{ {IN_TAI}, scale = "unknown" }}]',
        'recording = [{ origin = "1764590400.250000123" }]',
        f'[[recording]]\norigins = [{{ {IN_TAI}, scale = "TAI", tai_offset = 37 }}]\nchannel = [{{ id = 9 }}]',
    ],
)
def test_an_origin_in_tai_or_in_a_table_of_its_recording_gives_the_same_file(work: Path, setup: str) -> None:
    done = chapter11(work, [SAMPLES[1].read_bytes()], f"{setup}\n")
    judge("its sum", hashlib.sha256((work / "flight.ch10").read_bytes()).hexdigest() == ONE_SUM, done)


@pytest.mark.parametrize("seed", range(16))
def test_drawn_recordings(work: Path, seed: int) -> None:
    draw = random.Random(seed)
    channels = draw.sample(range(1, 65_536), draw.choice([1, 2, 9, 64]))
    start = draw.choice([0, draw.randrange(2**47), 2**48 - 40 * SECOND])
    made = recorded(draw, channels, start, draw.choice([1, 3, 30]))
    names = {channels[0]: ("a;b:c\\d\u00e9 " * 4, 7), 65_535: ("  a name of over twenty-four letters", 255)}
    for origin in (0, ORIGIN, -ORIGIN):
        setup = Setup((Origin(0, origin),), "h\u00f6st", "", origin > 0, ("G\\SC:U", "G\\SC:", "X:a:b"), names)
        judge_whole(work, f"{seed}: origin {origin}", bytes(made.data), setup)


@pytest.mark.parametrize("seed", range(12))
def test_a_clock_that_is_set_under_way(work: Path, seed: int) -> None:
    """On and back, by less and by more than a second, once and often, before the first frame and behind the last."""
    draw = random.Random(seed)
    made = recorded(draw, draw.sample(range(1, 65_536), 3), 5 * SECOND, 20)
    noted = [
        Origin(counter, ORIGIN + draw.randrange(-(10**12), 10**12) // draw.choice([1, 10**4]))
        for counter in draw.choices(range(30 * SECOND), k=draw.choice([1, 3, 40]))
    ]
    judge_file(work, f"{seed}", bytes(made.data), Setup((Origin(draw.randrange(30 * SECOND), ORIGIN), *noted)))


@pytest.mark.parametrize(
    "date, seconds",
    [
        (datetime.date(1, 1, 1), 1),
        (datetime.date(1969, 12, 31), DAY - 2),
        (datetime.date(1999, 12, 31), DAY - 2),
        (datetime.date(2000, 2, 28), DAY - 2),
        (datetime.date(2099, 12, 31), DAY - 2),
        (datetime.date(2100, 2, 28), DAY - 2),
        (datetime.date(3999, 12, 31), DAY - 5),
    ],
    ids=str,
)
def test_the_ends_of_days_and_years(work: Path, date: datetime.date, seconds: int) -> None:
    made = recorded(random.Random(seconds), [3, 4], 0, 4)
    start = ((date - datetime.date(1970, 1, 1)).days * DAY + seconds) * 10**9
    judge_whole(work, f"{date}", bytes(made.data), Setup((Origin(0, start),)))


def test_recordings_of_nothing(work: Path) -> None:
    judge("an empty one", judge_whole(work, "empty", b"").startswith("times 1 packets 0 records 0 index 2 "))
    ends = DrawnRecording()
    for channel in (9, 2):
        ends.add_end(channel, 0, 77)
    judge("ends alone", judge_whole(work, "ends", bytes(ends.data)).startswith("times 1 packets 0 records 2 "))
    programs = DrawnRecording()
    programs.add_program(1, 0, 5, drawn_insns(random.Random(1)))
    holds = judge_whole(work, "programs", bytes(programs.data)).startswith("times 1 packets 0 records 1 ")
    judge("a program alone", holds)
    hollow = packet_of(3, body_of([]), 0, FRAMES, 50, True)
    holds = judge_whole(work, "hollow", hollow).startswith("times 1 packets 0 ")
    judge("a packet of no frames names its channel", holds)
    judge("by its setup record", b"R-1\\TK1-2:3;" in (work / "flight.ch10").read_bytes())


def test_rates_far_apart(work: Path) -> None:
    """A frame an hour beside 100,000 a second, in packets that span hours."""
    made = DrawnRecording()
    made.add_frames(1, [frame(3_600 * SECOND * hour) for hour in range(4)])
    for start in range(0, 20_000, 2_000):
        made.add_frames(2, [frame(3_600 * SECOND + 100 * number, 64) for number in range(start, start + 2_000)])
    judge("both", judge_whole(work, "rates", bytes(made.data)).startswith("times 10801 packets "))


def test_frames_at_each_end(work: Path) -> None:
    """Of 18 and 16,383 bytes, in packets of the greatest length, at equal counters, and at the last counter."""
    made = DrawnRecording()
    for channel in (7, 3):
        made.add_frames(channel, [frame(5, 16_383) for _ in range(31)])
        made.add_frames(channel, [frame(5, 18) for _ in range(3)])
    judge_whole(work, "lengths", bytes(made.data))
    full = body_of((number, 0, bytes(16_383)) for number in range(31))
    old = packet_of(1, full + body_of([(31, 0, bytes(15_972))])[4:], 0, FRAMES, 0, False)
    count = struct.pack("<I", 32)
    judge_whole(work, "of the first profile", packet_of(1, count + old[28:], 0, FRAMES, 0, False))
    last = DrawnRecording()
    last.add_frames(1, [frame(LAST_COUNTER - 3 * SECOND), frame(LAST_COUNTER)])
    last.add_end(1, 0, LAST_COUNTER)
    judge_whole(work, "the last counter", bytes(last.data))


def test_programs_that_change_with_every_frame(work: Path) -> None:
    draw, made = random.Random(4), DrawnRecording()
    for number in range(400):
        made.add_program(1, number, number * 40_000, drawn_insns(draw))
        made.add_frames(1, [frame(number * 40_000)])
    judge_whole(work, "programs", bytes(made.data))


def test_old_recordings(work: Path) -> None:
    """Without data checksums, and as the program wrote them."""
    for sample in SAMPLES:
        judge_file(work, sample.name, sample.read_bytes(), NOW)


def test_more_packets_than_a_node_names(work: Path) -> None:
    made = DrawnRecording()
    for number in range(17_000):
        made.add_frames(1 + number % 3, [frame(number * 1_000)])
    judge("two nodes and a root", " index 3 " in judge_whole(work, "nodes", bytes(made.data)))


# ---- counters that fall and leap


@pytest.mark.parametrize("ticks", [9_999_999, 10_000_000, 10_000_001])
def test_disorder(work: Path, ticks: int) -> None:
    """Between channels, within one, and behind a time packet."""
    for first, second in ((1, 2), (2, 1), (1, 1)):
        made = DrawnRecording()
        made.add_frames(first, [frame(20 * SECOND)])
        made.add_frames(second, [frame(20 * SECOND - ticks)])
        judge_file(work, f"{first}, {second}", bytes(made.data), NOW)
    falling = DrawnRecording()
    falling.add_frames(1, [frame(20 * SECOND), frame(20 * SECOND - ticks)])
    line = judge_file(work, "within a packet", bytes(falling.data), NOW)
    judge("over a second", line.startswith("refused 2 Disorder 0") == (ticks > 10_000_000), line)


@pytest.mark.parametrize("more", [-1, 0, 1])
def test_gaps(work: Path, more: int) -> None:
    """Of seven days, judged before the time packets that would fill them."""
    made, week = DrawnRecording(), 6_048_000_000_000
    made.add_frames(1, [frame(0)])
    made.add_frames(2, [frame(week + more)])
    line = judge_file(work, "a gap", bytes(made.data), Setup((Origin(0, 0),)))
    judge("over seven days", line.startswith("refused 3 Gap ") == (more > 0), line)
