"""Tries `bpfrec chapter11 --stream`: what goes out is what a second writer makes of the same packets, byte for byte and in
whatever pieces the recording comes, as soon as it can go; and what is refused."""

import os
import random
import select
import subprocess
import time
from pathlib import Path

import pytest
from bpfrec.formats.facts import tick_of
from drawn_recording import DrawnRecording
from frames import COMPUTER, FRAMES, body_of, packet_of
from packets import packets_in
from reading import SAMPLES
from second_opinion import opinion_of
from stream_trials import CHANNELS, NOW, ORIGIN, SECOND, drawn, frame, judge_stream, settings, streamed
from streamed import Stream
from support import BPFREC, judge, judge_quietly, outcome
from whole_file import Origin, Setup
from whole_file_trials import setup_text

pytestmark = pytest.mark.wanted("bin/bpfrec")
YEAR_4000 = 64_060_588_800 * 10**9
LAST_COUNTER = 2**48 - 1


# ---- streams of all kinds


def test_the_least_recording(work: Path) -> None:
    line = judge_stream(work, "the recording of 248 bytes", SAMPLES[1].read_bytes())
    judge("its counts", line == "packets 1 records 3 times 1 late 0 other 0\n", line)


@pytest.mark.parametrize("seed", range(24))
def test_drawn_recordings(work: Path, seed: int) -> None:
    draw = random.Random(seed)
    channels = draw.sample(range(1, 65_536), draw.choice([1, 2, 9, 64]))
    start = draw.choice([0, draw.randrange(2**47), 2**48 - 40 * SECOND])
    made = drawn(draw, channels, start, draw.choice([1, 3, 30]), draw.choice([0, SECOND, 5 * SECOND]))
    more = draw.sample(range(1, 65_536), 3)
    named = {it: ("a;b:c\\d\u00e9 " * 4, it % 256) for it in draw.sample([*channels, *more], len(channels) + 3)}
    for origin in (0, ORIGIN, -ORIGIN):
        setup = Setup((Origin(0, origin),), "h\u00f6st", "", origin > 0, ("G\\SC:U", "X:a:b"), named)
        judge_stream(work, f"{seed}: origin {origin}", bytes(made.data), setup)


@pytest.mark.parametrize("seed", range(12))
def test_a_clock_that_is_set_under_way(work: Path, seed: int) -> None:
    draw = random.Random(seed)
    channels = draw.sample(range(1, 65_536), 3)
    made = drawn(draw, channels, 5 * SECOND, 20, SECOND)
    noted = [
        Origin(counter, ORIGIN + draw.randrange(-(10**12), 10**12) // draw.choice([1, 10**4]))
        for counter in draw.choices(range(30 * SECOND), k=draw.choice([1, 3, 40]))
    ]
    origins = (Origin(draw.randrange(30 * SECOND), ORIGIN), *noted)
    judge_stream(work, f"{seed}", bytes(made.data), Setup(origins, channels={it: ("c", 1) for it in channels}))


def test_a_setup_record_each_ten_seconds(work: Path) -> None:
    """Once the time packet lies so far behind the last one, to the tick, and not in a silence."""
    for gap in (99_999_999, 100_000_000, 100_000_001, 3_600 * SECOND):
        made = DrawnRecording()
        for number in range(4):
            made.add_frames(1, [frame(5 * SECOND + number * gap)])
        judge_stream(work, f"{gap} ticks", bytes(made.data), Setup((Origin(0, 0),), channels=CHANNELS))


def test_ends_that_wait(work: Path) -> None:
    """At most one a channel, until the first packet with a counter has gone out."""
    made = DrawnRecording()
    made.add_end(2, 0, 77)
    made.add_end(1, 0, 78)
    judge("ends alone", judge_stream(work, "alone", bytes(made.data)).startswith("packets 0 records 0 "))
    twice = bytes(made.data) + packet_of(0, made.data[24:52], 2, COMPUTER, 1, True)
    judge("one twice", judge_stream(work, "twice", twice).startswith("refused 1 Other "))
    made.add_frames(3, [frame(SECOND), frame(3 * SECOND)])
    made.add_end(3, 2, 5)
    judge("behind frames", judge_stream(work, "behind", bytes(made.data)).startswith("packets 2 records 3 times 2 "))


def test_late_pieces(work: Path) -> None:
    """By over a second, to the tick: they go out all the same."""
    for ticks, late in ((9_999_999, 0), (10_000_000, 0), (10_000_001, 1)):
        made = DrawnRecording()
        made.add_frames(1, [frame(20 * SECOND)])
        made.add_frames(2, [frame(20 * SECOND - ticks)])
        line = judge_stream(work, f"{ticks}", bytes(made.data), Setup((Origin(0, 50_000_000),), channels=CHANNELS))
        judge(f"{ticks} ticks", f" late {late} " in line, line)


def test_frames_at_each_end(work: Path) -> None:
    made = DrawnRecording()
    made.add_frames(1, [frame(5, 16_383) for _ in range(31)])
    made.add_frames(2, [frame(LAST_COUNTER), frame(0)])
    made.add_end(1, 3, LAST_COUNTER)
    judge_stream(work, "lengths and counters", bytes(made.data))
    hollow = packet_of(3, body_of([]), 0, FRAMES, 50, True)
    judge("a packet of no frames", judge_stream(work, "hollow", hollow).startswith("packets 0 records 0 times 0 "))
    judge("nothing", judge_stream(work, "empty", b"").startswith("packets 0 records 0 times 0 late 0 other 0"))


@pytest.mark.parametrize("seed", range(12))
def test_a_reader_approves_it(work: Path, seed: int) -> None:
    """Which shares no code with either writer: nothing is wrong, and each channel's frames have their own times."""
    draw = random.Random(seed)
    made = drawn(draw, [1, 2, 3], 0, 30, draw.choice([0, SECOND, 5 * SECOND]))
    done = streamed(work, bytes(made.data), NOW)
    opinion = opinion_of(done.stdout, shows_frames=True)
    judge("by a second opinion", opinion.is_right, opinion.lines[-5:])
    found = [it.split() for it in opinion.lines if it.split()[0].endswith("Z")]
    for channel in CHANNELS:
        rows = [(time, length) for time, number, length, *_ in found if number == str(channel)]
        frames = made.channel(channel).frames
        wanted = [(tick_of(ORIGIN + counter * 100), str(length)) for counter, _, length in frames]
        judge_quietly(f"the frames of channel {channel}", rows == wanted, (rows[:3], wanted[:3]))


# ---- as it grows


@pytest.mark.parametrize("seed", range(6))
def test_each_cut(work: Path, seed: int) -> None:
    """What goes out for a beginning begins what goes out for all."""
    draw = random.Random(seed)
    made = drawn(draw, [1, 2, 3], 0, 3, SECOND)
    data = bytes(made.data)
    whole = streamed(work, data, NOW).stdout
    places = [at for at, *_ in packets_in(data)]
    cuts = sorted({*draw.sample(places, min(len(places), 12)), *draw.choices(range(len(data)), k=30)})
    before = 0
    for cut in cuts:
        done = streamed(work, data[:cut], NOW)
        judge_quietly(f"cut at {cut}", whole.startswith(done.stdout) and len(done.stdout) >= before, len(done.stdout))
        status = (0 if cut in places else 1, "read 1 Truncated" in done.stderr.decode())
        judge_quietly(f"status at {cut}", status == (done.returncode, done.returncode == 1), done.stderr)
        before = len(done.stdout)


def read_available(stream: int, wanted: int, seconds: float = 20.0) -> bytes:
    """What comes within so many seconds, as far as it is wanted."""
    got, end = b"", time.monotonic() + seconds
    while len(got) < wanted and time.monotonic() < end:
        if select.select([stream], [], [], 0.1)[0]:
            more = os.read(stream, 1 << 20)
            if not more:
                break
            got += more
    return got


@pytest.mark.parametrize("seed", range(4))
def test_packets_go_out_at_once(work: Path, seed: int) -> None:
    """Behind each packet that came, in drawn pieces, all is there that goes out of it, while the input stays open."""
    draw = random.Random(seed)
    data = bytes(drawn(draw, [1, 2, 3], 0, 5, SECOND).data)
    words = [str(BPFREC), "chapter11", "--stream", str(settings(work, setup_text(NOW)))]
    with subprocess.Popen(words, stdin=subprocess.PIPE, stdout=subprocess.PIPE, stderr=subprocess.PIPE) as process:
        assert process.stdin and process.stdout and process.stderr
        stream, got = Stream(NOW), b""
        packets = list(packets_in(data))
        ends = [at for at, *_ in packets[1:]] + [len(data)]
        for packet, end in zip(packets, ends):
            stream.put(*packet)
            at = packet[0]
            while at < end:
                size = draw.choice([end - at, end - at, draw.randrange(1, 40)])
                process.stdin.write(data[at : min(end, at + size)])
                process.stdin.flush()
                at = min(end, at + size)
            got += read_available(process.stdout.fileno(), len(stream.file.data) - len(got))
            judge_quietly(f"behind {end}", got == bytes(stream.file.data), (len(got), len(stream.file.data)))
        process.stdin.close()
        judge("nothing more", process.stdout.read() == b"" and process.wait() == 0)


# ---- what is refused


def test_refusals(work: Path) -> None:
    made = DrawnRecording()
    made.add_frames(1, [frame(SECOND)])
    made.add_frames(9, [frame(2 * SECOND)])
    judge("a channel that isn't named", judge_stream(work, "9", bytes(made.data)).startswith("refused 1 Other "))
    some = bytes(made.data)[: len(made.data) // 2]
    none = Setup((Origin(0, ORIGIN), Origin(5, -ORIGIN)), channels=CHANNELS)
    judge_stream(work, "two origins", some, none)
    late = Setup((Origin(0, YEAR_4000),), channels=CHANNELS)
    judge("a year", judge_stream(work, "4000", some, late) == "refused 5 Year 0\n")
    long = DrawnRecording()
    for number in range(30):
        long.add_frames(1, [frame(number * SECOND)])
    turn = Setup((Origin(0, YEAR_4000 - 15 * 10**9),), channels=CHANNELS)
    judge("a year under way", judge_stream(work, "to 4000", bytes(long.data), turn) == "refused 5 Year 0\n")
    full = Setup((Origin(0, ORIGIN),), channels={it: ("c", 0) for it in range(1, 65_536)})
    judge("no channel left", judge_stream(work, "full", some, full) == "refused 7 Full 0\n")


@pytest.mark.parametrize("what", ["", "a", 'z = 1\norigin = "0"', 'origin = "0"\n[[channel]]\nid = 0'])
def test_faults_of_setup(work: Path, what: str) -> None:
    done = outcome(BPFREC, "chapter11", "--stream", settings(work, what), input="")
    judge("a fault of SETUP", done.returncode == 2 and done.stderr.startswith("setup "), done)


def test_faults_of_files(work: Path) -> None:
    done = outcome(BPFREC, "chapter11", "--stream", work / "missing.toml", input="")
    judge("no SETUP", (done.returncode, done.stderr) == (3, f"file {work / 'missing.toml'}\n"), done)
    with open("/dev/full", "wb") as full:
        data = SAMPLES[1].read_bytes()
        file = settings(work, setup_text(NOW))
        words = [str(BPFREC), "chapter11", "--stream", str(file)]
        ended = subprocess.run(words, input=data, stdout=full, stderr=subprocess.PIPE, timeout=60)
    judge("a full output", (ended.returncode, ended.stderr) == (3, b"file -\n"), ended)
