"""Tries the time marks of bin/capture: how often they come, that none is ahead of a frame that comes later, and that a
recorder closes packets by them."""

import os
import random
import re
import signal
import time
from functools import partial
from itertools import accumulate
from pathlib import Path

import pytest
from accounts import judge_fed
from frames import numbers_in, records
from namespace import make_pair, send_numbered, set_link, take_away
from recorder import begin as begin_recorder
from support import (
    BPFREC,
    MILLISECOND,
    SECOND,
    Reader,
    judge,
    judge_quietly,
    origin_told,
    outcome,
    pipe_at,
    run,
    wait_for,
)
from time_marks import SPAN, TICK, begin, frames_of, gaps_of, judge_ended, judge_moments, judge_order, marks_of

pytestmark = [
    pytest.mark.wanted("bin/bpfrec", "bin/capture", "ip"),
    pytest.mark.timed,
    pytest.mark.usefixtures("namespace"),
]
LEAST_BETWEEN = 5 * MILLISECOND // TICK
SHORTEST, LONG = 1, 5_000_000


# ---- how often


@pytest.mark.parametrize("span", [SHORTEST, SPAN, LONG])
def test_an_interface_without_frames_gets_marks_four_times_a_span_and_one_without_a_span_none(
    work: Path, span: int
) -> None:
    one, other = (Reader(pipe_at(work, name)) for name in ("one.pipe", "other.pipe"))
    running = begin(work, f"rx1={other.path}", span=span)
    time.sleep(max(1, 6 * span * TICK / SECOND))
    told = judge_ended(running)
    found = marks_of(one.all())
    wanted = (found[-1] - found[0]) / max(span / 4, LEAST_BETWEEN)
    judge("there are four a span, or one each 5 ms", 0.75 * wanted <= len(found) <= wanted + 2, (wanted, found))
    judge("none comes within 5 ms of another", min(gaps_of(found)) >= LEAST_BETWEEN, sorted(gaps_of(found))[:5])
    judge("they are in no count", "rx0 frames 0 bytes 0 dropped 0 missed 0 skipped 0 waited 0\n" in told, told)
    judge("and without a span there are none", other.all() == b"", other.all())


def waits_of(thread: Path) -> int:
    """How often a thread has waited for something."""
    found = re.search(r"^voluntary_ctxt_switches:\t(\d+)", (thread / "status").read_text(), re.M)
    return int(found[1]) if found else 0


def test_an_interface_without_frames_wakes_for_its_marks_alone(work: Path) -> None:
    reader = Reader(pipe_at(work, "one.pipe"))
    running = begin(work, "--quiet", span=LONG)
    wait_for("there are marks", lambda: len(marks_of(bytes(reader.data))) > 1)
    process = running.process.pid
    (thread,) = [it for it in Path(f"/proc/{process}/task").iterdir() if it.name != str(process)]
    before, marks = waits_of(thread), len(marks_of(bytes(reader.data)))
    time.sleep(3)
    waits, came = waits_of(thread) - before, len(marks_of(bytes(reader.data))) - marks
    judge(f"{waits} waits for {came} marks in three seconds", waits <= came + 2 and 20 <= came <= 25)
    judge_ended(running)


# ---- never ahead


def send_drawn(rng: random.Random, seconds: float) -> int:
    """Sends frames singly and in bursts, with drawn gaps; how many."""
    number, end = 0, time.monotonic() + seconds
    while time.monotonic() < end:
        count = rng.choice([1, 1, 1, 2, 70, 300, 2_000])
        send_numbered("tx0", number, number + count)
        number += count
        time.sleep(rng.choice([0, 0.001, 0.003, 0.007, 0.02, 0.06, 0.13]) * rng.random())
    return number


@pytest.mark.parametrize("seed", range(3))
def test_no_mark_is_ahead_of_a_frame_that_comes_later(work: Path, seed: int) -> None:
    """By both rings: in bursts blocks of frames wait that aren't full."""
    reader = Reader(pipe_at(work, "one.pipe"))
    running = begin(work, "--quiet", span=SHORTEST)
    sent = send_drawn(random.Random(seed), 3)
    time.sleep(0.2)
    judge_fed(judge_ended(running), sent, len(frames_of(reader.all())))
    judge("each frame is there once, in order", numbers_in([frames_of(reader.all())]) == list(range(sent)))
    judge_order(reader.all())
    judge("there are marks between", len(marks_of(reader.all())) > 100, len(marks_of(reader.all())))


# ---- other feeds, and interfaces that go


def test_a_feed_that_is_held_or_has_no_reader_gets_no_mark(work: Path) -> None:
    """And the next one has the frames that came meanwhile, with no mark ahead of them."""
    pipe = pipe_at(work, "one.pipe")
    with open(os.open(pipe, os.O_RDONLY | os.O_NONBLOCK), "rb", buffering=0) as first:
        running = begin(work, "--hold", 9, span=LONG)
        wait_for("there is a mark", first.read)
        running.process.send_signal(signal.SIGUSR2)
        time.sleep(0.4)
        judge("none comes while it is held", not first.read())
    send_numbered("tx0", 0, 300)
    time.sleep(0.4)
    reader = Reader(pipe_at(work, "one.pipe"))
    running.process.send_signal(signal.SIGUSR1)
    wait_for("the next feed has marks", lambda: marks_of(bytes(reader.data)))
    told = judge_ended(running)
    judge("it begins with its frames", [bool(it.frame) for it in records(reader.all())[:301]] == [True] * 300 + [False])
    judge_fed(told, 300, 300)
    judge_order(reader.all())


def test_marks_go_on_while_an_interface_is_down_or_gone_and_once_it_is_back(work: Path) -> None:
    reader = Reader(pipe_at(work, "one.pipe"))
    running = begin(work, "--quiet", span=SHORTEST)
    before, number = time.time_ns(), 0
    for away, back in (
        (partial(set_link, "rx0", "down"), partial(set_link, "rx0", "up")),
        (partial(set_link, "tx0", "down"), partial(set_link, "tx0", "up")),
        (partial(take_away, "rx0"), partial(make_pair, 0)),
    ):
        for count in (1, 300):
            send_numbered("tx0", number, number + count)
            number += count
        time.sleep(0.02)
        away()
        time.sleep(0.5)
        back()
        time.sleep(0.5)
    send_numbered("tx0", number, number + 50)
    time.sleep(0.2)
    judge_moments(marks_of(bytes(reader.data)), origin_told(running.told()), before)
    judge_ended(running)
    judge_order(reader.all())
    judge("the last frames are there", numbers_in([frames_of(reader.all())[-50:]]) == list(range(number, number + 50)))


# ---- a recorder


def packets_of(recording: Path) -> list[int]:
    """How many frames each packet has, of a recording that goes on too."""
    return [int(it) for it in re.findall(r" frames (\d+)$", outcome(BPFREC, "list", recording).stdout, re.M)]


def test_a_recorder_closes_packets_by_their_age_also_where_no_frame_follows(work: Path) -> None:
    rng, sent = random.Random(1), 60
    pipe, out = pipe_at(work, "one.pipe"), work / "out.ch11"
    (work / "all").write_text("1,6 0 0 1,")
    table = f'[[channel]]\nid = 1\nfeed = "{pipe}"\nfilter = "{work / "all"}"\nspan = {SPAN}\n'
    (work / "settings.toml").write_text(table)
    recorder = begin_recorder(work / "settings.toml", out)
    running = begin(work, "--quiet")
    for number in range(sent):
        send_numbered("tx0", number, number + 1)
        time.sleep(0.05 * rng.random())
    wait_for("each frame is in the file", lambda: sum(packets_of(out)) == sent, 1)
    running.interrupt()
    judge_quietly("it ends well", running.ended()[0] == 0 and recorder.wait(9) == 0, running.told())
    run(BPFREC, "extract", out, 1, work / "again.feed")
    found = records((work / "again.feed").read_bytes())
    judge("each frame is recorded, in order", numbers_in([found]) == list(range(sent)))
    ends = list(accumulate(packets_of(out)))
    parts = [found[begin:end] for begin, end in zip([0, *ends], ends)]
    ages = [part[-1].counter - part[0].counter for part in parts]
    judge("each packet is younger than its span", max(ages) < SPAN and len(parts) > 5, ages)
