"""Tries bin/capture with a wall clock that is set while it captures; other settings stand in capture/tests/.

The clock is set for the capture alone, by a library that is preloaded (dev/trials/lib/set_clock.c); the host's stays.
Counters must go on as if nothing had happened, and with the origins that are told each frame must have the time that
the set clock had when it was sent.
"""

import os
import signal
import time
from pathlib import Path

import pytest
from clock import TOLD, Clock, Sender, judge_frames, judge_steps, origins_told, preloaded, steps_told
from frames import records
from namespace import send_numbered
from support import CAPTURE, MILLISECOND, SECOND, Reader, Running, judge, judge_quietly, origin_told, pipe_at, wait_for
from time_marks import begin, frames_of, judge_ended, judge_moments, judge_order, marks_of

pytestmark = [
    pytest.mark.wanted("bin/bpfrec", "bin/capture", "ip", "cc", "pcap-config"),
    pytest.mark.timed,
    pytest.mark.usefixtures("namespace"),
]
STEP = -3600 * SECOND
PPM = 500
ADAPTER_AHEAD = 37
# What a step has at least that is told by itself.
LEAST_STEP = SECOND // 2000


class Captured:
    """A capture of both pairs under a clock that is set, with a reader of each."""

    def __init__(self, work: Path) -> None:
        self.clock, self.sender = Clock(work), Sender()
        self.readers = [Reader(pipe_at(work, f"{at}.pipe")) for at in (0, 1)]
        ways = [f"rx{at}={reader.path}" for at, reader in enumerate(self.readers)]
        self.running = Running(work, CAPTURE, "--quiet", *ways, adds=self.clock.adds)
        self.running.wait_until_told("origin")
        time.sleep(0.05)

    def stop(self) -> None:
        os.kill(self.running.process.pid, signal.SIGSTOP)

    def go_on(self) -> None:
        os.kill(self.running.process.pid, signal.SIGCONT)

    def wait_for_told(self, count: int) -> None:
        wait_for(
            lambda: f"a setting is told within a second: {self.running.told()}",
            lambda: len(TOLD.findall(self.running.told())) >= count,
            1,
        )

    def judge(self, what: str, steps: list[int] | None) -> None:
        """Ends it and judges it; `steps` are the settings, each of which is told once."""
        time.sleep(0.1)
        self.running.interrupt()
        judge_quietly(f"{what}: it ends well: {self.running.told()}", self.running.ended()[0] == 0)
        origins = origins_told(self.running.told())
        for at, reader in enumerate(self.readers):
            judge_frames(f"{what}: rx{at}", records(reader.all()), self.sender.sent, origins, self.clock)
        if steps is not None:
            judge_steps(what, self.running.told(), steps)


def test_frames_from_before_and_after_a_setting_have_their_origins(work: Path) -> None:
    """The capture stands still: the kernel keeps frames from before and after it."""
    captured = Captured(work)
    captured.sender.send(50)
    captured.stop()
    captured.sender.send(50)
    captured.clock.set_by(-SECOND)
    captured.sender.send(50)
    captured.go_on()
    captured.wait_for_told(1)
    captured.sender.send(50)
    captured.judge("the clock is set while frames wait", [-SECOND])


def test_a_setting_of_which_no_frame_tells_is_told(work: Path) -> None:
    """And the next frames have their times."""
    captured = Captured(work)
    captured.sender.send(5)
    time.sleep(0.3)
    captured.clock.set_by(STEP)
    captured.wait_for_told(1)
    captured.sender.send(5)
    captured.judge("the clock is set between frames", [STEP])


def test_a_clock_that_gains_is_followed_in_steps(work: Path) -> None:
    """Of half a millisecond or more, also while frames wait."""
    captured = Captured(work)
    captured.clock.slew(PPM)
    captured.sender.send(500)
    captured.stop()
    captured.sender.send(200)
    captured.go_on()
    captured.sender.send(500)
    gained = captured.clock.ahead_at(time.time_ns())
    captured.judge(f"a clock that gains {PPM} millionths", None)
    steps = steps_told(captured.running.told())
    holds = abs(gained - sum(steps)) < MILLISECOND and len(steps) <= gained // LEAST_STEP + 1
    judge(f"is followed in {len(steps)} steps", holds, (gained, steps))


# ---- time marks


@pytest.mark.parametrize("step", [-3_600 * SECOND, 3_600 * SECOND, -10 * MILLISECOND], ids=str)
def test_a_clock_that_is_set_moves_no_mark(work: Path, step: int) -> None:
    clock, sender, reader = Clock(work), Sender(), Reader(pipe_at(work, "one.pipe"))
    running = begin(work, "--quiet", adds=clock.adds)
    before = time.time_ns()
    sender.send(20)
    clock.set_by(step)
    time.sleep(0.4)
    sender.send(20)
    time.sleep(0.2)
    judge_moments(marks_of(bytes(reader.data)), origin_told(running.told()), before)
    judge_ended(running)
    judge_order(reader.all())
    judge("each frame is there", len(frames_of(reader.all())) == 40)


def test_by_an_adapters_clock_marks_go_on_from_the_last_frame(work: Path) -> None:
    """Before the first there are none."""
    adds = {"LD_PRELOAD": str(preloaded()), "ADAPTER_AHEAD": str(ADAPTER_AHEAD)}
    reader = Reader(pipe_at(work, "one.pipe"))
    running = begin(work, "--quiet", "--clock", "adapter", adds=adds)
    time.sleep(0.3)
    judge("there are no marks before the first frame", bytes(reader.data) == b"")
    before = time.time_ns()
    for number in range(10):
        send_numbered("tx0", number, number + 1)
        time.sleep(0.07)
    time.sleep(0.5)
    judge_moments(marks_of(bytes(reader.data)), origin_told(running.told()), before, ADAPTER_AHEAD * SECOND)
    judge_ended(running)
    judge_order(reader.all())
