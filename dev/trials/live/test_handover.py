"""Ends bpfrec live at drawn moments around a handover, while frames come: one signal ends it, and all frames are there.

HANDOVER_MOMENTS in the environment has more moments drawn of each number of interfaces.
"""

import os
import random
import re
import signal
import threading
import time
from collections.abc import Callable, Iterator
from pathlib import Path

import pytest
from frames import numbered, numbers_in
from namespace import make_many_pairs, socket_into, wait_until_up
from recordings import YES, nothing_left, parts_of, recordings
from support import LIVE, Running, judge, judge_quietly, wait_for

pytestmark = [pytest.mark.wanted("bin/bpfrec", "bin/capture", "ip"), pytest.mark.timed]
COUNTS = (1, 2, 12, 64)
MOMENTS = int(os.environ.get("HANDOVER_MOMENTS", "2"))
# Measured: 0.2 to 1.7 s, where a machine has twice as many programs to run as it has processors. A run that hangs takes
# far longer.
PATIENCE = float(os.environ.get("HANDOVER_PATIENCE", "5"))
# Frames of each two milliseconds: they fill a pipe in 3 or 12 ms. Of 64 interfaces each has a small buffer.
LENGTH, BATCHES = 1_400, {1: 32, 2: 32, 12: 32, 64: 8}


def drawn_moments(count: int) -> list[float]:
    """Seconds behind the moment at which the link names the next recording."""
    draw = random.Random(f"{count}")
    return [draw.choice((0, 0.0005, 0.001, 0.002, 0.003, 0.005, 0.01, 0.05, 0.1)) for _ in range(MOMENTS)]


CASES = [(count, at, delay) for count in COUNTS for at, delay in enumerate(drawn_moments(count))]


@pytest.fixture(scope="module")
def pairs(entering: Callable) -> Iterator[None]:
    with entering():
        make_many_pairs("hy", "hx", max(COUNTS))
        wait_until_up(f"hx{max(COUNTS) - 1}")
        yield


class Busy(threading.Thread):
    """Sends numbered frames into the first pair until it is ended."""

    def __init__(self, batch: int) -> None:
        super().__init__(daemon=True)
        self.batch, self.sent, self.is_ending = batch, 0, False
        self.start()

    def run(self) -> None:
        with socket_into("hy0") as into:
            while not self.is_ending:
                for _ in range(self.batch):
                    into.send(numbered(self.sent, LENGTH))
                    self.sent += 1
                time.sleep(0.002)

    def end(self) -> None:
        self.is_ending = True
        self.join()


def named_now(work: Path) -> str:
    """What the link to the recording that goes on names."""
    found = [os.readlink(it) for it in (work / "private").glob("bpfrec.*/now")]
    return found[0] if found else ""


def wait_until_named(work: Path, before: str) -> str:
    """Waits until the link names another recording's folder."""
    end = time.monotonic() + 20
    while (now := named_now(work)) in (before, "gate", ""):
        judge_quietly("the link turns", time.monotonic() < end)
        time.sleep(0.0002)
    return now


@pytest.mark.parametrize("count, at, delay", CASES, ids=[f"{count}-{at}" for count, at, _ in CASES])
def test_one_signal_at_a_handover_ends_it_with_all_frames(
    work: Path, pairs: None, count: int, at: int, delay: float
) -> None:
    ways = [f"hx{number}" for number in range(count)]
    running = Running(work, LIVE, "--quiet", "--every", 1, work / "turn.ch11", *ways)
    running.wait_until_told("origin")
    first = wait_until_named(work, "")
    wait_for("the first recording goes on", lambda: recordings(work, "turn") != [])
    busy = Busy(BATCHES[count])
    try:
        wait_until_named(work, first)
        time.sleep(delay)
        ahead = busy.sent
        running.process.send_signal((signal.SIGTERM, signal.SIGINT)[at % 2])
        begin = time.monotonic()
        status, printed = running.ended()
        took = time.monotonic() - begin
    finally:
        busy.end()
    told, files = running.told(), recordings(work, "turn")
    judge(f"{count} interfaces, {1000 * delay} ms: it ends after {took:.2f} s", took < PATIENCE and status == 0, told)
    judge("each recording is approved", printed.count(YES) == len(files) == 2 and nothing_left(work), (printed, told))
    judge("nothing is dropped", len(re.findall(r" dropped 0 ", told)) == count and "LOST" not in told, told)
    found = numbers_in(parts_of(work, "turn", 1))
    holds = found == list(range(len(found))) and len(found) >= ahead
    judge(f"of {len(found)} frames none is missing, and {ahead} were sent ahead", holds)
