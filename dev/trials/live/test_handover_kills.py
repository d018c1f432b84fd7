"""Kills the old recorder, the new one or both of bpfrec live at drawn moments around a handover, while frames come: each
interface goes on, and each frame is in a recording or in a count.

HANDOVER_KILLS in the environment has more of them drawn of each number of interfaces.
"""

import contextlib
import os
import random
import signal
import subprocess
import threading
import time
from collections.abc import Callable, Iterator
from pathlib import Path
from typing import NamedTuple

import pytest
from accounts import judge_killed
from frames import numbered, numbers_in
from namespace import make_many_pairs, socket_into, wait_until_up
from recordings import begin, is_recording, nothing_left, parts_of, recordings, runs, write_settings
from support import BPFREC, SECONDS, Running, judge, judge_quietly, wait_for

pytestmark = [pytest.mark.wanted("bin/bpfrec", "bin/capture", "ip"), pytest.mark.timed]
COUNTS = (1, 2, 12)
KILLS = int(os.environ.get("HANDOVER_KILLS", "2"))
# Frames that were sent within this time behind a recorder's death may be in its pipe, in seconds.
ON_THE_WAY = 0.1


class Kill(NamedTuple):
    """Which recorders are killed, how long after the new one is there, and for how long that one stands still then."""

    interfaces: int
    number: int
    which: str
    delay: float
    pause: float


def drawn_kills() -> list[Kill]:
    """The first of each number of interfaces meets each of them before it has gone over."""
    kills = []
    for count in COUNTS:
        draw = random.Random(count)
        kills.append(Kill(count, 0, "old", 0, 0.3))
        for number in range(1, KILLS):
            delay = draw.choice((0, 0.001, 0.002, 0.003, 0.005, 0.008, 0.012, 0.02, 0.05))
            kills.append(Kill(count, number, draw.choice(("old", "new", "both")), delay, draw.choice((0, 0, 0.2))))
    return kills


@pytest.fixture(scope="module")
def pairs(entering: Callable) -> Iterator[None]:
    with entering():
        make_many_pairs("ky", "kx", max(COUNTS))
        wait_until_up(f"kx{max(COUNTS) - 1}")
        yield


class Sending(threading.Thread):
    """Sends each numbered frame into so many pairs, until it is ended; `moments` has when each was sent."""

    def __init__(self, count: int) -> None:
        super().__init__(daemon=True)
        self.sockets = [socket_into(f"ky{number}") for number in range(count)]
        self.moments: list[float] = []
        self.is_ending = False
        self.start()

    def run(self) -> None:
        while not self.is_ending:
            frame = numbered(len(self.moments))
            self.moments.append(time.monotonic())
            for into in self.sockets:
                into.send(frame)
            time.sleep(0.002)

    def end(self) -> None:
        self.is_ending = True
        self.join()
        for into in self.sockets:
            into.close()


def recorders_of(running: Running) -> list[int]:
    """The recorders of a run, the oldest first."""
    pid = running.process.pid
    children = Path(f"/proc/{pid}/task/{pid}/children").read_text().split()
    return [int(it) for it in children if runs(int(it), BPFREC)]


def newest_going(work: Path, running: Running, out: Path) -> str:
    """The newest recording, where its recorder is alone and has it open; else nothing."""
    found = recordings(work, "turn")[-1]
    return found.name if len(recorders_of(running)) == 1 and is_recording(out, found) else ""


def strike(kill: Kill, work: Path, running: Running) -> float:
    """Kills what is to be killed in a handover: when. Both may be there for some milliseconds alone: where they weren't
    seen nothing is killed."""
    end = time.monotonic() + SECONDS
    while len(found := recorders_of(running)) != 2:
        judge_quietly("a next recorder is there", time.monotonic() < end, running.told())
        if len(recordings(work, "turn")) == 2 and newest_going(work, running, work / "turn.ch11"):
            return time.monotonic()
    old, new = found
    if kill.pause:
        os.kill(new, signal.SIGSTOP)
    time.sleep(kill.delay)
    killed = {"old": [old], "new": [new], "both": [old, new]}[kill.which]
    for pid in killed:
        with contextlib.suppress(ProcessLookupError):
            os.kill(pid, signal.SIGKILL)
    # Each of its threads has ended, which have its pipes open.
    wait_for("they are gone", lambda: not any(Path(f"/proc/{pid}").exists() for pid in killed))
    moment = time.monotonic()
    if kill.pause and kill.which == "old":
        time.sleep(kill.pause)
        os.kill(new, signal.SIGCONT)
    return moment


def go_on(work: Path, running: Running, out: Path) -> None:
    """Waits until another recording follows, in which frames come."""
    wait_for(lambda: f"it goes on: {running.told()}", lambda: newest_going(work, running, out))
    before = newest_going(work, running, out)
    running.type_in("next")
    wait_for(
        lambda: f"a next recording goes on: {running.told()}",
        lambda: newest_going(work, running, out) not in ("", before),
    )
    time.sleep(0.2)


@pytest.mark.parametrize("kill", drawn_kills(), ids=lambda kill: f"{kill.interfaces}-{kill.number}-{kill.which}")
def test_interfaces_go_on_and_each_frame_is_in_a_recording_or_a_count(work: Path, pairs: None, kill: Kill) -> None:
    out, ways = work / "turn.ch11", [f"kx{number}={number + 1}" for number in range(kill.interfaces)]
    settings = write_settings(work, *(f'id = {number + 1}\nfilter = "{work}/all"' for number in range(kill.interfaces)))
    words = ("--quiet", "--every", 1_000)
    running = begin(work, out, *words, settings=settings, ways=ways, stdin=subprocess.PIPE)
    wait_for("the first recording goes on", lambda: is_recording(out, work / "turn_00001.ch11"))
    sending = Sending(kill.interfaces)
    try:
        time.sleep(0.2)
        running.type_in("next")
        moment = strike(kill, work, running)
        go_on(work, running, out)
    finally:
        sending.end()
    running.process.send_signal(signal.SIGTERM)
    status, _ = running.ended()
    told = running.told()
    judge("it ends by the signal, and leaves nothing", status in (0, 137) and nothing_left(work), (status, told))
    sent = len(sending.moments)
    later = next((at for at, when in enumerate(sending.moments) if when > moment + ON_THE_WAY), sent)
    for number in range(kill.interfaces):
        judge_killed(told, numbers_in(parts_of(work, "turn", number + 1)), (later, sent), f"kx{number}")
