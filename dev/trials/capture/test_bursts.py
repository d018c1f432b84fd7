"""Tries what bin/capture does with bursts: its two rings of the kernel, by turns, at each fault and at each end."""

import contextlib
import os
import re
import signal
import socket
import subprocess
import sys
import time
from collections.abc import Iterator
from pathlib import Path

import pytest
from accounts import judge_fed
from frames import numbered, numbers
from namespace import make_many_pairs, make_pair, send_numbered, set_link, socket_into, take_away, wait_until_up
from support import CAPTURE, LIBRARY, Reader, Running, judge, judge_quietly, pipe_at, present, run, wait_for

pytestmark = [pytest.mark.wanted("bin/capture", "ip"), pytest.mark.timed, pytest.mark.usefixtures("namespace")]
# Interfaces that take a second to open, and the length of a shortest frame's record.
OPENED, RECORD_LEN = 24, 73
COUNTS = re.compile(r"rx0 frames (\d+) bytes \d+ dropped (\d+)")


def test_single_frames_and_bursts_come_once_and_in_order(work: Path) -> None:
    """Frames that come singly and in bursts, by turns: each once, and in order, by both rings of the kernel."""
    reader = Reader(pipe_at(work, "one.pipe"))
    running = Running(work, CAPTURE, "--quiet", f"rx0={reader.path}")
    running.wait_until_told("origin")
    number = 0
    for turn in range(12):
        for _ in range(20):
            send_numbered("tx0", number, number + 1)
            number += 1
            time.sleep(0.002)
        send_numbered("tx0", number, number + 3_000)
        number += 3_000
        time.sleep(0.35 if turn % 2 else 0.02)
    running.interrupt()
    status = running.ended()[0]
    found = numbers(reader.all())
    judge(f"each of {number} frames once and in order", status == 0 and found == list(range(number)), len(found))


def packet_sockets() -> int:
    """How many there are in this namespace."""
    return len(Path("/proc/thread-self/net/packet").read_text().splitlines()) - 1


def test_frames_that_come_while_others_are_opened_wait_in_both_rings(work: Path) -> None:
    """More than the quiet ring has room for, once the first interface is open and many others aren't."""
    make_many_pairs("oy", "ox", OPENED)
    pipes = [pipe_at(work, f"{number}.pipe") for number in range(OPENED)]
    reader = Reader(pipes[0])
    ways = [f"ox{number}={pipe}" for number, pipe in enumerate(pipes)]
    running = Running(work, CAPTURE, "--quiet", "--buffer", 64, *ways)
    wait_for("the second one is opened", lambda: packet_sockets() > 2)
    send_numbered("oy0", 0, 30_000)
    judge_quietly("the last one isn't yet", packet_sockets() < 2 * OPENED)
    running.wait_until_told("origin")
    send_numbered("oy0", 30_000, 30_010)
    wait_for("the last one came", lambda: numbers(bytes(reader.data[-RECORD_LEN:])) == [30_009])
    running.interrupt()
    running.ended()
    found = numbers(reader.all())
    judge("none was dropped", re.search(r"ox0 frames \d+ bytes \d+ dropped 0 ", running.told()), running.told())
    judge("each since then once and in order", found == list(range(found[0], 30_010)) and found[0] < 10, found[:3])


def test_a_burst_waits_in_the_greater_part_of_the_memory(work: Path) -> None:
    """A burst that comes while nobody reads the pipe, after single frames: the greater part of the memory takes it."""
    pipe = pipe_at(work, "full.pipe")
    running = Running(work, CAPTURE, "--buffer", 64, f"rx0={pipe}")
    with open(pipe, "rb", buffering=0) as reader:
        running.wait_until_told("origin")
        for number in range(100):
            send_numbered("tx0", number, number + 1, 1_500)
            time.sleep(0.001)
        for first in range(100, 25_100, 1_000):
            send_numbered("tx0", first, first + 1_000, 1_500)
            time.sleep(0.02)
        running.interrupt()
        found = numbers(b"".join(iter(lambda: reader.read(1 << 16), b"")))
    status, told = running.ended()[0], running.told()
    judge("each frame once and in order", status == 0 and found == list(range(25_100)), (len(found), told))


def test_bursts_fit_a_buffer_of_4_mebibytes(work: Path) -> None:
    """Bursts of 100 frames after a pause, where a buffer of 4 MiB has slots of 16 KiB, since frames may be joined."""
    make_many_pairs("ty", "ry", 1, joins=True)
    wait_until_up("ry0")
    reader = Reader(pipe_at(work, "one.pipe"))
    running = Running(work, CAPTURE, "--buffer", 4, f"ry0={reader.path}")
    running.wait_until_told("origin")
    for turn in range(10):
        os.kill(running.process.pid, signal.SIGSTOP)
        send_numbered("ty0", 100 * turn, 100 * (turn + 1))
        os.kill(running.process.pid, signal.SIGCONT)
        time.sleep(0.25)
    running.interrupt()
    status, told = running.ended()[0], running.told()
    judge("each frame once and in order", status == 0 and numbers(reader.all()) == list(range(1_000)), told)


def test_an_interface_that_goes_down_between_bursts_repeats_no_frame(work: Path) -> None:
    """An interface that goes down and up between its bursts: no frame twice, and none before one that was sent
    first."""
    reader = Reader(pipe_at(work, "one.pipe"))
    running = Running(work, CAPTURE, "--quiet", f"rx0={reader.path}")
    running.wait_until_told("origin")
    number = 0
    for turn in range(8):
        send_numbered("tx0", number, number + 1_000)
        number += 1_000
        time.sleep(0.3 if turn % 2 else 0.03)
        run("ip", "link", "set", "rx0", "down")
        run("ip", "link", "set", "rx0", "up")
        wait_for("it is up again", lambda: "LOWER_UP" in run("ip", "link", "show", "tx0"))
        for _ in range(5):
            send_numbered("tx0", number, number + 1)
            number += 1
            time.sleep(0.003)
    time.sleep(0.2)
    running.interrupt()
    status, told = running.ended()[0], running.told()
    found = numbers(reader.all())
    judge("none twice, and in order", status == 0 and found == sorted(set(found)), told)
    judge(f"all {number} frames", found == list(range(number)), (len(found), told))


@contextlib.contextmanager
def flood(interface: str) -> Iterator[subprocess.Popen]:
    """Sends numbered frames into an interface, as fast as it can, while it lasts."""
    into = f"from namespace import *; into = socket_into({interface!r}); it = itertools.count()"
    words = [sys.executable, "-c", f"import itertools; {into}\nwhile True: into.send(numbered(next(it)))"]
    with subprocess.Popen(words, env={**os.environ, "PYTHONPATH": str(LIBRARY)}) as sender:
        try:
            time.sleep(0.5)
            yield sender
        finally:
            sender.kill()


def test_a_capture_in_a_flood_has_each_frame_from_its_first_to_its_last(work: Path) -> None:
    """A capture that begins and ends while frames come: it ends at once, and has each from its first to its last."""
    with flood("tx0"):
        for _ in range(8):
            reader = Reader(pipe_at(work, "one.pipe"))
            running = Running(work, CAPTURE, f"rx0={reader.path}")
            running.wait_until_told("origin")
            time.sleep(0.3)
            begin = time.monotonic()
            running.interrupt()
            status, told = running.ended()[0], running.told()
            judge("it ends at once", time.monotonic() - begin < 3, time.monotonic() - begin)
            found = numbers(reader.all())
            frames, dropped = map(int, COUNTS.findall(told)[-1])
            judge_quietly("status", status == 0 and frames == len(found) > 0, told)
            judge("each once and in order", found == sorted(set(found)), told)
            holes = [pair for pair in zip(found, found[1:]) if pair[1] != pair[0] + 1]
            is_whole = found[-1] - found[0] + 1 <= frames + dropped
            judge("and none is missing", is_whole, (found[0], found[-1], holes, told))


def test_a_signal_behind_a_burst_leaves_no_frame_of_it_behind(work: Path) -> None:
    """A signal that comes behind the last frame of a burst, which the kernel hasn't handed over yet."""
    for _ in range(5):
        reader = Reader(pipe_at(work, "one.pipe"))
        running = Running(work, CAPTURE, f"rx0={reader.path}")
        running.wait_until_told("origin")
        send_numbered("tx0", 0, 3_000)
        running.interrupt()
        status, told = running.ended()[0], running.told()
        judge("each frame is recorded", status == 0 and numbers(reader.all()) == list(range(3_000)), told)


def test_frames_of_a_removed_interface_are_recorded(work: Path) -> None:
    """An interface that is removed with frames in each of its rings: all are recorded."""
    for turn, first in enumerate((0, 3_000)):
        reader = Reader(pipe_at(work, "one.pipe"))
        running = Running(work, CAPTURE, f"rx0={reader.path}")
        running.wait_until_told("origin")
        send_numbered("tx0", 0, first)
        time.sleep(0.02)
        os.kill(running.process.pid, signal.SIGSTOP)
        send_numbered("tx0", first, first + 3_000)
        take_away("rx0")
        os.kill(running.process.pid, signal.SIGCONT)
        running.wait_until_told("the interface is gone")
        running.interrupt()
        status, told = running.ended()[0], running.told()
        found = numbers(reader.all())
        judge(f"all frames before: {turn}", status == 1 and found == list(range(first + 3_000)), (len(found), told))
        make_pair(0)


def test_frames_that_were_dropped_before_an_interface_was_removed_are_counted(work: Path) -> None:
    """Those that the kernel dropped while nobody took any, of an interface that is gone by then, and comes back."""
    reader = Reader(pipe_at(work, "one.pipe"))
    running = Running(work, CAPTURE, "--buffer", 1, f"rx0={reader.path}")
    running.wait_until_told("origin")
    os.kill(running.process.pid, signal.SIGSTOP)
    send_numbered("tx0", 0, 4_000, 1_500)
    take_away("rx0")
    os.kill(running.process.pid, signal.SIGCONT)
    running.wait_until_told("the interface is gone")
    make_pair(0)
    running.wait_until_told("rx0: it is back")
    send_numbered("tx0", 4_000, 4_100)
    time.sleep(0.1)
    running.interrupt()
    status, told = running.ended()[0], running.told()
    counts = judge_fed(told, 4_100, len(numbers(reader.all())))
    judge("some were dropped, and all is told", status == 0 and counts.dropped > 0, told)
    judge("at last too", f"bpfrec capture: rx0 LOST {counts.dropped} dropped 0 skipped\n" in told, told)


def waits_of(process: int) -> int:
    """How often the threads of a process have waited for something."""
    told = [(it / "status").read_text() for it in Path(f"/proc/{process}/task").iterdir()]
    return sum(int(present(re.search(r"^voluntary_ctxt_switches:\t(\d+)", it, re.M))[1]) for it in told)


def seconds_of(process: int) -> float:
    """How long a process has run."""
    fields = Path(f"/proc/{process}/stat").read_text().rpartition(")")[2].split()
    return (int(fields[11]) + int(fields[12])) / os.sysconf("SC_CLK_TCK")


def latency_of(into: socket.socket, reader: Reader, number: int) -> float:
    """How many seconds after it was sent a frame is read."""
    before, begin = len(reader.data), time.monotonic()
    into.send(numbered(number))
    while len(reader.data) == before and time.monotonic() < begin + 1:
        time.sleep(0)
    return time.monotonic() - begin


def test_nothing_waits_for_each_frame_in_a_burst_and_nothing_runs_while_it_is_down(work: Path) -> None:
    """In a burst nothing waits for each frame; after it each is here at once; and nothing runs while it is down."""
    reader = Reader(pipe_at(work, "one.pipe"))
    running = Running(work, CAPTURE, "--quiet", f"rx0={reader.path}")
    process = running.process.pid
    running.wait_until_told("origin")
    with socket_into("tx0") as into:
        begin = waits_of(process)
        for number in range(10_000):
            into.send(numbered(number))
            if number % 5 == 4:
                time.sleep(0.0003)
        waits = waits_of(process) - begin
        judge("frames of a burst come in blocks", waits < 1_000, waits)
        time.sleep(0.4)
        late = []
        for number in range(200):
            time.sleep(0.002 + 0.0137 * number % 0.007)
            late.append(latency_of(into, reader, number))
        judge("and singly afterwards", sorted(late)[100] < 0.001, sorted(late)[100])
    set_link("rx0", "down")
    time.sleep(0.3)
    ran = seconds_of(process)
    time.sleep(1)
    judge("nothing runs while the interface is down", seconds_of(process) - ran < 0.2)
    running.interrupt()
    running.ended()
