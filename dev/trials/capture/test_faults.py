"""Tries what bin/capture does where something fails: nothing is lost in silence, and it can always be ended."""

import contextlib
import os
import pty
import re
import resource
import select
import signal
import time
from collections.abc import Iterator
from pathlib import Path

import pytest
from accounts import counted, judge_fed
from frames import numbers
from namespace import send_numbered
from pcapng import capture_head, captured, frame_of
from support import CAPTURE, Reader, Running, judge, judge_quietly, outcome, pipe_at, present, wait_for

pytestmark = [
    pytest.mark.wanted("bin/bpfrec", "bin/capture", "ip"),
    pytest.mark.timed,
    pytest.mark.usefixtures("namespace"),
]
SENT = 2_000


def capture_file(path: Path, many: int = 3) -> Path:
    path.write_bytes(capture_head(0xA1B23C4D) + b"".join(captured(at, 0, frame_of(at)) for at in range(many)))
    return path


# ---- standard streams


def full_pipe() -> tuple[int, int]:
    """A pipe that has no room left."""
    reader, writer = os.pipe()
    os.set_blocking(writer, False)
    with contextlib.suppress(BlockingIOError):
        while True:
            os.write(writer, bytes(4_096))
    os.set_blocking(writer, True)
    return reader, writer


def has_come(feed: Reader) -> bool:
    """Sends a frame, and tells whether one has come."""
    send_numbered("tx0", 0, 1)
    return feed.data != b""


def test_standard_error_that_nobody_reads_holds_up_no_frame(work: Path) -> None:
    """Standard error that nobody reads, as of a terminal that is stopped: each frame is recorded, and TERM ends it."""
    feed = Reader(pipe_at(work, "one.pipe"))
    reader, writer = full_pipe()
    running = Running(work, CAPTURE, f"rx0={feed.path}", stderr=writer)
    os.close(writer)
    wait_for("it captures", lambda: has_come(feed))
    send_numbered("tx0", 1, SENT)
    time.sleep(1.2)
    held = os.read(reader, 1 << 20)
    time.sleep(1.2)
    running.process.send_signal(signal.SIGTERM)
    status, told = running.ended()[0], held + b"".join(iter(lambda: os.read(reader, 1 << 16), b""))
    judge(
        "a standard error that nobody reads stops nothing", status == 0 and set(range(SENT)) == set(numbers(feed.all()))
    )
    judge(
        "and the lines that it had no room for are counted",
        re.search(rb"bpfrec capture: \d+ lines were left out", told),
    )


def fill_terminal(other: int, terminal: int) -> None:
    """Leaves room for 256 bytes or so, which is the least that a terminal shows as room."""
    full = os.open(os.ttyname(terminal), os.O_WRONLY | os.O_NONBLOCK | os.O_NOCTTY)
    for length in (64, 1):
        with contextlib.suppress(BlockingIOError):
            while True:
                os.write(full, b"x" * length)
    while not select.select([], [full], [], 0.01)[1]:
        os.read(other, 16)
    os.close(full)


def test_a_line_without_room_on_a_terminal_is_cut(work: Path) -> None:
    """A terminal that nobody reads, with room for a part of a line: the line is cut, and the program goes on."""
    folder = work.joinpath(*["x" * 200] * 3)
    folder.mkdir(parents=True)
    words = [CAPTURE, "-r", f"{capture_file(folder / 'some.pcap')}={work}/made.feed"]
    other, terminal = pty.openpty()
    for _ in range(5):
        fill_terminal(other, terminal)
        running = Running(work, *words, stderr=terminal)
        judge("the feed is made", running.ended()[0] == 0 and len(numbers((work / "made.feed").read_bytes())) == 3)


@pytest.mark.parametrize("fd", [0, 1, 2])
def test_a_closed_standard_stream_is_none_of_the_programs_pipes(work: Path, fd: int) -> None:
    """A standard stream that is closed isn't one of the program's own pipes."""
    feed, file = work / "made.feed", capture_file(work / "some.pcap")
    words = {0: ["-r", f"-={feed}"], 1: ["-r", f"{file}=-"], 2: ["-r", f"{file}={feed}"]}[fd]
    sign = {0: "<&-", 1: ">&-", 2: "2>&-"}[fd]
    done = outcome("sh", "-c", f'exec "$@" {sign}', "sh", CAPTURE, *words)
    if fd == 2:
        judge(
            "with standard error closed the feed is made", done.returncode == 0 and len(numbers(feed.read_bytes())) == 3
        )
    else:
        judge("a closed stream is refused", done.returncode == 1 and "Bad file descriptor" in done.stderr, done.stderr)


# ---- files


@pytest.mark.parametrize("name", ["TERM", "INT"])
def test_a_pipe_without_a_writer_is_waited_for_until_a_signal(work: Path, name: str) -> None:
    running = Running(work, CAPTURE, "-r", f"{pipe_at(work, 'in.pipe')}={work}/made.feed")
    time.sleep(0.3)
    judge_quietly("it waits for a writer", running.process.poll() is None)
    running.process.send_signal(getattr(signal, f"SIG{name}"))
    begin = time.monotonic()
    running.ended()
    judge(f"{name} ends a capture of a pipe that nobody writes", time.monotonic() - begin < 2)


def test_a_writer_may_come_late(work: Path) -> None:
    pipe, feed = pipe_at(work, "in.pipe"), work / "made.feed"
    running = Running(work, CAPTURE, "-r", f"{pipe}={feed}")
    time.sleep(0.3)
    pipe.write_bytes(capture_file(work / "some.pcap", 50).read_bytes())
    status = running.ended()[0]
    judge("a writer may come late", status == 0 and len(numbers(feed.read_bytes())) == 50)


# ---- what can't be had


@contextlib.contextmanager
def descriptors(many: int) -> Iterator[dict]:
    """How a program is started that may have so many descriptors."""
    yield {"preexec_fn": lambda: resource.setrlimit(resource.RLIMIT_NOFILE, (many, many))}


def test_what_cannot_be_opened_without_descriptors_is_said(work: Path) -> None:
    """Whatever can't be opened is said, at each number of descriptors that is too small."""
    silent = []
    for many in range(3, 12):
        with descriptors(many) as limit:
            done = outcome(CAPTURE, "-r", f"{capture_file(work / 'some.pcap')}={work}/made.feed", **limit)
        if done.returncode != 0 and not re.search(r"Too many open files|shared libraries", done.stderr):
            silent.append((many, done.returncode, done.stderr))
    judge("no status without a word", silent == [], silent)


# ---- frames that no output took


def test_a_run_that_is_ended_at_once_counts_what_it_leaves(work: Path) -> None:
    """A run that is ended at once counts what it leaves: in its hands, and in the kernel."""
    pipe = pipe_at(work, "full.pipe")
    running = Running(work, CAPTURE, f"rx0={pipe}")
    with open(pipe, "rb", buffering=0) as reader:
        running.wait_until_told("origin")
        time.sleep(0.1)
        send_numbered("tx0", 0, SENT, 1_500)
        running.interrupt()
        time.sleep(1.5)
        running.interrupt()
        status = running.ended()[0]
        read = b"".join(iter(lambda: reader.read(1 << 16), b""))
    whole = len(read) // 1_513
    counts = judge_fed(running.told(), SENT, whole)
    judge("and their bytes", (status, counts.bytes) == (1, 1_504 * whole), running.told())
    judge("and says why", "the run was to end at once" in running.told(), running.told())


def test_counts_of_reader_that_left(work: Path) -> None:
    """Frames that were for a reader who left are no frames of the feed, and are told."""
    pipe = pipe_at(work, "left.pipe")
    running = Running(work, CAPTURE, f"rx0={pipe}")
    with open(pipe, "rb", buffering=0):
        running.wait_until_told("origin")
        send_numbered("tx0", 0, 500, 1_500)
        time.sleep(0.5)
    status, told = running.ended()[0], running.told()
    counts = counted(told)
    unwritten = int(present(re.search(r"its reader has left, which (\d+) frames were for\n", told))[1])
    judge("each frame was for the reader", status == 0 and counts.lost() == 0 and 0 < counts.frames < 500, told)
    judge("those that it can't have got are told", 0 < unwritten <= 500 - counts.frames, told)


def next_feed(work: Path, running: Running) -> Reader:
    """Has it go over to another pipe of the same name."""
    reader = Reader(pipe_at(work, "one.pipe"))
    running.process.send_signal(signal.SIGUSR1)
    return reader


def test_a_burst_without_a_reader_is_kept_for_the_next_feed(work: Path) -> None:
    """A burst while no reader is there: the kernel keeps it in both of its rings, and the next feed has it."""
    pipe = pipe_at(work, "one.pipe")
    running = Running(work, CAPTURE, "--buffer", 16, "--hold", 10, f"rx0={pipe}")
    with open(pipe, "rb", buffering=0):
        running.wait_until_told("origin")
        running.process.send_signal(signal.SIGUSR2)
        time.sleep(0.1)
    for first, end in ((0, 5_600), (5_600, 15_000)):
        send_numbered("tx0", first, end)
        time.sleep(0.2)
    reader = next_feed(work, running)
    wait_for("the next feed has frames", lambda: len(reader.data) > 0)
    running.interrupt()
    status, told = running.ended()[0], running.told()
    found = numbers(reader.all())
    judge("the next feed has frames once and in order", status == 0 and found == sorted(set(found)), told)
    counts = judge_fed(told, 15_000, len(found))
    # On a machine with other work some may come before the rings change; one ring alone drops thousands.
    judge("and nearly all are there", counts.dropped < 1_500, told)


def test_frames_past_the_memory_that_waits_are_counted(work: Path) -> None:
    """Frames past the 16 MiB that wait for another feed are counted, also where that feed comes."""
    sent, pipe = 30_000, pipe_at(work, "one.pipe")
    running = Running(work, CAPTURE, "--hold", 10, f"rx0={pipe}")
    with open(pipe, "rb", buffering=0) as reader:
        running.wait_until_told("origin")
        time.sleep(0.1)
        os.kill(running.process.pid, signal.SIGSTOP)
        send_numbered("tx0", 0, sent, 1_500)
        running.process.send_signal(signal.SIGCONT)
        read = b""
        while len(read) < 900_000:
            read += reader.read(1 << 16)
    running.process.send_signal(signal.SIGUSR2)
    time.sleep(0.3)
    other = next_feed(work, running)
    wait_for("the next feed has frames", lambda: len(other.data) > 0)
    running.interrupt()
    status, told = running.ended()[0], running.told()
    counts = counted(told)
    judge("each frame is of a feed or counted", status == 0 and counts.frames + counts.lost() == sent, told)
    found = numbers(other.all())
    judge("and the other feed is whole and in order", len(found) > 0 and found == sorted(set(found)), told)
