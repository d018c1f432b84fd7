"""Tries how the threads of `bpfrec record` wait for one another: what that takes, how soon they go on, and when they
end."""

import os
import subprocess
import time
from pathlib import Path

import pytest
from frames import counted_feed
from recorder import begin, line_within_a_second, make_feed, write_settings
from support import judge, present

pytestmark = [pytest.mark.wanted("bin/bpfrec"), pytest.mark.timed]
CHANNELS, MOST_OF_A_PROCESSOR = 16, 0.2
# Pauses grow after a thousand of a millisecond each, which take longer where the machine is loaded.
WINDOWS = 6
# Packets of one frame each, through a ring for one, and how often the writer may sleep for each of them.
LONGEST, PACKETS, MOST_SECONDS = 16_383, 4_000, 15


def processor_time(pid: int) -> float:
    """The seconds of a processor that a program has taken."""
    fields = Path(f"/proc/{pid}/stat").read_text().rsplit(")", 1)[1].split()
    return (int(fields[11]) + int(fields[12])) / os.sysconf("SC_CLK_TCK")


def least_used(pid: int) -> float:
    """The least of a processor that a program takes in one of several seconds."""
    times = [processor_time(pid)]
    for _ in range(WINDOWS):
        time.sleep(1)
        times.append(processor_time(pid))
    return min(later - earlier for earlier, later in zip(times, times[1:]))


def test_full_rings_wait_without_a_processor(work: Path) -> None:
    """Channels whose rings are full, since nobody reads the output: the recorder waits, and takes little for it."""
    os.mkfifo(work / "out.pipe")
    make_feed(work / "own.feed", 20_000)
    settings = write_settings(work, ["own.feed"] * CHANNELS, ["all"] * CHANNELS)
    settings.write_text("limit = 16424\nring = 2\n" + settings.read_text())
    running = begin(settings, work / "out.pipe")
    out = os.open(work / "out.pipe", os.O_RDONLY)
    used = least_used(running.pid)
    with os.fdopen(out, "rb") as pipe:
        read = len(pipe.read())
    printed = running.communicate()[0]
    judge("then all is recorded", printed.endswith(f" {read}\n") and printed.count("kept 20000 ") == CHANNELS, printed)
    print(f"{CHANNELS} full rings: {used:.3f} of a processor")
    judge("full rings take little of a processor", used < MOST_OF_A_PROCESSOR, used)


def test_the_writer_is_quick_behind_a_silence(work: Path) -> None:
    """Behind a silence, for which its sleeps have grown to ten milliseconds, the writer takes packet after packet
    quickly."""
    os.mkfifo(work / "own.feed")
    settings = write_settings(work, ["own.feed"], ["all"])
    settings.write_text("limit = 16424\nring = 1\n" + settings.read_text())
    part = counted_feed([bytes(LONGEST)] * PACKETS)
    running = begin(settings, "/dev/null")
    with open(work / "own.feed", "wb", buffering=0) as feed:
        feed.write(part[: len(part) // 4])
        time.sleep(1.5)
        began = time.monotonic()
        feed.write(part[len(part) // 4 :])
    printed = running.communicate()[0]
    took = time.monotonic() - began
    judge("all is recorded", f"kept {PACKETS} SourceEnd" in printed, printed)
    judge(f"the writer takes {PACKETS * 3 // 4} packets in {took:.1f} s", took < MOST_SECONDS, took)


def test_no_further_frame_is_asked_for_once_the_output_failed(work: Path) -> None:
    """A channel that waits for its feed when the output fails ends with its next frame, and asks for no other; so do
    lines with the next line."""
    for name in ("busy.feed", "still.feed"):
        os.mkfifo(work / name)
    settings = write_settings(work, ["busy.feed", "still.feed"], ["all", "all"])
    running = begin(settings, "/dev/full", stdin=subprocess.PIPE, stderr=subprocess.PIPE, text=False)
    busy, still = (os.open(work / name, os.O_WRONLY) for name in ("busy.feed", "still.feed"))
    frame = make_feed(work / "one.feed", 1).read_bytes()
    # Both channels wait for a frame by then.
    time.sleep(0.3)
    os.write(busy, frame)
    judge("the output fails", line_within_a_second(running) == b"run 2 Output 0 0\n")
    present(running.stdin).write(f"set 2 {work / 'all'}\n".encode())
    present(running.stdin).flush()
    time.sleep(0.3)
    judge("the recorder waits for the channels", running.poll() is None)
    os.write(busy, frame)
    os.write(still, frame)
    try:
        running.wait(2)
    except subprocess.TimeoutExpired:
        running.kill()
    judge("the next frame of each ends it", running.wait() == 1, running.returncode)
    for source in (busy, still):
        os.close(source)
