"""Tries bpfrec live with an OUT that is a named pipe: one that is read, and one that nobody reads."""

import os
import signal
import time
from pathlib import Path

import pytest
from frames import numbers
from namespace import send_together
from recordings import RUN, begin, extracted, nothing_left, processes_of, settings_of
from service import Manager
from support import LIVE, Reader, Running, judge, pipe_at, wait_for

pytestmark = [
    pytest.mark.wanted("bin/bpfrec", "bin/capture", "ip"),
    pytest.mark.timed,
    pytest.mark.usefixtures("namespace"),
]
COUNT = 1_000


def test_a_pipe_that_is_read_takes_the_recording(work: Path) -> None:
    """A pipe that is read takes the recording, and the service manager is told while it goes on."""
    manager, out = Manager(str(work / "notify")), pipe_at(work, "out.pipe")
    reader = Reader(out)
    running = begin(work, out, "--quiet", adds=manager.adds)
    wait_for(lambda: f"READY=1 comes: {manager.told}", lambda: manager.times("READY=1"), 10)
    send_together(0, COUNT)
    time.sleep(0.3)
    os.kill(running.process.pid, signal.SIGTERM)
    status, printed = running.ended()
    judge("TERM ends it", status == 0 and nothing_left(work), (status, printed, running.told()))
    (work / "read.ch11").write_bytes(reader.all())
    found = [numbers(extracted(work, work / "read.ch11", channel)) for channel in (1, 2)]
    judge("the reader has all frames", found == [list(range(COUNT))] * 2, [len(it) for it in found])
    judge("and the pipe is left", out.is_fifo())


@pytest.mark.parametrize("ending", [signal.SIGTERM, signal.SIGINT])
def test_a_pipe_that_nobody_reads_is_said_and_a_signal_ends_all(work: Path, ending: signal.Signals) -> None:
    """Of a pipe that nobody reads nothing is recorded: it is said, and a signal ends all."""
    out = pipe_at(work, "out.pipe")
    running = Running(work, LIVE, "--quiet", settings_of(work), out, "rx0=1", "rx1=2", adds={RUN: str(out)})
    running.wait_until_told("bpfrec capture: origin")
    send_together(0, COUNT)
    begun = time.monotonic()
    os.kill(running.process.pid, ending)
    status, printed = running.ended()
    judge(f"{ending.name} ends it", time.monotonic() - begun < 10, time.monotonic() - begun)
    line = f"bpfrec live: nobody reads {out}: nothing was recorded\n"
    judge("it says why nothing was recorded", status == 3 and line in running.told(), (status, running.told()))
    judge("and nothing is left", nothing_left(work) and not processes_of(out), printed)


def test_a_reader_that_stands_still_holds_up_no_second_signal(work: Path) -> None:
    """A reader that stands still keeps nobody: a second signal ends all."""
    out = pipe_at(work, "out.pipe")
    reads = os.open(out, os.O_RDONLY | os.O_NONBLOCK)
    running = begin(work, out, "--quiet")
    # More than the pipe holds.
    send_together(0, 20 * COUNT)
    time.sleep(0.5)
    os.kill(running.process.pid, signal.SIGTERM)
    time.sleep(2)
    judge("a first signal waits for the reader", running.process.poll() is None)
    begun = time.monotonic()
    os.kill(running.process.pid, signal.SIGTERM)
    status, printed = running.ended()
    judge("a second one doesn't", time.monotonic() - begun < 10 and status != 0, (status, running.told()))
    judge("and nothing is left", nothing_left(work) and not processes_of(out), printed)
    os.close(reads)
