"""Tries parts of bpfrec live by themselves, without root: streams, lines, the loop, watches and programs."""

import contextlib
import fcntl
import json
import os
import signal
import sys
import time
from collections.abc import Callable
from pathlib import Path
from typing import cast

import pytest
from bpfrec_tools.live.control import changes
from bpfrec_tools.live.control.changes import Change, Pipe
from bpfrec_tools.live.model import Recording
from bpfrec_tools.live.parts import system
from bpfrec_tools.live.parts.children import HELD, Manner, start, status_of
from bpfrec_tools.live.parts.loop import Loop, Signals
from bpfrec_tools.live.parts.outputs import Outputs
from bpfrec_tools.live.parts.recorder import Recorder
from bpfrec_tools.live.parts.watches import Watches
from bpfrec_tools.live.reports import standard_streams
from bpfrec_tools.live.reports.console import Console
from bpfrec_tools.live.status import Terminal
from support import judge, judge_quietly, wait_for

# ---- streams


def pipe_that_is_full() -> tuple[int, int]:
    reads, writes = os.pipe()
    fcntl.fcntl(writes, 1031, 4_096)
    os.set_blocking(writes, False)
    with contextlib.suppress(BlockingIOError):
        while True:
            os.write(writes, b"x")
    os.set_blocking(writes, True)
    return reads, writes


def test_lines_without_room_are_counted_and_the_next_one_says_so() -> None:
    reads, writes = pipe_that_is_full()
    lines = standard_streams.Lines(writes)
    begun = time.monotonic()
    for at in range(20):
        lines.put(f"line {at}")
    judge("nobody waits for long", time.monotonic() - begun < 1 and lines.left_out == 20)
    os.read(reads, 4_096)
    fcntl.fcntl(writes, 1031, 1 << 16)
    lines.put("after")
    told = os.read(reads, 4_096).decode()
    holds = told == "bpfrec live: 20 lines were left out: standard error had no room\nafter\n"
    judge("the lines are counted", holds, told)
    os.close(reads)
    lines.put("to nobody")
    judge("a stream that is gone holds nothing up", lines.left_out == 0)
    os.close(writes)


def test_what_has_no_room_waits_and_a_broken_stream_fails() -> None:
    reads, writes = pipe_that_is_full()
    printed = standard_streams.Printed(writes)
    printed.put("a" * 10_000)
    judge("it waits", len(printed.waiting) == 10_000 and not printed.has_failed)
    got = b""
    while len(got) < 14_096:
        got += os.read(reads, 4_096)
        printed.write()
    judge("it all comes", got.endswith(b"a" * 10_000) and not printed.waiting)
    os.close(reads)
    printed.put("b")
    judge("a stream that broke has failed", printed.has_failed and not printed.waiting)
    printed.put("c")
    judge("and takes no more", not printed.waiting)
    with open("/dev/full", "wb") as full:
        device = standard_streams.Printed(full.fileno())
        device.put("d")
        judge("a full device too", device.has_failed)
    holds = standard_streams.another(os.open("/dev/null", 0), os.O_WRONLY) is None
    judge("a stream that is only read isn't reopened to be written", holds)


def test_a_descriptor_that_is_closed_and_given_anew_is_not_mixed_up(signals: Signals) -> None:
    """A descriptor that a call before has closed, and that another one has by now, isn't mixed up with it."""
    loop, called = Loop(signals, lambda: None), []
    (first, into), (second, other) = os.pipe(), os.pipe()

    def close_second() -> None:
        called.append("first")
        loop.on_read(first, None)
        loop.on_read(second, None)
        loop.on_read(second, lambda: called.append("new"))

    loop.on_read(first, close_second)
    loop.on_read(second, lambda: called.append("old"))
    os.write(into, b"x")
    os.write(other, b"x")
    loop.turn(1)
    judge("what was unregistered isn't called", "old" not in called and called[0] == "first", called)
    loop.turn(1)
    judge("and what took its place is", called[-1] == "new")


def test_without_process_descriptors_sigchld_tells_of_an_end(signals: Signals, monkeypatch: pytest.MonkeyPatch) -> None:
    monkeypatch.delattr(os, "pidfd_open")
    loop = Loop(signals, lambda: None)
    ended: list[int] = []
    child = start([sys.executable, "-c", "raise SystemExit(7)"], (0, None, None), Manner())
    judge_quietly("it has none", child.descriptor is None)
    loop.follow(child, ended.append)
    wait_for("it is told", lambda: after(lambda: loop.turn(0.1), ended), 10)
    judge("the status", ended == [7])


def test_standard_output_that_stands_still_is_waited_for_until_given_up(signals: Signals) -> None:
    reads, writes = pipe_that_is_full()
    failed: list[int] = []
    loop = Loop(signals, lambda: None)
    console = Console(loop, lambda: failed.append(1), Terminal(is_quiet=True))
    console.printed, console.lines = standard_streams.Printed(writes), standard_streams.Lines(
        os.open(os.devnull, os.O_WRONLY)
    )
    console.out("a" * 5_000)
    loop.call_soon(lambda: None)
    turns = iter([False, False, True])
    loop.call_soon(lambda: None)
    console.finish(lambda: next(turns) or bool(loop.calls))
    judge("what wasn't taken is said once", failed == [1] and not console.printed.waiting)
    os.close(reads)


# ---- lines that change filters


def test_lines_come_whole_and_long_ones_in_parts(monkeypatch: pytest.MonkeyPatch) -> None:
    reads, writes = os.pipe()
    found = changes.Input()
    found.descriptor = reads

    def lines() -> list[bytes]:
        found.read()
        came = list(found.buffer.lines)
        found.buffer.lines.clear()
        return came

    os.write(writes, b"set 1 a\nset 2")
    judge("whole lines come", lines() == [b"set 1 a"] and found.buffer.rest == b"set 2")
    os.write(writes, b" b")
    judge("the rest waits", lines() == [])
    monkeypatch.setattr(changes, "MAX_LINE_LEN", 10)
    os.write(writes, b"x" * 20)
    judge("a long line comes in parts", lines() == [b"set 2 b" + b"x" * 20] and found.buffer.rest == b"")
    os.write(writes, b"last")
    judge_quietly("one more", lines() == [])
    os.close(writes)
    judge("the last one comes at the end", lines() == [b"last"] and found.descriptor is None)
    judge("and then none", lines() == [] and found.descriptor is None)
    found.descriptor = os.open(os.devnull, os.O_WRONLY)
    judge("what can't be read has ended", lines() == [] and found.descriptor is None)


def test_a_recorder_that_reads_no_more_lines_answers_none() -> None:
    pipe = Pipe()
    for _ in range(5_000):
        pipe.put(b"set 1 " + b"x" * 100, Change(1, None))
    pipe.write()
    judge("what has no room waits", 0 < len(pipe.waiting) < 5_000 * 107 and len(pipe.unanswered) == 5_000)
    os.close(pipe.reader)
    pipe.write()
    judge("one that is gone takes none", not pipe.waiting and not pipe.unanswered)
    pipe.close()
    pipe.close()
    pipe.put(b"more", Change(1, None))
    judge("and after its end nothing", not pipe.waiting)


# ---- the kernel


def after(done: Callable[[], None], found: list[int]) -> list[int]:
    """What is found once something is done."""
    done()
    return found


def test_without_ctypes_live_does_without_what_it_is_for(monkeypatch: pytest.MonkeyPatch) -> None:
    monkeypatch.setattr(system, "LIBC", None)
    system.give_capabilities_up()
    with system.capabilities_of_children(False):
        judge("no capabilities are known", system.ambient_capabilities() == [])
    judge("no watches, no state of the clock", system.adjust(bytearray(208)) == -1 and Watches().descriptor is None)


def test_a_program_finds_a_session_of_its_own_and_signals_that_cut_nothing(work: Path) -> None:
    """What a program finds: its session, blocked and ignored signals; and how its end is told."""
    script = (
        "import os, signal, json; print(json.dumps([os.getsid(0) == os.getpid(), "
        "sorted(signal.pthread_sigmask(signal.SIG_BLOCK, []))]))"
    )
    before = signal.pthread_sigmask(signal.SIG_BLOCK, [])
    with open(work / "told", "wb") as into:
        child = start([sys.executable, "-c", script], (0, into, None), Manner())
    wait_for("it ends", lambda: child.status() is not None, 10)
    own, blocked = json.loads((work / "told").read_text())
    judge("a session of its own, and its signals", (own, blocked) == (True, sorted(HELD)), blocked)
    judge("those of live are as they were", signal.pthread_sigmask(signal.SIG_BLOCK, []) == before)
    child.close()
    child.close()
    with pytest.raises(FileNotFoundError):
        start([str(work / "none")], (0, None, None), Manner())
    judge("also where none was started", signal.pthread_sigmask(signal.SIG_BLOCK, []) == before)
    judge("statuses as shells have them", (status_of(3), status_of(-9)) == (3, 137))


def test_a_program_ends_with_the_writers_of_its_pipe(work: Path) -> None:
    """It is killed once the last writer has gone, unless that was taken back."""
    for is_taken_back in (False, True):
        reader, writer = os.pipe()
        child = start(["sleep", "2"], (0, None, None), Manner(ends_with=reader))
        if is_taken_back:
            system.stay_at_hangup(reader)
        judge_quietly("it goes on", child.status() is None)
        os.close(writer)
        wait_for("it ends", lambda: child.status() is not None, 10)
        judge(f"by the kernel, or later: {is_taken_back}", child.status() == (0 if is_taken_back else 137))
        child.close()
        os.close(reader)


# ---- watches of OUT


class Opening:
    """A recording whose recorder is seen to have OUT open at the third look alone."""

    def __init__(self, path: Path) -> None:
        self.recording, self.descriptor = Recording(1, str(path)), os.open(path, os.O_RDWR | os.O_CREAT)
        self.is_created, self.watch, self.looks = True, None, 0

    def is_opened(self) -> bool:
        self.looks += 1
        return self.looks >= 3


def test_an_open_that_is_told_early_is_looked_for_again(work: Path) -> None:
    """The kernel tells of an open before it is seen: it is looked for again, and not for ever."""
    opened: list[object] = []
    watched = Outputs(Watches(), False, opened.append, print)
    opening = Opening(work / "out")
    recorded = cast(Recorder, opening)
    watched.look(recorded)
    judge("not at once", opened == [] and watched.deadline() is not None)
    for _ in range(5):
        watched.tick(time.monotonic() + 1)
    judge("but soon, and once", opened == [opening] and opening.looks == 3 and watched.deadline() is None)
    never = Opening(work / "never")
    never.looks = -(10**6)
    watched.look(cast(Recorder, never))
    for _ in range(200):
        watched.tick(time.monotonic() + 1)
    judge("one that another program opened is given up", opened == [opening] and watched.deadline() is None)
    watched.look(cast(Recorder, never))
    watched.end(cast(Recorder, never))
    judge("and ends with its recording", watched.deadline() is None)
