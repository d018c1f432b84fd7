"""Tries that live calls its parts: its publishers, which end with the run, and the pipe of its lines."""

import signal
import socket
import time
from collections.abc import Callable
from pathlib import Path
from typing import Any, cast

import pytest
from bpfrec_tools.live.control import sockets
from bpfrec_tools.live.control.changes import Change, Pipe
from bpfrec_tools.live.reports.publishers import Publishers
from bpfrec_tools.live.targets import target_of
from support import judge


class NoLoop:
    """A loop that follows nothing, and whose turns do what the next call of a list does."""

    def __init__(self, *turns: Callable[[], object]) -> None:
        self.turns = list(turns)

    def turn(self, _: object) -> None:
        self.turns.pop(0)()


def publishers(loop: NoLoop, lines: list[str], count: int = 2) -> Publishers:
    """Those of a run, each with a program that was begun long ago and notes the signals that it gets."""
    targets = [target_of(f"192.0.2.1:{5 + it}") for it in range(count)]
    made = Publishers(targets, cast(Any, loop), cast(Any, None), lines.append, lambda *_: None)
    for publisher in made.all:
        publisher.out, publisher.child = "x.ch11", cast(Any, Child())
    return made


class Child:
    """A program that notes its signals."""

    def __init__(self) -> None:
        self.signals: list[int] = []

    def send(self, number: int) -> None:
        self.signals.append(number)


@pytest.mark.parametrize("status, how", [(3, "ended with status 3"), (128 + 9, "ended by signal 9")])
def test_a_publisher_that_ends_by_itself_is_said_and_begun_again(status: int, how: str) -> None:
    """And not once the run has ended, when only what wasn't sent is said."""
    lines: list[str] = []
    one, other = publishers(NoLoop(), lines).all
    one.ended(status)
    judge("it is said", lines == [f"bpfrec live: publish 192.0.2.1:5: {how}, and begins again in 2 s"], lines)
    judge("and is due", one.due is not None and one.child is None)
    other.end_soon()
    other.ended(status)
    said = [f"bpfrec live: publish 192.0.2.1:6: {how}: the rest isn't sent"] * (status > 128)
    judge("the run has ended", (lines[1:], other.due) == (said, None), lines)


def test_at_the_end_of_a_run_publishers_are_told_and_those_that_stay_are_killed() -> None:
    """One ends in time, and the other doesn't within its two seconds."""
    lines: list[str] = []
    now = time.monotonic()
    loop = NoLoop(lambda: made.all[0].ended(0), lambda: time.sleep(max(0, now + 2.1 - time.monotonic())))
    loop.turns.append(lambda: made.all[1].ended(128 + 9))
    made = publishers(loop, lines)
    one, other = (cast(Child, cast(Any, it.child)) for it in made.all)
    made.finish(lambda: False)
    judge("the first", one.signals == [signal.SIGTERM], one.signals)
    judge("the other", other.signals == [signal.SIGTERM, signal.SIGKILL], other.signals)
    judge("is said", lines == ["bpfrec live: publish 192.0.2.1:6: ended by signal 9: the rest isn't sent"], lines)


# ---- lines of live


def test_a_pipe_of_lines_that_is_closed_ends_for_its_reader() -> None:
    """With all that was written, and none of what waits; once, however often it is closed."""
    pipe = Pipe()
    pipe.put(b"set 1 all", Change(1, None))
    pipe.write()
    pipe.put(b"set 2 all", Change(2, None))
    pipe.close()
    pipe.close()
    with open(pipe.reader, "rb") as lines:
        judge("and its reader sees its end", lines.read() == b"set 1 all\n")


class Watched:
    """A loop that notes which descriptors are read."""

    def __init__(self) -> None:
        self.read: set[int] = set()

    def on_read(self, descriptor: int, call: object) -> None:
        (self.read.add if call else self.read.discard)(descriptor)

    def on_room(self, descriptor: int, call: object) -> None:
        pass


def test_a_last_line_without_a_line_feed_is_taken_and_its_client_is_read_no_more(work: Path) -> None:
    lines: list[bytes] = []
    loop = Watched()

    def take(line: bytes, answer: Callable[[str, bool], None]) -> None:
        lines.append(line)
        answer("", True)

    made = sockets.ControlSocket(str(work / "c"), cast(Any, loop), lambda: True, cast(Any, take))
    with socket.socket(socket.AF_UNIX) as client:
        client.connect(str(work / "c"))
        made.accept()
        made.read()
        descriptor = made.clients[0].connection.fileno()
        judge("both are read", loop.read == {made.listener.fileno(), descriptor}, loop.read)
        client.sendall(b"mark one\nmark two")
        client.shutdown(socket.SHUT_WR)
        while not made.clients[0].has_ended:
            made.read_from(made.clients[0])
        while made.take_next():
            pass
        judge("both lines", lines == [b"mark one", b"mark two"], lines)
        judge("it has left", made.clients == [] and loop.read == {made.listener.fileno()}, loop.read)
        with client.makefile("rb") as answers:
            judge("with both answers", answers.read() == b"done\n\n" * 2)
    made.close()
    judge("and nobody listens", loop.read == set() and not (work / "c").exists(), loop.read)
