"""Tries how lines are taken: one by one, within bounds, whatever they say, and how the terminal learns of them."""

import os
import time
from collections.abc import Callable, Iterator
from pathlib import Path
from types import SimpleNamespace
from typing import Any, Optional, cast

import pytest
from bpfrec_tools.live.control.changes import Changes, Pipe
from bpfrec_tools.live.control.lines import MOST_HELD, MOST_MADE, ControlLines, ControlPorts
from bpfrec_tools.live.control.made_filters import MadeFilter
from bpfrec_tools.live.control.words import HELP
from bpfrec_tools.live.operands import Route
from bpfrec_tools.live.status import Terminal
from support import judge, present


class Loop:
    """Calls nobody."""

    def on_read(self, _: int, __: Optional[Callable[[], None]]) -> None:
        """Nothing comes."""

    on_room = on_read

    def call_soon(self, _: Callable[[], None]) -> None:
        """The test takes turns on its own."""


class Lines:
    """Lines of a run whose recorder takes them all, and what came of each, in order."""

    def __init__(self, work: Path) -> None:
        self.said: list[str] = []
        self.delay = 0.0
        self.made: list[MadeFilter] = []
        self.recorder = SimpleNamespace(
            lines=Pipe(), recording=SimpleNamespace(has_failed=False, was_killed=False, is_used_up=False)
        )
        given = SimpleNamespace(socket=lambda: None, is_prefiltered=False, is_rotating=lambda: False)
        terminal = SimpleNamespace(is_of=lambda _: True, note_typed=lambda: self.said.append("typed"))
        mark: Callable[..., None] = lambda text, _: self.said.append(f"mark {text.decode()}")
        ports = ControlPorts(self.stop, self.stop, self.report, mark, self.said.append, cast(Terminal, terminal))
        channels = [SimpleNamespace(table={"id": it}) for it in (1, 2)]
        routes = [Route("eth0", 1), Route("eth1", 2)]
        settings = SimpleNamespace(channels=channels)
        folder = SimpleNamespace(top=work, routes=routes, names={2: "bus B"}, settings=settings)
        changes = Changes(cast(Any, folder), False, self.make)
        self.control = ControlLines(
            cast(Any, Loop()), cast(Any, given), changes, lambda: cast(Any, self.recorder), ports
        )
        reads, self.writer = os.pipe()
        self.control.input.descriptor = reads

    def stop(self) -> None:
        self.said.append("stop")

    def report(self) -> list[str]:
        time.sleep(self.delay)
        raise ZeroDivisionError("a fault of ours")

    def make(self, _: str, listing: Path) -> MadeFilter:
        self.made.append(MadeFilter(listing))
        return self.made[-1]

    def come(self, data: bytes) -> None:
        os.write(self.writer, data)
        self.control.read_input()

    def turn(self) -> None:
        """As many turns of the loop as they need, of which each takes lines for a moment."""
        for _ in range(20):
            self.control.read()

    def close(self) -> None:
        os.close(self.writer)
        os.close(present(self.control.input.descriptor))


@pytest.fixture
def lines(work: Path) -> Iterator[Lines]:
    made = Lines(work)
    yield made
    made.close()


def test_the_terminal_is_told_of_all_lines_that_it_shows_before_one_is_answered(lines: Lines) -> None:
    """So that the table is written where it stands."""
    lines.come(b"mark a\nmark b\nmar")
    lines.turn()
    judge("both were typed", lines.said == ["typed", "typed", "mark a", "mark b"], lines.said)
    lines.come(b"k c\n")
    lines.turn()
    judge("and one more", lines.said[4:] == ["typed", "mark c"], lines.said)


def test_a_fault_in_what_takes_a_line_is_said_and_ends_nothing(lines: Lines) -> None:
    lines.come(b"status\nmark a\n")
    lines.turn()
    judge("on", lines.said[2:] == ["bpfrec live: status: ZeroDivisionError: a fault of ours", "mark a"], lines.said)


def test_words_are_obeyed_while_nothing_is_recorded(lines: Lines) -> None:
    """Also behind a change of a filter, which the next recording has."""
    lines.recorder.recording.has_failed = True
    lines.come(b"set 1 arp\nhelp\nstop\n")
    lines.turn()
    judge("help and stop", lines.said[3:] == [*HELP.split("\n"), "stop"], lines.said)
    judge("the change waits", [it.line for it in lines.control.held] == [b"set 1 arp"])
    answers: list[tuple[str, bool]] = []
    lines.control.take_line(b"set 2 arp", lambda text, is_done: answers.append((text, is_done)))
    why = "bpfrec live: set 2 arp: nothing is recorded, and the next recording hasn't begun"
    judge("one by the socket is refused", answers == [(why, False)] and len(lines.control.held) == 1, answers)


REASONS = {
    "sett 2 arp": "no line sett, and help has all: did you mean set?",
    "xyzzy": "no line xyzzy, and help has all",
    "next x": "next stands alone",
    " stop it now": "stop stands alone",
    "set 2": "it needs a channel and a filter, as set 7 udp port 5004",
    "set": "it needs a channel and a filter, as set 7 udp port 5004",
    "set 9 arp": "no channel 9: 1, 2",
    "2 set arp": "no line 2, and help has all: did you mean set 2 arp?",
    "gear up mark": "no line gear, and help has all: did you mean mark gear up?",
    "set udp port 53 2": "no channel udp: 1, 2: the channel stands first, as set 2 udp port 53",
    "set eth9 arp": "no channel eth9: 1, 2",
    'set "bus A" arp': "no channel bus A: 1, 2",
}


@pytest.mark.parametrize("line", REASONS)
def test_a_line_that_is_refused_says_why(lines: Lines, line: str) -> None:
    lines.come(f"{line}\n".encode())
    lines.turn()
    judge("why", lines.said[1:] == [f"bpfrec live: {line}: {REASONS[line]}"], lines.said)
    judge("and the recorder isn't asked", not lines.recorder.lines.unanswered and not lines.made)


@pytest.mark.parametrize("name, channel", [("1", 1), ("eth1", 2), ('"bus B"', 2), ('"eth0"', 1)])
def test_a_channel_may_be_named(lines: Lines, name: str, channel: int) -> None:
    lines.come(f"set {name} udp port 5\n".encode())
    lines.turn()
    judge("its filter is made", [it.change.channel for it in lines.control.held] == [channel] and len(lines.made) == 1)


def test_all_lines_of_a_terminal_are_read_before_one_is_answered(lines: Lines) -> None:
    """It gives them one by one, though it has shown all."""
    keyboard, terminal = os.openpty()
    os.set_blocking(terminal, False)
    given, lines.control.input.descriptor = lines.control.input.descriptor, terminal
    os.write(keyboard, b"mark a\nmark b\nmark c\n")
    lines.control.read_input()
    judge("all are read", lines.said == ["typed"] * 3, lines.said)
    lines.turn()
    judge("and then answered", lines.said[3:] == ["mark a", "mark b", "mark c"], lines.said)
    lines.control.input.descriptor = given
    os.close(keyboard)
    os.close(terminal)


def test_a_turn_takes_lines_for_a_moment(lines: Lines) -> None:
    """Then all else comes, as signals."""
    lines.delay = 0.002
    lines.come(b"status\n" * 500)
    lines.control.read()
    judge("some are taken", 1 <= 500 - len(lines.control.input.buffer.lines) < 50, len(lines.said))


def test_few_filters_are_made_at_once_and_marks_do_not_wait_for_them(lines: Lines) -> None:
    lines.come(b"set 1 udp\n" * 100 + b"mark a\n")
    lines.turn()
    judge(f"{MOST_MADE} are made", len(lines.made) == MOST_MADE == len(lines.control.held), len(lines.made))
    judge("the mark is noted", lines.said[-1] == "mark a", lines.said)
    for made in lines.made[:2]:
        made.has_ended = True
    lines.turn()
    judge("as many more as were made", len(lines.made) == MOST_MADE + 2 and len(lines.control.held) == MOST_MADE)
    judge("it is within what may wait", MOST_MADE < MOST_HELD)


def test_a_filter_with_a_zero_byte_is_none_in_words(lines: Lines) -> None:
    lines.come(b"set 1 a\0b\n")
    lines.turn()
    judge("the recorder gets it, and refuses it", lines.made == [] and len(lines.recorder.lines.unanswered) == 1)
