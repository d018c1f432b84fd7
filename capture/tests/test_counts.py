"""What an interface's frames came to: reports each second, losses, and the facts of both (capture/src/counts.c)."""

import json
import os
import re
from collections.abc import Iterator
from io import FileIO
from pathlib import Path
from typing import Any

import pytest
from c_units import Script
from support import MILLISECOND, SECOND

QUIET, BURST = 0, 1


class Unit(Script):
    """An interface whose rings lose what the test says."""

    PROGRAM = "counts"

    def begin(self, is_quiet: bool = False, has_events: bool = False) -> None:
        if has_events:
            assert self.ask("events", self.path) == "1"
        self.wait(0)
        self.ask("begin", int(is_quiet))

    def pass_by(self, milliseconds: int) -> list[str]:
        """What is told in time, at their end."""
        self.wait(milliseconds * MILLISECOND)
        self.ask("turn")
        return self.new_lines()

    def ring(self, kind: int, dropped: int, missed: int = 0) -> None:
        """What libpcap has counted of a ring since it was opened, modulo 2^32."""
        self.ask("ring", kind, dropped % 2**32, missed % 2**32)

    def feed(self, frames: int = 0, data: int = 0, skipped: int = 0, waited: int = 0) -> None:
        self.ask("feed", frames, data, skipped, waited)

    def line(self) -> str:
        """The line of the counts."""
        self.ask("last")
        (line,) = self.new_lines()
        return line

    def lost(self) -> list[int]:
        """The frames that were dropped and missed, as the line of the counts has them."""
        return [int(it) for it in re.findall(r"(?:dropped|missed) (\d+)", self.line())]

    def events(self) -> list[Any]:
        return objects_of(self.path.read_bytes())


def objects_of(data: bytes) -> list[Any]:
    """The objects of lines that are whole."""
    assert data.endswith(b"\n") or not data
    return [json.loads(it) for it in data.splitlines()]


@pytest.fixture
def pipe(unit: Unit) -> Iterator[FileIO]:
    """The reading end of a pipe that the unit has as the descriptor of its counts."""
    path = unit.work / "pipe"
    os.mkfifo(path)
    with open(os.open(path, os.O_RDONLY | os.O_NONBLOCK), "rb", buffering=0) as reads:
        unit.ask("descriptor", path)
        yield reads


def test_frames_that_either_ring_dropped_are_added_and_those_that_the_interface_missed_count_once(unit: Unit) -> None:
    """Also past the 32 bits in which libpcap counts."""
    unit.begin()
    for turn in range(6):
        dropped, missed = turn * (2**32 - 1), turn * (2**31 - 1)
        unit.ring(QUIET, dropped, missed)
        unit.ring(BURST, dropped // 2, missed)
        assert unit.lost() == unit.lost() == [dropped + dropped // 2, missed]


def test_losses_of_before_stay_where_the_count_of_an_interface_begins_anew_or_it_is_opened_again(unit: Unit) -> None:
    """libpcap finds the count by a name, which may be another interface's by then."""
    unit.begin()
    for missed, count in ((500, 500), (2, 500), (5, 503)):
        unit.ring(QUIET, 0, missed)
        assert unit.lost() == [0, count]
    for dropped, missed, found in ((10, 1, [10, 504]), (4, 2, [14, 506])):
        unit.ring(QUIET, dropped, missed)
        unit.ask("open")
        assert unit.lost() == found
        unit.ask("close")
        assert unit.lost() == found


def test_the_line_of_the_counts_has_each_of_them_and_waits_in_milliseconds(unit: Unit) -> None:
    unit.begin()
    unit.ring(QUIET, 3, 4)
    unit.feed(frames=2**40, data=2**50, skipped=5, waited=6 * MILLISECOND + 999_999)
    assert unit.line() == f"bpfrec capture: eth0 frames {2**40} bytes {2**50} dropped 3 missed 4 skipped 5 waited 6"


def test_a_line_comes_once_a_second_and_late_ones_are_not_made_up(unit: Unit) -> None:
    unit.begin()
    waits = (0, 999, 1, 0, 999, 1, 3_500, 0, 999, 1, 400, 600)
    assert [len(unit.pass_by(it)) for it in waits] == [0, 0, 1, 0, 0, 1, 1, 0, 0, 1, 0, 1]


LOST = {(0, 0, 0): "", (16_801, 0, 322): "16801 dropped 322 skipped", (0, 9, 0): "0 dropped 0 skipped 9 missed"}
LOST |= {(1, 0, 0): "1 dropped 0 skipped", (0, 0, 7): "0 dropped 7 skipped"}


@pytest.mark.parametrize("losses, lost", LOST.items())
@pytest.mark.parametrize("has_events", [False, True], ids=["line", "event"])
def test_at_the_end_a_line_or_event_says_what_was_lost(unit: Unit, losses: tuple, lost: str, has_events: bool) -> None:
    unit.begin(has_events=has_events)
    unit.ring(QUIET, *losses[:2])
    unit.feed(skipped=losses[2])
    unit.line()
    assert unit.ask("end") == str(int(bool(lost)))
    assert unit.new_lines() == ([f"bpfrec capture: eth0 LOST {lost}"] if lost and not has_events else [])
    events = [it for it in unit.events() if "lost_in_all" in it] if has_events else []
    numbers = dict(zip(("dropped", "missed", "skipped"), losses))
    assert events == ([{"lost_in_all": "eth0", **numbers}] if lost and has_events else [])


def test_each_second_and_at_the_end_the_counts_come_on_their_descriptor_also_quietly(unit: Unit, pipe: FileIO) -> None:
    unit.begin(is_quiet=True)
    unit.ring(QUIET, 0, 2)
    unit.ring(BURST, 3, 2)
    unit.feed(frames=5, data=300, skipped=1, waited=2 * MILLISECOND)
    assert [unit.pass_by(it) for it in (999, 1, 999, 1, 500)] == [[]] * 5
    unit.line()
    counts = {"frames": 5, "bytes": 300, "dropped": 3, "missed": 2, "skipped": 1, "waited": 2, "feed": 0}
    wanted = [{"counts": "eth0", "counter": it * 10**6, **counts} for it in (10, 20, 25)]
    assert objects_of(pipe.readall()) == wanted


def test_a_line_of_counts_is_the_object_that_is_noted_also_of_the_greatest_counts(unit: Unit, pipe: FileIO) -> None:
    unit.ask("name", '"' * 20)
    unit.begin(has_events=True)
    unit.feed(*[2**63 - 1] * 4)
    unit.ask("last")
    (line,) = objects_of(pipe.readall())
    assert [line] == [it for it in unit.events() if "counts" in it] and line["bytes"] == 2**63 - 1


def test_what_a_pipe_has_no_room_for_is_left_out_whole_and_not_waited_for(unit: Unit, pipe: FileIO) -> None:
    unit.begin(is_quiet=True)
    for _ in range(2_000):
        unit.pass_by(1_000)
    objects = objects_of(pipe.readall())
    assert 100 < len(objects) < 1_000
    assert [it["counter"] for it in objects] == [10**7 * (1 + it) for it in range(len(objects))]
    unit.pass_by(1_000)
    assert [it["counter"] for it in objects_of(pipe.readall())] == [10**7 * 2_001]


def test_a_reader_of_the_counts_who_leaves_ends_nothing(unit: Unit, pipe: FileIO) -> None:
    unit.begin()
    pipe.close()
    assert len(unit.pass_by(1_000)) == len(unit.pass_by(1_000)) == 1


def test_losses_are_noted_each_second_with_their_counters_and_quiet_tells_no_line_in_time(unit: Unit) -> None:
    unit.begin(is_quiet=True, has_events=True)
    assert unit.pass_by(1_000) == []
    unit.ring(QUIET, 3, 2)
    unit.feed(skipped=1)
    unit.pass_by(999)
    assert unit.events() == []
    unit.pass_by(1)
    unit.pass_by(1_000)
    loss = {"lost": "eth0", "from": 10_000_000, "to": 20_000_000, "dropped": 3, "missed": 2, "skipped": 1, "feed": 0}
    assert unit.events() == [loss]


def test_the_counts_are_noted_behind_what_was_lost_until_then(unit: Unit) -> None:
    unit.begin(has_events=True)
    unit.pass_by(500)
    unit.ring(BURST, 3)
    unit.feed(frames=5, data=300, skipped=1, waited=2 * MILLISECOND)
    unit.ask("note")
    losses = {"dropped": 3, "missed": 0, "skipped": 1, "feed": 0}
    count = {"counts": "eth0", "counter": 5_000_000, "frames": 5, "bytes": 300, "waited": 2}
    assert unit.events() == [{"lost": "eth0", "from": 0, "to": 5_000_000, **losses}, {**count, **losses}]


def test_losses_that_go_on_are_noted_half_as_often_after_each_thousand_and_none_is_left_out(unit: Unit) -> None:
    unit.begin(is_quiet=True, has_events=True)
    for second in range(1, 5_001):
        unit.ring(QUIET, second)
        unit.pass_by(1_000)
    unit.ask("note")
    losses = [it for it in unit.events() if "lost" in it]
    assert 2_500 < len(losses) < 2_505
    assert sum(it["dropped"] for it in losses) == 5_000
    assert [it["to"] for it in losses[:-1]] == [it["from"] for it in losses[1:]]
    seconds = [(it["to"] - it["from"]) // 10**7 for it in losses]
    assert (seconds[999], seconds[1_001], seconds[1_999], seconds[2_001]) == (1, 2, 2, 4)


def test_losses_that_never_end_are_noted_each_18_hours_at_last_and_none_is_left_out(unit: Unit) -> None:
    """After 16,000 notes, and never more seldom: the facts stay short, and have losses within a day."""
    unit.begin(is_quiet=True, has_events=True)
    longest = 2**16
    unit.ask("lose", 16_001, longest * SECOND)
    # A note that comes late is the first of a row.
    unit.ask("lose", 1, 2 * longest * SECOND)
    for count in (16_002, 40_002):
        assert len(unit.events()) == count
        unit.ask("lose", longest - 1, SECOND)
        assert len(unit.events()) == count
        unit.ask("lose", 1, SECOND)
        assert [it["dropped"] for it in unit.events()[count:]] == [longest]
        unit.ask("lose", 23_999, longest * SECOND)
    unit.ask("note")
    assert sum(it["dropped"] for it in unit.events() if "lost" in it) == 16_002 + 2 * (longest + 23_999)


@pytest.mark.parametrize("name", ['a"b\\c', "\x01\x7f", "\xfc\u4e2d", '"' * 15], ids=repr)
def test_an_event_is_json_of_any_name_of_an_interface_behind_what_the_file_has(unit: Unit, name: str) -> None:
    unit.path.write_text('{"counts": "before"}\n')
    unit.ask("name", name)
    unit.begin(has_events=True)
    unit.ask("note")
    assert [it["counts"] for it in unit.events()] == ["before", name]


def test_events_that_can_not_be_written_are_told_once(unit: Unit) -> None:
    unit.path, said = Path("/dev/full"), "events can't be written: the facts beside the recording lack losses"
    unit.begin(has_events=True)
    for _ in range(3):
        unit.ask("note")
    assert unit.new_lines() == [f"bpfrec capture: {said}"]


def test_why_an_interface_brings_no_frames_is_noted_once_with_its_counter(unit: Unit) -> None:
    unit.begin(has_events=True)
    unit.wait(MILLISECOND)
    assert [unit.ask("link", it) for it in (0, 1, 1, 2, 0, 0)] == ["0", "1", "0", "1", "1", "0"]
    found = [{"link": "eth0", "counter": 10_000, "away": it, "feed": 0} for it in ("down", "gone", None)]
    assert unit.events() == found, unit.events()
