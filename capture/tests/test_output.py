"""Waits for a pipe: for its reader to come, and to take what is in it (capture/src/output.c)."""

import fcntl
import os

import pytest
from c_units import Script
from support import pipe_at

PIPE_SIZE = 1031
# Between two looks for a reader, and at most for room, in milliseconds.
READER_PAUSE, FULL_PAUSE = 5, 10


class Unit(Script):
    """An output into a pipe."""

    PROGRAM = "output"

    def begin(self) -> None:
        self.wait(0)
        self.ask("path", pipe_at(self.work, "pipe"))

    def open(self, comes_after: int = 0) -> tuple[bool, int]:
        """Whether it is open, and after how many milliseconds; its reader comes after so many looks."""
        is_open, time = self.ask("open", comes_after).split()
        return is_open == "1", int(time)

    def fill(self, waits: int) -> int:
        """Writes more than the pipe takes, whose reader takes all after so many waits: for how long it was full."""
        return int(self.ask("write", self.room + 1, waits))

    def open_to_a_reader(self) -> None:
        self.begin()
        self.ask("reader")
        assert self.open() == (True, 0)
        pipe = os.open(self.work / "pipe", os.O_RDONLY | os.O_NONBLOCK)
        self.room = fcntl.fcntl(pipe, PIPE_SIZE, 1)
        os.close(pipe)


@pytest.mark.parametrize("looks, wanted", [(1, 5), (400, 2_000), (10_000, 50_000)])
def test_a_reader_is_waited_for(unit: Unit, looks: int, wanted: int) -> None:
    unit.begin()
    assert unit.open(looks) == (True, wanted)


@pytest.mark.parametrize(
    "looks, wanted", [(1, (True, 5)), (401, (True, 2_005)), (402, (False, 2_010)), (0, (False, 2_010))]
)
def test_a_run_that_is_to_end_waits_two_seconds_for_a_reader(unit: Unit, looks: int, wanted: tuple[bool, int]) -> None:
    """Who may be about to come."""
    unit.begin()
    unit.ask("stop")
    found = unit.open(looks)
    assert found == wanted
    assert unit.ask("fault").startswith("is open" if wanted[0] else "was left with frames unwritten")


@pytest.mark.parametrize("waits, wanted", [(1, 0), (9, 0), (10, 100), (11, 110), (1_000, 10_000)])
def test_a_full_pipe_is_one_that_waits_once_it_was_full_for_100_ms(unit: Unit, waits: int, wanted: int) -> None:
    unit.open_to_a_reader()
    assert unit.fill(waits) == wanted


def test_waits_count_together_until_all_is_written(unit: Unit) -> None:
    """A reader that takes all in between keeps up."""
    unit.open_to_a_reader()
    for _ in range(5):
        assert unit.fill(9) == 0
        unit.ask("written")
    assert unit.fill(9) == 0
    assert unit.fill(9) == 180
    unit.ask("written")
    assert unit.fill(9) == 180
