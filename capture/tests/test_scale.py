"""In which time scale frames are, by how far their clock is ahead of the host's (capture/src/scale.c)."""

import json

import pytest
from c_units import Script
from support import SECOND

UTC, NOBODY_KNOWS = {"scale": "UTC"}, {"scale": None}


def tai(offset: int) -> dict:
    return {"scale": "TAI", "tai_offset": offset}


class Unit(Script):
    """The scales, by a kernel that was told nothing of TAI at first."""

    PROGRAM = "scale"

    def ahead(self, nanoseconds: int) -> dict:
        """The scale of a clock that is ahead by so much."""
        return json.loads(self.ask("ahead", nanoseconds))

    def run(self, *aheads: int) -> dict:
        """The scale of a run whose interfaces show clocks that are ahead by so many seconds, one after the other."""
        for seconds in aheads:
            self.ask("show", seconds * SECOND)
        return json.loads(self.ask("run"))


# In nanoseconds: within a second of the host's clock, or of TAI, and neither.
AHEAD = {0: UTC, SECOND - 1: UTC, 1 - SECOND: UTC, SECOND: NOBODY_KNOWS, -SECOND: NOBODY_KNOWS}
AHEAD |= {37 * SECOND: tai(37), 36 * SECOND + 1: tai(37), 38 * SECOND - 1: tai(37)}
AHEAD |= {it * SECOND: NOBODY_KNOWS for it in (36, 38, 20, -37, 3600, -(10**9), 10**9)}


@pytest.mark.parametrize("ahead", AHEAD, ids=str)
def test_a_clock_runs_utc_or_tai_where_it_is_less_than_a_second_off(unit: Unit, ahead: int) -> None:
    assert unit.ahead(ahead) == AHEAD[ahead]


def test_tai_is_as_far_ahead_as_the_kernel_was_told(unit: Unit) -> None:
    unit.ask("kernel", 38)
    assert [unit.ahead(it * SECOND) for it in (0, 37, 38)] == [UTC, NOBODY_KNOWS, tai(38)]
    unit.ask("kernel", 0)
    assert unit.ahead(37 * SECOND) == tai(37)


RUNS = {
    "before_any_frame": ((), NOBODY_KNOWS),
    "utc": ((0,), UTC),
    "tai": ((37,), tai(37)),
    "an_odd_clock": ((5,), NOBODY_KNOWS),
    "alike": ((37, 37, 37), tai(37)),
}


@pytest.mark.parametrize("name", RUNS)
def test_a_run_has_the_scale_of_its_frames(unit: Unit, name: str) -> None:
    shown, wanted = RUNS[name]
    assert unit.run(*shown) == wanted and unit.new_lines() == []


@pytest.mark.parametrize("shown", [(0, 37), (37, 0, 37), (37, 5), (37, 0, 0)], ids=str)
def test_where_interfaces_differ_no_scale_is_known_any_more_and_a_line_says_so_once(unit: Unit, shown: tuple) -> None:
    assert unit.run(*shown) == NOBODY_KNOWS
    line = "bpfrec capture: e0: its frames have another time scale than those before, so the facts have none"
    assert unit.new_lines() == [line]


def test_a_scale_that_comes_behind_one_that_nobody_knows_is_not_taken(unit: Unit) -> None:
    assert unit.run(5, 37) == NOBODY_KNOWS and unit.new_lines() == []
