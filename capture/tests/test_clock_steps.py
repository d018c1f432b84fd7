"""The wall clock that is set while frames are captured (capture/src/clock.c)."""

import pytest
from support import MILLISECOND, SECOND
from wall_clock import NOON, TICK, YEAR, Clocks, seconds

Unit = Clocks
# The last but two falls back to 1970, so that the origin lies before it.
STEPS = [-3600 * SECOND, 26 * YEAR, 2 * SECOND, -SECOND, -NOON - SECOND // 2, 600_000, -600_000]


@pytest.mark.parametrize("step", STEPS, ids=str)
def test_a_setting_moves_no_moment_and_is_told_once_with_the_origin_from_then_on(unit: Clocks, step: int) -> None:
    """By how much it was, and to the millisecond to which it is known."""
    unit.start()
    unit.wait(2 * MILLISECOND, step)
    for wait in (0, 2 * MILLISECOND, SECOND):
        unit.wait(wait)
        assert abs(unit.frame() - unit.real()) < MILLISECOND
    (line,) = unit.lines()
    sign = "+" if step > 0 else ""
    assert (line.origin, line.why) == (unit.origin + step, f"the clock was set by {sign}{seconds(step)} s")
    assert SECOND // TICK < line.counter <= unit.counter(unit.real() - SECOND)
    assert unit.lines() == unit.lines(is_end=True) == []


def test_a_setting_between_frames_is_told_from_the_last_look_on_that_did_not_see_it(unit: Clocks) -> None:
    """A tenth of a second later, since frames may have come after that look that still wait."""
    unit.start()
    unit.look()
    last = unit.counter(unit.real())
    unit.look(20 * MILLISECOND, -3600 * SECOND)
    assert unit.look(99 * MILLISECOND) == []
    (line,) = unit.look(MILLISECOND)
    assert last <= line.counter <= last + 20 * MILLISECOND // TICK


def test_a_setting_is_noted_as_soon_as_a_frame_shows_it(unit: Clocks) -> None:
    """A recording may end with that frame, ahead of the moment at which the setting is told; then it is noted again."""
    unit.start()
    unit.wait(SECOND, 2 * SECOND)
    counter = unit.counter(unit.frame())
    (early,) = unit.noted()
    assert unit.lines() == [] and early["setting"] == 1 and early["set_by"] == "2.000000000"
    assert counter - MILLISECOND // TICK <= early["counter"] <= counter
    unit.frame(unit.wall() - 10 * MILLISECOND, interface=1)
    assert unit.noted()[1]["counter"] == early["counter"] - 10 * MILLISECOND // TICK
    assert len(unit.look(SECOND)) == 1 and unit.noted()[2] == unit.noted()[1]


def test_a_setting_is_told_from_a_millisecond_before_the_first_frame_that_shows_it(unit: Clocks) -> None:
    """Another interface's frame may have come a little sooner, and still wait."""
    unit.start()
    unit.wait(10 * MILLISECOND)
    unit.frame(interface=0)
    unit.frame(interface=1)
    unit.look()
    unit.wait(5 * MILLISECOND, 2 * SECOND)
    unit.wait(MILLISECOND // 5)
    waiting, moment = unit.wall(), unit.real()
    unit.wait(MILLISECOND // 2)
    unit.frame(interface=0)
    shown = unit.counter(unit.real())
    (line,) = unit.look(200 * MILLISECOND)
    assert line.counter == shown - MILLISECOND // TICK <= unit.counter(moment)
    assert unit.frame(waiting, interface=1) == moment


def test_steps_of_half_a_millisecond_are_told_once_their_sum_is_more(unit: Clocks) -> None:
    unit.start()
    for step, told in ((500_000, 0), (1, 1), (-500_000, 0), (-1, 1)):
        assert unit.look(SECOND, step) == [], "which waits for frames"
        found = unit.lines(is_end=True)
        assert len(found) == told, step
    assert found[0].origin == unit.origin and found[0].why == "the clock was set by -0.000500001 s"


@pytest.mark.parametrize("slow", [0, 0b001, 0b011, 0b110, 0b101, 0b111, 0b111111], ids=bin)
def test_a_look_at_the_clocks_shows_no_setting_where_there_is_none_also_a_slow_one(unit: Clocks, slow: int) -> None:
    """Another program may run between the reads of both."""
    unit.start()
    for time in (0, 1, 99, MILLISECOND, SECOND, 3600 * SECOND):
        unit.wait(time)
        unit.look_slowly(slow)
        assert unit.lines(is_end=True) == [] and unit.frame() == unit.real()


@pytest.mark.parametrize("slow", [0b110110, 0b101101, 0b011011], ids=bin)
def test_the_quickest_of_three_looks_says_by_how_much_the_clock_was_set(unit: Clocks, slow: int) -> None:
    """It is looked at again once a setting shows."""
    unit.start()
    unit.wait(SECOND, 5 * SECOND)
    unit.look_slowly(slow)
    assert [it.why for it in unit.lines(is_end=True)] == ["the clock was set by +5.000000000 s"]


@pytest.mark.parametrize("step", STEPS[:4], ids=str)
def test_a_frame_that_waited_while_the_clock_was_set_has_its_moment_by_the_old_one(unit: Clocks, step: int) -> None:
    unit.start()
    unit.wait(100 * MILLISECOND)
    waiting, moment = unit.wall(), unit.real()
    unit.wait(100 * MILLISECOND, step)
    unit.wait(100 * MILLISECOND)
    later, moment_later = unit.wall(), unit.real()
    unit.look(300 * MILLISECOND)
    assert (unit.frame(waiting), unit.frame(later)) == (moment, moment_later)
    (line,) = unit.lines(is_end=True)
    assert unit.counter(moment) < line.counter <= unit.counter(moment_later)


def test_a_frame_that_waited_for_longer_than_the_clock_was_set_back_has_its_moment_too(unit: Clocks) -> None:
    """By either clock it could have come; the first of both moments is close to the frame before."""
    unit.start()
    unit.wait(2 * MILLISECOND)
    waiting, moment = unit.wall(), unit.real()
    unit.look(100 * MILLISECOND, -SECOND)
    unit.wait(3 * SECOND)
    assert unit.frame(waiting) == moment


@pytest.mark.parametrize("step", [3600 * SECOND, -3600 * SECOND], ids=str)
@pytest.mark.parametrize("count", [1, 4, 5, 17, 100, 1_022])
def test_a_frame_that_waited_while_the_clock_was_set_often_has_its_moment(unit: Clocks, count: int, step: int) -> None:
    """As frames do while a pipe is full; so have those that came between the settings."""
    unit.start()
    waiting = []
    for _ in range(count):
        unit.wait(10 * MILLISECOND)
        waiting.append((unit.wall(), unit.real()))
        unit.look(10 * MILLISECOND, step)
    assert [unit.frame(stamp) for stamp, _ in waiting] == [moment for _, moment in waiting]


def test_each_interface_goes_by_its_own_frames(unit: Clocks) -> None:
    """One has taken frames of after a setting, and the other still has one of before."""
    unit.start()
    before, moment = unit.wall(), unit.real()
    unit.wait(10 * MILLISECOND, -2 * SECOND)
    unit.wait(10 * MILLISECOND)
    assert unit.frame() == unit.real()
    assert unit.frame(before, interface=1) == moment


def test_counters_do_not_step_back_by_the_part_of_a_millisecond_to_which_a_setting_is_known(unit: Clocks) -> None:
    unit.start()
    unit.wait(0, -SECOND)
    unit.wait(2 * MILLISECOND)
    last = unit.frame()
    assert unit.frame(unit.wall() - MILLISECOND // 3) == last
    unit.wait(MILLISECOND)
    assert unit.frame() == unit.real()


def test_after_more_settings_than_are_kept_frames_have_their_moments_by_the_last_ones(unit: Clocks) -> None:
    unit.start()
    for number in range(2_100):
        unit.look(30 * MILLISECOND, SECOND if number % 2 else -SECOND)
        if number % 7 == 0:
            unit.wait(2 * MILLISECOND)
            assert unit.frame() == unit.real(), number
            unit.lines()
    assert unit.frame(interface=1) == unit.real()


@pytest.mark.parametrize("count", [0, 1], ids=["the_first", "a_later_one"])
@pytest.mark.parametrize("step", [-3600 * SECOND, -2 * SECOND, -SECOND], ids=str)
def test_a_frame_that_follows_none_closely_has_its_moment_by_the_new_clock(unit: Clocks, step: int, count: int) -> None:
    unit.start()
    for _ in range(count):
        unit.frame(interface=1)
    unit.wait(7200 * SECOND)
    unit.ask("none")
    unit.look(0, step)
    unit.wait(500 * MILLISECOND)
    assert unit.frame(interface=1) == unit.real()
