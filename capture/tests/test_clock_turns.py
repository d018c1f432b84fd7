"""Counters that begin at 0 again while frames are captured, and the origins that are noted (capture/src/clock.c)."""

import random
from typing import Any

import pytest
from support import MILLISECOND, SECOND
from wall_clock import TICK, TURN, YEAR, Clocks, Line, seconds

Unit = Clocks


def test_counters_that_begin_at_0_again_are_told_with_the_origin_from_then_on(unit: Clocks) -> None:
    unit.start(before=TURN - 3 * SECOND)
    unit.wait(2 * SECOND - TICK)
    assert unit.lines() == [] and int(unit.ask("counter")) == 2**48 - 1
    unit.wait(TICK)
    assert int(unit.ask("counter")) == 0
    assert unit.lines() == [Line(unit.origin + TURN, 0, "counters have begun at 0 again")]
    assert unit.lines(is_end=True) == []


def test_a_setting_before_counters_begin_at_0_again_holds_after_it_too(unit: Clocks) -> None:
    unit.start(before=TURN - 3 * SECOND)
    unit.look(0, 5 * SECOND)
    for wait, found in ((SECOND, unit.origin + 5 * SECOND), (SECOND, unit.origin + TURN + 5 * SECOND)):
        unit.wait(wait)
        assert [it.origin for it in unit.lines()] == [found]


def test_an_event_has_the_origin_the_counter_and_by_how_much_the_clock_was_set(unit: Clocks) -> None:
    unit.start()
    (line,) = unit.look(SECOND, -2 * SECOND, is_end=True)
    event: dict[str, Any] = {"origin": seconds(line.origin), "counter": line.counter, "set_by": "-2.000000000"}
    assert unit.noted() == [{**event, "setting": 1, "scale": None}]


def test_each_origin_has_the_scale_that_is_known_by_then(unit: Clocks) -> None:
    """The first, that of a setting and the one that counters begin at 0 again with."""
    unit.start(before=TURN - 3 * SECOND)
    unit.ask("utc")
    unit.ask("origin")
    unit.look(10 * MILLISECOND, 5 * SECOND, is_end=True)
    unit.look(2 * SECOND)
    first, setting, *turned = unit.noted()
    assert first == {"origin": seconds(unit.origin), "counter": 0, "scale": "UTC"}
    assert (setting["set_by"], setting["scale"]) == ("5.000000000", "UTC")
    assert len(turned) > 1 and {it["scale"] for it in turned} == {"UTC"}


def test_an_origin_is_noted_again_once_frames_have_shown_their_scale(unit: Clocks) -> None:
    """From its counter on, once."""
    unit.start()
    unit.ask("origin")
    unit.ask("tai", 37)
    for _ in range(3):
        unit.look(SECOND)
    at_0: dict[str, Any] = {"origin": seconds(unit.origin), "counter": 0}
    assert unit.noted() == [{**at_0, "scale": None}, {**at_0, "scale": "TAI", "tai_offset": 37}]
    unit.ask("utc")
    unit.look(SECOND)
    assert unit.noted()[2:] == [{**at_0, "scale": None}]


def test_a_scale_that_shows_after_counters_began_at_0_again_is_of_those_before_too(unit: Clocks) -> None:
    unit.start(before=TURN - 2 * SECOND)
    unit.ask("origin")
    unit.look(2 * SECOND)
    before = unit.noted()[1:]
    unit.ask("tai", 38)
    unit.look(SECOND)
    assert unit.noted()[len(before) + 1 :] == [{**it, "scale": "TAI", "tai_offset": 38} for it in before]


def test_origins_of_a_clock_that_runs_tai_stay_so_when_counters_begin_at_0_again(unit: Clocks) -> None:
    unit.start(before=TURN - 3 * SECOND)
    unit.ask("tai", 37)
    unit.ask("origin")
    unit.look(3 * SECOND)
    found = unit.noted()
    assert len(found) == 3 and all((it["scale"], it["tai_offset"]) == ("TAI", 37) for it in found)


def test_a_setting_just_before_counters_begin_at_0_again_is_noted_for_both_sides(unit: Clocks) -> None:
    unit.start(before=TURN - 3 * SECOND)
    taken, told = [], []
    steps = [(2 * SECOND - 50 * MILLISECOND, 0), (10 * MILLISECOND, 5 * SECOND), *[(20 * MILLISECOND, 0)] * 20]
    for wait, step in steps:
        unit.wait(wait, step)
        taken.append((unit.counter(unit.frame()), unit.wall()))
        told += unit.look()
    assert [it.origin for it in told] == [unit.origin + TURN, unit.origin + 5 * SECOND]
    unit.judge_times(taken)


def take_all(unit: Clocks, waiting: list[tuple[int, int]]) -> list[tuple[int, int]]:
    """Takes the frames that wait, as stamps and moments: the counter and the stamp of each."""
    taken = []
    for stamp, real in waiting:
        moment = unit.frame(stamp)
        assert abs(moment - real) <= MILLISECOND, moment - real
        taken.append((unit.counter(moment), stamp))
    waiting.clear()
    return taken


def run_drawn(unit: Clocks, draw: random.Random) -> list[tuple[int, int]]:
    """Frames come, wait and are taken by lot, and the clock is set; it is looked at every 20 ms."""
    taken: list[tuple[int, int]] = []
    waiting = [(unit.wall(), unit.real())]
    for _ in range(100):
        unit.wait(draw.choice([50_000, 2 * MILLISECOND, 20 * MILLISECOND]))
        what = draw.random()
        if what < 0.6:
            waiting.append((unit.wall(), unit.real()))
        elif what < 0.65:
            unit.wait(0, draw.choice([-1, 1]) * draw.choice([10 * SECOND, 3600 * SECOND, YEAR]))
        if what > 0.8 or len(waiting) > 20:
            taken += take_all(unit, waiting)
        unit.look(TICK)
    return taken


@pytest.mark.parametrize("seed", range(40))
def test_in_drawn_runs_each_frame_has_its_moment_and_by_what_is_noted_its_time(unit: Clocks, seed: int) -> None:
    """Half of them over the end of the counters."""
    unit.start(before=TURN - 2 * SECOND if seed % 2 else 0)
    taken = run_drawn(unit, random.Random(seed))
    unit.look(SECOND, is_end=True)
    unit.judge_times(taken)


@pytest.mark.parametrize("seed", range(20))
def test_over_several_turns_of_the_counter_frames_of_the_last_half_have_their_times(unit: Clocks, seed: int) -> None:
    draw, taken = random.Random(seed), []
    unit.start(before=draw.choice([0, TURN // 2, TURN // 2 - SECOND, TURN - SECOND]))
    for _ in range(61):
        # So that all settings of before are told, and then moments or weeks.
        for wait in (110 * MILLISECOND, draw.choice([TURN // 7, 10 * SECOND, 15 * MILLISECOND])):
            unit.look(wait)
        for step in (0, draw.choice([0, 1, -1]) * draw.choice([10 * SECOND, 3600 * SECOND])):
            unit.wait(0, step)
            unit.wait(5 * MILLISECOND)
            taken.append((unit.real(), unit.counter(unit.frame()), unit.wall()))
    unit.look(110 * MILLISECOND)
    unit.judge_times([(counter, stamp) for real, counter, stamp in taken if unit.real() - real < TURN // 2])
