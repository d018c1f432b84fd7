"""Time marks: when one is due, and by an adapter's clock its moment (capture/src/marks.c)."""

import random

import pytest
from c_units import Script
from support import MILLISECOND, SECOND

TICK = 100
# Marks come four times a span, but no closer than this; below this span the second rules.
LEAST_BETWEEN, SHORT = 5 * MILLISECOND, 20 * MILLISECOND
# How late a look may come, as by the milliseconds in which a wait is counted.
LATE = MILLISECOND


class Unit(Script):
    """A feed whose channel has a span."""

    PROGRAM = "marks"

    def begin(self, span: int) -> None:
        """With a span of so many nanoseconds."""
        self.wait(0)
        self.ask("span", span // TICK)

    def is_due(self, time: int = 0) -> bool:
        """After so long."""
        self.wait(time)
        return self.ask("due") == "1"

    def moments(self, time: int, rng: random.Random) -> list[int]:
        """When marks are due in so long, where it is looked at drawn times."""
        end, found = self.now + time, []
        while self.now < end:
            if self.is_due(rng.randrange(1, LATE)):
                found.append(self.now)
        return found


@pytest.mark.parametrize("span", [TICK, MILLISECOND, SHORT, 50 * MILLISECOND, 101 * MILLISECOND, SECOND // 2], ids=str)
def test_marks_come_four_times_a_span_and_never_within_5_ms(unit: Unit, span: int) -> None:
    unit.begin(span)
    found = unit.moments(max(10 * span, SECOND), random.Random(span))
    gaps = [end - begin for begin, end in zip(found, found[1:])]
    assert min(gaps) >= LEAST_BETWEEN and max(gaps) <= max(span // 4, LEAST_BETWEEN) + LATE
    # What comes late makes no later mark later.
    assert span <= SHORT or (found[-1] - found[0]) // (len(found) - 1) <= span // 4 + LATE // 10


def test_after_a_pause_one_mark_is_due_and_none_of_those_that_were_missed(unit: Unit) -> None:
    unit.begin(SECOND // 2)
    assert unit.is_due() and unit.is_due(10 * SECOND)
    assert [unit.is_due(it) for it in (0, 124 * MILLISECOND, MILLISECOND)] == [False, False, True]


def test_the_longest_span_has_no_mark_for_days_and_without_a_span_there_is_none(unit: Unit) -> None:
    for span, first in ((2**48 - 1, True), (0, False)):
        unit.begin(span * TICK)
        assert [unit.is_due(it) for it in (0, SECOND, 10**6 * SECOND)] == [first, False, False]


def test_an_adapters_clock_goes_on_from_the_last_frame_a_thousandth_slower(unit: Unit) -> None:
    """Whatever it says: a frame that is taken says what it said then at the latest."""
    unit.begin(SECOND)
    for stamp in (10**18, 5, 10**18 + 7):
        unit.ask("frame", stamp)
        for time in (0, 1, 999, 1_000, SECOND, 3_600 * SECOND):
            before = unit.now
            unit.wait(time)
            # The same frame again, which is no later one.
            unit.ask("frame", stamp)
            assert int(unit.ask("adapter")) == stamp + time - time // 1_000
            unit.wait(before - unit.now)
