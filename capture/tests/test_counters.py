"""Origins of counters, and the counters of moments (capture/src/moment.c)."""

import random
from datetime import datetime, timezone

import pytest
from c_units import Script
from support import SECOND
from wall_clock import NOON, TICK, TURN

HALF = 2**64


class Unit(Script):
    PROGRAM = "counters"


def halves(moment: int) -> str:
    upper, lower = divmod(moment % HALF**2, HALF)
    return f"{upper} {lower}"


def joined(answer: str) -> int:
    upper, lower = map(int, answer.split())
    return upper * HALF + lower - (HALF**2 if upper >= HALF // 2 else 0)


def test_a_moment_has_the_counter_at_which_its_tick_of_100_ns_begins_also_before_the_origin(unit: Unit) -> None:
    """Of all moments that a capture file can name, however many turns lie between."""
    draw = random.Random(1)
    drawn = [draw.randrange(-(2 ** draw.randrange(1, 94)), 2 ** draw.randrange(1, 94)) for _ in range(300)]
    ends = [2**63 - 1, 2**63, -(2**63), 2**64 * SECOND, -(2**63) * SECOND, (2**64 + 2**63 - 2) * SECOND]
    ends += [0, 99, 100, 101, 199, TURN - 1, TURN, -1, -99, -100, -101, -TURN, -TURN - 1]
    for origin in (0, NOON, 37, -NOON, 9_999_999_999_999_999_999, *drawn[:4]):
        for since in [*ends, *drawn, *(it - origin for it in ends)]:
            found = unit.ask("counter", halves(origin + since), halves(origin))
            assert int(found) == since // TICK % 2**48, (origin, since)


@pytest.mark.parametrize("origin", [0, 1, NOON - 1, NOON, NOON - TURN, NOON - TURN + 1, NOON - TURN - 1, NOON % TURN])
def test_an_origin_of_long_ago_gets_the_turns_since_then_and_keeps_its_counters(unit: Unit, origin: int) -> None:
    later = joined(unit.ask("turns", halves(origin), halves(NOON)))
    assert NOON - TURN < later <= NOON and (later - origin) % TURN == 0


def test_an_origin_of_now_is_the_tick_that_has_begun(unit: Unit) -> None:
    for rest in (0, 1, 99, 100, SECOND - 1):
        unit.ask("time", 0, NOON + rest)
        assert joined(unit.ask("origin", "now")) == NOON + rest - rest % TICK


RIGHT = {
    "0": 0,
    "0.000000001": 1,
    "1764590400.25": NOON + SECOND // 4,
    "0000000001": SECOND,
    "9999999999.999999999": 10**19 - 1,
    "1970-01-01T00:00:00Z": 0,
    "2025-12-01T12:00:00.25Z": NOON + SECOND // 4,
    "2024-02-29T23:59:59.999999999Z": 1_709_251_200 * SECOND - 1,
    "2000-02-29T00:00:00Z": 951_782_400 * SECOND,
    "9999-12-31T23:59:59Z": 253_402_300_799 * SECOND,
}
NO_SECONDS = """0001764590400 10000000000 1.0000000000 1. .5 -1 +1 1e3 0x1 1,5 1.5s 1.-5 NOW Zero zer firsts"""
NO_DATES = """
1969-12-31T23:59:59Z 2025-02-29T00:00:00Z 2100-02-29T00:00:00Z 2025-04-31T00:00:00Z 2025-13-01T00:00:00Z
2025-00-01T00:00:00Z 2025-01-00T00:00:00Z 2025-01-32T00:00:00Z 2025-01-01T24:00:00Z 2025-01-01T23:60:00Z
2025-01-01T23:59:60Z 2025-01-01T23:59:59 2025-01-01T23:59:59z 2025-01-01T23:59:59+00:00 2025-01-01T23:59:59.Z
2025-01-01T23:59:59.1234567890Z 2025-01-01t23:59:59Z 2025-1-1T23:59:59Z 25-01-01T23:59:59Z 12025-01-01T23:59:59Z
2025-01-01T23:59Z 2025-01-01 2025-01-01T23:59:59ZZ"""


def test_an_origin_is_of_1_to_10_digits_and_1_to_9_behind_a_point_or_a_date_since_1970_in_utc(unit: Unit) -> None:
    draw, given = random.Random(2), dict(RIGHT)
    for second in (draw.randrange(253_402_300_800) for _ in range(300)):
        given[datetime.fromtimestamp(second, timezone.utc).strftime("%Y-%m-%dT%H:%M:%SZ")] = second * SECOND
    for word, moment in given.items():
        assert joined(unit.ask("origin", word)) == moment, word


@pytest.mark.parametrize("word", [*NO_SECONDS.split(), *NO_DATES.split()])
def test_what_is_no_time_nor_a_date_of_the_calendar_is_refused(unit: Unit, word: str) -> None:
    assert unit.ask("origin", word) == "refused"
