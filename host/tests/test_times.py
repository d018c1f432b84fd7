"""Tries times of the command line: of a day and with their date, and on which day one is that has none."""

import argparse
import time
from datetime import datetime, timezone
from types import SimpleNamespace
from typing import cast

import pytest
from bpfrec.core.index import Index
from bpfrec.core.recordings import Recording
from bpfrec.core.times import Time, Times
from bpfrec.formats.facts import Facts, utc_of
from bpfrec_tools.cli.moments import first_from, last_to, moment_of, time_of_day
from bpfrec_tools.cli.streams import Refused
from bpfrec_tools.export.times import Asked, beginning_of, dated, time_of
from bpfrec_tools.live.arguments import read
from bpfrec_tools.receive import command as receive
from bpfrec_tools.tell import command as tell
from expected_facts import UNKNOWN_SCALE, facts_of_run
from support import SECOND, judge, judge_quietly, judge_same

NO_TIMES = ("24:00:00", "23:60:00", "23:59:60", "3:00:00", "23:36", "23:36:10.", "23:36:10.1234567890", "23:36:10Z", "")
NOON = "1764590400.250000000"  # 2025-12-01T12:00:00.25Z


def utc(text: str) -> int:
    """The moment of a text as 2025-12-01 12:00:00."""
    return int(datetime.fromisoformat(text).replace(tzinfo=timezone.utc).timestamp()) * SECOND


def test_a_time_of_day_is_hours_minutes_and_seconds() -> None:
    table = {
        "00:00:00": 0,
        "23:36:10": 84_970 * SECOND,
        "23:59:59.999999999": 86_400 * SECOND - 1,
        "01:00:00.5": 36_005 * SECOND // 10,
    }
    judge_same("each is as many nanoseconds", {word: time_of_day(word) for word in table}, table)
    judge("and nothing else is one", not any(time_of_day(word) is not None for word in NO_TIMES))


def test_a_time_has_its_moment_on_either_side_of_another() -> None:
    now = utc("2025-12-01 12:00:00")
    for time_text, first, last in [
        ("12:00:00", "2025-12-01 12:00:00", "2025-12-01 12:00:00"),
        ("12:00:01", "2025-12-01 12:00:01", "2025-11-30 12:00:01"),
        ("11:59:59", "2025-12-02 11:59:59", "2025-12-01 11:59:59"),
        ("00:00:00", "2025-12-02 00:00:00", "2025-12-01 00:00:00"),
    ]:
        of_day = time_of_day(time_text) or 0
        judge_quietly(time_text, (first_from(of_day, now), last_to(of_day, now)) == (utc(first), utc(last)))


def recording(facts: Facts | None) -> Recording:
    """A recording with these facts, of which nothing else is known."""
    return Recording(cast(Index, SimpleNamespace(path="x.ch11")), Times(facts))


def times(begun: object = "2025-12-01T12:00:00Z", origins: list | None = None) -> Recording:
    """A recording that began then."""
    return recording(Facts({**facts_of_run(origins or [(NOON, 0, None)]), "begun": begun}))


@pytest.mark.parametrize(
    "since, until, wanted",
    [
        ("12:00:00", None, ("2025-12-01 12:00:00", None)),
        ("23:36:10", "00:10:00", ("2025-12-01 23:36:10", "2025-12-02 00:10:00")),
        ("11:00:00", None, ("2025-12-02 11:00:00", None)),
        (None, "11:00:00", (None, "2025-12-02 11:00:00")),
        (None, "13:00:00", (None, "2025-12-01 13:00:00")),
        ("23:00:00", "13:00:00", ("2025-12-01 23:00:00", "2025-12-02 13:00:00")),
        ("2025-12-03T01:00:00Z", "00:30:00", ("2025-12-03 01:00:00", "2025-12-04 00:30:00")),
        ("2025-11-03T01:00:00Z", "12:30:00", ("2025-11-03 01:00:00", "2025-12-01 12:30:00")),
        ("12:30:00", "2025-12-03T01:00:00Z", ("2025-12-01 12:30:00", "2025-12-03 01:00:00")),
    ],
)
def test_a_time_without_its_date_is_the_first_since_the_beginning(
    since: str | None, until: str | None, wanted: tuple
) -> None:
    """And that of --to the first since --from."""
    asked: list[Asked] = [None if word is None else time_of(word) for word in (since, until)]
    found = dated(asked[0], asked[1], [times()])
    moments_wanted = tuple(None if text is None else Time(utc(text), True) for text in wanted)
    judge(f"{since} to {until}", found == moments_wanted, [it and utc_of(it.nanoseconds) for it in found])


def test_seconds_may_stand_beside_a_time_of_day() -> None:
    """3,600 s behind counter 0 are 13:00:00.25."""
    found = dated(time_of("3600"), time_of("13:00:00"), [times()])
    holds = found == (Time(3_600 * SECOND, False), Time(utc("2025-12-02 13:00:00"), True))
    judge("the end is behind them", holds, found)


def test_the_day_is_that_of_the_first_of_several_recordings() -> None:
    both = [times("2025-12-02T00:05:00Z", [(NOON, 0, None)]), times("2025-12-01T23:00:00Z")]
    found = dated(time_of("23:36:10"), time_of("00:10:00"), both)
    wanted = (Time(utc("2025-12-01 23:36:10"), True), Time(utc("2025-12-02 00:10:00"), True))
    holds = found == wanted and dated(time_of("23:36:10"), time_of("00:10:00"), both[::-1]) == wanted
    judge("whichever is named first", holds)


def test_a_recording_began_by_the_clock_as_it_was_set_last() -> None:
    """A clock that began in 1970, one that was set back, and recordings that began before and after it was."""
    boot = [("5.000000000", 0, None), ("1764590400.000000000", 600_000_000, "1764590395.000000000")]
    back = [(NOON, 0, None), ("1764586800.250000000", 36_000_000_000, "-3600.000000000")]
    for begun, origins, wanted in [
        ("1970-01-01T00:00:05Z", boot, "2025-12-01 12:00:00"),
        ("2025-12-01T12:00:10Z", boot, "2025-12-01 12:00:10"),
        ("2025-12-01T12:00:01Z", back, "2025-12-01 11:00:01"),
        ("2025-12-01T16:00:00Z", back, "2025-12-01 16:00:00"),
    ]:
        found = beginning_of(times(begun, origins))
        judge_quietly(f"{begun} {utc_of(found)}", found == utc(wanted))


def test_without_facts_that_know_the_day_a_time_needs_its_date() -> None:
    for given, why in [
        (recording(None), "no facts beside it, so times are seconds since counter 0, as 12.5"),
        (
            times(origins=UNKNOWN_SCALE),
            "the scale of its times is unknown, so times are seconds since counter 0, as 12.5",
        ),
        *[
            (times(odd), "its facts don't say when it began, so times have their date, or are seconds")
            for odd in ODD_DAYS
        ],
    ]:
        with pytest.raises(Refused, match=f"^x.ch11: {why}$"):
            dated(time_of("23:36:10"), None, [given])


ODD_DAYS: tuple[object, ...] = (
    None,
    7,
    "",
    "2025-12-01",
    "2025-12-01T12:00:00",
    "2025-13-01T12:00:00Z",
    "0000-01-01T00:00:00Z",
    "now",
    [],
)


def test_times_have_units() -> None:
    for word, ticks in {"1min": 60_000, "1h30m": 5_400_000, "100ms": 100, "12.5": 12_500}.items():
        judge(word, time_of(word) == Time(ticks * 1_000_000, False), time_of(word))
    for parser, words in (
        (receive.parser(), ["--for=500ms", "127.0.0.1:9", "o"]),
        (tell.parser(), ["--wait=0.5", "o"]),
    ):
        given = parser.parse_args(words)
        judge(str(words), 0.5 in vars(given).values(), given)
    with pytest.raises(argparse.ArgumentTypeError, match="^needs a number of seconds since counter 0"):
        time_of("1x")


def test_an_origin_of_a_capture_file_needs_its_date() -> None:
    why = "23:36:10.5 has no date, and no facts give one here: it takes that too, as 2025-12-01T23:36:10.5Z"
    with pytest.raises(argparse.ArgumentTypeError, match=f"^{why}$"):
        moment_of("23:36:10.5")


def test_an_origin_of_live_is_the_last_such_time() -> None:
    now = time.time_ns()
    for ahead in (-3_600, -1, 60, 3_600):
        text = utc_of(now + ahead * SECOND)[11:-1]
        given = read(["--origin", text, "out.ch11", "lo"]).options
        wanted = now + ahead * SECOND - (86_400 * SECOND if ahead > 0 else 0)
        judge_quietly(f"{text}: {given}", given == ["--origin", utc_of(wanted)])
    holds = read(["--origin", "23:36", "out.ch11", "lo"]).options == ["--origin", "23:36"]
    judge("another form goes on as it is", holds)


def test_a_buffer_of_live_may_have_its_unit() -> None:
    table = {"256": "256", "256M": "244", "1G": "953", "1M": "1", "2k": "2k", "0G": "0G", "1.5G": "1.5G"}
    found = {word: read(["--buffer", word, "out.ch11", "lo"]).options[1] for word in table}
    judge("in whole mebibytes", found == table, found)


def test_a_channel_is_called_by_each_of_its_names() -> None:
    wires = [{"channel": 1, "interface": "eth0", "name": "bus A"}]
    known = Facts({**facts_of_run([(NOON, 0, None)]), "host": "tap2", "interfaces": wires})
    names = ["eth0", "bus A", "bus A (eth0)"]
    asked_for: list[int | str] = [1, *names, *(f"{it} of tap2" for it in names)]
    for asked in asked_for:
        judge_quietly(f"{asked}", known.is_called(1, asked))
    others: list[int | str] = [2, "eth1", "eth0 of tap1", "None of tap2"]
    for other in others:
        judge_quietly(f"not {other}", not known.is_called(1, other))
