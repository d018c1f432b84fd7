"""Tries the times that bpfrec info makes of the facts beside a recording, and what it says of their scales."""

import random
from pathlib import Path

import pytest
from bpfrec_tools.cli.program import Audit
from bpfrec_tools.info.contents import Recording
from bpfrec_tools.info.facts_file import facts_beside
from expected_facts import TAI_37, UNKNOWN_SCALE, drawn_origins, facts_of_run, time_by
from reading import (
    SEED,
    as_json,
    audit_of,
    facts_of,
    json_of,
    page_parts,
    put_beside,
    read,
    recording_of_three,
    text_parts,
    time_of,
)
from support import INFO, judge, judge_quietly, outcome, present, run

pytestmark = pytest.mark.wanted("bin/bpfrec")


def test_times_of_a_clock_that_ran_tai_are_utc(sample: Path) -> None:
    """By the second origin, 37 s less than its clock had."""
    put_beside(sample, facts_of_run(TAI_37))
    told, time = run(INFO, sample), "2025-12-01T12:00:00.2500033Z"
    rows = [
        "origin                     2025-12-01T12:00:00.250000000Z from counter 0 on",
        "origin                     2025-12-01T12:00:00.250000123Z from counter 17 on: the clock ran TAI, 37 s ahead",
        f"  first time                 {time}",
    ]
    judge("the text has UTC, and says of TAI", all(it in told.splitlines() for it in rows), told)
    found = json_of(sample)
    scales = [(it["scale"], it["tai_offset"]) for it in found["facts"]["origins"]]
    judge("the scales in JSON", scales == [("UTC", None), ("TAI", 37)], found)
    judge("and UTC", found["channels"]["1"]["first_time"] == time, found)
    page = sample.with_suffix(".html")
    run(INFO, "--html", page, sample)
    judge("the page has UTC", "Times are UTC, from" in page.read_text() and page.read_text().count(time) == 2)


def test_a_scale_that_nobody_knows_is_said_where_a_time_is_shown(sample: Path) -> None:
    """Nothing says that such a time is UTC."""
    put_beside(sample, facts_of_run(UNKNOWN_SCALE))
    told = run(INFO, sample)
    rows = [
        "origin                     2025-12-01T12:00:00.250000000 (scale unknown) from counter 0 on",
        "  first time                 2025-12-01T12:00:00.2500032 (scale unknown)",
        "  last time                  2025-12-01T12:00:00.2500032 (scale unknown)",
    ]
    judge("in the text", all(it in told.splitlines() for it in rows), told)
    found = json_of(sample)
    times = [found["channels"]["1"][it] for it in ("first_time", "last_time")]
    judge("in JSON no UTC is known", times == [None] * 2 and found["facts"]["origins"][0]["scale"] is None, found)
    page = sample.with_suffix(".html")
    run(INFO, "--html", page, sample)
    holds = page.read_text().count("(scale unknown)") == 3 and "Times are UTC, from" not in page.read_text()
    judge("on the page", holds)


def test_a_damaged_place_has_its_time_without_a_scale(sample: Path) -> None:
    put_beside(sample, facts_of_run(UNKNOWN_SCALE))
    sample.write_bytes(sample.read_bytes()[:-1])
    told = outcome(INFO, sample).stdout
    judge("in the overview", "at 0.0000032 s, 2025-12-01T12:00:00.2500032 (scale unknown)\n" in told, told)


def test_facts_of_before_scales_were_noted_are_utc(sample: Path) -> None:
    """As they were, also of an adapter's clock."""
    put_beside(sample, {**facts_of_run([("1764590400.250000000", 0, None)]), "clock": "adapter"})
    found = json_of(sample)
    judge("in UTC", found["channels"]["1"]["first_time"] == "2025-12-01T12:00:00.2500032Z", found)


def test_a_frame_before_the_first_origin_has_no_time(sample: Path) -> None:
    put_beside(sample, facts_of_run([("1764590400.250000000", 33, None)]))
    judge(
        "a frame before the first origin has no time",
        "\n  first time                 unknown\n" in run(INFO, sample)
        and json_of(sample)["channels"]["1"]["first_time"] is None,
    )


def test_a_thousand_origins_are_told_one_by_one(sample: Path) -> None:
    put_beside(sample, facts_of_run([(f"{1_764_590_400 + it}.000000000", it, None) for it in range(1_500)]))
    told = run(INFO, sample)
    judge(
        "a thousand origins are told one by one",
        told.count("\norigin ") == 1_001
        and "\norigin                     and 500 more\nframes lost                none\n" in told,
    )


def judge_times(path: Path, bare: dict, found: Recording, answer: Audit, origins: list, counters: list[int]) -> None:
    """The times of channels, and of counters, by these origins."""
    put_beside(path, facts_of_run(origins))
    known = facts_beside(str(path))
    told = as_json.object_of(found, answer[0], known)["channels"]
    for name, moment in bare.items():
        wanted = [time_by(origins, moment[f"{which}_counter"]) for which in ("first", "last")]
        got = [told[int(name)]["first_time"], told[int(name)]["last_time"]]
        judge_quietly(f"channel {name} of {origins}: {got}, {wanted}", got == wanted)
    for counter in [*counters, *(it[1] + step for it in origins for step in (-1, 0, 1))]:
        if 0 <= counter < 2**48:
            judge_quietly(f"counter {counter} of {origins}", time_of(counter, known) == time_by(origins, counter))
    judge_quietly("text and page", [*text_parts(found, answer, known), *page_parts("x", found, answer, known)])


def test_times_by_drawn_origins_are_those_of_a_second_reading(work: Path) -> None:
    """The times of three channels by drawn origins, and of drawn counters, beside those of bpfrec_tools."""
    path, draw = recording_of_three(work), random.Random(SEED)
    bare = facts_of(path)["channels"]
    found, answer = read(str(path)), audit_of(str(path))
    most = max(it["last_counter"] for it in bare.values())
    for _ in range(200):
        origins = drawn_origins(draw, most)
        counters = [0, 2**48 - 1, *(draw.randrange(2**48) for _ in range(20))]
        judge_times(path, bare, found, answer, origins, counters)


def test_days_are_those_of_date() -> None:
    """The days of bpfrec_tools beside those of `date`."""
    draw = random.Random(SEED)
    seconds = [draw.randrange(-(10**10), 10**11) for _ in range(20)]
    given = "".join(f"@{it}\n" for it in seconds)
    days = run("date", "-u", "-f", "-", "+%Y-%m-%dT%H:%M:%S", input=given).split()
    judge("days of drawn seconds", days == [present(time_by([(f"{it}.000000000", 0, None)], 0))[:-9] for it in seconds])
