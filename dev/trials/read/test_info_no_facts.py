"""Tries what bpfrec info tells of facts that are none, and of files of facts that can't be read."""

import json
import os
from collections.abc import Callable
from pathlib import Path

import pytest
from expected_facts import THREE_ORIGINS, are_facts, facts_of_run
from support import INFO, MEBIBYTE, judge, outcome, run

pytestmark = pytest.mark.wanted("bin/bpfrec")
GOOD = facts_of_run(THREE_ORIGINS, [(1, 2, 3)])
NO_JSON = "it is no JSON that can be read"
NO_SECONDS = "isn't seconds with nine digits behind the point"
NO_COUNTER = "origin 2 of 2: counter is no number from 0 to 281474976710655"
NO_OFFSET = "tai_offset is no number from 0 to 100000"
NO_LOSS = "is no number from 0 to 9223372036854775807"


def second_origin(**more: object) -> dict:
    """Facts of two origins, of which the second has these values."""
    return {**GOOD, "origins": [GOOD["origins"][0], {**GOOD["origins"][1], **more}]}


CASES = {
    "nothing": (b"", NO_JSON),
    "deep": (b"[" * 100_000, NO_JSON),
    "no_number": (json.dumps({**GOOD, "facts": float("nan")}), NO_JSON),
    "a_list": ("[]", "facts isn't 1"),
    "facts_true": ({**GOOD, "facts": True}, "facts isn't 1"),
    "facts_2": ({**GOOD, "facts": 2}, "facts isn't 1"),
    "no_host": ({**GOOD, "host": None}, "host is no text of at most 255 characters"),
    "no_origins": ({**GOOD, "origins": []}, "origins is no list with an origin"),
    "origin_7": ({**GOOD, "origins": [7]}, "origin 1 of 1: it is no object"),
    "origin_of_two_digits": (
        second_origin(origin="1764590400.25"),
        f"origin 2 of 2: origin {NO_SECONDS}, as 1764590400.250000000",
    ),
    "origin_number": (
        second_origin(origin=1764590400),
        f"origin 2 of 2: origin {NO_SECONDS}, as 1764590400.250000000",
    ),
    "origin_of_year_9999": (
        second_origin(origin="253370764800.000000000"),
        "origin 2 of 2: origin is of no year from 1 to 9998",
    ),
    "counter_past": (second_origin(counter=2**48), NO_COUNTER),
    "counter_text": (second_origin(counter="32"), NO_COUNTER),
    "set_by_number": (second_origin(set_by=-3600), f"origin 2 of 2: set_by {NO_SECONDS}"),
    "set_by_fraction": (second_origin(set_by=1.5), f"origin 2 of 2: set_by {NO_SECONDS}"),
    "set_by_great": (second_origin(set_by=10**30), f"origin 2 of 2: set_by {NO_SECONDS}"),
    "scale_of_gps": (second_origin(scale="GPS"), "origin 2 of 2: scale is neither UTC nor TAI nor null"),
    "no_tai_offset": (second_origin(scale="TAI"), f"origin 2 of 2: {NO_OFFSET}"),
    "tai_offset_past": (second_origin(scale="TAI", tai_offset=100_001), f"origin 2 of 2: {NO_OFFSET}"),
    "tai_offset_text": (second_origin(scale="TAI", tai_offset="37"), f"origin 2 of 2: {NO_OFFSET}"),
    "tai_of_year_0": (
        second_origin(origin="-62135596800.000000000", scale="TAI", tai_offset=37),
        "origin 2 of 2: origin is of no year from 1 to 9998",
    ),
    "no_losses": ({**GOOD, "losses": None}, "losses is no list"),
    "empty_loss": ({**GOOD, "losses": [*GOOD["losses"], {}]}, f"loss 2 of 2: dropped {NO_LOSS}"),
    "great_loss": (
        json.dumps(GOOD).replace('"skipped": 3', f'"skipped": {"3" * 100_000}'),
        f"loss 1 of 1: skipped {NO_LOSS}",
    ),
}


@pytest.fixture
def bare(sample: Path) -> str:
    """What info says of the sample without facts."""
    return run(INFO, sample)


def judge_no_facts(sample: Path, bare: str, why: str) -> None:
    done = outcome(INFO, sample, seconds=60)
    told = f"bpfrec info: {sample}.json: no facts of a recording: {why}\n"
    judge(f"facts are refused: {why}", (done.returncode, done.stdout, done.stderr) == (0, bare, told), done)


@pytest.mark.parametrize("name", CASES)
def test_text_that_is_no_facts_is_told_in_a_line(sample: Path, bare: str, name: str) -> None:
    given, why = CASES[name]
    text = given if isinstance(given, (bytes, str)) else json.dumps(given)
    Path(f"{sample}.json").write_bytes(text if isinstance(text, bytes) else text.encode())
    judge_no_facts(sample, bare, why)


def test_facts_that_are_too_long_are_told(sample: Path, bare: str) -> None:
    beside = Path(f"{sample}.json")
    beside.write_text("")
    os.truncate(beside, 64 * MEBIBYTE + 1)
    judge_no_facts(sample, bare, "it has more than 64 MiB")


@pytest.mark.parametrize("make", [os.mkdir, os.mkfifo], ids=["folder", "pipe"])
def test_what_is_no_file_is_no_facts(sample: Path, bare: str, make: Callable[[Path], None]) -> None:
    make(Path(f"{sample}.json"))
    judge_no_facts(sample, bare, "it is no regular file")


def test_a_page_never_takes_the_place_of_the_facts(sample: Path) -> None:
    beside = Path(f"{sample}.json")
    beside.write_text(json.dumps(facts_of_run(THREE_ORIGINS)))
    done = outcome(INFO, "--html", beside, sample)
    holds = (done.returncode, done.stderr) == (
        3,
        f"bpfrec info: {beside}: it is RECORDING.json itself\n",
    ) and are_facts(json.loads(beside.read_text()))
    judge("a page never takes the place of the facts", holds, done)


def test_wrong_facts_leave_the_status_of_the_recording(work: Path, sample: Path) -> None:
    damaged = work / "cut.ch11"
    damaged.write_bytes(sample.read_bytes()[:-1])
    (work / "cut.ch11.json").write_text("[]")
    done = outcome(INFO, damaged)
    told = f"bpfrec info: {work}/cut.ch11.json: no facts of a recording: facts isn't 1\n"
    judge("the status stays that of the recording", (done.returncode, done.stderr) == (1, told), done)
