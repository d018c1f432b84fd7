"""Tries the times in SETUP: those of the facts, as these have them."""

import shutil
from pathlib import Path

import pytest
import tomllib
from expected_facts import TAI_37, THREE_ORIGINS, UNKNOWN_SCALE
from reading import SAMPLES
from setups import CHAPTER11, setup_by, with_facts
from support import judge, judge_same, outcome

ONE: list[tuple] = [("1764590400.250000000", 0, None)]


def origin(counter: int, text: str, **scale: object) -> dict[str, object]:
    return {"counter": counter, "origin": text, **scale}


TAI, UNKNOWN = {"scale": "TAI", "tai_offset": 37}, {"scale": "unknown"}
BEGUN = origin(0, "1764590400.250000000")
OF_UNKNOWN, OF_TAI = origin(0, "1764590400.250000000", **UNKNOWN), origin(17, "1764590437.250000123", **TAI)
LATER = "1764590437.250000000"
STEPPED_TAI = [BEGUN, OF_TAI, origin(18, "1764590437.250000124", **UNKNOWN)]
FIRST_LATE = [("5.000000000", 10, None), ("6.000000000", 7, None), ("7.000000000", 7, None)]
# What facts have, the options, and what SETUP says of times.
LISTS: dict[str, tuple[list, str, dict[str, object]]] = {
    "one": (ONE, "", {"origins": [BEGUN]}),
    "a clock that was set": (THREE_ORIGINS, "", {"origins": [BEGUN, origin(32, "1764586800.250000123")]}),
    "a clock that ran TAI": (TAI_37, "", {"origins": [BEGUN, OF_TAI]}),
    "of a scale that is said to be UTC": (UNKNOWN_SCALE, "--utc", {"scale": "UTC", "origins": [OF_UNKNOWN]}),
    "and TAI": (UNKNOWN_SCALE, "--tai 37", {**TAI, "origins": [OF_UNKNOWN]}),
    "what is said is of an unknown scale alone": (
        [*TAI_37, ("1764590437.250000124", 18, None, None)],
        "--tai 36",
        {"scale": "TAI", "tai_offset": 36, "origins": STEPPED_TAI},
    ),
    "a scale that came to be known": (
        [(LATER, 0, None, None), (LATER, 0, None, "TAI", 37)],
        "",
        {"origins": [origin(0, LATER, **TAI)]},
    ),
    "the first holds from 0 on": (FIRST_LATE, "", {"origins": [origin(0, "5.000000000"), origin(7, "7.000000000")]}),
    "the first holds for no counter": (
        [("5.000000000", 10, None), ("6.000000000", 0, None)],
        "",
        {"origins": [origin(0, "6.000000000")]},
    ),
    "before 1970": ([("-0.000000001", 0, None)], "", {"origins": [origin(0, "-0.000000001")]}),
    "the last counter": (
        [*ONE, ("7.000000000", 2**48 - 1, None)],
        "",
        {"origins": [BEGUN, origin(2**48 - 1, "7.000000000")]},
    ),
}


@pytest.mark.parametrize("name", LISTS)
def test_origins_are_those_of_the_facts(work: Path, name: str) -> None:
    recording = Path(shutil.copy(SAMPLES[1], work / "flight.ch11"))
    noted, words, due = LISTS[name]
    with_facts(recording, noted)
    found = setup_by(recording, *words.split())
    judge(name, {key: value for key, value in found.items() if key in ("origins", *TAI)} == due, found)


TURNED = "1764590400.000000000", "1736442902.328934400"
AT, BACK, ON = "1764590400.250000000", "1764590399.250000000", "1764590401.250000001"
MOVED = [(LATER, 0, None, None), (AT, 9, None)]
# Of several recordings: what the facts of one have, the options, and the origins in its table; whether a line says that
# others are left out.
STEPS: dict[str, tuple[list, list[str], list, bool]] = {
    "one": (ONE, [], [BEGUN], False),
    "by a second": ([*ONE, (BACK, 9, None), (AT, 99, None)], [], [BEGUN, origin(9, BACK), origin(99, AT)], False),
    "back by more": ([*ONE, ("1764590399.249999999", 9, None)], [], [origin(0, "1764590399.249999999")], True),
    "on by more": ([*ONE, (ON, 9, None)], [], [origin(0, ON)], True),
    "the last of them counts": (
        [*ONE, ("3.000000000", 9, None), ("4.500000000", 10, None), ("5.000000000", 11, None)],
        [],
        [origin(0, "4.500000000"), origin(11, "5.000000000")],
        True,
    ),
    "one that holds for no counter": (
        [*ONE, ("3.000000000", 9, None), ("1764590400.250000001", 9, None)],
        [],
        [BEGUN, origin(9, "1764590400.250000001")],
        False,
    ),
    "of two scales": (TAI_37, [], [BEGUN, OF_TAI], False),
    "a scale that is said": (MOVED, ["--tai=37"], [origin(0, LATER, **UNKNOWN), origin(9, AT)], False),
    "which is another": (MOVED, ["--tai=39"], [origin(0, AT)], True),
    "counters that begin at 0 again": (
        [(TURNED[0], 0, None), (TURNED[1], 2**47, None)],
        [],
        [origin(0, TURNED[0]), origin(2**47, TURNED[1])],
        False,
    ),
}


@pytest.mark.parametrize("name", STEPS)
def test_of_several_recordings_origins_before_a_clock_was_set_far_are_left_out(work: Path, name: str) -> None:
    recordings = [Path(shutil.copy(SAMPLES[1], work / it)) for it in ("one.ch11", "two.ch11")]
    noted, words, due, is_said = STEPS[name]
    for recording, host in zip(recordings, ("fc1", "fc2")):
        beside = with_facts(recording, noted if host == "fc2" else ONE, host=host)
    done = outcome(*CHAPTER11, "--print-setup", *words, *recordings)
    said = "the clock was set by over a second: frames before that have times by the clock as it was set then"
    judge(name, (done.returncode, done.stderr) == (0, f"bpfrec export: {beside}: {said}\n" if is_said else ""), done)
    judge_same(f"{name}: origins", [it["origins"] for it in tomllib.loads(done.stdout)["recording"]], [[BEGUN], due])
