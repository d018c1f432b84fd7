"""Tries how right a clock is by what the kernel, chrony and PTP say, and the watch that says it."""

import argparse
import ctypes
import time
from typing import Any, cast

import pytest
from bpfrec.formats.clock_state import ClockState, state_in
from bpfrec_tools.live import arguments
from bpfrec_tools.live.kept import clock_watch, synchronisation
from bpfrec_tools.live.parts import system
from bpfrec_tools.live.parts.loop import Loop, Signals
from bpfrec_tools.live.parts.recorder import Recorder
from support import judge, judge_quietly, judge_same

RIGHT: dict[str, Any] = {"is_synchronised": True, "maximum_error": "0.000125"}
CHRONY: dict[str, Any] = {"reference": "192.0.2.1", "state": "Normal"}
PTP: dict[str, Any] = {"has_grandmaster": True, "grandmaster": "001122.fffe.334455"}
UNSAID = "nobody says whether it is synchronised"
OFF, WRONG = "off by at most 0.000125 s", {**RIGHT, "is_synchronised": False}
SAID, OTHER = f"synchronised, {OFF}", {**CHRONY, "state": "Not synchronised"}
STATES: list[tuple[Any, str]] = [
    ({"kernel": RIGHT}, SAID),
    ({"kernel": RIGHT, "chrony": CHRONY}, f"synchronised by chrony (192.0.2.1), {OFF}"),
    (
        {"kernel": RIGHT, "chrony": CHRONY, "ptp": PTP},
        f"synchronised by chrony (192.0.2.1) and PTP (001122.fffe.334455), {OFF}",
    ),
    ({"kernel": WRONG}, "not synchronised"),
    ({"kernel": WRONG, "ptp": PTP}, "not synchronised yet by PTP (001122.fffe.334455)"),
    ({"kernel": RIGHT, "chrony": OTHER, "ptp": {**PTP, "has_grandmaster": False}}, SAID),
    ({"kernel": RIGHT, "chrony": {**CHRONY, "reference": "a\nb"}}, f"synchronised by chrony (a?b), {OFF}"),
    ({"kernel": RIGHT, "chrony": {**CHRONY, "reference": "a" * 256}}, SAID),
    ({"kernel": RIGHT, "chrony": {"reference": 7}, "ptp": {**PTP, "grandmaster": None}}, SAID),
    ({"kernel": RIGHT, "chrony": 7, "ptp": []}, SAID),
    ({"kernel": None}, UNSAID),
    ({"kernel": {"is_synchronised": 1, "maximum_error": "0.000125"}}, UNSAID),
    ({"kernel": {"is_synchronised": True, "maximum_error": 1}}, UNSAID),
    ({"kernel": {"is_synchronised": True, "maximum_error": "-1.5"}}, UNSAID),
    ([], UNSAID),
    (None, UNSAID),
]


def test_a_state_is_what_facts_say_of_it() -> None:
    for told, wanted in STATES:
        judge_quietly(f"{told}: {state_in(told).text()}", state_in(told).text() == wanted)


def test_a_clock_is_worse_where_it_is_unsynchronised_unknown_or_off_by_more() -> None:
    right, at_most = ClockState(True, 0.01), "the clock may be off by 0.010000 s, and 0.009999 s are allowed"
    for state, most, wanted in [
        (right, None, None),
        (right, 0.01, None),
        (right, 0.009999, at_most),
        (ClockState(False, 0.0), None, None),
        (ClockState(False, 0.0), 16.0, "the clock is not synchronised"),
        (ClockState(), 16.0, "nobody says whether the clock is synchronised"),
    ]:
        judge_quietly(f"{state} {most}: {state.fault(most)}", state.fault(most) == wanted)


def test_an_error_of_a_clock_is_taken_with_its_unit() -> None:
    table = {"0.01": 0.01, "1": 1.0, "16s": 16.0, "10ms": 0.01, "500us": 0.0005, "0.5ms": 0.0005, "0.000001": 1e-6}
    judge_same("each is as many seconds", {word: arguments.clock_error(word) for word in table}, pytest.approx(table))
    for word in ("", "0", "0.0000001", "16.1", "17", "-1", "1m", "1e-3", ".5", "1 s", "ms", "١", "nan"):
        with pytest.raises(argparse.ArgumentTypeError):
            arguments.clock_error(word)


LONG, INT = ctypes.c_long, ctypes.c_int
# The kernel's state of its clock, as adjtimex(2) has it.
FIELDS: list[tuple[str, Any]] = [
    ("modes", ctypes.c_uint),
    *((name, LONG) for name in ("offset", "freq", "maxerror", "esterror")),
    ("status", INT),
    *((name, LONG) for name in ("constant", "precision", "tolerance", "seconds", "parts", "tick", "ppsfreq", "jitter")),
    ("shift", INT),
    *((name, LONG) for name in ("stabil", "jitcnt", "calcnt", "errcnt", "stbcnt")),
    ("tai", INT),
    ("room", INT * 11),
]


class Timex(ctypes.Structure):
    """That state, by its names."""

    _fields_ = FIELDS


# The offset is in nanoseconds by STA_NANO, and errors are in microseconds always; STA_UNSYNC is 0x40.
KERNELS = [
    (Timex(offset=1_250, status=0x2000), "0.000001250", True),
    (Timex(offset=-1_250, status=0), "-0.001250000", True),
    (Timex(offset=500_000_000, status=0x2041), "0.500000000", False),
    (Timex(offset=-500_000, status=0x40), "-0.500000000", False),
]


@pytest.mark.parametrize("told, offset, is_synchronised", KERNELS, ids=["nano", "micro", "unheld_nano", "unheld_micro"])
def test_what_the_kernel_says_is_read_in_its_units(
    monkeypatch: pytest.MonkeyPatch, told: Timex, offset: str, is_synchronised: bool
) -> None:
    told.maxerror, told.esterror, told.tai = 16_000_001, 123, 37

    def adjust(state: bytearray) -> int:
        state[:] = bytes(told)
        return 0

    monkeypatch.setattr(system, "adjust", adjust)
    wanted: dict[str, Any] = {
        "offset": offset,
        "estimated_error": "0.000123",
        "maximum_error": "16.000001",
        "tai_offset": 37,
    }
    judge_same("each is as it has to be", synchronisation.by_kernel(), {"is_synchronised": is_synchronised, **wanted})


@pytest.fixture
def played(monkeypatch: pytest.MonkeyPatch) -> dict:
    """What the kernel and the others say, which a trial changes."""
    says: dict = {"kernel": ClockState(True, 0.001), "source": "chrony (a)", "asked": 0}

    def by_others() -> str:
        says["asked"] += 1
        return str(says["source"])

    monkeypatch.setattr(clock_watch, "by_the_kernel", lambda: says["kernel"])
    monkeypatch.setattr(clock_watch, "by_others", by_others)
    monkeypatch.setattr(clock_watch, "ASKED", ("sh",))
    return says


def looked(loop: Loop, watch: clock_watch.ClockWatch, now: float) -> None:
    """A second later, and once those who were asked have answered."""
    watch.tick(now)
    end = time.monotonic() + 5
    while watch.is_asking and time.monotonic() < end:
        loop.turn(0.1)


def test_a_watch_says_the_clock_once_and_at_each_change(played: dict, signals: Signals) -> None:
    lines: list[str] = []
    seen: list[ClockState] = []
    loop = Loop(signals, lambda: None)
    watch = clock_watch.ClockWatch(loop, 0.01, lines.append, lambda state, most: seen.append(state))
    watch.tick(time.monotonic())
    judge("it says nothing before something is recorded", lines == [] and watch.deadline() is None)
    watch.begun(cast(Recorder, None))
    now = watch.deadline() or 0
    for second in range(5):
        looked(loop, watch, now + second)
    first = "bpfrec live: clock: synchronised by chrony (a), off by at most 0.001000 s"
    judge("it says it once", lines == [first] and played["asked"] == 1, lines)
    played["kernel"] = ClockState(True, 0.0099)
    looked(loop, watch, now + 5)
    judge("another error that is allowed is no news", lines == [first] and len(seen) == 6, lines)
    played["kernel"] = ClockState(True, 0.02)
    looked(loop, watch, now + 6)
    holds = lines[1:] == [f"{first[:-10]}0.020000 s: --require-clock: {seen[-1].fault(0.01)}"]
    judge("one that isn't is", holds, lines)
    played["kernel"] = ClockState(False, 16.0)
    looked(loop, watch, now + 7)
    judge("and so is a clock that nobody holds", lines[2].endswith("--require-clock: the clock is not synchronised"))
    played["kernel"], played["source"] = ClockState(True, 0.001), "chrony (b)"
    looked(loop, watch, now + 8)
    judge("it says so where all is well again", lines[3:] == [first.replace("(a)", "(b)")], lines)
    looked(loop, watch, now + 8 + clock_watch.QUESTION_PAUSE)
    judge("the others are asked each minute, and no news is none", played["asked"] == 5 and len(lines) == 4, lines)
    played["source"] = "chrony (c)"
    looked(loop, watch, now + 8 + 2 * clock_watch.QUESTION_PAUSE)
    judge("another source is seen within a minute", lines[4:] == [first.replace("(a)", "(c)")], lines)
    judge("who observes saw each second", [it.is_synchronised for it in seen[-4:]] == [False, True, True, True], seen)
