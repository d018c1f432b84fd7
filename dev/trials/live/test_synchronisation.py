"""Tries what bpfrec live says and asks of the host's clock: with a kernel whose clock isn't synchronised, a chrony and a
PTP that are played."""

import re
import time
from pathlib import Path
from typing import Any

import pytest
from clock import STATUS, TRACKING, Synchronisation, played
from namespace import send_together
from recordings import begin, facts_of, is_approved, nothing_left, settings_of
from served import address_in, asked, status_of
from support import INFO, LIVE, PREFLIGHT, Running, judge, judge_quietly, outcome, run, wait_for

pytestmark = [
    pytest.mark.wanted("bin/bpfrec", "bin/capture", "ip"),
    pytest.mark.timed,
    pytest.mark.usefixtures("namespace"),
]
RIGHT = "bpfrec live: clock: synchronised, off by at most 0.000500 s\n"
WRONG = "bpfrec live: clock: not synchronised: --require-clock: the clock is not synchronised\n"


def clock_of(running: Running) -> list[str]:
    """The lines on the clock."""
    return re.findall("^bpfrec live: clock: .*\n", running.told(), re.MULTILINE)


def metric(address: str, name: str) -> float | None:
    found = re.findall(rf"^bpfrec_{re.escape(name)} (\S+)$", asked(address, "metrics").decode(), re.MULTILINE)
    return float(found[0]) if found else None


def state_at(address: str) -> tuple[Any, ...]:
    """The clock in the status, its alarms, and the same as metrics."""
    told = status_of(address)
    alarms = [it["text"] for it in told["alarms"] if it["name"] == "clock"]
    metrics = (metric(address, "clock_synchronised"), metric(address, 'alarms{name="clock"}'))
    return told["clock"], alarms, metrics


def clock(is_synchronised: bool, error: float, required: float) -> dict:
    return {"is_synchronised": is_synchronised, "maximum_error": error, "source": None, "required": required}


def test_a_clock_that_becomes_worse_is_a_line_an_alarm_and_a_metric(work: Path) -> None:
    """And so is one that becomes right again; the recording goes on."""
    kernel, out = Synchronisation(work), work / "a.ch11"
    live = begin(work, out, "--require-clock", "10ms", "--status", "0", "--quiet", adds=kernel.adds)
    address = address_in(live.told())
    right, wrong = clock(True, 0.0005, 0.01), clock(False, 16, 0.01)
    wait_for("the clock is right", lambda: state_at(address) == (right, [], (1, 0)), 5)
    judge("as a line too, once", clock_of(live) == [RIGHT], live.told())
    send_together(0, 50)
    kernel.set(False, 16_000_000)
    wait_for(
        lambda: f"it isn't: {state_at(address)}",
        lambda: state_at(address) == (wrong, ["the clock is not synchronised"], (0, 1)),
        5,
    )
    judge("as a line too", clock_of(live) == [RIGHT, WRONG], live.told())
    judge("the run's level is an alarm", status_of(address)["level"] == "alarm")
    kernel.set(True, 20_000)
    over = "the clock may be off by 0.020000 s, and 0.010000 s are allowed"
    wait_for("it is off by too much", lambda: state_at(address)[1:] == ([over], (1, 1)), 5)
    judge("by how much", metric(address, "clock_max_error_seconds") == 0.02)
    kernel.set(True, 10_000)
    wait_for("all is well", lambda: state_at(address) == (clock(True, 0.01, 0.01), [], (1, 0)), 5)
    wait_for("four lines", lambda: len(clock_of(live)) == 4, 5)
    send_together(50, 50)
    live.interrupt()
    judge("the recording is whole", live.ended()[0] == 0 and is_approved(out) and nothing_left(work), live.told())
    kernels = [facts_of(out)["synchronisation"][it]["kernel"] for it in ("begin", "end")]
    judge_quietly("the facts have it", [it["maximum_error"] for it in kernels] == ["0.000500", "0.010000"], kernels)
    told = run(INFO, "--quiet", out)
    holds = re.search("^clock at the end +synchronised, off by at most 0.010000 s$", told, re.M)
    judge("and info says it", holds, told)


@pytest.mark.parametrize(
    "is_synchronised, error, asked_for, why",
    [
        (False, 0, "16", "the clock is not synchronised"),
        (True, 10_001, "0.01", "the clock may be off by 0.010001 s, and 0.010000 s are allowed"),
        (True, 501, "500us", "the clock may be off by 0.000501 s, and 0.000500 s are allowed"),
    ],
    ids=["unsynchronised", "off", "microseconds"],
)
def test_a_worse_clock_is_refused_before_anything_is_begun(
    work: Path, is_synchronised: bool, error: int, asked_for: str, why: str
) -> None:
    kernel, out = Synchronisation(work, is_synchronised, error), work / "x.ch11"
    words = ["--require-clock", asked_for, settings_of(work), out, "rx0=1", "rx1=2"]
    running = Running(work, LIVE, *words, adds=kernel.adds)
    holds = (running.ended(), running.told()) == ((3, ""), f"bpfrec live: --require-clock: {why}\n")
    judge("by its name", holds, running.told())
    judge("nothing was begun", not out.exists() and nothing_left(work))
    told = preflight(work, kernel, *words)
    holds = told[1].endswith("1 fault\n") and f"clock: --require-clock: {why}\n" in told[1]
    judge("preflight says so too", holds, told)


def preflight(work: Path, kernel: Synchronisation, *words: object) -> tuple[int, str]:
    running = Running(work, PREFLIGHT, "--live", *words, adds=kernel.adds)
    return running.ended()


def test_without_the_option_a_clock_that_nobody_holds_is_said_and_no_alarm(work: Path) -> None:
    kernel = Synchronisation(work, False, 16_000_000)
    live = begin(work, work / "n.ch11", "--status", "0", "--quiet", adds=kernel.adds)
    address = address_in(live.told())
    wait_for("it is said", lambda: clock_of(live) == ["bpfrec live: clock: not synchronised\n"], 5)
    wait_for("the page has it", lambda: status_of(address)["clock"]["is_synchronised"] is False, 5)
    judge("it is no alarm", state_at(address)[1:] == ([], (0, 0)), state_at(address))
    live.end_well()
    words = [settings_of(work), work / "o.ch11", "rx0=1"]
    told = preflight(work, kernel, *words)[1]
    judge("preflight says so", "clock: note: not synchronised\n" in told, told)


def test_chrony_and_ptp_are_named(work: Path) -> None:
    adds = {**Synchronisation(work).adds, **played(work, chronyc=TRACKING, pmc=STATUS)}
    out = work / "s.ch11"
    live = begin(work, out, "--quiet", adds=adds)
    source = "chrony (192.0.2.1) and PTP (001122.fffe.334455)"
    line = f"bpfrec live: clock: synchronised by {source}, off by at most 0.000500 s\n"
    wait_for(lambda: f"both are named: {live.told()}", lambda: clock_of(live) == [line], 5)
    live.end_well()
    told = run(INFO, "--quiet", out)
    judge("info names them", told.count(f"synchronised by {source}, off by at most 0.000500 s") == 2, told)


def test_a_chrony_that_never_answers_holds_up_nothing(work: Path) -> None:
    """Neither the beginning nor the end, and the clock is said without it."""
    adds = {**Synchronisation(work).adds, **played(work, chronyc="", pmc="")}
    (work / "played/chronyc").write_text("#!/bin/sh\nexec sleep 60\n")
    began = time.monotonic()
    live = begin(work, work / "h.ch11", "--quiet", adds=adds)
    judge_quietly("it records at once", time.monotonic() - began < 2)
    send_together(0, 20)
    wait_for("the clock is said", lambda: clock_of(live) == [RIGHT], 5)
    live.interrupt()
    judge("it ends well", live.ended()[0] == 0 and is_approved(work / "h.ch11"), live.told())


def test_other_words_are_no_error_of_a_clock(work: Path) -> None:
    for word in ("0", "17", "1m", "fast"):
        done = outcome(LIVE, "--require-clock", word, work / "x.ch11", "rx0")
        line = "bpfrec live: --require-clock needs a number from 0.000001 to 16, in seconds, or as 10ms or 500us\n"
        judge_quietly(f"{word}: {done.stderr}", (done.returncode, done.stderr) == (2, line))
