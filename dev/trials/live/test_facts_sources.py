"""Tries each value of the facts beside a recording against a second source: what was sent, what was printed, what the
kernel, chrony and PTP were made to say, and clocks of the trial's own."""

import calendar
import json
import os
import re
import signal
import socket
import time
from collections.abc import Callable, Iterator
from pathlib import Path
from typing import Any, NamedTuple

import pytest
from clock import STATUS, TRACKING, Clock, Kernel, Synchronisation, capture_with, play, played
from frames import numbered, records
from namespace import long_frames, send, send_numbered, send_together
from recordings import begin, extracted, facts_of, has_facts, process_of, settings_of
from schemas import faults, schema_of
from support import BPFREC, KEEPS_ALL, SECOND, judge, judge_quietly, nanoseconds, present, run, wait_for

pytestmark = [
    pytest.mark.wanted("bin/bpfrec", "bin/capture", "ip", "cc"),
    pytest.mark.timed,
    pytest.mark.usefixtures("namespace"),
]
# What the kernel says at the beginning and at the end, each time in other units; the clock is set meanwhile.
AT_BEGIN, AT_END = Kernel(True, 500, 10, 1_250, True, 37), Kernel(False, 16_000_000, 700, -2_500, False, 38)
STEP = -3600 * SECOND
TOGETHER, BURST, LONG = 100, 8_000, 7
TEXT = 'an "event" \u00e9'
# How long it may take until something that came is noted, and a clock is read.
NOTED_WITHIN, SOON = int(1.2 * SECOND), SECOND // 20


class Between(NamedTuple):
    """A number that isn't known but for its bounds."""

    least: float
    most: float

    def __eq__(self, value: object) -> bool:
        return isinstance(value, (int, float)) and self.least <= value <= self.most


class Seen:
    """What a trial knows of a run by itself: moments are nanoseconds of the host's clock, which isn't set."""

    def __init__(self, work: Path) -> None:
        self.work, self.out, self.settings = work, work / "seen.ch11", settings_of(work)
        self.kernel, self.clock = Synchronisation(work), Clock(work)
        self.kernel.say(AT_BEGIN)
        self.before = time.time_ns()
        adds = {**self.kernel.adds, **played(work, chronyc=TRACKING, pmc=STATUS)}
        # Times are UTC wherever the host stands.
        adds |= {"CAPTURE": str(capture_with(work, self.clock.adds)), "TZ": "FAR+5"}
        self.running = begin(work, self.out, "--quiet", "--buffer", 1, adds=adds)
        self.opened, self.marked = time.time_ns(), (0, 0)
        self.origin = nanoseconds(*present(re.search(r"origin (\d+)\.(\d{9})\n", self.running.told())).groups())
        wait_for("facts from the beginning on", lambda: has_facts(self.out), 5)
        self.early = facts_of(self.out)

    def fly(self) -> None:
        """Frames come, an event is noted, the clock is set, the recorder stands still, and frames are too long."""
        send_together(0, TOGETHER)
        # So that a loss can't begin with the run.
        wait_for("a first look is over", lambda: time.time_ns() > self.origin + NOTED_WITHIN + 2 * SOON)
        before = time.time_ns()
        self.running.type_in(f"mark {TEXT}")
        self.running.wait_until_told("marked")
        self.marked = before, time.time_ns()
        self.clock.set_by(STEP)
        send_together(TOGETHER, TOGETHER)
        recorder = process_of(self.out, BPFREC, "record")
        self.stopped = time.time_ns()
        os.kill(recorder, signal.SIGSTOP)
        send_numbered("tx0", 2 * TOGETHER, BURST, 1_500)
        self.sent = time.time_ns()
        time.sleep(0.3)
        os.kill(recorder, signal.SIGCONT)
        self.went_on = time.time_ns()
        time.sleep(0.3)
        send_numbered("tx0", BURST, BURST + LONG, 17_000)
        send("tx0", [numbered(BURST + LONG)])
        time.sleep(0.3)

    def end(self) -> None:
        self.kernel.say(AT_END)
        play(self.work / "played/chronyc", TRACKING.replace("-0.000012345", "0.5"))
        play(self.work / "played/pmc", STATUS.replace("-27", "99"))
        self.ending = time.time_ns()
        self.running.interrupt()
        self.status, self.printed = self.running.ended()
        self.ended, self.told = time.time_ns(), self.running.told()
        self.facts = facts_of(self.out)
        self.frames = [records(extracted(self.work, self.out, channel)) for channel in (1, 2)]
        # Of the first interface, whose last frame has the number of those before.
        self.lost = BURST + LONG + 1 - len(self.frames[0])

    def counter(self, moment: int) -> int:
        """The counter of a moment: the clock that runs on isn't set."""
        return (moment - self.origin) // 100

    def between(self, first: int, last: int) -> Between:
        """A counter from one moment to another."""
        return Between(self.counter(first - SOON), self.counter(last + SOON))


# ---- a second source for each value


def utc(moment: int, form: str = "%Y-%m-%dT%H:%M:%S") -> str:
    return time.strftime(form, time.gmtime(moment // SECOND))


def losses_of(seen: Seen) -> list[dict]:
    return [it for it in seen.facts["losses"] if it["interface"] == "rx0"]


def begins(seen: Seen) -> list:
    """The first loss begins with the last look before the recorder stood still, and each other one where one ended."""
    found = losses_of(seen)
    first = seen.between(seen.stopped - NOTED_WITHIN, seen.stopped + SOON)
    return [first, *(it["to"] for it in found[:-1])]


def ends(seen: Seen) -> list:
    """Each loss is noted within a second, and the last one with what was sent last."""
    found = losses_of(seen)
    return [seen.between(seen.stopped, seen.ended) for _ in found[:-1]] + [seen.between(seen.went_on, seen.ended)]


def steps_told(seen: Seen) -> list[tuple[str, str]]:
    """The origins that were printed, each with its counter."""
    first = re.findall(r"bpfrec capture: origin (\S+)\n", seen.told)
    return [(first[0], "0"), *re.findall(r"bpfrec capture: origin (\S+) from counter (\d+) on", seen.told)]


def address(interface: str) -> str:
    return json.loads(run("ip", "-j", "link", "show", interface))[0]["address"]


def kind(interface: str) -> str:
    return json.loads(run("ip", "-j", "-d", "link", "show", interface))[0]["linkinfo"]["info_kind"]


BOTH = ("rx0", "rx1")
SOURCES: dict[str, Callable[[Seen], list]] = {
    "facts": lambda _: [1],
    "recording": lambda seen: [seen.out.name],
    "host": lambda _: [socket.gethostname()],
    "program": lambda _: [run(BPFREC, "version").strip()],
    "begun": lambda seen: [Between(seen.before // SECOND, seen.opened // SECOND)],
    "clock": lambda _: ["host"],
    "prefilter": lambda _: [False],
    "origin_utc": lambda seen: [f"{utc(seen.origin)}.{seen.origin % SECOND:09}Z"],
    "adapters.interface": lambda _: list(BOTH),
    "adapters.driver": lambda _: [kind(it) for it in BOTH],
    # A pair has none of these.
    **{f"adapters.{name}": lambda _: [None] * 2 for name in ("firmware", "place", "hardware_clock")},
    "adapters.address": lambda _: [address(it) for it in BOTH],
    "adapters.clock": lambda _: ["host"] * 2,
    "synchronisation.kernel.is_synchronised": lambda _: [it.is_synchronised for it in (AT_BEGIN, AT_END)],
    "synchronisation.kernel.offset": lambda _: ["0.000001250", "-0.002500000"],
    "synchronisation.kernel.estimated_error": lambda _: ["0.000010", "0.000700"],
    "synchronisation.kernel.maximum_error": lambda _: ["0.000500", "16.000000"],
    "synchronisation.kernel.tai_offset": lambda _: [37, 38],
    "synchronisation.chrony.reference": lambda _: ["192.0.2.1"] * 2,
    "synchronisation.chrony.stratum": lambda _: [2] * 2,
    "synchronisation.chrony.offset": lambda _: ["-0.000012345", "0.5"],
    "synchronisation.chrony.root_delay": lambda _: ["0.000350000"] * 2,
    "synchronisation.chrony.root_dispersion": lambda _: ["0.000120000"] * 2,
    "synchronisation.chrony.state": lambda _: ["Normal"] * 2,
    "synchronisation.ptp.offset_nanoseconds": lambda _: [-27, 99],
    "synchronisation.ptp.has_grandmaster": lambda _: [True] * 2,
    "synchronisation.ptp.grandmaster": lambda _: ["001122.fffe.334455"] * 2,
    "interfaces.interface": lambda _: list(BOTH),
    "interfaces.channel": lambda _: [1, 2],
    "settings": lambda seen: [seen.settings.read_text()],
    "spans.channel": lambda _: [1, 2],
    "spans.span": lambda _: [5_000_000] * 2,
    "filters.channel": lambda _: [1, 2],
    "filters.listing": lambda _: [KEEPS_ALL] * 2,
    "filters.text": lambda seen: [run(BPFREC, "dis", seen.work / "all")] * 2,
    "origins.origin": lambda seen: [it[0] for it in steps_told(seen)],
    "origins.counter": lambda seen: [int(it[1]) for it in steps_told(seen)],
    "origins.scale": lambda _: ["UTC"] * 2,
    "origins.set_by": lambda seen: [Between((STEP - SOON) / SECOND, (STEP + SOON) / SECOND)],
    "counts.interface": lambda _: list(BOTH),
    "counts.counter": lambda seen: [seen.between(seen.ending, seen.ended)] * 2,
    "counts.frames": lambda seen: [len(it) for it in seen.frames],
    "counts.bytes": lambda seen: [sum(len(record.frame) for record in it) for it in seen.frames],
    "counts.dropped": lambda seen: [seen.lost - LONG, 0],
    "counts.missed": lambda _: [0] * 2,
    "counts.skipped": lambda _: [LONG, 0],
    "counts.waited": lambda seen: [Between(250, (seen.went_on - seen.stopped + SOON) / 10**6), 0],
    "losses.interface": lambda seen: ["rx0"] * len(losses_of(seen)),
    "losses.from": begins,
    "losses.to": ends,
    "losses.missed": lambda seen: [0] * len(losses_of(seen)),
    "losses.dropped": lambda seen: [seen.lost - LONG],
    "losses.skipped": lambda _: [LONG],
    "state": lambda _: ["ended"],
    "report": lambda seen: [it for it in seen.printed.splitlines() if re.match("channel . versions|wrote", it)],
    "audit": lambda seen: [it for it in seen.printed.splitlines() if re.match("channel . programs|yes", it)],
    "status": lambda seen: [seen.status],
    "sync_fault": lambda _: [None],
    "sha256": lambda seen: [run("sha256sum", seen.out)[:64]],
    "bytes": lambda seen: [seen.out.stat().st_size],
    "before": lambda _: [None],
    "next": lambda _: [None],
    "marks.counter": lambda seen: [seen.between(*seen.marked)],
    "marks.time": lambda seen: [Between(seen.marked[0] / SECOND - 1, seen.marked[1] / SECOND)],
    "marks.text": lambda _: [TEXT],
}
# Of these the values of all losses are added.
SUMS = ("losses.dropped", "losses.skipped")
# What comes before and after is told by one table.
SAME = {"synchronisation.begin": "synchronisation", "synchronisation.end": "synchronisation"}
SECONDS_LEN = len("2025-12-01T12:00:00")


def values_in(told: Any, path: str = "") -> Iterator[tuple[str, Any]]:
    """Each value of facts, by the keys that lead to it."""
    if isinstance(told, dict):
        for key, value in told.items():
            within = f"{path}.{key}" if path else key
            yield from values_in(value, SAME.get(within, within))
    elif isinstance(told, list):
        for value in told:
            yield from values_in(value, path)
    else:
        yield path, as_compared(path, told)


def as_compared(path: str, value: Any) -> Any:
    """A value as its source has it: times and lengths of time as numbers."""
    if path in ("begun", "marks.time"):
        return calendar.timegm(time.strptime(value[:SECONDS_LEN], "%Y-%m-%dT%H:%M:%S"))
    return float(value) if path == "origins.set_by" else value


def judge_sources(seen: Seen) -> None:
    counts = sorted(seen.facts["counts"], key=lambda it: it["interface"])
    values: dict[str, list] = {}
    for path, value in values_in({**seen.facts, "counts": counts}):
        values.setdefault(path, []).append(value)
    judge("each key has a source", set(values) == set(SOURCES), set(values) ^ set(SOURCES))
    for path, source in SOURCES.items():
        found, wanted = [sum(values[path])] if path in SUMS else values[path], source(seen)
        judge(f"{path}: {wanted}", len(found) == len(wanted) and all(a == b for a, b in zip(wanted, found)), found)


def test_each_value_of_the_facts_is_that_of_a_second_source(work: Path) -> None:
    with long_frames("tx0", "rx0"):
        seen = Seen(work)
        seen.fly()
        seen.end()
    judge_quietly("it records and loses", seen.status == 0 and seen.lost > LONG, seen.told)
    for moment, facts in (("beginning", seen.early), ("end", seen.facts)):
        found = faults(facts, schema_of("facts"))
        judge(f"the facts of the {moment} are as the schema says", found == [], found)
    judge("the end's synchronisation comes at the end", seen.early["synchronisation"]["end"] is None)
    judge_sources(seen)
