"""Tries bpfrec live with a wall clock that is set while it records: OUT.json has the origins that are told."""

import time
from pathlib import Path

import pytest
from clock import Clock, Sender, capture_with, judge_frames, judge_steps, judge_times, origins_told
from frames import numbers_in, records
from recordings import YES, extracted, facts_of, parts_of, recordings, settings_of
from support import LIVE, MILLISECOND, SECOND, Running, judge, nanoseconds

pytestmark = [
    pytest.mark.wanted("bin/bpfrec", "bin/capture", "ip", "cc", "pcap-config"),
    pytest.mark.timed,
    pytest.mark.usefixtures("namespace"),
]
YEAR = 31_557_600


def begin_under(clock: Clock, work: Path, *words: object) -> Running:
    """Begins a recording whose capture alone has that clock."""
    adds = {"CAPTURE": str(capture_with(work, clock.adds))}
    settings = settings_of(work)
    running = Running(work, LIVE, "--quiet", *words[:-1], settings, words[-1], "rx0=1", "rx1=2", adds=adds)
    running.wait_until_told("origin")
    return running


def origins_of(facts: list[dict]) -> list[tuple[int, int]]:
    return [(it["counter"], nanoseconds(*it["origin"].split("."))) for it in facts]


def test_the_facts_have_the_origins_that_are_told(work: Path) -> None:
    """The facts beside the recording have the origins that are told."""
    clock, sender, out = Clock(work), Sender(), work / "clock.ch11"
    running = begin_under(clock, work, out)
    wanted = [-3600 * SECOND, 26 * YEAR * SECOND]
    for step in wanted:
        sender.send(50)
        clock.set_by(step)
        sender.send(50)
        time.sleep(0.2)
    running.interrupt()
    status, printed = running.ended()
    told = running.told()
    judge("live with a clock that is set twice: status 0, and the audit says yes", status == 0 and YES in printed)
    for channel in (1, 2):
        found = records(extracted(work, out, channel))
        judge_frames(f"bpfrec live: channel {channel}", found, sender.sent, origins_told(told), clock)
    judge_steps("live", told, wanted)
    facts = facts_of(out)["origins"]
    judge("the facts have the origins that are told, in order", origins_of(facts) == origins_told(told))
    judge("each has its scale", {it["scale"] for it in facts} == {"UTC"}, facts)
    steps = [nanoseconds(*it["set_by"].split(".")) for it in facts[1:]]
    holds = "set_by" not in facts[0] and all(abs(a - b) < MILLISECOND for a, b in zip(steps, wanted, strict=True))
    judge("and by how much the clock was set", holds)


def test_each_recording_has_the_times_of_its_own_facts(work: Path) -> None:
    """Recordings that follow one another: by the facts beside each its frames have their times."""
    clock, sender = Clock(work), Sender()
    running = begin_under(clock, work, "--every", 1, work / "part.ch11")
    for step in (-3600 * SECOND, 2 * SECOND, -SECOND):
        sender.send(100, pause=0.003)
        clock.set_by(step)
        sender.send(200, pause=0.003)
    time.sleep(0.1)
    running.interrupt()
    status, printed = running.ended()
    files = recordings(work, "part")
    holds = status == 0 and len(files) > 1 and printed.count(YES) == len(files)
    judge(f"{len(files)} recordings follow one another", holds)
    for channel in (1, 2):
        parts = parts_of(work, "part", channel)
        judge("each frame is in one", numbers_in(parts) == list(range(len(sender.sent))))
        for path, part in zip(files, parts):
            origins = origins_of(facts_of(path)["origins"])
            judge_times(f"{path.name}: channel {channel}", part, sender.sent, origins, clock)
