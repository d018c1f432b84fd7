"""Tries bpfrec live on disks that fail to write back: what is recorded can't be forced to them."""

import errno
import json
import re
import time
import urllib.request
from pathlib import Path
from typing import Any

import pytest
from recordings import YES, Traffic, begin, facts_of, has_facts, is_approved, nothing_left, recordings
from schemas import faults, schema_of
from support import LIBRARY, Running, judge, present, shared_library, wait_for

pytestmark = [
    pytest.mark.wanted("bin/bpfrec", "bin/capture", "ip", "cc"),
    pytest.mark.timed,
    pytest.mark.usefixtures("namespace"),
]
# More calls than a trial makes.
ALL = 1_000_000


def failing(work: Path, first: int, count: int, call: str = "fdatasync") -> dict[str, str]:
    """The environment in which so many calls fail that force a recording to its disk, from this one on: those of live,
    or by fsync those of the recorder."""
    library = shared_library(LIBRARY / "failing_force.c", work / "failing.so")
    words = {"BY": call, "FROM": first, "COUNT": count, "ERROR": errno.EIO}
    return {"LD_PRELOAD": str(library), **{f"UNFORCED_{name}": str(it) for name, it in words.items()}}


def line_of(out: Path) -> str:
    return f"bpfrec live: {out} can't be forced to its disk: Input/output error\n"


def served(running: Running, name: str) -> str:
    """What the status of a run has at this path."""
    address = present(re.search(r"status: (\S+)\n", running.told()))[1]
    with urllib.request.urlopen(f"{address}{name}", timeout=5) as answer:
        return answer.read().decode()


def test_a_disk_that_fails_to_write_back_is_told_once_and_the_recording_goes_on(work: Path) -> None:
    out = work / "bad.ch11"
    running = begin(work, out, "--quiet", "--status", "0", adds=failing(work, 2, 1))
    traffic = Traffic()
    wait_for(lambda: f"it is told: {running.told()}", lambda: line_of(out) in running.told(), 6)
    alarms: list[dict[str, Any]] = []

    def is_alarm() -> bool:
        alarms[:] = json.loads(served(running, "status.json"))["alarms"]
        return "sync_fault" in [it["name"] for it in alarms]

    wait_for(lambda: f"an alarm of the status: {alarms}", is_alarm, 5)
    told = [it for it in alarms if it["name"] == "sync_fault"]
    judge("with its reason", "bad.ch11 can't be forced to its disk: Input/output error" in told[0]["text"], told)
    judge("and a metric", "\nbpfrec_sync_faults_total 1\n" in served(running, "metrics"))
    wait_for("the facts have it while it goes on", lambda: facts_of(out)["sync_fault"] == "Input/output error", 5)
    time.sleep(1.5)
    traffic.end()
    running.interrupt()
    (status, printed), lines = running.ended(), running.told()
    judge("it is told once, and the status is 1", (status, lines.count(line_of(out))) == (1, 1), (status, lines))
    judge("all is recorded and audited", is_approved(out) and YES in printed and nothing_left(work), printed)
    facts = facts_of(out)
    judge("the facts have the reason", facts["sync_fault"] == "Input/output error" and facts["audit"][-1] == YES)
    judge("as their schema says", faults(facts, schema_of("facts")) == [])


def test_a_recording_that_is_not_on_its_disk_takes_no_others_place(work: Path) -> None:
    """--keep counts those that are: else the last that are safe would be removed while the disk takes none."""
    words = ["--quiet", "--every", 1, "--keep", 1]
    running = begin(work, work / "bad.ch11", *words, adds=failing(work, 4, ALL))
    wait_for("three fail", lambda: running.told().count("can't be forced") == 3, 20)
    running.interrupt()
    status, told = running.ended()[0], running.told()
    safe = [it for it in recordings(work, "bad") if facts_of(it)["sync_fault"] is None]
    judge("the last that is safe stays", status == 1 and len(safe) == 1 and safe[0].name not in told, told)


def test_a_recording_that_is_not_on_its_disk_at_its_end_is_told(work: Path) -> None:
    out = work / "end.ch11"
    running = begin(work, out, "--quiet", "--sync", 1_000, adds=failing(work, 2, ALL))
    wait_for("facts are there", lambda: has_facts(out), 5)
    running.interrupt()
    status, told = running.ended()[0], running.told()
    judge("it is told, and the status is 1", (status, told.count(line_of(out))) == (1, 1), (status, told))
    judge("the facts say it", facts_of(out)["sync_fault"] == "Input/output error")


def test_a_recorder_that_cannot_force_its_output_at_the_end_is_told(work: Path) -> None:
    out = work / "end.ch11"
    running = begin(work, out, "--quiet", adds=failing(work, 1, ALL, "fsync"))
    wait_for("facts are there", lambda: has_facts(out), 5)
    running.interrupt()
    status, told = running.ended()[0], running.told()
    judge("it is told", f"bpfrec live: {out} can't be forced to its disk: the recorder's fsync failed\n" in told, told)
    facts = facts_of(out)
    judge("the status is 1, and the facts say it", (status, bool(facts["sync_fault"])) == (1, True), status)
    holds = (facts["status"], facts["audit"][-1]) == (3, YES)
    judge("with the recorder's status, and the audit", holds, facts["audit"])
