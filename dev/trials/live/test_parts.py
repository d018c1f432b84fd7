"""Tries recordings of bpfrec live that are moved or removed, follow one another under a set clock, or change
filters."""

import re
import time
from pathlib import Path

import pytest
from clock import Clock
from frames import numbers, numbers_in, records
from namespace import send_together
from recordings import YES, Traffic, begin, extracted, facts_of, is_approved, judge_parts, parts_of, recordings
from support import BPFREC, SECOND, Running, judge, present, run, wait_for

pytestmark = [
    pytest.mark.wanted("bin/bpfrec", "bin/capture", "ip", "cc", "pcap-config"),
    pytest.mark.timed,
    pytest.mark.usefixtures("namespace"),
]

# ---- recordings that follow one another


def test_names_of_recordings_stay_in_order_under_a_clock_that_is_set(work: Path) -> None:
    """The clock is set back by an hour, and on again."""
    clock = Clock(work)
    running = begin(work, work / "hour.ch11", "--quiet", "--every", 1, adds=clock.adds)
    traffic = Traffic()
    time.sleep(0.5)
    clock.set_by(-3600 * SECOND)
    wait_for("--every goes by a clock that can't be set", lambda: len(recordings(work, "hour")) >= 3, 6)
    clock.set_by(7200 * SECOND)
    time.sleep(0.4)
    many = len(recordings(work, "hour"))
    sent = traffic.end()
    time.sleep(0.1)
    running.interrupt()
    status, printed = running.ended()
    holds = status == 0 and printed.count(YES) == len(recordings(work, "hour")) and 3 <= many <= 5
    judge("--every goes by a clock that can't be set", holds, printed)
    judge_parts(
        "and each frame is in one recording, with counters that go on", parts_of(work, "hour", 1), list(range(sent))
    )


def test_a_changed_filter_is_told_with_its_recording(work: Path) -> None:
    """What a line changes is told with the recording in which it does."""
    running = begin(work, work / "inst.ch11", "--quiet", "--every", 1)
    traffic = Traffic()
    wait_for("a second recording", lambda: len(recordings(work, "inst")) >= 2)
    time.sleep(0.3)
    running.type_in(f"set 2 {work}/none")
    running.wait_until_told("installed 2 1 ")
    time.sleep(0.1)
    traffic.end()
    running.interrupt()
    status, told = running.ended()[0], running.told()
    found = present(re.search(r"installed 2 1 (\d+) in (.*)\n", told))
    names = [it if found[2].startswith("/") else Path(it.name) for it in recordings(work, "inst")]
    judge("a change is told with its recording", status == 0 and Path(found[2]) in names, told)
    listed = run(BPFREC, "list", work / Path(found[2]).name)
    judge("which has the change", f" program 2 1 {found[1]} " in listed)


# ---- a recording that is moved or removed


def next_recording(work: Path, running: Running, what: str) -> None:
    wait_for(
        lambda: f"recordings follow one that was {what}: {running.told()}",
        lambda: len(recordings(work, "moved")) >= 1,
        5,
    )


def test_a_recording_that_is_moved_away_is_told(work: Path) -> None:
    """The file that is recorded is moved away, and another is removed."""
    other = work / "other"
    other.mkdir()
    running = begin(work, work / "moved.ch11", "--quiet", "--every", 1)
    traffic = Traffic()
    time.sleep(0.4)
    first = recordings(work, "moved")[0]
    first.rename(other / first.name)
    next_recording(work, running, "moved")
    time.sleep(0.4)
    second = recordings(work, "moved")[0]
    second.unlink()
    next_recording(work, running, "removed")
    time.sleep(0.3)
    sent = traffic.end()
    time.sleep(0.1)
    running.interrupt()
    (status, printed), told = running.ended(), running.told()
    line = f"bpfrec live: {first} was moved to {other / first.name}: it is recorded on there\n"
    judge("a recording that was moved is told", line in told, told)
    line = f"bpfrec live: {second} was removed: it is recorded on, and gone at its end\n"
    judge("and one that was removed", line in told, told)
    many = len(recordings(work, "moved")) + 2
    judge("both are audited as the others are", status == 0 and printed.count(YES) == many)
    kept = [records(extracted(work, it, 1)) for it in [other / first.name, *recordings(work, "moved")]]
    found = numbers_in(kept)
    gap = [it for it in range(sent) if it not in set(found)]
    holds = found == sorted(set(found)) and gap == list(range(gap[0], gap[-1] + 1))
    judge("no frame is lost but those of the one that was removed", holds)


@pytest.mark.parametrize("name", ["moved to", "removed"], ids=["moved", "removed"])
def test_a_single_recording_that_is_moved_away_is_told(work: Path, name: str) -> None:
    """The same of a recording that stands alone."""
    out, elsewhere = work / "alone.ch11", work / "elsewhere.ch11"
    running = begin(work, out, "--quiet")
    send_together(0, 50)
    time.sleep(0.2)
    out.rename(elsewhere) if name == "moved to" else out.unlink()
    send_together(50, 50)
    time.sleep(0.2)
    running.interrupt()
    status, printed = running.ended()
    holds = (
        status == 0
        and YES in printed
        and "offered 100 kept 100" in printed
        and f"bpfrec live: {out} was {name}" in running.told()
    )
    judge(f"a recording that was {name.split()[0]} is told and audited", holds, running.told())
    if name == "moved to":
        judge("what was moved has all", numbers(extracted(work, elsewhere, 1)) == list(range(100)))


def test_no_audit_runs_with_no_audit(work: Path) -> None:
    out = work / "unaudited.ch11"
    running = begin(work, out, "--quiet", "--no-audit")
    send_together(0, 10)
    time.sleep(0.1)
    running.interrupt()
    status, printed = running.ended()
    facts = facts_of(out)
    judge(
        "--no-audit",
        status == 0
        and "yes" not in printed
        and "programs" not in printed
        and (facts["audit"], facts["status"], facts["state"]) == (None, 0, "ended")
        and is_approved(out),
    )
