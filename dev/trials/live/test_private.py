"""Tries bpfrec live whose private folder is on a disk that is full soon: what is recorded and lost is reported all the same."""

import time
from pathlib import Path

import pytest
from accounts import judge_recorded
from disks import memory_disk
from namespace import long_frames, send_numbered, send_together
from recordings import YES, begin, facts_of, nothing_left, process_of, settings_of
from support import BPFREC, judge, wait_for

pytestmark = [
    pytest.mark.wanted("bin/bpfrec", "bin/capture", "ip", "mount"),
    pytest.mark.timed,
    pytest.mark.usefixtures("namespace"),
]


def fill(disk: Path) -> None:
    """Leaves no byte of room."""
    with open(disk / "filler", "wb", buffering=0) as filler:
        for part in (bytes(1 << 16), bytes(1)):
            try:
                while filler.write(part) == len(part):
                    pass
            except OSError:
                pass


def test_report_audit_and_losses_survive_a_full_tmpdir(work: Path) -> None:
    """The disk of TMPDIR is full once it records: report, audit, losses and facts are there."""
    out = work / "full.ch11"
    with memory_disk(work / "private", "size=4m") as disk, long_frames("tx0", "rx0"):
        running = begin(work, out, "--quiet", "--strict", settings=settings_of(work))
        wait_for("it records", out.exists)
        process_of(out, BPFREC, "record")
        fill(disk)
        send_together(0, 100)
        send_numbered("tx0", 100, 107, 17_000)
        time.sleep(0.3)
        running.interrupt()
        status, printed = running.ended()
        (disk / "filler").unlink()
        left = nothing_left(work)
    told = running.told()
    judge(
        "losses are told", told.endswith("bpfrec live: rx0 LOST 0 dropped 7 skipped\n") and status == 5, (status, told)
    )
    judge_recorded(work, (printed, told), [out], 107)
    judge("so are the report and the audit", " offered 100 kept 100 " in printed and YES in printed, printed)
    facts = facts_of(out)
    judge("the facts have them", facts["report"] and facts["audit"], facts)
    judge("and nothing is left", left)
