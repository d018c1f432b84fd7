"""Cuts the power at fifty drawn moments while bpfrec live records: what was forced to the disk by then is there,
whole.

The disk is a file system in an image, which is copied as it is at that moment and mounted: its journal is all that it
has. The copy takes some milliseconds, so what stands behind the part that was synced may be of different moments, and
isn't judged. That takes no account of a disk whose own cache lies.
"""

import json
import os
import random
import shutil
import sys
import threading
import time
from bisect import bisect_right
from pathlib import Path

import pytest
from disks import mounted
from observed import OBSERVED
from recordings import RUN, YES, Traffic, write_settings
from support import BPFREC, MEBIBYTE, Running, judge, judge_quietly, outcome, run

pytestmark = [
    pytest.mark.wanted("bin/bpfrec", "bin/capture", "ip", "mkfs.ext4", "mount"),
    pytest.mark.timed,
    pytest.mark.usefixtures("namespace"),
]
CUTS, LIMIT = 50, 16_424


class Growth(threading.Thread):
    """How long a file is, at which moment."""

    def __init__(self, path: Path) -> None:
        super().__init__(daemon=True)
        self.path, self.is_ending = path, False
        self.moments: list[float] = []
        self.sizes: list[int] = []
        self.start()

    def run(self) -> None:
        while not self.is_ending:
            if self.path.exists():
                size = self.path.stat().st_size
                # The length is that of a moment before.
                self.moments.append(time.monotonic())
                self.sizes.append(size)
            time.sleep(0.004)

    def at(self, moment: float) -> int:
        """What it had at least by then."""
        before = bisect_right(self.moments, moment) - 1
        return self.sizes[before] if before >= 0 else 0


def synced(notes: Path) -> list[float]:
    """The moments up to which it was forced to its disk."""
    lines = notes.read_text().splitlines() if notes.exists() else []
    told = [json.loads(line) for line in lines if line.startswith('["synced"') and line.endswith("]")]
    return [it[1] for it in told]


def judge_facts(number: int, facts: Path, copied: Path, age: float) -> None:
    """The facts that were written a second before a cut, or earlier, are there, whole: `copied` is the cut disk."""
    if age > 1:
        found = json.loads((copied / facts.name).read_bytes()) if (copied / facts.name).exists() else None
        judge_quietly(f"cut {number}: the facts are there, {age:.1f} s old", found and found["origins"], found)


def judge_cut(work: Path, image: Path, out: Path, growth: Growth, number: int) -> float:
    """What is on the disk if the power goes now: by how many seconds it is behind."""
    done = synced(work / "notes")
    wanted, now = growth.at(done[-1]) if done else 0, time.monotonic()
    facts = Path(f"{out}.json")
    age = time.time() - facts.stat().st_mtime if facts.exists() else 0.0
    shutil.copy(image, work / "copy")
    with mounted(["-o", "loop", work / "copy"], work / "copied"):
        copied = work / "copied" / out.name
        size = copied.stat().st_size if copied.exists() else 0
        judge_quietly(f"cut {number}: {size} bytes are there of {wanted} that were synced", size >= wanted)
        judge_facts(number, facts, work / "copied", age)
        (work / "front").write_bytes(copied.read_bytes()[:wanted] if copied.exists() else b"")
    judge_quietly(f"cut {number}: they are those", (work / "front").read_bytes() == out.read_bytes()[:wanted])
    listed = outcome(BPFREC, "list", work / "front")
    is_cut = "read 1 Truncated" in listed.stdout + listed.stderr
    judge_quietly(f"cut {number}: they are read: {listed.stderr}", listed.returncode == 0 or is_cut)
    return now - done[-1] if done else 0.0


def test_what_was_synced_is_there_after_each_power_cut(work: Path) -> None:
    image = work / "image"
    with open(image, "wb") as file:
        file.truncate(24 * MEBIBYTE)
    run("mkfs.ext4", "-q", image)
    settings = write_settings(work, f'id = 1\nfilter = "{work}/all"', f'id = 2\nfilter = "{work}/all"')
    settings.write_text(settings.read_text().replace("limit = 65536", f"limit = {LIMIT}"))
    drawn = random.Random(64)
    with mounted(["-o", "loop", image], work / "disk") as disk:
        out = disk / "cut.ch11"
        words = [sys.executable, "-c", OBSERVED, work / "notes", "--quiet", settings, out, "rx0=1", "rx1=2"]
        running = Running(work, *words, adds={RUN: str(out)})
        running.wait_until_told("bpfrec capture: origin")
        growth, traffic = Growth(out), Traffic(1_000, 0.01)
        behind = []
        for number in range(CUTS):
            time.sleep(drawn.uniform(0.02, 0.6))
            behind.append(judge_cut(work, image, out, growth, number))
        traffic.end()
        growth.is_ending = True
        os.killpg(running.process.pid, 2)
        status, printed = running.ended()
        judge("it records", status == 0 and printed.endswith(f"{YES}\n"), running.told())
    print(f"the last sync was {max(behind):.2f} s before a cut at most")
    judge(f"{CUTS} cuts: all that was synced is there, whole", max(behind) < 2.5, max(behind))
