"""Tries recordings of bpfrec live of which only the last are kept, and their files."""

import contextlib
import os
import re
import stat
import time
from pathlib import Path

import pytest
from disks import memory_disk
from frames import numbers, numbers_in
from namespace import send_numbered
from recordings import YES, Traffic, begin, extracted, facts_of, nothing_left, parts_of, recordings, settings_of
from support import BPFREC, LIVE, ROOT, Running, judge, judge_quietly, run, wait_for

pytestmark = [
    pytest.mark.wanted("bin/bpfrec", "bin/capture", "ip", "mount"),
    pytest.mark.timed,
    pytest.mark.usefixtures("namespace"),
]
REMOVED = re.compile(r"bpfrec live: (\S+) was removed: (.*)\n")

# ---- a ring


def test_keep_leaves_the_last_approved_recordings(work: Path) -> None:
    """The last two that are approved are kept, with their facts, and the one that goes on."""
    running = begin(work, work / "ring.ch11", "--quiet", "--every", 1, "--keep", 2)
    traffic = Traffic()
    wait_for("three are removed", lambda: len(REMOVED.findall(running.told())) >= 3)
    traffic.end()
    time.sleep(0.1)
    running.interrupt()
    (status, printed), told = running.ended(), running.told()
    removed = [path for path, why in REMOVED.findall(told) if why == "--keep 2"]
    judge("status 0", status == 0 and nothing_left(work), told)
    judge(
        "the oldest are removed, in their order",
        removed == [f"{work}/ring_{at + 1:05}.ch11" for at in range(len(removed))],
    )
    left = [it.name for it in recordings(work, "ring")]
    wanted = [f"ring_{len(removed) + at + 1:05}.ch11" for at in range(2)]
    judge("two are left", left == wanted and printed.count(YES) == len(removed) + 2, (left, removed))
    judge(
        "with their facts alone", sorted(it.name for it in work.glob("ring_*.json")) == [f"{it}.json" for it in wanted]
    )


def test_keep_free_makes_room_by_the_oldest(work: Path) -> None:
    """On a small disk the oldest make room, and no disk gets full."""
    with memory_disk(work / "disk", "size=8m") as disk:
        running = begin(work, disk / "free.ch11", "--quiet", "--size", 400_000, "--keep-free", 5_000_000)
        traffic = Traffic(1_000, 0.003)
        wait_for("several are removed", lambda: len(REMOVED.findall(running.told())) >= 4)
        sent = traffic.end()
        time.sleep(0.2)
        running.interrupt()
        status, told = running.ended()[0], running.told()
        free = os.statvfs(disk).f_bavail * os.statvfs(disk).f_frsize
        judge("a disk that would get full doesn't", status == 0 and "can't be" not in told, told)
        judge("so much is free", free > 3_500_000, free)
        left = numbers_in(parts_of(disk, "free", 1))
        judge("the newest frames are there", left == list(range(sent - len(left), sent)) and len(left) > 0)


# ---- files


def mode_of(path: Path) -> int:
    return stat.S_IMODE(path.stat().st_mode)


@pytest.mark.parametrize(
    "umask, words, wanted", [(0o022, [], 0o640), (0o077, [], 0o600), (0o077, ["--mode", "0644"], 0o644)]
)
def test_recordings_and_facts_have_the_mode_that_is_said(work: Path, umask: int, words: list, wanted: int) -> None:
    """0640 less umask, or what --mode says; the facts too, and each of several recordings."""
    running = begin(work, work / "mode.ch11", "--quiet", "--every", 1, *words, umask=umask)
    wait_for("two recordings", lambda: len(recordings(work, "mode")) >= 2)
    running.interrupt()
    judge_quietly("it records", running.ended()[0] == 0)
    modes = {oct(mode_of(it)) for it in work.glob("mode_*")}
    judge(f"mode {oct(wanted)}", modes == {oct(wanted)} and len(list(work.glob("mode_*.json"))) >= 2, modes)


def test_mode_holds_for_an_overwritten_file(work: Path) -> None:
    """--mode holds for a file that --force overwrites too."""
    out = work / "there.ch11"
    out.write_bytes(b"lost")
    out.chmod(0o666)
    running = begin(work, out, "--quiet", "--force", "--mode", "0600")
    running.end_well()
    judge("with its mode", [mode_of(it) for it in (out, work / "there.ch11.json")] == [0o600] * 2)


@pytest.mark.parametrize("words", [[], ["--force"]], ids=["plain", "force"])
@pytest.mark.parametrize("name", ["link.ch11", "link.ch11.json"])
def test_a_link_in_the_place_of_out_is_not_followed(work: Path, name: str, words: list) -> None:
    """A link in the place of OUT or of its facts isn't followed, wherever it leads."""
    for target in (work / "victim", work / "nowhere"):
        (work / "victim").write_bytes(b"kept")
        with contextlib.suppress(FileNotFoundError):
            (work / name).unlink()
        (work / name).symlink_to(target)
        running = Running(work, LIVE, "--quiet", *words, settings_of(work), work / "link.ch11", "rx0=1", "rx1=2")
        status, told = running.ended()[0], running.told()
        judge(
            f"refused: {told.strip()}", status == 3 and told.startswith(f"bpfrec live: {work}/{name} is there: "), told
        )
        judge_quietly("nothing behind it changes", (work / "victim").read_bytes() == b"kept")
        judge_quietly("nothing is created", not (work / "nowhere").exists() and nothing_left(work))


def test_records_where_out_is_moved_at_once(work: Path) -> None:
    """A recorder writes the file that live created, whatever its name is by then."""
    out, elsewhere = work / "at_once.ch11", work / "elsewhere.ch11"
    running = Running(work, LIVE, "--quiet", settings_of(work), out, "rx0=1", "rx1=2")
    end = time.monotonic() + 10
    while time.monotonic() < end:
        with contextlib.suppress(FileNotFoundError):
            out.rename(elsewhere)
            out.symlink_to(work / "victim")
            break
    running.wait_until_told("bpfrec capture: origin")
    time.sleep(0.3)
    send_numbered("tx0", 0, 50)
    time.sleep(0.3)
    running.interrupt()
    status = running.ended()[0]
    judge("it records", status == 0 and not (work / "victim").exists(), running.told())
    judge("into the file that was created", numbers(extracted(work, elsewhere, 1)) == list(range(50)))
    run(BPFREC, "audit", elsewhere)


# ---- hashes that fall behind

# bpfrec live, whose hash takes so many seconds of each recording.
SLOW_HASH = """
import sys, time
sys.path.insert(0, {host!r})
from bpfrec_tools.live.kept import hashes
class Slow:
    def __init__(self, *data):
        self.digest = RIGHT(*data)
        self.slept = False
    def update(self, piece):
        for _ in range(0 if self.slept else 20):
            time.sleep({seconds} / 20)
        self.slept = True
        self.digest.update(piece)
    def hexdigest(self):
        return self.digest.hexdigest()
RIGHT = hashes.hashlib.sha256
class Hashlib:
    sha256 = staticmethod(Slow)
hashes.hashlib = Hashlib
from bpfrec_tools.__main__ import run_tool
sys.exit(run_tool("live"))
"""


def begin_slow(work: Path, out: Path, seconds: float, *options: object) -> Running:
    """Records both pairs, with a hash that takes so many seconds."""
    script = work / "slow"
    script.write_text(SLOW_HASH.format(host=str(ROOT / "host"), seconds=seconds))
    running = Running(work, "/usr/bin/python3", script, *options, settings_of(work), out, "rx0=1", "rx1=2")
    running.wait_until_told("bpfrec capture: origin")
    return running


def test_a_hash_that_falls_behind_keeps_no_recording_from_its_removal(work: Path) -> None:
    """What has to go unhashed goes, with a line and an alarm; the recordings that stay name what is missing."""
    noted, command = work / "noted", work / "alarm"
    command.write_text(f'#!/bin/sh\necho "$@" >> {noted}\n')
    command.chmod(0o755)
    out = work / "ring.ch11"
    running = begin_slow(work, out, 3.0, "--quiet", "--every", 1, "--keep", 2, "--on-alarm", command)
    traffic, most = Traffic(), 0

    def are_removed() -> bool:
        nonlocal most
        most = max(most, len(recordings(work, "ring")))
        return len(REMOVED.findall(running.told())) >= 5

    wait_for("five are removed", are_removed)
    traffic.end()
    running.interrupt()
    status, told = running.ended()[0], running.told()
    judge("the disk keeps no more than the ring, what goes on, and one in work", most <= 5, most)
    unhashed = re.findall(r"bpfrec live: (\S+) has no hash in its facts: it was removed: --keep 2\n", told)
    judge("each is said", len(unhashed) >= 2 and status == 0 and nothing_left(work), told)
    judge("an alarm", "begins unhashed - ring_000" in noted.read_text(), noted.read_text())
    judge("what the end waits for is said", "bpfrec live: waits for the hash of " in told, told)
    left = [facts_of(it) for it in recordings(work, "ring")]
    judge("what is left has its hash", len(left) == 2 and all(it["sha256"] for it in left), left)
    names = {os.path.basename(it) for it in unhashed}
    judge(
        "the one before is named, without a hash if it has none",
        all((it["before"]["sha256"] is None) == (it["before"]["recording"] in names) for it in left),
        left,
    )
