"""Tries bpfrec live on disks whose power is cut, and on disks that are full."""

import contextlib
import os
import re
import subprocess
import time
from pathlib import Path

import pytest
from disks import memory_disk, mounted
from frames import numbered, numbers
from namespace import send_together, socket_into
from recordings import (
    YES,
    Traffic,
    begin,
    extracted,
    facts_of,
    has_facts,
    is_approved,
    nothing_left,
    recordings,
    settings_of,
)
from support import (
    BPFREC,
    MEBIBYTE,
    SECOND,
    SECONDS,
    TOOLS,
    Running,
    judge,
    judge_quietly,
    outcome,
    present,
    run,
    wait_for,
)

pytestmark = [
    pytest.mark.wanted("bin/bpfrec", "bin/capture", "ip", "mkfs.ext4", "mount"),
    pytest.mark.timed,
    pytest.mark.usefixtures("namespace"),
]

# ---- lost power


def newest(recording: Path) -> int:
    """The counter of the last packet of frames, of a recording that may be cut."""
    listed = outcome(BPFREC, "list", recording)
    cut = listed.stdout + listed.stderr
    judge_quietly(f"list of {recording}: {cut[-200:]}", listed.returncode == 0 or "read 1 Truncated" in cut)
    return max([int(line.split()[6]) for line in listed.stdout.splitlines() if " frames " in line], default=0)


def packets_settings(work: Path) -> Path:
    """Settings of small packets, since one is written when it is full."""
    path = settings_of(work)
    path.write_text(path.read_text().replace("limit = 65536", "limit = 16424"))
    return path


def judge_copy(work: Path, image: Path, disk: Path, told: str) -> None:
    """What is on the disk, as a copy of it at that moment has it."""
    alive = newest(disk / "power.ch11")
    run("cp", image, work / "copy")
    with mounted(["-o", "loop", work / "copy"], work / "copied"):
        copied = work / "copied/power.ch11"
        judge("after lost power the recording is there", copied.exists())
        behind = (alive - newest(copied)) * 100 / SECOND
        print(f"the newest packet on the disk is {behind:.2f} s behind, of {alive * 100 / SECOND:.2f} s")
        judge("and its newest packet is at most 2.5 s old", newest(copied) > 0 and behind <= 2.5, behind)
        judge(
            "and its facts have the origin",
            has_facts(copied)
            and facts_of(copied)["origins"][0]["origin"] == present(re.search(r"origin (\d+\.\d{9})", told))[1],
        )


@pytest.mark.parametrize("words, seconds", [([], 4), (["--sync", 0], 0.5)], ids=["forced", "never"])
def test_what_was_forced_is_on_a_disk_whose_power_is_lost(work: Path, words: list, seconds: float) -> None:
    """A disk is copied while it is recorded on."""
    image = work / "image"
    with open(image, "wb") as file:
        file.truncate(64 * MEBIBYTE)
    run("mkfs.ext4", "-q", image)
    with mounted(["-o", "loop", image], work / "synced") as disk:
        out = disk / "power.ch11"
        running = begin(work, out, "--quiet", *words, settings=packets_settings(work))
        traffic = Traffic(1_000, 0.01)
        time.sleep(seconds)
        if not words:
            judge_copy(work, image, disk, running.told())
        sent = traffic.end()
        time.sleep(0.1)
        running.interrupt()
        status, printed = running.ended()
        holds = status == 0 and YES in printed and numbers(extracted(work, out, 1)) == list(range(sent))
        judge(f"{' '.join(map(str, words)) or 'forced to its disk'}: it records", holds)


# ---- a full disk


def fill_disk(disk: Path, running: Running, told: str) -> tuple[int, float]:
    """Sends into one interface until the disk is full and that is told, or it has ended: how many frames, and when."""
    number, full, end = 0, None, time.monotonic() + SECONDS
    with socket_into("tx0") as into:
        while told not in running.told() and running.process.poll() is None and time.monotonic() < end:
            for _ in range(15):
                into.send(numbered(number, 1_000))
                number += 1
            if full is None and os.statvfs(disk).f_bavail * os.statvfs(disk).f_frsize < 1 << 16:
                full = time.monotonic()
            if full is not None and time.monotonic() - full > 5:
                break
            time.sleep(0.015)
    return number, full or time.monotonic()


def test_a_full_disk_ends_a_recording_within_five_seconds(work: Path) -> None:
    with memory_disk(work / "full") as disk:
        out = disk / "full.ch11"
        running = begin(work, out, "--quiet")
        _, full = fill_disk(disk, running, "the recording ends")
        left = max(0.0, full + 5 - time.monotonic())
        with contextlib.suppress(subprocess.TimeoutExpired):
            running.process.wait(left)
        has_ended = running.process.poll() is not None
        if not has_ended:
            running.interrupt()
        status, told = running.ended()[0], running.told()
    judge("a full disk ends a recording with a silent channel within 5 s", has_ended and status == 1, told)
    line = f"bpfrec live: {out} can't be written any more: the recording ends\n"
    judge("and it is told", told.count(line) == 1 and nothing_left(work), told)


@pytest.mark.parametrize(
    "name, words", [("every", ["--every", 1]), ("size", ["--size", 400_000])], ids=["every", "size"]
)
def test_recordings_go_on_once_there_is_room(work: Path, name: str, words: list) -> None:
    """Recordings that follow one another go on once there is room."""
    with memory_disk(work / "full") as disk:
        judge_going_on(work, disk, name, words)


def test_a_run_on_a_full_disk_takes_lines_and_has_an_alarm(work: Path) -> None:
    """Each line is answered, and `stop` ends the run."""
    noted = work / "alarms"
    script = work / "note"
    script.write_text(f'#!/bin/sh\necho "$1 $2" >> {noted}\n')
    script.chmod(0o755)
    with memory_disk(work / "full") as disk:
        out = disk / "told.ch11"
        running = begin(work, out, "--quiet", "--every", "1h", "--on-alarm", script)
        fill_disk(disk, running, "begins once there is room")
        wait_for("an alarm", lambda: noted.exists() and "begins waiting\n" in noted.read_text(), 10)
        answers = {line: outcome(TOOLS / "tell", "--wait", 5, out, line) for line in LINES_ON_A_FULL_DISK}
        for line, (status, told) in LINES_ON_A_FULL_DISK.items():
            done = answers[line]
            judge(line, done.returncode == status and told in done.stdout + done.stderr, done)
        running.ended()
        judge("the run has ended", nothing_left(work), running.told())


LINES_ON_A_FULL_DISK = {
    "status": (0, "NOT RECORDING"),
    "mark gear up": (0, "mark gear up waits for the next recording"),
    "set 1 arp": (1, "nothing is recorded, and the next recording hasn't begun"),
    "next": (1, "nothing is recorded, and the next recording hasn't begun"),
    "stop": (0, "the recording ends"),
}


def judge_going_on(work: Path, disk: Path, name: str, words: list) -> None:
    running = begin(work, disk / f"{name}.ch11", "--quiet", *words)
    line = "can't be written any more: the next recording begins once there is room"
    sent, _ = fill_disk(disk, running, line)
    wait_for(lambda: f"{name}: a full disk is told: {running.told()}", lambda: line in running.told(), 5)
    failed = Path(present(re.search(rf"bpfrec live: (.*) {line}", running.told()))[1])
    before = recordings(disk, name)
    for path in before:
        if path != failed:
            path.unlink()
    wait_for(
        lambda: f"{name}: a recording begins once there is room: {running.told()}",
        lambda: any(it not in before for it in recordings(disk, name)),
        10,
    )
    send_together(sent, 200)
    time.sleep(0.3)
    running.interrupt()
    (status, printed), told = running.ended(), running.told()
    holds = status == 1 and told.count(line) == 1
    judge(f"{name}: recordings go on once a full disk has room, and the status is 1", holds, (status, printed, told))
    later = [it for it in recordings(disk, name) if it not in before]
    judge(f"{name}: later recordings are approved", later != [] and all(is_approved(it) for it in later))
    after = [number for it in later for number in numbers(extracted(work, it, 1))]
    holds = after[-200:] == list(range(sent, sent + 200)) and after == sorted(set(after))
    judge(f"{name}: and have the frames that came then", holds)
