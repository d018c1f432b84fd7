"""Tries recordings that are killed at any moment, damaged, or changed between the two times that a command reads
them."""

import fcntl
import os
import random
import subprocess
import time
from collections.abc import Callable
from dataclasses import dataclass
from pathlib import Path

import pytest
from recorder import MANY, extracted, make_feed, record, write_settings
from support import BPFREC, judge, judge_quietly, outcome, present, run, sums, wait_for

pytestmark = [pytest.mark.wanted("bin/bpfrec"), pytest.mark.timed]
KILLS, PARTS = 100, 10
CHANGES = 100


@pytest.fixture(scope="module")
def feed(place: Path) -> Path:
    """A feed of a hundred thousand frames."""
    return make_feed(place / "sums.feed", MANY // 10)


# ---- kills


def killed_after(seconds: float, settings: Path, out: Path) -> None:
    """A recording that is killed so soon."""
    out.unlink(missing_ok=True)
    words = [str(BPFREC), "record", str(settings), str(out)]
    running = subprocess.Popen(words, stdin=subprocess.DEVNULL, stdout=subprocess.DEVNULL)
    time.sleep(seconds)
    running.kill()
    running.wait()


def cut_to_whole(recording: Path) -> bool:
    """Cuts a recording to its whole packets; whether one was cut."""
    listed = outcome(BPFREC, "list", recording)
    if listed.returncode == 0:
        return False
    number, name, place = listed.stderr.split()[1:]
    judge_quietly("only Truncated", (number, name) == ("1", "Truncated"), listed.stderr)
    os.truncate(recording, int(place))
    return True


@dataclass
class Whole:
    """A whole recording of two channels, the feeds that are extracted of it, and how long it took."""

    settings: Path
    feeds: list[bytes]
    seconds: float


@pytest.fixture(scope="module")
def whole(place: Path, long_feed: Path) -> Whole:
    settings, out = write_settings(place, [long_feed, long_feed], ["half", "all"]), place / "whole.ch11"
    begin = time.monotonic()
    judge("a million frames of each of two channels", record(settings, out).returncode == 0)
    seconds = time.monotonic() - begin
    return Whole(settings, [extracted(out, channel, place / "whole.feed") for channel in (1, 2)], seconds)


@pytest.mark.parametrize("part", range(PARTS))
def test_a_recording_that_is_killed_is_its_beginning(work: Path, whole: Whole, part: int) -> None:
    """A recording that is killed at any moment reads up to a place, and what stands before it is its beginning."""
    draw, cut, truncated = random.Random(part), work / "cut.ch11", 0
    for _ in range(KILLS // PARTS):
        killed_after(draw.random() * whole.seconds, whole.settings, cut)
        if not cut.exists():
            continue
        truncated += cut_to_whole(cut)
        for channel, want in zip((1, 2), whole.feeds):
            got = extracted(cut, channel, work / "cut.feed")
            judge_quietly("a beginning of the channel's frames", want.startswith(got))


# ---- sums


def test_each_sum_is_right_and_finds_each_changed_byte(work: Path, feed: Path) -> None:
    """Each sum of a recording is right for a reader of its own, which finds each changed byte."""
    whole, changed = work / "sums.ch11", work / "sums_changed.ch11"
    judge("a hundred thousand frames", record(write_settings(work, [feed], ["half"]), whole).returncode == 0)
    count = run(BPFREC, "list", whole).splitlines()[-1].split()[1]
    told = sums(whole)
    wanted = f"packets {count} data checksums {count} without 0 wrong 0\n"
    judge(f"all sums of its {count} packets are right", (told.returncode, told.stdout) == (0, wanted), told)
    recording, draw = whole.read_bytes(), random.Random(8)
    for _ in range(CHANGES):
        at, value = draw.randrange(len(recording)), draw.randrange(1, 256)
        changed.write_bytes(recording[:at] + bytes([recording[at] ^ value]) + recording[at + 1 :])
        told = sums(changed)
        judge_quietly(f"byte {at} is changed by {value}", told.returncode == 1 and not told.stderr, told)


# ---- a recording that changes meanwhile


def change_byte(recording: Path, at: int) -> None:
    with open(recording, "r+b") as file:
        file.seek(at)
        value = file.read(1)[0]
        file.seek(at)
        file.write(bytes([value ^ 1]))


def grow(recording: Path) -> None:
    with open(recording, "ab") as file:
        file.write(recording.read_bytes())


def waits_in(running: subprocess.Popen) -> str:
    """The kernel's function in which a process waits."""
    return Path(f"/proc/{running.pid}/wchan").read_text()


def printed_slowly(words: list, change: Callable[[], object]) -> tuple:
    """A run whose lines fill a pipe when the change is made: its status, and what it told and printed."""
    read, write = os.pipe()
    fcntl.fcntl(write, fcntl.F_SETPIPE_SZ, 4_096)
    running = subprocess.Popen(words, stdout=write, stderr=subprocess.PIPE, text=True)
    os.close(write)
    wait_for("a full pipe waits for a reader", lambda: "pipe_write" in waits_in(running), 10)
    change()
    with os.fdopen(read, "rb") as pipe:
        got = pipe.read()
    return running.wait(), present(running.stderr).read(), got


def written_late(words: list, change: Callable[[], object]) -> tuple:
    """A run whose OUT, the last word, is a named pipe, so that it waits for a reader when the change is made:
    its status, what it told and printed, and what it wrote."""
    running = subprocess.Popen(words, stdout=subprocess.PIPE, stderr=subprocess.STDOUT, text=True)
    wait_for("a named pipe waits for a reader", lambda: waits_in(running) == "wait_for_partner", 10)
    change()
    got = words[-1].read_bytes()
    return running.wait(), present(running.stdout).read(), got


CHANGED: dict[str, tuple[Callable[[Path, int], object], bool]] = {
    "cut": (lambda path, size: os.truncate(path, size // 2), False),
    "changed in a byte": (lambda path, size: change_byte(path, size // 2), False),
    "grown": (lambda path, size: grow(path), True),
}


@pytest.mark.parametrize("command", ["list", "extract", "upgrade"])
def test_a_recording_that_changes_between_two_looks_is_told(work: Path, feed: Path, command: str) -> None:
    """A recording that is changed between the two times that a command reads it."""
    settings, changed, out = write_settings(work, [feed], ["all"]), work / "meanwhile.ch11", work / "meanwhile"
    settings.write_text("limit = 16424\n" + settings.read_text())
    judge_quietly("a recording of short packets", record(settings, changed).returncode == 0)
    whole = changed.read_bytes()
    os.mkfifo(out)
    words: dict[str, list[object]] = {"list": [changed], "extract": [changed, "1", out], "upgrade": [changed, out]}
    given = [str(BPFREC), command, *words[command]]
    how = printed_slowly if command == "list" else written_late
    wanted = how(given, lambda: None)
    judge(f"{command} of a recording that is left as it is", wanted[0] == 0)
    for what, (change, is_taken) in CHANGED.items():
        changed.write_bytes(whole)
        done = how(given, lambda: change(changed, len(whole)))
        status, told, got = done
        faulty = status == 3 and told == f"file {changed}\n" and wanted[2].startswith(got)
        judge(f"{command} of a recording that is {what} meanwhile", done == wanted if is_taken else faulty)
