"""Tries alarms of bpfrec live that go out: the program of --on-alarm, which spoils nothing whatever becomes of it, and
lines with priorities for systemd's journal.

The alarm is that of a clock that isn't synchronised, by a kernel that says so.
"""

import contextlib
import os
import re
import signal
import time
from pathlib import Path

import pytest
from clock import Synchronisation
from frames import records
from namespace import send_together
from recordings import Traffic, begin, extracted, is_approved, judge_parts, nothing_left, processes_of, settings_of
from support import LIVE, PREFLIGHT, Running, judge, judge_quietly, outcome, wait_for

pytestmark = [
    pytest.mark.wanted("bin/bpfrec", "bin/capture", "ip"),
    pytest.mark.timed,
    pytest.mark.usefixtures("namespace"),
]
BEGUN = "begins|clock|-|the clock is not synchronised|"
DEAF = "trap '' TERM; while :; do sleep 1; done"


def script(work: Path, text: str = "") -> Path:
    """A program that notes its number and its arguments, and then does something."""
    path = work / "alarm"
    path.write_text(
        f'#!/bin/sh\necho $$ > {work}/pid\nprintf "%s|" "$@" >> {work}/noted; echo >> {work}/noted\n{text}\n'
    )
    path.chmod(0o755)
    return path


def noted(work: Path) -> list[str]:
    with contextlib.suppress(FileNotFoundError):
        return (work / "noted").read_text().splitlines()
    return []


def recorded(work: Path, out: Path, *words: object, text: str = "") -> tuple[Running, Synchronisation]:
    """A run whose clock is right so far, and whose alarms go to a program."""
    kernel, command = Synchronisation(work), f"'{script(work, text)}' 'two words'"
    return begin(work, out, "--require-clock", 1, "--on-alarm", command, "--quiet", *words, adds=kernel.adds), kernel


def judge_whole(work: Path, out: Path, count: int) -> None:
    judge("the recording is approved", is_approved(out))
    for channel in (1, 2):
        parts = [records(extracted(work, out, channel))]
        judge_parts(f"channel {channel} has each frame once", parts, list(range(count)))
    judge("nothing is left", nothing_left(work))


def test_a_program_is_run_when_an_alarm_begins_and_when_it_ends(work: Path) -> None:
    out = work / "a.ch11"
    live, kernel = recorded(work, out)
    send_together(0, 50)
    kernel.set(False)
    wait_for("it began", lambda: noted(work) == [f"two words|{BEGUN}"], 5)
    kernel.set(True)
    ended = BEGUN.replace("begins", "ends")
    wait_for("it ended", lambda: noted(work) == [f"two words|{BEGUN}", f"two words|{ended}"], 5)
    send_together(50, 50)
    live.interrupt()
    judge("live ends well", live.ended()[0] == 0 and "--on-alarm" not in live.told(), live.told())
    judge_whole(work, out, 100)


def test_a_program_that_hangs_holds_up_neither_frames_nor_the_end(work: Path) -> None:
    """It hears no TERM; at the end of the run it is given its time in all, and no more."""
    out = work / "h.ch11"
    live, kernel = recorded(work, out, "--every", "3600", text=DEAF)
    first = work / "h_00001.ch11"
    traffic = Traffic()
    kernel.set(False)
    wait_for("it runs", lambda: noted(work), 5)
    live.type_in(f"set 1 {work}/all")
    wait_for("lines are taken meanwhile", lambda: "installed 1 1 " in live.told(), 2)
    kernel.set(True)
    wait_for("it is ended", lambda: "alarm ran for too long, and was ended\n" in live.told(), 15)
    wait_for("and the next is run", lambda: len(noted(work)) == 2, 5)
    live.type_in("next")
    wait_for("the next recording begins meanwhile", lambda: (work / "h_00002.ch11").exists(), 3)
    count, began = traffic.end(), time.monotonic()
    time.sleep(0.2)
    live.interrupt()
    status, _ = live.ended()
    took = time.monotonic() - began
    judge(f"it ends well, {took:.1f} s later", status == 0 and took < 12, live.told())
    judge("no program is left", not processes_of(out), processes_of(out))
    judge("both recordings are approved", is_approved(first) and is_approved(work / "h_00002.ch11"))
    for channel in (1, 2):
        parts = [records(extracted(work, it, channel)) for it in (first, work / "h_00002.ch11")]
        judge_parts(f"channel {channel} has each frame once", parts, list(range(count)))


def test_a_run_that_is_killed_is_ended_by_its_guard_though_the_program_runs_on(work: Path) -> None:
    out = work / "g.ch11"
    live, kernel = recorded(work, out, text="exec sleep 20")
    send_together(0, 50)
    kernel.set(False)
    wait_for("it runs", lambda: noted(work), 5)
    os.kill(live.process.pid, signal.SIGKILL)
    live.process.wait()
    wait_for("the guard has ended all", lambda: nothing_left(work), 8)
    judge("the program runs on", os.path.exists(f"/proc/{(work / 'pid').read_text().strip()}"))
    judge_whole(work, out, 50)


def test_a_program_that_is_missing_is_refused_before_anything_is_begun(work: Path) -> None:
    out = work / "m.ch11"
    words = ["--on-alarm", f"{work}/missing now", settings_of(work), out, "rx0=1", "rx1=2"]
    done = outcome(LIVE, *words)
    why = f"--on-alarm: {work}/missing is missing, or can't be run\n"
    judge("by its name", (done.returncode, done.stderr) == (3, f"bpfrec live: {why}"), done)
    judge("nothing was begun", not out.exists())
    done = outcome(PREFLIGHT, "--live", *words)
    is_said = done.stdout.startswith(f"bpfrec live: {why}") and done.stdout.endswith("\n1 fault\n")
    judge("preflight says so", done.returncode == 1 and is_said, done)
    done = outcome(LIVE, "--on-alarm", "'x", out, "rx0")
    line = "bpfrec live: --on-alarm needs a command: no closing quotation\n"
    judge("so are quotes that stay open", (done.returncode, done.stderr) == (2, line), done)


# ---- the journal


def journal_of(work: Path) -> dict[str, str]:
    """What systemd says of the file that standard error will be."""
    (work / "told").touch()
    found = os.stat(work / "told")
    return {"JOURNAL_STREAM": f"{found.st_dev}:{found.st_ino}"}


@pytest.mark.parametrize("quiet", [[], ["--quiet"]], ids=["plain", "quiet"])
def test_lines_for_the_journal_have_their_priorities(work: Path, quiet: list[str]) -> None:
    """Also those of the capture and the recorder, and those of alarms."""
    kernel, out = Synchronisation(work), work / "j.ch11"
    adds = {**kernel.adds, **journal_of(work)}
    live = begin(work, out, "--require-clock", 1, *quiet, adds=adds)
    live.type_in(f"set 1 {work}/all")
    live.type_in(f"set 1 {work}/missing")
    kernel.set(False)
    wait_for("the alarm", lambda: "<3>bpfrec live: alarm: the clock is not synchronised\n" in live.told(), 5)
    kernel.set(True)
    wait_for("its end", lambda: "<6>bpfrec live: alarm ended: the clock is not synchronised\n" in live.told(), 5)
    send_together(0, 50)
    time.sleep(1.2)
    live.end_well()
    lines = live.told().splitlines()
    judge("each line has one", all(re.match("<[346]>[^<]", it) for it in lines), live.told())
    for line in (
        r"<6>bpfrec capture: origin \d+\.\d{9}",
        r"<6>installed 1 1 \d+",
        r"<4>refused 1 File: .*/missing: no such file",
        r"<6>bpfrec live: clock: synchronised, off by at most 0\.000500 s",
        r"<3>bpfrec live: clock: not synchronised: --require-clock: the clock is not synchronised",
        r"<6>bpfrec capture: rx0 frames 50 .*",
    ):
        judge_quietly(f"{line}: {lines}", any(re.fullmatch(line, it) for it in lines))
    counts = [it for it in lines if re.match("<6>bpfrec capture: rx0 frames ", it)]
    judge(f"{len(counts)} lines of counts", len(counts) == 1 if quiet else len(counts) > 2, lines)


def test_refusals_are_errors_to_the_journal(work: Path) -> None:
    for words, line in {
        ("--every", "x"): "<3>bpfrec live: --every needs a number from 1 to 999999999, in seconds, or as 10m\n",
        ("--require-clock", "0.000001"): "<3>bpfrec live: --require-clock: the clock may be off by 0.000500 s, ",
    }.items():
        adds = {**Synchronisation(work).adds, **journal_of(work)}
        running = Running(work, LIVE, *words, settings_of(work), work / "r.ch11", "rx0=1", "rx1=2", adds=adds)
        status, _ = running.ended()
        judge(line.strip(), status in (2, 3) and running.told().startswith(line), running.told())
