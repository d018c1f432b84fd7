"""Kills and stops each process of bpfrec live at drawn moments: nothing hangs or is left, and what was lost is said."""

import concurrent.futures
import contextlib
import json
import os
import random
import re
import signal
import time
from pathlib import Path
from typing import NamedTuple

import pytest
from recordings import (
    RUN,
    Traffic,
    begin,
    folder_of,
    is_recording,
    nothing_left,
    processes_of,
    recordings,
    runs,
    settings_of,
)
from support import BPFREC, CAPTURE, LIVE, Running, judge, judge_quietly, outcome, wait_for

pytestmark = [
    pytest.mark.wanted("bin/bpfrec", "bin/capture", "ip"),
    pytest.mark.timed,
    pytest.mark.usefixtures("namespace"),
]
TURNS, AT_ONCE, PATIENCE, PAUSE = 100, 4, 10, 0.4
# A blow before this many seconds comes as the run starts, and later ones are counted from when it captures.
LATE = 0.5
# Which of the processes is meant: live is the one that was started, and its guard has the same words.
ROLES = ("live", "guard", "capture", "recorder", "audit")


class Blow(NamedTuple):
    """What is done to which process, and how long after the start; and whether recordings follow one another."""

    turn: int
    role: str
    number: signal.Signals
    moment: float
    is_rotating: bool

    def __str__(self) -> str:
        kind = "with --every" if self.is_rotating else "single"
        return f"turn {self.turn}: {self.number.name} of {self.role} after {self.moment:.2f} s, {kind}"


def drawn_blows() -> list[Blow]:
    draw = random.Random(64)
    blows = []
    for turn in range(TURNS):
        number = draw.choice([signal.SIGKILL, signal.SIGSTOP])
        moment = draw.uniform(0.05, LATE) if turn % 4 == 0 else draw.uniform(LATE, 2.6)
        blows.append(Blow(turn, ROLES[turn % len(ROLES)], number, moment, draw.random() < 0.5))
    return blows


def role_of(pid: int, words: str, first: int) -> str:
    if pid == first:
        return "live"
    if runs(pid, CAPTURE):
        return "capture"
    if " audit " in words:
        return "audit"
    if runs(pid, BPFREC) and " record " in words:
        return "recorder"
    return "guard" if is_guard(pid) else "another"


def is_guard(pid: int) -> bool:
    """Whether a process holds no stream of live's; so a program isn't one that is about to be run."""
    with contextlib.suppress(OSError):
        return {os.readlink(f"/proc/{pid}/fd/{stream}") for stream in range(3)} == {os.devnull}
    return False


def slow_audits(here: Path) -> Path:
    """The program, whose audits take half a second longer."""
    made = here / "bpfrec"
    made.write_text(f'#!/bin/sh\ncase $1 in audit) sleep 0.5 ;; esac\nexec {BPFREC} "$@"\n')
    made.chmod(0o755)
    return made


def found(blow: Blow, out: Path, first: int) -> list[int]:
    """The processes that are meant."""
    return [pid for pid, words in processes_of(out).items() if role_of(pid, words, first) == blow.role]


def struck(blow: Blow, out: Path, first: int) -> bool:
    """Sends the signal, where such a process runs: whether one did. Audits come when all else ends."""
    meant = found(blow, out, first)
    if blow.role == "audit":
        end = time.monotonic() + 3
        with contextlib.suppress(ProcessLookupError):
            os.kill(first, signal.SIGTERM)
        while not meant and time.monotonic() < end:
            meant = found(blow, out, first)
    for pid in meant[:1]:
        with contextlib.suppress(ProcessLookupError):
            os.kill(pid, blow.number)
            if blow.number == signal.SIGSTOP:
                time.sleep(PAUSE)
                os.kill(pid, signal.SIGCONT)
            return True
    return False


def judge_blow(work: Path, blow: Blow) -> str:
    here = folder_of(work, f"turn{blow.turn}")
    out, settings = here / "out.ch11", settings_of(here)
    words = ["--quiet", "--buffer", 4, *(["--every", 1] if blow.is_rotating else []), settings, out, "rx0=1", "rx1=2"]
    adds = {RUN: str(out), **({"BPFREC": str(slow_audits(here))} if blow.role == "audit" else {})}
    running = Running(here, LIVE, *words, adds=adds)
    if blow.moment >= LATE:
        # However long a loaded machine takes to start it.
        running.wait_until_told("origin")
    time.sleep(blow.moment - (LATE if blow.moment >= LATE else 0))
    has_struck = struck(blow, out, running.process.pid)
    time.sleep(0.2)
    with contextlib.suppress(ProcessLookupError):
        os.kill(running.process.pid, signal.SIGTERM)
    begun = time.monotonic()
    status, _ = running.ended()
    wait_for(lambda: f"{blow}: {processes_of(out)} run on", lambda: not processes_of(out), PATIENCE)
    judge_quietly(f"{blow}: it took over {PATIENCE} s", time.monotonic() - begun < PATIENCE)
    judge_quietly(f"{blow}: TMPDIR has {os.listdir(here / 'private')}", nothing_left(here))
    judge_rest(blow, here, out, status, running.told(), has_struck)
    return f"{blow.number.name} of {blow.role}" if has_struck else "none struck"


def judge_rest(blow: Blow, here: Path, out: Path, status: int, told: str, has_struck: bool) -> None:
    """What is recorded is read; what was lost is said."""
    files = recordings(here, "out") if blow.is_rotating else [it for it in [out] if it.exists()]
    answers = []
    for path in files:
        listed = outcome(BPFREC, "list", path)
        is_cut = "read 1 Truncated" in listed.stdout + listed.stderr
        judge_quietly(f"{blow}: {path.name} isn't read: {listed.stderr}", listed.returncode == 0 or is_cut)
        answers.append(outcome(BPFREC, "audit", path).stdout.strip().splitlines()[-1:])
        if Path(f"{path}.json").exists():
            json.loads(Path(f"{path}.json").read_bytes())
    are_whole = all(it and it[0].startswith("yes") for it in answers)
    judge_quietly(f"{blow}: {answers} with status {status}: {told}", are_whole or status != 0)
    is_killed = has_struck and blow.number == signal.SIGKILL
    if is_killed and blow.role in ("capture", "recorder", "audit"):
        judge_quietly(f"{blow}: status {status}: {told}", status != 0)
        judge_quietly(f"{blow}: it isn't said: {told}", re.search(r"bpfrec live: \S+.* was ended by signal 9\b", told))
    if is_killed and blow.role == "live":
        judge_quietly(f"{blow}: {answers}: {told}", are_whole)
    if not is_killed or blow.role == "guard":
        judge_quietly(f"{blow}: status {status}, {answers}: {told}", status in (0, 3, -15) and are_whole)
    if is_killed and blow.role == "guard" and status == 0:
        judge_quietly(f"{blow}: it isn't said: {told}", "bpfrec live: its guard was ended by signal 9" in told)


def test_no_process_that_is_killed_or_stopped_hangs_the_run_or_hides_a_loss(work: Path) -> None:
    traffic = Traffic()
    with concurrent.futures.ThreadPoolExecutor(AT_ONCE) as pool:
        done = list(pool.map(lambda blow: judge_blow(work, blow), drawn_blows()))
    traffic.end()
    counts = {it: done.count(it) for it in sorted(set(done))}
    judge(f"{TURNS} blows: {counts}", counts.get("none struck", 0) < TURNS // 3)


@pytest.mark.parametrize("role", ["capture", "recorder", "audit"])
def test_a_second_signal_ends_what_stands_still(work: Path, role: str) -> None:
    """A process that stands still holds nobody up for long: a second signal, a second behind the first, ends all."""
    here = folder_of(work, role)
    out, settings = here / "out.ch11", settings_of(here)
    adds = {RUN: str(out), **({"BPFREC": str(slow_audits(here))} if role == "audit" else {})}
    running = Running(here, LIVE, "--quiet", "--buffer", 4, settings, out, "rx0=1", "rx1=2", adds=adds)
    wait_for("it records", lambda: is_recording(out, out))
    blow = Blow(0, role, signal.SIGSTOP, 0, False)
    first = running.process.pid
    if role == "audit":
        os.kill(first, signal.SIGTERM)
    wait_for(f"{role} runs", lambda: found(blow, out, first))
    stopped = found(blow, out, first)[0]
    os.kill(stopped, signal.SIGSTOP)
    if role != "audit":
        os.kill(first, signal.SIGTERM)
    time.sleep(1.5)
    judge("a first signal waits", running.process.poll() is None)
    begun = time.monotonic()
    os.kill(first, signal.SIGTERM)
    status, told = running.ended()[0], running.told()
    judge("a second one ends all", time.monotonic() - begun < PATIENCE and not processes_of(out), told)
    holds = status != 0 and re.search(r"bpfrec live: \S+.* was ended by signal 9\b", told)
    judge("it says what was ended", holds, told)
    judge("nothing is left", nothing_left(here))
    listed = outcome(BPFREC, "list", out)
    # Where the recorder had written nothing, OUT is removed.
    judge("and OUT is read, if it is there", listed.returncode == 0 if out.exists() else role == "recorder", listed)


def test_a_signal_as_python_ends_changes_no_status(work: Path) -> None:
    """Behind its last line live is there for a moment still, in which Python has its handlers taken away."""
    late = "import builtins, os, signal\n\nclass Late:\n    def __del__(self):\n        os.kill(os.getpid(), signal.SIGINT)\n\n"
    (work / "sitecustomize.py").write_text(f"{late}builtins.late = Late()\n")
    running = begin(work, work / "late.ch11", "--quiet", adds={"PYTHONPATH": str(work)})
    running.end_well()
