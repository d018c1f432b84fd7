"""Tries bpfrec live where descriptors or watches of files are short: nothing hangs, is left or lost in silence."""

import concurrent.futures
import contextlib
import functools
import os
import resource
import signal
import time
from pathlib import Path

import pytest
from frames import numbers
from namespace import send_together
from recordings import (
    RUN,
    YES,
    Traffic,
    begin,
    extracted,
    folder_of,
    has_facts,
    is_approved,
    nothing_left,
    processes_of,
    recordings,
    settings_of,
)
from support import LIVE, Running, judge, judge_quietly, wait_for

pytestmark = [
    pytest.mark.wanted("bin/bpfrec", "bin/capture", "ip"),
    pytest.mark.timed,
    pytest.mark.usefixtures("namespace"),
]
WATCHES = Path("/proc/sys/fs/inotify/max_user_instances")


def judge_limit(work: Path, limit: int) -> str:
    """A run that may have so many descriptors open from its first recording on: how it ended."""
    here = folder_of(work, f"limit{limit}")
    running = begin(here, here / "out.ch11", "--quiet", "--buffer", 4, "--every", 1)
    resource.prlimit(running.process.pid, resource.RLIMIT_NOFILE, (limit, limit))
    with contextlib.suppress(Exception):
        running.process.wait(2.5)
    with contextlib.suppress(ProcessLookupError):
        os.kill(running.process.pid, signal.SIGTERM)
    status, _ = running.ended()
    told, files = running.told(), recordings(here, "out")
    out = here / "out.ch11"
    wait_for(lambda: f"limit {limit}: {processes_of(out)} run on: {told}", lambda: not processes_of(out), 10)
    judge_quietly(f"limit {limit}: TMPDIR has {os.listdir(here / 'private')}: {told}", nothing_left(here))
    judge_quietly(f"limit {limit}: it tells no line: {told}", told != "" and "Traceback" not in told)
    are_whole = all(is_approved(it) for it in files)
    judge_quietly(f"limit {limit}: status {status}, {files}: {told}", status != 0 or (are_whole and files))
    lacks = [it for it in files if not has_facts(it)]
    judge_quietly(f"limit {limit}: {lacks} have no facts: {told}", not lacks or status != 0 or "has no facts" in told)
    return "recorded" if status == 0 else "failed"


def test_descriptors_that_become_short_cost_no_recording_in_silence(work: Path) -> None:
    traffic = Traffic()
    with concurrent.futures.ThreadPoolExecutor(4) as pool:
        done = list(pool.map(lambda limit: judge_limit(work, limit), range(6, 46, 2)))
    traffic.end()
    counts = {it: done.count(it) for it in sorted(set(done))}
    judge(f"few descriptors: {counts}", counts.get("recorded", 0) > 0)


@pytest.mark.parametrize("options", [[], ["--every", 1], ["--status", "0"]], ids=["single", "every", "status"])
def test_too_few_descriptors_are_refused_ahead_and_nothing_is_left(work: Path, options: list) -> None:
    """With the number that is needed, and with a hard limit that has room, it records."""
    needed = {"--every": 65, "--status": 89}.get(options[0] if options else "", 49)
    for limits in [(6, 6), (10, 10), (16, 16), (needed - 1, needed - 1), (needed, needed), (16, 999)]:
        here = folder_of(work, f"limits{limits[0]}_{limits[1]}")
        words = ["--quiet", *options, settings_of(here), here / "out.ch11", "rx0=1", "rx1=2"]
        set_limits = functools.partial(resource.setrlimit, resource.RLIMIT_NOFILE, limits)
        running = Running(here, "/usr/bin/python3", LIVE, *words, adds={RUN: str(here)}, preexec_fn=set_limits)
        if limits[1] >= needed:
            running.wait_until_told("bpfrec capture: origin")
            running.end_well()
        else:
            line = f"bpfrec live: it needs {needed} descriptors, and may have {limits[1]}: ulimit -n {needed}\n"
            judge(f"{limits}: refused", (running.ended()[0], running.told()) == (3, line), running.told())
        wait_for("all has ended", functools.partial(none_of, here), 10)
        is_refused = limits[1] < needed
        judge_quietly(f"{limits}: nothing is left", nothing_left(here) and not (is_refused and list(here.glob("out*"))))


def none_of(here: Path) -> bool:
    """Whether no process of a folder is left."""
    return not processes_of(here)


@pytest.mark.parametrize("words", [[], ["--every", 1], ["--size", 20_000]], ids=["single", "every", "size"])
def test_without_watches_files_are_looked_at(work: Path, words: list) -> None:
    """Where the kernel has no watches left, files are looked at now and then."""
    before = WATCHES.read_text()
    WATCHES.write_text("0")
    try:
        running = begin(work, work / "looked.ch11", "--quiet", *words)
        wait_for("facts", lambda: any(has_facts(it) for it in work.glob("looked*.ch11")), 5)
        send_together(0, 500)
        time.sleep(1.5)
        send_together(500, 500)
        time.sleep(0.5)
        running.interrupt()
        status, printed = running.ended()
    finally:
        WATCHES.write_text(before)
    files = recordings(work, "looked") if words else [work / "looked.ch11"]
    judge("it records", status == 0 and printed.count(YES) == len(files) and nothing_left(work), running.told())
    judge("recordings follow one another", len(files) >= 2 or not words, files)
    judge("all frames", [n for it in files for n in numbers(extracted(work, it, 1))] == list(range(1_000)))


def test_without_watches_a_moved_recording_is_told(work: Path) -> None:
    before = WATCHES.read_text()
    WATCHES.write_text("0")
    try:
        running = begin(work, work / "here.ch11", "--quiet")
        wait_for("facts", lambda: has_facts(work / "here.ch11"), 5)
        (work / "here.ch11").rename(work / "there.ch11")
        running.wait_until_told("was moved to")
        running.interrupt()
        status = running.ended()[0]
    finally:
        WATCHES.write_text(before)
    judge("a recording that is moved is told", status == 0 and is_approved(work / "there.ch11"), running.told())
