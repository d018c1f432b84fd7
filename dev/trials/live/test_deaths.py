"""Tries bpfrec live of which live and its guard are killed at once: what they started ends, and what is left is told."""

import contextlib
import os
import random
import signal
import time
from pathlib import Path

import pytest
from frames import numbers_in
from recordings import (
    RUN,
    Traffic,
    begin,
    folder_of,
    is_approved,
    is_recording,
    parts_of,
    process_of,
    processes_of,
    recordings,
    settings_of,
)
from support import BPFREC, CAPTURE, LIVE, Running, judge, judge_quietly, wait_for

pytestmark = [
    pytest.mark.wanted("bin/bpfrec", "bin/capture", "ip"),
    pytest.mark.timed,
    pytest.mark.usefixtures("namespace"),
]
# So many drawn moments, and so long what is left may run.
DRAWN, PATIENCE = 3, 8


def kill_both(running: Running, out: Path) -> None:
    """Live, and its guard, which has the same words."""
    words = processes_of(out)
    first = running.process.pid
    both = [pid for pid, it in words.items() if it == words[first]]
    for pid in both:
        with contextlib.suppress(ProcessLookupError):
            os.kill(pid, signal.SIGKILL)
    running.process.wait()


def judge_end(out: Path) -> None:
    wait_for(lambda: f"all has ended: {processes_of(out)}", lambda: not processes_of(out), PATIENCE)


def test_a_recorder_that_opens_its_pipes_ends(work: Path) -> None:
    out = work / "early.ch11"
    running = Running(work, LIVE, "--quiet", settings_of(work), out, "rx0=1", "rx1=2", adds={RUN: str(out)})
    process_of(out, BPFREC, " record ")
    kill_both(running, out)
    judge_end(out)


def test_one_that_opens_its_pipes_beside_another_ends(work: Path) -> None:
    """The next recorder waits for the capture, which stands still."""
    out = work / "next.ch11"
    running = begin(work, out, "--quiet", "--every", 1)
    capture = process_of(out, CAPTURE)
    wait_for("it records", lambda: is_recording(out, work / "next_00001.ch11"))
    os.kill(capture, signal.SIGSTOP)
    wait_for("the next one waits", lambda: len([it for it in processes_of(out).values() if " record " in it]) == 2, 5)
    kill_both(running, out)
    time.sleep(0.2)
    os.kill(capture, signal.SIGCONT)
    judge_end(out)
    judge("the first is whole", is_approved(work / "next_00001.ch11"))


def test_a_recorder_that_has_opened_its_output_records_what_is_in_its_pipes(work: Path) -> None:
    out = work / "whole.ch11"
    running = begin(work, out, "--quiet", "--every", 1_000)
    traffic = Traffic(many=20)
    wait_for("it records", lambda: is_recording(out, work / "whole_00001.ch11"))
    time.sleep(0.5)
    sent = traffic.sent
    kill_both(running, out)
    judge_end(out)
    traffic.end()
    found = numbers_in(parts_of(work, "whole", 1))
    judge("it is whole", is_approved(work / "whole_00001.ch11"))
    judge("with all frames until then", found == list(range(len(found))) and len(found) >= sent, (len(found), sent))


@pytest.mark.parametrize("moment", [random.Random(it).uniform(0, 1.6) for it in range(DRAWN)])
def test_whenever_both_are_killed_all_ends(work: Path, moment: float) -> None:
    out = work / "drawn.ch11"
    words = ["--quiet", "--every", 1, settings_of(work), out, "rx0=1", "rx1=2"]
    running = Running(work, LIVE, *words, adds={RUN: str(out)})
    traffic = Traffic()
    time.sleep(moment)
    kill_both(running, out)
    judge_end(out)
    traffic.end()
    for recording in recordings(work, "drawn"):
        judge_quietly(f"{recording.name} is whole", recording.stat().st_size == 0 or is_approved(recording))


def test_what_they_left_is_told_at_the_next_start(work: Path) -> None:
    out = work / "first.ch11"
    running = begin(work, out, "--quiet")
    kill_both(running, out)
    judge_end(out)
    left = [f"{work}/private/{it}" for it in os.listdir(work / "private")]
    judge_quietly("a folder is left", len(left) == 1, left)
    for name in ("bpfrec.other", "bpfrec.0123456789abcdeg"):
        (work / "private" / name).mkdir()
    (work / "private/bpfrec.0123456789abcdef").symlink_to(left[0])
    second = begin(work, work / "second.ch11", "--quiet")
    line = f"bpfrec live: left of runs that were killed, and to be removed: {left[0]}\n"
    judge("it is told", second.told().count(line) == 1 and second.told().count("bpfrec.") == 1, second.told())
    here = folder_of(work, "third")
    third = begin(here, here / "third.ch11", "--quiet", adds={"TMPDIR": str(work / "private")})
    judge("one that goes on isn't", third.told().count("bpfrec.") == 1, third.told())
    for start in (second, third):
        start.end_well()
    judge("it is left as it is", Path(left[0]).is_dir())


@pytest.mark.parametrize("words", [[], ["--force"]], ids=["plain", "force"])
def test_files_of_others_beside_the_facts_stay(work: Path, words: list) -> None:
    """OUT.json.new of somebody isn't removed, nor OUT.json.new2, and the facts are written all the same."""
    out = work / "beside.ch11"
    theirs = [work / f"beside.ch11.json.new{it}" for it in ("", "2")]
    for file in theirs:
        file.write_text("precious")
    running = begin(work, out, "--quiet", *words)
    running.end_well()
    judge("they stay", [it.read_text() for it in theirs if it.exists()] == ["precious"] * 2)
    left = sorted(it.name for it in work.glob("beside.ch11*"))
    judge("with the facts, and nothing else", left == [out.name, f"{out.name}.json", *(it.name for it in theirs)], left)
