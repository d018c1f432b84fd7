"""Tries bpfrec live whose recorder is killed, as by the kernel where memory is short: the next recording begins."""

import os
import signal
import subprocess
import time
from pathlib import Path

import pytest
from frames import numbers_in
from namespace import send_together
from recordings import (
    Traffic,
    begin,
    facts_of,
    is_approved,
    is_recording,
    nothing_left,
    parts_of,
    process_of,
    processes_of,
    recordings,
)
from support import BPFREC, CAPTURE, Running, judge, judge_quietly, outcome, wait_for

pytestmark = [
    pytest.mark.wanted("bin/bpfrec", "bin/capture", "ip"),
    pytest.mark.timed,
    pytest.mark.usefixtures("namespace"),
]
PAUSE = 0.5
WANTED_KILLED = [(it, "failed", None) for it in ("rx0", "rx1")]


def kill_recorder(out: Path, file: Path) -> None:
    """Kills the recorder of this file."""
    wait_for(f"{file.name} is recorded", lambda: is_recording(out, file), 10)
    os.kill(process_of(out, BPFREC, " record "), signal.SIGKILL)


@pytest.mark.parametrize("words", [["--every", 1_000], ["--size", 10_000_000]], ids=["every", "size"])
def test_the_next_recording_begins_with_the_frames_that_came_meanwhile(work: Path, words: list) -> None:
    out = work / "kill.ch11"
    running = begin(work, out, "--quiet", *words)
    traffic = Traffic()
    wait_for("it records", lambda: is_recording(out, work / "kill_00001.ch11"))
    time.sleep(PAUSE)
    before = traffic.sent
    kill_recorder(out, work / "kill_00001.ch11")
    wait_for("a next one is recorded", lambda: is_recording(out, work / "kill_00002.ch11"), 5)
    time.sleep(PAUSE)
    sent = traffic.end()
    time.sleep(0.2)
    running.interrupt()
    status, told = running.ended()[0], running.told()
    judge("the status is the killed one's", status == 128 + signal.SIGKILL and nothing_left(work), (status, told))
    judge("it is told once", told.count("record was ended by signal 9: ") == 1, told)
    judge("and so is the next", told.count("bpfrec live: the next recording begins\n") == 1, told)
    first, second = recordings(work, "kill")
    facts = [facts_of(it) for it in (first, second)]
    holds = [(it["state"], it["status"]) for it in facts] == [("ended", 137), ("ended", 0)]
    judge("the facts say which was cut", holds, [(it["state"], it["status"], it["audit"]) for it in facts])
    listed = outcome(BPFREC, "list", first)
    judge("the cut one is there and is read", listed.returncode == 0 or "Truncated" in listed.stdout + listed.stderr)
    found = numbers_in(parts_of(work, "kill", 1)[1:])
    judge("the next one has all frames from soon on", is_approved(second) and found[-1] == sent - 1, found[-3:])
    judge("without a gap", found == list(range(found[0], sent)) and found[0] <= before + 50, (found[0], before))


def test_ten_in_a_row_within_a_minute_end_the_run(work: Path) -> None:
    out = work / "kill.ch11"
    running = begin(work, out, "--quiet", "--every", 1_000)
    for number in range(1, 11):
        judge_quietly(f"number {number}: it goes on: {running.told()}", running.process.poll() is None)
        kill_recorder(out, work / f"kill_{number:05}.ch11")
    status, told = running.ended()[0], running.told()
    line = "bpfrec live: 10 recorders in a row were killed within a minute: the recording ends\n"
    judge("it ends with a line", status == 128 + signal.SIGKILL and told.count(line) == 1, told)
    judge("and nothing is left", nothing_left(work) and not processes_of(out))


def recorder_that_dies_at_once(work: Path) -> Path:
    """The program, whose recorder opens its two pipes, writes 64 bytes and is killed then, once there is a file for it."""
    made = work / "bpfrec"
    opens = 'out=$3; set -- $(sed -n "s/^feed = .\\(.*\\)./\\1/p" "$2"); exec 3< "$1" 4< "$2"'
    dies = f'rm {work}/dies; {opens}; head -c 64 "{work}/kill_00001.ch11" > "$out"; kill -9 $$'
    made.write_text(f'#!/bin/sh\nif [ "$1" = record ] && [ -e {work}/dies ]; then {dies}; fi\nexec {BPFREC} "$@"\n')
    made.chmod(0o755)
    return made


def test_one_that_is_killed_as_soon_as_it_has_written_has_facts_and_its_place_in_the_chain(work: Path) -> None:
    """Before anybody saw that it had opened its recording."""
    out = work / "kill.ch11"
    adds = {"BPFREC": str(recorder_that_dies_at_once(work))}
    running = begin(work, out, "--quiet", "--every", 1_000, adds=adds, stdin=subprocess.PIPE)
    wait_for("it records", lambda: is_recording(out, work / "kill_00001.ch11"))
    send_together(0, 10)
    (work / "dies").touch()
    running.type_in("next")
    wait_for("the third one is recorded", lambda: is_recording(out, work / "kill_00003.ch11"))
    running.interrupt()
    judge("it ends", running.ended()[0] == 137, running.told())
    facts = [facts_of(it) for it in recordings(work, "kill")]
    judge("each has ended", [it["status"] for it in facts] == [0, 137, 0], facts)
    before = [it["before"]["recording"] for it in facts[1:]]
    judge("each is behind the one before", before == ["kill_00001.ch11", "kill_00002.ch11"], before)
    following = [it["next"] for it in facts]
    judge("each names the next", following == ["kill_00002.ch11", "kill_00003.ch11", None], following)


def noted_links(work: Path) -> str:
    """What the capture has noted."""
    return "".join(it.read_text() for it in (work / "private").glob("bpfrec.*/events"))


def test_interfaces_wait_for_a_live_that_is_slow_and_that_is_said(work: Path) -> None:
    """Over three seconds: no frame is lost, and the facts have that nobody read."""
    out = work / "kill.ch11"
    running = begin(work, out, "--quiet", "--every", 1_000)
    wait_for("it records", lambda: is_recording(out, work / "kill_00001.ch11"))
    recorder = process_of(out, BPFREC, " record ")
    os.kill(running.process.pid, signal.SIGSTOP)
    os.kill(recorder, signal.SIGKILL)
    wait_for("it is dead", lambda: not is_recording(out, work / "kill_00001.ch11"))
    traffic = Traffic()
    wait_for("both are noted", lambda: noted_links(work).count('"unread"') == 2, 10)
    os.kill(running.process.pid, signal.SIGCONT)
    wait_for("the next one goes on", lambda: is_recording(out, work / "kill_00002.ch11"), 10)
    sent = traffic.end()
    running.interrupt()
    status, told = running.ended()[0], running.told()
    judge("it ends with the killed one's status", status == 137, told)
    holds = "bpfrec live: rx0: no recorder reads its frames, which wait for the next recording\n" in told
    judge("a line says it", holds, told)
    for channel in (1, 2):
        found = numbers_in(parts_of(work, "kill", channel))
        judge(f"channel {channel} has all", found == list(range(sent)), (found[:1], found[-1:], sent))
    noted = facts_of(work / "kill_00002.ch11")["interruptions"]
    judge("and so do the facts", [(it["why"], it["to"] is None) for it in noted] == [("unread", False)] * 2, noted)


@pytest.mark.parametrize("words", [[], ["--every", 1_000]], ids=["one", "every"])
def test_a_killed_recorder_is_an_alarm(work: Path, words: list) -> None:
    """A recording that none follows ends with it."""
    out, noted = work / "kill.ch11", work / "alarms"
    script = work / "note"
    script.write_text(f'#!/bin/sh\necho "$1 $2 $4" >> {noted}\n')
    script.chmod(0o755)
    running: Running = begin(work, out, "--quiet", "--on-alarm", script, *words)
    first = work / "kill_00001.ch11" if words else out
    kill_recorder(out, first)
    line = f"begins killed the recorder of {first.name} was ended by signal 9\n"
    wait_for("the alarm begins", lambda: noted.exists() and line in noted.read_text(), 10)
    if words:
        running.interrupt()
    status, told = running.ended()[0], running.told()
    follows = "the next recording begins" in told
    judge("it ends", status == 128 + signal.SIGKILL and follows == bool(words), told)


@pytest.mark.parametrize("words", [[], ["--every", 1_000]], ids=["one", "every"])
def test_facts_say_since_when_a_killed_capture_brings_nothing(work: Path, words: list) -> None:
    """It can't note what it held, so they don't look whole."""
    out = work / "cut.ch11"
    running = begin(work, out, "--quiet", *words)
    send_together(0, 50)
    time.sleep(PAUSE)
    os.kill(process_of(out, CAPTURE, ""), signal.SIGKILL)
    told = running.ended()[1], running.told()
    file = recordings(work, "cut")[0] if words else out
    found = facts_of(file)["interruptions"]
    judge("all interfaces", [(it["interface"], it["why"], it["to"]) for it in found] == WANTED_KILLED, (found, told))
    second = 10_000_000
    judge("since the kill", all(PAUSE * second / 2 < it["from"] < 60 * second for it in found), found)
