"""Tries the lines `mark TEXT` and `status` beside interfaces: what the facts and the answers have, also at rotations."""

import os
import re
import signal
import subprocess
import threading
import time
from pathlib import Path

import pytest
from bpfrec.formats.facts import Facts, tick_of
from frames import Record, numbered, records
from namespace import send_together, socket_into
from pcapng_blocks import lines_at_frames
from recordings import (
    Traffic,
    begin,
    extracted,
    facts_of,
    has_facts,
    parts_of,
    processes_of,
    recordings,
    settings_of,
    write_settings,
)
from schemas import faults, schema_of
from support import EXPORT, FOLLOW, LIVE, Running, judge, judge_quietly, outcome, present, run, wait_for

pytestmark = [pytest.mark.wanted("bin/bpfrec", "bin/capture", "ip", "tcpdump"), pytest.mark.usefixtures("namespace")]
# Half a second, in ticks.
NEAR = 5 * 10**6
ANSWER = re.compile(r"^marked (\d+) (\S+Z)(?: in (.*))?$", re.MULTILINE)


def marks_of(out: Path) -> list[dict]:
    return facts_of(out)["marks"]


@pytest.mark.timed
def test_a_mark_has_the_counter_of_the_frames_that_come_then(work: Path) -> None:
    """Between two frames, in the facts while the recording goes on and at the end, with its time in UTC."""
    out = work / "marked.ch11"
    running = begin(work, out, "--quiet")
    with socket_into("tx0") as one:
        one.send(numbered(0))
        time.sleep(0.3)
        before = time.time_ns()
        running.type_in("mark  gear up, flaps 20\u00b0 ")
        running.wait_until_told("marked ")
        after = time.time_ns()
        time.sleep(0.3)
        one.send(numbered(1))
    wait_for("the facts have it while the recording goes on", lambda: has_facts(out) and bool(marks_of(out)), 5)
    early = marks_of(out)
    running.end_well()
    (mark,) = marks_of(out)
    judge("the same at the end", early == [mark] and mark["text"] == "gear up, flaps 20\u00b0", mark)
    facts = facts_of(out)
    judge("it is as the schema says", faults(facts, schema_of("facts")) == [])
    judge("the answer has both", ANSWER.findall(running.told()) == [(str(mark["counter"]), mark["time"], "")], mark)
    first, second = records(extracted(work, out, 1))
    judge("it stands between the frames", first.counter < mark["counter"] < second.counter, (first, mark, second))
    moment = Facts(facts).moment_of(mark["counter"]) or 0
    holds = before - 2 * 10**6 <= moment <= after + 2 * 10**6
    judge("its counter is of that moment", holds, (before, moment, after))
    judge("and so is its time", tick_of(before) <= mark["time"] <= tick_of(after), mark)
    judge("which is that of its counter", mark["time"] == Facts(facts).time_of(mark["counter"]), mark)


def test_texts_that_are_none_get_a_named_answer(work: Path) -> None:
    out = work / "bad.ch11"
    running = begin(work, out, "--quiet")
    lines = present(running.process.stdin).fileno()
    for line, fault in [
        (b"mark", "it takes a text, as mark gear up"),
        (b"mark \t ", "it takes a text, as mark gear up"),
        (b"mark " + b"x" * 256, "its text has 256 characters, and 255 at most"),
        (b"mark a\x1b[31mb", "its text has a control character"),
        (b"mark \xff\xfe", "its text is not UTF-8"),
    ]:
        os.write(lines, line + b"\n")
        running.wait_until_told(f"bpfrec live: mark: {fault}")
    running.type_in("mark " + "\u00e9" * 255)
    running.wait_until_told("marked ")
    running.type_in("marks it")
    running.wait_until_told("bpfrec live: marks it: no line marks, and help has all: did you mean mark?")
    running.type_in("stop")
    judge("it ends well", running.ended()[0] == 0, running.told())
    judge("one was none of them", [it["text"] for it in marks_of(out)] == ["\u00e9" * 255])


def test_a_recording_has_so_many_marks_at_most(work: Path) -> None:
    out = work / "many.ch11"
    running = begin(work, out, "--quiet")
    running.type_in("mark 0")
    running.wait_until_told("marked ")
    running.type_in("\n".join(f"mark {number}" for number in range(1, 1_026)))
    fault = f"bpfrec live: mark 1025: {out} has 1,024 marks, and can't have more"
    wait_for("the last is refused", lambda: fault in running.told(), 10)
    running.type_in("stop")
    judge("it ends well", running.ended()[0] == 0, running.told()[-300:])
    judge("the facts have them in order", [it["text"] for it in marks_of(out)] == [str(it) for it in range(1_024)])


class Typing(threading.Thread):
    """Types marks without a pause, and a change of a filter now and then."""

    def __init__(self, running: Running) -> None:
        super().__init__(daemon=True)
        self.running, self.count, self.changes, self.is_ending = running, 0, 0, False
        self.start()

    def run(self) -> None:
        while not self.is_ending:
            self.running.type_in(f"mark m{self.count}")
            self.count += 1
            if self.count % 100 == 0:
                # Each keeps all, and is another one.
                self.changes += 1
                self.running.type_in(f"set 2 len >= {self.changes}")
            time.sleep(0.005)

    def end(self) -> None:
        self.is_ending = True
        self.join()


@pytest.mark.timed
def test_lines_at_rotations_are_done_once(work: Path) -> None:
    """Each mark is in the facts of one recording, in order, and each change of a filter is installed once, of many
    lines that are typed while recordings follow one another."""
    out = work / "turn.ch11"
    running = begin(work, out, "--quiet", "--every", 1)
    typing, traffic = Typing(running), Traffic()
    wait_for("recordings follow", lambda: len(recordings(work, "turn")) >= 6, 30)
    typing.end()
    running.type_in("next\nmark last")
    wait_for("all are answered", lambda: running.told().count("marked ") == typing.count + 1, 20)
    time.sleep(0.2)
    traffic.end()
    running.type_in("stop")
    judge_quietly("it ends well", running.ended()[0] == 0, running.told()[-500:])
    found = [(it["text"], path) for path in recordings(work, "turn") for it in marks_of(path)]
    judge("each mark is in one", [it for it, _ in found] == [*(f"m{it}" for it in range(typing.count)), "last"])
    answered = [(int(counter), path) for counter, _, path in ANSWER.findall(running.told())]
    noted = [(it["counter"], str(path)) for path in recordings(work, "turn") for it in marks_of(path)]
    judge("the answers say in which", answered == noted, (answered[:3], noted[:3]))
    installed = re.findall(r"^installed 2 (\d+) \d+ in (.*)$", running.told(), re.MULTILINE)
    judge("each change is answered once", len(installed) == typing.changes, (typing.changes, installed))
    versions = {path: [int(version) for version, it in installed if it == path] for _, path in installed}
    ascending = all(it == list(range(1, len(it) + 1)) for it in versions.values())
    judge("and installed once, as the next version of its recording", ascending, versions)
    judge("marks are where their frames are", are_beside_frames(work), found[:3])
    run(EXPORT, *recordings(work, "turn"), work / "all.pcapng")
    lines = lines_at_frames((work / "all.pcapng").read_bytes())
    shown = [line.split()[-1] for line in lines if line.startswith("mark ")]
    holds = shown == [it for it, _ in found]
    judge("a capture of all has each on one frame, in order", holds, (len(shown), len(found)))


@pytest.mark.timed
def test_follow_shows_each_mark_once_over_all_recordings(work: Path) -> None:
    """Also those whose facts are written once their recording has ended."""
    running = begin(work, work / "turn.ch11", "--quiet", "--every", 1)
    wait_for("a recording", lambda: recordings(work, "turn") != [], 10)
    first = recordings(work, "turn")[0]
    with open(work / "shown.pcapng", "wb") as shown, open(work / "errors", "wb") as errors:
        follower = subprocess.Popen([FOLLOW, first], stdout=shown, stderr=errors)
    typing, traffic = Typing(running), Traffic()
    wait_for("recordings follow", lambda: len(recordings(work, "turn")) >= 5, 30)
    typing.end()
    traffic.end()
    running.type_in("mark last\nstop")
    judge_quietly("it ends well", running.ended()[0] == 0, running.told()[-500:])
    judge_quietly("and follow with it", follower.wait(30) == 0, (work / "errors").read_text())
    lines = lines_at_frames((work / "shown.pcapng").read_bytes())
    left = [line.split()[-1] for line in (work / "errors").read_text().splitlines() if " no frame follows " in line]
    lines += [f"mark {it}" for it in left]
    found = [line.split()[-1] for line in lines if line.startswith("mark ")]
    judge("each once", sorted(found) == sorted([*(f"m{it}" for it in range(typing.count)), "last"]), len(found))
    ends = {it["text"] for path in recordings(work, "turn")[-2:] for it in marks_of(path)}
    judge("those of before with the frames behind them", set(left) <= ends, left)


def are_beside_frames(work: Path) -> bool:
    """Whether each mark is near the time of the frames of its recording: a recorder opens OUT a little earlier or later
    than frames go over."""
    parts: list[list[Record]] = parts_of(work, "turn", 1)
    for path, part in zip(recordings(work, "turn"), parts):
        for mark in marks_of(path):
            if not part or not part[0].counter - NEAR <= mark["counter"] <= part[-1].counter + NEAR:
                return False
    return True


def test_a_mark_does_not_wait_behind_a_filter_that_is_made(work: Path) -> None:
    """So that it has its moment: here tcpdump takes three seconds."""
    (work / "slow").mkdir()
    (work / "slow/tcpdump").write_text('#!/bin/sh\nsleep 3\nexec /usr/bin/tcpdump "$@"\n')
    (work / "slow/tcpdump").chmod(0o755)
    running = begin(work, work / "slow.ch11", "--quiet", adds={"PATH": f"{work}/slow:{os.environ['PATH']}"})
    running.type_in("set 1 udp port 5004")
    time.sleep(0.5)
    running.type_in("mark meanwhile")
    running.wait_until_told("marked ")
    judge("it is ahead", "installed" not in running.told(), running.told())
    running.type_in("status")
    running.wait_until_told("installed 1 1 ")
    wait_for("lines behind it follow", lambda: "RECORDING" in running.told(), 5)
    running.type_in("stop")
    judge("it ends well", running.ended()[0] == 0, running.told())


@pytest.mark.timed
def test_a_mark_that_was_answered_is_in_the_facts_of_a_run_that_is_killed(work: Path) -> None:
    out = work / "killed.ch11"
    running = begin(work, out, "--quiet")
    wait_for("its facts are there", lambda: has_facts(out), 5)
    running.type_in("mark before the end")
    running.wait_until_told("marked ")
    os.kill(running.process.pid, signal.SIGKILL)
    running.process.wait()
    wait_for("nothing runs on", lambda: not processes_of(out))
    judge("it is there", [it["text"] for it in marks_of(out)] == ["before the end"], facts_of(out)["status"])


def test_a_recording_without_facts_takes_no_mark(work: Path) -> None:
    """Of pipes alone."""
    os.mkfifo(work / "a.pipe")
    settings = write_settings(work, f'id = 1\nfeed = "{work}/a.pipe"\nfilter = "{work}/all"')
    running = Running(work, LIVE, settings, work / "o.ch11")
    # So that nobody waits who opens it.
    with open(work / "a.pipe", "r+b", buffering=0):
        wait_for("it records", lambda: (work / "o.ch11").exists(), 10)
        running.type_in("mark here")
        running.wait_until_told(f"bpfrec live: mark here: {work}/o.ch11 has no facts, in which it would stand")
    running.type_in("stop")
    judge("it ends well", running.ended()[0] == 0, running.told())


@pytest.mark.timed
def test_a_line_asks_for_the_status(work: Path) -> None:
    """Without a terminal and a page: each channel with its filter, how often that was changed, and what was written."""
    out = work / "asked.ch11"
    running = begin(work, out, "--quiet", "--every", 1_000, settings=settings_of(work))
    send_together(0, 500)
    running.type_in("set 2 udp port 5004")
    running.wait_until_told("installed 2 1 ")
    time.sleep(1.2)
    running.type_in("status")
    wait_for("it is answered", lambda: "  udp port 5004" in running.told(), 5)
    lines = running.told().splitlines()
    begins = next(at for at, line in enumerate(lines) if line.startswith("RECORDING"))
    told = lines[begins:]
    judge("the recording and its size", re.match(r"asked_00001\.ch11  \d+ s  \d+", told[1]), told)
    judge("the disk", re.match(r"disk .* free", told[2]), told)
    (title,) = [it for it in told if it.startswith("channel ")]
    names = ["channel", "came", "kept", "lost", "came/s", "kept/s", "last", "state,", "filter"]
    judge("a title", title.split() == names, title)
    rows = [it.split() for it in told[told.index(title) + 1 :][:2]]
    judge("each channel", [it[:2] for it in rows] == [["1", "rx0"], ["2", "rx1"]], rows)
    judge("with its filter by now", rows[0][-1] == "all", rows)
    judge("in words, with its changes", rows[1][-5:] == ["udp", "port", "5004", "(1", "change)"], rows[1])
    judge("without colours", "\x1b" not in "".join(told))
    running.type_in("next")
    wait_for("the next recording", lambda: len(recordings(work, "asked")) == 2, 10)
    time.sleep(0.5)
    running.type_in("status")
    wait_for("it is answered", lambda: running.told().count("  udp port 5004") == 2, 5)
    rows = [it.split() for it in running.told().splitlines()[-2:]]
    judge("a filter that was changed stays, and its count", rows[1][-3:] == ["5004", "(1", "change)"], rows)
    running.type_in("stop")
    judge("it ends well", running.ended()[0] == 0, running.told())


def test_with_a_prefilter_a_line_may_mark_and_none_changes_a_filter(work: Path) -> None:
    out = work / "kernel.ch11"
    running = begin(work, out, "--quiet", "--prefilter")
    running.type_in("set 1 arp")
    running.wait_until_told(
        "bpfrec live: set 1 arp: with --prefilter no line changes a filter, since the kernel runs it"
    )
    running.type_in("mark here")
    running.wait_until_told("marked ")
    running.type_in("stop")
    judge("it ends well", running.ended()[0] == 0, running.told())
    judge("the facts have it", [it["text"] for it in marks_of(out)] == ["here"])


def test_help_lists_the_lines(work: Path) -> None:
    running = begin(work, work / "help.ch11", "--quiet")
    running.type_in("help")
    running.wait_until_told("help                prints these lines")
    words = [line.split()[0] for line in running.told().splitlines() if re.match(r"[a-z]+ .*  ", line)]
    running.type_in("stop")
    judge("each", {"set", "mark", "status", "next", "stop", "help"} <= set(words), words)
    told = outcome(LIVE, "--help").stdout
    judge("and so does the command's help", "`mark TEXT`" in told and "`status`" in told)
    judge_quietly("it ends well", running.ended()[0] == 0, running.told())
