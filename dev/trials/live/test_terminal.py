"""Tries bpfrec live in the foreground of a terminal with job control: typed lines, Ctrl-Z, fg and Ctrl-C; and
terminals that are closed."""

import fcntl
import os
import pty
import select
import struct
import termios
import time
from pathlib import Path

import pytest
from frames import numbers
from namespace import send_together
from recordings import (
    RUN,
    YES,
    extracted,
    facts_of,
    has_facts,
    is_recording,
    nothing_left,
    process_of,
    processes_of,
    settings_of,
)
from screen import Screen
from support import BPFREC, CAPTURE, LIVE, Running, fill_pipe, judge, judge_quietly, wait_for
from terminal import Terminal

pytestmark = [
    pytest.mark.wanted("bin/bpfrec", "bin/capture", "ip"),
    pytest.mark.timed,
    pytest.mark.usefixtures("namespace"),
]
CTRL_C, CTRL_Z = b"\x03", b"\x1a"


def state_of(pid: int) -> str:
    return Path(f"/proc/{pid}/stat").read_text().rsplit(")", 1)[1].split()[0]


def test_ctrl_z_stops_live_alone_and_ctrl_c_ends_it_well(work: Path) -> None:
    out = work / "terminal.ch11"
    terminal = Terminal(work, out)
    terminal.type_in(f"{LIVE} --quiet {settings_of(work)} {out} rx0=1 rx1=2")
    wait_for(lambda: f"it records: {terminal.shown!r}", lambda: is_recording(out, out), 10)
    live = next(pid for pid, words in processes_of(out).items() if str(LIVE) in words and state_of(pid) != "Z")
    send_together(0, 100)
    terminal.type_in(f"set 2 {work}/none")
    terminal.wait_until_shown(b"installed 2 1 ")
    terminal.press(CTRL_Z)
    terminal.wait_until_shown(b"Stopped")
    lives = [pid for pid, words in processes_of(out).items() if str(LIVE) in words]
    judge("Ctrl-Z stops bpfrec live", "T" in [state_of(pid) for pid in lives], live)
    running = [state_of(process_of(out, program)) for program in (CAPTURE, BPFREC)]
    judge("and neither the capture nor the recorder", "T" not in running, running)
    send_together(100, 100)
    wait_for("what comes meanwhile is in the file", lambda: out.stat().st_size > 0, 5)
    terminal.type_in("fg")
    time.sleep(0.5)
    send_together(200, 100)
    time.sleep(0.3)
    terminal.press(CTRL_C)
    terminal.wait_until_shown(YES.encode())
    terminal.type_in("echo status $?")
    terminal.wait_until_shown(b"status 0\r\n")
    judge("Ctrl-C ends it with its report and audit", YES.encode() in terminal.shown, terminal.shown)
    judge_quietly("nothing is left", nothing_left(work) and not any("live" in it for it in processes_of(out).values()))
    terminal.end()
    judge("all frames are recorded", numbers(extracted(work, out, 1)) == list(range(300)))
    found = numbers(extracted(work, out, 2))
    judge("and of the other channel those before its filter changed", found == list(range(100)), found)


def test_lines_that_are_pasted_at_once_keep_their_answers(work: Path) -> None:
    """Each once and in order, above the table, which stands below them."""
    out = work / "pasted.ch11"
    master, slave = pty.openpty()
    fcntl.ioctl(slave, termios.TIOCSWINSZ, struct.pack("HHHH", 40, 100, 0, 0))
    streams = dict.fromkeys(("stdin", "stdout", "stderr"), slave)
    adds = {RUN: str(out), "TERM": "xterm"}
    takes = lambda: fcntl.ioctl(0, termios.TIOCSCTTY, 0)
    running = Running(work, LIVE, settings_of(work), out, "rx0=1", "rx1=2", adds=adds, preexec_fn=takes, **streams)
    os.close(slave)
    seen = Seen(master)
    wait_for(lambda: f"the table is there: {seen.text()}", lambda: "RECORDING" in seen.text(), 10)
    for count in (3, 6):
        os.write(master, b"mark a\nmark b\nmark c\n")
        seen.wait_until_shown("marked ", count)
        time.sleep(1.5)
    os.write(master, CTRL_C)
    wait_for(lambda: f"the audit: {seen.text()}", lambda: YES in seen.text(), 20)
    shown = seen.text()
    os.close(master)
    running.process.wait(20)
    counters = [str(it["counter"]) for it in facts_of(out)["marks"]]
    answers = [it.split()[1] for it in shown.splitlines() if it.startswith("marked ")]
    judge("each is answered once, in order", len(counters) == 6 and answers == counters, shown)
    judge("no part of a table is left above", shown.count("RECORDING") <= 1, shown)


class Seen:
    """A screen that has what comes from a terminal."""

    def __init__(self, master: int) -> None:
        self.master, self.screen = master, Screen(100, 40)

    def text(self) -> str:
        while select.select([self.master], [], [], 0)[0]:
            try:
                self.screen.write(os.read(self.master, 1 << 16).decode())
            except OSError:
                break
        return self.screen.text()

    def wait_until_shown(self, what: str, count: int) -> None:
        wait_for(lambda: f"{count} of {what!r}: {self.text()}", lambda: self.text().count(what) == count, 10)


@pytest.mark.parametrize("words", [["--quiet"], []], ids=["plain", "table"])
def test_a_terminal_that_is_closed_leaves_facts_with_the_report_and_the_audit(work: Path, words: list) -> None:
    out = work / "closed.ch11"
    master, slave = pty.openpty()
    streams = dict.fromkeys(("stdin", "stdout", "stderr"), slave)
    running = Running(
        work,
        LIVE,
        *words,
        settings_of(work),
        out,
        "rx0=1",
        "rx1=2",
        adds={RUN: str(out), "TERM": "xterm"},
        preexec_fn=lambda: fcntl.ioctl(0, termios.TIOCSCTTY, 0),
        **streams,
    )
    os.close(slave)
    wait_for("it records", lambda: has_facts(out), 10)
    send_together(0, 100)
    time.sleep(0.3)
    os.close(master)
    status = running.process.wait(20)
    facts = facts_of(out)
    judge("the facts have the audit", facts["audit"] is not None and facts["audit"][-1] == YES, facts["audit"])
    judge("and the status of the recording", (facts["state"], facts["status"]) == ("ended", 0), facts["status"])
    judge("that of the run is that of its output", status == 3, status)
    judge("nothing is left", nothing_left(work) and not processes_of(out))


@pytest.mark.parametrize("is_late", [False, True], ids=["at_once", "at_the_end"])
def test_a_report_that_nobody_reads_is_in_facts_with_the_audit(work: Path, is_late: bool) -> None:
    """Its reader leaves before it comes, or reads nothing and leaves once all else is done."""
    out = work / "unread.ch11"
    reader, writer = os.pipe()
    if is_late:
        fill_pipe(writer)
    else:
        os.close(reader)
    running = Running(work, LIVE, "--quiet", settings_of(work), out, "rx0=1", "rx1=2", stdout=writer)
    os.close(writer)
    wait_for("it records", lambda: has_facts(out), 10)
    running.interrupt()
    wait_for("all else is done", lambda: facts_of(out)["state"] == "ended", 10)
    if is_late:
        time.sleep(0.3)
        os.close(reader)
    status, told = running.process.wait(20), running.told()
    facts = facts_of(out)
    judge(
        "the status is that of the output",
        status == 3 and told.count("bpfrec live: -: standard output takes no more\n") == 1,
        (status, told),
    )
    judge("the facts have the audit", (facts["status"], (facts["audit"] or [""])[-1]) == (0, YES), facts["audit"])
