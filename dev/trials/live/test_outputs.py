"""Tries bpfrec live with a standard error that stands still, and with an OUT that is there."""

import contextlib
import fcntl
import os
import pty
import re
import signal
import time
from pathlib import Path

import pytest
from frames import numbers
from namespace import send_together
from recordings import YES, begin, extracted, facts_of, nothing_left, settings_of
from support import LIVE, Running, fill_pipe, judge, judge_quietly, wait_for

pytestmark = [
    pytest.mark.wanted("bin/bpfrec", "bin/capture", "ip", "cc"),
    pytest.mark.timed,
    pytest.mark.usefixtures("namespace"),
]
MANY = 20_000
F_SETPIPE_SZ = 1031
CTRL_S, CTRL_Q = b"\x13", b"\x11"

# ---- a terminal that stands still


def judge_all_recorded(what: str, work: Path, running: Running, out: Path) -> None:
    status, printed = running.ended()
    judge_quietly(f"{what}: status {status}, {printed}", status == 0 and YES in printed)
    judge(
        f"{what}: all of {MANY} frames on each of two interfaces are recorded, and TERM ends it",
        all(numbers(extracted(work, out, channel)) == list(range(MANY)) for channel in (1, 2)),
    )


def test_standard_error_that_nobody_reads_holds_up_nothing(work: Path) -> None:
    """Standard error is a pipe that nobody reads."""
    reads, writes = os.pipe()
    fcntl.fcntl(writes, F_SETPIPE_SZ, 4096)
    fill_pipe(writes)
    out = work / "full_error.ch11"
    running = Running(work, LIVE, settings_of(work), out, "rx0=1", "rx1=2", stderr=writes)
    wait_for("it records though standard error is full", out.exists, 10)
    send_together(0, MANY)
    time.sleep(1.2)
    os.kill(running.process.pid, signal.SIGTERM)
    judge_all_recorded("a standard error that nobody reads", work, running, out)
    os.close(reads)
    os.close(writes)


class AtTerminal:
    """A run at a terminal of a kind, which Ctrl-S stops, with what it shows."""

    def __init__(self, work: Path, kind: str, out: Path) -> None:
        self.master, self.slave = pty.openpty()
        os.set_blocking(self.master, False)
        words = [LIVE, settings_of(work), out, "rx0=1", "rx1=2"]
        self.running = Running(work, *words, stderr=self.slave, adds={"TERM": kind})
        self.shown = b""

    def wait_until_shown(self, pattern: bytes) -> None:
        def is_shown() -> bool:
            with contextlib.suppress(BlockingIOError):
                self.shown += os.read(self.master, 4096)
            return re.search(pattern, self.shown) is not None

        wait_for(lambda: f"{pattern!r} is shown: {self.shown!r}", is_shown, 10)

    def press(self, key: bytes) -> None:
        os.write(self.master, key)

    def end(self) -> None:
        os.kill(self.running.process.pid, signal.SIGTERM)

    def close(self) -> None:
        os.close(self.master)
        os.close(self.slave)


def test_a_stopped_terminal_that_shows_lines_goes_on(work: Path) -> None:
    """Ctrl-S stops a terminal that shows lines, and Ctrl-Q lets it go on: then those that were left out are counted."""
    out = work / "stopped.ch11"
    terminal = AtTerminal(work, "dumb", out)
    wait_for("it records at a terminal", out.exists, 10)
    terminal.press(CTRL_S)
    send_together(0, MANY)
    time.sleep(2.2)
    terminal.press(CTRL_Q)
    terminal.wait_until_shown(rb"bpfrec capture: [1-9]\d* lines were left out: standard error had no room\r?\n")
    terminal.press(CTRL_S)
    terminal.end()
    judge_all_recorded("a stopped terminal", work, terminal.running, out)
    terminal.close()


def test_a_stopped_terminal_that_shows_a_table_holds_up_nothing(work: Path) -> None:
    """Ctrl-S stops a terminal that shows a table, and nobody lets it go on."""
    out = work / "table.ch11"
    terminal = AtTerminal(work, "xterm", out)
    terminal.wait_until_shown(rb"(?<!NOT )RECORDING")
    terminal.press(CTRL_S)
    send_together(0, MANY)
    time.sleep(2.2)
    terminal.end()
    judge_all_recorded("a stopped table", work, terminal.running, out)
    terminal.close()


# ---- OUT that is there


@pytest.mark.parametrize("name", ["there.ch11", "there.ch11.json"])
def test_an_out_that_exists_is_refused(work: Path, name: str) -> None:
    """A recording that is there, or its facts, is kept."""
    path, out, facts = work / name, work / "there.ch11", work / "there.ch11.json"
    path.write_bytes(b"kept")
    running = Running(work, LIVE, "--quiet", settings_of(work), out, "rx0=1", "rx1=2")
    status, line = (
        running.ended()[0],
        r"bpfrec live: \S+/there\.ch11(\.json)? is there: give it another name, or --force\n",
    )
    judge(
        f"refused: {name} that is there",
        status == 3 and re.fullmatch(line, running.told()) and nothing_left(work),
        running.told(),
    )
    judge("it is kept", path.read_bytes() == b"kept" and not (facts if path == out else out).exists())


@pytest.mark.parametrize("name", ["there.ch11", "there.ch11.json"])
def test_a_name_that_is_there_is_never_opened(work: Path, seen_calls: Path, name: str) -> None:
    (work / name).write_bytes(b"kept")
    (work / "calls").write_text("")
    adds = {"LD_PRELOAD": str(seen_calls), "CALLS": str(work / "calls")}
    running = Running(work, LIVE, "--quiet", settings_of(work), work / "there.ch11", "rx0=1", "rx1=2", adds=adds)
    judge("it is refused", running.ended()[0] == 3, running.told())
    calls = (work / "calls").read_text()
    judge("and was not opened", "/run.py 0\n" in calls and "there.ch11" not in calls, calls[-300:])


def test_a_file_that_takes_the_name_of_out_is_kept(work: Path, seen_calls: Path) -> None:
    """A file that takes the name of OUT just before OUT is created is another's, and is kept."""
    out = work / "comes.ch11"
    (work / "another").write_bytes(b"kept")
    adds = {"LD_PRELOAD": str(seen_calls), "EXCHANGED": str(out), "EXCHANGED_BY": str(work / "another")}
    running = Running(work, LIVE, "--quiet", settings_of(work), out, "rx0=1", "rx1=2", adds=adds)
    status = running.ended()[0]
    judge(
        "it is refused", status == 3 and running.told().endswith(f"bpfrec live: {out}: File exists\n"), running.told()
    )
    judge("and kept", out.read_bytes() == b"kept" and nothing_left(work))


def test_force_records_over_a_recording(work: Path) -> None:
    out = work / "there.ch11"
    out.write_bytes(b"lost")
    (work / "there.ch11.json").write_bytes(b"lost")
    running = begin(work, out, "--force", "--quiet")
    send_together(0, 10)
    time.sleep(0.1)
    running.interrupt()
    status, printed = running.ended()
    judge(
        "--force records over it",
        status == 0
        and YES in printed
        and numbers(extracted(work, out, 1)) == list(range(10))
        and facts_of(out)["state"] == "ended",
    )
