"""Tries how each tool of host/ ends where its output is full or closed, at Ctrl-C, and out of memory: by a line and a
status."""

import os
import resource
import signal
import subprocess
from pathlib import Path
from typing import Any

import pytest
from frames import body_of, packet_of
from reading import SAMPLES
from recorder import make_feed, write_settings
from support import (
    CHECK,
    CHECK_SUMS,
    EXPORT,
    FOLLOW,
    INFO,
    LIVE,
    MEBIBYTE,
    PREFLIGHT,
    SALVAGE,
    judge,
    judge_quietly,
    outcome,
    wait_for,
)

pytestmark = pytest.mark.wanted("bin/bpfrec")
FULL, CLOSED = "No space left on device", "Bad file descriptor"
# Those that print, and those that wait for a pipe; all end at a fault of a file with status 3.
PRINTING = (
    "chapter11",
    "check",
    "check_sums",
    "info",
    "info_json",
    "pcapng",
    "salvage",
    "preflight",
    "follow",
)
WAITING = ("check", "check_sums", "info", "pcapng", "salvage")
SECONDS = 60
# What Python itself may say in place of MemoryError, of sources that it knows to be right; hashlib logs what it can't load.
FAULTS_OF_PYTHON = ("SystemError: error return without exception set", "SyntaxError: ", "ERROR:root:code for hash ")


def name_of(tool: str) -> str:
    """How a tool calls itself in a line."""
    verb = {
        "info_json": "info",
        "pcapng": "export",
        "chapter11": "export",
    }
    return tool if tool == "check_sums" else f"bpfrec {verb.get(tool, tool)}"


def words_of(work: Path, tool: str, given: Path | None = None) -> list:
    """The words of a tool, with an input of its own or with this one."""
    make_feed(work / "own.feed", 100)
    settings = write_settings(work, ["own.feed"], ["all"])
    recording, out = given or SAMPLES[1], work / "out"
    words: dict[str, list[object]] = {
        "chapter11": [EXPORT, "--print-setup", "--origin", "0", recording],
        "check": [CHECK, "--no-audit", recording],
        "check_sums": [CHECK_SUMS, recording],
        "info": [INFO, recording],
        "info_json": [INFO, "--json", recording],
        # It reads regular files alone, so it is its OUT that it waits for.
        "pcapng": [EXPORT, "--as=pcapng", "--force", SAMPLES[1], given or out],
        "salvage": [SALVAGE, "--force", recording, out],
        "preflight": [PREFLIGHT, given or settings, "--out", out],
        "follow": [FOLLOW, recording],
    }
    return words[tool]


def judge_ending(what: str, tool: str, done: subprocess.CompletedProcess, fault: str) -> None:
    """Judges a tool that could not print."""
    wanted = (3, f"{name_of(tool)}: -: {fault}\n")
    judge(f"{tool}: {what}", (done.returncode, done.stderr) == wanted, done)


@pytest.mark.parametrize("tool", PRINTING)
def test_a_full_output_ends_a_tool_with_a_line_and_its_status(work: Path, tool: str) -> None:
    with open("/dev/full", "w") as full:
        done = outcome(*words_of(work, tool), stdout=full, stderr=subprocess.PIPE)
    judge_ending("a full output", tool, done, FULL)


@pytest.mark.parametrize("tool", PRINTING)
def test_a_closed_output_ends_a_tool_with_a_line_and_its_status(work: Path, tool: str) -> None:
    words = " ".join(map(str, words_of(work, tool)))
    judge_ending("a closed output", tool, outcome("sh", "-c", f"exec {words} >&-"), CLOSED)


def begin_waiting(work: Path, tool: str) -> tuple[subprocess.Popen, Path]:
    """A tool that waits for a pipe, and the pipe."""
    os.mkfifo(work / "pipe")
    words = [str(it) for it in words_of(work, tool, work / "pipe")]
    running = subprocess.Popen(words, stdout=subprocess.PIPE, stderr=subprocess.PIPE, text=True)
    place = Path(f"/proc/{running.pid}/wchan")
    wait_for(f"{tool} waits", lambda: running.poll() is not None or "wait_for_partner" in place.read_text())
    return running, work / "pipe"


def test_ctrl_c_in_preflight_waits_for_the_program(work: Path) -> None:
    """It opens no pipe, and waits for bpfrec."""
    slow = work / "slow"
    slow.write_text("#!/bin/sh\ntouch is_asked\nexec sleep 60\n")
    slow.chmod(0o755)
    words, env = list(map(str, words_of(work, "preflight"))), {**os.environ, "BPFREC": str(slow)}
    running = subprocess.Popen(words, cwd=work, env=env, stderr=subprocess.PIPE, text=True, start_new_session=True)
    wait_for("bpfrec is asked", (work / "is_asked").exists)
    os.killpg(running.pid, signal.SIGINT)
    told = running.communicate(timeout=SECONDS)[1]
    judge("bpfrec preflight: Ctrl-C", (running.returncode, told) == (130, "bpfrec preflight: interrupted\n"), told)


@pytest.mark.parametrize("tool", WAITING)
def test_ctrl_c_ends_a_tool_without_a_traceback(work: Path, tool: str) -> None:
    running, _ = begin_waiting(work, tool)
    running.send_signal(signal.SIGINT)
    printed, told = running.communicate(timeout=SECONDS)
    name = name_of(tool)
    judge(f"{tool}: Ctrl-C", (running.returncode, told) == (130, f"{name}: interrupted\n"), (printed, told))


def large_input() -> bytes:
    """A recording of two mebibytes, of which each packet must be held."""
    frames = body_of((at, 0, bytes(1_500)) for at in range(300))
    return packet_of(1, frames, 0, 0x68, 0, True) * 5


@pytest.mark.parametrize("tool", [it for it in WAITING if it not in ("check", "check_sums", "pcapng")])
def test_out_of_memory_is_said_in_a_line(work: Path, tool: str) -> None:
    """Memory ends when the input begins. check and check_sums take none for what they read."""
    running, pipe = begin_waiting(work, tool)
    size = int(Path(f"/proc/{running.pid}/statm").read_text().split()[0]) * resource.getpagesize()
    resource.prlimit(running.pid, resource.RLIMIT_AS, (size + MEBIBYTE // 8, size + MEBIBYTE // 8))
    with open(pipe, "wb", buffering=0) as feed:
        try:
            feed.write(large_input())
        except BrokenPipeError:
            pass
    printed, told = running.communicate(timeout=SECONDS)
    name = name_of(tool)
    judge(f"{tool}: no memory", (running.returncode, told) == (4, f"{name}: out of memory\n"), (printed[:200], told))


def under(most: int, *words: object, **more: Any) -> subprocess.CompletedProcess:
    """A run of so many mebibytes of addresses."""
    limit = lambda: resource.setrlimit(resource.RLIMIT_AS, (most * MEBIBYTE, most * MEBIBYTE))
    return outcome(*words, preexec_fn=limit, **more)


def begins_in(most: int) -> bool:
    """Python begins a tool in so many mebibytes. In a little less than it needs Python may end by a fault or hang."""
    try:
        return under(most, CHECK, "--version", seconds=5).returncode == 0
    except subprocess.TimeoutExpired:
        return False


@pytest.fixture(scope="module")
def least() -> int:
    """The mebibytes in which Python begins a tool, and in each larger size too."""
    return 1 + next(it for it in range(80, 0, -1) if not begins_in(it))


@pytest.mark.parametrize("tool", ["chapter11", "check", "follow", "info", "pcapng", "salvage", "preflight", "live"])
def test_a_tool_with_little_memory_works_or_says_so(work: Path, least: int, tool: str) -> None:
    """In each of some sizes of memory a tool does what it does in a larger one, or says that there is none."""
    words = [LIVE, work / "live.ch11", "no_interface"] if tool == "live" else words_of(work, tool)
    name = name_of(tool)
    done = outcome(*words, errors="replace")
    wanted, refused = (done.returncode, done.stderr), 0
    for most in range(least + 2, least + 16, 2):
        found = under(most, *words, errors="replace")
        if any(it in found.stderr for it in FAULTS_OF_PYTHON):
            continue
        told = (found.returncode, found.stderr)
        refused += told != wanted
        lacks = told[0] == 4 and told[1].endswith(f"{name}: out of memory\n") and "Traceback" not in told[1]
        judge_quietly(f"{tool} in {most} mebibytes", told == wanted or lacks, found)
