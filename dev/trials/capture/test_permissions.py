"""Tries what bin/capture may do at all, as it is built: its capabilities, also where the kernel refuses to take them,
the calls of the kernel that it has left, how it is laid out, and a thread that it can't start. Builds under sanitizers
are others, so they aren't tried by this.
"""

import os
import re
from pathlib import Path

import pytest
from frames import records
from namespace import make_pair, take_away
from sample_feeds import capture_of, sample_feed
from support import (
    BPFREC,
    CAPTURE,
    LIBRARY,
    NOBODY,
    Reader,
    Running,
    judge,
    judge_quietly,
    pipe_at,
    run,
    shared_library,
    wait_for,
)

pytestmark = [
    pytest.mark.wanted("bin/bpfrec", "bin/capture", "ip", "objdump"),
    pytest.mark.timed,
    pytest.mark.usefixtures("namespace"),
]
# Capabilities, as bits: CAP_NET_RAW; CAP_DAC_OVERRIDE and CAP_DAC_READ_SEARCH.
NET_RAW, READ_FILES = 1 << 13, 1 << 1 | 1 << 2
# By which rights are given up, as dev/trials/lib/failing_rights.c names it: capset, PR_SET_NO_NEW_PRIVS and PR_CAP_AMBIENT.
GIVING_UP = ["capset", 38, 47]
NOT_GIVEN_UP = "bpfrec capture: privileges can't be given up: Operation not permitted\n"


def test_a_thread_that_cannot_be_started_is_said_by_its_own_error(work: Path) -> None:
    """It is said by its own error, and those that run are ended first. One more ran while interfaces were opened."""
    library = shared_library(LIBRARY / "failing_thread.c", work / "failing_thread.so")
    readers = [Reader(pipe_at(work, f"{at}.pipe")) for at in (0, 1)]
    words = [f"rx{at}={it.path}" for at, it in enumerate(readers)]
    running = Running(work, CAPTURE, *words, adds={"LD_PRELOAD": str(library), "FAILING_THREAD": "2"})
    status, told = running.ended()[0], running.told()
    judge("a thread that can't be started is a fault", status == 1, told)
    judge("it is said by its error", "bpfrec capture: no thread: Resource temporarily unavailable\n" in told, told)
    judge(
        "the one that ran has ended as by a signal",
        "bpfrec capture: rx0 frames 0 " in told and readers[0].all() == b"",
        told,
    )
    os.close(os.open(readers[1].path, os.O_WRONLY | os.O_NONBLOCK))


def judge_limits(process: int, in_force: int, permitted: int) -> None:
    """No thread has more capabilities in force or to be had than these, and none can come; calls of the kernel are
    limited."""
    for task in Path(f"/proc/{process}/task").iterdir():
        status = dict(re.findall(r"^(\w+):\t(\w+)$", (task / "status").read_text(), re.M))
        judge_quietly("capabilities in force", int(status["CapEff"], 16) & ~in_force == 0, status)
        judge_quietly("capabilities that may be had", int(status["CapPrm"], 16) & ~permitted == 0, status)
        judge_quietly("none to come", status["NoNewPrivs"] == "1", status)
        judge("calls of the kernel are limited", status["Seccomp"] == "2", status)


def test_a_capture_has_no_capability_in_force_and_starts_no_program(work: Path) -> None:
    """Once it captures it has no capability in force, can get none, and starts no program."""
    reader = Reader(pipe_at(work, "one.pipe"))
    running = Running(work, CAPTURE, f"rx0={reader.path}")
    running.wait_until_told("origin")
    wait_for("its thread runs", lambda: len(os.listdir(f"/proc/{running.process.pid}/task")) > 1)
    judge_limits(running.process.pid, 0, NET_RAW)
    running.interrupt()
    running.ended()


def test_a_conversion_of_files_cannot_capture(work: Path) -> None:
    """What reads the bytes of files, which may be anybody's, can't capture: root's files alone are left to it."""
    running = Running(work, CAPTURE, "-r", f"{pipe_at(work, 'in.pipe')}={work}/made.feed")
    wait_for("its thread runs", lambda: len(os.listdir(f"/proc/{running.process.pid}/task")) > 1)
    judge_limits(running.process.pid, READ_FILES, READ_FILES)
    running.interrupt()
    running.ended()


def refusing(work: Path, call: object, spared: int = 0) -> dict[str, str]:
    """What has the kernel refuse a call by which rights are given up, from one on."""
    library = shared_library(LIBRARY / "failing_rights.c", work / "failing_rights.so")
    return {"LD_PRELOAD": str(library), "FAILING_RIGHTS": str(call), "SPARED": str(spared)}


@pytest.mark.parametrize("call", GIVING_UP)
def test_nothing_begins_with_privileges_that_cannot_be_given_up(work: Path, call: object) -> None:
    """Nothing begins with privileges that can't be given up: neither a capture nor a conversion."""
    capture_of(sample_feed(work / "three.feed", 1, 3), work / "three.pcap")
    for words in (["rx0=-"], ["-r", f"{work}/three.pcap={work}/made.feed"]):
        running = Running(work, CAPTURE, *words, adds=refusing(work, call))
        ended = running.ended()
        told = running.told()
        judge(f"it ends by status 3 and says why: {words[0]}", ended == (3, "") and told.endswith(NOT_GIVEN_UP), told)
        judge("it hasn't begun", "origin" not in told and not (work / "made.feed").exists(), told)


def test_without_privileges_files_are_converted(work: Path) -> None:
    """Who has none has none to give up: files are converted also where the kernel refuses each such call."""
    capture_of(sample_feed(work / "three.feed", 1, 3), work / "three.pcap")
    adds = refusing(work, "capset")
    for path in (work, *work.iterdir()):
        path.chmod(0o777)
    words = ["-r", f"{work}/three.pcap={work}/made.feed"]
    running = Running(work, CAPTURE, *words, adds=adds, user=NOBODY, group=NOBODY, extra_groups=[])
    status = running.ended()[0]
    judge("it converts", status == 0 and len(records((work / "made.feed").read_bytes())) == 3, running.told())


@pytest.mark.parametrize(
    "spared, line",
    [(1, "bpfrec capture: cap_net_raw can't be put in force: "), (2, "bpfrec capture: cap_net_raw stays in force: ")],
)
def test_a_permission_that_cannot_be_kept_for_later_is_said(work: Path, spared: int, line: str) -> None:
    """Where the permission can't be taken for an interface that comes back, or not given up, a line says so."""
    reader = Reader(pipe_at(work, "one.pipe"))
    running = Running(work, CAPTURE, f"rx0={reader.path}", adds=refusing(work, "capset", spared))
    running.wait_until_told("origin")
    take_away("rx0")
    running.wait_until_told("is taken again once it is back")
    make_pair(0)
    running.wait_until_told(line)
    judge("and the capture goes on", running.process.poll() is None and line in running.told(), running.told())
    running.interrupt()
    running.ended()


def test_the_program_is_built_with_the_usual_hardening() -> None:
    """The program is laid out anew each time it runs, its stack is watched, and what is bound stays so."""
    head, symbols = run("objdump", "-p", CAPTURE), run("objdump", "-T", CAPTURE)
    judge("its place is drawn", "DYNAMIC" in run("objdump", "-f", CAPTURE))
    judge("full RELRO", "RELRO" in head and re.search(r"FLAGS\s+0x0*8|BIND_NOW", head))
    judge(
        "the stack is watched, and copies too",
        "__stack_chk_fail" in symbols and "_chk" in symbols.replace("stack_chk", ""),
    )


def test_the_version_is_that_of_the_project() -> None:
    words = run(CAPTURE, "--version").split()
    judge("--version prints that of the project", words == ["capture", run(BPFREC, "--version").split()[-1]])
