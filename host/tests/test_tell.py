"""Tries how bpfrec tell finds the socket of a run, and which line its words are."""

import os
import socket
import subprocess
from collections.abc import Iterator
from pathlib import Path
from typing import Any

import pytest
from bpfrec_tools.tell.command import line_of, socket_of
from support import TOOLS, judge, judge_same, outcome


@pytest.fixture
def bound(work: Path) -> Iterator[Path]:
    """A socket beside a run's recordings, in the folder that is the current one."""
    before = os.getcwd()
    os.chdir(work)
    with socket.socket(socket.AF_UNIX) as listening:
        listening.bind("flight.control")
        yield work
    os.chdir(before)


def judge_refused(status: int, said: str, *words: object, **more: Any) -> None:
    """Judges the status and what is said of words that no run takes."""
    done = outcome(TOOLS / "tell", *words, **more)
    judge_same(f"{words}", (done.returncode, done.stdout, done.stderr), (status, "", f"bpfrec tell: {said}\n"))


@pytest.mark.parametrize(
    "name", ["flight.control", "flight.ch11", "flight", "flight_00003.ch11", "flight.toml", "other.toml", "other"]
)
def test_the_socket_is_found_by_its_path_the_runs_name_or_its_settings(bound: Path, name: str) -> None:
    Path("other.toml").write_text('[run]\nout = "o.ch11"\ncontrol = "flight.control"\n')
    judge(name, socket_of(name) == "flight.control", socket_of(name))


@pytest.mark.parametrize("name, beside", [("plain.ch11", "plain.control"), ("none", "none.control")])
def test_where_there_is_none_the_name_is_said(bound: Path, name: str, beside: str) -> None:
    Path("plain.ch11").write_bytes(b"")
    ended = ": the run has ended, and plain.ch11 is its last recording" if name != "none" else ""
    judge_refused(3, f"{name}: nobody listens there, or at {beside}{ended}", name, "status", cwd=bound)


def test_a_recording_that_was_written_tells_of_its_end(bound: Path) -> None:
    for number in (1, 2):
        Path(f"ended_{number:05}.ch11").write_bytes(b"")
    for name in ("ended", "ended.ch11", "ended_00002.ch11"):
        end = "the run has ended, and ended_00002.ch11 is its last recording"
        judge_refused(3, f"{name}: nobody listens there, or at ended.control: {end}", name, "status", cwd=bound)


def test_a_line_ahead_of_its_run_is_put_in_order(bound: Path) -> None:
    for given, order in {
        ("mark", "flight.ch11", "gear", "up"): "flight.ch11 mark gear up",
        ("set", "2", "arp", "flight.toml"): "flight.toml set 2 arp",
        ("next",): "RUN next",
    }.items():
        judge_refused(2, f"RUN comes first: bpfrec tell {order}", *given, cwd=bound)


def test_a_line_may_come_by_standard_input(bound: Path) -> None:
    done = outcome(TOOLS / "tell", cwd=bound)
    judge("RUN is missing", done.returncode == 2 and done.stderr.endswith("are required: RUN\n"), done)
    done = outcome(TOOLS / "tell", "none", stdin=subprocess.DEVNULL, cwd=bound)
    judge("LINE isn't", done.returncode == 3 and "nobody listens" in done.stderr, done)


# What [run] says, and the socket that is looked for beside the settings.
MEANT = {
    'control = "other.control"': "other.control",
    'out = "rec/flight.ch11"': "rec/flight.control",
    'every = "5s"': "set.control",
    'out = "o.ch11"\ncontrol = "/nowhere/c"': "/nowhere/c",
}


@pytest.mark.parametrize("run", MEANT)
def test_the_socket_of_settings_in_another_folder(bound: Path, run: str) -> None:
    """Beside the settings, or in the folder where live was started; where there is none it is named."""
    folder = bound / "host2"
    (folder / "rec").mkdir(parents=True)
    (folder / "set.toml").write_text(f"[run]\n{run}\n")
    line = f"host2/set.toml: nobody listens at {os.path.join('host2', MEANT[run])}"
    judge_refused(3, line, "host2/set.toml", "status", cwd=bound)
    (folder / "set.toml").write_text('[run]\nout = "o.ch11"\ncontrol = "flight.control"\n')
    judge("one in this folder", socket_of("host2/set.toml") == "flight.control")
    with socket.socket(socket.AF_UNIX) as listening:
        listening.bind("host2/flight.control")
        judge("one beside the settings goes ahead", socket_of("host2/set.toml") == "host2/flight.control")


def test_settings_whose_run_is_no_table_are_refused(work: Path) -> None:
    (work / "set.toml").write_text("run = 3\n")
    line = "set.toml: run: a number, and it must be a table, as [run] begins it"
    judge_refused(2, line, "set.toml", "status", cwd=work)


@pytest.mark.parametrize("wait", [["--wait=9"], ["--wait", "9"]])
def test_an_option_may_stand_behind_run(bound: Path, wait: list[str]) -> None:
    done = outcome(TOOLS / "tell", "none", *wait, "mark", "--wait", cwd=bound)
    judge("it is none of the line", (done.returncode, done.stdout) == (3, ""), done)
    done = outcome(TOOLS / "tell", "none", "--wait", "x", cwd=bound)
    judge("and is judged", done.returncode == 2 and "argument --wait" in done.stderr, done)


LINES: dict[str, list[str]] = {
    "set 7 udp port 5004": ["set", "7", "udp", "port", "5004"],
    "set 7 udp port 53": ["set", "7", "udp port 53"],
    'set "bus A" udp': ["set", "bus A", "udp"],
    "set 7": ["set", "7"],
    "mark gear up now": ["mark", "gear up", "now"],
    "status": ["status"],
    "": [],
}


@pytest.mark.parametrize("line", LINES)
def test_words_are_a_line(line: str) -> None:
    judge(line, line_of(LINES[line]) == line, line_of(LINES[line]))


def test_an_empty_filter_is_refused() -> None:
    judge_refused(2, "FILTER is empty; all keeps all frames", "flight.ch11", "set", "1", "")


def test_a_line_feed_in_a_line_is_refused() -> None:
    judge_refused(2, "LINE has a line feed, and so it is more than one", "flight.ch11", "mark", "a\nstop")


def test_a_run_that_does_not_answer_is_waited_for_no_longer_than_is_said(bound: Path) -> None:
    with socket.socket(socket.AF_UNIX) as silent:
        silent.bind("silent.control")
        silent.listen()
        line = "silent.control: it doesn't answer"
        judge_refused(3, line, "--wait=0.2", "silent.control", "status", cwd=bound, seconds=10)
