"""Runs each example of docs/user/using/python.md as it stands, on Python 3.9 and 3.11 where they are here, and reads its
types.

What an example prints is compared with what is known of the recording. Examples with scapy or pandas are left out where
a Python hasn't these, and counted.
"""

import json
import os
import re
import shutil
import subprocess
from pathlib import Path
from typing import NamedTuple

import pytest
from expected_facts import facts_of_run
from frames import Record, records
from pythons import PROMISED, interpreter
from recorder import extracted
from rows import flight_of
from support import ROOT, judge, judge_quietly, outcome

pytestmark = pytest.mark.wanted("bin/bpfrec")
PAGE = ROOT / "docs/user/using/python.md"
BLOCKS = re.findall(r"^```python\n(.*?)^```$", PAGE.read_text(), re.MULTILINE | re.DOTALL)
NOON = 1_764_590_400_250_000_000
ORIGIN = "1764590400.250000000"
PACKAGES = ("scapy", "pandas")


class Flight(NamedTuple):
    """The folder of a recording with facts, a second one, and the frames of the first one's channels."""

    folder: Path
    feeds: dict[int, list[Record]]


@pytest.fixture(scope="module")
def flight(place: Path) -> Flight:
    recording = flight_of(place)
    interfaces = [{"interface": f"eth{it - 1}", "channel": it} for it in (1, 2)]
    said = {**facts_of_run([(ORIGIN, 0, None)]), "interfaces": interfaces}
    (place / "flight.ch11.json").write_text(json.dumps(said))
    shutil.copy(recording, place / "wing.ch11")
    (place / "wing.ch11.json").write_text(json.dumps({**said, "host": "wing"}))
    return Flight(place, {it: records(extracted(recording, it, place / "one.feed")) for it in (1, 2)})


def printed(flight: Flight, python: str, text: str) -> str:
    """What an example prints; it is left out where its package is missing."""
    for package in [it for it in PACKAGES if re.search(rf"^(?:import|from) {it}\b", text, re.MULTILINE)]:
        if outcome(python, "-c", f"import {package}", seconds=120).returncode:
            pytest.skip(f"{python} has no {package}")
    env = {**os.environ, "PYTHONPATH": str(ROOT / "host"), "PYTHONDONTWRITEBYTECODE": "1"}
    done = outcome(python, "-W", "error::ResourceWarning", "-c", text, cwd=flight.folder, env=env, seconds=120)
    judge_quietly(f"it ends well on {python}", (done.returncode, done.stderr) == (0, ""), done)
    return done.stdout


def in_order(flight: Flight) -> list[tuple[int, Record]]:
    """The frames of both channels by time."""
    found = [(channel, it) for channel, feed in flight.feeds.items() for it in feed]
    return sorted(found, key=lambda it: (it[1].counter, it[0]))


def time_of(record: Record) -> int:
    return NOON + 100 * record.counter


def judge_first(flight: Flight, told: str) -> None:
    """A line for each frame."""
    wanted = {f"{channel} {time_of(it)} {len(it.frame)} {bool(it.marks & 1)}" for channel, it in in_order(flight)}
    judge("each frame is printed", set(told.splitlines()) == wanted and len(wanted) == 14, told)


def judge_slices(flight: Flight, told: str) -> None:
    """A line for each channel, and then one for each frame, by time."""
    lines = told.splitlines()
    judge("channels with their names", lines[:2] == ["1 eth0 11", "2 eth1 3"], told)
    judge("and frames by time", [int(it.split()[-1]) for it in lines[2:]] == [it for it, _ in in_order(flight)], told)


def judge_filters(_: Flight, told: str) -> None:
    lines = told.splitlines()
    judge("both filters", [it.split()[:3] for it in lines[:2]] == [["1", "0", "0"], ["2", "0", "0"]], told)
    judge("both ends, and the facts", lines[2:4] == ["1 50 11", "2 60 3"] and lines[4].startswith("fc1 "), told)


def judge_damage(_: Flight, told: str) -> None:
    judge("no place is damaged", told == "14 frames, 0 damaged places\n", told)


def judge_several(flight: Flight, told: str) -> None:
    lines = told.splitlines()
    wanted = ["1 eth0 fc1 1", "2 eth1 fc1 2", "3 eth0 wing 1", "4 eth1 wing 2"]
    judge("four channels", lines[:4] == wanted, told)
    both = [it for channel, _ in in_order(flight) for it in (channel, channel + 2)]
    judge("by time", sorted(json.loads(lines[4])) == sorted(both) and json.loads(lines[4])[:2] == both[:2], told)


def judge_scapy(flight: Flight, told: str) -> None:
    lines = told.splitlines()
    holds = len(lines) == len(flight.feeds[1]) and all(" 50001 " in it for it in lines)
    judge("each frame of the channel", holds, told)


def judge_pandas(flight: Flight, told: str) -> None:
    sizes = {channel: sum(len(it.frame) for it in feed) for channel, feed in flight.feeds.items()}
    rows = [it.split() for it in told.splitlines()]
    for channel, feed in flight.feeds.items():
        holds = [str(channel), str(len(feed)), str(sizes[channel])] in [it[:3] for it in rows]
        judge_quietly(f"channel {channel}", holds)
    judge("counts and bytes of both channels, and the filters", told.count("6 0 0 ") >= 2 or "listing" in told, told)


JUDGES = {
    "the_three_lines": judge_first,
    "by_channel_and_time": judge_slices,
    "filters_ends_and_facts": judge_filters,
    "damaged_recordings": judge_damage,
    "several_recordings": judge_several,
    "scapy": judge_scapy,
    "pandas": judge_pandas,
}


def test_the_page_begins_with_its_three_lines() -> None:
    lines = BLOCKS[0].splitlines()
    judge("three lines", len(lines) == 3 and lines[0] == "import bpfrec", lines)
    judge("each example is judged", len(BLOCKS) == len(JUDGES))


@pytest.mark.parametrize("python", PROMISED)
@pytest.mark.parametrize("name", JUDGES)
def test_each_example_runs_as_it_stands(flight: Flight, name: str, python: str) -> None:
    found = interpreter(python)
    if found is None:
        pytest.skip(f"{python} isn't here")
    JUDGES[name](flight, printed(flight, found, BLOCKS[list(JUDGES).index(name)]))


def test_the_examples_have_right_types(place: Path) -> None:
    """By the types that the package promises, strictly, as of Python 3.9."""
    if not shutil.which("mypy"):
        pytest.skip("mypy is missing: apt-get install mypy")
    files = []
    for name, text in zip(JUDGES, BLOCKS):
        files.append(place / f"example_of_{name}.py")
        files[-1].write_text(text)
    (place / "mypy.ini").write_text(
        "[mypy]\nstrict = true\npython_version = 3.9\n" "[mypy-scapy.*,pandas.*]\nignore_missing_imports = true\n"
    )
    env = {**os.environ, "MYPYPATH": str(ROOT / "host")}
    words = ["mypy", "--config-file", place / "mypy.ini", "--cache-dir", place / "cache", *files]
    done = subprocess.run([str(it) for it in words], text=True, capture_output=True, env=env, cwd=place, check=False)
    judge("mypy finds nothing", done.returncode == 0, done.stdout + done.stderr)
