"""Runs the first recordings of README.md, by the program that is tried: the third command, what looks at its recording,
and those of an interface. What they print is compared."""

import os
import re
import time
from pathlib import Path

import pytest
from namespace import send_numbered, set_link
from support import BPFREC, ROOT, Running, judge, missing, outcome, run, wait_for

pytestmark = pytest.mark.wanted("bin/bpfrec")
README = (ROOT / "README.md").read_text()
UNPROVED = "bin/bpfrec-unproved"
COUNT = 100
# What the second command sets.
NAMES = "export PATH=$PWD/host/bin:$PATH BPFREC=$PWD/bin/bpfrec-unproved"


@pytest.fixture
def place(work: Path) -> Path:
    """A folder as a fresh checkout, with the program in the place of the one that `make try` leaves."""
    (work / "bin").mkdir()
    for folder in ("examples", "host"):
        (work / folder).symlink_to(ROOT / folder)
    (work / UNPROVED).symlink_to(BPFREC)
    (work / "bin/bpfrec.lua").symlink_to(ROOT / "bin/bpfrec.lua")
    return work


def first_recording() -> tuple[str, str]:
    """The second and the third command of the first recording, and what README says that they print."""
    found = re.search(r"```sh\nmake try\n(.*)\n```\n.*?```text\n(.*?)```\n", README, re.DOTALL)
    judge("README begins with three commands", found is not None and found[1].count("\n") == 1)
    return (found[1], found[2]) if found else ("", "")


def test_the_first_recording_prints_what_readme_has(place: Path) -> None:
    command, printed = first_recording()
    done = outcome("bash", "-c", command, cwd=place)
    judge("it prints what README has", (done.returncode, done.stdout) == (0, printed), done)
    told = run("bash", "-c", f"{NAMES}; bpfrec audit bin/first.ch11", cwd=place)
    judge("and the audit approves", told.endswith("yes other 0\n") and "`yes other 0`" in README, told)
    exported = re.search(r"`(bpfrec export bin/first.*?)`", README)
    made = run("bash", "-c", f"{NAMES}; {exported[1] if exported else 'false'}", cwd=place)
    judge("the capture has the frames of both channels", made == "frames 14 skipped 0\n", made)


def test_tshark_shows_the_first_recording_as_readme_says(place: Path) -> None:
    if missing(("tshark",)):
        pytest.skip("it needs tshark")
    run("bash", "-c", first_recording()[0], cwd=place)
    command = re.search(r"^- `(tshark .*?)`", README, re.MULTILINE)
    env = {**os.environ, "HOME": str(place)}
    rows = run("bash", "-c", command[1] if command else "false", cwd=place, env=env).splitlines()
    judge("tshark shows its frames, programs and ends", len(rows) > 14, rows)


def test_the_commands_of_an_interface_run(place: Path, namespace: None) -> None:
    """As root: `sudo` is left out."""
    if missing(("bin/capture", "ip", "root")):
        pytest.skip("it needs root, iproute2 and bin/capture")
    found = re.search(r"```sh\nmake capture\nsudo (BPFREC=.*)\n(.*)\n(.*)\n```", README)
    judge("README says how the program is named", NAMES in README)
    judge("README goes on to an interface", found is not None)
    live, *others = found.groups() if found else ("", "", "")
    for name, *words in (["rx0", "down"], ["rx0", "name", "eth0"], ["eth0", "up"]):
        set_link(name, *words)
    running = Running(place, "bash", "-c", f"{NAMES}; exec env {live}", cwd=place)
    running.wait_until_told("origin")
    wait_for("it records", (place / "bin/wire.ch11").exists)
    time.sleep(0.3)
    send_numbered("tx0", 0, COUNT)
    time.sleep(0.3)
    running.interrupt()
    status, printed = running.ended()
    judge("Ctrl-C ends it, and the audit approves", status == 0 and printed.endswith("yes other 0\n"), running.told())
    told = "".join(run("bash", "-c", f"{NAMES}; {command}", cwd=place) for command in others)
    judge("the capture has its frames", told.endswith(f"\nframes {COUNT} skipped 0\n"), told)


def test_readme_has_150_lines_at_most() -> None:
    judge("README has 150 lines at most", len(README.splitlines()) <= 150)
