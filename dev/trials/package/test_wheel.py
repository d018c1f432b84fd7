"""Tries the Python package as pip installs it from a wheel, in a venv."""

import sys
import zipfile
from pathlib import Path

import pytest
from bpfrec import __version__ as VERSION
from reading import SAMPLES
from support import ROOT, judge, judge_quietly, outcome, run

READ = "import bpfrec, sys; print([it.counter for it in bpfrec.open(sys.argv[1])], bpfrec.__file__)"


@pytest.fixture(scope="module")
def wheel() -> Path:
    return ROOT / run("make", "-s", "-C", ROOT, "wheel").strip()


def test_pip_installs_it_in_a_venv_and_it_reads_a_recording(work: Path, wheel: Path) -> None:
    made = outcome(sys.executable, "-m", "venv", work / "venv", seconds=120)
    if made.returncode:
        pytest.skip(f"no venv can be made: {made.stderr.strip()[:80]}")
    python = work / "venv/bin/python"
    done = outcome(python, "-m", "pip", "install", "--no-index", "--no-deps", "-q", wheel, seconds=120)
    judge("it is installed", done.returncode == 0, done)
    told = run(python, "-I", "-c", READ, SAMPLES[1])
    judge("it reads", told.startswith("[") and str(work / "venv") in told, told)
    judge("by its version", f"Version: {VERSION}\n" in run(python, "-m", "pip", "show", "bpfrec"))
    run(python, "-m", "pip", "uninstall", "-y", "-q", "bpfrec")
    left = [it for it in (work / "venv").rglob("bpfrec*") if it.suffix != ".pyc"]
    judge("and nothing of it is left", not left, left)


def test_the_same_sources_make_the_same_wheel(wheel: Path) -> None:
    before = wheel.read_bytes()
    run("make", "-s", "-C", ROOT, "wheel")
    judge("the same bytes", wheel.read_bytes() == before)
    with zipfile.ZipFile(wheel) as archive:
        names = archive.namelist()
    judge_quietly("it is typed", "bpfrec/py.typed" in names)
