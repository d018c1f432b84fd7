"""Tries the tools of host/ as one file."""

import os
import shutil
import sys
from pathlib import Path

import pytest
from reading import SAMPLES
from support import BPFREC, ROOT, judge, run

pytestmark = pytest.mark.wanted("bin/bpfrec")


@pytest.mark.parametrize("place", ["beside", "path"])
def test_the_tools_as_one_file_find_the_program(work: Path, place: str) -> None:
    """The tools as one file, copied by itself, find the program beside them or on PATH."""
    run(ROOT / "dev/package/make_host.py", work / "tool")
    (work / "path").mkdir()
    shutil.copy(BPFREC, (work if place == "beside" else work / "path") / "bpfrec")
    env = {name: value for name, value in os.environ.items() if name != "BPFREC"}
    env["PATH"] = f"{work}/path:{env['PATH']}"
    told = run(sys.executable, work / "tool", "info", SAMPLES[1], env=env)
    judge("the audit is the program's", "audit" in told and "yes other 0" in told, told)
