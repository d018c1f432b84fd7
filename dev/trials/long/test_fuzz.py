"""Runs dev/trials/long/fuzz.py on the inputs that are always the same and for a minute on drawn ones, and on so many drawn ones
alone; `make fuzz` takes an hour."""

import sys

import pytest
from support import BPFREC, LONG, judge, outcome

pytestmark = pytest.mark.wanted("bin/bpfrec", "time")
SECONDS, DRAWN = 60, 600


def test_a_minute_of_drawn_inputs_keeps_no_case() -> None:
    done = outcome(sys.executable, LONG / "fuzz.py", "--seconds", SECONDS, BPFREC, seconds=SECONDS + 540)
    print(done.stdout)
    holds = done.returncode == 0
    judge(f"inputs are drawn for {SECONDS} seconds, and no case is kept", holds, done.stdout + done.stderr)


def test_so_many_drawn_inputs_keep_no_case() -> None:
    done = outcome(sys.executable, LONG / "fuzz.py", "--seed", 2, "--files", DRAWN, BPFREC, seconds=240)
    print(done.stdout)
    judge(f"{DRAWN} inputs are drawn, and no case is kept", done.returncode == 0, done.stdout + done.stderr)
