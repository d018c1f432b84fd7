"""Runs dev/trials/long/soak.py for three minutes; by hand it takes an hour."""

import sys

import pytest
from support import LONG, judge, outcome

pytestmark = pytest.mark.wanted("bin/bpfrec")
SECONDS = 180


def test_three_minutes_of_64_channels_are_recorded_right() -> None:
    done = outcome(sys.executable, LONG / "soak.py", "--seconds", SECONDS, seconds=SECONDS + 120)
    print(done.stdout)
    judge(f"64 channels are recorded for {SECONDS} seconds", done.returncode == 0, done.stdout + done.stderr)
