"""Makes whole Chapter 11 files of recordings of many channels: what a piece takes doesn't grow with their number."""

import resource
from pathlib import Path

import pytest
from frames import body_of, packet_of
from support import BPFREC, judge, run

pytestmark = pytest.mark.wanted("bin/bpfrec")
PATIENCE = 240
FRAMES = 0x68
FEW, TIMES = 2_000, 16


def seconds_of(work: Path, count: int) -> float:
    """The processor time in which a file is made of this many channels with a frame each."""
    recording, setup, out = work / f"{count}.ch11", work / "setup.toml", work / f"{count}.ch10"
    packets = [packet_of(it, body_of([(it, 0, b"\x55" * 64)]), 0, FRAMES, it, True) for it in range(1, count + 1)]
    recording.write_bytes(b"".join(reversed(packets)))
    setup.write_text('origin = "1764590400"\n')
    before = resource.getrusage(resource.RUSAGE_CHILDREN)
    line = run(BPFREC, "chapter11", recording, setup, out, seconds=PATIENCE)
    after = resource.getrusage(resource.RUSAGE_CHILDREN)
    judge(f"{count} packets", f" packets {count} " in line, line)
    return after.ru_utime + after.ru_stime - before.ru_utime - before.ru_stime


def test_the_time_of_a_file_grows_as_its_channels_do(work: Path) -> None:
    """It was that of their square: 65,534 channels took over a minute and a half."""
    few = max(seconds_of(work, FEW), 0.05)
    many = seconds_of(work, FEW * TIMES)
    judge("little more than the channels", many < 3 * TIMES * few, (few, many))
