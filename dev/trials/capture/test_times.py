"""Tries that bin/capture gives frames the times that dumpcap gives them, which captures beside it."""

import time
from pathlib import Path

import pytest
from captures import fields_of, ticks
from frames import numbered, records
from namespace import send, send_numbered
from recordings import folder_of
from support import CAPTURE, Reader, Running, judge, origin_told, pipe_at, run

pytestmark = [
    pytest.mark.wanted("bin/capture", "ip", "dumpcap", "tshark"),
    pytest.mark.timed,
    pytest.mark.usefixtures("namespace"),
]
SINGLE, COUNT = 200, 2_000
TICK = 100


def test_times_are_those_of_dumpcap_to_a_tick(work: Path) -> None:
    """Single frames and a burst: the times of both are no more than a tick of 100 ns apart."""
    made, reader = work / "dumpcap.pcapng", Reader(pipe_at(work, "one.pipe"))
    theirs = Running(folder_of(work, "theirs"), "dumpcap", "-q", "-i", "rx0", "-w", made)
    theirs.wait_until_told("File: ")
    ours = Running(folder_of(work, "ours"), CAPTURE, f"rx0={reader.path}")
    ours.wait_until_told("origin")
    time.sleep(0.5)
    for at in range(SINGLE):
        send("tx0", [numbered(at)])
        time.sleep(0.001)
    send_numbered("tx0", SINGLE, COUNT)
    time.sleep(1)
    for running in (ours, theirs):
        running.interrupt()
        running.ended()
    run("chmod", "+r", made)
    origin = origin_told(ours.told())
    seen = [(it.counter * TICK + origin) // TICK % 2**48 for it in records(reader.all())]
    wanted = [ticks(it[1]) for it in fields_of(made)]
    apart = [abs(one - other) for one, other in zip(seen, wanted)]
    judge("both have all frames", len(seen) == len(wanted) == COUNT, (len(seen), len(wanted)))
    judge(f"their times are {max(apart)} ticks apart at most", max(apart) <= 1, apart[:20])
