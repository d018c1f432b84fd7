"""Tries `capture --counts`: what is counted of each interface, as lines of JSON on a descriptor."""

import fcntl
import json
import os
import re
import signal
import subprocess
import time
from pathlib import Path
from typing import Any

import pytest
from frames import numbers
from namespace import send_numbered
from support import CAPTURE, Reader, Running, judge, judge_quietly, pipe_at, wait_for

pytestmark = [
    pytest.mark.wanted("bin/bpfrec", "bin/capture", "ip"),
    pytest.mark.timed,
    pytest.mark.usefixtures("namespace"),
]
SENT = 300
COUNTED = ("frames", "bytes", "dropped", "missed", "skipped", "waited")
# Room for a line, and not for two.
PIPE_LEN, ROOM_LEN = 4_096, 200
RECORD_LEN = 73


def begin(work: Path, writes: int, *interfaces: str) -> Running:
    """Captures interfaces quietly, with their counts on a descriptor, which it alone has then."""
    routes = [f"{it}={work}/{it}.pipe" for it in interfaces]
    words = ["--quiet", "--counts", writes, "--events", work / "events", *routes]
    running = Running(work, CAPTURE, *words, pass_fds=(writes,))
    os.close(writes)
    running.wait_until_told("origin")
    return running


def objects_of(data: bytes) -> list[dict[str, Any]]:
    judge_quietly("each line is whole", data.endswith(b"\n"), data)
    return [json.loads(it) for it in data.splitlines()]


def printed(running: Running, interface: str) -> list[int]:
    """The counts of the one line that was printed of an interface."""
    (line,) = re.findall(rf"bpfrec capture: {interface} frames .*", running.told())
    return [int(it) for it in re.findall(r" (\d+)", line)]


def test_an_object_comes_each_second_for_each_interface_and_at_its_end(work: Path) -> None:
    """Also with --quiet, by which the last counts alone are printed; the last are those that are printed and noted."""
    feeds = [Reader(pipe_at(work, f"rx{at}.pipe")) for at in range(2)]
    reads, writes = os.pipe()
    running = begin(work, writes, "rx0", "rx1")
    send_numbered("tx0", 0, SENT)
    time.sleep(3.5)
    running.interrupt()
    status = running.ended()[0]
    with open(reads, "rb") as file:
        objects = objects_of(file.read())
    noted = [it for it in objects_of((work / "events").read_bytes()) if "counts" in it]
    for at, feed in enumerate(feeds):
        mine = [it for it in objects if it["counts"] == f"rx{at}"]
        times = [it["counter"] / 10**7 for it in mine]
        between = [later - sooner for sooner, later in zip(times, times[1:-1])]
        judge("each second", len(mine) in (4, 5) and all(0.5 < it < 1.5 for it in between), times)
        judge("with all frames", mine[-1]["frames"] == len(numbers(feed.all())) == SENT * (1 - at), mine)
        judge("as is printed", [mine[-1][it] for it in COUNTED] == printed(running, f"rx{at}"), mine)
        (last,) = [it for it in noted if it["counts"] == f"rx{at}"]
        judge("and noted", {**mine[-1], "counter": 0} == {**last, "counter": 0}, (mine[-1], last))
    judge("it ends well", status == 0, running.told())


def links_in(work: Path) -> list[dict[str, Any]]:
    return [it for it in objects_of((work / "events").read_bytes()) if "link" in it]


def test_a_feed_that_nobody_reads_waits_for_the_next_reader_and_that_is_noted(work: Path) -> None:
    """Also past the time of --hold; what nobody came for by the end counts as dropped."""
    first = subprocess.Popen(["cat", pipe_at(work, "rx0.pipe")], stdout=subprocess.DEVNULL)
    words = ["--quiet", "--hold", 1, "--events", work / "events", f"rx0={work}/rx0.pipe"]
    running = Running(work, CAPTURE, *words)
    running.wait_until_told("origin")
    first.kill()
    first.wait()
    send_numbered("tx0", 0, SENT)
    wait_for("it is noted", lambda: [it["away"] for it in links_in(work)] == ["unread"])
    time.sleep(0.5)
    second = Reader(pipe_at(work, "rx0.pipe"))
    running.process.send_signal(signal.SIGUSR1)
    wait_for("so is the next reader", lambda: [it["away"] for it in links_in(work)] == ["unread", None])
    wait_for("it has all", lambda: len(second.data) == SENT * RECORD_LEN)
    judge("in order", numbers(bytes(second.data)) == list(range(SENT)))
    running.process.send_signal(signal.SIGTERM)
    judge("it ends well", running.ended()[0] == 0 and " dropped 0 " in running.told(), running.told())


def test_frames_of_a_feed_that_nobody_reads_at_the_end_are_dropped(work: Path) -> None:
    reader = subprocess.Popen(["cat", pipe_at(work, "rx0.pipe")], stdout=subprocess.DEVNULL)
    running = Running(work, CAPTURE, "--quiet", "--hold", 1, f"rx0={work}/rx0.pipe")
    running.wait_until_told("origin")
    reader.kill()
    reader.wait()
    send_numbered("tx0", 0, SENT)
    running.process.send_signal(signal.SIGTERM)
    judge("they are counted", running.ended()[0] == 0 and f" dropped {SENT} " in running.told(), running.told())


def test_a_pipe_without_room_loses_lines_whole_and_stops_nothing(work: Path) -> None:
    """Counts that nobody reads hold up no frame, and come again once somebody does."""
    feed = Reader(pipe_at(work, "rx0.pipe"))
    reads, writes = os.pipe()
    fcntl.fcntl(writes, fcntl.F_SETPIPE_SZ, PIPE_LEN)
    filling = bytes(PIPE_LEN - ROOM_LEN)
    os.write(writes, filling)
    running = begin(work, writes, "rx0")
    for at in range(4):
        send_numbered("tx0", at * SENT, (at + 1) * SENT)
        time.sleep(1)
    wait_for("each frame is recorded", lambda: len(feed.data) == 4 * SENT * RECORD_LEN)
    data = os.read(reads, PIPE_LEN)
    judge("one line found room", data.startswith(filling) and len(objects_of(data[len(filling) :])) == 1, data[-500:])
    time.sleep(1.2)
    running.interrupt()
    status = running.ended()[0]
    with open(reads, "rb") as file:
        objects = objects_of(file.read())
    judge("and others later", status == 0 and len(objects) >= 2 and objects[-1]["frames"] == 4 * SENT, objects)
