"""Tries what becomes of the frames that bin/capture takes: pipes that are full, interfaces that come and go, check
sequences."""

import os
import re
import time
import zlib
from collections.abc import Callable
from pathlib import Path

import pytest
from accounts import judge_fed
from captures import fields_of, is_as_tshark_reads
from frames import numbered, numbers, records
from namespace import long_frames, send, send_numbered, send_together, socket_into
from support import (
    CAPTURE,
    MILLISECOND,
    SECONDS,
    Reader,
    Running,
    judge,
    judge_quietly,
    origin_told,
    pipe_at,
    run,
    wait_for,
)

pytestmark = [
    pytest.mark.wanted("bin/bpfrec", "bin/capture", "ip", "tshark", "dumpcap"),
    pytest.mark.timed,
    pytest.mark.usefixtures("namespace"),
]
FRAMES_OF_A_ROUND = 500
MANY_PROCESSORS = 4


def capture_while(work: Path, sends: Callable[[], object], *words: object) -> tuple[bytes, str]:
    """What `capture` makes of an interface while frames are sent: its feed, and what it told."""
    reader = Reader(pipe_at(work, "one.pipe"))
    running = Running(work, CAPTURE, *words, f"rx0={reader.path}")
    running.wait_until_told("origin")
    sends()
    time.sleep(0.1)
    running.interrupt()
    judge_quietly(f"capture ends well: {running.told()}", running.ended()[0] == 0)
    return reader.all(), running.told()


# ---- interfaces that come and go


def test_a_reader_that_leaves_ends_its_interface_alone(work: Path) -> None:
    left, stays = pipe_at(work, "left.pipe"), Reader(pipe_at(work, "stays.pipe"))
    running = Running(work, CAPTURE, f"rx0={left}", f"rx1={stays.path}")
    with open(left, "rb"):
        running.wait_until_told("origin")
    end = time.monotonic() + SECONDS
    while "its reader has left" not in running.told() and time.monotonic() < end:
        send_together(0, 1)
        time.sleep(0.01)
    before = len(numbers(stays.data))
    send_numbered("tx1", 0, 100)
    wait_for("the other interface goes on", lambda: len(numbers(stays.data)) >= before + 100)
    running.interrupt()
    judge(
        "a reader that leaves ends its interface alone",
        running.ended()[0] == 0 and numbers(stays.all())[-100:] == list(range(100)),
    )


# ---- the pipe and the kernel's buffer


def test_a_reader_that_does_not_read_makes_the_kernel_drop_and_count(work: Path) -> None:
    """A reader that doesn't read: it is waited for, the kernel drops and counts, and what was kept is whole."""
    pipe = pipe_at(work, "full.pipe")
    running = Running(work, CAPTURE, "--buffer", 1, f"rx0={pipe}")
    with open(pipe, "rb", buffering=0) as reader:
        running.wait_until_told("origin")
        time.sleep(0.1)
        sent = 0
        end = time.monotonic() + SECONDS
        while not re.search(r"dropped [1-9]\d* .* waited [1-9]", running.told()) and time.monotonic() < end:
            send_numbered("tx0", sent, sent + 200, 1_500)
            sent += 200
            time.sleep(0.05)
        running.interrupt()
        data = b""
        while part := reader.read(1 << 20):
            data += part
    status = running.ended()[0]
    found = numbers(data)
    counts = judge_fed(running.told(), sent, len(found))
    judge("a full pipe is waited for, and what the kernel drops meanwhile is counted", counts.dropped > 0)
    judge("what was kept is whole and in order", status == 0 and found == sorted(set(found)))


def latencies(work: Path, many: int) -> list[float]:
    """After how many milliseconds single frames are with their reader, ascending."""
    pipe = pipe_at(work, "quick.pipe")
    running = Running(work, CAPTURE, "--quiet", f"rx0={pipe}")
    late = []
    with open(pipe, "rb", buffering=0) as reader, socket_into("tx0") as into:
        running.wait_until_told("origin")
        time.sleep(0.1)
        origin = origin_told(running.told())
        for number in range(many):
            into.send(numbered(number))
            record = reader.read(73)
            now = time.time_ns()
            late.append((now - origin - 100 * int.from_bytes(record[:6], "little")) / MILLISECOND)
            time.sleep(0.002)
        running.interrupt()
        reader.read()
    running.ended()
    return sorted(late)


def test_a_single_frame_is_with_its_reader_within_two_milliseconds(work: Path) -> None:
    """A single frame is with its reader within two milliseconds, in one of ten rounds: other work may delay both. On fewer
    than four processors other trials keep all busy, so there 90 of 100 frames are judged."""
    share_of_most = 99.5 if len(os.sched_getaffinity(0)) >= MANY_PROCESSORS else 90
    for _ in range(10):
        late = latencies(work, FRAMES_OF_A_ROUND)
        shares = {share: late[int(share * len(late) / 100) - 1] for share in (50, 90, 99, 99.5)}
        print(f"ms after a frame's time: {shares}, at most {late[-1]:.3f}; load {os.getloadavg()[0]:.1f}")
        if shares[share_of_most] < 2:
            break
    judge("of the live frames half are with their reader within half a millisecond", shares[50] < 0.5, shares)
    judge(f"and {share_of_most} of 100 within two", shares[share_of_most] < 2, shares)


# ---- what becomes of frames


def test_short_frames_are_padded_and_too_long_ones_passed(work: Path) -> None:
    lengths = [22, 59, 1_514, 9_014, 16_379, 16_380, 17_000]
    frames = [numbered(number, length) for number, length in enumerate(lengths)]
    with long_frames("tx0", "rx0"):
        feed, told = capture_while(work, lambda: send("tx0", frames))
    found = [it.frame for it in records(feed)]
    judge(
        "short frames are padded, and those past a feed's length passed",
        [len(it) for it in found] == [64, 64, 1_518, 9_018, 16_383] and " skipped 2 " in told,
    )
    judge("check sequences are computed", all(zlib.crc32(it[:-4]).to_bytes(4, "little") == it[-4:] for it in found))


@pytest.mark.parametrize("direction, wanted", [("both", [1, 2]), ("in", [1]), ("out", [2])], ids=["both", "in", "out"])
def test_the_direction_that_is_named_is_captured_alone(work: Path, direction: str, wanted: list[int]) -> None:
    def both_ways() -> None:
        send("tx0", [numbered(1)])
        send("rx0", [numbered(2)])

    feed, _ = capture_while(work, both_ways, "--direction", direction)
    judge(f"--direction {direction}", numbers(feed) == wanted, numbers(feed))


def test_a_vlan_tag_stays_where_it_was(work: Path) -> None:
    tagged = numbered(3)[:12] + b"\x81\x00\x00\x64" + numbered(3)[12:]
    feed, _ = capture_while(work, lambda: send("tx0", [tagged]))
    judge("a VLAN tag stays where it was", [it.frame[:-4] for it in records(feed)] == [tagged])


def test_it_captures_promiscuously_unless_told_otherwise(work: Path) -> None:
    seen: list[bool] = []
    calls: list[list[str]] = [[], ["--no-promiscuous"]]
    for words in calls:
        capture_while(work, lambda: seen.append("promiscuity 1" in run("ip", "-d", "link", "show", "rx0")), *words)
    judge("promiscuous unless told otherwise", seen == [True, False])


@pytest.mark.parametrize("cut", [[], ["-s", "100"]], ids=["whole", "cut"])
def test_a_file_of_dumpcap_gives_the_frames_that_tshark_reads(work: Path, cut: list[str]) -> None:
    """A pcapng file of dumpcap, of two interfaces in nanoseconds, with cut frames, beside tshark's reading of it."""
    made, feed = work / "dumpcap.pcapng", work / "dumpcap.feed"
    running = Running(work, "dumpcap", "-q", "-i", "rx0", *cut, "-i", "rx1", *cut, "-w", made)
    running.wait_until_told("File: ")
    time.sleep(0.5)
    send_together(0, 200)
    send_numbered("tx1", 200, 300, 400)
    time.sleep(1)
    running.interrupt()
    running.ended()
    run("chmod", "+r", made)
    read = fields_of(made)
    judge_quietly("dumpcap has all frames", len(read) == 500 and {it[0] for it in read} == {"0", "1"}, len(read))
    for chosen in ("", "0", "1"):
        judge(f"dumpcap's file {cut} {chosen} is as tshark reads it", is_as_tshark_reads(made, feed, chosen))
