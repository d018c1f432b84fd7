"""Tries that the numbers of settings, scripts and feeds stand in a recording as docs/user/formats/ has them: at both
ends, each between them, and marks one by one; each at its ends is in crates/test_cases/src/values.rt. What is compared
with is the second writer's (dev/trials/lib/aged_packets.py)."""

from pathlib import Path
from typing import NamedTuple

import pytest
from aged_packets import Channel, Item, recording
from frames import HEADER_LENGTH, feed_of, sum_of
from packets import packets_in
from recorder import record, write_settings
from support import BPFREC, KEEPS_ALL, judge, outcome, run

pytestmark = pytest.mark.wanted("bin/bpfrec")
FRAME = bytes.fromhex("ffffffffffff020000000001080600010203")


class Values(NamedTuple):
    """What settings say of a recording and of its one channel."""

    channel: int = 1
    net: int = 0
    speed: int = 0
    limit: int = 16_424
    version: int = 8
    ring: int = 4


# All numbers at both ends, and each between them.
ALL = {
    "least": Values(1, 0, 0, 16_424, 0, 1),
    "greatest": Values(65_535, 255, 15, 524_284, 255, 4_096),
    **{f"channel_{it}": Values(channel=it) for it in (255, 256)},
    **{f"net_{it}": Values(net=it) for it in (1, 127, 128, 201)},
    **{f"speed_{it}": Values(speed=it) for it in (1, 7, 8)},
    **{f"limit_{it}": Values(limit=it) for it in (16_425, 65_535, 524_283)},
    **{f"version_{it}": Values(version=it) for it in (1, 127, 128)},
    "ring_2": Values(ring=2),
}


def with_version(packet: bytes, version: int) -> bytes:
    """The same packet with another data type version."""
    head = packet[:12] + bytes([version]) + packet[13:22]
    return head + sum_of(head, 2).to_bytes(2, "little") + packet[HEADER_LENGTH:]


def expected(values: Values, frames: list[tuple[int, int, bytes]]) -> bytes:
    """The recording of these frames: as many in a packet as the limit has room for."""
    channel = Channel([(0, "all")], 0, values.limit, values.channel, values.net, values.speed)
    whole = recording(channel, [Item(counter, frame, marks) for counter, marks, frame in frames])
    places = [*(at for at, *_ in packets_in(whole)), len(whole)]
    return b"".join(with_version(whole[at:end], values.version) for at, end in zip(places, places[1:]))


def frames_up_to(limit: int) -> list[tuple[int, int, bytes]]:
    """Frames of each of the marks, with counters at both ends, and long ones, more than a packet has room for."""
    short = [(counter, marks, FRAME) for counter in (0, 2**48 - 1) for marks in range(4)]
    long = [(at, at % 4, FRAME.ljust(16_383 - at, b"\xff")) for at in range(2 * limit // 16_384 + 1)]
    return [*short, *long]


@pytest.mark.parametrize("name", ALL)
def test_each_number_of_settings_stands_in_the_recording(work: Path, name: str) -> None:
    """What `record` writes, byte by byte, and what `extract` gives again."""
    values = ALL[name]
    frames = frames_up_to(values.limit)
    (work / "own.feed").write_bytes(feed_of(frames))
    settings = write_settings(work, ["own.feed"], ["all"])
    top = f"limit = {values.limit}\nring = {values.ring}\nversion = {values.version}\n"
    text = settings.read_text().replace(
        "id = 1\n", f"id = {values.channel}\nnet = {values.net}\nspeed = {values.speed}\n"
    )
    settings.write_text(top + text)
    out, again = work / "out.ch11", work / "again.feed"
    done = record(settings, out)
    judge("it is recorded", done.returncode == 0, done)
    judge("byte by byte", out.read_bytes() == expected(values, frames))
    run(BPFREC, "extract", out, values.channel, again)
    judge("each frame comes back with its counter and its marks", again.read_bytes() == feed_of(frames))


@pytest.mark.parametrize("name", ALL)
def test_each_number_of_scripts_stands_in_the_recording(work: Path, name: str) -> None:
    """What `simulate` writes of a script of the same, byte by byte."""
    values = ALL[name]
    frames = frames_up_to(values.limit)
    head = f"recorder {values.limit} {values.ring} {values.version}\n"
    head += f"channel {values.channel} {values.net} {values.speed} 99 {KEEPS_ALL}\n"
    takes = [f"take {values.channel} {counter} {marks} {frame.hex()}\n" for counter, marks, frame in frames]
    moves = f"send {values.channel}\nwrite {values.channel}\n" * 6
    (work / "script").write_text(f"{head}{''.join(takes)}close {values.channel}\n{moves}")
    told = outcome(BPFREC, "simulate", work / "script").stdout
    wrote = [bytes.fromhex(it[6:]) for it in told.splitlines() if it.startswith("wrote ")]
    judge("byte by byte", b"".join(wrote) == expected(values, frames), len(wrote))
