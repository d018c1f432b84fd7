"""Tries bpfrec info and bpfrec salvage on a recording of a gigabyte: its memory is that of one packet, and its
speed."""

import os
import struct
import subprocess
from collections.abc import Iterator
from pathlib import Path
from typing import Any, BinaryIO

import pytest
from bpfrec.formats.packet import word_sum
from frames import FRAMES, HEADER_LENGTH, body_of, end_packet, header_of, packet_of, program_packet
from support import BPFREC, INFO, SALVAGE, judge, outcome, run

pytestmark = pytest.mark.wanted("bin/bpfrec", "time")
MEGABYTES = int(os.environ.get("MEGABYTES", "1000"))
LIMIT = 65_536
# Processor time alone: other work on the machine doesn't count.
LEAST_SPEED = 100
MOST_MEMORY_KIB = 8_192
# What is kept of a channel, in bytes.
CHANNELS, MOST_A_CHANNEL = 16_000, 2_600
FRAME = bytes(range(64))
STRIDE = 12 + len(FRAME)
# The frames of a full packet.
COUNT = (LIMIT - HEADER_LENGTH - 4 - 4) // STRIDE


def write_packets(file: BinaryIO, size: int) -> int:
    """Writes full packets of frames of 64 bytes, in place since there are many; how many frames."""
    body = bytearray(struct.pack("<I", COUNT) + (struct.pack("<QI", 0, len(FRAME)) + FRAME) * COUNT)
    packets = 0
    while file.tell() < size:
        first = packets * COUNT * 100
        counters = struct.pack(f"<{COUNT}Q", *range(first, first + 100 * COUNT, 100))
        for at in range(6):
            body[4 + at :: STRIDE] = counters[at::8]
        lengths = (HEADER_LENGTH + len(body) + 4, len(body))
        file.write(header_of(1, lengths, packets, FRAMES, first, True) + body)
        file.write(word_sum(body).to_bytes(4, "little"))
        packets += 1
    return packets * COUNT


@pytest.fixture(scope="module")
def large(place: Path) -> Iterator[Path]:
    """A recording of a gigabyte of the second profile."""
    path = place / "large.ch11"
    with open(path, "wb", buffering=1 << 20) as file:
        file.write(program_packet(1, 0))
        frames = write_packets(file, MEGABYTES * 1_000_000)
        file.write(end_packet(1, frames))
    wanted = f"channel 1 programs 1 frames {frames} offered {frames}\nyes other 0\n"
    judge("a large recording is whole", run(BPFREC, "audit", path, seconds=300) == wanted)
    yield path
    path.unlink()


def timed(work: Path, *words: object, **more: Any) -> tuple[float, float, int]:
    """Seconds by the clock and of processors, and the most memory in KiB, by a small process that counts them."""
    told = work / "timed"
    outcome("time", "-f", "%e %U %S %M", "-o", told, *words, stdout=subprocess.DEVNULL, seconds=300, **more)
    seconds, user, system, memory = told.read_text().split("\n")[-2].split()
    return float(seconds), float(user) + float(system), int(memory)


RUNS: dict[str, tuple[list[object], list[object], dict[str, str]]] = {
    "with_audit": ([INFO], [], {}),
    "without_audit": ([INFO], [], {"BPFREC": "/nowhere"}),
    "salvage": ([SALVAGE], ["/dev/null"], {}),
}


@pytest.mark.parametrize("name", RUNS)
def test_a_gigabyte_takes_the_memory_of_one_packet(work: Path, large: Path, name: str) -> None:
    before, behind, env = RUNS[name]
    least = timed(work, INFO, "/dev/null")[2]
    seconds, processor, memory = timed(work, *before, large, *behind, env={**os.environ, **env})
    size = large.stat().st_size / 1e6
    print(
        f"{size:,.0f} MB {name}: {size / seconds:,.0f} MB/s by the clock, {size / processor:,.0f} by the processor, "
        f"{memory:,} KiB; load {os.getloadavg()[0]:.1f}"
    )
    judge("it takes the memory of one packet", memory < least + MOST_MEMORY_KIB, f"{memory} KiB, {least} for none")
    if name == "with_audit":
        judge(f"info reads {LEAST_SPEED} MB/s", size / processor >= LEAST_SPEED, f"{size / processor:,.0f} MB/s")


def of_channels(path: Path, count: int) -> Path:
    """A recording of so many channels, each of two frames."""
    bodies = (body_of([(at, 0, bytes(18)), (at + 20_000_000, 0, bytes(18))]) for at in range(count))
    path.write_bytes(b"".join(packet_of(at + 1, it, 0, FRAMES, at, True) for at, it in enumerate(bodies)))
    return path


@pytest.mark.parametrize("form", [[], ["--json"], ["--html", "/dev/null"]], ids=["text", "json", "page"])
def test_further_channels_take_little_memory(work: Path, form: list) -> None:
    """Of each further channel little is kept, and what is printed is not held."""
    few, many = (
        timed(work, INFO, "--quiet", *form, of_channels(work / "channels.ch11", it))[2] for it in (10, CHANNELS)
    )
    a_channel = (many - few) * 1_024 // CHANNELS
    judge(f"{a_channel} bytes for a channel", a_channel < MOST_A_CHANNEL, (few, many))
