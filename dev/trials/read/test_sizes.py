"""Reads a recording by each command and tool whose counts exceed 16 bits, and 64 channels.

No recorder writes one of so many channels, so it is made here: 70 channels up to 65,535 with 1,000 packets of one frame
each, frames of the greatest length, two programs of 4,096 instructions, and 65,537 packets of another type.
"""

import hashlib
import json
from pathlib import Path
from typing import NamedTuple

import pytest
from exports import wanted_of
from frames import body_of, end_packet, packet_of, program_packet, records
from second_opinion import opinion_at
from support import BPFREC, EXPORT, INFO, SALVAGE, judge, outcome, run, sums

pytestmark = pytest.mark.wanted("bin/bpfrec")
PATIENCE = 240
FRAMES, ANOTHER = 0x68, 0x09
CHANNELS = [*range(1, 65_536, 950), 65_535]
A_CHANNEL, LONG_FRAMES, OTHERS = 1_000, 40, 65_537
# The channels whose program is the longest one, and the one that has the longest frames.
LONG_PROGRAMS, OF_LONG_FRAMES = {1, 65_535}, 65_535
LONG_PROGRAM, LONG_FRAME = 4_096, 16_383


class Made(NamedTuple):
    """A recording, the same with packets of another type behind it, and the frames of each channel."""

    plain: Path
    mixed: Path
    frames: dict[int, int]


def frame_of(channel: int, number: int, length: int = 64) -> bytes:
    return (channel.to_bytes(2, "big") + number.to_bytes(4, "big")).ljust(length, b"\x55")


def frame_packets() -> list[bytes]:
    """All channels in turn, so that their counters rise together."""
    packets = []
    for number in range(A_CHANNEL):
        for at, channel in enumerate(CHANNELS):
            counter = number * 1_000 + at
            body = body_of([(counter, 0, frame_of(channel, number))])
            packets.append(packet_of(channel, body, number, FRAMES, counter, True))
    for number in range(A_CHANNEL, A_CHANNEL + LONG_FRAMES):
        body = body_of([(number * 1_000, 0, frame_of(OF_LONG_FRAMES, number, LONG_FRAME))])
        packets.append(packet_of(OF_LONG_FRAMES, body, number, FRAMES, number * 1_000, True))
    return packets


@pytest.fixture(scope="module")
def made(place: Path) -> Made:
    frames = {it: A_CHANNEL + (LONG_FRAMES if it == OF_LONG_FRAMES else 0) for it in CHANNELS}
    programs = [
        program_packet(it, 0, count=LONG_PROGRAM if it in LONG_PROGRAMS else 1, sequence=number)
        for number, it in enumerate(CHANNELS)
    ]
    ends = [end_packet(it, frames[it], number) for number, it in enumerate(CHANNELS, len(CHANNELS))]
    plain, mixed = place / "plain.ch11", place / "mixed.ch11"
    plain.write_bytes(b"".join([*programs, *frame_packets(), *ends]))
    others = [packet_of(7, b"other", number, ANOTHER, 0, True) for number in range(OTHERS)]
    mixed.write_bytes(plain.read_bytes() + b"".join(others))
    return Made(plain, mixed, frames)


def packets_in(made: Made) -> int:
    return sum(made.frames.values()) + 2 * len(CHANNELS)


def test_list_and_audit_count_all(made: Made) -> None:
    rows = run(BPFREC, "list", made.mixed, seconds=PATIENCE).splitlines()
    judge("list", rows[-1] == f"packets {packets_in(made) + OTHERS} other {OTHERS}", rows[-1])
    audited = run(BPFREC, "audit", made.mixed, seconds=PATIENCE).splitlines()
    wanted = [f"channel {it} programs 1 frames {count} offered {count}" for it, count in made.frames.items()]
    judge("audit", audited == [*wanted, f"yes other {OTHERS}"], audited[:2])


def test_extract_gives_each_frame_of_the_last_channel(made: Made, work: Path) -> None:
    count = made.frames[OF_LONG_FRAMES]
    told = run(BPFREC, "extract", made.mixed, OF_LONG_FRAMES, work / "feed", seconds=PATIENCE)
    judge("extract", told == f"frames {count} passed 0\n", told)
    found = [it.frame for it in records((work / "feed").read_bytes())]
    wanted = [frame_of(OF_LONG_FRAMES, it, 64 if it < A_CHANNEL else LONG_FRAME) for it in range(count)]
    judge("all frames", found == wanted, len(found))


def test_export_and_pcapng_show_all(made: Made, work: Path) -> None:
    run(BPFREC, "export", made.mixed, work / "all.pcapng", seconds=PATIENCE)
    wanted = wanted_of(made.mixed.read_bytes()).bytes
    found = (work / "all.pcapng").read_bytes()
    judge("export", hashlib.sha256(found).digest() == hashlib.sha256(wanted).digest(), len(found))
    told = run(EXPORT, made.mixed, work / "by_tool.pcapng", seconds=PATIENCE)
    judge("pcapng", told == f"frames {sum(made.frames.values())} skipped 0\n", told)


def test_upgrade_and_salvage_copy_each_byte(made: Made, work: Path) -> None:
    told = run(BPFREC, "upgrade", made.mixed, work / "new.ch11", seconds=PATIENCE)
    judge("upgrade", told == f"upgraded 0 copied {packets_in(made) + OTHERS}\n", told)
    judge("copies each byte", (work / "new.ch11").read_bytes() == made.mixed.read_bytes())
    run(SALVAGE, made.mixed, work / "saved.ch11", seconds=PATIENCE)
    judge("so does salvage", (work / "saved.ch11").read_bytes() == made.mixed.read_bytes())


def test_chapter11_writes_all_or_names_the_first_other(made: Made, work: Path) -> None:
    (work / "setup.toml").write_text('origin = "0"\n')
    told = run(BPFREC, "chapter11", made.plain, work / "setup.toml", work / "all.ch10", seconds=PATIENCE)
    counts = dict(zip(told.split()[::2], map(int, told.split()[1::2])))
    judge("counts", (counts["packets"], counts["records"]) == (sum(made.frames.values()), 2 * len(CHANNELS)), told)
    judge("a whole file", opinion_at(work / "all.ch10").is_right)
    done = outcome(BPFREC, "chapter11", made.mixed, work / "setup.toml", work / "none.ch10", seconds=PATIENCE)
    judge("refused", done.stdout == f"refused 1 Other {made.plain.stat().st_size}\n", done)


def test_the_tools_count_all(made: Made) -> None:
    known = json.loads(run(INFO, "--json", made.mixed, seconds=PATIENCE))["channels"]
    judge("info", {int(name): it["frames"] for name, it in known.items()} == made.frames, known.keys())
    told = sums(made.mixed, seconds=PATIENCE).stdout
    packets = packets_in(made) + OTHERS
    judge("its sums", told == f"packets {packets} data checksums {packets} without 0 wrong 0\n", told)
