"""Tries the memory of `record`, and recordings that are larger than the memory that their readers may have."""

import subprocess
from pathlib import Path

import pytest
from frames import packet_of
from packets import packets_in
from recorder import MANY, READING_MEMORY, make_feed, read_within, record, write_settings
from support import BPFREC, judge, judge_quietly, outcome

pytestmark = [pytest.mark.wanted("bin/bpfrec", "time"), pytest.mark.timed]
# A header that claims a packet of four gigabytes.
CLAIM = bytes.fromhex("25eb0100 fcffffff 00000000 08000001 00000000 000029ec")

# How many bytes the blocks of an export have: of a section, of channel 1 as an interface, and of a frame of 64 bytes.
SECTION_LENGTH, DESCRIPTION_LENGTH, FRAME_LENGTH = 28, 92, 96


def peak_of(settings: Path, out: Path) -> int:
    """The most memory that a recording takes, in KiB."""
    words = ["/usr/bin/env", "time", "-f", "%M", BPFREC, "record", settings, out]
    return int(outcome(*words, stdin=subprocess.DEVNULL, seconds=120).stderr.split()[-1])


def test_memory_does_not_grow_with_the_feed(work: Path, long_feed: Path) -> None:
    feeds = [make_feed(work / "part.feed", MANY // 5), long_feed]
    peaks = [peak_of(write_settings(work, [feed], ["all"]), work / "memory.ch11") for feed in feeds]
    print(f"peak memory in KiB: {peaks[0]} at {MANY // 5:,} frames, {peaks[1]} at {MANY:,}")
    judge("memory does not grow with the feed", peaks[1] < peaks[0] + 1_000, peaks)


# ---- readers


@pytest.fixture(scope="module")
def whole(place: Path, long_feed: Path) -> Path:
    """A recording that is larger than the memory of its readers."""
    out = place / "memory.ch11"
    judge_quietly("it is recorded", record(write_settings(place, [long_feed], ["all"]), out).returncode == 0)
    judge("the recording is larger than the memory of its readers", out.stat().st_size > READING_MEMORY)
    return out


def test_list_and_audit_take_little_memory_of_a_large_recording(whole: Path) -> None:
    listed = read_within("list", whole)
    judge("it is listed", listed.returncode == 0 and listed.stdout.splitlines()[-1].endswith(" other 0"))
    judge("it is audited", read_within("audit", whole).stdout.endswith("\nyes other 0\n"))


def test_extract_takes_little_memory(work: Path, whole: Path, long_feed: Path) -> None:
    done = read_within("extract", whole, "1", work / "read.feed")
    same = (work / "read.feed").read_bytes() == long_feed.read_bytes()
    judge("it is extracted", done.returncode == 0 and same)


def test_export_takes_little_memory(work: Path, whole: Path) -> None:
    done = read_within("export", whole, work / "read.pcapng")
    size = (work / "read.pcapng").stat().st_size
    holds = done.returncode == 0 and size == SECTION_LENGTH + DESCRIPTION_LENGTH + MANY * FRAME_LENGTH
    judge("it is exported", holds, size)


def without_checksums(recording: bytes) -> bytes:
    """The same packets without their data checksums, as they were written once."""
    return b"".join(
        packet_of(channel, data, recording[at + 13], kind, counter, False)
        for at, channel, kind, counter, data in packets_in(recording)
    )


def test_upgrade_takes_little_memory(work: Path, whole: Path) -> None:
    old, new = work / "old.ch11", work / "new.ch11"
    old.write_bytes(without_checksums(whole.read_bytes()))
    done, same = read_within("upgrade", old, new), whole.read_bytes()
    holds = done.returncode == 0 and new.read_bytes() == same
    judge("it is upgraded from what it was without data checksums", holds, done)
    done = read_within("upgrade", new, old)
    judge("and copied by a second upgrade", done.stdout.startswith("upgraded 0 ") and old.read_bytes() == same, done)


@pytest.mark.parametrize("command", ["list", "audit"])
def test_a_length_that_is_only_claimed_takes_no_memory(work: Path, command: str) -> None:
    claim = work / "claim.ch11"
    claim.write_bytes(CLAIM + bytes(1_000_000))
    told = read_within(command, claim)
    judge(f"a length that is only claimed takes no memory in {command}", told.stderr == "read 1 Truncated 0\n", told)


@pytest.mark.parametrize("command", ["list", "audit", "extract", "export", "upgrade"])
def test_an_input_without_an_end_is_read_to_its_first_fault(work: Path, command: str) -> None:
    outs: dict[str, list[object]] = {
        "extract": ["1", work / "read.feed"],
        "upgrade": [work / "read.feed"],
        "export": [work / "read.pcapng"],
    }
    with open("/dev/zero", "rb") as zeros:
        told = outcome(BPFREC, command, "-", *outs.get(command, []), stdin=zeros, seconds=60)
    judge(f"an input without an end is read to its first fault by {command}", told.stderr == "read 2 Sync 0\n", told)
