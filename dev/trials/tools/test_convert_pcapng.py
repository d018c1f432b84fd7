"""Tries `capture -r` on pcapng files, by hand and of editcap and mergecap."""

import re
from pathlib import Path

import pytest
from captures import fields_of, is_as_tshark_reads
from frames import records
from pcapng import BLOCKS_RECORDS, SECOND, all_blocks
from sample_feeds import capture_of, sample_feed
from support import CAPTURE, judge, outcome, run

pytestmark = pytest.mark.wanted("bin/capture", "cc", "tshark", "editcap", "mergecap")
FRAMES = 2_000

# ---- by hand


def converted(work: Path, data: bytes, *words: object) -> tuple[int, str]:
    """The status of a capture's conversion into out.feed, and the last that is told."""
    (work / "in.pcapng").write_bytes(data)
    done = outcome(CAPTURE, *words, "-r", "in.pcapng=out.feed", cwd=work)
    counted = re.search(r"frames (\d+) bytes \d+ (skipped \d+)", done.stderr)
    told = f"frames {counted[1]} {counted[2]}" if counted and done.returncode == 0 else done.stderr
    return done.returncode, told


def test_each_kind_of_block_in_both_byte_orders_is_read(work: Path) -> None:
    """Each kind of block, two sections in both byte orders, each kind of time."""
    told = converted(work, all_blocks(), "--origin", SECOND)
    judge("frames of all blocks", told == (0, "frames 9 skipped 1"), told)
    found = records((work / "out.feed").read_bytes())
    judge("with their times, check sequences and marks", found == BLOCKS_RECORDS, found)


# ---- made by others


def made_capture(work: Path, seed: int, frames: int = FRAMES) -> Path:
    """A classic capture in nanoseconds, of which each seed makes another."""
    feed = sample_feed(work / f"{seed}.feed", seed, frames)
    return capture_of(feed, work / f"{seed}.pcap", SECOND * 10**9, False)


@pytest.mark.parametrize("cut", [[], ["-s", "100"]], ids=["whole", "cut"])
def test_a_file_of_editcap_is_read(work: Path, cut: list) -> None:
    run("editcap", "-F", "pcapng", *cut, made_capture(work, 1), work / "made.pcapng")
    judge("pcapng of editcap, in nanoseconds", is_as_tshark_reads(work / "made.pcapng", work / "other.feed"))


def merged(work: Path, *captures: Path) -> Path:
    run("mergecap", "-F", "pcapng", "-I", "none", "-w", work / "made.pcapng", *captures)
    return work / "made.pcapng"


def test_two_interfaces_of_mergecap_are_read(work: Path) -> None:
    made, feed = merged(work, made_capture(work, 1), made_capture(work, 2)), work / "other.feed"
    judge("two interfaces of mergecap", {it[0] for it in fields_of(made)} == {"0", "1"})
    judge("both", is_as_tshark_reads(made, feed))
    judge("each of them by itself", all(is_as_tshark_reads(made, feed, chosen) for chosen in "01"))


def test_micro_and_nanoseconds_in_one_file_are_read(work: Path) -> None:
    """Micro- and nanoseconds in one file, and a classic capture of it."""
    micro, classic, feed = work / "micro.pcap", work / "classic.pcap", work / "other.feed"
    run("editcap", "-F", "pcap", made_capture(work, 1), micro)
    made = merged(work, micro, made_capture(work, 2))
    judge("micro- and nanoseconds in one file", is_as_tshark_reads(made, feed))
    run("editcap", "-F", "nsecpcap", made, classic)
    judge(
        "classic nanoseconds of editcap",
        [it[1:] for it in fields_of(classic)] == [it[1:] for it in fields_of(made)],
    )
    judge("and that is as tshark reads it", is_as_tshark_reads(classic, feed))
