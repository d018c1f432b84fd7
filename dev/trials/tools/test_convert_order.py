"""Tries `capture -r` on captures whose first frame isn't the earliest, and on those of which nothing
can be taken."""

import gzip
import struct
from pathlib import Path

import pytest
from frames import counters
from pcapng import MICROSECONDS, capture_head, captured
from reading import SAMPLES
from support import CAPTURE, judge, outcome, run

pytestmark = pytest.mark.wanted("bin/capture")
SECOND = 1_764_590_400
# As of two interfaces, or of a clock that was set back.
MOMENTS = (100_010, 100_005, 100_020)
UNORDERED = capture_head(MICROSECONDS) + b"".join(captured(SECOND, it, bytes(60)) for it in MOMENTS)
BEFORE = "1 frames are before the origin, and 325 days late: --origin 1764590400.100005000 has none"


def feed_of(work: Path, data: bytes, *words: object) -> tuple[int, str, list[int]]:
    """The status of a capture's conversion, what is said of the file, and the feed's counters."""
    (work / "in.pcap").write_bytes(data)
    feed = work / "out.feed"
    done = outcome(CAPTURE, *words, "-r", f"in.pcap={feed}", cwd=work)
    said = [it.partition("in.pcap: ")[2] for it in done.stderr.splitlines() if "in.pcap: " in it]
    return done.returncode, "\n".join(said), counters(feed.read_bytes()) if feed.exists() else []


def test_counter_0_is_the_earliest_frame_of_a_file(work: Path) -> None:
    found = feed_of(work, UNORDERED)
    judge("each frame has its time", found == (0, "", [50, 0, 150]), found)


def test_counter_0_is_the_earliest_frame_of_all_files(work: Path) -> None:
    for name, moment in (("a", 7), ("b", 2)):
        (work / f"{name}.pcap").write_bytes(UNORDERED + captured(SECOND, moment, bytes(60)))
    run(CAPTURE, "-r", "a.pcap=a.feed", "b.pcap=b.feed", cwd=work)
    found = [counters((work / f"{it}.feed").read_bytes())[-1] for it in "ab"]
    judge("the earliest has 0", found == [50, 0], found)


def test_frames_before_the_origin_are_counted_with_one_that_helps(work: Path) -> None:
    status, said, _ = feed_of(work, UNORDERED, "--origin", f"{SECOND}.10001")
    judge("they are a fault", (status, said) == (1, BEFORE), (status, said))
    found = feed_of(work, UNORDERED, *BEFORE.split()[-4:-2])
    judge("and not with that", found == (0, "", [50, 0, 150]), found)


def test_frames_before_the_first_of_a_pipe_are_counted() -> None:
    done = outcome(CAPTURE, "-r", "-=-", input=UNORDERED, text=False)
    judge("they are a fault", done.returncode == 1 and f"-: {BEFORE}" in done.stderr.decode(), done)


def test_a_conversion_that_takes_nothing_says_why(work: Path) -> None:
    lengths = [(60, 61), (60, 61), (13, 13), (16_380, 16_380)]
    data = capture_head(MICROSECONDS) + b"".join(captured(SECOND, 5, bytes(kept), wire) for kept, wire in lengths)
    found = feed_of(work, data)
    judge("which", found == (1, "no frame is taken: 2 cut short, 1 too short, 1 too long", []), found)
    found = feed_of(work, capture_head(MICROSECONDS))
    judge("but where there is none", found == (0, "", []), found)


def test_what_is_no_capture_of_ethernet_is_named(work: Path) -> None:
    for data, said in [
        (gzip.compress(UNORDERED), "compressed by gzip: zcat makes a capture of it"),
        (SAMPLES[0].read_bytes(), "a recording: bpfrec export makes a capture of it"),
        (
            capture_head(MICROSECONDS, link=127),
            "link type 127 (IEEE802_11_RADIOTAP) of interface 0, where Ethernet is 1",
        ),
        (struct.pack("<IIII", 1, 2, 3, 4), "no pcap or pcapng file"),
    ]:
        status, found, _ = feed_of(work, data)
        judge(said, (status, found) == (1, said), found)
