"""Tries `capture -r` on captures that tcpdump reads and tshark judges, and through pipes."""

import os
import select
import subprocess
import time
from pathlib import Path
from typing import IO

import pytest
from frames import records
from pcapng import SECOND, frames_in, with_wrong_sequences
from sample_feeds import capture_of, sample_feed
from support import CAPTURE, judge, outcome, present, run

pytestmark = pytest.mark.wanted("bin/capture", "tcpdump", "tshark", "editcap")
FRAMES = 2_000


def converted(capture: Path, feed: Path, *words: object) -> tuple[str, bytes]:
    """How many frames a conversion took and skipped, and the feed."""
    done = outcome(CAPTURE, *words, "-r", f"{capture}={feed}")
    counts = done.stderr.splitlines()[-1].split()
    judge(f"it converts {capture.name}", done.returncode == 0, done)
    return (
        f"frames {counts[counts.index('frames') + 1]} skipped {counts[counts.index('skipped') + 1]}",
        feed.read_bytes(),
    )


def statuses(capture: Path) -> list[str]:
    """Of each check sequence whether tshark finds it good, as 1 or 0."""
    words = ["-o", "eth.check_fcs:TRUE", "-r", capture, "-T", "fields", "-e", "eth.fcs.status"]
    return run("tshark", *words).split()


# ---- captures of feeds


@pytest.mark.parametrize("has_check_sequences", [True, False], ids=["kept", "dropped"])
def test_a_feed_comes_back_from_a_capture_to_the_byte(work: Path, has_check_sequences: bool) -> None:
    feed = sample_feed(work / "in.feed", 7, FRAMES)
    capture = capture_of(feed, work / "out.pcap", 0, has_check_sequences)
    judge(f"tcpdump reads {FRAMES} frames", len(run("tcpdump", "-n", "-r", capture).splitlines()) == FRAMES)
    found = converted(capture, work / "back.feed")
    judge("the capture's feed is the feed, to the byte", found == (f"frames {FRAMES} skipped 0", feed.read_bytes()))


def test_frames_whose_check_sequence_is_wrong_are_marked(work: Path) -> None:
    capture = capture_of(sample_feed(work / "in.feed", 3, 100), work / "wrong.pcap")
    capture.write_bytes(with_wrong_sequences(capture.read_bytes()))
    found = records(converted(capture, work / "wrong.feed")[1])
    bad = [int(it == "0") for it in statuses(capture)]
    judge("those that tshark finds bad", [it.marks for it in found] == bad and sum(bad) == 10, bad)
    judge("and keep it", [it.frame for it in found] == [frame for _, _, frame, _ in frames_in(capture.read_bytes())])


def test_two_captures_of_one_flight_share_their_origin(work: Path) -> None:
    """Two captures of one flight, of which the second begins later."""
    feed, tail = sample_feed(work / "in.feed", 4, 100), work / "tail.pcap"
    capture = capture_of(feed, work / "flight.pcap", SECOND * 10**9 + 500_000_000, False)
    run("editcap", "-F", "nsecpcap", "-r", capture, tail, "51-100")
    first, second = (converted(it, work / "made.feed", "--origin", f"{SECOND}.5")[1] for it in (capture, tail))
    judge("counters of two captures agree by one origin", records(first)[50:] == records(second))
    judge("as those of the feed", first == feed.read_bytes())


# ---- pipes


def read_within(pipe: IO[bytes], length: int, seconds: float) -> bytes:
    """So many bytes of a pipe, or what came of them in time."""
    found, end = b"", time.monotonic() + seconds
    while len(found) < length and select.select([pipe], [], [], max(end - time.monotonic(), 0))[0]:
        part = os.read(pipe.fileno(), length - len(found))
        if not part:
            break
        found += part
    return found


def test_through_a_pipe_each_frame_comes_out_before_the_next(work: Path) -> None:
    """Ten frames of twenty come out before the eleventh goes in."""
    feed = sample_feed(work / "in.feed", 5, 20)
    given, taken = capture_of(feed, work / "in.pcap").read_bytes(), feed.read_bytes()
    lengths = [len(it.frame) for it in records(taken)[:10]]
    half_in, half_out = 24 + sum(lengths) + 16 * 10, sum(lengths) + 9 * 10
    pipe = subprocess.PIPE
    with subprocess.Popen([str(CAPTURE), "-r", "-=-"], stdin=pipe, stdout=pipe, stderr=subprocess.DEVNULL) as running:
        into, made = present(running.stdin), present(running.stdout)
        into.write(given[:half_in])
        into.flush()
        first = read_within(made, half_out, 20)
        into.write(given[half_in:])
        into.close()
        rest = made.read()
    judge("each at once", first == taken[:half_out] and first + rest == taken and running.returncode == 0)


def test_a_pipe_of_tcpdump_is_read(work: Path) -> None:
    capture = capture_of(sample_feed(work / "in.feed", 5, 20), work / "in.pcap")
    run("sh", "-c", f"tcpdump -U -w - -r {capture} 2> /dev/null | {CAPTURE} -r -={work}/out.feed")
    judge("tcpdump -w - through a pipe", len(records((work / "out.feed").read_bytes())) == 20)
