"""Tries `capture -r` on captures by hand at both ends of lengths, in both byte orders, and through pipes that are slow
at either end. dev/trials/capture/test_sanitized.py runs this under the address
sanitizer too."""

import fcntl
import os
import random
import subprocess
import threading
import time
from pathlib import Path

import pytest
from frames import records
from pcapng import (
    NANOSECONDS,
    all_blocks,
    block,
    capture_head,
    captured,
    frame_of,
    interface,
    option,
    packet,
    section,
    simple_packet,
    whole,
)
from support import CAPTURE, judge, outcome

pytestmark = pytest.mark.wanted("bin/capture")
each_order = pytest.mark.parametrize("order", ["<", ">"], ids=["little", "big"])
MOST_BLOCK, MOST_CAPTURED, SMALL_PIPE = 1 << 24, 262_144, 4_096


def made_by_capture(work: Path, data: bytes) -> tuple[int, bytes, str]:
    """The status of a conversion, its feed and what it told."""
    (work / "given").write_bytes(data)
    done = outcome(CAPTURE, "--origin", "zero", "-r", f"{work}/given={work}/made")
    made = (work / "made").read_bytes() if (work / "made").exists() else b""
    return done.returncode, made, done.stdout + done.stderr


# ---- lengths


def of_blocks(order: str, *blocks: bytes) -> bytes:
    """A section with an interface, these blocks, and a frame behind them."""
    return b"".join([section(order), interface(order), *blocks, packet(order, 0, 5, frame_of(7))])


def bounds(order: str) -> dict[str, tuple[bytes, bool]]:
    """Captures at both ends of a length, and whether they are read to their end."""
    bytes_of = {name: bytes(count) for name, count in (("most", MOST_CAPTURED), ("more", MOST_CAPTURED + 1))}
    head = capture_head(NANOSECONDS, MOST_CAPTURED)
    return {
        "empty_block": (of_blocks(order, block(order, 0x0BAD, b"")), True),
        "longest_block": (of_blocks(order, block(order, 0x0BAD, bytes(MOST_BLOCK - 12))), True),
        "longer_block": (of_blocks(order, block(order, 0x0BAD, bytes(MOST_BLOCK - 8))), False),
        "most_captured": (of_blocks(order, packet(order, 0, 5, bytes_of["most"])), True),
        "more_captured": (of_blocks(order, packet(order, 0, 5, bytes_of["more"])), False),
        "most_captured_simply": (of_blocks(order, simple_packet(order, bytes_of["most"])), True),
        "empty_frame": (of_blocks(order, packet(order, 0, 5, b"")), True),
        "longest_option": (of_blocks(order, packet(order, 0, 5, frame_of(1), option(order, 1, bytes(65_535)))), True),
        "empty_option": (of_blocks(order, packet(order, 0, 5, frame_of(1), option(order, 2, b""))), True),
        "many_interfaces": (of_blocks(order, *[interface(order)] * 300, packet(order, 300, 5, frame_of(2))), True),
        "no_such_interface": (of_blocks(order, packet(order, 1, 5, frame_of(2))), False),
        "classic_most": (head + captured(1, 2, bytes_of["most"]) + captured(1, 3, frame_of(7)), True),
        "classic_more": (head + captured(1, 2, bytes_of["more"]) + captured(1, 3, frame_of(7)), False),
        "classic_empty": (head + captured(1, 2, b"") + captured(1, 3, frame_of(7)), True),
        "classic_head_alone": (head, True),
        "cut_head": (head[:-1], False),
    }


@each_order
@pytest.mark.parametrize("name", bounds("<"))
def test_what_is_at_a_bound_is_read_and_past_it_refused(work: Path, name: str, order: str) -> None:
    data, is_read = bounds(order)[name]
    status, feed, told = made_by_capture(work, data)
    behind = [it.frame for it in records(feed)][-1:] == [whole(frame_of(7))]
    judge(f"{name}: {told[-80:].strip()}", (status == 0) == is_read and behind == (is_read and "alone" not in name))


# ---- slow pipes


def write_in_pieces(pipe: int, data: bytes, draw: random.Random) -> None:
    """Writes into a pipe piece by piece, of one byte and of some, with pauses within blocks."""
    at = 0
    while at < len(data):
        size = draw.choice([1, 3, 7, 30])
        os.write(pipe, data[at : at + size])
        at += size
        time.sleep(0.001)
    os.close(pipe)


def test_blocks_that_come_in_pieces_make_the_same(work: Path) -> None:
    """Blocks that come in pieces make what they make at once."""
    wanted = made_by_capture(work, all_blocks())[1]
    reads, writes = os.pipe()
    threading.Thread(target=write_in_pieces, args=(writes, all_blocks(), random.Random(1)), daemon=True).start()
    words = [str(it) for it in (CAPTURE, "--origin", "zero", "-r", "-=-")]
    done = subprocess.run(words, stdin=reads, capture_output=True, timeout=60)
    os.close(reads)
    judge("the same feed", done.returncode == 0 and done.stdout == wanted, done.stderr)


def test_a_slow_reader_gets_each_frame_whole(work: Path) -> None:
    """Frames that wait for a reader who takes a few bytes at a time come out whole."""
    head, frames = capture_head(NANOSECONDS), [captured(1, at, frame_of(at % 256, 1_000)) for at in range(300)]
    wanted = made_by_capture(work, head + b"".join(frames))[1]
    reads, writes = os.pipe()
    fcntl.fcntl(writes, fcntl.F_SETPIPE_SZ, SMALL_PIPE)
    with open(work / "given", "rb") as given:
        words = [str(CAPTURE), "--origin", "zero", "-r", "-=-"]
        running = subprocess.Popen(words, stdin=given, stdout=writes, stderr=subprocess.DEVNULL)
    os.close(writes)
    found = b""
    while part := os.read(reads, 997):
        found += part
        time.sleep(0.001)
    os.close(reads)
    judge("the same feed", running.wait(60) == 0 and found == wanted, len(found))
