"""Tries the sums of bpfrec check: bodies of all lengths around its pieces, changed bytes, packets far behind, and its
memory."""

import random
import resource
import subprocess
from pathlib import Path

import pytest
from frames import FRAMES, HEADER_LENGTH, header_of, packet_of, sum_of
from support import judge, judge_quietly, sums
from whole_file import TIME
from whole_file_parts import bytes_of, parts_of, sample, without

# How many bytes check reads at once, and the room in which it is tried.
PIECE, ROOM = 1 << 16, 96 << 20


def packet(body: bytes) -> bytes:
    return packet_of(1, body, 0, FRAMES, 0, True)


def claiming(length: int) -> bytes:
    """The header of a packet of so many bytes."""
    return header_of(1, (length, length - HEADER_LENGTH - 4), 0, FRAMES, 0, True)


def checked(work: Path, recording: bytes) -> subprocess.CompletedProcess:
    """What check says of a recording, in bounded room."""
    path = work / "recording"
    path.write_bytes(recording)
    return sums(path, preexec_fn=lambda: resource.setrlimit(resource.RLIMIT_AS, (ROOM, ROOM)), seconds=60)


@pytest.mark.parametrize("length", [4, PIECE - 8, PIECE - 4, PIECE, PIECE + 4, 2 * PIECE - 4, 1_000_000])
def test_sums_hold_at_both_sides_of_what_is_read_at_once(work: Path, length: int) -> None:
    body = random.Random(length).randbytes(length - 1) + b"\x5a"
    ahead = packet(b"ahead..."[:8]) * 300
    done = checked(work, ahead + packet(body))
    told = "packets 301 data checksums 301 without 0 wrong 0\n"
    judge(f"{length} bytes: all is right", (done.returncode, done.stdout) == (0, told), done)
    for at in (0, length // 2, length - 1, length, length + 3):
        changed = bytearray(packet(body))
        changed[HEADER_LENGTH + at] ^= 0x80
        done = checked(work, ahead + changed + packet(b"behind.."))
        line = f"{len(ahead)} data checksum "
        holds = done.returncode == 1 and done.stdout.startswith(line) and " wrong 1\n" in done.stdout
        judge_quietly(f"byte {at} of {length}", holds, done)


@pytest.mark.parametrize("at", range(HEADER_LENGTH))
def test_a_changed_byte_of_a_header_ends_the_reading_at_its_packet(work: Path, at: int) -> None:
    one, two = packet(b"one....."), bytearray(packet(b"two....."))
    two[at] ^= 0x10
    done = checked(work, one + two)
    word = "no sync pattern" if at < 2 else "header checksum"
    judge_quietly(f"byte {at}", done.returncode == 1 and done.stdout.startswith(f"{len(one)} {word}"), done)
    judge_quietly("one packet is counted", done.stdout.endswith("packets 1 data checksums 1 without 0 wrong 1\n"), done)


def test_a_header_that_claims_four_gigabytes_takes_no_memory_for_them(work: Path) -> None:
    one = packet(b"one.....")
    done = checked(work, one + claiming(0xFFFF_FFF0) + b"few.")
    told = f"{len(one)} cut\npackets 1 data checksums 1 without 0 wrong 1\n"
    judge("it is cut", (done.returncode, done.stdout) == (1, told), done)


def test_a_packet_of_more_bytes_than_there_is_room_for_is_summed(work: Path) -> None:
    block, count = bytes(range(1, 201)), 1_000_000
    added = sum_of(block, 4) * count % 2**32
    recording = claiming(HEADER_LENGTH + len(block) * count + 4) + block * count + added.to_bytes(4, "little")
    done = checked(work, recording)
    judge("it is right", (done.returncode, done.stdout) == (0, "packets 1 data checksums 1 without 0 wrong 0\n"), done)


# ---- whole Chapter 11 files


def test_a_whole_file_is_known_by_its_setup_record(work: Path) -> None:
    """And all of it is checked, also from standard input."""
    done = checked(work, sample())
    line = "packets 23 data checksums 23 without 0 wrong 0\n"
    judge("it is right", (done.returncode, done.stdout) == (0, line), done)
    with open(work / "recording", "rb") as whole:
        done = sums("-", stdin=whole)
    judge("as standard input", (done.returncode, done.stdout) == (0, line), done)
    done = checked(work, bytes_of(without(TIME, 4)(parts_of(sample()))))
    missing = "2384 a time packet is missing ahead of it\n"
    judge("a time packet is missing", done.returncode == 1 and missing in done.stdout, done)
    judge("the last line", done.stdout.endswith("packets 22 data checksums 22 without 0 wrong 5\n"), done)


def test_a_setup_record_that_is_not_there_takes_no_memory(work: Path) -> None:
    """One of the longest that may be, of which the file has few bytes."""
    done = checked(work, header_of(0, (134_217_728, 134_217_700), 0, 0x01, 0, True) + b"few.")
    judge("it is cut", done.returncode == 1 and done.stdout.startswith("0 cut\n"), done)


def test_without_a_setup_record_it_is_a_recording(work: Path) -> None:
    """A file whose first packet is another is judged by its sums alone."""
    for other in (packet_of(1, b"data", 0, 0x01, 0, True), packet_of(0, b"data", 0, 0x00, 0, True)):
        done = checked(work, other)
        line = "packets 1 data checksums 1 without 0 wrong 0\n"
        judge_quietly("a recording", (done.returncode, done.stdout) == (0, line), done)
