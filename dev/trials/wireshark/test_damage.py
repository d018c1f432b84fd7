"""Tries bin/bpfrec.lua on cut, damaged, hostile and large recordings."""

import os
import random
import struct
from collections.abc import Iterator
from concurrent.futures import ThreadPoolExecutor
from pathlib import Path

import pytest
from damage import damaged_sample, nested
from frames import FRAMES, body_of, end_packet, frames_packet, header_of, packet_of, program_packet
from reading import SAMPLES, SEED, recording_of_three
from rows import PLUGIN, expected_rows, printed, rows_of, tshark
from support import BPFREC, MEBIBYTE, judge, judge_quietly, outcome, run, sums

pytestmark = pytest.mark.wanted("bin/bpfrec", "tshark", "time")
# So many runs of tshark beside one another, and how many recordings are drawn.
ABREAST, DRAWN = 2, 40
HEADER_LEN = 24
MEGABYTES = int(os.environ.get("MEGABYTES", "300"))
MOST_MEMORY_KIB = 16_384


def judge_damage(work: Path, name: str, data: bytes) -> None:
    """The rows are those that the reader in Python finds, and the first damaged place is what `bpfrec list` says."""
    path = work / f"{name}.ch11"
    path.write_bytes(data)
    wanted, found = expected_rows(path), rows_of(work, path)
    differing = next((it for it in zip(found, wanted) if it[0] != it[1]), (len(found), len(wanted)))
    judge_quietly(name, found == wanted, differing)
    told = outcome(BPFREC, "list", path).stderr.strip()
    judge_quietly(f"{name}: list told {told}", next((it["damage"] for it in found if "damage" in it), "") == told)
    judge_sums(name, found, sums(path).stdout.splitlines()[:-1])
    path.unlink()


def judge_sums(name: str, rows: list[dict[str, str]], told: list[str]) -> None:
    """The wrong data checksums are those that check_sums told before it ended; it judges packets of other kinds too."""
    wrong = {int(it.split()[0]) for it in told if " data checksum " in it}
    stop = min((int(it.split()[0]) for it in told if " data checksum " not in it), default=1 << 62)
    found = {int(it["place"]) for it in rows if " DataChecksum " in it.get("damage", "")}
    others = {int(it["place"]) for it in rows if "type" in it and "first" not in it and "offered" not in it}
    found = {it for it in found if it < stop}
    judge_quietly(f"{name}: check_sums told {told}", found <= wrong <= found | others, (found, others))


def judge_all(work: Path, cases: dict[str, bytes]) -> None:
    with ThreadPoolExecutor(ABREAST) as pool:
        for _ in pool.map(lambda case: judge_damage(work, *case), cases.items()):
            pass
    judge(f"{len(cases)} recordings", cases)


# ---- each byte


def test_each_cut_recording_is_shown_to_its_cut(work: Path) -> None:
    """One that is cut before its first header ends is no recording to Wireshark."""
    data = SAMPLES[1].read_bytes()
    judge_all(work, {f"cut_to_{at}": data[:at] for at in range(HEADER_LEN, len(data))})


@pytest.mark.parametrize("value", [0x00, 0xFF], ids=["00", "ff"])
def test_each_damaged_byte_has_its_row(work: Path, value: int) -> None:
    data = SAMPLES[1].read_bytes()
    judge_all(work, {f"byte_{at}": data[:at] + bytes([value]) + data[at + 1 :] for at in range(len(data))})


def test_drawn_damage_is_placed_as_by_the_reader(work: Path) -> None:
    samples = [it.read_bytes() for it in [*SAMPLES, recording_of_three(work)]]
    draw = random.Random(SEED)
    # What has no packet any more is no recording.
    drawn = {f"draw_{at}": damaged_sample(draw, at, samples) for at in range(DRAWN)}
    judge_all(work, {name: it for name, it in drawn.items() if it[:2] == b"\x25\xeb"})


def aligned(sequence: int) -> list[bytes]:
    """Packets whose frames hold a whole packet of the same channel at a multiple of 4 bytes, with this sequence
    number."""
    inner = frames_packet([(7, 0, bytes(60))], sequence, 7, True)
    bodies = [body_of([(at, 0, bytes(16) + inner + bytes(4))]) for at in range(5)]
    return [packet_of(1, it, at, FRAMES, at, True) for at, it in enumerate(bodies)]


@pytest.mark.parametrize("is_summed", [False, True], ids=["without_sums", "with_sums"])
def test_recordings_within_frames_mislead_no_row(work: Path, is_summed: bool) -> None:
    """Damage of a packet whose frames hold packets of another recording: bytes changed, bytes taken out, and headers
    that are zero."""
    whole = nested(is_summed)
    begin, data = len(b"".join(whole[:3])), b"".join(whole)
    end = begin + len(whole[3])
    cases = {f"byte_{at}": data[:at] + bytes([data[at] ^ 0x55]) + data[at + 1 :] for at in range(begin, end, 97)}
    cases |= {f"without_{at}": data[:at] + data[at + 5 :] for at in range(begin + 30, end - 5, 97)}
    cases["no_header"] = data[:begin] + bytes(HEADER_LEN) + data[begin + HEADER_LEN :]
    first = len(whole[0])
    cases["no_headers"] = data[:first] + bytes(HEADER_LEN) + cases["no_header"][first + HEADER_LEN :]
    parts = aligned(100)
    cases["later_number"] = b"".join([parts[0], bytes(HEADER_LEN) + parts[1][HEADER_LEN:], *parts[2:]])
    parts = aligned(2)
    cases["next_number"] = b"".join([parts[0], parts[1][:40] + parts[1][44:], *parts[2:]])
    judge_all(work, cases)


# ---- what is hostile


def header_that_claims(length: int, data_len: int, kind: int, channel: int) -> bytes:
    return header_of(channel, (length, data_len), 100, kind, 1, True)


def hostile() -> dict[str, bytes]:
    short = [(5, 0, b""), (6, 1 << 28, bytes(10)), (7, 0, bytes(17)), (8, 3 << 28, bytes(60))]
    return {
        "long_program": program_packet(1, 0, (0x15, 0, 0, 7), count=65_535),
        "empty_frames": program_packet(1, 0) + packet_of(1, body_of(short), 0, FRAMES, 5, True),
        "no_frames": program_packet(1, 0) + packet_of(1, body_of([]), 0, FRAMES, 5, True),
        "sync_patterns": program_packet(1, 0) + b"\x25\xeb" * 200_000 + end_packet(1, 0),
        "claims": header_that_claims(0xFFFFFFFC, 0xFFFFFFF0 - 24, 0x19, 3) + bytes(100_000),
        "claims_frames": header_that_claims(0x80000, 0x7FF00, FRAMES, 3) + bytes(100_000),
        "claims_record": header_that_claims(0xFFFFFFFC, 36, 0, 0) + bytes(4) + b"CBPR" + bytes(100_000),
        "count": packet_of(1, struct.pack("<I", 0xFFFF) + bytes(12 * 100), 0, FRAMES, 5, False),
    }


def test_hostile_claims_are_rows_of_damage(work: Path) -> None:
    judge_all(work, hostile())


def test_many_claims_end_in_seconds(work: Path) -> None:
    """Headers that all claim a mebibyte with a checksum end in seconds, and nothing is left out."""
    head = header_that_claims(MEBIBYTE, 100, 0x19, 1)
    data = program_packet(1, 0) + b"\0" + head * 600 + b"\1" * MEBIBYTE
    (work / "many.ch11").write_bytes(data)
    rows = rows_of(work, work / "many.ch11", seconds=120)
    damaged = [it for it in rows if "damage" in it]
    lengths = sum(int(it["damaged_length"]) for it in damaged) + len(program_packet(1, 0))
    others = sum(MEBIBYTE for it in rows if it.get("type") == "0x19")
    judge(f"{len(rows)} rows have all bytes", lengths + others == len(data), (lengths, others, len(data)))


def test_a_claim_of_four_gigabytes_takes_no_memory(work: Path) -> None:
    """A packet that claims four gigabytes, which are there, takes no memory for them."""
    path, length = work / "sparse.ch11", 0xFFFFFFF0
    with open(path, "wb") as file:
        file.write(header_of(5, (length, 100), 0, 0x19, 1, False))
        file.seek(length)
        file.write(program_packet(1, 0))
    judge_memory(work, path, 2)


def test_a_file_that_is_no_recording_is_left_at_once(work: Path) -> None:
    """A file of gigabytes that is no recording is left to other readers at once."""
    path = work / "zeros.ch11"
    path.touch()
    os.truncate(path, 1 << 34)
    done = tshark(work, "-r", path, seconds=10)
    judge("no recording", done.returncode == 2 and "Lua" not in done.stderr, done)


def judge_memory(work: Path, path: Path, count: int) -> None:
    """So many rows, in little more memory than for a small recording."""

    def used(recording: Path) -> tuple[int, int]:
        words = ["-X", f"lua_script:{PLUGIN}", "-n", "-r", recording, "-T", "fields", "-e", "frame.number"]
        done = outcome("time", "-f", "%M", "-o", work / "memory", "tshark", *words, seconds=300)
        return len(done.stdout.splitlines()), int((work / "memory").read_text().split()[-1])

    least = used(SAMPLES[1])[1]
    rows, memory = used(path)
    judge(f"{rows} rows in {memory} KiB, where few take {least}", rows == count and memory < least + MOST_MEMORY_KIB)


# ---- a large one


@pytest.fixture(scope="module")
def large(place: Path) -> Iterator[tuple[Path, int]]:
    """A recording of hundreds of megabytes of frames of 1,500 bytes, and how many frames it has."""
    path, packets, frame = place / "large.ch11", 0, bytes(range(250)) * 6
    with open(path, "wb", buffering=MEBIBYTE) as file:
        file.write(program_packet(1, 0))
        while file.tell() < MEGABYTES * 1_000_000:
            body = body_of([(packets * 4_300 + at * 100, 0, frame) for at in range(43)])
            file.write(packet_of(1, body, packets, FRAMES, packets * 4_300, False))
            packets += 1
        file.write(end_packet(1, 43 * packets))
    yield path, 43 * packets
    path.unlink()


def test_a_large_recording_takes_constant_memory(work: Path, large: tuple[Path, int]) -> None:
    path, frames = large
    run(BPFREC, "list", path, seconds=120)
    judge_memory(work, path, frames + 2)
    told = printed(work, "-r", path, "-q", "-z", "io,stat,0,ch11.number", seconds=300)
    judge("io,stat", any(f" {frames} | {1_500 * frames} " in " ".join(it.split()) + " " for it in told), told)
