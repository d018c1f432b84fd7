"""Tries bpfrec info and bpfrec salvage on cut and damaged recordings: each damaged place, and what is kept."""

import json
import os
import random
import subprocess
from pathlib import Path

import pytest
from damage import damaged_sample, nested
from frames import end_packet, frames_packet, numbered, program_packet, sum_of, with_check_sequence
from reading import SAMPLES, SEED, BlockSums, facts_of, packets_of, recording_of_three, salvaged
from support import BPFREC, INFO, SALVAGE, judge, judge_quietly, outcome, run

pytestmark = pytest.mark.wanted("bin/bpfrec", "cc")
DAMAGED = 1_000

with_or_without_sums = pytest.mark.parametrize("is_summed", [False, True], ids=["without_sums", "with_sums"])
each_sample = pytest.mark.parametrize("sample", SAMPLES, ids=["without_sums", "with_sums"])


def judge_salvage(work: Path, data: bytes, what: str) -> tuple[bytes, str]:
    """What is kept is listed whole, each packet of it stands in what was damaged, the counts add up, and salvage says
    what the audit does."""
    kept, told = salvaged(data)
    (work / "kept.ch11").write_bytes(kept)
    listed, audit = outcome(BPFREC, "list", work / "kept.ch11"), outcome(BPFREC, "audit", work / "kept.ch11")
    lost = int(told.split("lost ")[-1].split()[0])
    judge_quietly(f"{what}: {told}{listed.stderr}", listed.returncode == 0 and len(kept) + lost == len(data))
    run(BPFREC, "extract", work / "kept.ch11", 1, "/dev/null")
    judge_quietly(f"{what}: a packet is made up", all(it.bytes in data for it in packets_of(kept)))
    answer = f"audit: {(audit.stdout or audit.stderr).splitlines()[-1]}\n"
    judge_quietly(f"{what}: {told} but {answer}", (answer if told.count("\n") > 1 else "") in told)
    return kept, told


# ---- drawn damage


def judge_places(turn: int, work: Path, data: bytes, damaged: list[dict]) -> None:
    """Each damaged place is where list ends that begins behind the place before, and behind the last it ends well."""
    begin, rest = 0, work / "rest.ch11"
    for place in [*damaged, None]:
        rest.write_bytes(data[begin:])
        told = outcome(BPFREC, "list", rest).stderr.split()[2:]
        wanted = [place["fault"], str(place["at"] - begin)] if place else []
        judge_quietly(f"draw {turn}: list behind {begin} told {told}, info {wanted}", told == wanted)
        begin = place["at"] + place["bytes"] if place else begin


def judge_draw(work: Path, turn: int, data: bytes) -> bool:
    """Judges damage; whether its first fault is a wrong checksum."""
    path = work / "damaged.ch11"
    path.write_bytes(data)
    done = outcome(INFO, "--json", path) if turn < 50 else None
    facts = json.loads(done.stdout) if done else facts_of(path)
    holds = not done or (done.returncode == bool(facts["damaged"]) and not done.stderr)
    judge_quietly(f"draw {turn}: status and messages", holds)
    judge_places(turn, work, data, facts["damaged"])
    first = facts["damaged"][0] if facts["damaged"] else {"fault": "", "at": 0}
    number = {"Checksum": 3, "DataChecksum": 8}.get(first["fault"])
    judge_quietly(
        f"draw {turn}: the audit's checksum",
        not number
        or facts["audit"] == f"read {number} {first['fault']} {first['at']}"
        or facts["audit"].startswith("no"),
    )
    judge_salvage(work, data, f"draw {turn}")
    return bool(number)


def test_drawn_damage_is_placed_as_by_list_and_whole_packets_kept(work: Path) -> None:
    """Info says each place as list does, and salvage keeps whole packets alone."""
    samples = [it.read_bytes() for it in [*SAMPLES, recording_of_three(work)]]
    draw = random.Random(SEED)
    sums = sum(judge_draw(work, turn, damaged_sample(draw, turn, samples)) for turn in range(DAMAGED))
    judge(
        f"{DAMAGED} damaged recordings: each place is list's, checksums are audit's ({sums}), and salvage keeps whole ones",
        sums > 50,
    )


# ---- each byte


@each_sample
def test_whole_packets_before_each_cut_are_kept(work: Path, sample: Path) -> None:
    """The whole packets before a cut are kept."""
    data = sample.read_bytes()
    whole = [it.bytes for it in packets_of(data)]
    for cut in range(len(data)):
        kept, told = judge_salvage(work, data[:cut], f"cut to {cut}")
        count = max(n for n in range(5) if len(b"".join(whole[:n])) <= cut)
        judge_quietly(f"cut to {cut}", kept == b"".join(whole[:count]) and ("no end of 1" in told) == (count > 0))


@each_sample
def test_the_other_packets_of_each_damaged_byte_are_kept(work: Path, sample: Path) -> None:
    """Of a sample with a damaged byte the other packets are kept, and the damaged one as it is or not."""
    data = sample.read_bytes()
    whole = [it.bytes for it in packets_of(data)]
    ends = [len(b"".join(whole[: n + 1])) for n in range(4)]
    for at in range(len(data)):
        damaged = data[:at] + bytes([data[at] ^ 0xFF]) + data[at + 1 :]
        kept, _ = judge_salvage(work, damaged, f"byte {at}")
        hit = min(n for n in range(4) if at < ends[n])
        others = b"".join(it for n, it in enumerate(whole) if n != hit)
        # Without a data checksum, and where it makes another's packet of it, it can't be seen.
        is_unseen = sample == SAMPLES[0] or any(it.what is None for it in packets_of(damaged))
        judge_quietly(f"byte {at}", kept == others or is_unseen and kept == damaged)


# ---- packets in packets


@with_or_without_sums
def test_recordings_within_frames_mislead_nobody(work: Path, is_summed: bool) -> None:
    """Each byte of a packet damaged, and bytes taken out: exactly the other packets are kept."""
    whole = nested(is_summed)
    data, begins = b"".join(whole), [len(b"".join(whole[:n])) for n in range(7)]
    others = b"".join(whole[:3] + whole[4:])
    for at in range(begins[3], begins[4]):
        kept, _ = judge_salvage(work, data[:at] + bytes([data[at] ^ 0x55]) + data[at + 1 :], f"nested, byte {at}")
        # Of a body of another format the data checksum isn't judged.
        is_unseen = not is_summed or at == begins[3] + 27
        judge_quietly(f"nested, byte {at}", kept == others or is_unseen and len(kept) == len(data))
    for at in range(begins[3] + 30, begins[4] - 5, 7):
        kept, told = judge_salvage(work, data[:at] + data[at + 5 :], f"nested, cut at {at}")
        # Without a data checksum the packet may pass with bytes of the next one, which is lost then.
        one_lost = kept == others or not is_summed and len(kept) == len(data) - len(whole[4])
        judge_quietly(f"nested, cut at {at}: {told}", one_lost)


@with_or_without_sums
def test_a_whole_packet_between_damaged_ones_is_kept(work: Path, is_summed: bool) -> None:
    """A whole packet between two whose headers are gone."""
    whole = nested(is_summed)
    begins = [len(b"".join(whole[:n])) for n in range(7)]
    both = bytearray(b"".join(whole))
    both[begins[1] : begins[1] + 24] = both[begins[3] : begins[3] + 24] = bytes(24)
    kept, told = judge_salvage(work, bytes(both), "two headers are zero")
    judge(f"between two damaged packets: {told}", whole[2] in kept and kept.endswith(b"".join(whole[4:])))


# ---- at the end of what is read at once


def long_packet(sequence: int) -> bytes:
    """A packet of more bytes than are read at once."""
    frames = [(at, 0, with_check_sequence(numbered(at, 1_000))) for at in range(90)]
    return frames_packet(frames, sequence, sequence, True)


@pytest.mark.parametrize("at", [0, 5, 22])
def test_a_damaged_last_header_is_told_once(work: Path, at: int) -> None:
    """The last packet's header is damaged, and it was not read whole: its bytes are told once, and nothing is made of
    what stands behind."""
    whole, last = long_packet(0), bytearray(long_packet(1))
    last[at] ^= 0x41
    (work / "a.ch11").write_bytes(whole + last)
    facts = facts_of(work / "a.ch11")
    listed = outcome(BPFREC, "list", work / "a.ch11").stderr.split()
    judge_quietly("the fault is that of list", [facts["damaged"][0]["fault"], str(len(whole))] == listed[2:4], facts)
    holds = [(it["at"], it["bytes"]) for it in facts["damaged"]] == [(len(whole), len(last))]
    judge("what is damaged is the last packet", holds, facts["damaged"])
    kept, told = salvaged(whole + last)
    judge("salvage keeps the first packet alone", kept == whole and f"lost {len(last)} " in told, told)


@pytest.mark.parametrize("seed", range(20))
def test_sums_by_blocks_are_those_of_the_words(seed: int) -> None:
    """Sums by blocks are those of the words, of drawn parts of bytes that move on."""
    draw = random.Random(seed)
    data, sums, at = draw.randbytes(200_000), BlockSums(), 0
    for _ in range(300):
        at = min(at + draw.randint(0, 900), len(data) - 8)
        begin = at + draw.randint(0, 40)
        end = begin + 4 * draw.randint(0, min(16_000, (len(data) - begin) // 4))
        found = sums.of_part(memoryview(data)[at:], at, begin, end)
        judge_quietly(f"{begin} to {end}", found == sum_of(data[begin:end], 4))


# ---- what salvage prints


def test_salvage_prints_its_lines_as_written_by_hand(work: Path) -> None:
    """The lines of one salvage, which were written by hand."""
    frames = [frames_packet([(at, 0, bytes(60))], at, at, True) for at in range(4)]
    parts = [program_packet(1, 0), *frames, end_packet(1, 4)]
    data = bytearray(b"".join(parts))
    second = len(parts[0]) + len(parts[1])
    data[second + 40] ^= 1
    (work / "lines.ch11").write_bytes(data[: -len(parts[-1])] + b"\0\0\0")
    done = outcome(SALVAGE, work / "lines.ch11", work / "kept.ch11")
    wanted = (
        f"lost {len(parts[2])} at {second} after read 8 DataChecksum\n"
        f"missing 1 of 1 from 1 at {second + len(parts[2])}\n"
        f"lost 3 at {len(data) - len(parts[-1])} after read 1 Truncated\nno end of 1\naudit: no 5 NoEnd 1\n"
        f"kept 4 packets {sum(map(len, (*parts[:2], *parts[3:5])))} bytes, lost {len(parts[2]) + 3} bytes at 2 places\n"
    )
    judge("what salvage prints", (done.returncode, done.stdout, done.stderr) == (1, wanted, ""), done)
    done = outcome(SALVAGE, "--force", SAMPLES[1], work / "kept.ch11")
    wanted = "kept 4 packets 248 bytes, lost 0 bytes at 0 places\n"
    judge("and of a whole recording", (done.returncode, done.stdout) == (0, wanted), done)


def test_without_the_program_salvage_says_so(work: Path) -> None:
    """Where bpfrec can't be found, salvage says so."""
    cut, out = work / "cut.ch11", work / "out.ch11"
    cut.write_bytes(SAMPLES[1].read_bytes()[:-3])
    plain = outcome(SALVAGE, cut, out)
    without = outcome(SALVAGE, "--force", cut, out, env={**os.environ, "BPFREC": "/nowhere"})
    wanted = plain.stdout.replace("audit: no 5 NoEnd 1", "audit: not asked: bpfrec is missing")
    judge("without bpfrec salvage says so", (without.returncode, without.stdout) == (1, wanted), without)


def test_what_salvage_cannot_read_is_refused_in_a_line(work: Path) -> None:
    out = work / "out"
    cases: list[tuple[list[object], int, str]] = [
        ([work / "nowhere", out], 3, f"bpfrec salvage: {work}/nowhere: No such file or directory\n"),
        ([work, out], 3, f"bpfrec salvage: {work}: Is a directory\n"),
        ([SAMPLES[0], "/dev/full"], 3, "bpfrec salvage: /dev/full: No space left on device\n"),
        ([SAMPLES[0]], 2, "bpfrec salvage: it takes DAMAGED and OUT: bpfrec salvage --help has its arguments\n"),
    ]
    for words, status, told in cases:
        done = outcome(SALVAGE, *words)
        judge(f"refused: {told.strip()}", (done.returncode, done.stderr) == (status, told) and not out.exists(), done)
    calls: list[list[object]] = [[SAMPLES[0], work / "kept.ch11"], ["--help"]]
    for words in calls:
        with open("/dev/full", "w") as full:
            done = outcome(SALVAGE, *words, stdout=full, stderr=subprocess.PIPE)
        answer = (done.returncode, done.stderr)
        judge("standard output that is full", answer == (3, "bpfrec salvage: -: No space left on device\n"), done)
