"""Tries `bpfrec export` by programs that nobody here wrote: tshark, capinfos, editcap, mergecap, reordercap, tcpdump
and scapy."""

import hashlib
import os
import random
import re
import resource
import select
import subprocess
import sys
from pathlib import Path

import pytest
from captures import fields_of
from damage import damaged
from exports import Shown, wanted_of
from frames import FRAMES, HEAD, body_of, packet_of, program_packet, with_check_sequence
from pcapng_blocks import COMMENT, INTERFACE, blocks_in
from reading import SAMPLES, SEED, packets_of
from recorder import RECORDINGS
from rows import AS_ROOT, TICKS_A_SECOND, drawn_recording, flight_of, seconds_of
from support import BPFREC, judge, judge_quietly, outcome, present, run

pytestmark = pytest.mark.wanted("bin/bpfrec", "tshark", "capinfos", "tcpdump", "scapy")
# Prints the time of each packet of a capture in units, the units of a second, and its bytes.
SCAPY = """
import logging, sys
logging.getLogger("scapy.runtime").setLevel(logging.ERROR)
from scapy.utils import RawPcapReader
for captured, about in RawPcapReader(sys.argv[1]):
    print((about.tshigh << 32) + about.tslow, about.tsresol, captured.hex())
"""
FIELDS = [
    "frame.interface_id",
    "frame.interface_name",
    "frame.time_epoch",
    "frame.len",
    "frame.md5_hash",
    "frame.packet_flags_crc_error",
    "frame.packet_flags_symbol_error",
    "frame.comment",
]
DRAWN, DAMAGED = 10, 150
ORIGIN = 1_764_590_400


def exported(work: Path, recording: Path, *words: object) -> Path:
    out = work / "exported.pcapng"
    done = outcome(BPFREC, "export", recording, out, *words)
    judge_quietly(f"export of {recording.name}", (done.returncode, done.stdout, done.stderr) == (0, "", ""), done)
    return out


def seen_in(capture: Path) -> list[list[str]]:
    """What tshark reads of each frame of a capture."""
    words = [word for field in FIELDS for word in ("-e", field)]
    done = run("tshark", "-n", "-o", "frame.generate_md5_hash:TRUE", "-r", capture, "-T", "fields", *words)
    return [line.split("\t") for line in done.splitlines()]


def row_of(frame: Shown) -> list[str]:
    """What tshark is to read of a frame."""
    flags = ["", ""] if not frame.marks else [str(frame.marks >> 1), str(frame.marks & 1)]
    name, length = f"channel {frame.channel}", str(len(frame.bytes))
    moment, its_sum = seconds_of(frame.counter), hashlib.md5(frame.bytes).hexdigest()
    return [str(frame.interface), name, moment, length, its_sum, *flags, ",".join(frame.comments)]


def judge_export(work: Path, recording: Path) -> int:
    """An export has the bytes that docs/user/formats/recording.md says, and tshark reads the frames: how many."""
    wanted, out = wanted_of(recording.read_bytes()), exported(work, recording)
    judge_quietly(f"{recording.name}: the bytes", out.read_bytes() == wanted.bytes)
    seen = seen_in(out)
    judge_quietly(f"{recording.name}: as tshark reads it", seen == [row_of(it) for it in wanted.frames], seen[:3])
    return len(seen)


def drawn_versions(draw: random.Random) -> bytes:
    """Packets of frames of three channels, some without a frame, each behind any number of versions.

    The versions' numbers rise, fall or stay, and each has up to 3 instructions.
    """
    parts = []
    for turn in range(30):
        channel = draw.randint(1, 3)
        for _ in range(draw.choice([0, 1, 2, 3, 7])):
            number = draw.choice([turn, draw.randrange(3), draw.randrange(2**32)])
            parts.append(program_packet(channel, number, count=draw.randint(1, 3)))
        frames = [(turn, 0, draw.randbytes(60)) for _ in range(draw.randrange(4))]
        parts.append(packet_of(channel, body_of(frames), 0, FRAMES, turn, True))
    return b"".join(parts)


# ---- whole recordings


def test_an_export_has_the_bytes_that_formats_says(work: Path, three: Path) -> None:
    whole = [it for it in sorted(RECORDINGS.glob("*.ch11")) if outcome(BPFREC, "list", it).returncode == 0]
    counts = [judge_export(work, it) for it in [*whole, three, flight_of(work)]]
    judge(f"the exports of {len(counts)} recordings, {sum(counts)} frames", len(counts) > 7 and sum(counts) > 100)


def test_drawn_recordings_are_exported_as_formats_says(work: Path) -> None:
    draw = random.Random(SEED)
    for turn in range(DRAWN):
        (work / "drawn.ch11").write_bytes(drawn_recording(draw, turn % 2 == 0))
        judge_export(work, work / "drawn.ch11")


def test_a_comment_has_the_first_and_last_of_several_versions(work: Path) -> None:
    """Of several versions without a frame between them the comment has the first and the last."""
    draw, comments = random.Random(SEED), set()
    for _ in range(DRAWN):
        data = drawn_versions(draw)
        (work / "versions.ch11").write_bytes(data)
        judge_export(work, work / "versions.ch11")
        comments |= {",".join(it.comments) for it in wanted_of(data).frames}
    several = [it for it in comments if re.fullmatch(r"filter versions \d+ to \d+, the last of [123] instructions", it)]
    one = [it for it in comments if re.fullmatch(r"filter version \d+, [123] instructions", it)]
    judge(f"{len(one)} comments on one version, {len(several)} on several", one and several and "" in comments)


def test_tshark_finds_wrong_the_check_sequences_that_are(work: Path, three: Path) -> None:
    frames = wanted_of(three.read_bytes()).frames
    wrong = [str(at) for at, it in enumerate(frames, 1) if with_check_sequence(it.bytes[:-4]) != it.bytes]
    words = ["-o", "eth.check_fcs:TRUE", "-Y", "eth.fcs.status == 0", "-T", "fields", "-e", "frame.number"]
    found = run("tshark", "-n", "-r", exported(work, three), *words).split()
    judge(f"{len(wrong)} wrong check sequences", found == wrong and wrong)


def test_an_origin_shifts_times(work: Path, three: Path) -> None:
    out, plain = exported(work, three, ORIGIN), wanted_of(three.read_bytes())
    judge("the bytes with an origin", out.read_bytes() == wanted_of(three.read_bytes(), ORIGIN).bytes)
    moments = [it[2] for it in seen_in(out)]
    ticks = 10**7
    wanted = [f"{ORIGIN + it.counter // ticks}.{it.counter % ticks:07}00" for it in plain.frames]
    judge("times are since 1970", moments == wanted)


def test_each_packet_is_shown_before_the_next_is_read(three: Path) -> None:
    """Through pipes the blocks of the packets so far come before there is a further packet."""
    ends = [it.at + len(it.bytes) for it in packets_of(three.read_bytes())][:40]
    with subprocess.Popen([BPFREC, "export", "-", "-"], stdin=subprocess.PIPE, stdout=subprocess.PIPE) as export:
        given, shown, start = present(export.stdin), present(export.stdout), 0
        seen = b""
        for end in ends:
            given.write(three.read_bytes()[start:end])
            given.flush()
            wanted, start = wanted_of(three.read_bytes()[:end]).bytes, end
            while len(seen) < len(wanted) and select.select([shown], [], [], 10)[0]:
                seen += os.read(shown.fileno(), len(wanted) - len(seen))
            judge_quietly(f"the blocks of the first {end} bytes", seen == wanted)
        given.close()
        judge(f"{len(ends)} packets, each at once", export.wait(10) == 0 and shown.read() == b"")


def test_programs_that_read_captures_take_an_export(work: Path, three: Path) -> None:
    """Programs that read captures take it without a complaint."""
    capture, count = exported(work, three), len(wanted_of(three.read_bytes()).frames)
    for words in (
        ["capinfos", capture],
        ["editcap", capture, work / "edited.pcapng"],
        ["mergecap", "-w", work / "merged.pcapng", capture, capture],
        # reordercap of Wireshark 4.0 needs all interfaces ahead of the first frame, also in files of mergecap
        ["tshark", "-2", "-r", capture, "-w", work / "ahead.pcapng"],
        ["reordercap", work / "ahead.pcapng", work / "ordered.pcapng"],
    ):
        done = outcome(*words)
        done.stderr = "".join(it for it in done.stderr.splitlines(True) if AS_ROOT not in it)
        complains = re.search("error|warn|damaged", done.stderr, re.IGNORECASE)
        judge(str(words[0]), done.returncode == 0 and not complains, done)
    made = {it: len(fields_of(work / f"{it}.pcapng")) for it in ("edited", "merged", "ordered")}
    judge("and write its frames", made == {"edited": count, "merged": 2 * count, "ordered": count}, made)
    one = exported(work, SAMPLES[1])
    judge("reordercap of one channel", outcome("reordercap", one, work / "one.pcapng").returncode == 0)
    lines = outcome("tcpdump", "-nr", exported(work, three))
    judge("tcpdump", lines.returncode == 0 and len(re.findall(r"^\d\d:", lines.stdout, re.MULTILINE)) == count, lines)


def test_scapy_reads_the_times_of_an_export(work: Path, three: Path) -> None:
    """scapy 2.5 passes over what stands behind a comment, and takes times for microseconds without their unit."""
    wanted, blocks = wanted_of(three.read_bytes()), blocks_in(exported(work, three).read_bytes())
    texts = [it.text(COMMENT) for it in blocks if it.kind == INTERFACE]
    seen = run(sys.executable, "-c", SCAPY, work / "exported.pcapng").splitlines()
    rows = [f"{it.counter} {TICKS_A_SECOND} {it.bytes.hex()}" for it in wanted.frames]
    judge(f"{len(rows)} frames of interfaces with comments", seen == rows and any(texts), seen[:1])


def test_what_is_no_frame_says_so(work: Path) -> None:
    """A frame whose content isn't 0, or that is too short to be one, has a comment, also beside that of a filter."""
    kinds = [(content, length) for content in range(4) for length in (0, 17, 18, 60)]
    frames = [(at, content << 28, bytes(length)) for at, (content, length) in enumerate(kinds)]
    recording = work / "kinds.ch11"
    packets = [program_packet(1, number) for number in (0, 1)]
    recording.write_bytes(b"".join([*packets, packet_of(1, body_of(frames), 0, FRAMES, 1, True)]))
    judge_export(work, recording)
    shown = [it.comments[-1:] for it in wanted_of(recording.read_bytes()).frames]
    holds = [bool(it) for it in shown] == [kind not in ((0, 18), (0, 60)) for kind in kinds]
    judge("each of them, and no other", holds, shown)


@pytest.mark.timed
def test_a_channel_more_costs_no_look_at_the_others(work: Path) -> None:
    """All 65,536 channels, each met twice. A search through those before took over ten seconds for so many."""
    packets = {
        channel: packet_of(channel, body_of([(channel, 0, with_check_sequence(HEAD))]), 0, FRAMES, channel, True)
        for channel in range(65_536)
    }
    recording, out = work / "channels.ch11", work / "channels.pcapng"
    recording.write_bytes(b"".join([*packets.values(), *reversed(packets.values())]))
    before = resource.getrusage(resource.RUSAGE_CHILDREN).ru_utime
    run(BPFREC, "export", recording, out, seconds=120)
    took = resource.getrusage(resource.RUSAGE_CHILDREN).ru_utime - before
    judge_quietly("the bytes", out.read_bytes() == wanted_of(recording.read_bytes()).bytes)
    judge(f"{took:.1f} s for 131,072 packets of 65,536 channels", took < 4)


# ---- damaged recordings, and outputs that fail


def test_of_damage_an_export_has_what_stands_before(work: Path, three: Path) -> None:
    """Of a damaged recording the fault is told that `list` tells, and the export has what stands before."""
    draw, faults = random.Random(SEED), 0
    for _ in range(DAMAGED):
        data, recording, out = damaged(draw, three.read_bytes()), work / "damaged.ch11", work / "damaged.pcapng"
        recording.write_bytes(data)
        listed, done = outcome(BPFREC, "list", recording), outcome(BPFREC, "export", recording, out)
        same = (done.returncode, done.stderr) == (listed.returncode, listed.stderr)
        judge_quietly("the fault that list tells", same and done.stdout == "", done)
        at = int(listed.stderr.split()[-1]) if listed.returncode else len(data)
        judge_quietly("and what stands before", out.read_bytes() == wanted_of(data[:at]).bytes)
        faults += listed.returncode == 1
    judge(f"{faults} damaged recordings of {DAMAGED}", faults > DAMAGED // 2)


def test_an_output_that_fails_has_the_first_bytes(work: Path) -> None:
    """An output that takes some bytes alone has these."""
    for recording in SAMPLES:
        wanted, out = wanted_of(recording.read_bytes()).bytes, work / "cut.pcapng"
        for room in range(len(wanted)):
            limited = ["prlimit", f"--fsize={room}", BPFREC, "export", recording, out]
            done = outcome(*limited, restore_signals=False)
            told = (done.returncode, done.stdout, done.stderr) == (3, "", f"file {out}\n")
            judge_quietly(f"room for {room} bytes", told and out.read_bytes() == wanted[:room], done)
            os.unlink(out)
