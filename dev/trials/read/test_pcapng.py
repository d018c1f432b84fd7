"""Tries bpfrec export by programs that nobody here wrote: capinfos, editcap, mergecap, reordercap, tshark and
tcpdump."""

import json
import os
import random
import re
import shutil
import subprocess
from pathlib import Path

import pytest
from captures import fields_of
from expected_facts import BEFORE_1970, THREE_ORIGINS, facts_of_run
from frames import FRAMES, body_of, end_packet, numbered, packet_of, program_packet, records, with_check_sequence
from pcapng_blocks import COMMENT, INTERFACE, NAME, PACKET, Block, blocks_in
from reading import SAMPLES, SEED
from recorder import RECORDINGS, extracted
from rows import drawn_recording, flight_of
from seen_frames import channels_of, feeds_of, judge_whole, made, seen_in
from support import BPFREC, CAPTURE, EXPORT, judge, judge_quietly, outcome, pipe_at, run

pytestmark = pytest.mark.wanted("bin/bpfrec", "bin/capture", "tshark", "capinfos", "tcpdump", "cc")
DRAWN = 10


# ---- whole recordings


def test_frames_and_times_are_those_of_extract(work: Path, three: Path) -> None:
    whole = [it for it in sorted(RECORDINGS.glob("*.ch11")) if outcome(BPFREC, "list", it).returncode == 0]
    whole = [it for it in whole if channels_of(it)]
    for recording in [*whole, three, flight_of(work)]:
        judge_whole(work, recording)
    judge(f"frames and times of {len(whole) + 2} recordings are those of extract", len(whole) > 5)


def test_those_of_drawn_recordings_are_too(work: Path) -> None:
    draw = random.Random(SEED)
    for turn in range(DRAWN):
        (work / "drawn.ch11").write_bytes(drawn_recording(draw, turn % 2 == 0))
        judge_whole(work, work / "drawn.ch11")


def test_frames_of_all_channels_stand_by_time(work: Path) -> None:
    """Frames of all channels are merged by time."""
    seen = seen_in(made(work, flight_of(work)))
    moments = [it.moment for it in seen]
    judge("times rise", moments == sorted(moments) and len({it.interface for it in seen}) == 2)


def test_programs_that_read_captures_take_it(work: Path, three: Path) -> None:
    """Programs that read captures take it without a complaint."""
    capture = made(work, three)
    count = len(seen_in(capture))
    for words in (
        ["capinfos", capture],
        ["editcap", capture, work / "edited.pcapng"],
        ["mergecap", "-w", work / "merged.pcapng", capture, capture],
        ["reordercap", capture, work / "ordered.pcapng"],
    ):
        done = outcome(*words)
        holds = done.returncode == 0 and not re.search("error|warn|damaged", done.stderr, re.IGNORECASE)
        judge(f"{words[0]}", holds, done)
    told = run("capinfos", "-M", "-c", capture)
    judge("capinfos counts the frames", f"Number of packets:   {count}\n" in told, told)
    judge("mergecap's file has them twice", len(fields_of(work / "merged.pcapng")) == 2 * count)
    holds = {len(fields_of(work / f"{it}.pcapng")) for it in ("ordered", "edited")} == {count}
    judge("reordercap's and editcap's once", holds)
    lines = outcome("tcpdump", "-nr", capture)
    holds = lines.returncode == 0 and len(re.findall(r"^\d\d:", lines.stdout, re.MULTILINE)) == count
    judge("tcpdump reads it", holds, lines)


def test_tshark_finds_wrong_those_that_are_marked(work: Path, three: Path) -> None:
    """tshark finds wrong those that are marked in the recording."""
    capture = made(work, three)
    done = outcome(
        "tshark",
        "-r",
        capture,
        "-o",
        "eth.check_fcs:TRUE",
        "-Y",
        "eth.fcs.status == 0",
        "-T",
        "fields",
        "-e",
        "frame.number",
    )
    wrong = sum(it.marks for it in feeds_of(work, three)[3])
    judge(f"tshark finds {wrong} wrong check sequences", len(done.stdout.splitlines()) == wrong > 0)


def converted(work: Path, capture: Path) -> bytes:
    """The feed that `capture -r` makes of a capture."""
    run(CAPTURE, "--origin", "zero", "-r", f"{capture}={work}/back.feed")
    return (work / "back.feed").read_bytes()


def test_a_capture_of_it_is_the_same_feed(work: Path, three: Path) -> None:
    """With its marks."""
    found = converted(work, made(work, "--channel", 3, three))
    judge("the feed of a channel, marks and all", found == extracted(three, 3, work / "3.feed"))
    marked = [(at * 100, at % 4, with_check_sequence(numbered(at))) for at in range(8)]
    words = {0: 0, 1: 1 << 31, 2: 1 << 30, 3: 3 << 30}
    body = body_of([(at, words[it], frame) for at, it, frame in marked])
    (work / "marked.ch11").write_bytes(program_packet(1, 0) + packet_of(1, body, 0, FRAMES, 0, True))
    found = converted(work, made(work, work / "marked.ch11"))
    judge("all four marks", [it.marks for it in records(found)] == [it for _, it, _ in marked])


# ---- what the blocks say


def test_interfaces_have_names_counts_and_filters(work: Path) -> None:
    recording = work / "changed.ch11"
    first, second = (6, 0, 0, 1), (6, 0, 0, 2)
    frame = with_check_sequence(numbered(0))
    parts = [program_packet(2, 0, first), packet_of(2, body_of([(5, 0, frame)]), 0, FRAMES, 5, True)]
    parts += [program_packet(2, 1, second), packet_of(2, body_of([(6, 0, frame), (7, 0, frame)]), 1, FRAMES, 6, True)]
    recording.write_bytes(b"".join([*parts, end_packet(2, 3)]))
    capture = made(work, recording)
    told = run("capinfos", "-k", "-I", capture)
    judge("the counts", "channel 2: frames offered 3, kept 3" in told and "Name = channel 2" in told, told)
    data = capture.read_bytes()
    judge("the first filter, ahead of the counts", b"filter version 0, 1 instructions\nret #1\nchannel 2: " in data)
    lines = run("tshark", "-r", capture, "-T", "fields", "-e", "frame.number", "-e", "frame.comment").splitlines()
    judge(
        "the later one, at its first frame",
        lines == ["1\t", "2\tfilter version 1, 1 instructions\\nret #2", "3\t"],
        lines,
    )
    Path(f"{recording}.json").write_text(
        json.dumps({**facts_of_run(THREE_ORIGINS), "interfaces": [{"interface": "eth7", "channel": 2}]})
    )
    told = run("capinfos", "-k", "-I", made(work, recording))
    judge("the name by the facts, and the host", "Name = eth7" in told and "its facts, of host fc1" in told, told)
    done = outcome(EXPORT, "--force", recording, work / "made.pcapng", env={**os.environ, "BPFREC": "/nowhere"})
    judge("without bpfrec filters are listings", b"\n1,6 0 0 1," in capture.read_bytes() and done.returncode == 0)


def versions_of_channels(draw: random.Random) -> bytes:
    """Packets of three channels: up to five versions at a time, and frames or none. A fourth channel has a program
    alone."""
    frame, versions, parts = with_check_sequence(numbered(0)), dict.fromkeys(range(1, 5), 0), []

    def program(channel: int) -> bytes:
        version = versions[channel]
        versions[channel] += draw.randrange(1, 3)
        return program_packet(channel, version, count=draw.randrange(1, 4))

    for turn, channel in enumerate([1, 2, 3, *(draw.randrange(1, 4) for _ in range(40))]):
        parts += [program(channel) for _ in range(draw.choice([0, 0, 1, 2, 5]))]
        frames = [(2 * turn + it, 0, frame) for it in range(draw.randrange(3))]
        parts.append(packet_of(channel, body_of(frames), turn, FRAMES, 2 * turn, True))
    return b"".join([*parts, program(4)])


def test_interfaces_and_comments_are_in_the_words_of_export(work: Path, three: Path) -> None:
    """Of the same recording without facts: the same names, and the same versions at the same frames."""
    draw, found = random.Random(SEED), set()
    recordings = [work / f"versions_{it}.ch11" for it in range(DRAWN)]
    for recording in recordings:
        recording.write_bytes(versions_of_channels(draw))
    for recording in (*SAMPLES, three, *recordings):
        run(BPFREC, "export", recording, work / "exported.pcapng")
        wanted, blocks = (blocks_in(it.read_bytes()) for it in (work / "exported.pcapng", made(work, recording)))
        judge_quietly("the names", sorted(names_in(wanted)) == sorted(names_in(blocks)), blocks[:4])
        for name in names_in(wanted):
            pairs = list(zip(comments_at(wanted, name), comments_at(blocks, name), strict=True))
            for exported, comment in pairs[1:]:
                judge_quietly("the version", comment.partition("\n")[0] == exported, (exported, comment))
            judge_quietly("the first one", pairs[0][1].startswith(pairs[0][0]), pairs[0])
            judge_quietly("and no other", pairs[0][0] != "" or pairs[0][1].startswith("channel "), pairs[0])
            found |= {re.sub(r"[0-9]+", "0", exported) for exported, _ in pairs}
        judge_quietly("and texts of filters", all("ret #" in it for it in comments_in(blocks) if "filter" in it))
    judge("each kind of words was there", len(found) == 3, found)


def names_in(blocks: list[Block]) -> list[str]:
    return [it.text(NAME) for it in blocks if it.kind == INTERFACE]


def comments_in(blocks: list[Block]) -> list[str]:
    """The comments of interfaces, and behind them those of frames."""
    return [it.text(COMMENT) for kind in (INTERFACE, PACKET) for it in blocks if it.kind == kind]


def comments_at(blocks: list[Block], name: str) -> list[str]:
    """The comment of an interface, and those of its frames."""
    number = names_in(blocks).index(name)
    frames = [it for it in blocks if it.kind == PACKET and it.frame().interface == number]
    return [comments_in(blocks)[number], *comments_in(frames)]


def test_counts_of_a_channel_stand_behind_the_longest_filter(work: Path) -> None:
    """A comment has room for 65,535 bytes, which the text of a filter may fill."""
    path = work / "long.ch11"
    path.write_bytes(program_packet(1, 0, (4, 0, 0, 0xFFFF_FFFF), count=4_096) + end_packet(1, 7))
    comment = comments_in(blocks_in(made(work, path).read_bytes()))[0]
    holds = len(comment) == 65_535 and comment.startswith("filter version 0, ")
    judge("as much of the text as there is room for", holds)
    judge("and the counts", comment.endswith(" ..\nchannel 1: frames offered 7, kept 7"), comment[-80:])


# ---- damage


def test_a_damaged_place_is_told_and_what_follows_is_there(work: Path) -> None:
    """A damaged place is told, what is behind it is in the capture, and the status is 1."""
    frame = with_check_sequence(numbered(0))
    packets = [packet_of(1, body_of([(at, 0, frame)] * 2), at, FRAMES, at, True) for at in range(4)]
    whole = [program_packet(1, 0), *packets, end_packet(1, 8)]
    begin = len(whole[0]) + len(whole[1])
    for name, place, told in (("sum", 30, "read 8 DataChecksum"), ("header", 3, "read 3 Checksum")):
        data = bytearray(b"".join(whole))
        data[begin + place] ^= 1
        (work / "damaged.ch11").write_bytes(data)
        done = outcome(EXPORT, "--force", work / "damaged.ch11", work / "out.pcapng")
        wanted = f"bpfrec export: {work}/damaged.ch11: {told} {begin}: {len(whole[2])} bytes are left out\n"
        holds = (done.returncode, done.stdout, done.stderr) == (1, "frames 6 skipped 0\n", wanted)
        judge(f"a wrong {name}", holds, done)
    (work / "damaged.ch11").write_bytes(b"".join(whole)[:-1])
    done = outcome(EXPORT, "--force", work / "damaged.ch11", work / "out.pcapng")
    holds = done.returncode == 1 and "read 1 Truncated" in done.stderr and done.stdout.startswith("frames 8 ")
    judge("cut", holds, done)


def test_each_damaged_byte_ends_with_a_line_and_a_status(work: Path) -> None:
    """Whatever byte is damaged, it ends with a line and a status, and tshark reads what it made."""
    data = SAMPLES[1].read_bytes()
    for at in range(0, len(data), 5):
        (work / "damaged.ch11").write_bytes(data[:at] + bytes([data[at] ^ 0xFF]) + data[at + 1 :])
        done = outcome(EXPORT, "--force", work / "damaged.ch11", work / "out.pcapng")
        judge_quietly(f"byte {at}", done.returncode in (0, 1) and "Traceback" not in done.stderr, done)
    judge("each fifth byte", outcome("capinfos", work / "out.pcapng").returncode == 0)


# ---- outputs and refusals


def test_outputs_may_be_streams_and_pipes_and_none_is_overwritten(work: Path) -> None:
    recording, out = work / "x.ch11", work / "out.pcapng"
    shutil.copy(flight_of(work), recording)
    done = subprocess.run([EXPORT, recording, "-"], capture_output=True, check=False)
    judge("standard output", done.returncode == 0 and done.stderr == b"frames 14 skipped 0\n", done.stderr)
    pipe, reader = pipe_at(work, "pipe"), None
    reader = subprocess.Popen(["cat", pipe], stdout=subprocess.PIPE)
    run(EXPORT, "--as=pcapng", recording, pipe)
    judge("a pipe", reader.communicate()[0] == done.stdout)
    out.write_text("another's")
    again = outcome(EXPORT, recording, out)
    judge("an OUT that is there is refused", again.returncode == 3 and out.read_text() == "another's", again)
    judge("and said", again.stderr == f"bpfrec export: {out} is there: give it another name, or --force\n", again)
    run(EXPORT, "--force", recording, out)
    judge("--force overwrites it", out.read_bytes() == done.stdout)
    link = work / "link"
    os.link(recording, link)
    for taken in (recording, link):
        refused = outcome(EXPORT, "--as=pcapng", "--force", recording, taken)
        judge("never the recording itself", refused.returncode == 3 and "itself" in refused.stderr, refused)
    judge("which is as it was", run(BPFREC, "audit", recording).endswith("yes other 0\n"))


def test_what_cannot_be_made_is_refused(work: Path, three: Path) -> None:
    plain, known, out = work / "plain.ch11", work / "known.ch11", work / "out.pcapng"
    for given in (plain, known):
        shutil.copy(SAMPLES[1], given)
    (work / "known.ch11.json").write_text(json.dumps(facts_of_run(BEFORE_1970)))
    (work / "none.ch11").write_bytes(SAMPLES[1].read_bytes())
    (work / "none.ch11.json").write_text("{}")
    os.mkfifo(work / "fifo")
    cases: list[tuple[list[object], int, str]] = [
        ([work / "nowhere", out], 3, f"bpfrec export: {work}/nowhere: No such file or directory"),
        ([plain, known, out], 1, f"bpfrec export: {known} has facts beside it and {plain} has none"),
        ([work / "none.ch11", out], 1, f"bpfrec export: {work}/none.ch11.json: no facts of a recording: facts isn't 1"),
        (
            ["--from", "2025-12-01T12:00:00Z", plain, out],
            1,
            "no facts beside it, so times are seconds since counter 0, as 12.5",
        ),
        (["--from", "noon", plain, out], 2, "noon is no time, as 12.5, 23:36:10 or 2025-12-01T12:00:00.25Z"),
        (["--from", "10", "--to", "5", plain, out], 1, "--to isn't after --from"),
        (["--channel", "7", plain, out], 1, f"bpfrec export: {plain}: no channel 7"),
        (["--channel", "70000", plain, out], 2, "70000 is no channel ID"),
        ([work / "fifo", out], 1, f"bpfrec export: {work}/fifo: it is no regular file, of which parts could be read"),
        ([out], 2, "the following arguments are required"),
        (["--as=pcapng", plain, "/dev/full"], 3, "bpfrec export: /dev/full: No space left on device"),
        (["--as=pcapng", plain, work / "no/where"], 3, "No such file or directory"),
    ]
    for words, status, told in cases:
        done = outcome(EXPORT, *words)
        holds = done.returncode == status and told in done.stderr and "Traceback" not in done.stderr
        judge(f"refused: {told}", holds, done)
        judge_quietly("nothing is made", not out.exists())


def test_a_time_before_1970_and_a_full_standard_output_are_refused(work: Path) -> None:
    plain, known, out = work / "plain.ch11", work / "known.ch11", work / "out.pcapng"
    for recording in (plain, known):
        shutil.copy(SAMPLES[1], recording)
    (work / "known.ch11.json").write_text(json.dumps(facts_of_run(BEFORE_1970[:1])))
    done = outcome(EXPORT, "--force", known, out)
    judge("a time before 1970", done.returncode == 1 and "is before the times of a capture" in done.stderr, done)
    with open("/dev/full", "w") as full:
        done = outcome(EXPORT, "--force", plain, out, stdout=full, stderr=subprocess.PIPE)
    holds = (done.returncode, done.stderr) == (3, "bpfrec export: -: No space left on device\n")
    judge("standard output that is full", holds, done)
