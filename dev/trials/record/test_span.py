"""Packets by age: `span` of a channel and the time marks of its feed, beside the second writer of
dev/trials/lib/aged_packets.py, byte for byte."""

import os
import random
import subprocess
from collections.abc import Iterator
from functools import partial
from pathlib import Path

import pytest
from aged_packets import FILTERS, Channel, Item, drawn_items, feed_of_items, groups, recording
from frames import record_of
from packets import packets_in
from recorder import record
from support import BPFREC, SECONDS, judge, judge_quietly, outcome, pipe_at, run, wait_for

pytestmark = pytest.mark.wanted("bin/bpfrec")
SPANS = [1, 2, 10, 1_000, 1_000_000, 1 << 47, (1 << 48) - 1]
SEEDS, CHANGED_SEEDS = range(60), range(12)
# Frames of 60 bytes, a span of 100: what docs/user/formats/recording.md has as the example.
SHORT = bytes(60)
EXAMPLE = [
    *(Item(counter, SHORT) for counter in (1_000, 1_099)),
    Item(1_100),
    Item(1_150, SHORT),
    *(Item(counter) for counter in (1_249, 1_250, 5_000)),
    Item(6_000, SHORT),
]
MARKS_WITHOUT_END = 4_000_000
# A program's packet, and that of a frame of 60 bytes.
OTHER_WRITTEN = 64 + 24 + 76 + 4


@pytest.fixture(name="work")
def fixture_work(tmp_path: Path) -> Path:
    for name, it in FILTERS.items():
        (tmp_path / name).write_text(it.listing)
    return tmp_path


def settings_of(work: Path, channel: Channel, feed: Path, ring: int = 64) -> Path:
    """Settings with all that is set of a channel; its span only where it has one."""
    keys = {"id": channel.number, "net": channel.net, "speed": channel.speed}
    keys |= {"span": channel.span} if channel.span else {}
    keys |= {"max": channel.most} if channel.most < 1 << 63 else {}
    made = work / "settings.toml"
    table = f'limit = {channel.limit}\nring = {ring}\n[[channel]]\nfeed = "{feed}"\n'
    table += f'filter = "{work / channel.filters[0][1]}"\n'
    made.write_text(table + "".join(f"{key} = {value}\n" for key, value in keys.items()))
    return made


def drawn_channel(rng: random.Random, span: int, filters: list[tuple[int, str]]) -> Channel:
    numbers = rng.choice([1, 7, 65_535]), rng.choice([0, 1, 255]), rng.choice([0, 3, 15])
    return Channel(filters, span, rng.choice([16_424, 20_000, 65_536]), *numbers, rng.choice([1 << 63, 0, 1, 9]))


def recorded(work: Path, channel: Channel, items: list[Item]) -> bytes:
    """The recording of a feed in a file, whose end is none of a fault."""
    (work / "a.feed").write_bytes(feed_of_items(items))
    done = record(settings_of(work, channel, work / "a.feed"), work / "out.ch11")
    judge_quietly("it is recorded", done.returncode == 0, done)
    return (work / "out.ch11").read_bytes()


def test_a_recording_is_that_of_the_second_writer(work: Path) -> None:
    for seed in SEEDS:
        rng = random.Random(seed)
        span = rng.choice([0, *SPANS])
        channel = drawn_channel(rng, span, [(0, rng.choice(list(FILTERS)))])
        items = drawn_items(rng, span, rng.randrange(80))
        found = recorded(work, channel, items)
        judge_quietly(f"seed {seed}", found == recording(channel, items), channel)
        (work / "old.ch11").write_bytes(recording(channel, items, is_summed=False))
        run(BPFREC, "upgrade", work / "old.ch11", work / "new.ch11")
        judge_quietly(f"seed {seed}: first profile", (work / "new.ch11").read_bytes() == found, channel)
        judge_quietly(f"seed {seed}: audit", outcome(BPFREC, "audit", work / "out.ch11").returncode == 0, channel)


def recorded_with_changes(work: Path, channel: Channel, chunks: list[tuple[list[Item], str]]) -> list[tuple[int, str]]:
    """Records chunks of a feed, each followed by a change of the filter; gives from which frame on each was in force."""
    settings = settings_of(work, channel, pipe_at(work, "a.feed"))
    words = [str(BPFREC), "record", str(settings), str(work / "out.ch11")]
    streams: dict = {"stdin": subprocess.PIPE, "stdout": subprocess.PIPE, "stderr": subprocess.PIPE, "text": True}
    filters = list(channel.filters)
    with subprocess.Popen(words, **streams) as recorder, open(work / "a.feed", "wb", buffering=0) as feed:
        assert recorder.stdin and recorder.stderr
        for items, changed in chunks:
            feed.write(feed_of_items(items))
            recorder.stdin.write(f"set {channel.number} {work / changed}\n")
            recorder.stdin.flush()
            answer = recorder.stderr.readline().split()
            judge_quietly("it is installed", answer[:2] == ["installed", str(channel.number)], answer)
            filters.append((int(answer[3]), changed))
        feed.close()
        told, wrong = recorder.communicate(timeout=SECONDS)
        judge_quietly("it is recorded", (recorder.returncode, wrong) == (0, ""), (told, wrong))
    return filters


def test_a_change_of_the_filter_begins_its_packets_anew(work: Path) -> None:
    met = 0
    for seed in CHANGED_SEEDS:
        rng = random.Random(seed)
        span = rng.choice(SPANS)
        channel = drawn_channel(rng, span, [(0, rng.choice(list(FILTERS)))])._replace(most=1 << 63)
        items = drawn_items(rng, span, 60)
        chunks = [(items[at : at + 10], rng.choice(list(FILTERS))) for at in range(0, 60, 10)]
        filters = recorded_with_changes(work, channel, chunks)
        expected = recording(channel._replace(filters=filters), items)
        judge_quietly(f"seed {seed}", (work / "out.ch11").read_bytes() == expected, (channel, filters))
        met += len(groups(channel._replace(filters=filters), items))
    judge("versions changed between frames", met > len(CHANGED_SEEDS), met)


def listed(work: Path) -> list[str]:
    """The packets of frames: their counters and how many frames each has."""
    lines = run(BPFREC, "list", work / "out.ch11").splitlines()
    return [line for line in lines if "frames" in line]


def test_the_example_has_the_packets_of_the_page(work: Path) -> None:
    channel = Channel([(0, "all")], span=100)
    judge_quietly("the recording", recorded(work, channel, EXAMPLE) == recording(channel, EXAMPLE))
    judge("three packets", len(listed(work)) == 3, listed(work))


def test_a_packet_that_is_due_is_written_though_no_frame_follows(work: Path) -> None:
    channel = Channel([(0, "all")], span=100)
    settings = settings_of(work, channel, pipe_at(work, "a.feed"))
    words = [str(BPFREC), "record", str(settings), str(work / "out.ch11")]
    whole = recording(channel, EXAMPLE)
    streams: dict = {"stdin": subprocess.DEVNULL, "stdout": subprocess.PIPE}
    with subprocess.Popen(words, **streams) as recorder, open(work / "a.feed", "wb", buffering=0) as feed:
        # Behind the mark at 1,100 the first packet is written, behind that at 1,250 the second, at 1,249 none.
        for begin, end, packets in ((0, 3, 1), (3, 5, 1), (5, 6, 2)):
            feed.write(feed_of_items(EXAMPLE[begin:end]))
            has_come = partial(has_size, work / "out.ch11", end_of(whole, packets))
            wait_for(f"{packets} packets behind {end} records", has_come)
        feed.write(feed_of_items(EXAMPLE[6:]))
        feed.close()
        recorder.communicate(timeout=SECONDS)
    judge("the whole recording", (work / "out.ch11").read_bytes() == whole)


def has_size(path: Path, size: int) -> bool:
    return path.exists() and path.stat().st_size == size


def end_of(whole: bytes, packets: int) -> int:
    """Where so many packets end, behind that of the program."""
    return [*(at for at, *_ in packets_in(whole)), len(whole)][packets + 1]


WRONG = {
    "a mark with error flags": (100, record_of(1_200, b"", 1), "SourceFault Length"),
    "a mark without a span": (0, record_of(1_200, b""), "SourceFault Length"),
    "a length of one byte": (100, record_of(1_200, b"\0"), "SourceFault Length"),
    "error flags of a frame": (100, record_of(1_200, SHORT, 4), "SourceFault Marks"),
    "a part of a mark": (100, record_of(1_200, b"")[:8], "SourceFault Truncated"),
}


@pytest.mark.parametrize("name", WRONG)
def test_a_wrong_record_is_the_fault_that_it_is_without_marks(work: Path, name: str) -> None:
    span, wrong, fault = WRONG[name]
    (work / "a.feed").write_bytes(feed_of_items([Item(1_000, SHORT)]) + wrong + feed_of_items([Item(1_300, SHORT)]))
    done = record(settings_of(work, Channel([(0, "all")], span), work / "a.feed"), work / "out.ch11")
    judge(name, fault in done.stdout and "offered 1 " in done.stdout, done)


def most_memory(work: Path, marks: int) -> int:
    """The most memory that a recorder of so many marks behind a frame takes, in KiB."""
    settings = settings_of(work, Channel([(0, "all")], span=100), pipe_at(work, f"{marks}.feed"))
    words = [str(BPFREC), "record", str(settings), str(work / "out.ch11")]
    with open(os.devnull, "rb") as nothing, open(work / "told", "wb") as told:
        recorder = subprocess.Popen(words, stdin=nothing, stdout=told)
        with open(work / f"{marks}.feed", "wb") as feed:
            feed.write(feed_of_items([Item(1_000, SHORT)]))
            for part in blocks(marks):
                feed.write(part)
        _, status, used = os.wait4(recorder.pid, 0)
        recorder.returncode = os.waitstatus_to_exitcode(status)
    judge_quietly("it is recorded", recorder.returncode == 0, (work / "told").read_text())
    return used.ru_maxrss


def blocks(marks: int) -> Iterator[bytes]:
    block = record_of(1_001, b"") * 10_000
    yield from (block for _ in range(marks // 10_000))


def test_marks_without_end_take_no_memory(work: Path) -> None:
    few, many = most_memory(work, 10_000), most_memory(work, MARKS_WITHOUT_END)
    judge("marks take no memory", many < few + 2_000, (few, many))


def test_marks_without_end_stop_no_other_channel(work: Path) -> None:
    """The first channel has nothing but marks; the second is recorded, and its feed closed, meanwhile."""
    first = settings_of(work, Channel([(0, "all")], span=100), pipe_at(work, "a.feed")).read_text()
    other = f'[[channel]]\nid = 2\nspan = 100\nfeed = "{pipe_at(work, "b.feed")}"\nfilter = "{work / "all"}"\n'
    (work / "settings.toml").write_text(first + other)
    words = [str(BPFREC), "record", str(work / "settings.toml"), str(work / "out.ch11")]
    streams: dict = {"stdin": subprocess.DEVNULL, "stdout": subprocess.PIPE, "text": True}
    with subprocess.Popen(words, **streams) as recorder, open(work / "a.feed", "wb", buffering=0) as marks:
        with open(work / "b.feed", "wb") as feed:
            feed.write(feed_of_items([Item(1_000, SHORT), Item(1_100)]))
            feed.flush()
            for _ in range(100):
                marks.write(record_of(7, b"") * 1_000)
            written = partial(has_size, work / "out.ch11", OTHER_WRITTEN)
            wait_for("the other channel's packet is written", written)
        marks.close()
        told, _ = recorder.communicate(timeout=SECONDS)
    judge("both ended", "channel 2 versions 1 offered 1 kept 1 SourceEnd" in told, told)


# A mark ahead of the first frame, one that is not due, one that is, and one after the close; each with its answer.
SCRIPT = {
    "time 1 5": "timed",
    f"take 1 16 0 {SHORT.hex()}": "took 0 0 1",
    "send 1": "sent program 0",
    "time 1 115": "timed",
    "send 1 ": "refused 4 NothingToSend",
    "time 1 116": "timed",
    "send 1  ": "sent frames 1",
    "time 2 116": "refused 1 NoChannel",
    "close 1": "closed 1 1",
    "time 1 117": "refused 2 Closed",
}
OPENING = "recorder 16424 4 8\nchannel 1 0 3 9 1,6 0 0 1,\n"
# Lines that end a script where they stand as its third.
NO_LINES = ["span 2 100", "span 1 0", "span 1 281474976710656", "span 1", "time 1", "time 1 281474976710656"]


def test_a_script_has_spans_and_time_marks(work: Path) -> None:
    script = OPENING + "span 1 100\n" + "".join(f"{event.strip()}\n" for event in SCRIPT)
    (work / "script").write_text(script)
    told = run(BPFREC, "simulate", work / "script").splitlines()
    judge("the answers", told == list(SCRIPT.values()), told)
    for line in NO_LINES:
        (work / "script").write_text(f"{OPENING}{line}\n")
        done = outcome(BPFREC, "simulate", work / "script")
        judge(line, (done.returncode, done.stderr) == (1, "script line 3\n"), done)
