"""Tries `bpfrec chapter11` of several recordings: its file is that of a second writer, byte for byte, and a reader that
shares no code with either finds nothing wrong with it."""

import random
import resource
from pathlib import Path
from typing import Any

import pytest
from drawn_recording import DrawnRecording, drawn_insns
from frames import FRAMES, body_of, packet_of
from joined_file import Table, joined_file
from packets import frames_in, packets_in
from reading import SAMPLES
from support import BPFREC, judge, judge_quietly, outcome
from whole_file_parts import recorded
from whole_file_trials import chapter11, judge_joined, judge_made, judge_same, seconds_of, text_of, write_inputs

pytestmark = pytest.mark.wanted("bin/bpfrec")
SECOND, MILLISECOND, LAST_COUNTER = 10_000_000, 10_000, 2**48 - 1
# 2025-12-01 12:00:00, in nanoseconds since 1970, and by how many a clock is set.
MOMENT = 1_764_590_400 * 10**9
SET_BY = (1, 49, 50, 51, 100, 60_000_000, 400_000_000)
SET_FAR = (999_999_900, 10**9, 1_000_000_100, 600 * 10**9)
POOL = (1, 2, 3, 4, 5, 9, 40_000, 65_535)
TOPS: tuple[Table, ...] = ({}, {"scale": "UTC"}, {"scale": "TAI", "tai_offset": 37})
MORE = {"host": "tap1; tap2", "program": "p\u00e9", "external": True, "attributes": ["G\\SC:U", "G\\PN:x"]}


def frames_at(channel: int, *counters: int) -> bytes:
    """A recording of a packet of frames."""
    made = DrawnRecording()
    made.add_frames(channel, [(it, 0, 60) for it in counters])
    return bytes(made.data)


def hollow(*channels: int) -> bytes:
    """A recording of a packet of no frames for each channel."""
    return b"".join(packet_of(it, body_of([]), 0, FRAMES, 0, True) for it in channels)


def at(*nanoseconds: int) -> Table:
    """SETUP of recordings with such origins since the moment."""
    return {"recording": [{"origin": seconds_of(MOMENT + it)} for it in nanoseconds]}


def set_at(counter: int, nanoseconds: int) -> Table:
    """SETUP of two recordings: the clock of the second one is set at a counter."""
    origins = [{"counter": 0, "origin": seconds_of(MOMENT)}]
    origins += [{"counter": counter, "origin": seconds_of(MOMENT + nanoseconds)}]
    return {"recording": [at(0)["recording"][0], {"origins": origins}]}


# ---- campaigns that are drawn


def drawn_data(draw: random.Random, start: int) -> bytes:
    """A recording from a counter on: of frames and records, of records alone, or of nothing."""
    channels = draw.sample(POOL, draw.randrange(1, 5))
    kind = draw.choice(("frames", "frames", "frames", "frames", "records", "nothing"))
    if kind == "nothing":
        return b""
    if kind == "frames":
        return bytes(recorded(draw, channels, start, 3).data) + hollow(*draw.sample(POOL, 1))
    made = DrawnRecording()
    for channel in channels:
        made.add_program(channel, 0, start + draw.randrange(SECOND), drawn_insns(draw))
        made.add_end(channel, draw.choice([0, 3]), start + draw.randrange(SECOND))
    return bytes(made.data)


def drawn_origin(draw: random.Random, counter: int, nanoseconds: int, top: Table) -> Table:
    """An origin as SETUP has it, in any scale."""
    scales: list[Table] = [{}, {"scale": "UTC"}, {"scale": "TAI", "tai_offset": draw.choice([0, 37, 255])}]
    scale = draw.choice([*scales, *([{"scale": "unknown"}] if top else [])])
    ahead = (top if scale.get("scale") == "unknown" else scale).get("tai_offset", 0)
    return {"counter": counter, "origin": seconds_of(nanoseconds + ahead * 10**9), **scale}


def drawn_table(draw: random.Random, start: int, top: Table, set_by: tuple) -> Table:
    """The table of a recording that begins at a counter, about the moment, and whose clock may be set by so much."""
    unit = draw.choice([1, 100])
    begin = MOMENT + draw.randrange(2 * 10**9) // unit * unit - 100 * start
    names = [
        {"id": it, "name": f"eth{it} of {draw.choice('abc')}", "net": draw.randrange(256)}
        for it in draw.sample(POOL, draw.randrange(4))
    ]
    if draw.random() < 0.3:
        return {"origin": seconds_of(begin), "channel": names}
    noted = [(draw.choice([0, start, LAST_COUNTER]), begin)]
    for _ in range(draw.choice([0, 1, 2, 6])):
        noted.append((start + draw.randrange(3 * SECOND), begin + draw.choice([-1, 1]) * draw.choice(set_by)))
    # One that never holds, an hour before.
    before = [(0, begin - 3_600 * 10**9), (0, begin)] if draw.random() < 0.2 else []
    return {"origins": [drawn_origin(draw, *it, top) for it in [*before, *noted[len(before) > 0 :]]], "channel": names}


def drawn_campaign(draw: random.Random, count: int, set_by: tuple = SET_BY) -> tuple[list[bytes], Table]:
    starts = [draw.choice([0, draw.randrange(2**40), 2**47]) for _ in range(count)]
    top = draw.choice(TOPS)
    tables = [drawn_table(draw, it, top, set_by) for it in starts]
    return [drawn_data(draw, it) for it in starts], {**top, **draw.choice([{}, MORE]), "recording": tables}


@pytest.mark.parametrize("seed", range(40))
def test_drawn_campaigns(work: Path, seed: int) -> None:
    draw = random.Random(seed)
    recordings, setup = drawn_campaign(draw, draw.randrange(2, 6))
    judge(f"{len(recordings)} recordings", judge_made(work, f"{seed}", recordings, setup))


def test_one_recording_with_a_table_of_its_own_and_without(work: Path) -> None:
    """No counter is moved, and both give the same file."""
    for seed in range(40):
        recordings, setup = drawn_campaign(random.Random(seed), 1)
        table = setup.pop("recording")[0]
        lines = [
            judge_joined(work, f"{seed}", recordings, it)
            for it in ({**setup, "recording": [table]}, {**setup, **table})
        ]
        judge_quietly(f"{seed}: both", lines[0].startswith(lines[1]), lines)


def test_campaigns_whose_clocks_are_set_far(work: Path) -> None:
    lines = []
    for seed in range(40):
        draw = random.Random(seed)
        lines.append(judge_joined(work, f"{seed}", *drawn_campaign(draw, draw.randrange(2, 4), SET_FAR)))
    made, disorder = (sum(it.startswith(start) for it in lines) for start in ("times ", "refused 2 "))
    judge("some are refused", made >= 10 and disorder >= 5, lines)


def test_64_recordings(work: Path) -> None:
    judge("64 at once", judge_made(work, "64", *drawn_campaign(random.Random(64), 64)))


def test_samples_and_one_recording_twice(work: Path) -> None:
    """Also of the first profile, which has no data checksums."""
    data = [it.read_bytes() for it in SAMPLES]
    judge("samples", judge_made(work, "samples", [*data, data[0]], at(*range(0, 70 * len(data), 70), 0)))


def test_recordings_of_nothing(work: Path) -> None:
    line = judge_made(work, "nothing", [b"", b""], at(0, 50))
    judge("of two", line.startswith("times 1 packets 0 records 0 index 2 "))
    ends = DrawnRecording()
    ends.add_end(3, 0, LAST_COUNTER)
    judge("an end without a counter", judge_made(work, "ends", [bytes(ends.data), b"", hollow(3)], at(7, 0, 9)))


# ---- counters


@pytest.mark.parametrize(
    "origins, moved",
    [
        ((0, 49), (0, 0)),
        ((0, 50), (0, 1)),
        ((0, 51), (0, 1)),
        ((49, 50), (0, 1)),
        ((50, 149), (1, 1)),
        ((99, 150), (1, 2)),
        ((-1, 0), (1, 1)),
        ((10**9, 10**9 - 51), (1, 0)),
    ],
)
def test_counters_are_rounded_to_the_nearest_tick(work: Path, origins: tuple, moved: tuple) -> None:
    judge_made(work, "of two", [frames_at(1, 5), frames_at(1, 5)], at(*origins))
    packets = packets_in((work / "flight.ch10").read_bytes())
    found = {channel: frames_in(data)[0].counter - 5 for _, channel, kind, _, data in packets if kind == FRAMES}
    judge(f"{origins}", found == {1: moved[0], 2: moved[1]}, found)


@pytest.mark.parametrize(
    "counters, setting, packets",
    [
        ((1_000, 1_001_000), (500_000, -100), 1),
        ((1_000, 1_000_999), (500_000, 49), 1),
        ((1_000, 1_000_999), (500_000, 50), 2),
        ((1_000, 1_100), (1_050, -500_000_000), 2),
        ((1_100, 1_000), (1_050, -20_000), 1),
        ((1_000, 1_001), (1_001, -100), 1),
        ((1_000, 1_001), (1_001, -150), 1),
        ((1_000, 1_001), (1_001, -151), 2),
        ((SECOND - 2, SECOND - 1), (SECOND - 1, 49), 1),
        ((SECOND - 2, SECOND - 1), (SECOND - 1, 50), 2),
        ((9_500_000, 10_200_000, 10_600_000), (10_500_000, 0), 3),
        ((9_500_000, 10_200_000, 10_600_000), (10_500_000, -20_000_000), 2),
    ],
)
def test_frames_are_cut_by_the_counters_of_the_file(work: Path, counters: tuple, setting: tuple, packets: int) -> None:
    """Of one packet, whose clock is set under way; the other recording has a packet more."""
    line = judge_made(work, "of two", [frames_at(1, 0), frames_at(2, *counters)], set_at(*setting))
    judge(f"{counters}", f" packets {packets + 1} " in line, line)


# ---- channels


def test_ids_names_and_networks(work: Path) -> None:
    recordings = [hollow(3, 1), hollow(1, 2, 3), b"", hollow(5), hollow(65_535, 5, 1)]
    setup = at(0, 0, 0, 0, 0)
    for table, ids in zip(setup["recording"], ((1,), (1, 2), (3,), (), (65_535, 1))):
        table["channel"] = [{"id": it, "name": f"of {it}", "net": it % 256} for it in ids]
    judge_made(work, "of five", recordings, setup)
    text = next(data for *_, data in packets_in((work / "flight.ch10").read_bytes()))[4:].decode()
    lines = dict(it.removesuffix(";").split(":", 1) for it in text.splitlines())
    found = [
        tuple(lines[f"R-1\\{key}"] for key in (f"TK1-{n}", f"ENAM-{n}-1", f"ENBR-{n}-1"))
        for n in range(2, int(lines["R-1\\N"]) + 1)
    ]
    rest = "channel", "0"
    wanted = [("1", "of 1", "1"), ("2", "of 2", "2"), ("3", *rest), ("4", "of 1", "1"), ("5", *rest), ("6", *rest)]
    wanted += [("7", "of 1", "1"), ("8", *rest), ("65535", "of 65535", "255")]
    judge("the channels", found == wanted, found)
    judge("the time's channel", lines["R-1\\TK1-1"] == "9")


def test_as_many_channels_as_a_file_has(work: Path) -> None:
    some, others = range(1, 40_001), range(1, 25_536)
    line = judge_joined(work, "one too many", [hollow(*some), hollow(*others)], at(0, 0))
    judge("none is left for the time", line == "refused 7 Full 0 0", line)
    line = judge_joined(work, "all but one", [hollow(*some), hollow(*others[1:])], at(0, 0))
    judge("one is left", line.startswith("times 1 "), line)


# ---- what is refused

OTHER = packet_of(7, b"1234", 0, 0x40, 0, True)
YEAR_4000 = 64_060_588_800 * 10**9 - MOMENT
WEEK = 7 * 86_400 * SECOND
ONE, LAST = frames_at(1, 0), frames_at(1, 0) + frames_at(2, LAST_COUNTER)
REFUSED: dict[str, tuple[list[bytes], Table]] = {
    "refused 1 Other 104 1": ([ONE, ONE + OTHER, OTHER], at(0, 0, 0)),
    "refused 1 Other 104 0": ([ONE + OTHER, OTHER], at(0, 0)),
    "refused 1 Other 0 2": ([ONE, LAST, OTHER], at(0, 100, YEAR_4000)),
    "refused 3 Gap 104 1": ([ONE, LAST, LAST], at(YEAR_4000, YEAR_4000 + 50, YEAR_4000 + 100)),
    "refused 3 Gap 0 0": ([frames_at(1, 5, LAST_COUNTER), ONE], at(0, -99)),
    "refused 5 Year 0 0": ([ONE, ONE], at(YEAR_4000 + 10**10, YEAR_4000)),
    "refused 2 Disorder 104 1": ([ONE, frames_at(1, 9 * SECOND) + frames_at(1, 0)], at(0, 0)),
    "refused 2 Disorder 0 1": ([ONE, frames_at(1, 30 * SECOND, 20 * SECOND)], at(0, -10 * 10**9)),
    "refused 3 Gap 0 1": ([ONE, frames_at(1, WEEK + 1)], at(0, 0)),
    "refused 3 Gap 0 2": ([ONE, b"", frames_at(1, 1)], at(0, 0, WEEK * 100)),
}


@pytest.mark.parametrize("line", REFUSED)
def test_recordings_that_have_no_file(work: Path, line: str) -> None:
    found = judge_joined(work, line, *REFUSED[line])
    judge(line, found == line, found)


def test_a_year_that_comes_under_way(work: Path) -> None:
    later = ONE + frames_at(1, 3 * SECOND)
    found = judge_joined(work, "years", [ONE, later], at(YEAR_4000 - 3 * 10**9, YEAR_4000 - 2 * 10**9))
    judge("the places are 0", found == "refused 5 Year 0 0", found)


def test_channels_come_before_counters(work: Path) -> None:
    many = hollow(*range(1, 65_534))
    found = judge_joined(work, "full", [many, LAST], at(0, 100))
    judge("full before a gap", found == "refused 7 Full 0 0", found)
    found = judge_joined(work, "other", [many, LAST, OTHER], at(0, 100, 0))
    judge("another packet before both", found == "refused 1 Other 0 2", found)


def test_one_recording_by_its_table_is_refused_with_two_places(work: Path) -> None:
    rows = ([ONE + OTHER], at(0)), ([ONE], at(YEAR_4000)), ([ONE + frames_at(1, WEEK + 1)], at(0))
    found = [judge_joined(work, "one", *it) for it in rows]
    judge("three", found == ["refused 1 Other 104 0", "refused 5 Year 0 0", "refused 3 Gap 104 0"], found)
    last = [{"counter": 0, "origin": "0.000000050"}, {"counter": LAST_COUNTER, "origin": "0.000000099"}]
    found = [judge_joined(work, "no tick", [frames_at(1, LAST_COUNTER)], {"recording": [{"origins": last}]})]
    judge("no tick", found == ["refused 4 Origin 0 0"], found)


def said(work: Path, recordings: list[bytes], setup: str, **more: Any) -> tuple[int, str]:
    """The status and the line on standard error, where nothing else is printed or made."""
    done = chapter11(work, recordings, setup, **more)
    judge_quietly("no OUT", not done.stdout and not (work / "flight.ch10").exists(), done.stderr)
    return done.returncode, done.stderr


def test_reading_comes_before_what_is_refused(work: Path) -> None:
    cut, setup = ONE[:-4], text_of(at(0, 0, 0))
    for recordings, line in (
        ([OTHER, ONE, ONE + cut], "read 1 Truncated 104 2"),
        ([OTHER, cut, ONE + cut], "read 1 Truncated 0 1"),
        ([cut, OTHER, cut], "read 1 Truncated 0 0"),
    ):
        done = chapter11(work, recordings, setup)
        judge(line, (done.returncode, done.stdout, done.stderr) == (1, "", f"{line}\n"), done)
    done = chapter11(work, [ONE + cut], text_of(at(0)))
    judge("of one alone", done.stderr == "read 1 Truncated 104\n", done)


ZERO = 'origin = "0"'
TWO = f"recording = [{{ {ZERO} }}, {{ {ZERO} }}]"
# One of each kind; crates/test_program/src/setup_file.rt has all.
FAULTS = {
    "": "3 Missing recording",
    "a": "1 Syntax",
    f"recording = [{{ {ZERO} }}, {{ {ZERO}, at = 1, to = 2 }}]": "2 Unknown at",
    f"recording = [{{ {ZERO}, after = 0 }}, {{ {ZERO} }}]": "4 Value after",
}


def test_faults_of_setup(work: Path) -> None:
    for setup, fault in FAULTS.items():
        found = said(work, [ONE, OTHER], setup)
        judge_quietly(setup, found == (2, f"setup {fault}\n"), (found, fault))


def judge_named(work: Path, *rows: tuple[list[Path], Path]) -> None:
    """The command with these arguments names this file, and makes no OUT."""
    for words, named in rows:
        done = outcome(BPFREC, "chapter11", *words)
        judge_quietly(f"{words}", (done.returncode, done.stdout, done.stderr) == (3, "", f"file {named}\n"), done)
        judge_quietly(f"{words}: no OUT", not (work / "flight.ch10").exists())


def test_files_that_cannot_be_read(work: Path) -> None:
    """Recordings that aren't there are named ahead of all reading."""
    first, second, setup = write_inputs(work, [ONE[:-4], ONE], f"{TWO}\n")
    out, none = work / "flight.ch10", work / "none"
    judge_named(work, ([first, none, setup, out], none), ([none, first, setup, out], none))
    judge_named(work, ([work, none, setup, out], work), ([first, second, none, out], none))
    judge_named(work, ([first, second, setup, second], second), ([first, second, setup, setup], setup))
    done = outcome(BPFREC, "chapter11", first, "-", setup, out)
    judge("standard input", done.returncode == 2 and "<RECORDING>" in done.stderr, done)


def test_a_recording_that_is_not_there_is_named_ahead_of_setup_and_out(work: Path) -> None:
    first, setup = write_inputs(work, [ONE], f"{TWO}\n")
    judge_named(work, ([first, work / "none", setup, first], work / "none"))
    setup.write_text("a")
    judge_named(work, ([first, work / "none", setup, work / "flight.ch10"], work / "none"))


def open_files(most: int) -> None:
    resource.setrlimit(resource.RLIMIT_NOFILE, (most, max(most, resource.getrlimit(resource.RLIMIT_NOFILE)[1])))


def test_as_many_recordings_as_may_be(work: Path) -> None:
    data, count = SAMPLES[1].read_bytes(), 1_024
    setup = at(*[0] * count)
    done = chapter11(work, [data] * count, text_of(setup), preexec_fn=lambda: open_files(2 * count))
    judge_same(work, "1,024", done, lambda: joined_file([data] * count, setup))
    (work / "flight.ch10").unlink()
    status, line = said(work, [data] * (count + 1), text_of(at(*[0] * count, 0)))
    judge("1,025", status == 2 and not line.startswith("setup "), line)
    status, line = said(work, [data] * 64, text_of(at(*[0] * 64)), preexec_fn=lambda: open_files(32))
    judge("more than may be open", status == 3 and line.startswith(f"file {work}/flight"), line)
