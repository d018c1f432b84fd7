"""Tries slices and times of bpfrec export, and several recordings in one capture."""

import json
import random
import shutil
from pathlib import Path

import pytest
from expected_facts import TAI_37, THREE_ORIGINS, UNKNOWN_SCALE, facts_of_run, moments_by
from frames import FRAMES, body_of, end_packet, numbered, packet_of, program_packet, with_check_sequence
from reading import SEED
from seen_frames import SECOND, Seen, feeds_of, judge_whole, made, seen_in
from support import EXPORT, judge, judge_quietly, outcome, run

pytestmark = pytest.mark.wanted("bin/bpfrec", "tshark", "capinfos")
SLICES = 12


@pytest.mark.parametrize(
    "origins",
    [THREE_ORIGINS, [("1764590400.250000001", 0, None)], TAI_37],
    ids=["clock_was_set", "one_origin", "clock_ran_tai"],
)
def test_times_are_those_of_the_facts(work: Path, three: Path, origins: list) -> None:
    """Times are those of the facts beside the recording."""
    recording = work / "x.ch11"
    shutil.copy(three, recording)
    Path(f"{recording}.json").write_text(json.dumps(facts_of_run(origins)))
    judge_whole(work, recording, lambda counter: moments_by(origins, [counter])[0])


def in_seconds(moment: int) -> str:
    return f"{moment // SECOND}.{moment % SECOND:09}"


def utc(moment: int) -> str:
    seconds, rest = divmod(moment, SECOND)
    return f"{run('date', '-u', '-d', f'@{seconds}', '+%Y-%m-%dT%H:%M:%S').strip()}.{rest:09}Z"


def of_day(moment: int) -> str:
    return utc(moment)[11:-1]


def test_a_slice_of_a_whole_file_is_that_of_its_recording(work: Path, three: Path) -> None:
    recording, words = work / "x.ch11", ("--from", "2025-12-01T12:00:00.3Z", "--channel", "2")
    shutil.copy(three, recording)
    Path(f"{recording}.json").write_text(json.dumps(facts_of_run([("1764590400.250000000", 0, None)])))
    run(EXPORT, recording, work / "x.ch10")
    first, second = (seen_in(made(work, *words, it)) for it in (recording, work / "x.ch10"))
    everything = seen_in(made(work, "--channel", "2", recording))
    judge("the same frames, and not all", first == second and 0 < len(first) < len(everything), (first[:2], second[:2]))


def test_a_slice_has_the_frames_of_its_times_and_channels(work: Path, three: Path) -> None:
    """A slice has the frames whose times are in it, by seconds since counter 0 and by UTC, with its date and by the
    recording's day, of some channels or all."""
    draw, feeds = random.Random(SEED), feeds_of(work, three)
    origins = [("1764590400.250000000", 0, None), ("1764586800.250000123", 40_000_000, "-3600.0")]
    origins[1] = (*origins[1][:2], "-3599.999999877")
    recording = work / "x.ch11"
    shutil.copy(three, recording)
    Path(f"{recording}.json").write_text(json.dumps(facts_of_run(origins)))
    for turn in range(SLICES):
        chosen = sorted(draw.sample([1, 2, 3], draw.randint(1, 3)))
        picked = [draw.choice(feeds[draw.choice(chosen)]).counter for _ in range(2)]
        text = (utc, in_seconds, of_day)[turn % 3]
        is_utc = text is not in_seconds

        def moment_of(counter: int, is_utc: bool = is_utc) -> int:
            return moments_by(origins, [counter])[0] if is_utc else counter * 100

        begin, end = sorted(map(moment_of, picked))
        end += draw.choice([0, 1])
        words = [word for it in chosen for word in ("--channel", it)]
        seen = seen_in(made(work, "--from", text(begin), "--to", text(end), *words, recording))
        wanted = [
            Seen(number, moments_by(origins, [it.counter])[0], it.frame)
            for number, channel in enumerate(chosen)
            for it in feeds[channel]
            if begin <= moment_of(it.counter) < end
        ]
        holds = sorted(seen) == sorted(wanted)
        judge_quietly(f"slice {turn}: {begin} to {end} of {chosen}", holds, (len(seen), len(wanted)))


def frames_at(path: Path, counters: list[int], origins: list) -> Path:
    """A recording of a frame at each counter, with its facts."""
    body = body_of([(it, 0, with_check_sequence(numbered(at))) for at, it in enumerate(counters)])
    path.write_bytes(program_packet(1, 0) + packet_of(1, body, 0, FRAMES, counters[0], True))
    Path(f"{path}.json").write_text(json.dumps(facts_of_run(origins)))
    return path


def test_a_slice_by_utc_of_a_clock_that_ran_tai_has_the_frames_of_its_utc(work: Path) -> None:
    """To the tick, by the second origin."""
    recording, noon = frames_at(work / "tai.ch11", [20, 30, 40], TAI_37), 1_764_590_400_250_000_123
    words = ["--from", utc(noon + 2_001), "--to", utc(noon + 4_000)]
    judge("the second of three", [it.moment for it in seen_in(made(work, *words, recording))] == [noon + 3_000])


def test_a_scale_that_nobody_knows_is_said_and_no_utc_is_taken(work: Path) -> None:
    """Times are as the clock had them, on standard error, in the capture, and where a slice is asked for by UTC."""
    recording = frames_at(work / "odd.ch11", [20, 30], UNKNOWN_SCALE)
    done = outcome(EXPORT, recording, work / "odd.pcapng")
    line = f"bpfrec export: {recording}: the scale of its times is unknown, and they are taken as they are\n"
    told = (done.returncode, done.stdout, done.stderr)
    judge("a line says so", told == (0, "frames 2 skipped 0\n", line), done)
    noon = 1_764_590_400_250_000_000
    judge("as they are", [it.moment for it in seen_in(work / "odd.pcapng")] == [noon + 2_000, noon + 3_000])
    comment = b"odd.ch11: times by its facts, of host fc1, scale unknown"
    judge("the capture says so", comment in (work / "odd.pcapng").read_bytes())
    done = outcome(EXPORT, "--force", "--from", utc(noon), recording, work / "odd.pcapng")
    why = f"bpfrec export: {recording}: the scale of its times is unknown, so times are seconds since counter 0, as 12.5\n"
    judge("UTC is refused", (done.returncode, done.stderr) == (1, line + why), done)
    seen = seen_in(made(work, "--from", "0.0000021", recording))
    judge("seconds are not", [it.moment for it in seen] == [noon + 3_000])


def test_a_slice_by_times_of_day_goes_over_midnight_and_over_recordings(work: Path) -> None:
    """23:59:59 and 00:00:01 are those around the first midnight of two recordings that follow one another."""
    origins = [("1764633598.000000000", 0, None)]  # 23:59:58
    one = frames_at(work / "one.ch11", [5_000_000, 15_000_000, 25_000_000], origins)
    two = frames_at(work / "two.ch11", [35_000_000, 45_000_000], origins)
    for recording, begun in ((one, "2025-12-01T23:59:58Z"), (two, "2025-12-02T00:00:01Z")):
        facts = json.loads(Path(f"{recording}.json").read_text())
        Path(f"{recording}.json").write_text(json.dumps({**facts, "begun": begun}))
    table: dict[tuple, list[int]] = {
        ("--from", "23:59:59", "--to", "00:00:02"): [15_000_000, 25_000_000, 35_000_000],
        ("--from", "23:59:59.5"): [15_000_000, 25_000_000, 35_000_000, 45_000_000],
        ("--from", "23:59:59.500000001"): [25_000_000, 35_000_000, 45_000_000],
        ("--to", "00:00:01"): [5_000_000, 15_000_000, 25_000_000],
        ("--from", "3.6", "--to", "00:00:03"): [45_000_000],
    }
    for words, wanted in table.items():
        run(EXPORT, "--force", *words, two, one, work / "both.pcapng")
        seen = [it.moment for it in seen_in(work / "both.pcapng")]
        judge_quietly(f"{words}: {seen}", seen == moments_by(origins, wanted))
    for asked in (["--from", "23:59:57"], ["--to", "0.4"], ["--from", "2025-12-02T00:00:02.500000001Z"]):
        done = outcome(EXPORT, *asked, one, two, work / "none.pcapng")
        span = "2025-12-01T23:59:58.5000000Z to 2025-12-02T00:00:02.5000000Z"
        line = f"bpfrec export: no frame lies there: the recordings have frames from {span}\n"
        judge(f"outside: {asked}", (done.returncode, done.stderr) == (1, line), done)
    done = outcome(EXPORT, "--from", "00:00:02", "--to", "00:00:01", two, work / "none.pcapng")
    line = "bpfrec export: --to isn't after --from, so no frame lies between them\n"
    judge("times that are exchanged", (done.returncode, done.stderr) == (1, line), done)
    judge("nothing is made", not (work / "none.pcapng").exists())
    Path(f"{two}.json").unlink()
    done = outcome(EXPORT, "--force", "--from", "23:59:59", two, work / "refused.pcapng")
    why = f"bpfrec export: {two}: no facts beside it, so times are seconds since counter 0, as 12.5\n"
    judge("without facts it is refused by its name", (done.returncode, done.stderr) == (1, why), done)


def test_a_slice_at_a_shared_counter_has_the_frames_of_both_packets(work: Path) -> None:
    """A slice that begins with a counter that two packets share has the frames of both."""
    frame = with_check_sequence(numbered(0))
    bodies = [body_of([(5, 0, frame), (9, 0, frame)]), body_of([(9, 0, frame), (12, 0, frame)])]
    parts = [packet_of(1, it, at, FRAMES, (5, 9)[at], True) for at, it in enumerate(bodies)]
    (work / "equal.ch11").write_bytes(program_packet(1, 0) + b"".join(parts))
    seen = seen_in(made(work, "--from", "0.0000009", "--to", "0.000001", work / "equal.ch11"))
    judge("frames of both packets", [it.moment for it in seen] == [900, 900])


def test_of_packets_outside_a_slice_the_headers_alone_are_read(work: Path) -> None:
    """Of the packets outside of a slice the headers alone are read: that their data are damaged isn't seen."""
    path, frame = work / "long.ch11", with_check_sequence(numbered(0, 1_000))
    bodies = [body_of([(at * 1_000 + it, 0, frame) for it in range(60)]) for at in range(500)]
    parts = [packet_of(1, it, at, FRAMES, at * 1_000, True) for at, it in enumerate(bodies)]
    damaged = [it if at in (199, 200) else it[:100] + bytes(4) + it[104:] for at, it in enumerate(parts)]
    path.write_bytes(program_packet(1, 0) + b"".join(damaged) + end_packet(1, 30_000))
    done = outcome(EXPORT, "--from", "0.02", "--to", "0.0201", path, work / "slice.pcapng")
    holds = (done.returncode, done.stdout, done.stderr) == (0, "frames 60 skipped 0\n", "")
    judge("a slice of one packet", holds, done)


def test_several_recordings_become_one_capture(work: Path) -> None:
    """Recordings that follow one another, and those of two recorders, become one capture."""
    frames = [(at * 1_000, with_check_sequence(numbered(at))) for at in range(90)]
    parts = {"a": frames[:30], "b": frames[30:60], "c": frames[15:45]}
    for name, chosen in parts.items():
        body = body_of([(counter, 0, frame) for counter, frame in chosen])
        packets = [program_packet(1, 0), packet_of(1, body, 0, FRAMES, chosen[0][0], True), end_packet(1, len(chosen))]
        (work / f"{name}.ch11").write_bytes(b"".join(packets))
    done = outcome(EXPORT, work / "b.ch11", work / "a.ch11", work / "c.ch11", work / "all.pcapng")
    judge("three recordings", (done.returncode, done.stdout) == (0, "frames 90 skipped 0\n"), done)
    moments = [it.moment for it in seen_in(work / "all.pcapng")]
    judge("by time", moments == sorted(counter * 100 for it in parts.values() for counter, _ in it))
    told = run("capinfos", "-k", "-I", work / "all.pcapng")
    judge("counts of each", told.count("frames offered 30, kept 30") == 3, told)
