"""Tries `bpfrec chapter11` of recordings of a run: its file is that of a second writer, byte for byte, and the audit says
yes of it exactly where it does of each recording."""

import random
import re
from collections import Counter
from pathlib import Path

import pytest
from joined_file import Table, contents_in, ids_of, runs_of
from packets import packets_in
from run_recordings import MOMENT, Record, end, frames, one, program, records_in, run_at
from support import BPFREC, judge, judge_quietly, outcome
from whole_file import TIME
from whole_file_trials import judge_made, seconds_of

pytestmark = pytest.mark.wanted("bin/bpfrec")
SECOND, LAST_COUNTER = 10_000_000, 2**48 - 1
LAST_VERSION, LAST_NUMBER = 2**32 - 1, 2**64 - 1
SET_BY = (0, 0, 1, 49, 50, 100, 60_000_000, -60_000_000)
POOL = (1, 2, 3, 4, 9, 65_535)


# ---- the audit


def audited(path: Path) -> tuple[bool, dict[int, list[int]]]:
    """Whether the audit says yes, and of each channel its programs, its frames, and those that were offered."""
    done = outcome(BPFREC, "audit", path)
    rows = re.findall(r"channel (\d+) programs (\d+) frames (\d+) offered (\d+)\n", done.stdout)
    return done.returncode == 0, {int(channel): [int(it) for it in counts] for channel, *counts in rows}


def judge_audit(work: Path, what: str, recordings: list[bytes], setup: Table) -> None:
    """The audit says of the file what it says of each recording, with the sums, and counts the programs that stay."""
    answers = [audited(work / f"flight{place}.ch11") for place in range(len(recordings))]
    is_right, found = audited(work / "flight.ch10")
    judge_quietly(f"{what}: yes where it is of each", is_right == all(it for it, _ in answers), answers)
    if is_right:
        programs = Counter(it.channel for it in records_of(work) if it.letter)
        sums = sums_of(recordings, runs_of(setup["recording"]), [rows for _, rows in answers])
        wanted = {channel: [programs[channel], *it] for channel, it in sums.items()}
        judge_quietly(f"{what}: the sums", found == wanted, (found, wanted))


def sums_of(recordings: list[bytes], runs: list[int], answers: list[dict[int, list[int]]]) -> dict[int, list[int]]:
    """Of each channel of the file its frames and those that were offered, by what the audit says of recordings."""
    ids = ids_of([{channel for channel, _ in contents_in(it, 0, False)} for it in recordings], runs)
    sums: dict[int, list[int]] = {}
    for run, rows in zip(runs, answers):
        for channel, (_, *counts) in rows.items():
            before = sums.get(ids[run, channel], [0, 0])
            sums[ids[run, channel]] = [a + b for a, b in zip(before, counts)]
    return sums


def records_of(work: Path) -> list[Record]:
    return records_in((work / "flight.ch10").read_bytes())


def judge_run(work: Path, what: str, recordings: list[bytes], setup: Table) -> str:
    """The file is the second writer's, and the audit says of it what it says of the recordings."""
    line = judge_made(work, what, recordings, setup)
    judge_audit(work, what, recordings, setup)
    return line


# ---- runs that are drawn


def drawn_channel(draw: random.Random, channel: int, start: int) -> list[tuple[int, bytes]]:
    """The packets of a channel of a recording that begins at a counter and lasts three seconds, each with a counter."""
    if draw.random() < 0.25:
        return [(start + 3 * SECOND, end(0, counter=draw.choice([0, start]), channel=channel))]
    counters = sorted(start + draw.randrange(3 * SECOND) for _ in range(draw.choice([1, 3, 40])))
    cuts = sorted({0, *(draw.randrange(len(counters)) for _ in range(draw.randrange(3)))})
    version, found = draw.choice([0, 0, 0, 2]), []
    for begin, until in zip(cuts, [*cuts[1:], len(counters)]):
        counter = counters[begin]
        found.append((counter, program(draw.choice("ab"), version, begin, counter, channel)))
        found.append((counter, frames(*counters[begin:until], channel=channel)))
        version += draw.choice([1, 1, 5])
    if draw.random() < 0.2:
        found.append((start + 3 * SECOND, frames(channel=channel)))
    offered = len(counters) + draw.choice([0, 3])
    return [*found, (start + 3 * SECOND, end(offered, len(counters), counters[-1], channel))]


def drawn_part(draw: random.Random, start: int) -> bytes:
    packets = [it for channel in draw.sample(POOL, draw.randrange(4)) for it in drawn_channel(draw, channel, start)]
    return b"".join(packet for _, packet in sorted(packets, key=lambda it: it[0]))


def drawn_runs(draw: random.Random, counts: list[int]) -> tuple[list[bytes], Table]:
    """Recordings of runs of so many, which stand between one another."""
    order = draw.sample([run for run, count in enumerate(counts) for _ in range(count)], sum(counts))
    starts = [draw.choice([0, draw.randrange(2**40), 2**47]) for _ in counts]
    begins = [MOMENT + draw.randrange(10**9) - 100 * it for it in starts]
    recordings: list[bytes] = []
    tables: list[Table] = []
    before: dict[int, int] = {}
    for place, run in enumerate(order):
        recordings.append(drawn_part(draw, starts[run]))
        named = [{"id": it, "name": f"{place}.{it}", "net": place} for it in draw.sample(POOL, draw.randrange(4))]
        tables.append({"origin": seconds_of(begins[run] + draw.choice(SET_BY)), "channel": named})
        if run in before:
            tables[-1]["after"] = before[run]
        before[run], starts[run] = place, starts[run] + 3 * SECOND + draw.choice([0, 1, SECOND])
    return recordings, {"host": "tap", "recording": tables}


@pytest.mark.parametrize("seed", range(40))
def test_drawn_runs(work: Path, seed: int) -> None:
    """One alone, or more beside one another, with recordings of no run between them."""
    draw = random.Random(seed)
    counts = draw.choice([[2], [3], [6], [2, 1], [3, 2], [4, 1, 3, 1]])
    recordings, setup = drawn_runs(draw, counts)
    judge(f"runs of {counts}", judge_run(work, f"{seed}", recordings, setup))


def test_a_run_of_64(work: Path) -> None:
    judge("64 at once", judge_run(work, "64", *drawn_runs(random.Random(64), [64])))


# ---- programs


def of_programs(text: str, start: int) -> bytes:
    """A recording of channel 1 with these programs, as `a0 b1`, and two frames under each; of none it is quiet."""
    found, words = b"", text.split()
    for number, word in enumerate(words):
        counter = start + 1_000 * number
        found += program(word[0], int(word[1:]), 2 * number, counter) + frames(counter, counter + 1)
    return found + end(2 * len(words), counter=start + 1_000 * len(words) if words else 0)


PROGRAMS = {
    ("a0", "a0"): ["a0 0"],
    ("a0", "b0"): ["a0 0", "b1 2"],
    ("a0", "a0", "a0"): ["a0 0"],
    ("a0", "b0", "a0"): ["a0 0", "b1 2", "a2 4"],
    ("a0 b1", "b0"): ["a0 0", "b1 2"],
    ("a0 b1", "a0"): ["a0 0", "b1 2", "a2 4"],
    ("a0 b1", "b0 a1"): ["a0 0", "b1 2", "a2 6"],
    ("a0", "a0 a1"): ["a0 0", "a1 4"],
    ("a0", "a1"): ["a0 0", "a2 2"],
    ("a0", "b0 a4"): ["a0 0", "b1 2", "a5 4"],
    ("a0", "a0 b4", "b0 b1"): ["a0 0", "b4 4", "b5 8"],
    ("", "a0"): ["a0 0"],
    ("", "a7", "a0"): ["a7 0"],
    ("a7 b9", "b0", "a0"): ["a7 0", "b9 2", "a10 6"],
    ("a0", "", "a0"): ["a0 0"],
    ("a0", "", "b0"): ["a0 0", "b1 2"],
    (f"a{LAST_VERSION}", "a0"): [f"a{LAST_VERSION} 0"],
}


@pytest.mark.parametrize("texts", PROGRAMS, ids=", ".join)
def test_versions_go_on(work: Path, texts: tuple) -> None:
    """A first program of version 0 that is the one before it is left out; numbers are raised by what was offered."""
    recordings = [of_programs(it, SECOND * place) for place, it in enumerate(texts)]
    judge_run(work, f"{texts}", recordings, run_at(*[0] * len(texts)))
    found = ["{}{} {}".format(it.letter, *it.numbers) for it in records_of(work) if it.letter]
    judge(f"{texts}", found == PROGRAMS[texts], found)


# ---- ends and what is left out


def test_a_quiet_last_recording_has_the_sums_and_no_counter(work: Path) -> None:
    """Its end was offered nothing, so it comes last, though the sum is not 0."""
    recordings = [one() + one(channel=2), end(0, counter=77) + one("b", SECOND, 2)]
    judge_run(work, "quiet", recordings, run_at(0, 0))
    wanted = [Record(SECOND, 2, (2, 2)), Record(SECOND, 1, (1, 1))]
    judge("the last of all", records_of(work)[-2:] == wanted, records_of(work))


def test_the_end_is_that_of_the_last_recording_that_has_the_channel(work: Path) -> None:
    recordings = [one(), one(channel=2, counter=5), one(counter=9), one("b", 70, 3)]
    judge_run(work, "ends", recordings, run_at(0, 0, 0, 0))
    ends = [it for it in records_of(work) if not it.letter]
    wanted = [Record(5, 2, (1, 1)), Record(9, 1, (2, 2)), Record(70, 3, (1, 1))]
    judge("one each, at its own time", ends == wanted, ends)


def test_what_is_left_out_has_no_counter_in_the_file(work: Path) -> None:
    """Neither the least one, nor one that no file has."""
    late = 30 * SECOND
    first = program("a", counter=late) + frames(late) + end(1, counter=LAST_COUNTER)
    then = program("a", counter=5) + frames(late + 9) + end(1, counter=late + 9)
    judge_run(work, "the least", [first, then], run_at(0, 0))
    times = [counter for *_, kind, counter, _ in packets_in((work / "flight.ch10").read_bytes()) if kind == TIME]
    judge("the first time packet", times[0] == late, times)
    last = program("a", counter=LAST_COUNTER) + frames(late + 9) + end(1, counter=late + 9)
    judge_run(work, "no gap", [first, last], run_at(100, 100))
    beside = {"recording": [*run_at(100, 100)["recording"], *run_at(0)["recording"]]}
    line = judge_run(work, "by an earlier origin", [first, last, one(channel=2, counter=late)], beside)
    judge("no gap of either", line.startswith("times "), line)


def test_channels_of_a_run_are_named_once(work: Path) -> None:
    """By the order of recordings, then of IDs; names are those of the first table of the run that has one."""
    recordings = [one(channel=2), one(channel=2), one(channel=3) + one(channel=1), one(channel=1), one(channel=2)]
    setup = run_at(*[0] * 5)
    del setup["recording"][1]["after"]
    for place in (2, 3, 4):
        setup["recording"][place]["after"] = place - 2
    names: list[dict[int, str]] = [{3: "third"}, {2: "other"}, {2: "second", 3: "no"}, {}, {1: "first"}]
    for table, named in zip(setup["recording"], names):
        table["channel"] = [{"id": it, "name": name, "net": it} for it, name in named.items()]
    judge_run(work, "five", recordings, setup)
    text = next(data for *_, data in packets_in((work / "flight.ch10").read_bytes()))[4:].decode()
    lines = dict(it.removesuffix(";").split(":", 1) for it in text.splitlines())
    found = {lines[f"R-1\\TK1-{n}"]: lines[f"R-1\\ENAM-{n}-1"] for n in range(2, int(lines["R-1\\N"]) + 1)}
    wanted = {"1": "first", "2": "second", "3": "third", "4": "other", "5": "channel"}
    judge("the channels", found == wanted, found)
    judge("the time's channel", lines["R-1\\TK1-1"] == "6")


def test_the_greatest_numbers(work: Path) -> None:
    """One less of each is held."""
    versions = [program("a", LAST_VERSION - 1) + frames(0) + end(1), one("b", 5)]
    offered = [program("a") + frames(0) + end(2**63, 1), program("b") + frames(1) + end(2**63 - 1, 1)]
    last = [program("a") + frames(0) + end(LAST_NUMBER - 1, 1), program("b") + frames(1) + end(1)]
    for recordings in (versions, offered, last):
        judge_run(work, "held", recordings, run_at(0, 0))
    judge("each is held", records_of(work)[-1].numbers == (LAST_NUMBER, 2), records_of(work))


@pytest.mark.parametrize("letter, answer", [("-", "no 3 NotAccepted 1 0"), ("!", "no 2 BadProgram 0 ")])
def test_other_answers_of_the_audit_are_no_refusal(work: Path, letter: str, answer: str) -> None:
    for recordings in ([one(letter), one("b", 5)], [one(), one(letter, 5)]):
        judge_made(work, answer, recordings, run_at(0, 0))
        judge_audit(work, answer, recordings, run_at(0, 0))
    (work / "one.ch11").write_bytes(one(letter))
    done = outcome(BPFREC, "audit", work / "one.ch11")
    judge(answer, done.stdout.startswith(answer.strip()), done)
