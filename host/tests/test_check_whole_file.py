"""Tries the check of whole files: what it prints of a file, and the times of frames by the clocks of their recordings."""

import datetime
import hashlib
import random
from fractions import Fraction

import pytest
from reading import SAMPLES
from second_opinion import opinion_of
from support import judge, judge_quietly, judge_same
from whole_file import TIME, Origin, Setup, whole_file
from whole_file_clock import Rule, rules_of
from whole_file_parts import ORIGIN, SECOND, bytes_of, parts_of, recorded, sample, without

# The sum of the file of the recording of 248 bytes with this origin.
ONE_SUM = "bc7788fb6bd5a9b95dc6af282ea8a3d1a4b274476766c991a927b7373ea32e74"


# ---- what is right


def test_the_file_of_the_least_recording_is_right() -> None:
    found = whole_file(SAMPLES[1].read_bytes(), Setup((Origin(0, ORIGIN),)))
    judge("its sum", hashlib.sha256(found.data).hexdigest() == ONE_SUM and len(found.data) == 1_192)
    judge("what the writer prints", found.line() == "times 1 packets 1 records 3 index 2 bytes 1192", found.line())
    moment = "2025-12-01T12:00:00.2500033Z"
    lines = [f"{moment} 1 18 channel 1", f"channel 1 packets 1 frames 1 {moment} {moment} channel 1"]
    lines += ["packets 8 times 1 records 3 index 2 wrong 0"]
    judge_same("what it says", opinion_of(bytes(found.data), True), (True, lines))


def test_a_file_of_some_channels_has_a_line_for_each() -> None:
    lines = [
        "channel 5 packets 4 frames 8 2025-12-01T12:00:00.2505001Z 2025-12-01T12:00:06.2505501Z eth5 5",
        "channel 9 packets 4 frames 8 2025-12-01T12:00:00.2509001Z 2025-12-01T12:00:06.2509501Z wing 9",
        "packets 23 times 7 records 5 index 2 wrong 0",
    ]
    judge("its lines", opinion_of(sample()) == (True, lines), opinion_of(sample()))


def test_what_is_wrong_stands_ahead() -> None:
    is_right, lines = opinion_of(bytes_of(without(TIME, 2)(parts_of(sample()))))
    judge("it is not right", not is_right and lines[-1].endswith(" wrong 6"), lines)
    judge("the missing second", "2304 a time packet is missing ahead of it" in lines, lines)
    is_right, lines = opinion_of(b"a text of no packets at all")
    judge("no packet", (is_right, lines[0]) == (False, "0 no sync pattern"), lines)


@pytest.mark.parametrize("seed", range(8))
def test_frames_have_the_times_of_their_clock(seed: int) -> None:
    """To the 100 ns, whatever origins hold; and the frames are those of the recording, in order and once each."""
    draw = random.Random(seed)
    channels = draw.sample(range(1, 65_536), 3)
    made = recorded(draw, channels, 5 * SECOND, 20)
    noted = [Origin(it, ORIGIN + draw.randrange(-(10**12), 10**12)) for it in draw.choices(range(25 * SECOND), k=3)]
    setup = Setup((Origin(draw.randrange(30 * SECOND), ORIGIN), *noted))
    is_right, printed = opinion_of(bytes(whole_file(bytes(made.data), setup).data), True)
    judge_quietly("it is right", is_right, printed[-3:])
    lines = [line.split(" ") for line in printed if line[0].isdecimal()]
    rules = rules_of(setup.origins)
    for channel in channels:
        found = [(it[0], int(it[2])) for it in lines if it[1] == str(channel)]
        frames = made.channel(channel).frames
        judge_quietly("its frames", [it for _, it in found] == [length for _, _, length in frames])
        for (text, _), (counter, _, _) in zip(found, frames):
            behind = time_due(rules, counter) - time_read(text)
            judge_quietly(f"the time of {counter}", 0 <= behind < 100, (text, behind))


def time_due(rules: list[Rule], counter: int) -> int:
    """The time of a counter, in nanoseconds since 1970."""
    return next(it for it in reversed(rules) if it.begin <= counter).time(counter)


def time_read(text: str) -> Fraction:
    """The nanoseconds since 1970 of a time that was printed."""
    moment, units = text[:-1].split(".")
    whole = datetime.datetime.fromisoformat(moment).replace(tzinfo=datetime.timezone.utc)
    return Fraction((int(whole.timestamp()) * SECOND + int(units)) * 100)
