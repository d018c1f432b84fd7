"""Tries which recordings of a run `bpfrec chapter11` refuses to join, at which place, and SETUP that says what follows."""

from pathlib import Path
from typing import Optional

import pytest
from frames import packet_of
from joined_file import Table
from packets import packets_in
from run_recordings import MOMENT, end, frames, one, program, run_at
from support import judge
from whole_file_trials import judge_joined, seconds_of

pytestmark = pytest.mark.wanted("bin/bpfrec")
LAST_COUNTER, LAST_VERSION, LAST_NUMBER = 2**48 - 1, 2**32 - 1, 2**64 - 1
OTHER = packet_of(7, b"1234", 0, 0x40, 0, True)
# Recordings that the audit refuses, each with the number of the packet; of none it is the recording's end.
HALF, PAIR = 2**63, len(program("a") + frames(0))
BAD = {
    "Order: the first program is not from frame 0 on": (program("a", first=1) + frames(0) + end(2, 1), 0),
    "Order: a version that is not greater": (program("a") + program("b", 0, 1) + frames(0, 1) + end(2), 1),
    "Order: a second end": (one() + end(1), 3),
    "Order: frames behind the end": (one() + frames(3), 3),
    "NoProgram": (end(0, channel=2) + frames(0) + end(1), 1),
    "NoProgram: of no frames": (end(0, channel=2) + frames() + end(0), 1),
    "NoEnd": (one() + program("a", channel=2), None),
    "Counts: kept": (program("a") + frames(0) + end(2, 2), None),
    "Counts: offered": (program("a") + frames(0) + end(0, 1), None),
    "Counts: without a program": (end(1, 0), None),
}


def place_of(recording: bytes, number: Optional[int]) -> int:
    return len(recording) if number is None else [it[0] for it in packets_in(recording)][number]


@pytest.mark.parametrize("name", BAD)
def test_a_recording_that_the_audit_refuses_so_is_none_of_a_run(work: Path, name: str) -> None:
    """In each place of its run; and alone it is joined as it is."""
    recording, number = BAD[name]
    line = f"refused 8 Part {place_of(recording, number)}"
    for place in range(3):
        recordings = [recording if it == place else one(counter=it) for it in range(3)]
        found = judge_joined(work, name, recordings, run_at(0, 0, 0))
        judge(f"{name}: {place}", found == f"{line} {place}", found)
    setup = {"recording": [*run_at(0, 0)["recording"], {"origin": seconds_of(MOMENT)}]}
    found = judge_joined(work, name, [one(), one("b", 5), recording], setup)
    judge(f"{name}: of no run", found.startswith("times "), found)


def test_the_first_answer_of_the_audit_counts(work: Path) -> None:
    """A frame that isn't accepted, ahead of a packet that is out of order."""
    recording = one("-") + end(1)
    found = judge_joined(work, "not accepted", [recording, one(counter=5)], run_at(0, 0))
    judge("it is no refusal", found.startswith("times "), found)


def test_parts_and_other_packets_by_their_places(work: Path) -> None:
    rows = {
        f"refused 1 Other {len(one())} 1": [one(), one() + OTHER + end(1), OTHER],
        f"refused 8 Part {len(one())} 1": [one(), one() + end(1) + OTHER, OTHER],
        f"refused 8 Part {len(one())} 0": [one() + end(1), OTHER, OTHER],
        "refused 1 Other 0 0": [OTHER + program("a"), one() + end(1), OTHER],
        f"refused 8 Part {len(program('a'))} 1": [one(), program("a"), OTHER],
    }
    for line, recordings in rows.items():
        found = judge_joined(work, line, recordings, run_at(0, 0, 0))
        judge(line, found == line, found)


def test_parts_come_before_channels_and_those_before_sums(work: Path) -> None:
    many = b"".join(frames(channel=it) for it in range(2, 65_536))
    alone = {"recording": [*run_at(0, 0)["recording"], {"origin": seconds_of(MOMENT)}]}
    found = judge_joined(work, "part", [one(), one() + end(1), many], alone)
    judge("a part before full", found == f"refused 8 Part {len(one())} 1", found)
    over = [program("a", LAST_VERSION) + frames(0) + end(1), one("b", 5)]
    found = judge_joined(work, "full", [*over, many], alone)
    judge("full before a sum", found == "refused 7 Full 0 0", found)
    year = {"recording": [{**it, "origin": "64060588800"} for it in run_at(0, 0)["recording"]]}
    found = judge_joined(work, "sum", over, year)
    judge("a sum before a year", found == "refused 9 Sum 0 1", found)


SUMS: dict[str, list[bytes]] = {
    "refused 9 Sum 0 1": [program("a", LAST_VERSION) + frames(0) + end(1), one("b", 5)],
    f"refused 9 Sum {PAIR} 1": [
        program("a", LAST_VERSION) + frames(0) + end(1),
        program("a") + frames(5) + program("b", 1, 1, 6) + end(2, 1),
    ],
    # What was offered, at the end that stays.
    f"refused 9 Sum {PAIR} 2": [
        program("a") + frames(0) + end(HALF, 1),
        program("a") + frames(1) + end(HALF - 1, 1),
        program("a") + frames(2) + end(1),
    ],
    # The first number of a program, behind one that is left out.
    f"refused 9 Sum {PAIR} 3": [
        end(0),
        program("a") + frames(0) + end(LAST_NUMBER - 1, 1),
        end(0),
        program("a") + frames(1) + program("b", 1, 2, 2) + end(3, 1),
        end(0),
    ],
    # What was kept; the audit answers NotAccepted of the first, whose end it doesn't reach.
    f"refused 9 Sum {PAIR} 1 kept": [program("-") + frames(0) + end(1, LAST_NUMBER), one("b", 5)],
}


@pytest.mark.parametrize("line", SUMS)
def test_sums_that_no_field_holds(work: Path, line: str) -> None:
    found = judge_joined(work, line, SUMS[line], run_at(*[0] * len(SUMS[line])))
    judge(line, found == line.removesuffix(" kept"), found)


def test_gaps_and_sums_by_their_places(work: Path) -> None:
    over, gap = program("a", LAST_VERSION) + frames(0) + end(1), one("b", LAST_COUNTER, 2)
    later: Table = {"origin": seconds_of(MOMENT + 100)}
    first = {"recording": [*run_at(0, 0)["recording"], later]}
    found = judge_joined(work, "a sum first", [over, one("b", 5), gap], first)
    judge("a sum first", found == "refused 9 Sum 0 1", found)
    origin = run_at(0)["recording"][0]
    found = judge_joined(
        work, "a gap first", [gap, over, one("b", 5)], {"recording": [later, origin, {**origin, "after": 1}]}
    )
    judge("a gap first", found == "refused 3 Gap 0 0", found)
    both = {"recording": [origin, {**later, "after": 0}]}
    found = judge_joined(work, "of one packet", [over, program("b", counter=LAST_COUNTER) + frames(5) + end(1)], both)
    judge("of one packet the gap", found == "refused 3 Gap 0 1", found)
