"""Counts the atomic steps that bpfrec takes for a frame: a draw takes its channel's lock once.

A lock counts nothing, and an answer that took two locks is the same as one that took one, so neither a contract nor a
test of answers can tell. This runs bin/bpfrec under valgrind's callgrind, which counts each instruction, on a channel
of 2,000 and one of 4,000 frames, all dropped and then all kept. Between the two, each further frame must take two
atomic instructions that write: the lock is taken, and let go. A change of its filter takes two locks. A tenth more or
less is allowed, since threads wait for one another as they come, and packets of kept frames go through a ring; a second
lock would make it twice as many, or a fifth more of a change.
"""

import re
from pathlib import Path

import pytest
from frames import counted_feed
from support import BPFREC, DROPS_ALL, KEEPS_ALL, judge, run

pytestmark = pytest.mark.wanted("bin/bpfrec", "valgrind", "objdump")
SHORT, LONG = 2_000, 4_000
# One to take the lock, one to let it go.
A_FRAME = 2
FEW_CHANGES, MANY_CHANGES = 200, 900
# The same for the slot and for the answers, and five for the shares of its program.
A_CHANGE = 9
FRAME = b"\xff" * 6 + b"\x02" + b"\0" * 5 + b"\x08\0" + bytes(50)
PATIENCE = 300


def atomic_instructions(program: Path) -> set[int]:
    """The places of a program's atomic instructions that write."""
    text = run("objdump", "-d", program)
    found = re.findall(r"(?m)^ *([0-9a-f]+):\t(?:[0-9a-f]{2} )+ *\t(lock |xchg .*\()", text)
    return {int(at, 16) for at, _ in found}


def executed(counted: Path, program: Path) -> dict[int, int]:
    """How often each instruction of the program ran, by its place in the program's file."""
    times: dict[int, int] = {}
    names: dict[str, str] = {}
    inside, place, skips = False, 0, False
    for line in counted.read_text().split("\n"):
        named = re.match(r"(c?ob)=\((\d+)\)(?: (.*))?$", line)
        row = re.match(r"(0x[0-9a-f]+|[+-]\d+|\*) \S+ (\d+)$", line)
        if named:
            names.setdefault(named[2], named[3])
            inside = names[named[2]] == str(program) if named[1] == "ob" else inside
        elif line.startswith("calls="):
            skips = True  # the next row has what the called function ran
        elif row:
            step = row[1]
            place = place if step == "*" else int(step, 16) if step[0] == "0" else place + int(step)
            if inside and not skips:
                times[place] = times.get(place, 0) + int(row[2])
            skips = False
    return times


def atomic_steps(work: Path, program: Path, count: int, listing: str, changes: int = 0) -> int:
    """How many atomic instructions that write a recording of so many frames ran, whose filter is changed so often."""
    feed, settings, counted = work / "feed", work / "settings.toml", work / "counted"
    feed.write_bytes(counted_feed([FRAME] * count))
    (work / "filter.txt").write_text(listing)
    settings.write_text(f'[[channel]]\nid = 1\nfeed = "{feed}"\nfilter = "{work / "filter.txt"}"\n')
    words = ["valgrind", "--tool=callgrind", "--dump-instr=yes", f"--callgrind-out-file={counted}"]
    lines = f"set 1 {work / 'filter.txt'}\n" * changes
    run(*words, program, "record", settings, "/dev/null", input=lines, seconds=PATIENCE)
    times = executed(counted, program)
    return sum(times.get(it, 0) for it in atomic_instructions(program))


@pytest.mark.parametrize("listing", [DROPS_ALL, KEEPS_ALL], ids=["dropped", "kept"])
def test_a_further_frame_takes_its_channels_lock_once(work: Path, listing: str) -> None:
    program = BPFREC.resolve()
    few, many = (atomic_steps(work, program, it, listing) for it in (SHORT, LONG))
    wanted, more = A_FRAME * (LONG - SHORT), many - few
    holds = 0.9 * wanted <= more <= 1.1 * wanted
    judge(f"{LONG - SHORT} frames: {more} atomic steps; a lock a frame takes {wanted}", holds)


def test_a_further_change_takes_its_channels_lock_once(work: Path) -> None:
    """A further change takes its channel's lock once, and that of the answers."""
    program = BPFREC.resolve()
    few, many = (atomic_steps(work, program, 1, KEEPS_ALL, it) for it in (FEW_CHANGES, MANY_CHANGES))
    wanted, more = A_CHANGE * (MANY_CHANGES - FEW_CHANGES), many - few
    judge(
        f"{MANY_CHANGES - FEW_CHANGES} changes: {more} atomic steps; a change that takes two locks takes {wanted}",
        0.9 * wanted <= more <= 1.1 * wanted,
    )
