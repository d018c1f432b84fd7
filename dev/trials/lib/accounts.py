"""What became of each frame that was sent: a capture's counts, its feeds, recordings and their facts add up, to the
frame."""

import re
from itertools import accumulate
from pathlib import Path
from typing import NamedTuple

from frames import records
from recordings import extracted, facts_of
from support import judge

LOSSES = ("dropped", "missed", "skipped")
COUNTS = re.compile(
    r"bpfrec capture: (\S+) frames (\d+) bytes (\d+) dropped (\d+) missed (\d+) skipped (\d+) waited (\d+)\n"
)


class Counted(NamedTuple):
    """What a capture has counted of an interface."""

    frames: int
    bytes: int
    dropped: int
    missed: int
    skipped: int
    waited: int

    def lost(self) -> int:
        return self.dropped + self.missed + self.skipped


def counted(told: str, interface: str = "rx0") -> Counted:
    """The last counts that were printed of an interface."""
    return [Counted(*map(int, it[1:])) for it in COUNTS.findall(told) if it[0] == interface][-1]


def judge_fed(told: str, sent: int, fed: int, interface: str = "rx0") -> Counted:
    """Of the frames that were sent into an interface each is of a feed, which have so many, or in one of its losses."""
    found = counted(told, interface)
    judge(f"{interface}: its feeds have the frames that are counted", fed == found.frames, (fed, told))
    judge(f"{interface}: {sent} frames were sent, {fed} fed and {found.lost()} lost", sent == fed + found.lost(), told)
    return found


def judge_killed(told: str, recorded: list[int], sent: tuple[int, int], interface: str) -> None:
    """A recorder was killed, with the frames that it held: of those from this number on, up to the end of all that were
    sent, each was recorded, once and in order, or is in one of the interface's losses."""
    (first, end), found = sent, counted(told, interface)
    judge(f"{interface}: each of {end} frames is fed or lost", found.frames + found.lost() == end, (found, told))
    judge(f"{interface}: each is recorded once, in order", recorded == sorted(set(recorded)), recorded)
    missing = sorted(set(range(first, end)).difference(recorded))
    holds = len(missing) <= found.lost()
    judge(f"{interface}: none is missing but those that were lost", holds, (missing, found, told))


def judge_recorded(
    work: Path, ended: tuple[str, str], files: list[Path], sent: int, interface: str = "rx0", channel: int = 1
) -> Counted:
    """Of the frames that were sent into an interface each was kept or filtered out in one of these recordings, or is in
    one of its losses: by what live printed and told, by the recordings, and by their facts."""
    printed, told = ended
    lines = re.findall(rf"^channel {channel} versions \d+ offered (\d+) kept (\d+) ", printed, re.MULTILINE)
    offered, kept = (sum(int(it[at]) for it in lines) for at in range(2))
    found = judge_fed(told, sent, offered, interface)
    recorded = sum(len(records(extracted(work, it, channel))) for it in files)
    judge(f"channel {channel}: {kept} are kept and {offered - kept} filtered out", recorded == kept, (recorded, lines))
    facts = [facts_of(it) for it in files]
    counts = [it["frames"] for one in facts for it in one["counts"] if it["interface"] == interface]
    judge("facts count on from recording to recording", counts == list(accumulate(int(it[0]) for it in lines)), counts)
    losses = [it for one in facts for it in one["losses"] if it["interface"] == interface]
    sums = [sum(it[name] for it in losses) for name in LOSSES]
    judge("facts have each loss", sums == [found.dropped, found.missed, found.skipped], (losses, told))
    line = f"bpfrec live: {interface} LOST {found.dropped} dropped {found.skipped} skipped"
    line += f" {found.missed} missed" * (found.missed > 0)
    judge("the last lines have those that lost some", (f"{line}\n" in told) == (found.lost() > 0), told)
    return found
