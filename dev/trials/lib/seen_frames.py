"""The frames that tshark sees in captures of bpfrec export, beside those that extract gives of the recordings."""

from collections.abc import Callable
from pathlib import Path
from typing import NamedTuple

from captures import fields_of
from frames import Record, records
from pcapng import frames_in
from recorder import extracted
from support import BPFREC, EXPORT, judge_quietly, outcome, run

SECOND = 10**9


class Seen(NamedTuple):
    """A frame that tshark reads in a capture: its interface, its moment in nanoseconds, and its bytes."""

    interface: int
    moment: int
    bytes: bytes


def seen_in(capture: Path) -> list[Seen]:
    """The frames of a capture with their bytes, by tshark and by an old capture that editcap makes of it."""
    fields = [(int(it[0]), it[1]) for it in fields_of(capture)]
    plain = capture.with_suffix(".plain")
    run("editcap", "-F", "nsecpcap", capture, plain)
    found = []
    for (number, moment), (seconds, rest, frame, _) in zip(fields, frames_in(plain.read_bytes())):
        judge_quietly(f"tshark's time {moment}", moment == f"{seconds}.{rest:09}")
        found.append(Seen(number, seconds * SECOND + rest, frame))
    return found


def made(work: Path, *words: object, status: int = 0) -> Path:
    """The capture that the tool makes."""
    out = work / "made.pcapng"
    done = outcome(EXPORT, "--force", *words, out)
    judge_quietly(f"pcapng {words}", done.returncode == status, done)
    return out


def channels_of(recording: Path) -> list[int]:
    """The channels of which `bpfrec list` has frames, programs or ends."""
    lines = [it.split() for it in run(BPFREC, "list", recording).splitlines()[:-1]]
    return sorted({int(it[8] if it[7] != "frames" else it[1]) for it in lines if it[7] != "other"})


def feeds_of(work: Path, recording: Path) -> dict[int, list[Record]]:
    return {it: records(extracted(recording, it, work / "one.feed")) for it in channels_of(recording)}


def judge_whole(work: Path, recording: Path, moment_of: Callable[[int], int] = lambda counter: counter * 100) -> None:
    """The frames of each interface are those that extract gives of its channel, with their times, merged by time."""
    feeds, seen = feeds_of(work, recording), seen_in(made(work, recording))
    for number, feed in enumerate(feeds.values()):
        wanted = [Seen(number, moment_of(it.counter), it.frame) for it in feed]
        judge_quietly(f"{recording.name}: channel {number}", [it for it in seen if it.interface == number] == wanted)
    judge_quietly(f"{recording.name}: {len(seen)}", len(seen) == sum(map(len, feeds.values())))
