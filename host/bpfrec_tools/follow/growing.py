"""A recording that may go on: its file as it grows, the facts beside it, and the recordings of its run, one after another."""

from __future__ import annotations

import os
import time
from typing import Callable, Optional

from bpfrec.formats.facts import Facts, NoFacts, read
from bpfrec.formats.follow import Follower, Front
from bpfrec.formats.held import File
from bpfrec.formats.limits import HEADER_LEN
from bpfrec.formats.names import ENDING, Names, facts_path, names_of
from bpfrec.formats.whole_file import begins_whole_file
from bpfrec_tools.cli.streams import Refused
from bpfrec_tools.follow.within import beginning_of


def facts_of(path: str) -> Optional[Facts]:
    """What the facts beside a recording say by now; None where there are none, or they don't say when it began and whether
    it has ended."""
    try:
        known = read(facts_path(path))
    except (OSError, NoFacts):
        return None
    return None if known.begun is None or known.has_ended is None else known


def first_of(path: str) -> str:
    """The recording that a path names: itself, or of a run's name the newest that is there."""
    if os.path.exists(path):
        return path
    there = Names(path).there() or Names(f"{path}{ENDING}").there()
    if not there:
        raise Refused(f"{path}: there is no such recording, and none that is numbered, as {Names(path).next()[1]}")
    return max((os.stat(found).st_mtime_ns, number, found) for number, found in there)[2]


def following(path: str, begun: int, first: Optional[int] = None) -> Optional[str]:
    """The recording that follows one of its run; None where there is none yet. One of an earlier run is skipped. `first`
    is the number of a path that has none."""
    names = names_of(path)
    own = first if names.number_of(path) is None else names.number_of(path)
    for number, found in names.there() if own is not None else []:
        if own is not None and number > own:
            known = facts_of(found) or beginning_of(found)
            if known and (known.begun or 0) >= begun:
                return found
    return None


def is_written(path: str) -> bool:
    """Whether a program holds the lock that a recorder has on what it writes, as far as this system shows locks."""
    found = os.stat(path)
    wanted = f"{os.major(found.st_dev):02x}:{os.minor(found.st_dev):02x}:{found.st_ino}"
    try:
        with open("/proc/locks", encoding="ascii") as file:
            return any(line.split()[1] == "FLOCK" and wanted in line.split() for line in file)
    except OSError:
        return True


Report = Callable[[str], None]
# How often one looks for more, in seconds, and for how long a next recording is waited for once the last has ended.
PAUSE, PATIENCE = 0.02, 2.0
# For how long the facts of a recording that has just begun are waited for, in seconds.
FACTS_PATIENCE = 10.0


class Growing:
    """A recording's file, its facts, and the channels that it names and those that have ended. Who reads it says by
    `take` what is done with a packet."""

    def __init__(self, path: str, report: Report) -> None:
        self.path, self.report = path, report
        self.file = File(path, open(path, "rb"))
        self.follower = Follower(self.file.read_at, self.take)
        self.known: Optional[Facts] = None
        self.facts_file: Optional[tuple[int, int]] = None
        self.ended: set[int] = set()
        self.named: set[int] = set()
        self.is_damaged = False

    def take(self, front: Front) -> None:
        """Takes a packet that is whole in the file."""
        raise NotImplementedError

    def close(self) -> None:
        """Closes the file."""
        self.file.file.close()

    def read_on(self) -> bool:
        """Takes what has come: whether anything had."""
        before, size = self.follower.at, self.file.size_now()
        self.look_at_facts()
        for fault in self.follower.read_on(size):
            self.is_damaged = True
            self.report(f"{self.path}: {fault}")
        return self.follower.at > before

    def read_rest(self) -> None:
        """Takes what is left of a recording that has ended."""
        if not self.follower.reader:
            self.follower.end(self.file.size_now())
            while self.read_on():
                pass

    def look_at_facts(self) -> None:
        """Reads the facts where they are new."""
        try:
            found = os.stat(facts_path(self.path))
        except OSError:
            return
        file = (found.st_ino, found.st_mtime_ns)
        if file != self.facts_file:
            self.facts_file, self.known = file, facts_of(self.path) or self.known

    def wait_for_facts(self, is_given_up: Callable[[], bool] = lambda: False) -> None:
        """Waits until facts say when it was recorded and what its channels are, while somebody writes it."""
        ends = time.monotonic() + FACTS_PATIENCE
        self.look_at_facts()
        while not self.known and not self.has_ended() and not self.begins_whole() and time.monotonic() < ends:
            is_last = is_given_up()
            time.sleep(PAUSE)
            self.look_at_facts()
            if is_last:
                break

    def begins_whole(self) -> bool:
        """Whether it begins as a whole file, which needs no facts beside it."""
        return begins_whole_file(self.file.read_at(0, HEADER_LEN))

    def waits_for_next(self) -> bool:
        """Whether another one may follow it a little later: it is numbered."""
        return self.number() is not None

    def number(self) -> Optional[int]:
        """Its number in its run; None of one alone."""
        return names_of(self.path).number_of(self.path)

    def name(self, channel: int) -> str:
        """The name of a channel's interface."""
        return (self.known.shown_name(channel) if self.known else None) or f"channel {channel}"

    def has_all_ends(self) -> bool:
        """Whether it has the record of each channel's end."""
        wanted = set(self.known.interfaces) if self.known else set()
        return bool(wanted) and (wanted | self.named) <= self.ended

    def has_ended(self) -> bool:
        """Whether its facts say that it has ended; where none say it, whether nobody writes it."""
        said = self.known.has_ended if self.known else None
        return not is_written(self.path) if said is None else said


def next_of(
    recording: Growing, patience: float = PATIENCE, is_given_up: Callable[[], bool] = lambda: False
) -> Optional[str]:
    """The recording that follows one, which is waited for until that has ended, and a little longer where another one
    may follow."""
    may_follow, ends = recording.waits_for_next(), None
    while recording.known:
        next_path = following(recording.path, recording.known.begun or 0, recording.number())
        if next_path or is_given_up() or ends is not None and time.monotonic() > ends:
            return next_path
        if recording.has_ended() and ends is None:
            ends = time.monotonic() + (patience if may_follow or patience > PATIENCE else 0)
        time.sleep(PAUSE)
        recording.look_at_facts()
    return None
