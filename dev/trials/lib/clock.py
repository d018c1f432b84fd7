"""A wall clock that is set for chosen programs alone, by dev/trials/lib/set_clock.c, and a kernel that says of it what a
trial chooses, by set_synchronisation.c."""

import functools
import os
import re
import struct
import tempfile
import time
from pathlib import Path
from typing import NamedTuple

from frames import Record, numbered, numbers_in
from namespace import socket_into
from support import CAPTURE, LIBRARY, MILLISECOND, SECOND, judge_quietly, nanoseconds, origin_told, shared_library


class Clock:
    """A wall clock that is set for those programs alone that run with `adds`."""

    SOON = 3 * MILLISECOND

    def __init__(self, work: Path, name: str = "clock") -> None:
        self.path = work / name
        self.settings: list[tuple[int, int]] = []
        self.gain = (0, 0)
        self.write()
        self.adds = {"LD_PRELOAD": str(preloaded()), "SET_CLOCK": str(self.path)}

    def write(self) -> None:
        """What is new comes ahead of its count, and of the moment from which on it holds."""
        listed = b"".join(struct.pack("<qq", *it) for it in self.settings).ljust(64 * 16, b"\0")
        with open(self.path, "r+b" if self.path.exists() else "w+b", buffering=0) as file:
            file.seek(24)
            file.write(listed)
            file.seek(16)
            file.write(struct.pack("<q", self.gain[1]))
            file.seek(0)
            file.write(struct.pack("<qq", len(self.settings), self.gain[0]))

    def ahead_at(self, real: int) -> int:
        """How far it is ahead of the real clock then, in nanoseconds."""
        from_then, gain = self.gain
        gained = (real - from_then) * gain // 1_000_000 if from_then and real > from_then else 0
        return ([0] + [ahead for moment, ahead in self.settings if moment <= real])[-1] + gained

    def set_by(self, nanoseconds: int) -> None:
        """Sets it within some milliseconds, and returns some later."""
        self.set_at(time.time_ns() + self.SOON, (self.settings[-1][1] if self.settings else 0) + nanoseconds)

    def set_at(self, moment: int, ahead: int) -> None:
        self.settings.append((moment, ahead))
        self.write()
        while time.time_ns() < moment + self.SOON:
            time.sleep(0.001)

    def slew(self, millionths: int) -> None:
        """It gains so much from now on."""
        self.gain = (time.time_ns() + self.SOON, millionths)
        self.write()


class Kernel(NamedTuple):
    """What a kernel says of its clock: whether it is synchronised, by how many microseconds it is off at most and
    probably, how far it is slewed yet, in nanoseconds or microseconds, and how many seconds TAI is ahead of UTC."""

    is_synchronised: bool = True
    maximum_error: int = 500
    estimated_error: int = 10
    offset: int = 0
    is_nano: bool = True
    tai_offset: int = 37


class Synchronisation:
    """What the kernel says of its clock, for those programs alone that run with `adds`."""

    def __init__(self, work: Path, is_synchronised: bool = True, maximum_error: int = 500) -> None:
        self.path = work / "synchronisation"
        self.path.write_bytes(bytes(8 * len(Kernel._fields)))
        self.set(is_synchronised, maximum_error)
        self.adds = {"LD_PRELOAD": str(preloaded("set_synchronisation")), "SET_SYNCHRONISATION": str(self.path)}

    def set(self, is_synchronised: bool, maximum_error: int = 500) -> None:
        """Changes whether it is synchronised and how far it is off, for those that run too."""
        self.say(Kernel(is_synchronised, maximum_error))

    def say(self, kernel: Kernel) -> None:
        """Changes all that it says, for those that run too."""
        with open(self.path, "r+b", buffering=0) as file:
            file.write(struct.pack("<6q", *kernel))


@functools.cache
def library_folder() -> tempfile.TemporaryDirectory:
    """A folder that is removed when this process ends."""
    return tempfile.TemporaryDirectory(prefix="bpfrec_set_clock_")


@functools.cache
def preloaded(name: str = "set_clock") -> Path:
    """The library of a C file in dev/trials/lib/."""
    return shared_library(LIBRARY / f"{name}.c", Path(library_folder().name) / f"{name}.so")


def capture_with(work: Path, adds: dict) -> Path:
    """A script that is bin/capture with these variables, for bpfrec live."""
    path = work / "capture_with"
    given = " ".join(f"{name}='{value}'" for name, value in adds.items())
    path.write_text(f'#!/bin/sh\nexec env {given} {CAPTURE} "$@"\n')
    path.chmod(0o755)
    return path


# ---- chrony and PTP that are played

# What each prints, by its manual.
TRACKING = (
    "C0000201,192.0.2.1,2,1764590399.123456789,-0.000012345,0.000001000,0.000020000,-5.100,0.001,0.020,"
    "0.000350000,0.000120000,64.5,Normal"
)
STATUS = """sending: GET TIME_STATUS_NP
\t90e2ba.fffe.20c7f8-0 seq 0 RESPONSE MANAGEMENT TIME_STATUS_NP
\t\tmaster_offset              -27
\t\tingress_time               1764590399000000000
\t\tcumulativeScaledRateOffset +0.000000000
\t\tscaledLastGmPhaseChange    0
\t\tgmTimeBaseIndicator        0
\t\tlastGmPhaseChange          0x0000'0000000000000000.0000
\t\tgmPresent                  true
\t\tgmIdentity                 001122.fffe.334455
"""


def play(program: Path, answer: str) -> None:
    """Makes a program that prints this, or has it print this from now on."""
    program.write_text(f"#!/bin/sh\ncat << 'END'\n{answer}\nEND\n")
    program.chmod(0o755)


def played(work: Path, **answers: str) -> dict[str, str]:
    """Programs of these names that print so, ahead of all others."""
    place = work / "played"
    place.mkdir()
    for name, answer in answers.items():
        play(place / name, answer)
    return {"PATH": f"{place}:{os.environ['PATH']}"}


# ---- frames under a clock that is set

TOLD = re.compile(
    r"bpfrec capture: origin (-?\d+)\.(\d{9}) from counter (\d+) on: the clock was set by ([-+]?\d+\.\d{6,9}) s\n"
)


class Sender:
    """Sends frames into both pairs, and keeps when each was sent: the real moments just before and just after."""

    def __init__(self) -> None:
        self.sent: list[tuple[int, int]] = []

    def send(self, count: int, length: int = 60, pause: float = 0.002) -> None:
        with socket_into("tx0") as one, socket_into("tx1") as two:
            for number in range(len(self.sent), len(self.sent) + count):
                frame, begin = numbered(number, length), time.time_ns()
                one.send(frame)
                two.send(frame)
                self.sent.append((begin, time.time_ns()))
                time.sleep(pause)


def origins_told(told: str) -> list[tuple[int, int]]:
    """The counters and the origins that hold from them on, in the order in which they are told."""
    later = [(int(counter), nanoseconds(second, rest)) for second, rest, counter, _ in TOLD.findall(told)]
    return [(0, origin_told(told)), *later]


def steps_told(told: str) -> list[float]:
    """By how much the clock was set, in nanoseconds, as it is told."""
    return [float(it[3]) * SECOND for it in TOLD.findall(told)]


def judge_frames(what: str, found: list[Record], sent: list, origins: list, clock: Clock) -> None:
    """Each frame is there once, its counter is the real time since the beginning, and its time the set clock's."""
    holds = numbers_in([found]) == list(range(len(sent)))
    judge_quietly(f"{what}: {len(found)} of {len(sent)} frames, in order", holds)
    judge_times(what, found, sent, origins, clock)


def judge_times(what: str, found: list[Record], sent: list, origins: list, clock: Clock) -> None:
    counters = [it.counter for it in found]
    judge_quietly(f"{what}: counters never step back", counters == sorted(counters))
    for counter, number in zip(counters, numbers_in([found])):
        begin, end = sent[number]
        wrong = off(origins[0][1] + 100 * counter, begin, end)
        holds = wrong < MILLISECOND
        judge_quietly(f"{what}: counter {counter} of frame {number} is {wrong / MILLISECOND:.3f} ms off", holds)
        told = [origin for from_then, origin in origins if from_then <= counter][-1] + 100 * counter
        aheads = sorted([clock.ahead_at(begin), clock.ahead_at(end)])
        wrong = off(told, begin + aheads[0], end + aheads[1])
        judge_quietly(f"{what}: the time of frame {number} is {wrong / MILLISECOND:.3f} ms off", wrong < MILLISECOND)


def off(moment: int, begin: int, end: int) -> int:
    """How far a moment is outside of a time."""
    return max(begin - moment, moment - end, 0)


def judge_steps(what: str, told: str, steps: list[int]) -> None:
    found = steps_told(told)
    holds = len(found) == len(steps) and all(abs(a - b) < MILLISECOND for a, b in zip(found, steps))
    judge_quietly(f"{what}: each setting is told once: {found} of {steps}", holds)
