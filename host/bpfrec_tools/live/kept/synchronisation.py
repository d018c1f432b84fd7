"""What holds the host's clock right, and how far off it is: what the kernel says, chrony and PTP, where one runs."""

from __future__ import annotations

import os
import re
import shutil
import struct
import subprocess
from typing import Any, Optional

from bpfrec_tools.live.parts import system

# How long each is asked at most, in seconds.
PATIENCE = 2
MICROSECONDS = 1_000_000
NANO, UNSYNCHRONISED = 0x2000, 0x40
CHRONY_FIELDS = 14
# The programs that are asked.
CHRONYC, PMC = ASKED = ("chronyc", "pmc")
Entry = dict[str, Any]


# The kernel's state of the clock, as adjtimex(2) has it on machines of 64 bits: modes, offset, frequency, greatest and
# estimated error, status, time constant, precision, tolerance, time, tick, eight numbers of a signal, TAI - UTC.
LONG_LEN = 8
ADJUSTMENT = struct.Struct("@Ixxxxllllixxxxlllqql8li44x")


def synchronisation() -> Entry:
    """What is known of the clock now. None stands where nobody says."""
    return {"kernel": by_kernel(), "chrony": by_chrony(), "ptp": by_ptp()}


def by_kernel() -> Optional[Entry]:
    """What the kernel was told of its clock, lengths of time in seconds."""
    room = bytearray(ADJUSTMENT.size)
    if struct.calcsize("l") != LONG_LEN or system.adjust(room) < 0:
        return None
    _, offset, _, maximum, estimated, status, *_, tai = ADJUSTMENT.unpack(room)
    unit = MICROSECONDS * 1_000 if status & NANO else MICROSECONDS
    return {
        "is_synchronised": not status & UNSYNCHRONISED,
        "offset": f"{offset / unit:.9f}",
        "estimated_error": f"{estimated / MICROSECONDS:.6f}",
        "maximum_error": f"{maximum / MICROSECONDS:.6f}",
        "tai_offset": tai,
    }


def answer_of(name: str, *arguments: str) -> Optional[str]:
    """What a program prints that ends well; None where it isn't here or doesn't."""
    program = shutil.which(name)
    if program is None:
        return None
    try:
        done = subprocess.run(
            [program, *arguments],
            stdin=subprocess.DEVNULL,
            capture_output=True,
            check=False,
            timeout=PATIENCE,
            start_new_session=True,
            env={**os.environ, "LC_ALL": "C"},
        )
    except (OSError, subprocess.TimeoutExpired):
        return None
    return done.stdout.decode(errors="replace") if done.returncode == 0 else None


def by_chrony() -> Optional[Entry]:
    """What chrony says: its source, and by how many seconds the clock is off, in its own words."""
    fields = (answer_of(CHRONYC, "-c", "tracking") or "").strip().split(",")
    if len(fields) < CHRONY_FIELDS:
        return None
    return {
        "reference": fields[1] or fields[0],
        "stratum": int(fields[2]) if fields[2].isascii() and fields[2].isdigit() else None,
        "offset": fields[4],
        "root_delay": fields[10],
        "root_dispersion": fields[11],
        "state": fields[13],
    }


def by_ptp() -> Optional[Entry]:
    """What ptp4l says: its grandmaster, and the offset from it, in nanoseconds."""
    told = answer_of(PMC, "-u", "-b", "0", "GET TIME_STATUS_NP")
    found = dict(re.findall(r"^\s+(\w+)\s+(\S+)$", told or "", re.MULTILINE))
    if not re.fullmatch(r"-?[0-9]{1,18}", found.get("master_offset", "")):
        return None
    return {
        "offset_nanoseconds": int(found["master_offset"]),
        "has_grandmaster": found.get("gmPresent") == "true",
        "grandmaster": found.get("gmIdentity"),
    }
