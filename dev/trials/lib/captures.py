"""Capture files beside a second reading of them, which is tshark's."""

import hashlib
import re
from pathlib import Path

from frames import records
from support import CAPTURE, outcome, run

FIELDS = ["frame.interface_id", "frame.time_epoch", "frame.len", "frame.cap_len", "frame.md5_hash"]


def fields_of(capture: Path) -> list[list[str]]:
    """What tshark reads of each frame: its interface, its moment, its lengths and the sum of its bytes."""
    words = [word for field in FIELDS for word in ("-e", field)]
    asked = ["-n", "-o", "frame.generate_md5_hash:TRUE", "-r", capture, "-T", "fields"]
    return [line.split("\t") for line in run("tshark", *asked, *words).splitlines()]


def ticks(moment: str) -> int:
    """The counter of a moment that tshark tells, by the origin 1970."""
    seconds, _, rest = moment.partition(".")
    return (int(seconds) * 10**9 + int(rest.ljust(9, "0")[:9])) // 100 % 2**48


def is_as_tshark_reads(capture: Path, feed: Path, chosen: str = "") -> bool:
    """Whether the whole frames that tshark reads are those of the feed, in order, with their times since 1970."""
    words = ["--interface", chosen] if chosen else []
    told = outcome(CAPTURE, "--origin", "zero", *words, "-r", f"{capture}={feed}").stderr
    read = [it for it in fields_of(capture) if not chosen or it[0] == chosen]
    kept = [(ticks(it[1]), it[4]) for it in read if it[2] == it[3]]
    got = [(it.counter, hashlib.md5(it.frame[:-4]).hexdigest()) for it in records(feed.read_bytes())]
    counted = re.search(r" frames (\d+) bytes \d+ skipped (\d+) ", told)
    counts = counted and (int(counted[1]), int(counted[2]))
    return got == kept and len(kept) > 0 and counts == (len(kept), len(read) - len(kept))
