"""Times and sizes as people write and read them, as 10min, 1h30m, 100ms or 2GB: the one reader of them, and the one writer."""

from __future__ import annotations

import argparse
import re
from typing import Callable, Optional

from bpfrec.formats.limits import MAX_COUNTER, TICKS_A_SECOND

MAX_SECONDS, MAX_BYTES = 999_999_999, 10**15 - 1
# What may stand behind a number: in seconds, and in bytes.
TIMES = {"": 1, "s": 1, "m": 60, "min": 60, "h": 3_600, "d": 86_400}
SIZES = {
    "": 1,
    "k": 10**3,
    "kB": 10**3,
    "M": 10**6,
    "MB": 10**6,
    "G": 10**9,
    "GB": 10**9,
    "T": 10**12,
    "TB": 10**12,
}
FRACTIONS = {"": 1.0, "s": 1.0, "ms": 1e-3, "us": 1e-6}
IN_SECONDS, IN_PARTS, IN_BYTES = ", in seconds, or as 10m", ", in seconds, or as 100ms, or 0", ", in bytes, or as 2G"


def number(least: int, most: int, said: str, units: Optional[dict[str, int]] = None) -> Callable[[str], int]:
    """What reads a number of a range, without zeros ahead, and the unit behind it; or several of them, as a sum."""
    factors = units or {"": 1}
    digits = rf"(?:0|[1-9][0-9]{{0,{len(str(most)) - 1}}})"

    def read(word: str) -> int:
        found = re.findall(rf"({digits})([a-zA-Z]*)", word)
        # Of several parts each has its unit, as 1h30m.
        is_number = re.fullmatch(rf"{digits}[a-zA-Z]*|(?:{digits}[a-zA-Z]+)+", word)
        sizes = [factors.get(unit, 0) for _, unit in found]
        # Each unit is smaller than the one before.
        is_whole = is_number and all(sizes) and sizes == sorted(set(sizes), reverse=True)
        value = sum(int(count) * factors[unit] for count, unit in found) if is_whole else -1
        if not least <= value <= most:
            raise argparse.ArgumentTypeError(f"needs a number {said}")
        return value

    return read


def parts(least: float, most: int, said: str, has_none: bool = False) -> Callable[[str], float]:
    """What reads seconds of a range, and parts of them, as 0.01, 10ms or 500us; where there may be none also 0."""
    whole = number(0, MAX_SECONDS, said, TIMES)

    def read(word: str) -> float:
        found = re.fullmatch(r"([0-9]{1,8}(?:\.[0-9]{1,6})?)(|s|ms|us)", word)
        value = float(found[1]) * FRACTIONS[found[2]] if found else float(whole(word))
        if not (least <= value <= most or has_none and not value):
            raise argparse.ArgumentTypeError(f"needs a number {said}")
        return value

    return read


def seconds(word: str) -> int:
    """The seconds that a word says, one or more."""
    return number(1, MAX_SECONDS, f"from 1 to {MAX_SECONDS}{IN_SECONDS}", TIMES)(word)


def ticks(word: str) -> int:
    """The ticks of a time that a word says: none, or of a microsecond at least and at most what a counter holds."""
    most = MAX_COUNTER // TICKS_A_SECOND
    return round(parts(1e-6, most, f"from 0.000001 to {most}{IN_PARTS}", has_none=True)(word) * TICKS_A_SECOND)


def size(word: str) -> int:
    """The bytes that a word says, one or more."""
    return number(1, MAX_BYTES, f"from 1 on{IN_BYTES}", SIZES)(word)


# ---- as texts


def plural(count: int, what: str) -> str:
    """A number of things."""
    return f"{count:,} {what}{'' if count == 1 else 's'}"


def size_text(count: float) -> str:
    """Bytes in the largest unit of which there is one."""
    for unit in ("B", "kB", "MB", "GB", "TB"):
        if count < 1_000 or unit == "TB":
            break
        count /= 1_000
    return f"{count:,.0f} {unit}" if unit == "B" or count >= 100 else f"{count:,.1f} {unit}"


def duration_text(seconds: float) -> str:
    """A length of time, in its two largest units."""
    whole = max(int(seconds), 0)
    if whole < 60:
        return f"{whole} s"
    if whole < 3_600:
        return f"{whole // 60} min {whole % 60} s"
    if whole < 86_400:
        return f"{whole // 3_600} h {whole % 3_600 // 60} min"
    return f"{whole // 86_400} d {whole % 86_400 // 3_600} h"
