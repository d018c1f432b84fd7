"""How right a host's clock is, by what the facts have of it as `synchronisation`, and how that is said to people."""

from __future__ import annotations

import re
from typing import Any, NamedTuple, Optional

from bpfrec.formats.facts import on_a_line

# What the kernel says of seconds, and chrony of a clock that it doesn't hold.
SECONDS = re.compile(r"[0-9]{1,9}\.[0-9]{1,9}")
UNHELD = "Not synchronised"
MOST_NAME_LEN = 255


class ClockState(NamedTuple):
    """Whether a clock is synchronised, and by how many seconds it is off at most, as its kernel was given it; and what
    holds it right. None is what nobody says."""

    is_synchronised: Optional[bool] = None
    maximum_error: Optional[float] = None
    source: Optional[str] = None

    def fault(self, most: Optional[float]) -> Optional[str]:
        """Why the clock is worse than one that is synchronised and off by so many seconds at most; None where it isn't,
        or nobody asks for one."""
        if most is None:
            return None
        if self.is_synchronised is None or self.maximum_error is None:
            return "nobody says whether the clock is synchronised"
        if not self.is_synchronised:
            return "the clock is not synchronised"
        if self.maximum_error > most:
            return f"the clock may be off by {in_seconds(self.maximum_error)}, and {in_seconds(most)} are allowed"
        return None

    def text(self) -> str:
        """The state for people."""
        if self.is_synchronised is None:
            return "nobody says whether it is synchronised"
        by = f" by {self.source}" if self.source else ""
        if not self.is_synchronised:
            return f"not synchronised{f' yet{by}' if by else ''}"
        return f"synchronised{by}, off by at most {in_seconds(self.maximum_error or 0)}"


def in_seconds(value: float) -> str:
    """Seconds, to the microsecond."""
    return f"{value:.6f} s"


def state_in(told: Any) -> ClockState:
    """The state that an entry of the facts' `synchronisation` has. What has another form isn't known."""
    entry = told if isinstance(told, dict) else {}
    kernel = entry.get("kernel")
    is_synchronised, error = kernel_in(kernel if isinstance(kernel, dict) else {})
    return ClockState(is_synchronised, error, source_in(entry))


def kernel_in(kernel: dict[str, Any]) -> tuple[Optional[bool], Optional[float]]:
    """Whether the kernel takes its clock for synchronised, and the greatest error; both or neither."""
    is_synchronised, error = kernel.get("is_synchronised"), kernel.get("maximum_error")
    if not isinstance(is_synchronised, bool) or not isinstance(error, str) or not SECONDS.fullmatch(error):
        return None, None
    return is_synchronised, float(error)


def source_in(entry: dict[str, Any]) -> Optional[str]:
    """What holds the clock right: the source of chrony, and the grandmaster of PTP."""
    chrony, ptp = (it if isinstance(it, dict) else {} for it in (entry.get("chrony"), entry.get("ptp")))
    reference = name_in(chrony, "reference") if chrony.get("state") != UNHELD else None
    grandmaster = name_in(ptp, "grandmaster") if ptp.get("has_grandmaster") is True else None
    found = {"chrony": reference, "PTP": grandmaster}
    return " and ".join(f"{who} ({name})" for who, name in found.items() if name) or None


def name_in(entry: dict[str, Any], key: str) -> Optional[str]:
    """The name of a source; None where it is no text, or too long a one."""
    name = entry.get(key)
    return on_a_line(name) if isinstance(name, str) and len(name) <= MOST_NAME_LEN else None
