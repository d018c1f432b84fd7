"""The findings of a preflight, a line each."""

from __future__ import annotations

from typing import Optional

from bpfrec_tools.cli import printing
from bpfrec_tools.cli.arguments import name_of

# Whose arguments are at fault.
LIVE, CAPTURE = name_of("live"), name_of("capture")


class NotJudged(Exception):
    """Nothing can be judged: why."""


class Report:
    """The findings, which are printed as they are made."""

    def __init__(self) -> None:
        self.faults = 0

    def fault(self, where: str, what: str) -> None:
        """Tells what is wrong."""
        self.faults += 1
        printing.out(one_line(f"{where}: {what}") + "\n")

    def ending(self) -> str:
        """The last line."""
        return f"{self.faults} {'fault' if self.faults == 1 else 'faults'}"

    def note(self, where: str, what: str) -> None:
        """Tells what is no fault."""
        printing.out(one_line(f"{where}: note: {what}") + "\n")


def one_line(text: str) -> str:
    """A text with what can't be printed, a line feed for one, as an escape."""
    return "".join(it if it.isprintable() else it.encode("unicode_escape").decode() for it in text)


def place(file: str, line: Optional[int] = None, channel: str = "") -> str:
    """Where something was found."""
    words = [file if line is None else f"{file}:{line}", channel]
    return ": ".join(word for word in words if word)
