"""What the program bpfrec prints, line by line, as docs/user/formats/ has it: the report of `record`, its answers to
lines that change filters, the verdict of `audit`, and faults."""

from __future__ import annotations

import re
from typing import NamedTuple, Optional

WROTE = re.compile(r"wrote ([0-9]{1,20}) ([0-9]{1,20})")
INSTALLED, REFUSED = re.compile(r"installed ([0-9]+) ([0-9]+) [0-9]+"), re.compile(r"refused ([0-9]+) .+")
YES = re.compile(r"yes other ([0-9]+)")
OUTPUT_FAULT = re.compile(r"run 2 Output [0-9]+ [0-9]+")
# Of settings that are no TOML document.
SETTINGS_SYNTAX = "settings 1 Syntax"


class Report(NamedTuple):
    """The last line of a report: how much of a recording was written."""

    packets: int
    bytes: int

    @classmethod
    def of(cls, line: str) -> Optional[Report]:
        """The report that a line is; None where it is another line."""
        found = WROTE.fullmatch(line)
        return cls(int(found[1]), int(found[2])) if found else None


class Answer(NamedTuple):
    """The answer to a line that gives a channel a program: which version of the channel's filter that is; None where it
    was refused."""

    channel: int
    version: Optional[int]

    @classmethod
    def of(cls, line: str) -> Optional[Answer]:
        """The answer that a line is; None where it is another line."""
        installed, refused = INSTALLED.fullmatch(line), REFUSED.fullmatch(line)
        if installed:
            return cls(int(installed[1]), int(installed[2]))
        return cls(int(refused[1]), None) if refused else None

    def is_installed(self) -> bool:
        """Whether the program is in force."""
        return self.version is not None


class Verdict(NamedTuple):
    """The last line of an audit: how many packets of a recording that it approves are other; None where it doesn't."""

    other: Optional[int]

    @classmethod
    def of(cls, line: str) -> Verdict:
        """The verdict that a line is."""
        found = YES.fullmatch(line)
        return cls(int(found[1]) if found else None)

    def is_yes(self) -> bool:
        """Whether the recording is approved."""
        return self.other is not None


def is_output_fault(line: str) -> bool:
    """Whether a recorder says that its output failed."""
    return OUTPUT_FAULT.fullmatch(line) is not None


def file_fault(path: str) -> str:
    """The line that says that a file can't be used."""
    return f"file {path}"


def is_no_listing(line: str) -> bool:
    """Whether the program says of a file that it isn't written as a listing is."""
    return line.startswith("listing 1 Syntax ")
