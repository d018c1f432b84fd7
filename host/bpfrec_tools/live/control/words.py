"""What a line may say beside a change of a filter, and who asked."""

from __future__ import annotations

import enum
import re
from typing import Callable, Optional

# Answers who asked: a text of one line or more, and whether what was asked for was done.
Answering = Callable[[str, bool], None]
# None where a line came from standard input, whose answers are printed.
Asker = Optional[Answering]


def answer(asker: Asker, text: str, is_done: bool) -> None:
    """Answers who asked by another way than standard input."""
    if asker:
        asker(text, is_done)


HELP = """\
set CHANNEL FILTER  gives a channel another filter: a file that is a listing or a text for bpfrec asm, or an expression
                    of tcpdump, as set 7 udp port 5004; all keeps all frames
mark TEXT           notes an event in the facts of the recording, with its counter and time, as mark gear up
status              prints how the run goes and a line for each channel
next                begins the next recording, with --every or --size
stop                ends the recording, as Ctrl-C does
help                prints these lines"""
MARK = re.compile(rb"\s*mark(?:\s(.*))?", re.DOTALL)


# What lines begin with.
LINES = ("set", "mark", "status", "next", "stop", "help")


class Word(enum.Enum):
    """A line that is a word alone."""

    HELP = "help"
    NEXT = "next"
    STATUS = "status"
    STOP = "stop"


def word_of(line: bytes) -> Optional[Word]:
    """The word that a line is; None where it is something else."""
    try:
        return Word(line.strip().decode("ascii"))
    except (UnicodeDecodeError, ValueError):
        return None


def mark_in(line: bytes) -> Optional[bytes]:
    """The text of a line that is a mark; None where it is something else."""
    found = MARK.fullmatch(line)
    return (found[1] or b"") if found else None
