"""What a channel is called and when a frame came, by a whole file itself or by the facts beside a recording."""

from __future__ import annotations

from typing import Optional

from bpfrec.formats.facts import on_a_line
from bpfrec.formats.whole_file import time_text
from bpfrec_tools.info.contents import Channel, Version
from bpfrec_tools.info.facts_file import FactsFile, interface_of, time_of, utc_at


def name_of(number: int, channel: Channel, beside: Optional[FactsFile]) -> str:
    """The name of a channel; nothing where it isn't known."""
    return channel.name or interface_of(number, beside)


def words_of(number: int, version: Version, beside: Optional[FactsFile]) -> Optional[str]:
    """The words of which a version of a channel's filter was made; None where they aren't known."""
    words = beside.known.expression_of(number, version.insns) if beside else None
    return None if words is None else on_a_line(words)


def said_time(counter: Optional[int], ticks: Optional[int], beside: Optional[FactsFile]) -> Optional[str]:
    """The time of a frame as people read it, by that in ticks where a whole file has it; None where it isn't known."""
    return time_of(counter, beside) if ticks is None else time_text(ticks)


def utc_time(counter: Optional[int], ticks: Optional[int], beside: Optional[FactsFile]) -> Optional[str]:
    """The same in UTC; None too where its scale isn't known."""
    return utc_at(counter, beside) if ticks is None else time_text(ticks)
