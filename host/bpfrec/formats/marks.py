"""Marks in the facts beside a recording: events that somebody noted while it went on, each with its counter."""

from __future__ import annotations

import unicodedata
from typing import Any, NamedTuple, Optional

from bpfrec.formats.limits import MAX_COUNTER, MAX_MARK_LEN, MAX_NOTED_MARKS

# No text of a line: control characters, halves of a letter, and what ends a line or a paragraph.
NOT_IN_TEXTS = ("Cc", "Cs", "Zl", "Zp")


class Mark(NamedTuple):
    """A mark: the counter of a frame that comes then, and its text."""

    counter: int
    text: str


def text_fault(text: str) -> Optional[str]:
    """What is wrong with the text of a mark; None where nothing is."""
    if not text.strip():
        return "it takes a text, as mark gear up"
    if len(text) > MAX_MARK_LEN:
        return f"its text has {len(text):,} characters, and {MAX_MARK_LEN} at most"
    if any(unicodedata.category(it) in NOT_IN_TEXTS for it in text):
        return "its text has a control character"
    return None


def marks_in(told: Any) -> list[Mark]:
    """The marks of the facts, in their order. Nothing stands on them, so what has another form is left out."""
    found = [mark_in(it) for it in told] if isinstance(told, list) else []
    return [it for it in found if it][:MAX_NOTED_MARKS]


def mark_in(told: Any) -> Optional[Mark]:
    """The mark that an object of JSON is; None where it is none."""
    counter, text = (told.get("counter"), told.get("text")) if isinstance(told, dict) else (None, None)
    if type(counter) is not int or not 0 <= counter <= MAX_COUNTER:
        return None
    return Mark(counter, text) if isinstance(text, str) and text_fault(text) is None else None
