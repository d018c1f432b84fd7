"""Settings as a text: what is read from one (formats/settings.py) is written anew, whole, each value as it was."""

from __future__ import annotations

import json
import math
import re
from datetime import date, datetime, time
from typing import Any

BARE_KEY = re.compile(r"[A-Za-z0-9_-]+")
# Lists that have a section for each of their tables.
SECTIONS = ("recording", "channel")


def text_of(document: dict[str, Any], within: str = "") -> str:
    """The text of a TOML document, with a table [[channel]] for each channel, as [[recording.channel]] within another."""
    lists = {key: it for key, it in document.items() if key in SECTIONS and are_tables(it)}
    lines = [f"{line_of(key, it)}\n" for key, it in document.items() if key not in lists]
    for key, tables in lists.items():
        lines += [f"\n[[{within}{key}]]\n{text_of(it, f'{within}{key}.')}" for it in tables]
    return "".join(lines)


def are_tables(value: Any) -> bool:
    """Whether a value is a list of tables."""
    return isinstance(value, list) and bool(value) and all(isinstance(it, dict) for it in value)


def line_of(key: str, value: Any) -> str:
    """The line that sets a key."""
    return f"{key_of(key)} = {value_of(value)}"


def key_of(key: str) -> str:
    """A key, in quotes where it needs some."""
    return key if BARE_KEY.fullmatch(key) else quoted(key)


def quoted(text: str) -> str:
    """A text in quotes: the escapes of JSON are TOML's too, which lacks one more character."""
    return json.dumps(text, ensure_ascii=False).replace("\x7f", "\\u007f")


def value_of(value: Any) -> str:
    """A value; tables stand in braces."""
    if isinstance(value, bool):
        return "true" if value else "false"
    if isinstance(value, str):
        return quoted(value)
    if isinstance(value, float):
        return repr(value) if math.isfinite(value) else str(value)
    if isinstance(value, (datetime, date, time)):
        return value.isoformat()
    if isinstance(value, list):
        return f"[{', '.join(map(value_of, value))}]"
    if isinstance(value, dict):
        return f"{{{', '.join(line_of(key, it) for key, it in value.items())}}}"
    return str(value)
