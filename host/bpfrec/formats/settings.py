"""The settings of a recording, a TOML document: what it says, in which line, and what is wrong with a value."""

from __future__ import annotations

import importlib
import re
from typing import Any, Callable, NamedTuple, Optional

from bpfrec.formats.limits import CHANNEL_KEYS, MAX_CHANNELS, MAX_NUMBER, MIN_NUMBER, Range

HEADER = re.compile(r"\s*\[")
CHANNEL_HEADER = re.compile(r"""\s*\[\[\s*["']?channel["']?\s*\]\]""")
# A key on its own line, or in a header.
KEY = r"""(?:"([^"\n]*)"|'([^'\n]*)'|([^\s=.,"'#\[\]{}]+))"""
SET_KEY, HEADER_KEY = re.compile(rf"\s*{KEY}\s*[=.]"), re.compile(rf"\s*\[+\s*{KEY}\s*[].]")
# A value with a unit, which isn't in quotes.
UNIT = re.compile(r"\s*([A-Za-z_-]+)\s*=\s*([0-9][0-9.]*[A-Za-z]\w*)\s*(?:#.*)?")
# What nests, and what a key consists of; anything else is `other`. Texts and comments may be without an end.
TOKEN = re.compile(
    r"""\#[^\n]*|[.\[\]{}]|[ \t]+
    |"{3}(?:[^\\]|\\.)*?(?:"{3,5}|\Z)|'{3}.*?(?:'{3,5}|\Z)|"(?:[^"\\\n]|\\[^\n])*"?|'[^'\n]*'?
    |[^\s.\[\]{}"'#=,]+|(?P<other>[=,\s])""",
    re.DOTALL | re.VERBOSE,
)
# The program reads neither values that are nested deeper, nor keys of more parts.
MAX_NESTING = 80
# Python's module for TOML, and the package that it was before it became Python's.
READERS = ("tomllib", "tomli")
TYPE_NAMES = {
    bool: "true or false",
    int: "a number",
    float: "a number with a fraction",
    str: "a text",
    list: "a list",
    dict: "a table",
}


class NoReader(Exception):
    """Python has nothing that reads TOML: what to install."""


class NoToml(Exception):
    """A text that is no TOML, as Python says: the line, the column and the reason."""

    def __init__(self, line: int, column: int, what: str) -> None:
        super().__init__(f"line {line}, column {column}: {what}")
        self.line, self.column, self.what = line, column, what


class Section(NamedTuple):
    """A part of settings, from a header on: the number of its first line, that line, and which line sets which key
    first."""

    first: int
    header: str
    keys: dict[str, int]


class Channel(NamedTuple):
    """A table of settings that is a channel: its name for people, its lines where they are known, and its keys."""

    name: str
    section: Optional[Section]
    table: dict[str, Any]

    def line(self, key: str) -> Optional[int]:
        """The line that sets a key, or else that of the table's header."""
        return self.section.keys.get(key, self.section.first) if self.section else None

    def id(self) -> Optional[int]:
        """Its ID; None where it has none that a channel can have."""
        value = self.table.get("id")
        return None if number_fault(value, CHANNEL_KEYS["id"], "id") else value

    def path(self, key: str) -> Optional[str]:
        """The path that a key has, if it has one."""
        value = self.table.get(key)
        return value if isinstance(value, str) else None


class Settings(NamedTuple):
    """A document of settings, and the file that has it."""

    file: str
    document: dict[str, Any]
    channels: list[Channel]
    sections: list[Section]

    def line(self, key: str) -> Optional[int]:
        """The line that sets a key of the top: on its own, or as the first header of a table."""
        headers = (it.first for it in self.sections[1:] if named(HEADER_KEY, it.header) == key)
        return self.sections[0].keys.get(key) or next(headers, None)

    def line_in(self, table: str, key: str) -> Optional[int]:
        """The line that sets a key of a table, or else that of the table's header."""
        headed = (it for it in self.sections[1:] if named(HEADER_KEY, it.header) == table)
        return next((it.keys[key] for it in headed if key in it.keys), self.line(table))

    def recorded(self) -> list[Channel]:
        """The channels that may be recorded, where there are more."""
        return self.channels[:MAX_CHANNELS]

    def count_fault(self) -> Optional[str]:
        """What is wrong with how many channels there are."""
        count = len(self.channels)
        told = f"settings 5 Channels: {count} channels, and at most {MAX_CHANNELS} can be recorded"
        return told if count > MAX_CHANNELS else None


def reader() -> Callable[[str], dict[str, Any]]:
    """What reads a text as TOML."""
    for name in READERS:
        try:
            loads: Callable[[str], dict[str, Any]] = importlib.import_module(name).loads
            return loads
        except ImportError:
            continue
    raise NoReader(
        "this Python has no tomllib, which 3.11 is the first to have, and no tomli: apt-get install python3-tomli, "
        "or pip install tomli"
    )


def settings_of(file: str, text: str) -> Settings:
    """The settings that a text has, which the file `file` contains."""
    # The program passes over a mark of the byte order.
    text = text[1:] if text.startswith("\ufeff") else text
    loads = reader()
    judge_depth(text)
    try:
        document = loads(text)
    except (ValueError, RecursionError) as fault:
        raise syntax_fault(text, str(fault)) from None
    sections = sections_of(text)
    return Settings(file, document, channels_of(sections, document), sections)


def judge_depth(text: str) -> None:
    """Refuses what the program doesn't read as TOML, and on which Python's reader may take very long."""
    depth = dots = 0
    for found in TOKEN.finditer(text):
        token = found[0]
        if token == ".":
            dots += 1
        elif token in "[{":
            depth += 1
        elif token in "]}":
            depth -= 1
        dots = 0 if found["other"] else dots
        if depth > MAX_NESTING or dots >= MAX_NESTING:
            line = text.count("\n", 0, found.start()) + 1
            column = found.start() - text.rfind("\n", 0, found.start())
            what = "values are nested deeper than" if depth > MAX_NESTING else "the parts of a key are more than"
            raise NoToml(line, column, f"{what} {MAX_NESTING}")


def syntax_fault(text: str, fault: str) -> NoToml:
    """The line, the column and the reason of what Python says of a text that is no TOML."""
    found, lines = re.fullmatch(r"(.*) \(at line (\d+), column (\d+)\)", fault, re.DOTALL), text.split("\n")
    if found:
        unit = UNIT.fullmatch(lines[int(found[2]) - 1])
        advice = f': a value with a unit is in quotes, as {unit[1]} = "{unit[2]}"' if unit else ""
        return NoToml(int(found[2]), int(found[3]), f"{found[1]}{advice}")
    return NoToml(len(lines), len(lines[-1]) + 1, fault)


# ---- where keys stand


def sections_of(text: str) -> list[Section]:
    """The lines ahead of the first header, and then those of each header."""
    found = [Section(1, "", {})]
    for number, line in enumerate(text.split("\n"), 1):
        if HEADER.match(line):
            found.append(Section(number, line, {}))
        key = named(SET_KEY, line)
        if key is not None:
            found[-1].keys.setdefault(key, number)
    return found


def named(pattern: re.Pattern[str], line: str) -> Optional[str]:
    """The key that a line begins with."""
    found = pattern.match(line)
    return next((it for it in found.groups() if it is not None), None) if found else None


def channels_of(sections: list[Section], document: dict[str, Any]) -> list[Channel]:
    """The tables of the channels. Where they have no headers, each is in the line that sets `channel`."""
    tables = document.get("channel")
    tables = tables if isinstance(tables, list) else []
    headed = [section for section in sections[1:] if CHANNEL_HEADER.match(section.header)]
    line = sections[0].keys.get("channel")
    unheaded = None if line is None else Section(line, "", {})
    found = []
    for index, table in enumerate(tables):
        if isinstance(table, dict):
            section = headed[index] if len(headed) == len(tables) else unheaded
            found.append(Channel(name_of(table, index), section, table))
    return found


def name_of(table: dict[str, Any], index: int) -> str:
    """The name of a channel for people: by its ID, or by its place among the tables, from 1."""
    fault = number_fault(table.get("id"), CHANNEL_KEYS["id"], "id")
    return f"channel table {index + 1}" if fault else f"channel {table['id']}"


# ---- values


def number_fault(value: object, numbers: Optional[Range], key: str) -> Optional[str]:
    """What is wrong with the number of a key, in the words of `bpfrec record` and the reason."""
    if type(value) is not int or numbers is None:
        return f"settings 4 Value {key}: {type_of(value)}, and it must be a whole number"
    if not MIN_NUMBER <= value <= MAX_NUMBER:
        return f"settings 1 Syntax: {key} is past the numbers of 64 bits"
    if not numbers.least <= value <= numbers.most:
        return f"settings 4 Value {key}: {value} is not in {numbers.least} to {numbers.most}"
    return None


def type_of(value: object) -> str:
    """What a value is, for people."""
    return TYPE_NAMES.get(type(value), "a date or a time")
