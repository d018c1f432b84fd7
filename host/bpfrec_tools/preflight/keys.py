"""The settings, key by key, as `bpfrec record` judges them."""

from __future__ import annotations

import os
import tempfile
from pathlib import Path
from typing import Callable, Optional

from bpfrec.formats.answers import SETTINGS_SYNTAX
from bpfrec.formats.limits import CHANNEL_KEYS, MAX_CHANNELS, MAX_KNOWN_SPEED, TOP_KEYS
from bpfrec.formats.settings import Channel, NoReader, NoToml, Settings, number_fault, settings_of, type_of
from bpfrec_tools.cli import program
from bpfrec_tools.cli.files import Unread, kind_of, read_text
from bpfrec_tools.preflight.report import NotJudged, Report, place

# So many keys that aren't known are named.
MOST_UNKNOWN = 100


def read_settings(file: str, report: Report) -> Optional[Settings]:
    """The settings of a file; None where they can't be read, which is told."""
    try:
        if kind_of(file) == "pipe":
            raise NotJudged(f"{file} is a pipe and was not opened")
        text = read_text(file)
        return settings_of(file, text)
    except Unread as unread:
        report.fault(file, f"file {file}: {unread}")
    except NoReader as missing:
        raise NotJudged(str(missing)) from None
    except NoToml as fault:
        what = f"column {fault.column}: {fault.what}"
        if is_toml_to_program(text):
            told = f"column {fault.column}: bpfrec reads this, and Python's tomllib doesn't: {fault.what}"
            raise NotJudged(f"{place(file, fault.line)}: {told}") from None
        report.fault(place(file, fault.line), f"{SETTINGS_SYNTAX}: {what}")
    return None


def is_toml_to_program(text: str) -> bool:
    """Whether the program reads a text as TOML, as it does with what is new in TOML 1.1.

    A key ahead of the text, which means nothing and is the least of all, is refused before any file is
    opened.
    """
    text = text[1:] if text.startswith("\ufeff") else text
    with tempfile.TemporaryDirectory() as folder:
        settings = Path(folder) / "settings.toml"
        settings.write_text('"" = 0\n' + text, encoding="utf-8")
        return program.answer_of(program.run("record", str(settings), os.devnull)) != SETTINGS_SYNTAX


def judge_top(settings: Settings, report: Report) -> None:
    """The keys of the top, in the order in which `record` judges them."""
    document = settings.document

    def at(key: str) -> str:
        return place(settings.file, settings.line(key))

    report_unknown(set(document) - set(TOP_KEYS) - {"channel"}, at, report)
    for key, numbers in TOP_KEYS.items():
        fault = number_fault(document.get(key, numbers.default), numbers, key)
        if fault:
            report.fault(at(key), fault)
    tables = document.get("channel", [])
    if not isinstance(tables, list) or len(settings.channels) < len(tables):
        report.fault(at("channel"), "settings 4 Value channel: each channel must be a table, as [[channel]] begins it")
    elif not tables:
        report.fault(at("channel"), "settings 5 Channels: no [[channel]]")
    elif settings.count_fault():
        report.fault(place_in(settings, settings.channels[MAX_CHANNELS], "id"), settings.count_fault() or "")


def report_unknown(unknown: set[str], at: Callable[[str], str], report: Report) -> None:
    """Keys that aren't known, of which the rest is counted."""
    named = sorted(unknown)
    for key in named[:MOST_UNKNOWN]:
        report.fault(at(key), f"settings 2 Unknown {key}")
    if left := named[MOST_UNKNOWN:]:
        report.fault(at(left[0]), f"settings 2 Unknown {left[0]}, and {len(left) - 1} more keys")


def place_in(settings: Settings, channel: Channel, key: str) -> str:
    """Where a key of a channel is set, or else its table's header."""
    return place(settings.file, channel.line(key), channel.name)


def judge_channel_keys(settings: Settings, channel: Channel, report: Report) -> None:
    """The keys of a channel, in the order in which `record` judges them."""
    report_unknown(set(channel.table) - set(CHANNEL_KEYS), lambda key: place_in(settings, channel, key), report)
    for key in CHANNEL_KEYS:
        fault = channel_key_fault(channel, key)
        if fault:
            report.fault(place_in(settings, channel, key), fault)
    speed = channel.table.get("speed", 0)
    if not number_fault(speed, CHANNEL_KEYS["speed"], "speed") and speed > MAX_KNOWN_SPEED:
        what = f"speed {speed} is reserved in Chapter 11, so a ground station may not take it"
        report.note(place_in(settings, channel, "speed"), what)


def channel_key_fault(channel: Channel, key: str) -> Optional[str]:
    """What is wrong with a key of a channel."""
    numbers = CHANNEL_KEYS[key]
    if key not in channel.table:
        must_be_set = numbers is None or numbers.default is None
        return f"settings 3 Missing {key}" if must_be_set else None
    if numbers is not None:
        return number_fault(channel.table[key], numbers, key)
    if channel.path(key) is None:
        return f"settings 4 Value {key}: {type_of(channel.table[key])}, and it must be a path in quotes"
    return None


def judge_ids(settings: Settings, report: Report) -> None:
    """Two channels of the same ID."""
    seen = set()
    for channel in settings.channels:
        channel_id = channel.table.get("id")
        if number_fault(channel_id, CHANNEL_KEYS["id"], "id"):
            continue
        if channel_id in seen:
            report.fault(place_in(settings, channel, "id"), f"settings 6 SameChannel {channel_id}")
        seen.add(channel_id)
