"""The settings of a flight: a TOML with a table [run], whose keys are the options of live, and channels that name their
interfaces."""

from __future__ import annotations

import argparse
import os
import re
from typing import Any, Iterator, NamedTuple, Optional

from bpfrec.formats.settings import Channel, NoReader, NoToml, Settings, settings_of, type_of
from bpfrec_tools.cli.arguments import Parser, meant_by, nearest, no_channel
from bpfrec_tools.cli.files import STREAM, Unread, read_text
from bpfrec_tools.cli.quantities import ticks
from bpfrec_tools.live.kept.names import refused
from bpfrec_tools.live.operands import is_channel_id, is_route

RUN, OUT, SPAN = "run", "out", "span"
# What a channel has beside what record takes.
OF_CHANNEL = ("interface", "name")


class Fault(NamedTuple):
    """What is wrong with a key of a flight: its line where it is known, the table that has it, what, for people, and the
    key that is meant, where that is another one."""

    line: Optional[int]
    table: dict[str, Any]
    key: str
    what: str
    meant: str = ""


class Flight(NamedTuple):
    """What a flight's settings say beside those of record."""

    settings: Settings

    @property
    def run(self) -> dict[str, Any]:
        """Its [run]; empty where that is no table."""
        found = self.settings.document.get(RUN)
        return found if isinstance(found, dict) else {}

    def routes(self) -> dict[int, str]:
        """Which interface is which channel."""
        return texts_of(self.settings, "interface")

    def names(self) -> dict[int, str]:
        """The names of channels."""
        return texts_of(self.settings, "name")

    def shown_name(self, channel: int) -> str:
        """The name of a channel behind its ID; nothing where it has none."""
        return f" ({self.names()[channel]})" if channel in self.names() else ""

    def out(self) -> Optional[str]:
        """The OUT that it names."""
        found = self.run.get(OUT)
        return str(found) if is_value(found) else None


def without_flight(settings: Settings) -> Settings:
    """The settings as record takes them."""
    is_flight = flight_of(settings) is not None
    settings.document.pop(RUN, None)
    for channel in settings.channels:
        for key in OF_CHANNEL:
            channel.table.pop(key, None)
        if channel.path(SPAN) and (is_flight or not span_fault(channel)):
            # Of a flight what is wrong with it was said.
            channel.table[SPAN] = 0 if span_fault(channel) else ticks(channel.table[SPAN])
    return settings


def flight_of(settings: Settings) -> Optional[Flight]:
    """What settings say of a flight; None where they are those of record."""
    is_named = any(key in it.table for it in settings.channels for key in OF_CHANNEL)
    return Flight(settings) if RUN in settings.document or is_named else None


def texts_of(settings: Settings, key: str) -> dict[int, str]:
    """The texts that channels have for a key, by their IDs."""
    tables = [it.table for it in settings.channels if type(it.table.get("id")) is int]
    return {it["id"]: it[key] for it in tables if is_name(it.get(key))}


def flight_at(path: str) -> Optional[Flight]:
    """The flight of a file; None where it is none, or can't be read, which is said later."""
    if path != STREAM and not (path.endswith(".toml") and os.path.isfile(path)):
        return None
    try:
        return flight_of(settings_of(path, read_text(path)))
    except (Unread, NoReader, NoToml):
        return None


def read_toml(path: str) -> tuple[str, Settings]:
    """The text of SETTINGS and what it says; a Refusal where it can't be read."""
    try:
        text = read_text(path)
        return text, settings_of(path, text)
    except Unread as why:
        raise refused(3, f"{path}: {why}") from None
    except NoReader as why:
        raise refused(3, str(why)) from None
    except NoToml as fault:
        raise refused(2, f"{path}: settings 1 Syntax: {fault}") from None


# ---- what is wrong


def faults_of(flight: Flight, made: Parser, given: list[str]) -> Iterator[Fault]:
    """What is wrong with a flight, but for values that an option refuses, and what the command line has in its place."""
    settings, what = flight.settings, run_fault(flight.settings)
    if what:
        yield Fault(settings.line(RUN), settings.document, RUN, what)
    for key in OF_CHANNEL:
        for channel in settings.channels:
            value = channel.table.get(key)
            if value is not None and not is_name(value):
                what = f"{channel.name}: {key}: {type_of(value)}, and it must be a name in quotes"
                yield Fault(channel.line(key), channel.table, key, what)
    for channel in settings.channels:
        if what := span_fault(channel):
            yield Fault(channel.line(SPAN), channel.table, SPAN, f"{channel.name}: {SPAN}: {what}")
    for channel, what in name_faults(settings):
        yield Fault(channel.line("name"), channel.table, "name", f"{channel.name}: name: {what}")
    for key, value in flight.run.items():
        what = key_fault(key, value, made, given)
        if what:
            meant = meant_by(key, keys_of(made))
            yield Fault(settings.line_in(RUN, key), flight.run, key, f"[run] {what}", meant)


def span_fault(channel: Channel) -> str:
    """What is wrong with a span that is a time, as 20ms."""
    try:
        ticks(channel.path(SPAN) or "0")
    except argparse.ArgumentTypeError as fault:
        return str(fault)
    return ""


def name_faults(settings: Settings) -> Iterator[tuple[Channel, str]]:
    """What is wrong with names by which lines would find another channel."""
    taken = {it.table["interface"]: it for it in settings.channels if is_name(it.table.get("interface"))}
    for channel in settings.channels:
        name = channel.path("name")
        if name is None or not is_name(name):
            continue
        other = taken.setdefault(name, channel)
        if name.strip().isdecimal():
            yield channel, f"{name} is a number, as IDs are"
        elif other is not channel:
            yield channel, f"{name} names {other.name} too"


def run_fault(settings: Settings) -> str:
    """What is wrong with a [run] that is no table."""
    run = settings.document.get(RUN, {})
    return "" if isinstance(run, dict) else f"run: {type_of(run)}, and it must be a table, as [run] begins it"


def keys_of(made: Parser) -> list[str]:
    """The keys of [run]: the options of live, and OUT."""
    return [it[2:].replace("-", "_") for it in made._option_string_actions if it[1] == "-" and it != "--help"] + [OUT]


def key_fault(key: str, value: Any, made: Parser, given: list[str]) -> str:
    """What is wrong with a key of [run]; nothing of one that the command line has too."""
    known = keys_of(made)
    if key not in known:
        return f"has no key {key}{nearest(key, known)}"
    if is_given(key, given):
        return ""
    if key != OUT and made._option_string_actions[option_of(key)].nargs == 0:
        return "" if isinstance(value, bool) else f"{key}: {type_of(value)}, and it must be true or false"
    values = value if isinstance(value, list) and key != OUT else [value]
    wrong = next((type_of(it) for it in values if not is_value(it)), None)
    return f"{key}: {wrong}, and it must be a text or a number" if wrong else ""


def is_name(value: Any) -> bool:
    """Whether a value may be that of a channel's name or interface."""
    return isinstance(value, str) and bool(value.strip()) and value.isprintable()


def is_value(value: Any) -> bool:
    """Whether a value may be that of an option which is no switch."""
    return isinstance(value, (str, int, float)) and not isinstance(value, bool)


# ---- as a command line


def option_of(key: str) -> str:
    """The option that a key of [run] is."""
    return f"--{key.replace('_', '-')}"


def is_given(key: str, given: list[str]) -> bool:
    """Whether a command line has the option of a key."""
    return any(it.partition("=")[0] == option_of(key) for it in given)


def words_of(flight: Flight, given: list[str]) -> list[str]:
    """The options that [run] gives, as words, but for those that the command line has."""
    asked = [(key, value) for key, value in flight.run.items() if key != OUT and not is_given(key, given)]
    return [word for key, value in asked for word in option_words(key, value)]


def option_words(key: str, value: Any) -> list[str]:
    """An option with its value, once for each value of a list; a switch where it is true."""
    values = value if isinstance(value, list) else [value]
    return [option_of(key) if it is True else f"{option_of(key)}={it}" for it in values if it is not False]


def by_ids(flight: Flight, operands: list[str]) -> list[str]:
    """The operands with the IDs of channels in the places of their names, as eth0=1 for eth0=bus A."""
    ids = {name: channel for channel, name in flight.names().items()}
    # A name may have a colon, and one may begin as another does.
    names = "|".join(map(re.escape, sorted(ids, reverse=True)))
    parts = [re.fullmatch(rf"([^=]+=)((?:{names})(?=:|$)|[^:]*)(.*)", it, re.DOTALL) for it in operands]
    for found in filter(None, parts[2:]):
        if ids and found[2] not in ids and not is_channel_id(found[2]):
            known = ((it.id() or 0, it.path("name") or "") for it in flight.settings.channels)
            raise refused(2, f"{found[0]}: {no_channel(found[2], known)}")
    return [f"{found[1]}{ids.get(found[2], found[2])}{found[3]}" if found else it for it, found in zip(operands, parts)]


def operands_with(flight: Flight, operands: list[str]) -> list[str]:
    """SETTINGS, OUT and the interfaces: those of the command line, and of the flight what it doesn't name."""
    settings, *rest = operands
    out = flight.out()
    if out is not None and (not rest or is_route(rest[0])):
        rest = [out, *rest]
    given = {it.partition("=")[2].partition(":")[0] for it in rest[1:]}
    named = [f"{interface}={channel}" for channel, interface in flight.routes().items() if str(channel) not in given]
    return [settings, *rest, *named] if rest else operands
