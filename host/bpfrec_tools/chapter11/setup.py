"""SETUP of `bpfrec chapter11`: what a whole Chapter 11 file says beside the packets of its recording. Its times are those
of the facts, which the program reads."""

from __future__ import annotations

import re
from typing import Any, NamedTuple, Optional

from bpfrec.formats import facts
from bpfrec.formats.facts import TAI, UTC, Facts, Origin
from bpfrec.formats.settings_text import text_of
from bpfrec_tools.cli.streams import Refused

MAX_ORIGINS = 65_536
UNKNOWN = "unknown"
# What no text in UTF-8 has.
SURROGATE, REPLACEMENT = re.compile("[\ud800-\udfff]"), "\ufffd"


class Told(NamedTuple):
    """What facts say for a setup record: the host, the recorder, the origins and the names of interfaces."""

    host: str
    program: str
    origins: list[Origin]
    interfaces: dict[int, str]


class Asked(NamedTuple):
    """What the command line says of a file: the origin where there are no facts, how many seconds a clock is ahead of
    UTC whose scale nobody knows, whether an outside source held it, and attributes of the setup record."""

    origin: Optional[str] = None
    ahead: Optional[int] = None
    is_external: bool = False
    attributes: tuple[str, ...] = ()


def told_by(known: Facts) -> Told:
    """The same of facts that were read."""
    return Told(known.host, known.program, known.origins, known.shown_names())


def setup_text(asked: Asked, known: Optional[Told], networks: dict[int, int]) -> str:
    """SETUP of a recording, by the facts and the network identifiers of its channels."""
    times = origins_of(holding(known, asked.ahead)) if known else {"origin": asked.origin}
    return text_with({**times, **channels_of(known.interfaces if known else {}, networks)}, asked, known)


def text_with(recorded: dict[str, Any], asked: Asked, known: Optional[Told]) -> str:
    """SETUP of what is said of recordings, and what the file says besides."""
    found: dict[str, Any] = {**scale_of(asked.ahead), **recorded}
    if known:
        found["host"] = plain(known.host)
    if known and known.program:
        found["program"] = plain(known.program)
    if asked.is_external:
        found["external"] = True
    if asked.attributes:
        found["attributes"] = list(asked.attributes)
    return text_of(found)


def scale_of(ahead: Optional[int]) -> dict[str, Any]:
    """The scale of origins that say none."""
    if ahead is None:
        return {}
    return {"scale": TAI, "tai_offset": ahead} if ahead else {"scale": UTC}


def holding(known: Told, ahead: Optional[int]) -> list[Origin]:
    """The origins that hold for some counter; the first holds from counter 0 on. One whose scale nobody knows is
    refused."""
    first, *others = known.origins
    held = facts.holding([first._replace(counter=0), *others])
    unknown = next((it for it in held if not it.scale), None)
    if unknown and ahead is None:
        place = f"the origin from counter {unknown.counter} on"
        raise Refused(f"{place}: its scale is unknown: --utc says that it is UTC, and --tai 37 that it is 37 s ahead")
    return held


def origins_of(held: list[Origin]) -> dict[str, Any]:
    """The origins of a recording."""
    if len(held) > MAX_ORIGINS:
        raise Refused(f"{len(held)} origins, and SETUP takes {MAX_ORIGINS} at most")
    return {"origins": [origin_table(it) for it in held]}


def origin_table(origin: Origin) -> dict[str, Any]:
    """An origin as the facts have it."""
    found: dict[str, Any] = {"counter": origin.counter, "origin": origin.text}
    if origin.scale == TAI:
        return {**found, "scale": TAI, "tai_offset": origin.tai_offset}
    return found if origin.scale else {**found, "scale": UNKNOWN}


def channels_of(names: dict[int, str], networks: dict[int, int]) -> dict[str, Any]:
    """The channels that have a network identifier, with their names."""
    tables: list[dict[str, Any]] = []
    for channel, network in sorted(networks.items()):
        table: dict[str, Any] = {"id": channel}
        if channel in names:
            table["name"] = plain(names[channel])
        if network:
            table["net"] = network
        tables.append(table)
    return {"channel": tables} if tables else {}


def plain(text: str) -> str:
    """A text with a character of its own for each that UTF-8 hasn't."""
    return SURROGATE.sub(REPLACEMENT, text)
