"""The operands of live: SETTINGS OUT INTERFACE=CHANNEL.., or OUT INTERFACE.. where all frames are wanted."""

from __future__ import annotations

import os
import re
import socket
from typing import NamedTuple, Optional

from bpfrec.formats.limits import MAX_CHANNEL_ID
from bpfrec.formats.packet import SYNC
from bpfrec_tools.cli.arguments import name_of
from bpfrec_tools.cli.files import STREAM
from bpfrec_tools.live.kept.names import refused

# A name of an interface has neither `=` nor `/`; in its place may stand a capture, by its ending.
ROUTE = re.compile(
    r"(?P<interface>[^=]+\.(?:pcap|pcapng|cap)|[^=/\s]+)(?:=(?P<channel>[^:]*)(?::(?P<expression>.*))?)?", re.DOTALL
)
# An expression in the place of a channel.
BARE = re.compile(r"([^=:/\s]+)(?::(?=.*[a-z])(?!.*=[0-9]+(?::|$))|=(?=[^:]*\s))(.+)", re.DOTALL)
CAPTURES = (".pcap", ".pcapng", ".cap")
CHANNEL_ID = re.compile(r"[1-9][0-9]{0,4}")


class Route(NamedTuple):
    """An interface, the channel that it is, and the expression of tcpdump that is its filter, where one is given."""

    interface: str
    channel: int
    expression: Optional[str] = None

    def is_capture(self) -> bool:
        """Whether it is a capture, in the place of an interface."""
        return self.interface.endswith(CAPTURES)


class Operands(NamedTuple):
    """SETTINGS, which are None where all frames are wanted; OUT; and which interface is which channel."""

    settings: Optional[str]
    out: str
    routes: list[Route]


def operands_of(operands: list[str]) -> Operands:
    """What the operands say; a Refusal names what is missing or wrong."""
    help_text = f"{name_of('live')} --help has its arguments"
    if not operands or (len(operands) == 1 and names_settings(operands)):
        if operands and operands[0] != STREAM and not os.path.lexists(operands[0]):
            raise refused(3, f"{operands[0]}: no such file")
        raise refused(2, f"it takes SETTINGS and OUT: {help_text}")
    refuse_expressions(operands)
    if names_settings(operands):
        settings, out, *rest = operands
        refuse_interface(settings, 3)
        if settings != STREAM and not os.path.lexists(settings) and any("=" not in it for it in rest):
            raise refused(3, f"{settings}: no such file")
        refuse_capture(out)
        if is_route(out):
            raise refused(2, f"OUT is missing: it stands between {settings} and {out}")
        return Operands(settings, dashed(out), routes_of(rest))
    out, *rest = operands
    refuse_interface(out, 2)
    refuse_capture(out)
    if not rest:
        raise refused(2, f"an INTERFACE is missing: it stands behind {out}")
    twice = next((it for it in rest if "=" not in it and rest.count(it) > 1), None)
    if twice:
        raise refused(2, f"{twice} is given twice")
    return Operands(None, dashed(out), routes_of(numbered(rest)))


def refuse_expressions(operands: list[str]) -> None:
    """Refuses an expression that has no channel ahead of it, or isn't one argument."""
    rest = operands[2 if is_settings(operands[0]) else 1 :]
    for found in filter(None, (BARE.fullmatch(it) for it in rest if not os.path.lexists(it))):
        raise refused(2, f"{found[0]}: a channel stands ahead of an expression: {found[1]}=1:'{found[2]}'")
    others = [it for it in rest if not is_route(it)]
    route = ROUTE.fullmatch(rest[-len(others) - 1]) if 1 < len(others) < len(rest) else None
    if route and rest[-len(others) :] == others:
        words = " ".join(filter(None, [route["expression"], *others]))
        form = f"{route['interface']}={route['channel'] or 1}:'{words}'"
        raise refused(2, f"{others[0]}: an expression is one argument, with its interface: {form}")


def refuse_interface(operand: str, status: int) -> None:
    """Refuses an interface that is here in the place of SETTINGS or OUT."""
    found = ROUTE.fullmatch(operand)
    if found and is_interface(found["interface"]) and not os.path.lexists(operand):
        raise refused(status, f"{operand} is an interface: SETTINGS, OUT, then interfaces")


def refuse_capture(out: str) -> None:
    """Refuses a capture in the place of OUT."""
    if out.endswith(CAPTURES):
        raise refused(2, f"{out}: OUT is a recording, as flight.ch11, of which bpfrec export makes a capture")


def dashed(out: str) -> str:
    """OUT as a path that no program takes for an option."""
    if out == "-":
        raise refused(2, "-: OUT is a file or a named pipe, since standard output has the report")
    return f"./{out}" if out.startswith("-") else out


def names_settings(operands: list[str]) -> bool:
    """Whether the first operand is SETTINGS, and not OUT: by its ending, by what it is, or by the operands behind it."""
    first, *rest = operands
    if first == STREAM:
        return not rest or not is_route(rest[0])
    if first.endswith((".toml", ".ch11", ".ch10")) or os.path.isfile(first):
        return is_settings(first)
    return not all(is_route(it) for it in rest)


def is_settings(path: str) -> bool:
    """Whether a path is that of SETTINGS, by its ending or by what it is; standard input is."""
    if path == STREAM:
        return True
    if path.endswith((".toml", ".ch11", ".ch10")):
        return path.endswith(".toml")
    return os.path.isfile(path) and not is_recording(path)


def is_recording(path: str) -> bool:
    """Whether a file is a recording, also one that is empty yet."""
    try:
        with open(path, "rb") as file:
            return file.read(len(SYNC)) in (b"", SYNC)
    except OSError:
        return False


def is_route(operand: str) -> bool:
    """Whether an operand is an interface with its channel, or an interface that is here."""
    found = ROUTE.fullmatch(operand)
    if not found:
        return False
    if found["interface"].endswith(CAPTURES):
        return True
    if os.path.lexists(operand):
        return False
    return is_channel_id(found["channel"] or "") or is_interface(found["interface"])


def is_channel_id(operand: str) -> bool:
    """Whether an operand is a channel ID."""
    return CHANNEL_ID.fullmatch(operand) is not None and int(operand) <= MAX_CHANNEL_ID


def is_interface(name: str) -> bool:
    """Whether there is an interface of this name."""
    try:
        return socket.if_nametoindex(name) > 0
    except (OSError, ValueError):
        return False


def numbered(operands: list[str]) -> list[str]:
    """Interfaces with channels: those that have none get the lowest that no other one has, in their order."""
    taken = {found["channel"] for found in map(ROUTE.fullmatch, operands) if found}
    free = (str(it) for it in range(1, len(operands) + len(taken) + 1) if str(it) not in taken)
    return [it if "=" in it else f"{it}={next(free)}" for it in operands]


def routes_of(operands: list[str]) -> list[Route]:
    """Which interface is which channel."""
    routes: list[Route] = []
    for operand in operands:
        route = route_of(operand)
        if any(it.channel == route.channel for it in routes):
            raise refused(2, f"channel {route.channel} has two interfaces")
        routes.append(route)
    if len({it.is_capture() for it in routes}) > 1:
        raise refused(2, "captures and interfaces have runs of their own")
    return routes


def route_of(operand: str) -> Route:
    """The interface, the channel and the expression of an operand."""
    found = ROUTE.fullmatch(operand)
    if not found:
        raise refused(2, f"no INTERFACE=CHANNEL: {operand}")
    interface, channel, expression = found["interface"], found["channel"], found["expression"]
    if os.path.isfile(interface) and not interface.endswith(CAPTURES) and not is_interface(interface):
        raise refused(2, f"{interface} is a file: captures end in {', '.join(CAPTURES)}")
    if interface.startswith("-"):
        raise refused(2, f"{interface}: the name of an interface doesn't begin with -")
    if channel is None:
        raise refused(2, f"{operand}: with SETTINGS name its channel, as {operand}=1")
    if not is_channel_id(channel):
        raise refused(2, f"{operand}: a channel ID is 1 to {MAX_CHANNEL_ID}")
    if expression is not None and not expression.strip():
        raise refused(2, f"{interface}={channel}: the expression is empty")
    return Route(interface, int(channel), expression)
