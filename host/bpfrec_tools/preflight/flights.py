"""The flight of a run of live: each of its faults, and what it will do where it has none."""

from __future__ import annotations

from functools import partial
from typing import Callable, Iterator, Optional

from bpfrec.formats.names import Names
from bpfrec_tools.live.arguments import Arguments, Given, parser
from bpfrec_tools.live.flight import OUT, RUN, Fault, Flight, faults_of, is_given, option_words
from bpfrec_tools.live.kept.names import Refusal
from bpfrec_tools.live.operands import is_route, operands_of, route_of
from bpfrec_tools.preflight.report import LIVE, Report, place

# Stands for an OUT or an interface of which nothing but a fault is known.
UNKNOWN = "?"


def judge_flight(line: Given, flight: Flight, report: Report) -> set[str]:
    """Names the faults of a flight, which goes on as one without them: the keys that have some, or that are meant in the
    places of those."""
    faults: list[Fault] = []
    for found in (faults_of(flight, parser(), line.words), refused_values(flight, line.words)):
        for fault in list(found):
            report.fault(place(flight.settings.file, fault.line), fault.what)
            fault.table.pop(fault.key, None)
            faults.append(fault)
    known = [*flight.routes().values(), UNKNOWN]
    for fault in (it for it in faults if it.key == "interface"):
        fault.table[fault.key] = known[0]
    for channel in flight.settings.channels:
        # What is wrong with an ID is a fault of the settings.
        if channel.id() is None:
            channel.table.pop("interface", None)
    keys = {key for it in faults for key in (it.key, it.meant)}
    behind = line.operands[1:]
    if flight.out() is None and (not behind or is_route(behind[0])):
        if not keys & {RUN, OUT}:
            report.fault(LIVE, refusal_of(partial(operands_of, line.operands)))
        flight.settings.document.setdefault(RUN, {})[OUT] = UNKNOWN
    return keys


def refused_values(flight: Flight, given: list[str]) -> Iterator[Fault]:
    """The values that no interface has, or that an option refuses."""
    settings = flight.settings
    for channel in (it for it in settings.channels if "interface" in it.table):
        what = refusal_of(partial(route_of, f"{channel.table['interface']}={channel.id() or 1}"))
        if what:
            yield Fault(channel.line("interface"), channel.table, "interface", f"{channel.name}: {what}")
    for key, value in flight.run.items():
        for word in () if key == OUT or is_given(key, given) else option_words(key, value):
            what = refusal_of(partial(parser().parse_args, [word]))
            if what:
                yield Fault(settings.line_in(RUN, key), flight.run, key, what)


def refusal_of(call: Callable[[], object]) -> str:
    """What a call refuses; nothing where it refuses nothing."""
    try:
        call()
    except Refusal as refusal:
        return refusal.what()
    return ""


def interfaces_of(given: Arguments, flight: Optional[Flight]) -> list[str]:
    """The interfaces of a run, with those of channels whose ID another one has too; but none that isn't known."""
    routes = {it.channel: it.interface for it in given.routes}
    named = flight.routes() if flight else {}
    channels = [it for it in flight.settings.channels if it.path("interface")] if flight else []
    hidden = [it.table["interface"] for it in channels if named[it.table["id"]] == routes.get(it.table["id"])]
    return [it for it in dict.fromkeys([*routes.values(), *hidden]) if it != UNKNOWN]


def tell_flight(given: Arguments, flight: Flight, report: Report) -> None:
    """Says what will happen."""
    named = [f"{it.interface} as channel {it.channel}{flight.shown_name(it.channel)}" for it in given.routes]
    turns = [f", a new one after {given.every} s"] if given.every else []
    turns += [f", a new one at {given.size} bytes"] if given.size else []
    first = Names(given.out).next()[1] if given.is_rotating() else given.out
    lines = [f"records {', '.join(named)}"] if named else []
    lines += [f"into {first}{''.join(turns)}"]
    lines += [f"publishes to {it.address}" for it in given.targets]
    lines += [f"shows the status at {given.status}"] if given.status else []
    lines += [f"takes lines at {given.socket()}"] if given.socket() else []
    lines += [f"signs with {given.sign}"] if given.sign else []
    for line in lines:
        report.note(flight.settings.file, line)
