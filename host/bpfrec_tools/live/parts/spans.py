"""The spans of channels, in ticks: how old a packet of frames gets until it is closed; 0 is none."""

from __future__ import annotations

from bpfrec.formats.limits import CHANNEL_KEYS, MAX_COUNTER, TICKS_A_SECOND
from bpfrec.formats.settings import Settings, number_fault
from bpfrec_tools.live.arguments import Arguments
from bpfrec_tools.live.kept.names import refused
from bpfrec_tools.live.operands import Route

# That of an interface where nobody says another.
USUAL_SPAN = TICKS_A_SECOND // 2


def spans_of(settings: Settings, given: Arguments) -> dict[int, int]:
    """The span of each channel: that of SETTINGS, and else of an interface that of --span."""
    captured = {it.channel for it in given.routes}
    usual = USUAL_SPAN if given.span is None else given.span
    ids = [(it.table.get("id"), it.table) for it in settings.channels]
    return {named: table.get("span", usual if named in captured else 0) for named, table in ids if type(named) is int}


def shortest_of(routes: list[Route], spans: dict[int, int]) -> dict[str, int]:
    """The shortest span of the channels of each interface, but where none of them has one: by it the capture writes time
    marks."""
    found: dict[str, int] = {}
    for interface, channel, _ in routes:
        span = spans.get(channel) or MAX_COUNTER
        found[interface] = min(span, found.get(interface, span))
    return {interface: span for interface, span in found.items() if span < MAX_COUNTER}


def judge_spans(settings: Settings) -> None:
    """Refuses a span of SETTINGS that the capture wouldn't take either."""
    for channel in settings.channels:
        fault = number_fault(channel.table.get("span", 0), CHANNEL_KEYS["span"], "span")
        if fault:
            raise refused(2, f"{settings.file}: {channel.name}: {fault}")
