"""Several recordings that become one Chapter 11 file: the channels that they have in it, and what SETUP says of each."""

from __future__ import annotations

from collections import Counter
from contextlib import contextmanager
from typing import Any, Iterator, NamedTuple, Optional

from bpfrec.core.recordings import unique_ids
from bpfrec.formats.facts import WAS_SET_FAR, Origin, as_at_the_end_of_a_run, since_last_step
from bpfrec.formats.names import facts_path
from bpfrec_tools.chapter11.networks import Networks
from bpfrec_tools.chapter11.runs import Recorded
from bpfrec_tools.chapter11.setup import Asked, channels_of, holding, origins_of, text_with, told_by
from bpfrec_tools.cli import printing
from bpfrec_tools.cli.arguments import name_of
from bpfrec_tools.cli.streams import Refused


class Named(NamedTuple):
    """A channel of a run: the first recording that has it, and what it is called."""

    recorded: Recorded
    name: str


def channels_in(run: list[Recorded]) -> dict[int, Named]:
    """The channels of a run, by the order of its recordings and then of IDs. One without a name is called by its ID."""
    found: dict[int, Named] = {}
    for recorded in run:
        for channel in sorted(recorded.networks.found):
            found.setdefault(channel, Named(recorded, recorded.facts.shown_name(channel) or f"channel {channel}"))
    return found


def networks_in(run: list[Recorded]) -> dict[int, int]:
    """The network identifiers of a run's channels, by the first frame of each."""
    networks = Networks()
    for recorded in run:
        for channel, network in recorded.networks.found.items():
            networks.take(channel, network)
    return networks.of_all()


def renumbered(runs: list[list[Recorded]]) -> list[str]:
    """A line for each channel that gets another ID in the file."""
    channels = [(it.recorded.path, channel) for run in runs for channel, it in channels_in(run).items()]
    ids = unique_ids(channel for _, channel in channels)
    return [f"channel {old} of {path} is {new}\n" for (path, old), new in zip(channels, ids) if old != new]


def setup_of_several(runs: list[list[Recorded]], asked: Asked) -> str:
    """SETUP of the recordings of runs, with a table of each."""
    counts = Counter(it.name for run in runs for it in channels_in(run).values())
    recordings = [it for run in runs for it in run]
    hosts = " ".join(dict.fromkeys(it.facts.host for it in recordings))
    tables: list[dict[str, Any]] = []
    for run in runs:
        after: dict[str, int] = {}
        for times, channels in zip(times_of(run, asked.ahead), tables_of(run, counts)):
            place = len(tables)
            tables.append({**times, **after, **channels})
            after = {"after": place}
    return text_with({"recording": tables}, asked, told_by(recordings[0].facts)._replace(host=hosts))


def tables_of(run: list[Recorded], counts: Counter[str]) -> Iterator[dict[str, Any]]:
    """The channels of each recording of a run. A name that another channel has too, by these counts, has its host behind
    it."""
    networks, names = networks_in(run), {}
    for channel, (recorded, name) in channels_in(run).items():
        names[channel] = name if counts[name] == 1 else f"{name} of {recorded.facts.host}"
    for recorded in run:
        yield channels_of(names, {it: networks[it] for it in recorded.networks.found})


def times_of(run: list[Recorded], ahead: Optional[int]) -> list[dict[str, Any]]:
    """The origins of each recording of a run. Where a clock was set far the program would refuse the file, so those before
    that are left out, also of recordings before, and a line says so."""
    *_, latest = run
    last = since_last_step(held_of(latest, ahead), ahead or 0)
    return [times_beside(it, last, ahead) for it in run]


def times_beside(recorded: Recorded, last: list[Origin], ahead: Optional[int]) -> dict[str, Any]:
    """The origins of a recording of a run whose last one has these."""
    held = held_of(recorded, ahead)
    found = as_at_the_end_of_a_run(since_last_step(held, ahead or 0), last, ahead or 0)
    if found != held:
        printing.err(f"{name_of('export')}: {facts_path(recorded.path)}: {WAS_SET_FAR}")
    with named(recorded):
        return origins_of(found)


def held_of(recorded: Recorded, ahead: Optional[int]) -> list[Origin]:
    """The origins of a recording that hold for some counter."""
    with named(recorded):
        return holding(told_by(recorded.facts), ahead)


@contextmanager
def named(recorded: Recorded) -> Iterator[None]:
    """Has a refusal name the facts of a recording."""
    try:
        yield
    except Refused as refused:
        raise Refused(f"{facts_path(recorded.path)}: {refused}") from None
