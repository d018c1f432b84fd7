"""The channels of recordings: which recordings have one in common, and the IDs of those that meet."""

from __future__ import annotations

import operator
from typing import Iterable, Iterator, NamedTuple, Optional, Union

from bpfrec.core.index import Place
from bpfrec.core.recordings import Recorder, unique_ids
from bpfrec.core.times import places_in
from bpfrec.errors import UnknownChannel
from bpfrec.formats.body import Range
from bpfrec.sources import Source
from bpfrec.values import Channel

# A channel of a recorder, by its ID there.
Key = tuple[int, Recorder]
# What names channels, one or several; None all.
Named = Union[int, str, Channel]
Asked = Union[Named, Iterable[Named], None]
# The counters that are chosen of a recording; None all.
Ranges = Optional[list[Range]]


class Part(NamedTuple):
    """What a recording has of a channel: its packets of frames, and the counters that are chosen."""

    source: Source
    channel: int
    recorded_as: int
    places: list[Place]
    ranges: Ranges = None

    def sliced(self, ranges: list[Ranges]) -> list[Part]:
        """The same of the counters that are chosen of each recording; none where no packet is left."""
        mine = ranges[self.source.number]
        if mine is None:
            return [self]
        places = places_in(self.places, mine) if mine else []
        return [self._replace(places=places, ranges=mine)] if places else []


class Channels:
    """All channels of the recordings that are open, whose headers are read for that, and their parts in each."""

    def __init__(self, sources: tuple[Source, ...]) -> None:
        self.sources = sources
        found: dict[Key, list[Source]] = {}
        for source in sources:
            source.index.read()
            for number in sorted(source.index.channels):
                found.setdefault((number, source.recording.recorder_of(number)), []).append(source)
        self.ids = dict(zip(found, unique_ids(number for number, _ in found)))
        self.ids_in = {(it.number, key[0]): self.ids[key] for key, members in found.items() for it in members}
        self.all = tuple(sorted((self.channel(*it) for it in found.items()), key=lambda channel: channel.id))
        # As a capture merges them: by the IDs in the recordings, then as these were given.
        in_order = sorted(found.items(), key=lambda entry: entry[0][0])
        self.parts = [part for key, members in in_order for part in self.parts_of(key, members)]

    def channel(self, key: Key, members: list[Source]) -> Channel:
        """A channel, by the recordings that have it."""
        number, recorder = key
        known, interface = members[0].facts, members[0].recording.interface_of(number)
        name = (known and known.names.get(number)) or interface or f"channel {self.ids[key]}"
        host = recorder.source if known else ""
        return Channel(self.ids[key], name, host, number, tuple(it.path for it in members), interface)

    def parts_of(self, key: Key, members: list[Source]) -> Iterator[Part]:
        """The parts of a channel."""
        for source in members:
            yield Part(source, self.ids[key], key[0], source.index.channels[key[0]].packets)

    def id_of(self, source: Source, number: int) -> int:
        """The ID of a channel that a recording has by this number."""
        return self.ids_in[source.number, number]

    def asked(self, channels: Asked) -> set[int]:
        """The IDs of the channels that are asked for by their IDs, names or interfaces."""
        if channels is None:
            return {it.id for it in self.all}
        return {number for named in each_of(channels) for number in self.ids_of(named)}

    def ids_of(self, named: Named) -> set[int]:
        """The IDs of the channels that have an ID, a name or an interface."""
        if isinstance(named, str):
            found, asked = {it.id for it in self.all if named in (it.name, it.interface)}, f"named {named}"
            if named.isdecimal():
                asked += "; an ID is given as an int"
        else:
            number = number_of(named)
            found, asked = {it.id for it in self.all if it.id == number}, f"{number}"
        if not found:
            raise UnknownChannel(" ".join(it.path for it in self.sources), f"no channel {asked}")
        return found


def each_of(channels: Union[Named, Iterable[Named]]) -> Iterable[Named]:
    """What names each of the channels that are asked for."""
    # Bytes would be several numbers.
    if isinstance(channels, (bytes, bytearray)):
        raise wrong_type(channels)
    return [channels] if isinstance(channels, str) or not isinstance(channels, Iterable) else channels


def number_of(named: Union[int, Channel]) -> int:
    """The ID that names a channel, of any type of integers, as numpy has its own."""
    try:
        return named.id if isinstance(named, Channel) else operator.index(named)
    except TypeError:
        raise wrong_type(named) from None


def wrong_type(named: object) -> TypeError:
    """The refusal of what names no channel."""
    what = "a channel's ID as an int, its name as a str, a Channel, or several of these"
    return TypeError(f"channels takes {what}, not {named!r}")
