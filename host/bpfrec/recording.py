"""A recording that is open, or several, and what they are asked for."""

from __future__ import annotations

import operator
import os
from datetime import datetime, timedelta
from functools import cached_property
from types import TracebackType
from typing import BinaryIO, Iterable, Iterator, NoReturn, Optional, Union

from bpfrec.channels import Asked, Channels
from bpfrec.errors import Fault
from bpfrec.formats.listing import listing_of
from bpfrec.formats.names import all_of
from bpfrec.reading import Reading, Taken
from bpfrec.sources import Given, Path, Source, opened
from bpfrec.values import EPOCH, NANOSECONDS_A_MICROSECOND, Channel, End, Facts, Filter, Frame

Moment = Union[int, datetime, None]


class Recording:
    """A recording, or several as one; `bpfrec.open` makes it.

    It iterates its frames, each time from the first one on, as often as it is asked to. It closes its files where a
    `with` ends, by `close`, and when nothing refers to it any more. A file that was given open is left so.
    Headers of packets are read as far as the frames that are asked for, and all of them where channels, filters, ends,
    a slice or an order by time are."""

    _sources: tuple[Source, ...] = ()

    def __init__(self, sources: Iterable[Source], given: Iterable[object] = ()) -> None:
        self._sources, self._given = tuple(sources), tuple(given)

    def __enter__(self) -> Recording:
        return self

    def __exit__(
        self, _: Optional[type[BaseException]], __: Optional[BaseException], ___: Optional[TracebackType]
    ) -> None:
        self.close()

    def __del__(self) -> None:
        self.close()

    def __reduce__(self) -> NoReturn:
        # A copy would close the files of this one.
        raise TypeError(f"{self!r} can't be copied: open it again")

    def __iter__(self) -> Iterator[Frame]:
        return iter(self.frames())

    def __repr__(self) -> str:
        return f"<bpfrec.Recording {' '.join(self.paths)}>"

    def close(self) -> None:
        """Closes its files; no frame can be read any more."""
        for source in self._sources:
            source.file.is_closed = True
            if source.file.file not in self._given:
                source.file.file.close()

    @property
    def paths(self) -> tuple[str, ...]:
        """The files of the recordings, as they were given."""
        return tuple(it.path for it in self._sources)

    @cached_property
    def _channels(self) -> Channels:
        return Channels(self._sources)

    @property
    def channels(self) -> tuple[Channel, ...]:
        """The channels, by their IDs."""
        return self._channels.all

    @cached_property
    def filters(self) -> tuple[Filter, ...]:
        """The programs of all channels' filters, by the channels' IDs and in the order of the recording: each is in
        force until the next one of its channel."""
        found = [it for source in self._sources for it in self._filters_of(source)]
        return tuple(sorted(found, key=lambda it: it.channel))

    @cached_property
    def ends(self) -> tuple[End, ...]:
        """The ends of the channels, by their IDs; a channel of several recordings has one in each."""
        channels, found = self._channels, []
        for source in self._sources:
            for number, channel in source.index.channels.items():
                if channel.end:
                    _, offered, kept = channel.end
                    found.append(End(channels.id_of(source, number), offered, kept, source.path))
        return tuple(sorted(found, key=lambda it: it.channel))

    @property
    def facts(self) -> Optional[Facts]:
        """The facts of the recording, of several those of the first; None where there are none."""
        return self.all_facts[0]

    @cached_property
    def all_facts(self) -> tuple[Optional[Facts], ...]:
        """The facts of each recording, in the order of `paths`."""
        return tuple(it.public_facts() for it in self._sources)

    @property
    def faults(self) -> tuple[Fault, ...]:
        """The damaged places that are known: of headers, programs and ends all, and of the data of frames those that
        were read so far."""
        for source in self._sources:
            source.index.read()
        return tuple(fault for it in self._sources for _, fault in sorted(it.faults.items()))

    def frames(
        self, channels: Asked = None, begin: Moment = None, end: Moment = None, *, by_time: Optional[bool] = None
    ) -> Reading:
        """The frames of some channels or of all, from one time on and before another.

        `channels` is a channel ID, a name or a `Channel`, or several of them; one that there isn't is
        `bpfrec.UnknownChannel`. `begin` and `end` are in nanoseconds since 1970 UTC, or a `datetime` with its time
        zone; of a recording without times they are `bpfrec.NoTimes`. For these no other packets are read than those in
        the slice, in which counters within a packet are taken to rise.
        With `by_time` the frames of all channels are merged by time, else they stand as in the recording, packet by
        packet, each of one channel. By default several recordings are merged, and one isn't. Frames of a channel stay
        in their order, and a clock that was set back while it was recorded doesn't change the order of frames."""
        for source in self._sources:
            source.file.refuse_closed()
        by_time = len(self._sources) > 1 if by_time is None else by_time
        since, until = moment_of("begin", begin), moment_of("end", end)
        if channels is since is until is None and not by_time and len(self._sources) == 1:
            return Reading(Taken(self, self._sources, None), by_time)
        ids = self._channels.asked(channels)
        ranges = [it.ranges(since, until) for it in self._sources]
        parts = [it for part in self._channels.parts if part.channel in ids for it in part.sliced(ranges)]
        return Reading(Taken(self, self._sources, parts), by_time)

    def _filters_of(self, source: Source) -> Iterator[Filter]:
        """The programs of a recording."""
        channels = self._channels
        for (number, version, first, insns), counter in source.index.met:
            time_ns, channel = source.utc_at(counter), channels.id_of(source, number)
            expression = source.facts.expression_of(number, insns) if source.facts else None
            yield Filter(channel, version, first, counter, time_ns, listing_of(insns), expression, source.path)


def open(
    path: Union[Path, BinaryIO], *more: Union[Path, BinaryIO], facts: Given = None, skip_damage: bool = False
) -> Recording:
    """Opens a recording or a whole Chapter 11 file: a regular file by its path, or any file that is open for bytes and
    can seek, as an `io.BytesIO`. Little is read: the first header of a recording, and all headers of a whole file.

    Times come from the facts beside it, RECORDING.json, or from the file that `facts` names; with `facts=True` that
    beside it must be there, and with `facts=False` there are none. A whole file has its own times, in its time packets,
    unless `facts` is given.
    A damaged place raises `bpfrec.Damaged` when the reading comes to it, behind the frames ahead of it; with `by_time`
    at once, and at the end of a slice, of which frames may have stood there. With `skip_damage` the reading goes on
    behind such places, and `faults` of the recording lists them.
    A file that is no recording is `bpfrec.NotARecording`, facts that are none are `bpfrec.BadFacts`, and a file that
    can't be read is an OSError.

    `path` may be the name of a run, as flight.ch11, which is all its recordings, flight_00001.ch11 and so on.
    Several recordings are read as one, in one order by time. Those of one recorder that follow one another, by the host
    and the interfaces of their facts, have the same channels; a recording without facts has channels of its own. All
    must have facts, or none. Where channels of several recorders have the same ID, that of the recording given first
    keeps it, and each other one gets the lowest ID that no recording has; `recorded_as` of a channel is the one that it
    has in its recordings. A file that is given twice, by another name or link too, is a ValueError."""
    given = [found for it in (path, *more) for found in recordings_of(it)]
    if len(given) > 1 and facts not in (None, False, True):
        raise TypeError("facts names the facts of one recording; of several those beside each are taken")
    files = []
    sources: list[Source] = []
    try:
        for number, it in enumerate(given):
            files.append(opened(it))
            sources.append(Source(number, files[-1], facts, not skip_damage))
        judge_files(sources)
        judge_times(sources)
    except BaseException:
        for file in files:
            if file.file not in given:
                file.file.close()
        raise
    return Recording(sources, given)


def recordings_of(path: Union[Path, BinaryIO]) -> list[Union[str, BinaryIO]]:
    """The recordings that a path names, or the open file."""
    return [*all_of(os.fsdecode(path))] if isinstance(path, (str, os.PathLike)) else [path]


def judge_files(sources: list[Source]) -> None:
    """Refuses a file that is given twice, also by another name or link, whose frames would be there twice."""
    paths: dict[tuple[int, int], str] = {}
    for source in sources:
        file = source.file.identity()
        if file in paths:
            other = "" if paths[file] == source.path else f", as {source.path} too"
            raise ValueError(f"{paths[file]} is given twice{other}")
        paths[file] = source.path


def judge_times(sources: list[Source]) -> None:
    """Refuses recordings with times beside some without, which can't be compared."""
    known, unknown = [it.path for it in sources if it.facts], [it.path for it in sources if not it.facts]
    if known and unknown:
        raise ValueError(f"{known[0]} has facts and {unknown[0]} has none, so their times can't be compared")


def moment_of(name: str, time: Moment) -> Optional[int]:
    """A time in nanoseconds since 1970 UTC, which is given as the argument of this name."""
    if time is None:
        return None
    if not isinstance(time, datetime):
        return nanoseconds_of(name, time)
    if time.tzinfo is None:
        raise ValueError(f"{time} has no time zone: datetime(.., tzinfo=timezone.utc)")
    return (time - EPOCH) // timedelta(microseconds=1) * NANOSECONDS_A_MICROSECOND


def nanoseconds_of(name: str, time: int) -> int:
    """A number of nanoseconds, of any type of integers, as numpy has its own."""
    try:
        return operator.index(time)
    except TypeError:
        what = "a datetime with its time zone, or nanoseconds since 1970 UTC as an int"
        raise TypeError(f"{name} takes {what}, not {time!r}") from None
