"""The facts beside a recording, RECORDING.json: at what times its counters stand, and what was lost.

What such a file claims is judged by type and range before any of it is used, for it may be damaged as a recording may.
"""

from __future__ import annotations

import json
import re
from bisect import bisect_right
from datetime import datetime, timedelta
from typing import Any, Iterator, NamedTuple, Optional, Union

from bpfrec.formats.limits import (
    MAX_CHANNEL_ID,
    MAX_COUNT,
    MAX_COUNTER,
    MAX_FACTS_LEN,
    MAX_HOST_LEN,
    MAX_TAI_OFFSET,
    NANOSECONDS_A_SECOND,
    NANOSECONDS_A_TICK,
)
from bpfrec.formats.listing import has_instructions
from bpfrec.formats.marks import Mark, marks_in

SECONDS = re.compile(r"(-?)([0-9]{1,12})\.([0-9]{9})")
BEGUN = re.compile(r"([0-9]{4}-[0-9]{2}-[0-9]{2}T[0-9]{2}:[0-9]{2}:[0-9]{2})Z")
# Of origins: the years 1 to 9998, so that each counter's time has a year of four digits.
FIRST_MOMENT, END_MOMENT = (it * NANOSECONDS_A_SECOND for it in (-62_135_596_800, 253_370_764_800))
EPOCH = datetime(1970, 1, 1)
# The longest number that may be a count.
MAX_DIGITS = len(str(MAX_COUNT))
# The time after which counters begin at 0 again, in nanoseconds.
TURN = (MAX_COUNTER + 1) * NANOSECONDS_A_TICK
# Stands for each number that is no whole number, or too long a one.
OTHER_NUMBER = float("nan")
LOST = ("dropped", "missed", "skipped")
UTC, TAI = "UTC", "TAI"
# What is said of times that may not be UTC.
SCALE_UNKNOWN = "the scale of its times is unknown, and they are taken as they are"
SCALE_UNSAID = "nothing says which time the adapter's clock ran, and it counts as UTC"
# What is said where origins are left out, see since_last_step.
WAS_SET_FAR = "the clock was set by over a second: frames before that have times by the clock as it was set then"


class NoFacts(Exception):
    """Why a file has no facts of a recording."""


class Origin(NamedTuple):
    """The moment of counter 0, in nanoseconds since 1970, as it holds from a counter on; by how many seconds the clock
    was set, where it was. The moment is UTC but where nobody knows the scale; the text is in that scale, of which TAI
    is ahead of UTC by so many seconds."""

    text: str
    moment: int
    counter: int
    set_by: Optional[str]
    scale: Optional[str] = UTC
    tai_offset: int = 0


class Expression(NamedTuple):
    """That of which a channel's first listing was made."""

    channel: int
    listing: str
    text: str


class Interruption(NamedTuple):
    """An interface that brought no frames, why, and from which counter on up to which; None where it did so to the end."""

    interface: str
    why: str
    begin: int
    end: Optional[int]


class Facts:
    """What the facts say of times, losses, interruptions, marks and spans."""

    def __init__(self, told: Any) -> None:
        if not isinstance(told, dict) or not is_number(told.get("facts"), 1, 1):
            raise NoFacts("facts isn't 1")
        host = told.get("host")
        if not isinstance(host, str) or len(host) > MAX_HOST_LEN:
            raise NoFacts(f"host is no text of at most {MAX_HOST_LEN} characters")
        self.host = host
        # The recording's own name, and those of the one before it in its run and of the next; none of another form.
        self.recording, self.following = text_in(told.get("recording")), text_in(told.get("next"))
        self.before = next((text_in(name) for (name,) in entries([told.get("before")], "recording")), "")
        # The recorder and its version. Nothing stands on it, so of another form it is left out.
        self.program = text_in(told.get("program"))
        # The settings of the recording, a text in TOML that isn't judged here.
        settings: Any = told.get("settings")
        self.settings = settings if isinstance(settings, str) else ""
        self.origins = origins_in(told.get("origins"))
        # Facts of before scales were noted don't say which time an adapter's clock ran.
        lack = any("scale" not in it for it in told["origins"])
        self.is_scale_unsaid = told.get("clock") == "adapter" and lack
        self.losses = losses_in(told.get("losses"))
        self.interruptions = interruptions_in(told.get("interruptions"))
        self.interfaces = interfaces_in(told.get("interfaces"), "interface")
        # What people call channels.
        self.names = interfaces_in(told.get("interfaces"), "name")
        self.spans = spans_in(told.get("spans"))
        self.marks = marks_in(told.get("marks"))
        self.expressions = expressions_in(told.get("filters"))
        self.begun = begun_in(told.get("begun"))
        # Whether it has ended; None where nothing says it.
        state: Any = told.get("state")
        self.has_ended = state == "ended" if isinstance(state, str) else None
        # What is said of the clock at the beginning and at the end, which `clock_state` judges.
        self.synchronisation: Any = told.get("synchronisation")
        self.holding = holding(self.origins)
        self.counters = [it.counter for it in self.holding]

    def expression_of(self, channel: int, insns: bytes) -> Optional[str]:
        """The words of which a channel's program of these stored instructions was made; None where nothing says it."""
        mine = (it for it in self.expressions if it.channel == channel)
        return next((it.text for it in mine if has_instructions(it.listing, insns)), None)

    def origin_at(self, counter: int) -> Optional[Origin]:
        """The last origin whose counter is at most this one; None where there is none."""
        at = bisect_right(self.counters, counter) - 1
        return None if at < 0 else self.holding[at]

    def shown_name(self, channel: int) -> Optional[str]:
        """What a channel is called: its name with its interface, or that alone; None where neither is known."""
        interface, name = self.interfaces.get(channel), self.names.get(channel)
        return f"{name} ({interface})" if name and interface else name or interface

    def shown_names(self) -> dict[int, str]:
        """The same of all channels."""
        return {it: self.shown_name(it) or "" for it in {**self.interfaces, **self.names}}

    def is_called(self, channel: int, asked: Union[int, str]) -> bool:
        """Whether a channel has this ID, interface or name, or is called so, also with its host."""
        called = {self.interfaces.get(channel), self.names.get(channel), self.shown_name(channel)} - {None}
        return asked in (channel, *called, *(f"{it} of {self.host}" for it in called))

    def moment_of(self, counter: int) -> Optional[int]:
        """The moment of a frame with this counter, in nanoseconds since 1970, which is UTC but where nobody knows the
        origin's scale; None where there is no origin."""
        origin = self.origin_at(counter)
        return None if origin is None else origin.moment + counter * NANOSECONDS_A_TICK

    def time_of(self, counter: int) -> Optional[str]:
        """The time of a counter, as people read it; None where it isn't known."""
        origin, moment = self.origin_at(counter), self.moment_of(counter)
        return None if origin is None or moment is None else in_scale(tick_of(moment), origin.scale)

    def mark_text(self, mark: Mark) -> str:
        """A mark with its time, as a comment of a capture."""
        return f"mark {self.time_of(mark.counter) or 'time unknown'}: {mark.text}"

    def beginning(self) -> Optional[int]:
        """The moment at which the recording began, in nanoseconds since 1970, by the clock as it was set last; None
        where the facts don't say it."""
        if self.begun is None:
            return None
        ends = [*self.counters[1:], MAX_COUNTER + 1]
        counters = [(self.begun - it.moment) // NANOSECONDS_A_TICK for it in self.holding]
        # The first origin by which that was before the next held.
        counter = next((it for it, end in zip(counters, ends) if it < end), counters[-1])
        return self.holding[-1].moment + counter * NANOSECONDS_A_TICK

    def are_all_utc(self) -> bool:
        """Whether all moments are UTC, since the scale of each origin that holds is known."""
        return all(it.scale for it in self.holding)


def is_number(value: Any, least: int, most: int) -> bool:
    """Whether a value is a whole number of this range; true and false are none."""
    return type(value) is int and least <= value <= most


def nanoseconds_of(text: Any) -> Optional[int]:
    """The nanoseconds of seconds with nine digits behind the point; None where a value is something else."""
    found = SECONDS.fullmatch(text) if isinstance(text, str) else None
    if not found:
        return None
    count = int(found[2]) * NANOSECONDS_A_SECOND + int(found[3])
    return -count if found[1] else count


def seconds_of(moment: int) -> str:
    """Nanoseconds as seconds, with nine digits behind the point."""
    seconds, rest = divmod(abs(moment), NANOSECONDS_A_SECOND)
    return f"{'-' if moment < 0 else ''}{seconds}.{rest:09}"


def origins_in(told: Any) -> list[Origin]:
    """The origins of the facts, in order."""
    if not isinstance(told, list) or not told:
        raise NoFacts("origins is no list with an origin")
    return [origin_in(it, f"origin {at} of {len(told)}") for at, it in enumerate(told, 1)]


def origin_in(told: Any, name: str) -> Origin:
    """The origin that an object of JSON is."""
    if not isinstance(told, dict):
        raise NoFacts(f"{name}: it is no object")
    moment = nanoseconds_of(told.get("origin"))
    counter: Any = told.get("counter")
    set_by: Any = told.get("set_by")
    if moment is None:
        raise NoFacts(f"{name}: origin isn't seconds with nine digits behind the point, as 1764590400.250000000")
    scale, tai_offset = scale_in(told, name)
    moment -= tai_offset * NANOSECONDS_A_SECOND
    if not FIRST_MOMENT <= moment < END_MOMENT:
        raise NoFacts(f"{name}: origin is of no year from 1 to 9998")
    if not is_number(counter, 0, MAX_COUNTER):
        raise NoFacts(f"{name}: counter is no number from 0 to {MAX_COUNTER}")
    if set_by is not None and nanoseconds_of(set_by) is None:
        raise NoFacts(f"{name}: set_by isn't seconds with nine digits behind the point")
    return Origin(told["origin"], moment, counter, set_by, scale, tai_offset)


def scale_in(told: dict[str, Any], name: str) -> tuple[Optional[str], int]:
    """The time scale of an origin, and by how many seconds it is ahead of UTC. Facts that were written before scales
    were noted are in UTC."""
    scale: Any = told.get("scale", UTC)
    if scale not in (UTC, TAI, None):
        raise NoFacts(f"{name}: scale is neither {UTC} nor {TAI} nor null")
    if scale != TAI:
        return scale, 0
    tai_offset: Any = told.get("tai_offset")
    if not is_number(tai_offset, 0, MAX_TAI_OFFSET):
        raise NoFacts(f"{name}: tai_offset is no number from 0 to {MAX_TAI_OFFSET}")
    return TAI, tai_offset


def holding(origins: list[Origin]) -> list[Origin]:
    """The origins that hold for some counter, by rising counters: a later one takes the place of each that holds from
    the same counter on, or from a higher one."""
    found: list[Origin] = []
    for origin in origins:
        while found and found[-1].counter >= origin.counter:
            found.pop()
        found.append(origin)
    return found


def since_last_step(origins: list[Origin], ahead: int) -> list[Origin]:
    """The origins from the last on by which the clock was set by over a second, which then holds from counter 0 on; of
    those that hold, where a clock of a scale that nobody knows is `ahead` seconds ahead of UTC. A turn of the counters
    sets no clock."""
    moments = [it.moment if it.scale else it.moment - ahead * NANOSECONDS_A_SECOND for it in origins]
    steps = [(after - before + TURN // 2) % TURN - TURN // 2 for before, after in zip(moments, moments[1:])]
    last = max((at for at, step in enumerate(steps, 1) if abs(step) > NANOSECONDS_A_SECOND), default=0)
    return [origins[last]._replace(counter=0), *origins[last + 1 :]]


def as_at_the_end_of_a_run(origins: list[Origin], last: list[Origin], ahead: int) -> list[Origin]:
    """The origins of a recording of a run: those that it has, or the first one of its last recording, where the clock was
    set by over a second between them."""
    stepped = since_last_step([origins[0], last[0]], ahead)
    return stepped if len(stepped) == 1 else origins


def text_in(told: Any) -> str:
    """A short text; an empty one where a value is something else."""
    return told if isinstance(told, str) and len(told) <= MAX_HOST_LEN else ""


def entries(told: Any, *keys: str) -> Iterator[tuple[Any, ...]]:
    """What each object of a list has for these keys. Nothing stands on what is read so: what has another form is left
    out."""
    for entry in told if isinstance(told, list) else []:
        if isinstance(entry, dict):
            yield tuple(map(entry.get, keys))


def is_channel(value: Any) -> bool:
    """Whether a value is the ID of a channel."""
    return is_number(value, 1, MAX_CHANNEL_ID)


def interfaces_in(told: Any, key: str) -> dict[int, str]:
    """The names of interfaces or of channels by the channels."""
    return {
        channel: name
        for name, channel in entries(told, key, "channel")
        if isinstance(name, str) and is_channel(channel)
    }


def spans_in(told: Any) -> dict[int, int]:
    """How old packets of channels get, in ticks."""
    found = entries(told, "channel", "span")
    return {channel: span for channel, span in found if is_channel(channel) and is_number(span, 0, MAX_COUNTER)}


def expressions_in(told: Any) -> list[Expression]:
    """The expressions of filters."""
    found = entries(told, "channel", "listing", "expression")
    return [Expression(*it) for it in found if is_channel(it[0]) and isinstance(it[1], str) and isinstance(it[2], str)]


def begun_in(told: Any) -> Optional[int]:
    """The moment at which a recording began, in nanoseconds since 1970. Few ask for it, so of another form it is
    left out."""
    found = BEGUN.fullmatch(told) if isinstance(told, str) else None
    try:
        moment = datetime.fromisoformat(found[1]) if found else None
    except ValueError:
        return None
    return None if moment is None else (moment - EPOCH) // timedelta(seconds=1) * NANOSECONDS_A_SECOND


def losses_in(told: Any) -> dict[str, int]:
    """How many frames were lost in all, by the way in which they were."""
    if not isinstance(told, list):
        raise NoFacts("losses is no list")
    sums = dict.fromkeys(LOST, 0)
    for at, loss in enumerate(told, 1):
        for name in LOST:
            sums[name] += count_in(loss, name, f"loss {at} of {len(told)}")
    return sums


def interruptions_in(told: Any) -> list[Interruption]:
    """When interfaces brought no frames."""
    found = []
    for name, why, begin, end in entries(told, "interface", "why", "from", "to"):
        are_counters = is_number(begin, 0, MAX_COUNTER) and (end is None or is_number(end, 0, MAX_COUNTER))
        if are_counters and text_in(name) and text_in(why):
            found.append(Interruption(name, why, begin, end))
    return found


def count_in(loss: Any, name: str, place: str) -> int:
    """How many frames a loss says that were lost in one way."""
    count: Any = loss.get(name) if isinstance(loss, dict) else None
    if not is_number(count, 0, MAX_COUNT):
        raise NoFacts(f"{place}: {name} is no number from 0 to {MAX_COUNT}")
    return int(count)


def read(path: Union[str, int]) -> Facts:
    """The facts that a file has; `path` may be a descriptor too."""
    with open(path, "rb") as file:
        return facts_in(file.read(MAX_FACTS_LEN + 1))


def facts_in(data: bytes) -> Facts:
    """The facts that a file of these bytes has."""
    if len(data) > MAX_FACTS_LEN:
        raise NoFacts(f"it has more than {MAX_FACTS_LEN >> 20} MiB")
    try:
        told = json.loads(
            data.decode(errors="replace"), parse_int=whole_number, parse_float=other_number, parse_constant=no_constant
        )
    except (ValueError, RecursionError, MemoryError):
        raise NoFacts("it is no JSON that can be read") from None
    return Facts(told)


def whole_number(digits: str) -> Union[int, float]:
    """A number of JSON; one that is longer than any that is used isn't computed, since Python takes long for those."""
    return int(digits) if len(digits) <= MAX_DIGITS else OTHER_NUMBER


def other_number(_: str) -> float:
    """A number of JSON with a fraction or an exponent, of which none is used."""
    return OTHER_NUMBER


def no_constant(name: str) -> None:
    """Refuses what Python takes for numbers and JSON doesn't, as NaN."""
    raise ValueError(f"{name} is no JSON")


def utc_of(moment: int) -> str:
    """A moment as UTC, to the nanosecond."""
    seconds, rest = divmod(moment, NANOSECONDS_A_SECOND)
    return f"{(EPOCH + timedelta(seconds=seconds)).isoformat()}.{rest:09d}Z"


def tick_of(moment: int) -> str:
    """A moment as UTC, to the tick of 100 ns, rounded down."""
    return utc_of(moment)[:-3] + "Z"


def in_scale(time: str, scale: Optional[str]) -> str:
    """A time, which ends in Z where it is UTC; where nobody knows its scale it says so."""
    return time if scale else f"{time.rstrip('Z')} (scale unknown)"


def on_a_line(given: str) -> str:
    """A text that another wrote, with a question mark for what isn't to be seen on a line."""
    return "".join(it if it.isprintable() else "?" for it in given)
