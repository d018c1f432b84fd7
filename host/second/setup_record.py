"""The setup record of a whole file: its text, as Chapter 9 (TMATS) has it, and what is wrong with that."""

from __future__ import annotations

import re
from typing import Iterator, NamedTuple, Optional, Union

from second.packets import FRAMES, TIME, Wrong

# RCC 106-17, in ASCII.
WORD = bytes((0x0C, 0, 0, 0))
# A line's name ends at its first colon, and its value at a semicolon.
LINE = re.compile(r"([ -9<-~]+):([ -:<-~]*);\r\n")
TYPES = {"TIMEIN": TIME, "ETHIN": FRAMES}
MOST_CHANNEL, MOST_NET = 65_535, 255
MOST_NAME_LEN, MOST_LABEL_LEN = 32, 24
# Names of hosts, programs and channels: a blank may stand last where the rest was cut off.
LETTER = r"!-9<-\[\]-~"
NAME = re.compile(rf"[{LETTER}](?:[ {LETTER}]{{0,{MOST_NAME_LEN - 2}}}[{LETTER}]|[ {LETTER}]{{{MOST_NAME_LEN - 1}}})?")
DATE, TIME_OF_DAY, SOURCE = re.compile(r"[0-9]{2}-[0-9]{2}-[0-9]{4}"), r"(?:-[0-9]{2}){3}", re.compile("[IE]")
NET = re.compile("|".join(map(str, range(MOST_NET + 1))))
COMMENT = "Packets of type 0 on channel 0 with the tag CBPR hold the filter programs and the counts of bpfrec"
# With what lines of the file's channels begin, and zeros ahead of numbers, which a reader may leave out.
OF_CHANNEL = re.compile(r"R-1\\(?:TK[14]|CHE|DSI|CDT|TTF|TFMT|TSRC|ENTF|NNET|ENBR|ENAM)-")
ZEROS = re.compile(r"(?<!\d)0+(?=\d)", re.ASCII)
ANY = re.compile(r"[ -:<-~]*")


class Line(NamedTuple):
    """A line of the text."""

    name: str
    value: str


class Channel(NamedTuple):
    """A channel as the setup record has it: its type of packets, the name of its data source, and that of its network,
    which only channels of frames have."""

    kind: int
    label: str
    name: Optional[str]


class Setup:
    """What a setup record says. Names that stand twice have the first value."""

    def __init__(self, data: bytes) -> None:
        if data[: len(WORD)] != WORD:
            raise Wrong("the setup record isn't RCC 106-17 in ASCII")
        self.lines = lines_in(data[len(WORD) :])
        self.values: dict[str, str] = {}
        for name, value in self.lines:
            self.values.setdefault(name, value)
        self.count = self.number("R-1\\N")
        # By their IDs, in the order of the text.
        self.channels: dict[int, Channel] = {}
        for number in range(1, self.count + 1):
            self.add(number)
        if f"R-1\\TK1-{self.count + 1}" in self.values:
            raise Wrong("the setup record has more channels than it says")

    def value(self, name: str) -> str:
        """The value of a line that must be there."""
        if name not in self.values:
            raise Wrong(f"the setup record has no {name}")
        return self.values[name]

    def number(self, name: str) -> int:
        """The same of a number of channels or of a channel."""
        value = self.value(name)
        if not value.isdecimal() or len(value) > len(str(MOST_CHANNEL)):
            raise Wrong(f"{name} is no number")
        return int(value)

    def add(self, number: int) -> None:
        """Takes the channel of this number in the text."""
        channel, kind = self.number(f"R-1\\TK1-{number}"), self.value(f"R-1\\CDT-{number}")
        if channel in self.channels:
            raise Wrong(f"the setup record has channel {channel} twice")
        if kind not in TYPES:
            raise Wrong(f"the setup record has a channel of type {kind}")
        label = self.value(f"R-1\\DSI-{number}")
        self.channels[channel] = Channel(TYPES[kind], label, self.values.get(f"R-1\\ENAM-{number}-1"))

    def host(self) -> Optional[str]:
        """The host that recorded; None where it isn't said."""
        return self.values.get("G\\DSI-1")

    def program(self) -> Optional[str]:
        """The program that recorded; None where it isn't said."""
        return self.values.get("R-1\\R1")

    def is_external(self) -> bool:
        """Whether an outside source held the clock."""
        return self.values.get("R-1\\TSRC-1") == "E"

    def is_stream(self) -> bool:
        """Whether no index follows: the packets went out while the recording grew."""
        return self.values.get("R-1\\IDX\\E") == "F"

    def kind_of(self, channel: int) -> Optional[int]:
        """The type of a channel's packets; None where the record has no such channel."""
        found = self.channels.get(channel)
        return found.kind if found else None

    def begins(self) -> str:
        """The date and the time at which the recording began, as RI4 has them."""
        return self.values.get("R-1\\RI4", "")


def lines_in(data: bytes) -> list[Line]:
    """The lines of a text."""
    try:
        text = data.decode("ascii")
    except UnicodeDecodeError as fault:
        raise Wrong(f"the setup record is no ASCII at its character {fault.start}") from None
    lines, at = [], 0
    while at < len(text):
        found = LINE.match(text, at)
        if not found:
            raise Wrong(f"the setup record has no NAME:VALUE; at its character {at}")
        lines.append(Line(found[1], found[2]))
        at = found.end()
    return lines


# ---- what is wrong


def setup_faults(setup: Setup) -> Iterator[str]:
    """What is wrong with a text whose channels are known: the first line that is out of its place, and each that has
    another value than it should."""
    due = list(lines_due(setup))
    for line, wanted in zip(setup.lines, due):
        if line.name != wanted.name:
            yield f"the setup record has {line.name} in the place of {wanted.name}"
            return
        if not wanted.takes(line.value):
            yield f"{line.name} is {line.value!r}"
    if len(setup.lines) < len(due):
        yield f"the setup record ends ahead of {due[len(setup.lines)].name}"
    written = {it.name for it in due}
    for line in setup.lines[len(due) :]:
        read = ZEROS.sub("", line.name.strip().upper())
        if read in written or OF_CHANNEL.match(read):
            yield f"the setup record has {line.name} twice, or of no channel"
    yield from channel_faults(setup)


def channel_faults(setup: Setup) -> Iterator[str]:
    """What is wrong with the channels of a setup record: the first has the time, the others frames."""
    (time, first), *others = setup.channels.items() or [(0, Channel(0, "", None))]
    channels = [it for it, _ in others]
    if first.kind != TIME or any(it.kind != FRAMES for _, it in others):
        yield "not the first channel of the setup record, and that alone, has the time"
    elif time != next(it for it in range(1, MOST_CHANNEL + 2) if it not in setup.channels or it == time):
        yield f"the time has channel {time}, which isn't the least that is free"
    yield from (f"the setup record has channel {it}" for it in channels if not 1 <= it <= MOST_CHANNEL)
    if channels != sorted(channels):
        yield "channels of the setup record don't rise"


class Due(NamedTuple):
    """A line that has to stand in its place, and its value, or what that may be."""

    name: str
    value: Union[str, re.Pattern[str]]

    def takes(self, value: str) -> bool:
        """Whether a value is right."""
        return value == self.value if isinstance(self.value, str) else bool(self.value.fullmatch(value))


def lines_due(setup: Setup) -> Iterator[Due]:
    """The lines of a setup record in their order, up to the attributes; what names and dates are is its own."""
    host, date = setup.values.get("G\\DSI-1", ""), setup.values.get("G\\OD", "")
    yield from (Due("G\\PN", ANY), Due("G\\106", "17"), Due("G\\OD", DATE), Due("G\\DSI\\N", "1"))
    yield from (Due("G\\DSI-1", NAME), Due("G\\DST-1", "STO"), Due("R-1\\ID", host), Due("R-1\\RID", "bpfrec"))
    yield from (Due("R-1\\R1", NAME), Due("R-1\\TC1", "SSR"), Due("R-1\\RI3", "Y"))
    yield from (Due("R-1\\RI4", re.compile(re.escape(date) + TIME_OF_DAY)), Due("R-1\\NSB", "0"))
    if setup.is_stream():
        yield Due("R-1\\IDX\\E", "F")
    else:
        yield from (Due("R-1\\IDX\\E", "T"), Due("R-1\\IDX\\IT", "C"), Due("R-1\\IDX\\ICV", "1"))
    yield from (Due("R-1\\EV\\E", "F"), Due("R-1\\N", str(setup.count)))
    for number, (channel, has) in enumerate(setup.channels.items(), 1):
        yield from of_time(channel) if number == 1 else of_frames(number, channel, has)
    yield Due("R-1\\COM", COMMENT)


def of_time(channel: int) -> Iterator[Due]:
    """The lines of the channel that has the time."""
    yield from (Due("R-1\\TK1-1", str(channel)), Due("R-1\\TK4-1", "1"), Due("R-1\\CHE-1", "T"))
    yield from (Due("R-1\\DSI-1", "TIME"), Due("R-1\\CDT-1", "TIMEIN"), Due("R-1\\TTF-1", "1"))
    yield from (Due("R-1\\TFMT-1", "I"), Due("R-1\\TSRC-1", SOURCE))


def of_frames(number: int, channel: int, has: Channel) -> Iterator[Due]:
    """The lines of a channel that has frames, by its number in the text."""
    label = f"{(has.name or '')[:MOST_LABEL_LEN]} {channel}"
    yield from (Due(f"R-1\\TK1-{number}", str(channel)), Due(f"R-1\\TK4-{number}", str(number)))
    yield from (Due(f"R-1\\CHE-{number}", "T"), Due(f"R-1\\DSI-{number}", label))
    yield from (Due(f"R-1\\CDT-{number}", "ETHIN"), Due(f"R-1\\ENTF-{number}", "0"))
    yield from (Due(f"R-1\\NNET-{number}", "1"), Due(f"R-1\\ENBR-{number}-1", NET))
    yield Due(f"R-1\\ENAM-{number}-1", NAME)
