"""The blocks of a capture: those that describe it, and the frames of all slices, in the order in which they came, with the
marks that came by then."""

from __future__ import annotations

import heapq
import os
from collections import Counter, deque
from typing import Iterable, Iterator, NamedTuple, Optional, Union

from bpfrec.core.index import Channel
from bpfrec.core.recordings import Recording, Run, last_moments
from bpfrec.core.times import Order, places_in
from bpfrec.formats import pcapng_blocks
from bpfrec.formats.body import LENGTH_BITS, MARKS, Range, chosen
from bpfrec.formats.facts import on_a_line
from bpfrec.formats.limits import INSN_LEN
from bpfrec.formats.records import Program
from bpfrec_tools.chapter11.runs import NamedRun, named_run
from bpfrec_tools.cli.program import Texts
from bpfrec_tools.export.times import moment_in


class Marks:
    """The marks in the slices of recordings, of which each is given out once."""

    def __init__(self, recordings: list[tuple[Recording, list[Range]]], last: dict[Run, int]) -> None:
        self.waiting: dict[Run, deque[tuple[int, str]]] = {}
        for recording, ranges in recordings:
            facts, run = recording.facts, recording.run()
            order = Order(recording.times, last[run])
            for mark in facts.marks if facts else []:
                if facts and any(it.low <= mark.counter < it.high for it in ranges):
                    self.waiting.setdefault(run, deque()).append((order.of(mark.counter), facts.mark_text(mark)))
        for run, marks in self.waiting.items():
            self.waiting[run] = deque(sorted(marks, key=lambda it: it[0]))
        # Each frame asks.
        self.of = {it: self.waiting[it.run()] for it, _ in recordings if it.run() in self.waiting}

    def due(self, recording: Recording, moment: int) -> list[str]:
        """The texts of those that came at the latest when a frame of a recording did, whose place is this moment."""
        marks, found = self.of.get(recording), []
        while marks and marks[0][0] <= moment:
            found.append(marks.popleft()[1])
        return found

    def texts(self) -> list[str]:
        """The texts of those that wait, in order."""
        return [text for _, text in sorted(it for marks in self.waiting.values() for it in marks)]


class Frame(NamedTuple):
    """A frame: its counter, its marks as in a feed, its bytes, and the index of the channel's program in force."""

    counter: int
    marks: int
    bytes: bytes
    program: int


class Slice:
    """The frames of a channel of a recording whose counters are in one of these ranges."""

    def __init__(self, recording: Recording, number: int, ranges: list[Range]) -> None:
        self.recording, self.ranges = recording, ranges
        self.channel = recording.index.channels.get(number) or Channel()
        self.packets = places_in(self.channel.packets, ranges)
        # How many frames are none with their check sequence, so that no capture has them.
        self.skipped = 0

    def size(self) -> int:
        """How many bytes its packets have."""
        return sum(it.length for it in self.packets)

    def frames(self) -> Iterator[Frame]:
        """The frames, in the order of the recording, with one packet in memory."""
        for place in self.packets:
            body = self.recording.index.body(place)
            if body is None:
                continue
            frames, data = body
            rows, skipped = chosen(frames, self.ranges)
            self.skipped += skipped
            for counter, word, begin in rows:
                yield Frame(counter, MARKS[word >> 30], data[begin : begin + (word & LENGTH_BITS)], place.program)


PROGRAM = "bpfrec export"
# A recording, and the counters of it that a capture has.
Sliced = tuple[Recording, list[Range]]


class Part(NamedTuple):
    """What a recording has of an interface."""

    recording: Recording
    slice: Slice

    def words_of(self, program: Program) -> str:
        """The words of which a program was made, by the facts; nothing where they aren't known."""
        facts = self.recording.facts
        return on_a_line(facts.expression_of(program.channel, program.insns) or "") if facts else ""


class Interface:
    """A channel of one recorder, which is an interface of the capture; its recordings may follow one another."""

    def __init__(self, number: int, channel: int, recordings: list[Sliced]) -> None:
        self.number, self.channel = number, channel
        self.parts = [Part(it, Slice(it, channel, ranges)) for it, ranges in recordings]
        # The program that was told last, with what has it.
        self.told = next(((it, found) for it in self.parts if (found := first_program(it.slice))), None)
        first, _ = recordings[0]
        self.name = first.name_of(channel) or f"channel {channel}"
        self.source, self.file = first.recorder_of(channel).source, os.path.basename(first.path)

    def counts(self) -> str:
        """How many frames were offered and kept, by the records of the channel's ends."""
        found = [it.slice.channel.end for it in self.parts]
        ends = [it for it in found if it]
        if not ends:
            return f"channel {self.channel}: no end record"
        told = f"frames offered {sum(it.offered for it in ends)}, kept {sum(it.kept for it in ends)}"
        lacking = f", and {len(found) - len(ends)} recordings without its end" if len(found) > len(ends) else ""
        return f"channel {self.channel}: {told}{lacking}"

    def names(self) -> list[str]:
        """Its name, and longer ones for where another interface has that too."""
        longer = f"{self.name} of {self.source}"
        longest = f"{longer}, channel {self.channel}"
        return [self.name, longer, longest, f"{longest} of {self.file}"]

    def description(self, texts: Texts, name: str) -> bytes:
        """The block that describes it: its name, its first program and its counts."""
        # One comment, since some programs show no second.
        comment = ""
        if self.told:
            part, program = self.told
            comment = f"{program_text([program], texts, part.words_of(program))}\n"
        return pcapng_blocks.interface(name, f"channel {self.channel}", comment, self.counts())

    def changes(self, part: Part, frame: Frame) -> list[Program]:
        """The programs of a recording since the one that was told last, up to that of a frame; none where that is the
        same."""
        programs = part.slice.channel.programs
        program = programs[frame.program] if frame.program >= 0 else None
        if program is None or self.told == (part, program):
            return []
        (before, told), self.told = self.told or (part, None), (part, program)
        if told and before != part:
            # It was another recording's: of this one the program in force alone is told, unless it is the same.
            is_same = (before.words_of(told), told.insns) == (part.words_of(program), program.insns)
            return [] if is_same else [program]
        begin = programs.index(told) + 1 if told else 0
        return programs[min(begin, frame.program) : frame.program + 1]

    def skipped(self) -> int:
        """How many frames no capture has."""
        return sum(it.slice.skipped for it in self.parts)


def first_program(chosen: Slice) -> Optional[Program]:
    """The program that a slice begins with: the channel's first one, as `bpfrec export` has it, or where packets before
    were left out the one in force."""
    programs, packets = chosen.channel.programs, chosen.channel.packets
    at = chosen.packets[0].program if chosen.packets else 0
    if chosen.packets[:1] == packets[:1]:
        at = min(at, 0)
    return programs[at] if 0 <= at < len(programs) else None


def version_text(programs: list[Program]) -> str:
    """What a comment says of programs without a frame between them, in the words of `bpfrec export`."""
    last = programs[-1]
    insns = f"{len(last.insns) // INSN_LEN} instructions"
    if len(programs) == 1:
        return f"filter version {last.version}, {insns}"
    return f"filter versions {programs[0].version} to {last.version}, the last of {insns}"


def program_text(programs: list[Program], texts: Texts, words: str = "") -> str:
    """The same, with the words of which the last one was made, and its text."""
    return f"{version_text(programs)}{words and f': {words}'}\n{texts.text_of(programs[-1].insns)}"


def recording_text(recording: Recording) -> str:
    """What a comment says of a recording."""
    name, facts = os.path.basename(recording.path), recording.facts
    if facts is None:
        return f"{name}: times since counter 0, from 1970 on"
    return f"{name}: times by {recording.times.source}, of host {facts.host}{'' if facts.are_all_utc() else ', scale unknown'}"


def interfaces_of(recordings: list[Sliced], asked: Optional[list[Union[int, str]]]) -> list[Interface]:
    """The channels of recordings that are asked for by their IDs or interfaces, or else all, by run."""
    found: dict[tuple[int, Union[NamedRun, str]], list[Sliced]] = {}
    for recording, ranges in recordings:
        every = set(recording.index.channels) if asked is None else set().union(*map(recording.channels_of, asked))
        facts, path = recording.facts, recording.path
        for channel in every:
            found.setdefault((channel, named_run(path, facts) if facts else path), []).append((recording, ranges))
    in_order = sorted(found.items(), key=lambda entry: entry[0][0])
    return [Interface(number, channel, parts) for number, ((channel, _), parts) in enumerate(in_order)]


# A frame with what it is sorted by, and where it stands.
Sorted = tuple[int, Interface, Part, Frame]


def numbered(interface: Interface, part: Part, last: int) -> Iterator[Sorted]:
    """The frames of an interface in a recording, each with where it stands."""
    place_of = Order(part.recording.times, last).of
    for frame in part.slice.frames():
        yield place_of(frame.counter), interface, part, frame


def merged(interfaces: list[Interface], moments: dict[Run, int]) -> Iterable[Sorted]:
    """The frames of all slices in the order in which they came; those of a channel stay in their order."""
    streams = [numbered(it, part, moments[part.recording.run()]) for it in interfaces for part in it.parts]
    return heapq.merge(*streams, key=lambda entry: entry[0])


class Capture:
    """The capture of recordings. Its texts and the marks that wait are kept while its blocks are made."""

    def __init__(self, recordings: list[Sliced], interfaces: list[Interface]) -> None:
        self.recordings, self.interfaces, self.texts = [it for it, _ in recordings], interfaces, Texts()
        self.moments = last_moments(self.recordings)
        self.marks = Marks(recordings, self.moments)

    def head(self) -> Iterator[bytes]:
        """The blocks that describe it."""
        counts = Counter(name for it in self.interfaces for name in it.names())
        lines = [*(recording_text(it) for it in self.recordings), *self.marks.texts()]
        yield pcapng_blocks.section(PROGRAM, pcapng_blocks.packed(lines))
        for interface in self.interfaces:
            *names, longest = interface.names()
            yield interface.description(self.texts, next((it for it in names if counts[it] == 1), longest))

    def frames(self) -> Iterator[bytes]:
        """The blocks of its frames."""
        for place, interface, part, frame in merged(self.interfaces, self.moments):
            moment = moment_in(part.recording, frame.counter)
            said, programs = self.marks.due(part.recording, place), interface.changes(part, frame)
            options = b""
            if said or programs or frame.marks:
                # One comment, since some programs show no second.
                said += [program_text(programs, self.texts, part.words_of(programs[-1]))] if programs else []
                options = pcapng_blocks.packet_options(frame.marks, "\n".join(said) if said else None)
            yield pcapng_blocks.packet(interface.number, moment, frame.bytes, options)
