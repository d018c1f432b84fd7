"""What is shown of a recording that goes on: the blocks of a capture, as its packets come."""

from __future__ import annotations

from typing import BinaryIO, Iterator, Optional, Union

from bpfrec.formats import pcapng_blocks
from bpfrec.formats.body import LENGTH_BITS, MARKS, BadBody, Frames, chosen
from bpfrec.formats.facts import SCALE_UNKNOWN, Facts
from bpfrec.formats.follow import Front
from bpfrec.formats.limits import ETHERNET_DATA, MAX_COUNTER, NANOSECONDS_A_TICK
from bpfrec.formats.marks import Mark
from bpfrec.formats.names import facts_path
from bpfrec.formats.packet import body_of, data_of
from bpfrec.formats.records import End, Program
from bpfrec.formats.whole_file import SETUP, TIME, is_own
from bpfrec_tools.cli.arguments import no_channel
from bpfrec_tools.cli.program import Texts
from bpfrec_tools.cli.streams import Refused
from bpfrec_tools.export.captures import NO_NAMES
from bpfrec_tools.export.merging import program_text
from bpfrec_tools.follow.growing import Growing, Report, is_written
from bpfrec_tools.follow.within import Within

# What is said of a whole file that lacks names or times.
KINDS = {SETUP: "setup record", TIME: "time packet"}
UNNAMED = "no setup record or no time packet of it can be read, so --channel takes numbers, as 1"
UNTIMED = "no time packet ahead of its first frames can be read, so times are those since counter 0"


class Interface:
    """A channel as an interface of the capture, and its filter: the program that was said last, and those since."""

    def __init__(self, number: int) -> None:
        self.number = number
        self.said: Optional[Program] = None
        self.waiting: list[Program] = []

    def is_new(self, program: Program) -> bool:
        """Whether a program is another filter than the one before: a recording that follows begins with that."""
        last = self.waiting[-1] if self.waiting else self.said
        return last is None or last.insns != program.insns


class View:
    """The capture that a verb writes, over all recordings of a run."""

    def __init__(self, verb: str, out: BinaryIO, asked: list[Union[int, str]]) -> None:
        self.verb, self.out, self.asked = verb, out, asked
        self.interfaces: dict[int, Interface] = {}
        self.texts = Texts()
        self.frames = self.skipped = 0
        # Texts of marks that wait for the next frame, and recordings before whose facts may still get some.
        self.marks: list[str] = []
        self.ending: list[Recording] = []
        out.write(pcapng_blocks.section(verb, []))
        # Its reader begins with that, however long the first frame takes.
        out.flush()

    def program(self, program: Program, name: str) -> None:
        """A filter's program came into force."""
        interface = self.interface(program.channel, name, program)
        if interface.is_new(program):
            interface.waiting.append(program)

    def interface(self, channel: int, name: str, first: Optional[Program] = None) -> Interface:
        """The interface of a channel, which is described where it is new, with its first program."""
        found = self.interfaces.get(channel)
        if found is None:
            found = self.interfaces[channel] = Interface(len(self.interfaces))
            found.said = first
            text = program_text([first], self.texts) if first else f"channel {channel}"
            self.out.write(pcapng_blocks.interface(name, f"channel {channel}", "", text))
        return found

    def frame(self, interface: Interface, moment: int, marks: int, frame: bytes) -> None:
        """A frame, with a comment where a mark waits or the filter has changed since the one before."""
        options = b""
        if marks or interface.waiting or self.marks:
            said, interface.waiting = interface.waiting, []
            interface.said = said[-1] if said else interface.said
            texts, self.marks = [*self.marks, *([program_text(said, self.texts)] if said else [])], []
            options = pcapng_blocks.packet_options(marks, "\n".join(texts) if texts else None)
        self.out.write(pcapng_blocks.packet(interface.number, moment, frame, options))
        self.frames += 1

    def frames_in(self, frames: Frames, data: bytes) -> Iterator[tuple[int, int, bytes]]:
        """The frames of a packet of these data: counters, marks as in a feed, and bytes."""
        rows, skipped = chosen(frames)
        self.skipped += skipped
        for counter, word, begin in rows:
            yield counter, MARKS[word >> 30], data[begin : begin + (word & LENGTH_BITS)]

    def look_back(self) -> None:
        """Takes marks of recordings before, whose last facts come once they are audited."""
        for recording in self.ending:
            recording.look_at_facts()
            recording.show_marks(MAX_COUNTER)
        self.ending = [it for it in self.ending if it.known and not it.known.has_ended]

    def end(self) -> list[str]:
        """The run has ended: marks that no frame follows, which are the comments of a section of their own too."""
        self.look_back()
        if self.marks:
            self.out.write(pcapng_blocks.section(self.verb, self.marks))
        return self.marks


class Recording(Growing):
    """A recording that is shown."""

    def __init__(self, path: str, view: View, report: Report) -> None:
        super().__init__(path, report)
        self.view = view
        # What a whole file says of itself, and whether somebody wrote it when it was opened.
        self.within = Within() if self.begins_whole() else None
        # Of which of its own types a packet couldn't be read.
        self.unread: set[int] = set()
        self.was_written = is_written(path)
        self.is_judged = False
        # Up to this place frames are not shown.
        self.hidden_to = 0
        self.has_shown_frames = False
        # How many of its marks were shown, or were there already where they are left out.
        self.marks_shown = 0

    def end(self) -> None:
        """Shows what is left of a recording that has ended."""
        self.read_rest()
        if not self.within:
            self.view.ending.append(self)
        self.view.look_back()

    def number(self) -> Optional[int]:
        """The first of whole files that follow one another has no number, and the next one has 2."""
        return super().number() or (1 if self.within else None)

    def waits_for_next(self) -> bool:
        """Whole files follow one another while somebody writes them."""
        return self.was_written if self.within else super().waits_for_next()

    def look_at_facts(self) -> None:
        """Reads the facts where they are new; a whole file has its own."""
        if not self.within:
            super().look_at_facts()

    def name(self, channel: int) -> str:
        """What a channel is called."""
        return self.within.name(channel) if self.within else super().name(channel)

    def shows(self, channel: int) -> bool:
        """Whether a channel was asked for."""
        asked, known = self.view.asked, self.known
        return not asked or any(known.is_called(channel, it) if known else channel == it for it in asked)

    def judge_asked(self) -> None:
        """Refuses a name that no channel has."""
        names = self.known.shown_names() if self.known else {}
        for asked in (it for it in self.view.asked if isinstance(it, str)):
            if not self.known or not any(self.known.is_called(it, asked) for it in names):
                raise Refused(f"{self.path}: {self.lack(asked, names)}")

    def lack(self, asked: str, names: dict[int, str]) -> str:
        """Why there is no channel of this name."""
        if self.within and not names:
            return UNNAMED
        return no_channel(asked, names.items()) if self.known else NO_NAMES

    def hide(self) -> None:
        """Leaves out the frames and marks that are there already."""
        self.hidden_to = self.file.size_now()
        self.look_at_facts()
        self.marks_shown = len(self.marks())

    def marks(self) -> list[Mark]:
        """Its marks so far."""
        return self.known.marks if self.known else []

    def show_marks(self, counter: int) -> None:
        """Has the marks shown that came before a frame or with it."""
        marks = self.marks()
        while self.known and self.marks_shown < len(marks) and marks[self.marks_shown].counter <= counter:
            self.view.marks.append(self.known.mark_text(marks[self.marks_shown]))
            self.marks_shown += 1

    def take(self, front: Front) -> None:
        """Shows a packet. Of a whole file the first ones say what its channels are called."""
        if self.follower.is_whole and not self.within:
            self.within, self.known = Within(), None
        if self.within and is_own(front.header.kind):
            self.take_own(self.within, front)
            return
        if not self.is_judged:
            self.is_judged = True
            self.judge_asked()
        if front.header.kind == ETHERNET_DATA and front.header.is_plain():
            self.take_frames(front)
        else:
            self.take_record(front)

    def take_own(self, within: Within, front: Front) -> None:
        """Takes what a whole file says of itself."""
        header = front.header
        is_long = header.packet_len > header.most_len()
        if not is_long and within.take(header, self.file.read_at(front.at, header.packet_len)):
            self.known = within.known
        elif header.kind not in self.unread:
            self.unread.add(header.kind)
            self.is_damaged = True
            self.report(f"{self.path}: the {KINDS[header.kind]} at byte {front.at} can't be read")

    def take_record(self, front: Front) -> None:
        """Takes a filter's program or the end of a channel, where a packet is one."""
        record = self.follower.record(front)
        if isinstance(record, Program):
            self.named.add(record.channel)
            if self.shows(record.channel):
                self.view.program(record, self.name(record.channel))
        elif isinstance(record, End):
            self.ended.add(record.channel)

    def take_frames(self, front: Front) -> None:
        """Shows a packet of frames."""
        header = front.header
        self.named.add(header.channel)
        if front.at < self.hidden_to or not self.shows(header.channel):
            return
        packet = self.file.read_at(front.at, header.packet_len)
        what, fault = body_of(header, packet)
        if fault is not None:
            raise BadBody
        if isinstance(what, Frames):
            self.report_scale()
            interface = self.view.interface(header.channel, self.name(header.channel))
            for counter, marks, frame in self.view.frames_in(what, data_of(header, packet)):
                self.show_marks(counter)
                self.view.frame(interface, self.moment_of(counter), marks, frame)

    def report_scale(self) -> None:
        """Says ahead of the first frames where nobody knows their times or their scale."""
        if not self.has_shown_frames and self.within and not self.known:
            self.report(f"{self.path}: {UNTIMED}")
        if not self.has_shown_frames and self.known and not self.known.are_all_utc():
            self.report(f"{facts_path(self.path)}: {SCALE_UNKNOWN}")
        self.has_shown_frames = True

    def moment_of(self, counter: int) -> int:
        """The moment of a counter in a capture."""
        return moment_in(self.known, counter)


def moment_in(known: Optional[Facts], counter: int) -> int:
    """The moment of a counter by facts, which a capture has from 1970 on."""
    moment = known.moment_of(counter) if known else counter * NANOSECONDS_A_TICK
    return min(max(moment or 0, 0), pcapng_blocks.MOST_UNITS)
