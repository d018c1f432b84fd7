"""What a recording has and where, by the headers of its packets; of the data only records are read."""

from __future__ import annotations

from typing import Callable, Iterator, NamedTuple, Optional

from bpfrec.formats.body import BadBody, Frames
from bpfrec.formats.follow import Follower, Front
from bpfrec.formats.held import File
from bpfrec.formats.limits import ETHERNET_DATA, HEADER_LEN
from bpfrec.formats.packet import Fault, Header, body_of, data_of, header_of
from bpfrec.formats.records import End, Program
from bpfrec.formats.whole_file import SETUP, WholeFile, begins_whole_file, is_own

# A record of a program is far shorter; a longer packet is another recorder's.
MOST_RECORD_LEN = 1 << 20
# How many packets are looked at ahead of those that are asked for.
MOST_AHEAD = 64
# Takes a damaged place, and how many bytes are left out.
Report = Callable[[Fault, int], None]


class Place(NamedTuple):
    """A packet of frames: its channel ID, its first counter, its place, its length, and which program was in force: the
    index in the channel's programs, -1 where none was."""

    channel: int
    first: int
    at: int
    length: int
    program: int


class Met(NamedTuple):
    """A program of a channel, and the counter of the first frame that met it."""

    program: Program
    counter: int


class Channel:
    """What a recording has of a channel: packets of frames, programs, and the record of its end."""

    def __init__(self) -> None:
        self.packets: list[Place] = []
        self.programs: list[Program] = []
        self.end: Optional[End] = None


class Index:
    """The channels of a recording, as far as it was read: headers are read on where somebody asks. Of a whole file what
    it says of its times is taken too; what of that can't be read is a fault without a number."""

    def __init__(self, file: File, report: Report) -> None:
        self.file, self.path, self.report = file, file.path, report
        self.channels: dict[int, Channel] = {}
        # All packets of frames, and all programs, in the order of the recording.
        self.places: list[Place] = []
        self.met: list[Met] = []
        self.packets = 0
        # Whether a place is damaged, and how many bytes of packets of frames were read.
        self.is_damaged, self.done = False, 0
        # What a whole Chapter 11 file says of its times; None of a recording.
        self.whole = WholeFile() if begins_whole_file(file.read_at(0, HEADER_LEN)) else None
        self.follower = Follower(file.read_at, self.take)
        self.follower.end(file.size)

    def is_read(self) -> bool:
        """Whether all headers were read."""
        return self.follower.at >= self.file.size

    def read_on(self) -> None:
        """Goes on from header to header for a little; a damaged place is reported, and the reading goes on behind it."""
        for fault in self.follower.read_on(self.file.size, MOST_AHEAD):
            self.note(fault, self.follower.at - fault.at)

    def read(self) -> None:
        """Reads all headers."""
        while not self.is_read():
            self.read_on()

    def all_places(self) -> Iterator[Place]:
        """All packets of frames, in the order of the recording."""
        at = 0
        while at < len(self.places) or not self.is_read():
            if at < len(self.places):
                yield self.places[at]
                at += 1
            else:
                self.read_on()

    def take(self, front: Front) -> None:
        """Notes a packet by its header. One that may be a record is read, and must be whole."""
        self.packets += 1
        header = front.header
        if self.whole and is_own(header.kind):
            self.take_own(self.whole, front)
        elif not header.is_plain():
            return
        elif header.kind == ETHERNET_DATA:
            channel = self.channel(header.channel)
            place = Place(header.channel, header.counter, front.at, header.packet_len, len(channel.programs) - 1)
            channel.packets.append(place)
            self.places.append(place)
        elif header.may_be_record() and header.packet_len <= MOST_RECORD_LEN:
            self.take_record(header, self.file.read_at(front.at, header.packet_len))

    def take_own(self, whole: WholeFile, front: Front) -> None:
        """Takes a setup record or a time packet."""
        at, header = front.at, front.header
        if header.packet_len > header.most_len():
            self.note(Fault(0, "Length", at), header.packet_len)
        elif not whole.take(header, self.file.read_at(at, header.packet_len)):
            self.note(Fault(0, "Setup" if header.kind == SETUP else "Time", at), header.packet_len)

    def take_record(self, header: Header, packet: bytes) -> None:
        """Notes a record."""
        what, fault = body_of(header, packet)
        if fault is not None:
            raise BadBody
        if isinstance(what, Program):
            self.channel(what.channel).programs.append(what)
            self.met.append(Met(what, header.counter))
        elif isinstance(what, End):
            self.channel(what.channel).end = what

    def channel(self, number: int) -> Channel:
        """What is known of a channel."""
        return self.channels.setdefault(number, Channel())

    def note(self, fault: Fault, length: int) -> None:
        """Notes bytes that are left out."""
        self.is_damaged |= fault.number > 0
        self.report(fault, length)

    def body(self, place: Place) -> Optional[tuple[Frames, bytes]]:
        """The frames of a packet, and the data that have them; None where they are none or damaged, which is reported."""
        packet = self.file.read_at(place.at, place.length)
        self.done += place.length
        if len(packet) < place.length:
            self.note(Fault(1, "Truncated", place.at), len(packet))
            return None
        header = header_of(packet)
        what, fault = body_of(header, packet)
        if fault is not None:
            self.note(Fault(*fault, place.at), place.length)
        return (what, data_of(header, packet)) if isinstance(what, Frames) else None
