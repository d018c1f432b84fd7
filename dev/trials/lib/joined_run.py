"""What recordings of a run become in the second writer's file of several: versions that go on, numbers and counts over
all of them, and one end of each channel. What the audit answers of a recording is what `bpfrec audit` does."""

import struct
from typing import NamedTuple, Optional

from packets import packets_in
from support import BPFREC, outcome
from whole_file import Piece, Refused

VERSIONS, NUMBERS = 1 << 32, 1 << 64
# Answers of the audit of which no recording of a run is taken: those of a packet, and those of a channel.
OF_PACKETS, OF_CHANNELS = ("Order", "NoProgram"), ("NoEnd", "Counts")
KIND, PROGRAM, COUNTS, INSNS = 8, 12, 12, 28


def judge_part(recording: bytes, of: int) -> None:
    """Refuses what is no recording of a run."""
    done = outcome(BPFREC, "audit", "-", input=recording, text=False)
    no, _, name, *places = [*done.stdout.decode().split(), "", "", ""][:4]
    if no == "no" and name in OF_PACKETS:
        raise Refused(8, "Part", [it[0] for it in packets_in(recording)][int(places[0])], of)
    if no == "no" and name in OF_CHANNELS:
        raise Refused(8, "Part", len(recording), of)


class Program(NamedTuple):
    version: int
    insns: bytes


class Channel:
    """A channel of a run, of whose recordings the last that has it is at a place."""

    def __init__(self, last: int) -> None:
        self.last, self.of = last, -1
        # The program of the greatest version: so far, and when the recording began.
        self.greatest: Optional[Program] = None
        self.before: Optional[Program] = None
        # What versions of this recording are raised by, and whether none of its programs has come.
        self.raised, self.is_first = 0, True
        self.offered = self.kept = 0

    def joined(self, packet: Piece) -> Optional[Piece]:
        """What a packet has in the file; None of one that is left out."""
        if packet.of != self.of:
            self.of, self.before, self.is_first = packet.of, self.greatest, True
            self.raised = 0 if self.before is None else self.before.version + 1
        if not packet.record:
            return packet
        kind = struct.unpack_from("<H", packet.record, KIND)[0]
        return self.program(packet) if kind == 1 else self.end(packet)

    def program(self, packet: Piece) -> Optional[Piece]:
        version, first = struct.unpack_from("<IQ", packet.record, PROGRAM)
        insns, is_first, self.is_first = packet.record[INSNS:], self.is_first, False
        if self.before and is_first and (version, insns) == (0, self.before.insns):
            self.raised = self.before.version
            return None
        program = Program(version + self.raised, insns)
        if program.version >= VERSIONS or first + self.offered >= NUMBERS:
            raise Refused(9, "Sum", packet.at, packet.of)
        if not self.greatest or program.version > self.greatest.version:
            self.greatest = program
        return with_fields(packet, PROGRAM, struct.pack("<IQ", program.version, first + self.offered))

    def end(self, packet: Piece) -> Optional[Piece]:
        offered, kept = struct.unpack_from("<QQ", packet.record, COUNTS)
        self.offered, self.kept = self.offered + offered, self.kept + kept
        if packet.of != self.last:
            return None
        if max(self.offered, self.kept) >= NUMBERS:
            raise Refused(9, "Sum", packet.at, packet.of)
        return with_fields(packet, COUNTS, struct.pack("<QQ", self.offered, self.kept))


def with_fields(packet: Piece, at: int, fields: bytes) -> Piece:
    """A record with other fields from a place on."""
    record = packet.record
    return packet._replace(record=record[:at] + fields + record[at + len(fields) :])
