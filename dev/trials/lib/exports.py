"""The export of a recording by docs/user/formats/recording.md: a second definition, by which `bpfrec export` is tried."""

from typing import NamedTuple

from bpfrec.formats.body import Frames
from bpfrec.formats.packet import Packet
from bpfrec.formats.records import Program
from pcapng import interface, option, packet, section
from reading import packets_of
from rows import Held, frames_in

INSN_LEN = 8
LEAST_FRAME_LEN = 18
COMMENT, NAME, FLAGS, RESOLUTION, CHECK_SEQUENCE_LEN, OFFSET = 1, 2, 2, 9, 13, 14
END = option("<", 0, b"")


class Shown(NamedTuple):
    """A frame that an export is to show."""

    interface: int
    channel: int
    counter: int
    bytes: bytes
    marks: int
    comments: list[str]


class Version(NamedTuple):
    """A version of a filter."""

    number: int
    insns: int


def text_of(versions: list[Version]) -> str:
    """What a comment says of versions that have no frame between them."""
    if not versions:
        return ""
    last = versions[-1]
    if len(versions) == 1:
        return f"filter version {last.number}, {last.insns} instructions"
    return f"filter versions {versions[0].number} to {last.number}, the last of {last.insns} instructions"


def notes_of(frame: Held) -> list[str]:
    """What comments say of bytes that are no Ethernet frame with its check sequence."""
    content = frame.word >> 28 & 3
    if content:
        return [f"content {content}: no Ethernet frame with its FCS"]
    return [] if len(frame.bytes) >= LEAST_FRAME_LEN else ["too short for an Ethernet frame with its FCS"]


class Export:
    """What an export of packets is to be, by docs/user/formats/recording.md: its frames, and its bytes."""

    def __init__(self, origin: int | None = None) -> None:
        self.origin = origin
        self.numbers: dict[int, int] = {}
        self.later: dict[int, list[Version]] = {}
        self.frames: list[Shown] = []
        self.parts = [section("<")]

    @property
    def bytes(self) -> bytes:
        return b"".join(self.parts)

    def take(self, given: Packet) -> None:
        if isinstance(given.what, Program):
            version = Version(given.what.version, len(given.what.insns) // INSN_LEN)
            if not self.describe(given.what.channel, text_of([version])):
                self.later.setdefault(given.what.channel, []).append(version)
        elif isinstance(given.what, Frames):
            self.describe(given.header.channel)
            for frame in frames_in(given):
                self.show(given.header.channel, frame)

    def describe(self, channel: int, comment: str = "") -> bool:
        """Describes a channel's interface, unless it is."""
        if channel in self.numbers:
            return False
        self.numbers[channel] = len(self.numbers)
        options = [option("<", RESOLUTION, b"\x07"), option("<", NAME, f"channel {channel}".encode())]
        options.append(option("<", CHECK_SEQUENCE_LEN, b"\x04"))
        if self.origin is not None:
            options.append(option("<", OFFSET, self.origin.to_bytes(8, "little")))
        options += [option("<", COMMENT, comment.encode())] if comment else []
        self.parts.append(interface("<", *options, END))
        return True

    def show(self, channel: int, frame: Held) -> None:
        marks, number, comment = frame.word >> 30, self.numbers[channel], text_of(self.later.pop(channel, []))
        comments = [it for it in [comment, *notes_of(frame)] if it]
        self.frames.append(Shown(number, channel, frame.counter, frame.bytes, marks, comments))
        options = []
        if marks:
            value = 4 << 5 | (1 << 24 if marks & 2 else 0) | (1 << 31 if marks & 1 else 0)
            options.append(option("<", FLAGS, value.to_bytes(4, "little")))
        options += [option("<", COMMENT, it.encode()) for it in comments]
        self.parts.append(packet("<", number, frame.counter, frame.bytes, *options, *[END][: len(options)]))


def wanted_of(data: bytes, origin: int | None = None) -> Export:
    """The export of a recording that is read to its end."""
    made = Export(origin)
    for each in packets_of(data):
        made.take(each)
    return made
