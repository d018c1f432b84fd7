"""A second writer of whole Chapter 11 files, by docs/user/formats/whole_file.md alone: plain and slow, all in lists.

It shares no code with the program, whose files are compared with its own byte for byte, nor with the reader of such
files. `whole_file` gives a file's bytes and its counts, or raises `Refused`.
"""

import struct
from collections import Counter, deque
from typing import Collection, Iterable, Iterator, NamedTuple, Optional

from frames import COMPUTER, FRAMES, body_of, packet_of
from packets import Frame, frames_in, packets_in
from whole_file_clock import Mark, civil, marks_of, rules_of, time_body

SETUP, TIME, INDEX = 0x01, 0x11, 0x03
CHANNELS = 1 << 16
PIECE_TICKS, MOST_DISORDER, MOST_GAP = 1_000_000, 10_000_000, 6_048_000_000_000
MOST_PACKET_LENGTH, MOST_NAMED = 524_288, 16_384
# A packet's header, the word of its body and its data checksum; and what stands before the bytes of a frame.
AROUND_FRAMES, FRAME_HEAD = 24 + 4 + 4, 12


class Refused(Exception):
    """Why a recording has no such file: its number, its name, and the place of a packet; `of` is the place of its
    recording among several."""

    def __init__(self, number: int, name: str, at: int, of: int = 0) -> None:
        super().__init__(f"refused {number} {name} {at}")
        self.at, self.of = at, of


class Origin(NamedTuple):
    """From a counter on, the nanoseconds since 1970 at counter 0."""

    counter: int
    nanoseconds: int


class Setup(NamedTuple):
    """What is set: origins as they were noted, names, whether an outside source held the clock, attributes, and of
    channels their name and network identifier."""

    origins: tuple[Origin, ...]
    host: str = "bpfrec"
    program: str = "bpfrec"
    is_external: bool = False
    attributes: tuple[str, ...] = ()
    channels: dict[int, tuple[str, int]] = {}


class Piece(NamedTuple):
    """What becomes one packet, or more where time packets stand between: frames, or a record as it is. `at` is the place
    of its packet in the recording, and `of` that of the recording among several."""

    at: int
    counter: Optional[int]
    frames: tuple[Frame, ...] = ()
    record: bytes = b""
    of: int = 0


# ---- the recording


def contents_of(recording: bytes, of: int = 0) -> Iterator[tuple[int, Piece]]:
    """What each packet has, which isn't cut yet, and its channel."""
    for at, channel, kind, counter, data in packets_in(recording):
        if kind == FRAMES and channel:
            yield channel, Piece(at, None, tuple(frames_in(data)), of=of)
        elif (kind, channel, data[4:8]) == (COMPUTER, 0, b"CBPR"):
            record_kind, named = struct.unpack_from("<HH", data, 8)
            is_counted = record_kind == 1 or struct.unpack_from("<Q", data, 12)[0] > 0
            yield named, Piece(at, counter if is_counted else None, record=data, of=of)
        else:
            raise Refused(1, "Other", at, of)


def pieces_of(packet: Piece) -> Iterator[Piece]:
    """The pieces of what a packet has, but for time packets."""
    if packet.record:
        yield packet
    piece: list[Frame] = []
    length = 0
    for frame in packet.frames:
        size = FRAME_HEAD + len(frame.bytes) + len(frame.bytes) % 2
        if piece and not goes_on(piece, length + size, frame):
            yield packet._replace(counter=piece[0].counter, frames=tuple(piece))
            piece, length = [], 0
        piece.append(frame)
        length += size
    if piece:
        yield packet._replace(counter=piece[0].counter, frames=tuple(piece))


def goes_on(piece: list[Frame], length: int, frame: Frame) -> bool:
    """Whether a frame belongs to the piece of those before it, which has this length with it."""
    return (
        piece[-1].counter <= frame.counter < piece[0].counter + PIECE_TICKS
        and AROUND_FRAMES + length + -length % 4 <= MOST_PACKET_LENGTH
    )


class Recording:
    """What a recording has of each channel that it names, in order, and its least counter."""

    def __init__(self, contents: Iterable[tuple[int, Piece]]) -> None:
        self.channels: dict[int, deque[Piece]] = {}
        for channel, packet in contents:
            self.channels.setdefault(channel, deque()).extend(pieces_of(packet))
        pieces = (piece for pieces in self.channels.values() for piece in pieces)
        self.least = min((it.counter for it in pieces if it.counter is not None), default=0)
        self.time_channel = next((it for it in range(1, CHANNELS) if it not in self.channels), 0)
        if not self.time_channel:
            raise Refused(7, "Full", 0)

    def take(self) -> Optional[tuple[int, Piece]]:
        """The channel and the piece that go out next."""
        heads = [(it[0].counter is None, it[0].counter or 0, number) for number, it in self.channels.items() if it]
        if not heads:
            return None
        number = min(heads)[2]
        return number, self.channels[number].popleft()


# ---- the setup record


def cleaned(name: str) -> str:
    """A name as it stands in the setup record."""
    plain = "".join(it if " " <= it <= "~" and it not in ";:\\" else "_" for it in name)
    return plain.strip(" ")[:32] or "NONE"


def setup_body(setup: Setup, channels: Collection[int], time_channel: int, first: Mark, is_indexed: bool) -> bytes:
    """The data of a setup record."""
    said = civil(first.moment)
    hour, minute, second, _ = said.clock()
    host, source = cleaned(setup.host), "E" if setup.is_external else "I"
    named = [it for it in setup.attributes if it.startswith("G\\PN:")]
    lines = [
        *(named or ["G\\PN:bpfrec"])[:1],
        "G\\106:17",
        f"G\\OD:{said.date_text()}",
        "G\\DSI\\N:1",
        f"G\\DSI-1:{host}",
    ]
    lines += ["G\\DST-1:STO", f"R-1\\ID:{host}", "R-1\\RID:bpfrec", f"R-1\\R1:{cleaned(setup.program)}", "R-1\\TC1:SSR"]
    lines += ["R-1\\RI3:Y", f"R-1\\RI4:{said.date_text()}-{hour:02}-{minute:02}-{second:02}", "R-1\\NSB:0"]
    lines += ["R-1\\IDX\\E:T", "R-1\\IDX\\IT:C", "R-1\\IDX\\ICV:1"] if is_indexed else ["R-1\\IDX\\E:F"]
    lines += ["R-1\\EV\\E:F", f"R-1\\N:{len(channels) + 1}"]
    lines += [f"R-1\\TK1-1:{time_channel}", "R-1\\TK4-1:1", "R-1\\CHE-1:T", "R-1\\DSI-1:TIME", "R-1\\CDT-1:TIMEIN"]
    lines += ["R-1\\TTF-1:1", "R-1\\TFMT-1:I", f"R-1\\TSRC-1:{source}"]
    for number, channel in enumerate(sorted(channels), 2):
        name, net = setup.channels.get(channel, ("channel", 0))
        label = cleaned(f"{cleaned(name)[:24]} {channel}")
        lines += [f"R-1\\TK1-{number}:{channel}", f"R-1\\TK4-{number}:{number}", f"R-1\\CHE-{number}:T"]
        lines += [f"R-1\\DSI-{number}:{label}", f"R-1\\CDT-{number}:ETHIN", f"R-1\\ENTF-{number}:0"]
        lines += [f"R-1\\NNET-{number}:1", f"R-1\\ENBR-{number}-1:{net}", f"R-1\\ENAM-{number}-1:{cleaned(name)}"]
    lines += [
        "R-1\\COM:Packets of type 0 on channel 0 with the tag CBPR hold the filter programs and the counts of bpfrec"
    ]
    text = "".join(f"{it};\r\n" for it in [*lines, *(it for it in setup.attributes if it not in named)])
    return struct.pack("<I", 0x0C) + text.encode("ascii")


# ---- the file


class Entry(NamedTuple):
    """A packet that went out: its counter, channel, type and place."""

    counter: int
    channel: int
    kind: int
    at: int


class File:
    """A file as it grows."""

    def __init__(self, most_named: int) -> None:
        self.data, self.most_named = bytearray(), most_named
        self.greatest = 0
        self.sequences: Counter[int] = Counter()
        self.entries: list[Entry] = []
        self.nodes: list[Entry] = []
        self.root: Optional[Entry] = None
        self.counts: Counter[str] = Counter()

    def put(self, what: str, channel: int, kind: int, counter: int, data: bytes) -> Entry:
        """Writes a packet, and its entry into the index."""
        entry = self.write(what, channel, kind, counter, data)
        self.entries.append(entry)
        if len(self.entries) == self.most_named:
            self.put_node()
        return entry

    def write(self, what: str, channel: int, kind: int, counter: int, data: bytes) -> Entry:
        entry = Entry(counter, channel, kind, len(self.data))
        self.data += packet_of(channel, data, self.sequences[channel], kind, counter, True)
        self.sequences[channel] += 1
        self.greatest = max(self.greatest, counter)
        self.counts[what] += 1
        return entry

    def put_node(self) -> None:
        rows = [struct.pack("<QHBBQ", it.counter, it.channel, it.kind, 0, it.at) for it in self.entries]
        data = struct.pack("<I", 1 << 31 | len(rows)) + b"".join(rows)
        self.nodes.append(self.write("index", 0, INDEX, self.greatest, data))
        self.entries = []
        if len(self.nodes) == self.most_named:
            self.put_root()

    def put_root(self) -> None:
        place = Entry(self.greatest, 0, INDEX, len(self.data))
        rows = [struct.pack("<QQ", it.counter, it.at) for it in [*self.nodes, self.root or place]]
        self.root = self.write("index", 0, INDEX, self.greatest, struct.pack("<I", len(rows)) + b"".join(rows))
        self.nodes = []

    def end(self) -> None:
        if self.entries:
            self.put_node()
        if self.nodes or not self.root:
            self.put_root()

    def line(self) -> str:
        """What the command prints."""
        names = ("times", "packets", "records", "index")
        return " ".join(f"{it} {self.counts[it]}" for it in names) + f" bytes {len(self.data)}"


def judge_year(mark: Mark) -> None:
    if civil(mark.moment).date is None:
        raise Refused(5, "Year", 0)


def put_time(file: File, mark: Mark, setup: Setup, recording: Recording) -> None:
    judge_year(mark)
    file.put("times", recording.time_channel, TIME, mark.tick, time_body(mark, setup.is_external))


def whole_file(data: bytes, setup: Setup, most_named: int = MOST_NAMED) -> File:
    """The file of a recording."""
    return file_of(Recording(contents_of(data)), setup, most_named)


def file_of(recording: Recording, setup: Setup, most_named: int = MOST_NAMED) -> File:
    """The file of what a recording has."""
    file, marks = File(most_named), marks_of(rules_of(setup.origins), recording.least)
    first = next(marks, None)
    if first is None:
        raise Refused(4, "Origin", 0)
    judge_year(first)
    body = setup_body(setup, recording.channels, recording.time_channel, first, True)
    file.put("setup", 0, SETUP, first.tick, body)
    put_time(file, first, setup, recording)
    ahead = next(marks, None)
    while taken := recording.take():
        channel, piece = taken
        counter = file.greatest if piece.counter is None else piece.counter
        if counter < file.greatest - MOST_DISORDER:
            raise Refused(2, "Disorder", piece.at, piece.of)
        if counter > file.greatest + MOST_GAP:
            raise Refused(3, "Gap", piece.at, piece.of)
        while ahead and ahead.tick <= counter:
            put_time(file, ahead, setup, recording)
            ahead = next(marks, None)
        put_piece(file, recording, channel, piece._replace(counter=counter), ahead)
    file.end()
    return file


def put_piece(file: File, recording: Recording, channel: int, piece: Piece, ahead: Optional[Mark]) -> None:
    """Writes a piece up to the next time packet; the rest of it is the channel's next one."""
    assert piece.counter is not None
    if not piece.frames:
        file.put("records", 0, COMPUTER, piece.counter, piece.record)
        return
    later = (at for at, it in enumerate(piece.frames) if ahead and it.counter >= ahead.tick)
    count = next(later, len(piece.frames))
    frames, rest = piece.frames[:count], piece.frames[count:]
    words = [(it.counter, it.word & ~0xFFFF, it.bytes) for it in frames]
    file.put("packets", channel, FRAMES, piece.counter, body_of(words))
    if rest:
        recording.channels[channel].appendleft(piece._replace(counter=rest[0].counter, frames=rest))
