"""bpfrec salvage: what is left of a recording that was cut or damaged."""

from __future__ import annotations

import os
from itertools import chain
from typing import BinaryIO, Callable, Iterable, Iterator, NoReturn, Optional, Union

from bpfrec.formats.body import Frames
from bpfrec.formats.guesses import guess_at
from bpfrec.formats.names import facts_path
from bpfrec.formats.packet import Damage, Packet
from bpfrec.formats.reader import reader_of
from bpfrec.formats.records import End
from bpfrec_tools.cli import printing
from bpfrec_tools.cli.arguments import Parser, name_of
from bpfrec_tools.cli.program import audit_of
from bpfrec_tools.cli.progress import Progress, size_of
from bpfrec_tools.cli.streams import NO_PACKET, STREAM, Refused, created, force, input_at, refuse_overwriting

ABOUT = """\
What is left of a recording that was cut or damaged: all packets that are whole, as they are.

Copies the packets of DAMAGED before the first fault and, behind each damaged place, those that begin again with a
right header, and with a right data checksum if they have one. It prints a line for each place where something
was lost, as it finds it:

  lost <bytes> at <place> after read <number> <Name>   bytes that are no packet, and what is wrong with the first
  missing <n> of <channel> from <sequence> at <place>  sequence numbers of that channel ID that are missing before
                                                       the packet at <place>, modulo 256, so more may be

then `no end of <channel>` for each channel without an end record; if something was lost, what `bpfrec audit` says of
OUT, or why it wasn't asked:

  audit: <answer>                                      as audit: no 5 NoEnd 1; it is not asked if OUT is no
                                                       regular file, or if bpfrec is missing

and at last

  kept <packets> packets <bytes> bytes, lost <bytes> bytes at <n> places

An OUT that exists is refused unless --force is given, and DAMAGED if no packet of it is whole. Then nothing is made.
Places are counted in bytes from the beginning of DAMAGED. `bpfrec list` and `bpfrec extract` read OUT. When the last
lines are printed, OUT is on its disk. As DAMAGED `-` is standard input, and as OUT standard output; then the lines go
to standard error.
"""
MORE = """\
It runs bpfrec: what BPFREC names, or the one beside it.

Status: 0 nothing was lost, 1 something was, 2 the arguments are wrong, 3 a file can't be read or written, or OUT
exists, 4 out of memory.
"""


# What is read of a recording.
Piece = Union[Packet, Damage]


class SalvageParser(Parser):
    """A parser that says in one line what salvage takes."""

    def error(self, message: str) -> NoReturn:
        """Ends where the arguments are wrong."""
        name = name_of("salvage")
        printing.err(f"{name_of('salvage')}: it takes DAMAGED and OUT: {name} --help has its arguments")
        self.exit(2)


class Left:
    """What is left: the packets that were kept, and what they say is missing."""

    def __init__(self) -> None:
        self.packets, self.bytes = 0, 0
        # By channel ID: the sequence number that comes next, and whether the record of the channel's end was there.
        self.next: dict[int, int] = {}
        self.has_end: dict[int, bool] = {}

    def take(self, packet: Packet) -> Optional[str]:
        """Takes a packet, and tells which sequence numbers are missing before it, as a line; None where none is."""
        header, what = packet.header, packet.what
        self.packets, self.bytes = self.packets + 1, self.bytes + len(packet.bytes)
        if what is not None:
            channel = header.channel if isinstance(what, Frames) else what.channel
            self.has_end[channel] = self.has_end.get(channel, False) or isinstance(what, End)
        wanted = self.next.get(header.channel, 0)
        self.next[header.channel] = (header.sequence + 1) % 256
        missing = (header.sequence - wanted) % 256
        return f"missing {missing} of {header.channel} from {wanted} at {packet.at}" if missing else None

    def lines(self) -> list[str]:
        """Which channels have no end, as lines."""
        return [f"no end of {channel}" for channel, has_end in sorted(self.has_end.items()) if not has_end]


def salvage(damaged: BinaryIO, out: BinaryIO) -> bool:
    """Copies what is whole, and prints what was lost: whether nothing was."""
    return copy(watched(damaged, True), out)


def printed(line: str) -> None:
    """Prints a line on standard output."""
    printing.out(f"{line}\n")


def copy(pieces: Iterable[Piece], out: BinaryIO, say: Callable[[str], None] = printed) -> bool:
    """The same of what is read; `say` takes the lines."""
    left, places, lost, is_missing = Left(), 0, 0, False
    for piece in pieces:
        if isinstance(piece, Damage):
            say(f"lost {piece.length} at {piece.fault.at} after read {piece.fault.number} {piece.fault.name}")
            places, lost = places + 1, lost + piece.length
            continue
        out.write(piece.bytes)
        missing = left.take(piece)
        if missing:
            say(missing)
            is_missing = True
    force(out)
    told = left.lines()
    is_whole = not (told or places or is_missing)
    # By its descriptor, so that it may have any name, and another one meanwhile.
    told += [] if is_whole else [f"audit: {audit_of(f'/proc/self/fd/{out.fileno()}')}"]
    told.append(f"kept {left.packets} packets {left.bytes} bytes, lost {lost} bytes at {places} places")
    say("\n".join(told))
    return is_whole


def watched(damaged: BinaryIO, is_quiet: bool) -> Iterator[Piece]:
    """What is read of a recording, with its progress."""
    reader = reader_of(damaged)
    with Progress("salvage", size_of(damaged.fileno()), is_quiet) as progress:
        for piece in reader.pieces():
            yield piece
            progress.at(reader.at)


def parser() -> Parser:
    """The arguments of bpfrec salvage."""
    made = SalvageParser(prog=name_of("salvage"), description=ABOUT, epilog=MORE)
    made.add_argument("--force", action="store_true", help="overwrites an OUT that exists")
    made.add_argument("--quiet", action="store_true", help="shows no progress on a terminal")
    made.add_argument("damaged", metavar="DAMAGED")
    made.add_argument("out", metavar="OUT")
    return made


def up_to_packet(pieces: Iterator[Piece], path: str) -> list[Piece]:
    """What is read up to the first packet that is whole, without which a file is refused."""
    found: list[Piece] = []
    for piece in pieces:
        found.append(piece)
        if isinstance(piece, Packet):
            return found
    raise Refused(
        f"{path}: no recording{guess_at(path)}: no packet of it is whole" if found else f"{path}: {NO_PACKET}"
    )


def run(arguments: list[str]) -> int:
    """Copies what is left of a recording: the status."""
    given = parser().parse_args(arguments)
    is_stream = given.damaged == STREAM
    with open(0 if is_stream else given.damaged, "rb", closefd=not is_stream) as damaged:
        for path in (given.out, STREAM):
            if input_at(path, [given.damaged]):
                raise OSError(0, "it is DAMAGED itself", path)
        refuse_overwriting(given.out, given.force)
        pieces = watched(damaged, given.quiet)
        is_whole = salvage_into(given.out, chain(up_to_packet(pieces, given.damaged), pieces))
    beside = facts_path(given.damaged)
    if given.out != STREAM and os.path.isfile(beside):
        # They stay as they are, since their hash is that of DAMAGED.
        lack = f"{given.out} has no times and names, which are in {beside}"
        printing.err(f"{name_of('salvage')}: {lack}: cp {beside} {facts_path(given.out)}")
    return 0 if is_whole else 1


def salvage_into(path: str, pieces: Iterable[Piece]) -> bool:
    """Copies what is whole into a file; or to standard output, where lines are those of standard error."""
    with created(path) as out:
        return copy(pieces, out, printing.err) if path == STREAM else copy(pieces, out)
