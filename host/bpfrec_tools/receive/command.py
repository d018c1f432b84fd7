"""The command line of bpfrec receive."""

from __future__ import annotations

import argparse
import os
import select
import signal
import socket
import sys
import time
from types import FrameType
from typing import Optional

from bpfrec.formats.packet import Header
from bpfrec.formats.transfer import datagram_in
from bpfrec_tools.cli import printing
from bpfrec_tools.cli.addresses import udp_address
from bpfrec_tools.cli.arguments import Parser, name_of
from bpfrec_tools.cli.moments import some_seconds
from bpfrec_tools.cli.streams import STREAM, Refused, Unreadable
from bpfrec_tools.receive.assembling import Assembling
from bpfrec_tools.receive.output import Files
from bpfrec_tools.receive.shown import Shown
from bpfrec_tools.receive.source import MAX_DATAGRAM_LEN, Source, address_of, opened
from bpfrec_tools.receive.window import Window

ABOUT = """\
Writes what bpfrec publish sends into a file: packets of Chapter 11, each once and in order.

  bpfrec receive 239.1.2.3:50000 flight.ch10
  bpfrec receive --pcapng - 239.1.2.3:50000 | wireshark -k -i -

ADDRESS:PORT is an address of this machine, as 0.0.0.0:50000 or [::]:50000, or a multicast group, which is joined.
OUT begins with the first setup record that comes, and what came ahead of it is behind it. Of each further stream, as of
the next recording of a run, a further file is made, as flight_00002.ch10. An OUT that exists is refused unless --force is
given; `-` is standard output, which gets all recordings.
With --pcapng - standard output gets the frames as a capture too, with the names of the setup record and the times of the
time packets. A reader that is slow may cost datagrams; one that leaves ends it where there is no OUT.

OUT is a Chapter 11 file without an index. Where nothing is missing it is the stream, byte for byte, of which `bpfrec check`
says what went out late. bpfrec audit and bpfrec extract answer as for the recording.
"""
MORE = """\
It ends by Ctrl-C, TERM, --for or --idle, and prints
  received packets <n> datagrams <n> lost <n> doubled <n> damaged <n> skipped <n> foreign <n>
A line `gap <n> datagrams before <number>` on standard error says what is missing. Doubled are datagrams that came twice or
too late; damaged those that are none of this format, and packets with a wrong checksum, which aren't written.
The stream is what the first sender sends, by address and port, until that is silent for 2 s. Foreign are datagrams of
others. Nobody proves who sends: who can send here under the sender's address can write into OUT.
A recorder whose interfaces are quiet sends a datagram each second. A line says where nothing has come for 3 s, from whom
and since when, and another one when datagrams come again.

Status: 0 nothing is missing. 1 a datagram was lost or damaged, a stream broke off, or nothing came. 2 the arguments are
wrong, 3 the address can't be had, or OUT can't be written or is taken, 4 out of memory.
"""
# For how many seconds a datagram that is missing is waited for where no other comes, and what came is read at the end; how
# many are read in a turn; and how many gaps have a line of their own.
GAP_PATIENCE, LAST, A_TURN, MOST_LINES = 0.5, 2.0, 1_024, 100


def parser() -> Parser:
    """The arguments of bpfrec receive."""
    made = Parser(prog=name_of("receive"), description=ABOUT, epilog=MORE)
    made.add_argument("--interface", metavar="NAME", help="the interface on which a group is joined")
    made.add_argument("--for", metavar="SECONDS", dest="seconds", type=some_seconds, help="ends after this time")
    made.add_argument("--idle", metavar="SECONDS", type=some_seconds, help="ends when nothing has come for this time")
    sender = "takes datagrams of this sender alone"
    made.add_argument("--from", metavar="ADDRESS", dest="sender", type=address_of, help=sender)
    made.add_argument("--force", action="store_true", help="overwrites an OUT that exists")
    seen = "gives a capture of what comes to standard output, for Wireshark; then OUT may be missing"
    made.add_argument("--pcapng", metavar="-", choices=[STREAM], help=seen)
    made.add_argument("address", metavar="ADDRESS:PORT", type=udp_address)
    made.add_argument("out", metavar="OUT", nargs="?")
    return made


def err(line: str) -> None:
    """Prints what is wrong."""
    printing.err(f"{name_of('receive')}: {line}")


class Ending:
    """Whether a signal has come that ends it."""

    def __init__(self) -> None:
        self.is_due = False
        for number in (signal.SIGINT, signal.SIGTERM):
            signal.signal(number, self.come)

    def come(self, _: int, __: Optional[FrameType]) -> None:
        """A signal has come."""
        self.is_due = True


class Receiver:
    """Receives datagrams until it is to end."""

    def __init__(self, given: argparse.Namespace, through: socket.socket, ending: Ending) -> None:
        self.given, self.socket, self.ending = given, through, ending
        self.files = Files(
            given.out, given.force, Shown(name_of("receive"), sys.stdout.buffer) if given.pcapng else None
        )
        self.assembling = Assembling(self.take)
        self.window = Window(self.assembling.add, self.gap, self.restart)
        self.datagrams = self.damaged = self.gaps = self.broken = 0
        self.last_at: Optional[float] = None
        self.source = Source(str(given.address), given.sender, self.window.begin_anew, err)
        # When what has come is left at the end.
        self.ends: Optional[float] = None

    def is_late(self) -> bool:
        """Whether the end is so long due that what has come is left."""
        if self.ending.is_due and self.ends is None:
            self.ends = time.monotonic() + LAST
        return self.ends is not None and time.monotonic() > self.ends

    def take(self, header: Header, packet: bytes) -> None:
        """Takes a packet."""
        if self.is_late():
            self.files.skipped += 1
        else:
            self.files.take(header, packet)

    def gap(self, count: int, number: int) -> None:
        """Datagrams are missing ahead of one."""
        self.gaps += 1
        if self.gaps <= MOST_LINES:
            err(f"gap {count} datagrams before {number}")
        self.assembling.gap()

    def restart(self) -> None:
        """Another stream has begun, which a publisher that was killed leaves too."""
        self.assembling.gap()
        if not self.files.restart():
            self.broken += 1
            err("gap of unknown length: another stream begins before the recording has ended")

    def run(self) -> None:
        """Receives until it is to end."""
        begun = time.monotonic()
        ends = begun + self.given.seconds if self.given.seconds else None
        poll = select.poll()
        poll.register(self.socket, select.POLLIN)
        while not self.ending.is_due and not self.files.is_in_vain() and not self.is_over(time.monotonic(), ends):
            if poll.poll(GAP_PATIENCE * 1_000):
                self.read()
            else:
                self.window.give_up()
            self.source.look(time.monotonic())
            self.files.flush()
        self.ends = self.ends or time.monotonic() + LAST
        while self.read():
            pass
        self.window.give_up()

    def is_over(self, now: float, ends: Optional[float]) -> bool:
        """Whether its time is over, or nothing has come for too long."""
        is_idle = self.given.idle and self.last_at is not None and now - self.last_at >= self.given.idle
        return bool(is_idle) or ends is not None and now >= ends

    def read(self) -> bool:
        """Reads what has come, as much as a turn takes: whether more may be there."""
        for _ in range(A_TURN):
            try:
                data, sender = self.socket.recvfrom(MAX_DATAGRAM_LEN)
            except BlockingIOError:
                return False
            if self.is_late():
                return False
            now = time.monotonic()
            if not self.source.takes(sender, now):
                continue
            self.last_at = now
            self.datagrams += 1
            datagram = datagram_in(data)
            if datagram is None:
                self.damaged += 1
            else:
                self.window.add(datagram)
        return True

    def end(self) -> int:
        """Ends the file, and prints what was received: the status."""
        files, window = self.files, self.window
        files.end()
        if self.gaps > MOST_LINES:
            err(f"{self.gaps - MOST_LINES} more gaps")
        damaged = self.damaged + self.assembling.damaged
        counts = f"lost {window.lost} doubled {window.doubled} damaged {damaged} skipped {files.skipped} foreign {self.source.foreign}"
        line = f"received packets {files.packets} datagrams {self.datagrams} {counts}"
        if self.given.pcapng:
            printing.err(line)
        else:
            files.out.report(line)
        if not files.packets:
            err(f"{self.given.out or STREAM} is empty: no recording was received")
        return 1 if window.lost or damaged or self.broken or not files.packets else 0


def run(arguments: list[str]) -> int:
    """Receives: the status."""
    made = parser()
    given = made.parse_args(arguments)
    if given.interface and not given.address.is_multicast():
        made.error(f"--interface is for a multicast group, which {given.address} is not")
    if given.pcapng and given.out == STREAM:
        made.error("--pcapng - takes standard output, and OUT is that too")
    if not given.pcapng and given.out is None:
        made.error("the following arguments are required: OUT")
    # Ahead of OUT, by which another program sees that it listens.
    ending = Ending()
    try:
        if given.pcapng and os.isatty(1):
            raise Refused("standard output is a terminal, which shows no capture")
        with listening(given) as through:
            receiver = Receiver(given, through, ending)
            receiver.run()
            return receiver.end()
    except Refused as refused:
        err(str(refused))
        return Unreadable.status


def listening(given: argparse.Namespace) -> socket.socket:
    """The socket at which datagrams come."""
    try:
        return opened(given.address, given.interface)
    except OSError as error:
        raise Unreadable(f"{given.address}: {error.strerror or error}") from None
