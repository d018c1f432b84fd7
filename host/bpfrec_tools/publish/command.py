"""The command line of bpfrec publish."""

from __future__ import annotations

import argparse
import math
import os
import signal
import stat
import time
from contextlib import suppress
from types import FrameType
from typing import Optional

from bpfrec.formats.transfer import DATAGRAM_STEP, MAX_DATAGRAM_LEN, MIN_DATAGRAM_LEN, USUAL_DATAGRAM_LEN
from bpfrec_tools.chapter11.command import origin_of
from bpfrec_tools.chapter11.options import add_setup_options
from bpfrec_tools.chapter11.setup import Asked
from bpfrec_tools.cli import printing
from bpfrec_tools.cli.addresses import length_of, ttl_of, udp_address
from bpfrec_tools.cli.arguments import Parser, name_of
from bpfrec_tools.cli.streams import Refused
from bpfrec_tools.follow.growing import PATIENCE, first_of, next_of
from bpfrec_tools.publish.datagrams import Datagrams
from bpfrec_tools.publish.recording import Recording
from bpfrec_tools.publish.sending import Route, Sending
from bpfrec_tools.publish.stream import Broken
from bpfrec_tools.publish.streaming import Streaming

# Seconds between two lines.
EVERY = 1.0


class Counting:
    """Writes counts to a descriptor, which is a pipe; without one nothing is written."""

    def __init__(self, descriptor: Optional[int]) -> None:
        self.descriptor, self.due = descriptor, 0.0
        if descriptor is not None:
            os.set_blocking(descriptor, False)

    def tell(self, datagrams: int, lost: int, late: int, is_last: bool = False) -> None:
        """Writes these, at most once a second but for the last ones. What the pipe has no room for is left out."""
        now = time.monotonic()
        if self.descriptor is None or now < self.due and not is_last:
            return
        self.due = now + EVERY
        with suppress(OSError):
            os.write(self.descriptor, f"datagrams {datagrams} lost {lost} late {late}\n".encode())


ABOUT = """\
Sends a recording that goes on to a ground station, by UDP: packets of Chapter 11 as they are written, in datagrams with
the transfer header of Chapter 10, format 1.

  bpfrec publish flight.ch11 239.1.2.3:50000

RECORDING is a recording, or the name of a run whose recordings are numbered; then it begins with the newest, and goes on
over those that follow until the run ends. ADDRESS:PORT is a host or a multicast group, of IPv6 as [ff02::1%eth0]:50000.
The packets are those of a stream of `bpfrec chapter11`, which makes them. A setup record (TMATS) stands at the start and
each ten seconds, and a time packet each second. Packets of frames span 100 ms at most, and stand as the recording has
them. Where none came for a second, a datagram without a packet goes out.
"""
MORE = """\
A recording is a stream, and each origin that its clock gets later begins another one. A piece that lies over a second
behind one ahead of it is counted as late. A stream that is refused or dies ends it, and a line says why.

Nothing waits for the network. A datagram that the socket doesn't take is lost: it has no room, no route, or nobody listens
there. A line says so, every 5 s at most, and the recording notices nothing.
What is in RECORDING at the beginning goes out as fast as the socket takes it, which is waited for up to a second. One that
has ended goes out at the pace of its counters, or with --fast as the socket takes it.

At the end it prints `published packets <n> datagrams <n> lost <n> late <n>` on standard error. TERM has it send what is
there of a recording that goes on, and end. What it leaves out of one that has ended, a line counts.

Status: 0 the run has ended, also where datagrams were lost, 1 a recording is damaged or refused, 2 the arguments are wrong,
3 a file can't be read, 4 out of memory, 130 interrupted.
"""


def parser() -> Parser:
    """The arguments of bpfrec publish."""
    name = name_of("publish")
    made = Parser(prog=name, usage=f"{name} [OPTION..] RECORDING ADDRESS:PORT", description=ABOUT, epilog=MORE)
    made.add_argument("--now", action="store_true", help="leaves out the frames that are in the recording already")
    made.add_argument("--fast", action="store_true", help="sends one that has ended as fast as the socket takes it")
    stay = "waits for the next recording of a run until TERM comes"
    made.add_argument("--stay", action="store_true", help=stay)
    ttl = "the hops of a group's datagrams, 0 to 255; 1, which is the link alone, by default"
    made.add_argument("--ttl", metavar="N", type=ttl_of, default=1, help=ttl)
    made.add_argument("--interface", metavar="NAME", help="the interface by which a group's datagrams go")
    limits = f"{MIN_DATAGRAM_LEN} to {MAX_DATAGRAM_LEN} bytes, a multiple of {DATAGRAM_STEP}"
    most = f"the longest datagram, {limits}; {USUAL_DATAGRAM_LEN:,} by default"
    made.add_argument("--datagram", metavar="BYTES", type=length_of, default=USUAL_DATAGRAM_LEN, help=most)
    origin = "where there are no facts, the moment of counter 0 in UTC, in seconds since 1970"
    made.add_argument("--origin", metavar="SECONDS", type=origin_of, help=origin)
    add_setup_options(made)
    counts = "writes `datagrams <n> lost <n> late <n>` to this descriptor, a pipe, each second"
    made.add_argument("--counts", metavar="FD", type=int, help=counts)
    made.add_argument("recording", metavar="RECORDING")
    made.add_argument("address", metavar="ADDRESS:PORT", type=udp_address)
    return made


def err(line: str) -> None:
    """Prints what is wrong."""
    printing.err(f"{name_of('publish')}: {line}")


class Publisher:
    """Publishes the recordings of a run, one after the other."""

    def __init__(self, given: argparse.Namespace) -> None:
        self.given = given
        self.asked = Asked(given.origin, given.ahead, given.external, tuple(given.attribute))
        self.sending = Sending(
            Route(given.address, given.ttl, given.interface), lambda line: err(f"{given.address}: {line}")
        )
        self.datagrams = Datagrams(given.datagram, self.sending.send)
        self.counting = Counting(given.counts)
        self.late = 0
        self.is_damaged = False
        # Whether the first recording had ended, so that all go out at their pace; one that follows may have ended since.
        self.is_replay: Optional[bool] = None
        # TERM came, so what is there of one that goes on is sent, and nothing waited for; or Ctrl-C, which ends all.
        self.is_ending = self.is_interrupted = False

    def end_soon(self, number: int, _: Optional[FrameType]) -> None:
        """A signal has come that ends it."""
        self.is_ending = True
        self.is_interrupted |= number == signal.SIGINT

    def is_given_up(self) -> bool:
        """Whether nothing is waited for any more; while it waits, it shows that it is there."""
        self.datagrams.beat()
        self.tell_counts()
        return self.is_ending

    def tell_counts(self, is_last: bool = False) -> None:
        """Tells whoever began it what went out by now."""
        self.counting.tell(self.datagrams.number, self.sending.lost_in_all(), self.late, is_last)

    def is_left_out(self) -> bool:
        """Whether what hasn't gone out stays out: TERM leaves out what is replayed, and nothing of a run that goes on."""
        return self.is_interrupted or self.is_ending and bool(self.is_replay)

    def run(self, path: str) -> None:
        """Publishes a recording and those that follow it, until the run ends or a stream is broken."""
        next_path: Optional[str] = path
        begins_now = self.given.now
        while next_path:
            recording = Recording(next_path, err, self.asked)
            try:
                recording.begin(begins_now, self.is_given_up)
                if self.is_replay is None:
                    # With --stay it is a run that goes on, whose first recording may have ended meanwhile.
                    self.is_replay = recording.has_ended() and not self.given.stay
                recording.is_paced = self.is_replay and not self.given.fast
                next_path, begins_now = self.publish(recording), False
            except Broken as why:
                err(str(why))
                self.is_damaged, next_path = True, None
            finally:
                self.is_damaged |= recording.is_damaged
                recording.close()

    def publish(self, recording: Recording) -> Optional[str]:
        """Publishes a recording until it has ended: the one that follows."""
        streaming, first_size = Streaming(recording, self.datagrams), recording.file.size_now()
        # What is there already waits for room.
        self.sending.waits = True
        while not (recording.has_all_ends() or recording.has_ended() or self.is_ending):
            streaming.go_on()
            self.tell_counts()
            self.sending.waits = recording.place() < first_size
        recording.follower.end(recording.file.size_now())
        while not self.is_left_out() and (recording.waiting or recording.read_on()):
            streaming.go_on()
            self.tell_counts()
        streaming.finish_packet()
        left = recording.leave_rest()
        streaming.end()
        self.count(streaming, left)
        return self.following(recording)

    def count(self, streaming: Streaming, left: int) -> None:
        """Counts what was late of a recording, and says what is left out."""
        path = streaming.recording.path
        self.late += streaming.late
        if left:
            err(f"{path}: {left} packets are left out")
        if streaming.others:
            err(f"{path}: {streaming.others} packets of another recorder are left out")

    def following(self, recording: Recording) -> Optional[str]:
        """The recording that follows one; None where it stays out."""
        patience = math.inf if self.given.stay else PATIENCE
        next_path = next_of(recording, patience, self.is_given_up)
        if self.is_left_out() and next_path:
            err(f"{next_path} and what follows it are left out")
        return None if self.is_left_out() else next_path

    def end(self) -> None:
        """Prints what was done."""
        self.sending.end()
        self.tell_counts(is_last=True)
        counts = f"datagrams {self.datagrams.number} lost {self.sending.lost_in_all()} late {self.late}"
        printing.err(f"published packets {self.datagrams.packets} {counts}")


def run(arguments: list[str]) -> int:
    """Publishes a recording: the status."""
    made = parser()
    given = made.parse_args(arguments)
    if given.interface and not given.address.is_multicast():
        made.error(f"--interface is for a multicast group, which {given.address} is not")
    # What live begins with --counts may wait for an interface that was there.
    if given.counts is None and (lack := given.address.lacks(given.interface)):
        made.error(lack)
    publisher = Publisher(given)
    for number in (signal.SIGINT, signal.SIGTERM):
        signal.signal(number, publisher.end_soon)
    # Live starts it with these blocked, so that one which comes earlier waits.
    signal.pthread_sigmask(signal.SIG_UNBLOCK, (signal.SIGINT, signal.SIGTERM))
    path = first_of(given.recording)
    if not stat.S_ISREG(os.stat(path).st_mode):
        raise Refused(f"{path}: it is no regular file, which could be followed")
    publisher.run(path)
    publisher.end()
    if publisher.is_interrupted:
        raise KeyboardInterrupt
    return 1 if publisher.is_damaged else 0
