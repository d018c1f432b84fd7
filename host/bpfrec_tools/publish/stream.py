"""The stream of a recording's packets, which the program makes of its bytes: `bpfrec chapter11 --stream`."""

from __future__ import annotations

import fcntl
import os
import re
import select
import struct
import subprocess
import tempfile
from contextlib import suppress
from typing import Callable, NamedTuple

from bpfrec.formats.limits import HEADER_LEN
from bpfrec_tools.chapter11.command import at_descriptor, in_memory
from bpfrec_tools.cli import program
from bpfrec_tools.cli.streams import Refused

# What a pipe holds, as far as the system allows it. Linux has the call, and Python before 3.10 doesn't name it.
PIPE_LEN, F_SETPIPE_SZ = 1 << 20, 1031
# The place and the form of a packet's length.
LENGTH_AT, LENGTH = 4, struct.Struct("<I")
COUNTS = re.compile(r"packets \d+ records \d+ times \d+ late (\d+) other (\d+)")


class Broken(Refused):
    """Why a stream was refused, or how it died."""


class Counts(NamedTuple):
    """What a stream says at its end: how many pieces went out late, and how many packets were another recorder's."""

    late: int
    others: int


class Stream:
    """A stream. `add` takes each packet, and `flush` is called where no more is there by now."""

    def __init__(self, setup: str, add: Callable[[bytes], None], flush: Callable[[], None]) -> None:
        self.add, self.flush = add, flush
        self.errors = tempfile.TemporaryFile()
        self.process = self.started(setup)
        assert self.process.stdin and self.process.stdout
        self.into, self.out = self.process.stdin, self.process.stdout
        for pipe in (self.into, self.out):
            os.set_blocking(pipe.fileno(), False)
            with suppress(OSError):
                fcntl.fcntl(pipe, F_SETPIPE_SZ, PIPE_LEN)
        # What begins a packet that isn't whole yet.
        self.held = b""
        self.is_over = False

    def started(self, setup: str) -> subprocess.Popen[bytes]:
        """The program, in a session of its own: Ctrl-C ends it by its input alone."""
        descriptor, pipe = in_memory(setup), subprocess.PIPE
        words = [program.find(), "chapter11", "--stream", at_descriptor(descriptor)]
        try:
            return subprocess.Popen(
                words, 0, None, pipe, pipe, self.errors, pass_fds=[descriptor], start_new_session=True
            )
        finally:
            os.close(descriptor)

    def write(self, data: bytes) -> int:
        """Gives it bytes of the recording: how many it takes now."""
        try:
            return os.write(self.into.fileno(), data)
        except BlockingIOError:
            return 0
        except BrokenPipeError:
            self.is_over = True
            return 0

    def wait(self, seconds: float, is_full: bool) -> None:
        """Waits until packets have come, or where it was full until it takes more, and so long at most."""
        select.select([self.out], [self.into] if is_full else [], [], seconds)

    def read(self) -> None:
        """Takes what has come."""
        with suppress(BlockingIOError):
            while data := os.read(self.out.fileno(), PIPE_LEN):
                self.take(data)
            self.is_over = True
        self.flush()

    def take(self, data: bytes) -> None:
        """Takes bytes of packets."""
        held, at = self.held + data, 0
        while len(held) >= at + HEADER_LEN:
            (length,) = LENGTH.unpack_from(held, at + LENGTH_AT)
            if len(held) < at + length:
                break
            self.add(held[at : at + length])
            at += length
        self.held = held[at:]

    def end(self) -> Counts:
        """Takes what is left behind the last byte of its recording; Broken where it was refused or died."""
        self.into.close()
        os.set_blocking(self.out.fileno(), True)
        self.read()
        return self.counts()

    def counts(self) -> Counts:
        """What it said at its end."""
        self.into.close()
        self.out.close()
        status = self.process.wait()
        with self.errors:
            self.errors.seek(0)
            line = self.errors.read().decode(errors="replace").strip()
        found = COUNTS.fullmatch(line)
        if status or not found:
            raise Broken(line or (f"its stream ended by signal {-status}" if status < 0 else "its stream said nothing"))
        return Counts(int(found[1]), int(found[2]))
