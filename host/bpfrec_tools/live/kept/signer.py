"""Signatures of facts, which live has ssh-keygen make with a key without a passphrase, or one that an agent holds."""

from __future__ import annotations

import os
import shutil
import subprocess
from typing import IO, Optional

from bpfrec_tools.cli.signatures import MISSING, NAMESPACE, PROGRAM, Unsigned, environment, reason_in
from bpfrec_tools.live.parts import children
from bpfrec_tools.live.parts.guard import Guard

# How many seconds ssh-keygen may take, as where it asks an agent; and for a trial, while a person waits for the start.
LONGEST, LONGEST_TRIAL = 30.0, 10.0


class Overdue(Unsigned):
    """It took too long."""


class Signer:
    """Signs with a key. Each program that it starts ends with live, where there is a guard; a thread may call it."""

    def __init__(self, key: str, guard: Optional[Guard] = None, longest: float = LONGEST) -> None:
        self.key, self.guard, self.longest = key, guard, longest
        self.child: Optional[children.Child] = None
        self.is_ended = False

    def sign(self, data: bytes) -> bytes:
        """The signature of these bytes; an Unsigned says why there is none."""
        if not shutil.which(PROGRAM):
            raise Unsigned(MISSING)
        try:
            child = self.child = self.started(data)
        except OSError as error:
            raise Unsigned(f"{PROGRAM}: {error.strerror}") from None
        try:
            if self.is_ended:
                children.kill(child)
            signature, printed = child.process.communicate(timeout=self.longest)
        except subprocess.TimeoutExpired:
            raise Overdue(f"{PROGRAM} took over {self.longest:.0f} s") from None
        finally:
            # It may run still, also where Ctrl-C ended the wait.
            children.kill(child)
            with child.process:
                code = child.process.wait()
            self.child = None
            child.close()
        if code or not signature:
            raise Unsigned(reason_in(printed, code))
        return bytes(signature)

    def started(self, data: bytes) -> children.Child:
        """Starts ssh-keygen, which reads these bytes and prints their signature, so that it writes no file."""
        arguments = [PROGRAM, "-Y", "sign", "-f", self.key, "-n", NAMESPACE]
        with unnamed_file(data) as given:
            streams = (given, subprocess.PIPE, subprocess.PIPE)
            if self.guard is None:
                return children.start(arguments, streams, children.Manner(), environment())
            return self.guard.start(arguments, streams, environment=environment())

    def stop(self) -> None:
        """Ends what is being signed."""
        children.kill(self.child)

    def kill(self) -> None:
        """Ends what is being signed, and what is to be."""
        self.is_ended = True
        self.stop()


def unnamed_file(data: bytes) -> IO[bytes]:
    """A file of these bytes without a name. Unlike a pipe it sends no SIGPIPE where the reader ends early."""
    file = os.fdopen(os.memfd_create("facts"), "w+b")
    try:
        file.write(data)
        file.seek(0)
    except OSError:
        file.close()
        raise
    return file


def signer_of(key: Optional[str], guard: Guard) -> Optional[Signer]:
    """What signs with a key, each program of which ends with live; None where there is no key."""
    return None if key is None else Signer(key, guard)
