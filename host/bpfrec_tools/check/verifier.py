"""Signatures of facts, verified by ssh-keygen with a file of allowed signers."""

from __future__ import annotations

import errno
import shutil
import subprocess
from typing import Optional

from bpfrec_tools.cli.signatures import MISSING, NAMESPACE, PROGRAM, Unsigned, environment, reason_in


def verifier_of(signers: str, identity: Optional[str]) -> Verifier:
    """What verifies by a file of allowed signers; an OSError says which file is missing or can't be read."""
    if not shutil.which(PROGRAM):
        raise FileNotFoundError(errno.ENOENT, MISSING, PROGRAM)
    with open(signers, "rb"):
        return Verifier(signers, identity)


class Verifier:
    """Verifies by a file of allowed signers, as ssh-keygen(1) has it: as one of them, or as whom the file gives the
    signature's key."""

    def __init__(self, signers: str, identity: Optional[str]) -> None:
        self.signers, self.identity = signers, identity

    def signer_of(self, facts: bytes, signature: str) -> str:
        """Who signed these facts; an Unsigned says why nobody did who may."""
        fault = Unsigned("nobody may sign")
        for identity in [self.identity] if self.identity is not None else self.principals(signature):
            try:
                self.asked("verify", "-I", identity, "-n", NAMESPACE, "-s", signature, given=facts)
                return identity
            except Unsigned as why:
                fault = why
        raise fault

    def principals(self, signature: str) -> list[str]:
        """The signers whose key made a signature."""
        return self.asked("find-principals", "-s", signature).splitlines()

    def asked(self, what: str, *arguments: str, given: bytes = b"") -> str:
        """What ssh-keygen prints."""
        words = [PROGRAM, "-Y", what, "-f", self.signers, *arguments]
        done = subprocess.run(words, input=given, capture_output=True, env=environment(), check=False)
        if done.returncode:
            raise Unsigned(reason_in(done.stderr, done.returncode))
        return done.stdout.decode(errors="surrogateescape")
