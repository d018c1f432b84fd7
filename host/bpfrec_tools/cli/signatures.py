"""Signatures of facts, RECORDING.json.sig: armoured SSHSIG in the namespace `bpfrec`, as ssh-keygen makes and verifies
them."""

from __future__ import annotations

import os
import re

PROGRAM, NAMESPACE = "ssh-keygen", "bpfrec"
MISSING = f"{PROGRAM} is missing: it is in Debian's openssh-client"
# What ssh-keygen prints beside the reason of a fault: a frame of @ around a warning, what it is about to do, a prompt.
BESIDE_A_REASON = re.compile(r"@.*|Signing data on standard input")
PROMPT = re.compile(r"Enter passphrase[^:]*: ")
# By these it would ask a person for a passphrase.
ASKING = ("SSH_ASKPASS", "DISPLAY", "WAYLAND_DISPLAY")


class Unsigned(Exception):
    """Why something isn't signed, or its signature isn't verified."""


def environment() -> dict[str, str]:
    """The environment in which ssh-keygen asks nobody for a passphrase."""
    kept = {name: value for name, value in os.environ.items() if name not in ASKING}
    return {**kept, "SSH_ASKPASS_REQUIRE": "never"}


def reason_in(printed: bytes, code: int) -> str:
    """Why ssh-keygen failed, by the lines that it printed on standard error and its exit code, which is negative after a
    signal."""
    lines = [PROMPT.sub("", it).strip() for it in printed.decode(errors="replace").splitlines()]
    # A full stop ahead of a semicolon is left out.
    told = "; ".join(it for it in lines if it and not BESIDE_A_REASON.fullmatch(it)).replace(".; ", "; ")
    reason = "".join(it if it.isprintable() else "?" for it in told)
    return reason or f"{PROGRAM} " + (f"ended with status {code}" if code >= 0 else f"was ended by signal {-code}")
