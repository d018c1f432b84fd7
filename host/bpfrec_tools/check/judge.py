"""Judges recordings by the facts beside them: hash, length and name, the recording before, and the signature."""

from __future__ import annotations

import hashlib
import os
import stat
from typing import Callable, NamedTuple, Optional

from bpfrec.formats.names import facts_path, signature_path
from bpfrec_tools.check.claims import MAX_LEN, Claims, NoClaims, claims_in
from bpfrec_tools.check.order import Chain, Given, place_of
from bpfrec_tools.check.verifier import Verifier
from bpfrec_tools.cli.signatures import Unsigned

# How many bytes of a recording are read at once.
PIECE = 1 << 20


class Content(NamedTuple):
    """What a file has: its SHA-256 and its length."""

    digest: str
    length: int


def is_regular(path: str) -> bool:
    """Whether a file is no pipe, device or folder, for which a reader might wait."""
    return stat.S_ISREG(os.stat(path).st_mode)


def content_of(path: str) -> Optional[Content]:
    """What a file has; None of a pipe or a device, which can't be read twice."""
    if not is_regular(path):
        return None
    digest, length = hashlib.sha256(), 0
    with open(path, "rb", buffering=0) as file:
        while piece := file.read(PIECE):
            digest.update(piece)
            length += len(piece)
    return Content(digest.hexdigest(), length)


def name_of(path: str) -> str:
    """The name of a recording as facts have it, without bytes that are no UTF-8."""
    return os.path.basename(path).encode(errors="ignore").decode()


def shown(name: str) -> str:
    """A name that others wrote, with a question mark for what isn't to be seen on a line."""
    return "".join(it if it.isprintable() else "?" for it in name)


class Judge:
    """Judges recordings, which come in order. `out` takes a line, and without a verifier no signature is asked for."""

    def __init__(self, verifier: Optional[Verifier], out: Callable[[str], object]) -> None:
        self.verifier, self.out = verifier, out
        self.chain = Chain()
        # What is wrong of the recording that was judged last.
        self.faults: list[str] = []
        self.is_last = False

    def judge(self, path: str, is_last: bool = False) -> bool:
        """Prints what the facts beside a recording come to, which has to be the last one of its run or not; whether
        nothing of it is wrong."""
        self.faults, self.is_last = [], is_last
        self.chain.move_to(place_of(path))
        content = content_of(path)
        if content is None:
            self.missing("hash none: it is no regular file")
            return not self.faults
        facts = self.facts_of(path)
        if facts is not None:
            self.judge_facts(path, facts, content)
        self.chain.current.append(Given(name_of(path), content.digest))
        return not self.faults

    def wrong(self, line: str) -> None:
        """Something is wrong."""
        self.faults.append(line)
        self.out(line)

    def missing(self, line: str) -> None:
        """Something isn't there, which is wrong where signatures are asked for."""
        self.faults += [line] if self.verifier else []
        self.out(line)

    def facts_of(self, path: str) -> Optional[bytes]:
        """The bytes of the facts beside a recording; None where there are none."""
        try:
            if not is_regular(facts_path(path)):
                self.wrong("facts wrong: they are no regular file")
                return None
            with open(facts_path(path), "rb") as file:
                return file.read(MAX_LEN + 1)
        except FileNotFoundError:
            self.missing("hash none: there are no facts")
            return None

    def judge_facts(self, path: str, facts: bytes, content: Content) -> None:
        """Judges all that facts claim, and who signed them."""
        try:
            claims = claims_in(facts)
        except NoClaims as why:
            self.wrong(f"facts wrong: {why}")
        else:
            self.judge_content(claims, content)
            self.judge_name(claims, name_of(path))
            self.judge_before(claims)
            if self.is_last and claims.following is not None:
                self.wrong(f"next missing: {shown(claims.following)}")
        if self.verifier:
            self.judge_signature(self.verifier, facts, signature_path(facts_path(path)))

    def judge_content(self, claims: Claims, content: Content) -> None:
        """The hash and the length."""
        if claims.length is not None and claims.length != content.length:
            self.wrong(f"length wrong: {content.length}, the facts say {claims.length}")
        if claims.digest is None:
            self.missing("hash none: the facts have none")
        elif claims.digest != content.digest:
            self.wrong(f"hash wrong: {content.digest}, the facts say {claims.digest}")
        else:
            self.out("hash right")

    def judge_name(self, claims: Claims, name: str) -> None:
        """Whether the facts are of this recording."""
        if claims.name != name:
            self.wrong(f"name wrong: the facts are of {shown(claims.name)}")

    def judge_before(self, claims: Claims) -> None:
        """Whether the recording before is the one of this run that was given before."""
        before, given = claims.before, self.chain.before
        if before is None:
            self.out("before none")
        elif not given:
            self.out(f"before not given: {shown(before.name)}")
        elif before.name not in [it.name for it in given]:
            self.wrong(f"before wrong: {shown(given[-1].name)}, the facts say {shown(before.name)}")
        elif before.digest is None:
            self.missing(f"before unknown: {shown(before.name)} had no hash")
        elif Given(before.name, before.digest) not in given:
            self.wrong(f"before wrong: {shown(before.name)} has another hash than the facts say")
        else:
            self.out(f"before right: {shown(before.name)}")

    def judge_signature(self, verifier: Verifier, facts: bytes, path: str) -> None:
        """Whether somebody signed the facts who may."""
        try:
            if not is_regular(path):
                raise Unsigned("it is no regular file")
            self.out(f"signature right: {shown(verifier.signer_of(facts, path))}")
        except FileNotFoundError:
            self.wrong("signature none")
        except Unsigned as why:
            self.wrong(f"signature wrong: {why}")
