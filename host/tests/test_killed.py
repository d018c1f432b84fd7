"""Tries what tools make of a program that is killed or fails behind its answer: that is no yes."""

import json
import os
import shutil
from pathlib import Path

import pytest
from bpfrec_tools.check.verifier import verifier_of
from bpfrec_tools.cli.program import audit_of
from bpfrec_tools.cli.signatures import Unsigned
from reading import SAMPLES
from support import CHECK, INFO, judge, judge_same, outcome, program_at

YES = "echo 'channel 1 programs 1 frames 1 offered 1'; echo 'yes other 0'"
# How an audit ends that has printed its yes, and what is said of it.
ENDS = {
    "exit 0": "yes other 0",
    "kill -9 $$": "ended by signal 9",
    "kill -11 $$": "ended by signal 11",
    "exit 1": "status 1",
    "exit 3": "status 3",
    "echo memory >&2; exit 4": "memory",
}


@pytest.mark.parametrize("end", ENDS)
def test_an_audit_that_fails_behind_its_yes_has_not_said_it(
    work: Path, end: str, monkeypatch: pytest.MonkeyPatch
) -> None:
    recording = Path(shutil.copy(SAMPLES[1], work / "x.ch11"))
    monkeypatch.setenv("BPFREC", str(program_at(work / "bpfrec", f"cat > /dev/null; {YES}; {end}")))
    is_yes = end == "exit 0"
    found = audit_of(str(recording))
    judge("the audit", (found.is_yes(), str(found)) == (is_yes, ENDS[end]), found)
    done = outcome(CHECK, recording)
    lines = [f"audit: {ENDS[end]}", "yes" if is_yes else "no"]
    judge("check", (done.returncode, done.stdout.splitlines()[-2:]) == (not is_yes, lines), done)
    judge_same("info", json.loads(outcome(INFO, "--json", recording).stdout)["audit"], ENDS[end])


@pytest.mark.parametrize("killed", ["find-principals", "verify"])
@pytest.mark.parametrize("identity", [None, "a"])
def test_a_verifier_of_signatures_that_is_killed_verifies_nothing(
    work: Path, killed: str, identity: str, monkeypatch: pytest.MonkeyPatch
) -> None:
    """Of those that verify, only the ones that are asked are; where the signer is given, nobody looks for one."""
    program_at(work / "ssh-keygen", f"cat > /dev/null; echo a; test $2 != {killed} || kill -9 $$")
    (work / "signers").write_text("")
    monkeypatch.setenv("PATH", f"{work}:{os.environ['PATH']}")
    verifier = verifier_of(str(work / "signers"), identity)
    if identity and killed == "find-principals":
        judge("it isn't asked", verifier.signer_of(b"facts", "sig") == "a")
        return
    with pytest.raises(Unsigned, match="ssh-keygen was ended by signal 9"):
        verifier.signer_of(b"facts", "sig")
