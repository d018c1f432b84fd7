"""Tries what bpfrec live --sign leaves of a run of four recordings, and that bpfrec check refuses each thing
that was changed in it."""

import contextlib
import json
import os
import shutil
import stat
import subprocess
from collections.abc import Callable
from pathlib import Path
from typing import NamedTuple

import pytest
from frames import HEAD, numbered
from namespace import make_pair
from recordings import YES, facts_of, is_approved, nothing_left, recordings
from schemas import faults, schema_of
from signing import (
    OTHER,
    SIGNER,
    allowed,
    checked,
    facts_file,
    hash_of,
    judge_refused,
    made_key,
    recorded_parts,
    signature_of,
    without_ssh,
)
from support import judge, judge_quietly, run, sums

pytestmark = pytest.mark.wanted("bin/bpfrec", "bin/capture", "ip", "ssh-keygen", "ssh-agent")
# Where a numbered frame has the last byte of its number.
NUMBER_AT = len(HEAD) + 7


class Flight(NamedTuple):
    """Recordings of a signed run, who may sign, and another key."""

    parts: list[Path]
    signers: Path
    key: Path
    other: Path

    def checked(self) -> subprocess.CompletedProcess:
        return checked(self.signers, *self.parts)


@pytest.fixture(scope="module", name="original")
def signed_run(place: Path, entering: Callable[[], contextlib.AbstractContextManager[None]]) -> Flight:
    """Four recordings that --sign signed."""
    key, other = made_key(place, "fc1"), made_key(place, "fc2")
    signers = allowed(place, fc1=key)
    with entering():
        make_pair(0)
        make_pair(1)
        running = recorded_parts(place, "flight", 4, "--sign", key)
        status, printed = running.ended()
    told = running.told()
    judge_quietly("it ends well", status == 0 and printed.count(YES) == 4 and nothing_left(place), told)
    judge_quietly("nothing is said of keys", "sign" not in told and "hash" not in told, told)
    return Flight(recordings(place, "flight"), signers, key, other)


@pytest.fixture(name="flight")
def copied_run(original: Flight, work: Path) -> Flight:
    """A copy of it, to be changed."""
    for part in original.parts:
        for path in (part, facts_file(part), signature_of(part)):
            shutil.copy2(path, work / path.name)
    return original._replace(parts=[work / it.name for it in original.parts])


# ---- what a signed run leaves


def test_each_recording_is_hashed_and_names_the_one_before(original: Flight) -> None:
    before = None
    for part in original.parts:
        facts = facts_of(part)
        found = (facts["sha256"], facts["bytes"], facts["before"])
        judge(
            f"{part.name}: its hash, its length, the one before", found == (hash_of(part), part.stat().st_size, before)
        )
        judge_quietly("as the schema says", faults(facts, schema_of("facts")) == [], faults(facts, schema_of("facts")))
        judge_quietly("it has ended", facts["state"] == "ended" and facts["audit"][-1] == YES)
        before = {"recording": part.name, "sha256": hash_of(part)}
    modes = {stat.S_IMODE(signature_of(it).stat().st_mode) for it in original.parts}
    judge("signatures have the mode of facts", modes == {0o640}, modes)


def test_what_is_as_it_was_is_approved(flight: Flight) -> None:
    """In any order of the arguments; ssh-keygen alone says the same."""
    done = checked(flight.signers, *reversed(flight.parts))
    wanted = []
    for at, part in enumerate(flight.parts):
        before = f"right: {flight.parts[at - 1].name}" if at else "none"
        wanted += [f"recording {part}", "hash right", f"before {before}", f"signature right: {SIGNER}", "packets"]
    found = [it if not it.startswith("packets") else "packets" for it in done.stdout.splitlines()]
    judge("each line", done.returncode == 0 and found == wanted, (done.stdout, done.stderr))
    first = flight.parts[0]
    words = ["-Y", "verify", "-f", flight.signers, "-I", SIGNER, "-n", "bpfrec", "-s", signature_of(first)]
    judge("by ssh-keygen", SIGNER in run("ssh-keygen", *words, input=facts_file(first).read_text()))
    done = checked(flight.signers, first, identity=SIGNER)
    judge("by one of them", done.returncode == 0 and f"signature right: {SIGNER}\n" in done.stdout, done)
    done = checked(None, *flight.parts)
    judge("without signers", done.returncode == 0 and "signature" not in done.stdout, done.stdout)
    done = checked(flight.signers, *flight.parts[1:])
    judge(
        "the first may be left out", done.returncode == 0 and f"before not given: {first.name}\n" in done.stdout, done
    )


# ---- what was changed


def changed_byte(path: Path, at: int) -> None:
    data = bytearray(path.read_bytes())
    data[at] ^= 1
    path.write_bytes(data)


def test_a_changed_recording_is_refused(flight: Flight) -> None:
    """Also by the one behind it."""
    part = flight.parts[1]
    changed_byte(part, -1)
    done = flight.checked()
    line = f"hash wrong: {hash_of(part)}, the facts say {facts_of(part)['sha256']}"
    judge_refused("its hash", done, line)
    judge_refused("the hash of the one before", done, f"before wrong: {part.name} has another hash than the facts say")
    judge(
        "its length is right, and each signature", "length" not in done.stdout and done.stdout.count("hash right") == 3
    )
    judge_refused("the recording alone", checked(None, part), line)


def test_exchanged_names_are_refused(flight: Flight) -> None:
    """Of recordings alone, and of all that goes with them."""
    one, two = flight.parts[1:3]
    exchange(one, two)
    judge_refused("recordings alone", flight.checked(), "hash wrong: .*")
    exchange(facts_file(one), facts_file(two))
    done = flight.checked()
    judge_refused("with their facts", done, f"name wrong: the facts are of {two.name}")
    judge_refused("whose signatures are others'", done, "signature wrong: .*incorrect signature")
    exchange(signature_of(one), signature_of(two))
    done = flight.checked()
    judge("with their signatures they are right", done.stdout.count("signature right") == 4, done.stdout)
    judge_refused("and the names are not", done, f"name wrong: the facts are of {one.name}")
    judge_refused("nor the order", done, f"before wrong: {flight.parts[0].name}, the facts say {one.name}")


def exchange(one: Path, two: Path) -> None:
    between = one.with_name("between")
    one.rename(between)
    two.rename(one)
    between.rename(two)


def test_a_recording_whose_sums_were_made_right_again_is_refused(flight: Flight) -> None:
    """Data checksum and hash fit what was changed: the audit approves of it, and the signature doesn't."""
    part = flight.parts[3]
    data = bytearray(part.read_bytes())
    # The last byte of a frame's number and the one four behind it count the same in the sum of words.
    at = data.index(numbered(300)) + NUMBER_AT
    data[at] -= 1
    data[at + 4] += 1
    part.write_bytes(data)
    facts_file(part).write_text(json.dumps({**facts_of(part), "sha256": hash_of(part)}))
    done = flight.checked()
    judge("sums and hash fit", is_approved(part) and done.stdout.count("hash right") == 4, done.stdout)
    judge_refused("the signature", done, "signature wrong: Signature verification failed: incorrect signature")


def test_a_changed_byte_of_the_facts_is_refused(flight: Flight) -> None:
    part = flight.parts[0]
    facts = facts_file(part).read_bytes()
    for at in (0, len(facts) // 2, len(facts) - 1):
        changed_byte(facts_file(part), at)
        judge_refused(f"byte {at}", checked(flight.signers, part), "signature wrong: .*")
        facts_file(part).write_bytes(facts)
    facts_file(part).write_bytes(facts + b" ")
    judge_refused("a byte more", checked(flight.signers, part), "signature wrong: .*")


def sign(key: Path, part: Path, name: str = "bpfrec") -> None:
    signature_of(part).unlink(missing_ok=True)
    run("ssh-keygen", "-q", "-Y", "sign", "-f", key, "-n", name, facts_file(part))


def test_another_signer_is_refused(flight: Flight, work: Path) -> None:
    """One that nobody allows, another than is asked for, and the right one under another namespace."""
    part = flight.parts[0]
    sign(flight.other, part)
    judge_refused("of a key that isn't allowed", checked(flight.signers, part), "signature wrong: .*No principal.*")
    both = allowed(work, fc1=flight.key, fc2=flight.other)
    done = checked(both, part)
    judge("where it is allowed, it is said whose it is", f"signature right: {OTHER}\n" in done.stdout, done.stdout)
    judge_refused("another than is asked for", checked(both, part, identity=SIGNER), "signature wrong: .*")
    sign(flight.key, part, "file")
    judge_refused("another namespace", checked(both, part), "signature wrong: .*namespace does not match.*")
    signature_of(part).write_text("no signature\n")
    judge_refused("no signature", checked(both, part), "signature wrong: .*")


def test_arguments_of_check_sums_that_are_wrong(flight: Flight, work: Path) -> None:
    part = flight.parts[0]
    done = checked(work / "none", part)
    judge(
        "no signers",
        (done.returncode, done.stderr) == (3, f"bpfrec check: {work}/none: No such file or directory\n"),
        done,
    )
    done = checked(flight.signers, part, work / "none.ch11")
    line = f"bpfrec check: {work}/none.ch11: No such file or directory\n"
    judge("no recording", (done.returncode, done.stderr) == (3, line), done)
    for words in (("--identity", SIGNER, part), ("--signers", flight.signers, "-"), (part, "-")):
        done = sums(*words)
        judge_quietly(f"{words}", done.returncode == 2 and "error: " in done.stderr, done)
    done = sums("--signers", flight.signers, part, env={**os.environ, "PATH": without_ssh(work)})
    judge("no ssh-keygen", done.returncode == 3 and "openssh-client" in done.stderr, done)
