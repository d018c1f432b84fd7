"""Tries how bpfrec live --sign signs: with which keys, and what comes of a signature that fails, a kill, a second
signal, and files that were changed."""

import contextlib
import functools
import os
import resource
import shutil
import signal
import subprocess
from collections.abc import Iterator
from pathlib import Path

import pytest
from recordings import begin, facts_of, is_approved, nothing_left, recordings, settings_of
from schemas import faults, schema_of
from signing import (
    SIGNER,
    allowed,
    checked,
    hash_of,
    judge_refused,
    made_key,
    recorded_parts,
    signature_of,
    without_ssh,
)
from support import BPFREC, INFO, LIVE, PREFLIGHT, TOOLS, Running, judge, judge_quietly, outcome, run, wait_for

pytestmark = pytest.mark.wanted("bin/bpfrec", "bin/capture", "ip", "ssh-keygen", "ssh-agent")
PASSPHRASE = "a passphrase of a trial"


# ---- what can't sign


def refused(work: Path, key: object, **adds: str) -> str:
    """What live says of a key, with which it begins nothing."""
    running = Running(work, LIVE, "--sign", key, settings_of(work), work / "no.ch11", "rx0=1", "rx1=2", adds=adds)
    status, told = running.ended()[0], running.told()
    judge_quietly("nothing is begun", status == 3 and not list(work.glob("no.ch11*")) and nothing_left(work), told)
    words = ["--live", "--sign", key, settings_of(work), work / "no.ch11", "rx0=1", "rx1=2"]
    done = outcome(PREFLIGHT, *words, env={**os.environ, **adds})
    reason = told.removeprefix("bpfrec live: ").strip()
    judge_quietly("preflight says the same", done.returncode != 0 and reason in done.stdout + done.stderr, done)
    return reason


def test_a_key_that_can_not_sign_is_refused_at_the_start(work: Path) -> None:
    """Nobody is asked for a passphrase."""
    locked = made_key(work, "locked", PASSPHRASE)
    asking = work / "askpass"
    asking.write_text(f"#!/bin/sh\ntouch {work}/asked\necho '{PASSPHRASE}'\n")
    asking.chmod(0o755)
    adds = {"SSH_ASKPASS": str(asking), "SSH_ASKPASS_REQUIRE": "force", "DISPLAY": ":0", "SSH_AUTH_SOCK": ""}
    told = refused(work, locked, **adds)
    judge("a passphrase", told.startswith(f"--sign {locked}: ") and "incorrect passphrase" in told, told)
    judge("nobody was asked", not (work / "asked").exists() and "Enter passphrase" not in told)
    told = refused(work, f"{locked}.pub", **adds)
    judge("its public key, without an agent", told.startswith(f"--sign {locked}.pub: "), told)
    told = refused(work, work / "none", **adds)
    judge("no key", "No such file or directory" in told, told)
    told = refused(work, made_key(work, "fc1"), PATH=without_ssh(work))
    judge("no ssh-keygen", told.endswith("ssh-keygen is missing: it is in Debian's openssh-client"), told)


def test_a_run_without_interfaces_has_no_facts_to_sign(work: Path) -> None:
    running = Running(work, LIVE, "--sign", made_key(work, "fc1"), settings_of(work), work / "no.ch11")
    judge(
        "refused",
        (running.ended()[0], running.told()) == (2, "bpfrec live: --sign needs an interface\n"),
        running.told(),
    )


def test_a_name_that_has_no_room_for_a_signature_is_refused(work: Path, namespace: None) -> None:
    """`.json.sig.new` goes behind it while that is written."""
    key = made_key(work, "fc1")
    out = work / ("x" * 243)
    running = Running(work, LIVE, "--sign", key, settings_of(work), out, "rx0=1", "rx1=2")
    line = f"bpfrec live: {out}: its name has 243 bytes, and may have 242 with its facts beside it\n"
    judge("a byte too long", (running.ended()[0], running.told()) == (3, line), running.told())
    done = outcome(PREFLIGHT, "--live", "--sign", key, settings_of(work), out, "rx0=1", "rx1=2")
    judge("preflight says so", "may have 242" in done.stdout, done)
    out = work / ("x" * 242)
    running = begin(work, out, "--quiet", "--sign", key)
    running.interrupt()
    judge("a byte shorter", running.ended()[0] == 0 and signature_of(out).exists(), running.told())


def test_signing_takes_no_more_descriptors_than_it_asks_for(work: Path, namespace: None) -> None:
    key = made_key(work, "fc1")
    for limit in (56, 57):
        out = work / f"{limit}.ch11"
        words = [LIVE, "--quiet", "--sign", key, settings_of(work), out, "rx0=1", "rx1=2"]
        set_limit = functools.partial(resource.setrlimit, resource.RLIMIT_NOFILE, (limit, limit))
        running = Running(work, "/usr/bin/python3", *words, preexec_fn=set_limit)
        if limit < 57:
            line = f"bpfrec live: it needs 57 descriptors, and may have {limit}: ulimit -n 57\n"
            judge("one too few", (running.ended()[0], running.told()) == (3, line), running.told())
            continue
        running.wait_until_told("bpfrec capture: origin")
        running.interrupt()
        judge("enough", running.ended()[0] == 0 and signature_of(out).exists(), running.told())


@pytest.fixture(name="agent")
def agent_with_a_key(work: Path) -> Iterator[tuple[Path, dict[str, str]]]:
    """A public key whose private half an agent holds alone, and the agent's environment."""
    path = work / "agent"
    process = subprocess.Popen(["ssh-agent", "-D", "-a", path], stdout=subprocess.DEVNULL)
    try:
        wait_for("the agent listens", path.exists)
        key = made_key(work, "fc1")
        adds = {"SSH_AUTH_SOCK": str(path)}
        run("ssh-add", "-q", key, env={**os.environ, **adds})
        key.unlink()
        yield Path(f"{key}.pub"), adds
    finally:
        process.kill()
        process.wait()


def test_a_key_of_an_agent_signs(work: Path, namespace: None, agent: tuple[Path, dict[str, str]]) -> None:
    key, adds = agent
    out = work / "one.ch11"
    running = begin(work, out, "--quiet", "--sign", key, adds=adds)
    running.end_well()
    done = checked(allowed(work, fc1=key.with_suffix("")), out)
    judge("it is signed", done.returncode == 0 and f"signature right: {SIGNER}\n" in done.stdout, done)


# ---- at the end of a run


def test_a_signature_that_fails_is_told_and_the_recording_stays(work: Path, namespace: None) -> None:
    """With an alarm, and status 1."""
    key, out, noted = made_key(work, "fc1"), work / "one.ch11", work / "noted"
    command = work / "alarm"
    command.write_text(f'#!/bin/sh\necho "$@" >> {noted}\n')
    command.chmod(0o755)
    running = begin(work, out, "--quiet", "--sign", key, "--on-alarm", command)
    key.unlink()
    Path(f"{key}.pub").unlink()
    running.interrupt()
    status, told = running.ended()[0], running.told()
    line = f"bpfrec live: {out}.json isn't signed: Couldn't load public key {key}: No such file or directory\n"
    judge("a line, and status 1", status == 1 and told.count(line) == 1, (status, told))
    judge("an alarm", f"begins unsigned - {out.name}.json isn't signed: " in noted.read_text(), noted.read_text())
    judge("the recording stays, with its hash", is_approved(out) and facts_of(out)["sha256"] == hash_of(out))
    judge("without a signature", not signature_of(out).exists() and nothing_left(work))


def played_ssh(work: Path, case: str) -> dict[str, str]:
    """ssh-keygen, which does something else from its second signature on: the first is that of the start."""
    made = work / "played_ssh"
    made.mkdir()
    real = shutil.which("ssh-keygen")
    text = f'#!/bin/sh\nif [ -e {made}/begun ]; then touch {made}/again; {case}; fi\ntouch {made}/begun\nexec {real} "$@"\n'
    (made / "ssh-keygen").write_text(text)
    (made / "ssh-keygen").chmod(0o755)
    return {"PATH": f"{made}:{os.environ['PATH']}"}


def test_a_kill_ahead_of_the_signature_leaves_whole_facts(work: Path, namespace: None) -> None:
    """They have their hash, and no signature."""
    key, out = made_key(work, "fc1"), work / "one.ch11"
    running = begin(work, out, "--quiet", "--sign", key, adds=played_ssh(work, "exec sleep 600"))
    running.interrupt()
    wait_for("it is being signed", (work / "played_ssh/again").exists)
    os.kill(running.process.pid, signal.SIGKILL)
    running.process.wait()
    wait_for("nothing is left", lambda: nothing_left(work))
    facts = facts_of(out)
    judge("they are whole", faults(facts, schema_of("facts")) == [] and facts["sha256"] == hash_of(out), facts)
    judge("and unsigned", not signature_of(out).exists())
    judge_refused("check says so", checked(allowed(work, fc1=key), out), "signature none")
    done = outcome(INFO, out)
    judge("info works", done.returncode == 0 and "rx0" in done.stdout, done)
    wait_for("ssh-keygen has ended", lambda: not sleeping(work))


def sleeping(work: Path) -> bool:
    """Whether the ssh-keygen that was played still runs."""
    for entry in Path("/proc").iterdir():
        with contextlib.suppress(OSError):
            if entry.name.isdigit() and f"{work}/played_ssh".encode() in (entry / "environ").read_bytes():
                return True
    return False


def test_a_second_signal_ends_what_is_being_signed(work: Path, namespace: None) -> None:
    key, out = made_key(work, "fc1"), work / "one.ch11"
    running = begin(work, out, "--quiet", "--sign", key, adds=played_ssh(work, "exec sleep 600"))
    running.interrupt()
    wait_for("it is being signed", (work / "played_ssh/again").exists)
    running.interrupt()
    status, told = running.ended()[0], running.told()
    line = f"bpfrec live: {out}.json isn't signed: the run was ended\n"
    judge("it ends", status == 1 and line in told and nothing_left(work), (status, told))
    judge("the recording is approved and hashed", is_approved(out) and facts_of(out)["sha256"] == hash_of(out))


def test_force_leaves_no_signature_of_what_was_there(work: Path, namespace: None) -> None:
    """Without --force it is refused, as is a recording."""
    out = work / "one.ch11"
    signature_of(out).write_text("another's\n")
    running = Running(work, LIVE, settings_of(work), out, "rx0=1", "rx1=2")
    line = f"bpfrec live: {signature_of(out)} is there: give it another name, or --force\n"
    judge("refused", (running.ended()[0], running.told()) == (3, line), running.told())
    running = begin(work, out, "--quiet", "--force")
    running.interrupt()
    judge("it is removed", running.ended()[0] == 0 and not signature_of(out).exists(), running.told())
    judge("the facts have a hash", facts_of(out)["sha256"] == hash_of(out))


def test_keep_removes_signatures_and_whole_files_follow(work: Path, namespace: None) -> None:
    key = made_key(work, "fc1")
    running = recorded_parts(work, "ring", 4, "--sign", key, "--keep", 2, "--chapter11")
    status, told = running.ended()[0], running.told()
    parts = recordings(work, "ring")
    judge("two are left", status == 0 and [it.name for it in parts] == ["ring_00003.ch11", "ring_00004.ch11"], told)
    left = {f"{it.name}{ending}" for it in parts for ending in ("", ".json", ".json.sig", ".ch10")}
    judge("with what goes with them alone", {it.name for it in work.glob("ring_*")} == left, list(work.glob("ring_*")))
    again = work / "again.ch10"
    run(TOOLS / "export", parts[0], again)
    judge(
        "whole files can be made again of what was signed", again.read_bytes() == Path(f"{parts[0]}.ch10").read_bytes()
    )
    done = checked(allowed(work, fc1=key), *parts)
    judge("the chain holds", done.returncode == 0 and "before not given: ring_00002.ch11\n" in done.stdout, done.stdout)


def test_a_recording_that_is_gone_has_no_hash(work: Path, namespace: None) -> None:
    """It goes, or another file takes its name, while the audit reads it."""
    audit = work / "bpfrec"
    case = f'if [ "$1" = audit ]; then touch {work}/audited; while [ ! -e {work}/go ]; do sleep 0.01; done; fi'
    audit.write_text(f'#!/bin/sh\n{case}\nexec {BPFREC} "$@"\n')
    audit.chmod(0o755)
    for name in ("gone", "other"):
        out = work / f"{name}.ch11"
        for flag in ("audited", "go"):
            (work / flag).unlink(missing_ok=True)
        running = begin(work, out, "--quiet", "--sign", made_key(work, name), adds={"BPFREC": str(audit)})
        running.interrupt()
        wait_for("it is audited", (work / "audited").exists)
        data = out.read_bytes()
        out.unlink()
        if name == "other":
            out.write_bytes(data)
        (work / "go").touch()
        status, told = running.ended()[0], running.told()
        why = "it was removed or moved, or another file has its name"
        judge(f"{name}: it is said", f"bpfrec live: {out} has no hash in its facts: {why}\n" in told, told)
        judge(
            "and that it isn't signed", f"{out}.json isn't signed: its recording has no hash\n" in told and status == 1
        )
        facts = facts_of(out)
        judge("the facts have none", (facts["sha256"], facts["bytes"], facts["before"]) == (None, None, None))
