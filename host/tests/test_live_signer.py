"""Tries how live has ssh-keygen sign: what it says of faults, how long it may take, and that it asks nobody."""

import os
import signal
import subprocess
import sys
import threading
import time
from pathlib import Path

import pytest
from bpfrec_tools.cli.signatures import Unsigned, reason_in
from bpfrec_tools.live import ahead
from bpfrec_tools.live.ahead import refuse_signing
from bpfrec_tools.live.arguments import read
from bpfrec_tools.live.kept import signer
from bpfrec_tools.live.kept.names import Refusal
from bpfrec_tools.live.kept.signer import Signer
from support import ROOT, judge, program_at, wait_for

LOCKED = b'Enter passphrase: Load key "k": incorrect passphrase supplied to decrypt private key\r\n'
OPEN = (
    b"@@@@@@@@@@@@@@\n@         WARNING: UNPROTECTED PRIVATE KEY FILE!          @\n@@@@@@@@@@@@@@\n"
    b"Permissions 0644 for 'k' are too open.\nThis private key will be ignored.\n"
)


@pytest.fixture(name="played")
def played_program(work: Path, monkeypatch: pytest.MonkeyPatch) -> Path:
    """ssh-keygen, to be written."""
    monkeypatch.setenv("PATH", f"{work}:{os.environ['PATH']}")
    return work / "ssh-keygen"


def why_unsigned(made: Signer) -> str:
    with pytest.raises(Unsigned) as refused:
        made.sign(b"facts")
    return str(refused.value)


@pytest.mark.parametrize(
    "printed, code, reason",
    [
        (LOCKED, 255, 'Load key "k": incorrect passphrase supplied to decrypt private key'),
        (OPEN, 255, "Permissions 0644 for 'k' are too open; This private key will be ignored."),
        (
            b"s_pubonly:1: invalid key\r\nNo principal matched.\r\n",
            255,
            "s_pubonly:1: invalid key; No principal matched.",
        ),
        (b"Signing data on standard input\nagent refused operation\n", 255, "agent refused operation"),
        (b"\x1b[2J\xff\n", 1, "?[2J\ufffd"),
        (b"Signing data on standard input\n", 7, "ssh-keygen ended with status 7"),
        (b"", -9, "ssh-keygen was ended by signal 9"),
    ],
)
def test_a_fault_is_said_in_the_words_of_ssh_keygen(printed: bytes, code: int, reason: str) -> None:
    """On one line, without what it prints around them."""
    judge(reason, reason_in(printed, code) == reason, reason_in(printed, code))


def test_it_signs_what_it_reads_in_the_namespace_of_recordings(played: Path, monkeypatch: pytest.MonkeyPatch) -> None:
    """And gets nothing by which it could ask a person."""
    names = "DISPLAY SSH_ASKPASS WAYLAND_DISPLAY"
    program_at(
        played, f'echo "$@"; cat; for it in {names}; do printenv $it; done; echo $SSH_ASKPASS_REQUIRE; tty; true'
    )
    for name in names.split():
        monkeypatch.setenv(name, "asks")
    found = Signer("the key").sign(b"facts\n").decode()
    judge("these", found == "-Y sign -f the key -n bpfrec\nfacts\nnever\nnot a tty\n", found)


def test_one_that_takes_too_long_is_ended(played: Path, work: Path) -> None:
    program_at(played, f"echo $$ > {work}/pid; exec sleep 600")
    begun = time.monotonic()
    judge("it is said", why_unsigned(Signer("k", longest=1.0)) == "ssh-keygen took over 1 s")
    judge("in time", time.monotonic() < begun + 30)
    judge("nothing runs on", not Path(f"/proc/{(work / 'pid').read_text().strip()}").exists())


def test_one_that_is_ended_signs_nothing(played: Path, work: Path) -> None:
    """Also where that comes before it is started."""
    program_at(played, f"touch {work}/begun; exec sleep 600")
    made = Signer("k")

    def kill_once_it_has_begun() -> None:
        wait_for("it has begun", (work / "begun").exists)
        made.kill()

    thread = threading.Thread(target=kill_once_it_has_begun)
    thread.start()
    judge("while it signs", why_unsigned(made) == "ssh-keygen was ended by signal 9")
    thread.join()
    judge("ahead of it", why_unsigned(made) == "ssh-keygen was ended by signal 9")


def test_no_signature_and_no_fault_is_none(played: Path) -> None:
    program_at(played, "exit 0")
    judge("it is said", why_unsigned(Signer("k")) == "ssh-keygen ended with status 0")


def test_a_program_that_can_not_be_had_is_said(work: Path, monkeypatch: pytest.MonkeyPatch) -> None:
    monkeypatch.setenv("PATH", str(work))
    judge("it is missing", why_unsigned(Signer("k")) == "ssh-keygen is missing: it is in Debian's openssh-client")
    program_at(work / "ssh-keygen", "no program", "")
    judge("it is no program", why_unsigned(Signer("k")) == "ssh-keygen: Exec format error")


def test_the_trial_at_the_start_has_less_time(played: Path, monkeypatch: pytest.MonkeyPatch) -> None:
    """A person waits for it, and an agent may hang."""
    program_at(played, "exec sleep 600")
    judge("ten seconds", (signer.LONGEST_TRIAL, signer.LONGEST) == (10.0, 30.0))
    monkeypatch.setattr(ahead, "LONGEST_TRIAL", 1.0)
    with pytest.raises(Refusal, match="^bpfrec live: --sign k: ssh-keygen took over 1 s$"):
        refuse_signing(read(["--sign", "k", "settings", "out", "eth0=1"]))


# A program that signs as preflight does: SIGPIPE and Ctrl-C end it.
SIGNING = """
import signal, sys
from bpfrec_tools.cli.signatures import Unsigned
from bpfrec_tools.live.kept.signer import Signer

signal.signal(signal.SIGPIPE, signal.SIG_DFL)
signal.signal(signal.SIGINT, signal.default_int_handler)
try:
    Signer("k").sign(b"facts" * 100_000)
except Unsigned as why:
    print(why)
except KeyboardInterrupt:
    print("interrupted")
"""


def begun_signing() -> subprocess.Popen[str]:
    adds = {"PYTHONPATH": str(ROOT / "host"), "PYTHONDONTWRITEBYTECODE": "1"}
    words = [sys.executable, "-c", SIGNING]
    return subprocess.Popen(words, stdout=subprocess.PIPE, text=True, env={**os.environ, **adds})


def test_one_that_reads_nothing_ends_nobody_by_a_signal(played: Path) -> None:
    """It ends before it has read the facts, of which there are more than a pipe takes."""
    program_at(played, "echo no such key >&2; exit 1")
    signing = begun_signing()
    printed = signing.communicate(timeout=60)[0]
    judge("why is said", (signing.returncode, printed) == (0, "no such key\n"), (signing.returncode, printed))


def test_an_interrupt_ends_one_that_hangs(played: Path, work: Path) -> None:
    program_at(played, f"echo $$ > {work}/new; mv {work}/new {work}/pid; exec sleep 100")
    signing = begun_signing()
    wait_for("it is asked", (work / "pid").exists)
    signing.send_signal(signal.SIGINT)
    printed = signing.communicate(timeout=60)[0]
    judge("it is interrupted", (signing.returncode, printed) == (0, "interrupted\n"), (signing.returncode, printed))
    judge("nothing runs on", not Path(f"/proc/{(work / 'pid').read_text().strip()}").exists())
