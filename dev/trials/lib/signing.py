"""Keys, signers and signed recordings, for trials of bpfrec live --sign and of what bpfrec check says of them."""

import contextlib
import hashlib
import re
import subprocess
from pathlib import Path

from namespace import send_numbered
from recordings import begin, has_facts
from support import Running, judge, run, sums, wait_for

SIGNER, OTHER = "fc1@range.example", "fc2@range.example"


def made_key(work: Path, name: str, passphrase: str = "") -> Path:
    run("ssh-keygen", "-q", "-t", "ed25519", "-N", passphrase, "-C", name, "-f", work / name)
    return work / name


def allowed(work: Path, **keys: Path) -> Path:
    """A file of allowed signers, by the keys of each; a name stands for its address."""
    lines = [f"{name}@range.example {Path(f'{key}.pub').read_text()}" for name, key in keys.items()]
    (work / "signers").write_text("".join(lines))
    return work / "signers"


def signature_of(out: Path) -> Path:
    return Path(f"{out}.json.sig")


def facts_file(out: Path) -> Path:
    return Path(f"{out}.json")


def hash_of(out: Path) -> str:
    return hashlib.sha256(out.read_bytes()).hexdigest()


def checked(signers: Path | None, *files: object, **more: object) -> subprocess.CompletedProcess:
    """What check says of recordings."""
    words = [] if signers is None else ["--signers", signers]
    return sums(*words, *[f"--{name}={value}" for name, value in more.items()], *files)


def judge_refused(what: str, done: subprocess.CompletedProcess, line: str) -> None:
    """Something is refused with this line, which is a pattern."""
    judge(what, done.returncode == 1 and re.search(f"^{line}$", done.stdout, re.MULTILINE), (done.stdout, done.stderr))


def without_ssh(work: Path) -> str:
    """A folder of programs with all that a run needs but ssh-keygen."""
    made = work / "programs"
    made.mkdir(exist_ok=True)
    for folder in ("/usr/bin", "/usr/sbin", "/bin", "/sbin"):
        for path in Path(folder).glob("*"):
            if path.name != "ssh-keygen" and not (made / path.name).exists():
                with contextlib.suppress(OSError):
                    (made / path.name).symlink_to(path)
    return str(made)


def recorded_parts(work: Path, name: str, count: int, *options: object) -> Running:
    """Records so many parts that follow one another, each with frames, and ends."""
    running = begin(work, work / f"{name}.ch11", "--quiet", "--every", 1_000, *options)
    for number in range(count):
        wait_for(f"part {number + 1} has begun", lambda: has_facts(work / f"{name}_{number + 1:05}.ch11"))
        send_numbered("tx0", 100 * number, 100 * number + 100)
        if number + 1 < count:
            running.type_in("next")
    running.interrupt()
    return running
