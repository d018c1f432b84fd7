"""Tries the completions: in bash and fish by their own functions, and in zsh at a terminal."""

import json
import os
import pty
import select
import shutil
import time
from collections.abc import Callable
from pathlib import Path

import pytest
from bpfrec_tools import verbs
from support import COMMAND, ROOT, judge, outcome

pytestmark = pytest.mark.wanted("zsh", "fish")
COMPLETIONS = ROOT / "dev/package/completions"
SECONDS = 10
Offers = Callable[[Path, str], set[str]]
ENV = {**os.environ, "PATH": f"{COMMAND.parent}:{os.environ['PATH']}"}
ORIGIN = {"origin": "1764590400.250000000", "counter": 0, "set_by": None, "scale": "UTC", "tai_offset": None}
CHANNELS = [{"interface": "eth0", "channel": 1, "name": "bus_A"}, {"interface": "eth1", "channel": 2}]
FACTS = json.dumps({"facts": 1, "host": "tap1", "origins": [ORIGIN], "losses": [], "interfaces": CHANNELS})
# What follows the command's name, and what is offered: the file of its kind and the folder, values and lines.
OFFERS = {
    "list ": {"one.ch11", "sub"},
    "verify ": {"two.txt", "sub"},
    "asm ": {"three.bpf", "sub"},
    "record ": {"four.toml", "sub"},
    "record four.toml ": {"one.ch11", "sub"},
    "extract one.ch11 ": set(),
    "extract one.ch11 1 ": {"five.feed", "sub"},
    "simulate ": {"six.script", "sub"},
    "salvage ": {"one.ch11", "sub"},
    "help a": {"asm", "audit"},
    "info --h": {"--html", "--help"},
    "export --as ": {"pcapng", "chapter11"},
    "live four.toml one.ch11 l": {"lo"},
    "publish --interface l": {"lo"},
    "tell control s": {"set", "status", "stop"},
    "live --clock ": {"host", "adapter"},
    "live sub/flight.toml lo=": {"lo=3", "lo=bus_C"},
    "live sub/flight.toml lo = ": {"3", "bus_C"},
    "live --origin n": {"now"},
    "export sub/named.ch11 --channel ": {"1", "2", "bus_A", "eth1"},
    "follow sub/named.ch11 --channel b": {"bus_A"},
    "export sub/named --channel 2": {"2"},
    "tell sub/named set ": {"1", "2", "bus_A", "eth1"},
    "tell sub/flight.toml set ": {"3", "bus_C"},
    "extract sub/named.ch11 ": {"1", "2"},
    "capture --direction ": {"both", "in", "out"},
    "capture --ch": {"--check-sequence"},
    "capture l": {"lo"},
    "tell ": {"one.ch11", "four.toml", "sub"},
    "tell sub/named set 1 ": {"all", "two.txt", "three.bpf", "sub"},
    "tell sub/named mark ": set(),
    "filter ": set(),
    "publish one.ch11 ": set(),
    "preflight --live ": {"one.ch11", "four.toml", "sub"},
    "nonsense ": set(),
}


@pytest.fixture
def folder(work: Path) -> Path:
    """A folder with a file of each kind."""
    made = work / "files"
    (made / "sub").mkdir(parents=True)
    for name in ("one.ch11", "two.txt", "three.bpf", "four.toml", "five.feed", "six.script", "seven"):
        (made / name).write_text("")
    (made / "sub/named.ch11").write_text("")
    (made / "sub/named.ch11.json").write_text(FACTS)
    (made / "sub/flight.toml").write_text('[[channel]]\nid = 3\ninterface = "eth2"\nname = "bus_C"\n')
    return made


def bash_offers(folder: Path, line: str) -> set[str]:
    """What bash offers for the last word."""
    script = (
        f'source "{COMPLETIONS}/bpfrec.bash"; COMP_WORDS=("$@"); COMP_CWORD=$(($# - 1)); '
        '_bpfrec "$1"; printf "%s\\n" "${COMPREPLY[@]}"'
    )
    done = outcome("bash", "--norc", "-c", script, "bash", "bpfrec", *line.split(" "), cwd=folder, env=ENV)
    return {it.rstrip("/") for it in done.stdout.split()}


def fish_offers(folder: Path, line: str) -> set[str]:
    """What fish offers."""
    script = f'source "{COMPLETIONS}/bpfrec.fish"; complete -C "bpfrec {line}"'
    done = outcome("fish", "--no-config", "-c", script, cwd=folder, env=ENV)
    return {it.split("\t")[0].rstrip("/") for it in done.stdout.splitlines()}


@pytest.mark.parametrize("offers", [bash_offers, fish_offers])
def test_all_verbs_are_offered(folder: Path, offers: Offers) -> None:
    judge("all verbs", offers(folder, "") == {*verbs.VERBS, "help"}, offers(folder, ""))


@pytest.mark.parametrize("offers", [bash_offers, fish_offers])
@pytest.mark.parametrize("line", OFFERS)
def test_what_a_verb_takes_is_offered(folder: Path, offers: Offers, line: str) -> None:
    found = offers(folder, line)
    judge(f"bpfrec {line}", found == OFFERS[line], found)


# ---- zsh


def zsh_completes(folder: Path, line: str) -> str:
    """The line that zsh makes of one at the key Tab."""
    process, terminal = pty.fork()
    if process == 0:
        os.chdir(folder)
        os.execvpe("zsh", ["zsh", "-f", "-i"], {**ENV, "TERM": "dumb", "HOME": str(folder)})
    begun = f"fpath=({COMPLETIONS} $fpath); autoload -Uz compinit; compinit -u -D; unsetopt automenu; echo rea''dy\n"
    os.write(terminal, f"PS1=; {begun}".encode())
    read_until(terminal, b"ready\r\n")
    os.write(terminal, f"{line}\t".encode())
    time.sleep(2)
    os.write(terminal, b"\x01print -r -- '<\x05>'\n")
    found = read_until(terminal, b">\r\n")
    os.close(terminal)
    os.waitpid(process, 0)
    return found.decode(errors="replace").rsplit("\n<", 1)[-1].split(">")[0]


def read_until(terminal: int, wanted: bytes) -> bytes:
    data, end = b"", time.monotonic() + SECONDS
    while wanted not in data and time.monotonic() < end:
        if select.select([terminal], [], [], 0.1)[0]:
            data += os.read(terminal, 65_536)
    return data


ZSH = {
    "bpfrec aud": "bpfrec audit",
    "bpfrec list ": "bpfrec list one.ch11",
    "bpfrec extract one.ch11 1 ": "bpfrec extract one.ch11 1 five.feed",
    "bpfrec help sim": "bpfrec help simulate",
    "bpfrec info --j": "bpfrec info --json",
    "bpfrec salvage ": "bpfrec salvage one.ch11",
}


@pytest.mark.parametrize("line", ZSH)
def test_zsh_completes_each_line(folder: Path, line: str) -> None:
    shutil.rmtree(folder / "sub")
    found = zsh_completes(folder, line)
    judge(f"zsh makes {ZSH[line]!r} of {line!r}", found.rstrip() == ZSH[line], repr(found))
