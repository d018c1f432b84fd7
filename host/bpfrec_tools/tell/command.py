"""The command line of bpfrec tell."""

from __future__ import annotations

import argparse
import os
import socket
import stat
import sys
from collections.abc import Iterable
from typing import BinaryIO, Optional

from bpfrec.formats.names import all_of, control_path, names_of
from bpfrec_tools.cli import printing
from bpfrec_tools.cli.arguments import Parser, name_of
from bpfrec_tools.cli.files import is_locked
from bpfrec_tools.cli.moments import some_seconds
from bpfrec_tools.live.control.words import LINES
from bpfrec_tools.live.flight import flight_at, run_fault
from bpfrec_tools.live.kept.names import Refusal

ABOUT = """\
Sends lines to a run of bpfrec live, and waits for what each comes to:

  bpfrec tell flight.ch11 mark gear up
  bpfrec tell flight.toml set "bus A" udp port 5004
  bpfrec tell /run/bpfrec/control next

RUN is the name of the run or of one of its recordings, and its socket is flight.control beside flight.ch11. It may be the
settings of the flight too, or the socket itself, as where `live --control PATH` or `control` in [run] names another.

A LINE is one that bpfrec live takes on standard input: `set CHANNEL FILTER`, `mark TEXT`, `status`, `next`, `stop` or
`help`; its arguments are joined by blanks. Without one, lines are read from standard input, each once the one before it is
answered. A path in a line is looked for from where bpfrec live runs.
"""
MORE = """\
It prints what is answered, on standard error where a line is refused.

Status: 0 all was done, 1 a line was refused, 2 the arguments are wrong, 3 nobody listens, or the recording ended
ahead of an answer, 130 interrupted.
"""
DONE, REFUSED, USAGE, NOBODY = 0, 1, 2, 3


class Gone(Exception):
    """Who was asked has ended ahead of the answer, or doesn't answer in time."""


def parser() -> Parser:
    """The arguments of bpfrec tell."""
    name = name_of("tell")
    made = Parser(prog=name, usage=f"{name} [--wait SECONDS] RUN [LINE]", description=ABOUT, epilog=MORE)
    made.add_argument("--wait", metavar="SECONDS", type=some_seconds, help="gives an answer up after this time")
    made.add_argument("run", metavar="RUN", help="the socket of bpfrec live, or what names it")
    # Without one lines come by standard input.
    made.add_argument("words", metavar="LINE", nargs=argparse.REMAINDER).required = False
    return made


def line_of(words: list[str]) -> str:
    """The line that words are; a channel's name that has blanks is in quotes again."""
    return " ".join(f'"{it}"' if words[0] == "set" and at == 1 and " " in it else it for at, it in enumerate(words))


def socket_of(name: str) -> str:
    """The socket of a run, by its path, its name or its settings."""
    is_settings = name.endswith(".toml")
    # A recording stands for its run too.
    beside = [control_path(name), control_path(f"{name}.ch11"), f"{names_of(name).stem}.control"]
    meant = sockets_in(name if is_settings else f"{name}.toml")
    found = next((it for it in (name, *beside, *meant) if is_socket(it)), None)
    if found is None:
        where = f"at {[*meant, *beside][0]}" if is_settings else f"there, or at {beside[-1]}"
        raise Gone(f"nobody listens {where}{ended_text(name)}")
    return found


def ended_text(name: str) -> str:
    """That a run has ended, by its last recording, which nobody writes; nothing where there is none."""
    last = all_of(name)[-1]
    is_ended = os.path.isfile(last) and not last.endswith(".toml") and not is_locked(last)
    return f": the run has ended, and {last} is its last recording" if is_ended else ""


def misplaced(given: argparse.Namespace) -> str:
    """What is wrong with words of which a line's first stands ahead of RUN; nothing where none does."""
    if given.run not in LINES or os.path.lexists(given.run):
        return ""
    run = next((it for it in given.words if it.endswith((".ch11", ".toml", ".control"))), "RUN")
    rest = [given.run, *(it for it in given.words if it != run)]
    return f"RUN comes first: {name_of('tell')} {' '.join([run, *rest])}"


def sockets_in(settings: str) -> list[str]:
    """The socket that settings name, or the one beside their `out`: from their folder, and from this one, since live may
    have been started in either."""
    flight = flight_at(settings)
    if flight and run_fault(flight.settings):
        raise Refusal(2, f"{settings}: {run_fault(flight.settings)}")
    control, out = (flight.run.get("control"), flight.out()) if flight else (None, None)
    meant = control if isinstance(control, str) else control_path(out) if out else None
    return [os.path.join(it, meant) for it in (os.path.dirname(settings), "")] if meant else []


def is_socket(path: str) -> bool:
    """Whether a path is that of a socket."""
    try:
        return stat.S_ISSOCK(os.stat(path).st_mode)
    except (OSError, ValueError):
        return False


def answer_in(stream: BinaryIO) -> tuple[bool, str]:
    """The next answer: whether what was asked for was done, and what is said of it."""
    lines: list[str] = []
    for line in stream:
        if line == b"\n" and lines:
            return lines[0] == "done", "\n".join(lines[1:])
        lines.append(line.decode(errors="replace").rstrip("\n"))
    raise Gone("it ended ahead of an answer")


def ask(connection: socket.socket, stream: BinaryIO, line: str) -> bool:
    """Sends a line, and tells its answer: whether it was done."""
    try:
        connection.sendall(line.encode(errors="surrogateescape") + b"\n")
        is_done, text = answer_in(stream)
    except socket.timeout:
        raise Gone("it doesn't answer") from None
    except OSError as error:
        raise Gone(str(error.strerror)) from None
    if text:
        (printing.out if is_done else printing.err)(f"{text}\n" if is_done else text)
    return is_done


def ask_all(path: str, lines: Iterable[str], patience: Optional[float]) -> int:
    """Sends lines, each once the one before is answered: the status."""
    status = DONE
    with socket.socket(socket.AF_UNIX, socket.SOCK_STREAM) as connection:
        connection.settimeout(patience)
        try:
            connection.connect(path)
        except OSError as error:
            raise Gone(f"nobody listens: {error.strerror}") from None
        with connection.makefile("rb") as stream:
            for line in lines:
                if not ask(connection, stream, line):
                    status = REFUSED
    return status


def run(arguments: list[str]) -> int:
    """Asks: the status."""
    given = parser().parse_args(arguments)
    if given.words and given.words[0].partition("=")[0] == "--wait":
        # Behind RUN it is an option too, and within a LINE a word.
        end = 1 + ("=" not in given.words[0])
        given = parser().parse_args([*given.words[:end], given.run, *given.words[end:]])
    words = line_of(given.words)
    if given.words[:1] == ["set"] and "" in given.words[2:]:
        # As a variable of the shell is that isn't set: it must not open the channel.
        printing.err(f"{name_of('tell')}: FILTER is empty; all keeps all frames")
        return USAGE
    if misplaced(given):
        printing.err(f"{name_of('tell')}: {misplaced(given)}")
        return USAGE
    if "\n" in words:
        printing.err(f"{name_of('tell')}: LINE has a line feed, and so it is more than one")
        return USAGE
    typed = (line.rstrip("\n") for line in sys.stdin)
    path = given.run
    try:
        path = socket_of(given.run)
        return ask_all(path, [words] if words else (it for it in typed if it), given.wait)
    except Refusal as refusal:
        printing.err(f"{name_of('tell')}: {refusal.what()}")
        return refusal.status
    except Gone as why:
        printing.err(f"{name_of('tell')}: {path}: {why}")
        return NOBODY
