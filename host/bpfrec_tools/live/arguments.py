"""The arguments of bpfrec live."""

from __future__ import annotations

import argparse
import os
import re
import shlex
from typing import NamedTuple, NoReturn, Optional

from bpfrec.formats.names import control_path
from bpfrec_tools.chapter11.options import add_setup_options, setup_arguments
from bpfrec_tools.cli.arguments import Parser, name_of, nearest
from bpfrec_tools.cli.quantities import IN_PARTS, MAX_SECONDS, number, parts, seconds, size, ticks
from bpfrec_tools.live.capture_options import add_capture_options
from bpfrec_tools.live.flight import Flight, by_ids, faults_of, flight_at, operands_with, read_toml, words_of
from bpfrec_tools.live.help import ABOUT, MORE
from bpfrec_tools.live.kept.names import is_special, refused
from bpfrec_tools.live.model import are_rotating
from bpfrec_tools.live.operands import Route, operands_of
from bpfrec_tools.live.targets import Target, target_of

# The recorder opens OUT anew, to write it.
OWNERS = 0o600
# Of a clock's error, in seconds: the kernel counts microseconds, and takes a clock that may be off by more than this for
# one that isn't synchronised.
LEAST_ERROR, MOST_ERROR = 1e-6, 16
# A disk takes about as long to be forced, in seconds.
LEAST_SYNC = 0.01

# By these tcpdump names an interface and a file.
TCPDUMP = ("-i", "-w")


class Arguments(NamedTuple):
    """What live is told to do."""

    # None where all frames are wanted.
    settings: Optional[str]
    out: str
    routes: list[Route]
    # The capture's options, as they were given.
    options: list[str]
    every: Optional[int]
    size: Optional[int]
    # After how many seconds the run ends; None where a signal ends it.
    seconds: Optional[int]
    sync: float
    is_prefiltered: bool
    is_forced: bool
    is_audited: bool
    is_strict: bool
    # Where the status is served.
    status: Optional[str]
    # The names by which a browser may ask for it.
    status_names: list[str]
    # How old a packet gets until it is closed, in ticks, where SETTINGS don't say it; None where it isn't given.
    span: Optional[int]
    # How many recordings are kept at most, and how many bytes are to be free on their disk.
    keep: Optional[int]
    keep_free: Optional[int]
    # The mode of the files that are created; None is the usual one, less what umask takes away.
    mode: Optional[int]
    # By how many seconds the clock may be off at most; None where nobody asks for a clock that is right.
    clock_error: Optional[float]
    # The program that is run for alarms, with its own arguments.
    on_alarm: Optional[list[str]]
    # The Unix socket by which lines come too.
    control: Optional[str]
    # Whether a whole Chapter 11 file is made of each recording, and what its setup record says beside the facts.
    makes_whole_files: bool
    setup: list[str]
    # The key that signs facts.
    sign: Optional[str]
    # Where the run is published.
    targets: list[Target]

    def is_rotating(self) -> bool:
        """Whether recordings follow one another."""
        return are_rotating(self.every, self.size)

    def reads_captures(self) -> bool:
        """Whether captures stand in the places of interfaces."""
        return any(it.is_capture() for it in self.routes)

    def socket(self) -> Optional[str]:
        """The socket by which lines come: of --control, or of interfaces the one beside OUT."""
        has_usual = self.routes and not self.reads_captures() and not is_special(self.out)
        return self.control or (control_path(self.out) if has_usual else None)

    def clock(self) -> str:
        """Whose times the frames have."""
        if self.reads_captures():
            return "capture"
        given = [it for at, it in enumerate(self.options) if at and self.options[at - 1] == "--clock"]
        return "adapter" if given[-1:] == ["adapter"] else "host"


class LiveParser(Parser):
    """A parser that says what is wrong in one line."""

    def error(self, message: str) -> NoReturn:
        """Refuses arguments that are wrong."""
        options = [it for action in self._actions for it in action.option_strings]
        raise refused(2, f"{fault_of(message, options)}")


def fault_of(message: str, options: list[str]) -> str:
    """A fault of argparse in the words of live, which has these options."""
    found = re.fullmatch(r"argument (--[a-z-]+): invalid choice: .*\(choose from (.*)\)", message)
    if found:
        return f"{found[1]} needs one of {found[2]}".replace("'", "")
    found = re.fullmatch(r"argument (--[a-z-]+): (.*)", message)
    if found:
        return f"{found[1]} {'needs a value' if found[2].startswith('expected') else found[2]}"
    found = re.fullmatch(r"unrecognized arguments: (\S+).*", message, re.DOTALL)
    if found and found[1] in TCPDUMP:
        return f"no such option: {found[1]}: OUT stands first, then interfaces, as flight.ch11 eth0"
    return f"no such option: {found[1]}{nearest(found[1], options)}" if found else message


def clock_error(word: str) -> float:
    """By how many seconds a clock may be off."""
    return parts(LEAST_ERROR, MOST_ERROR, f"from 0.000001 to {MOST_ERROR}, in seconds, or as 10ms or 500us")(word)


def command_words(text: str) -> list[str]:
    """A program and its arguments, taken apart as a shell does it."""
    try:
        words = shlex.split(text)
    except ValueError as why:
        raise argparse.ArgumentTypeError(f"needs a command: {str(why).lower()}") from None
    if not words:
        raise argparse.ArgumentTypeError("needs a command")
    return words


def file_mode(word: str) -> int:
    """The mode of a file, as chmod has it."""
    if not re.fullmatch(r"0?[0-7]{3}", word):
        raise argparse.ArgumentTypeError("needs a mode of three octal digits, as 0640")
    if int(word, 8) & OWNERS != OWNERS:
        raise argparse.ArgumentTypeError("needs a mode by which the owner may read and write, as 0640")
    return int(word, 8)


def parser() -> Parser:
    """The arguments of bpfrec live."""
    name = name_of("live")
    made = LiveParser(
        prog=name,
        usage=f"{name} [OPTION..] FLIGHT\n       {name} [OPTION..] [SETTINGS] OUT [INTERFACE[=CHANNEL[:EXPRESSION]]..]",
        description=ABOUT,
        epilog=MORE,
    )
    add_options_of_recordings(made.add_argument_group("recordings"))
    add_options_of_the_end(made.add_argument_group("recordings that have ended"))
    add_outside_options(made.add_argument_group("to watch, to steer and to send"))
    add_capture_options(made, made.add_argument_group("the capture, as bpfrec capture --help explains"))
    made.add_argument("operands", nargs="*", help=argparse.SUPPRESS)
    return made


def add_options_of_recordings(made: argparse._ArgumentGroup) -> None:
    """What a recording is, and when the next one begins."""
    made.add_argument("--force", dest="is_forced", action="store_true", help="overwrites an OUT that exists")
    made.add_argument("--mode", metavar="MODE", type=file_mode, help="who may read OUT and its facts")
    made.add_argument("--for", metavar="SECONDS", dest="seconds", type=seconds, help="ends the run after this time")
    made.add_argument("--every", metavar="SECONDS", type=seconds, help="begins a new recording after this time")
    made.add_argument("--size", metavar="BYTES", type=size, help="begins a new recording at BYTES bytes")
    count = number(1, MAX_SECONDS, f"from 1 to {MAX_SECONDS}")
    made.add_argument("--keep", metavar="N", type=count, help="keeps the last N recordings of --every or --size")
    made.add_argument("--keep-free", metavar="BYTES", type=size, help="removes the oldest until this much is free")
    made.add_argument("--span", metavar="SECONDS", type=ticks, help="how old a packet gets until it is written: 500ms")
    sync = parts(LEAST_SYNC, MAX_SECONDS, f"from {LEAST_SYNC} to {MAX_SECONDS}{IN_PARTS}", has_none=True)
    made.add_argument("--sync", metavar="SECONDS", type=sync, default=1, help="how often OUT is forced to its disk: 1")
    kernel = "has the kernel run the filters too"
    made.add_argument("--prefilter", dest="is_prefiltered", action="store_true", help=kernel)
    asked = "needs a synchronised clock that is off by no more than this"
    made.add_argument("--require-clock", metavar="SECONDS", dest="clock_error", type=clock_error, help=asked)


def add_options_of_the_end(made: argparse._ArgumentGroup) -> None:
    """What is done with each recording that has ended."""
    made.add_argument("--no-audit", dest="is_audited", action="store_false", help="leaves the audit out")
    lossless = "exit status 5 if an interface lost frames"
    made.add_argument("--strict", dest="is_strict", action="store_true", help=lossless)
    key = "signs the facts of each recording by ssh-keygen, with a key without a passphrase or of an agent"
    made.add_argument("--sign", metavar="KEY", help=key)
    whole = "makes OUT.ch10, a whole Chapter 11 file, after each recording"
    made.add_argument("--chapter11", dest="makes_whole_files", action="store_true", help=whole)
    add_setup_options(made)


def add_outside_options(made: argparse._ArgumentGroup) -> None:
    """The options by which others see how the run goes, steer it, or get what it records."""
    made.add_argument("--status", metavar="[ADDRESS:]PORT", help="serves a page that shows how the recording goes")
    named = "a name by which browsers ask for it; may be given again"
    made.add_argument("--status-name", metavar="NAME", dest="status_names", action="append", default=[], help=named)
    ran = "runs a program when an alarm begins or ends"
    made.add_argument("--on-alarm", metavar="COMMAND", type=command_words, help=ran)
    made.add_argument("--control", metavar="PATH", help="the socket by which bpfrec tell sends lines")
    sent = "sends what is recorded there by UDP; may be given again"
    form = "ADDRESS:PORT[,ttl=N][,interface=NAME][,datagram=BYTES]"
    made.add_argument("--publish", metavar=form, dest="targets", type=target_of, action="append", default=[], help=sent)


class Given(NamedTuple):
    """A command line: its options as words, and read; its operands; and the flight that they name."""

    words: list[str]
    options: argparse.Namespace
    operands: list[str]
    flight: Optional[Flight]


def given_by(arguments: list[str]) -> Given:
    """What stands on a command line."""
    end = arguments.index("--") if "--" in arguments else len(arguments)
    options = parser().parse_args(arguments[:end])
    operands = [*options.operands, *arguments[end + 1 :]]
    flight = flight_at(operands[0]) if operands else None
    if flight is None and len(operands) == 1 and os.path.isfile(operands[0]) and operands[0].endswith(".toml"):
        # It may be one that can't be read.
        read_toml(operands[0])
    return Given(arguments[:end], options, by_ids(flight, operands) if flight else operands, flight)


def read(arguments: list[str]) -> Arguments:
    """The arguments of a command line, with those of the flight that it names; what is wrong is a Refusal."""
    line = given_by(arguments)
    for fault in faults_of(line.flight, parser(), line.words) if line.flight else ():
        raise refused(2, f"{line.operands[0]}: {fault.what}")
    return arguments_of(line)


def arguments_of(line: Given) -> Arguments:
    """The same of a command line whose flight has no fault."""
    given, operands = line.options, line.operands
    if line.flight:
        given = parser().parse_args([*words_of(line.flight, line.words), *line.words])
        operands = operands_with(line.flight, operands)
    setup = setup_arguments(given)
    given.targets = [it._replace(setup=tuple(setup)) for it in given.targets]
    asked = {name: value for name, value in vars(given).items() if name in Arguments._fields}
    found = operands_of(operands)
    names = {name: channel for channel, name in line.flight.names().items()} if line.flight else {}
    for route in found.routes:
        named = names.get(route.interface, route.channel)
        if named != route.channel:
            what = f"{route.interface} is the interface of channel {route.channel}"
            raise refused(2, f"{operands[0]}: channel {named}: name: {what}")
    return Arguments(**found._asdict(), **asked, setup=setup)
