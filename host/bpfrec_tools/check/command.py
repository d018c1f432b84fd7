"""The command line of bpfrec check."""

from __future__ import annotations

import argparse
import os
import shutil
import stat
import tempfile
from typing import Optional

from bpfrec.formats.guesses import guess_at
from bpfrec.formats.names import all_of, facts_path, last_of_runs
from bpfrec_tools.check.judge import Judge
from bpfrec_tools.check.order import in_order
from bpfrec_tools.check.verifier import verifier_of
from bpfrec_tools.cli import printing
from bpfrec_tools.cli.arguments import Parser, name_of
from bpfrec_tools.cli.program import audit_of
from bpfrec_tools.cli.streams import STREAM, identity, refuse_inputs, refuse_twice
from second.sums import check_sums

ABOUT = """\
Says yes or no of recordings, of a run or of whole Chapter 11 files: whether each is what it says. It judges the sums of
all packets, the facts beside the recording, and what `bpfrec audit` answers. The last line is `yes` or `no`.

  bpfrec check flight.ch11
  bpfrec check --signers allowed_signers flight.ch11

FILE is a recording or a whole Chapter 11 file, `-` standard input, or the name of a run, which is all its recordings. Of
several FILES each begins with a line `recording <FILE>`, and they are judged by run and number, as their names have them
(flight_00003.ch11), in whichever folders they are.

The facts beside FILE, FILE.json, are judged if they are there, or are asked for by --signers or by more than one FILE:
  hash right | hash none: <why> | hash wrong: <SHA-256>, the facts say <SHA-256>
  length wrong: <bytes>, the facts say <bytes>
  name wrong: the facts are of <name>
  before right: <name> | before none | before not given: <name> | before unknown: <why> | before wrong: <why>
  signature right: <signer> | signature none | signature wrong: <why>
  facts wrong: <why>
`before` is the recording before in the same run, which has to be the FILE of that run that is given before this one; of
the first FILE of each run it isn't asked for. So a recording that is missing in the middle is said. One that is missing
at the end of a run that was given by its name is said by the facts of the one before it:
  next missing: <name>

Then it prints a line for each packet that is wrong, with the place of its first byte:
  <at> data checksum <hex>, the words add up to <hex>     the packets behind it are checked too
  <at> header checksum <hex>, the words add up to <hex>   and here the reading ends, as at the next three
  <at> no sync pattern
  <at> lengths <packet length> <data length>
  <at> cut
and the counts, where <k> packets have no data checksum of 32 bits, or a secondary header:
  packets <n> data checksums <m> without <k> wrong <w>

Of a file that begins with a setup record, which is a whole Chapter 11 file, setup record, time packets, order and index
are checked too; a line `<at> <what>` says what is wrong. Of an empty file it prints `empty: there is no packet`,
which is wrong without facts, and of a capture or a text `no recording (<what it is>)`.

Then stands `audit: <answer>`, or `audit: not asked: <why>`, which is wrong. Of several FILES a line for each that is wrong
stands ahead of the answer: `wrong <FILE>: <why>; ..`, with the first packet that is wrong.
"""
MORE = """\
With --signers the facts must be signed, as live --sign does it, by one of SIGNERS: a file of allowed signers, as
ssh-keygen(1) has it. No hash and no signature are wrong then.

The sums are judged by code of their own, written from the format's page, which no other tool has.

It runs bpfrec: what BPFREC names, or the one beside it.

Status: 0 yes, 1 no, 2 the arguments are wrong, 3 a file can't be read or printed, 4 out of memory, 130 interrupted.
"""


# What is said of a file whose sums can't be read.
NO_SUMS = "sums none: it is no regular file"


def parser() -> Parser:
    """The arguments of bpfrec check."""
    made = Parser(prog=name_of("check"), description=ABOUT, epilog=MORE)
    made.add_argument("--signers", metavar="SIGNERS", help="a file of those who may sign facts")
    made.add_argument("--identity", metavar="NAME", help="who of them must have signed; without it anybody of them")
    made.add_argument("--no-audit", action="store_true", help="leaves the audit out")
    made.add_argument("--quiet", action="store_true", help="shows no progress on a terminal")
    made.add_argument("files", metavar="FILE", nargs="+")
    return made


def say(line: str) -> None:
    """Prints a line."""
    printing.out(f"{line}\n")


def faults_of(path: str, judge: Optional[Judge], given: argparse.Namespace) -> list[str]:
    """Judges a file, and the facts beside it where they are asked for: what is wrong."""
    faults: list[str] = []
    if judge and not judge.judge(path, path in given.last):
        faults += judge.faults
    if judge and not stat.S_ISREG(os.stat(path).st_mode):
        say(NO_SUMS)
        return [*faults, NO_SUMS]
    if guess_at(path):
        say(f"no recording{guess_at(path)}")
    faults += sums_faults(path)
    audit = None if given.no_audit else audit_of(path, given.quiet)
    if audit is None:
        return faults
    say(f"audit: {audit}")
    return faults if audit.is_yes() else [*faults, f"audit: {audit}"]


def sums_faults(path: str) -> list[str]:
    """The same of its sums, of which the first that is wrong stands for all."""
    told: list[str] = []

    def take(line: str) -> None:
        say(line)
        told.append(line)

    with open(path, "rb") as file:
        are_right = check_sums(file, take)
    # By its facts a recording may be empty.
    is_right = are_right and (os.path.getsize(path) > 0 or os.path.lexists(facts_path(path)))
    return [] if is_right else told[:1]


def standard_input_faults(given: argparse.Namespace) -> list[str]:
    """The same of standard input, which is copied, since it is read more than once."""
    with tempfile.TemporaryFile() as copy:
        with open(0, "rb", closefd=False) as stream:
            shutil.copyfileobj(stream, copy)
        copy.flush()
        return faults_of(f"/proc/self/fd/{copy.fileno()}", None, given)


def judge_of(given: argparse.Namespace) -> Optional[Judge]:
    """What judges the facts beside recordings; None where there are none, and nobody asks for them."""
    is_asked = given.signers is not None or len(given.files) > 1
    if not is_asked and (given.files[0] == STREAM or not os.path.lexists(facts_path(given.files[0]))):
        return None
    return Judge(None if given.signers is None else verifier_of(given.signers, given.identity), say)


def arguments_of(arguments: list[str]) -> argparse.Namespace:
    """The arguments, where they go together, with the recordings of runs in the places of their names."""
    made = parser()
    given = made.parse_args(arguments)
    if STREAM in given.files and (len(given.files) > 1 or given.signers is not None):
        made.error("standard input has no facts beside it")
    if given.identity is not None and given.signers is None:
        made.error("--identity needs --signers")
    paths = [path for it in given.files for path in in_order(all_of(it))]
    given.last = last_of_runs(given.files)
    refuse_twice(it for it in paths if identity(it, 0))
    given.files = in_order(paths)
    return given


def check_all(given: argparse.Namespace) -> bool:
    """Judges all files; whether all is right."""
    refuse_inputs(given.files, STREAM)
    judge, wrong = judge_of(given), []
    for path in given.files:
        if len(given.files) > 1:
            say(f"recording {path}")
        faults = standard_input_faults(given) if path == STREAM else faults_of(path, judge, given)
        wrong += [f"wrong {path}: {'; '.join(faults)}"] if faults else []
    for line in wrong if len(given.files) > 1 else ():
        say(line)
    return not wrong


def run(arguments: list[str]) -> int:
    """Judges recordings: the status."""
    answer = check_all(arguments_of(arguments))
    say("yes" if answer else "no")
    return 0 if answer else 1
