"""Whole Chapter 11 files of recordings, which bpfrec export has the program make."""

from __future__ import annotations

import argparse
import os
import re
from typing import NoReturn, Optional

from bpfrec.formats import facts
from bpfrec.formats.limits import HEADER_LEN
from bpfrec.formats.names import facts_path
from bpfrec.formats.whole_file import begins_whole_file
from bpfrec_tools.chapter11.networks import networks_of
from bpfrec_tools.chapter11.options import comment_of
from bpfrec_tools.chapter11.runs import Recorded, judge_twice, missing_behind, missing_in, missing_text, runs_of
from bpfrec_tools.chapter11.setup import Asked, setup_text, told_by
from bpfrec_tools.chapter11.several import renumbered, setup_of_several
from bpfrec_tools.cli import printing, program
from bpfrec_tools.cli.arguments import name_of
from bpfrec_tools.cli.streams import (
    STREAM,
    Refused,
    Unreadable,
    facts_at,
    refuse_inputs,
    refuse_overwriting,
    refuse_strange,
    refuse_twice,
)

SECONDS = re.compile(r"-?[0-9]{1,12}(?:\.[0-9]{1,9})?")


class Unusable(Refused):
    """Arguments that don't go together, or that lack something."""

    status = 2


def origin_of(word: str) -> str:
    """The seconds that a word is."""
    if not SECONDS.fullmatch(word):
        raise argparse.ArgumentTypeError(f"{word} is no time in seconds since 1970, as 1764590400.25")
    return word


def facts_of(given: argparse.Namespace) -> Optional[str]:
    """The file of a recording's facts; None where there is none, and the origin is given."""
    recording = given.recordings[0]
    beside = facts_path(recording)
    if given.facts is not None:
        return str(given.facts)
    if os.path.exists(beside):
        if given.origin is not None:
            raise Unusable(f"{beside} has the origins, and --origin is for a recording without facts")
        return beside
    if given.origin is None:
        raise Unusable(f"{recording}: no facts beside it: --facts or --origin says when it was recorded")
    return None


def known_at(path: str) -> facts.Facts:
    """The facts in a file, of which a line says where they are older than scales."""
    known = facts_at(path)
    if known.is_scale_unsaid:
        printing.err(f"{name_of('export')}: {path}: {facts.SCALE_UNSAID}")
    return known


def judge_overwriting(out: str, is_forced: bool) -> None:
    """Refuses an OUT that exists, unless it may be overwritten. An empty one loses nothing: who needs its mode makes it
    ahead."""
    if not os.path.isfile(out) or os.path.getsize(out):
        refuse_overwriting(out, is_forced)


def asked_of(given: argparse.Namespace) -> Asked:
    """What the command line says of the file."""
    return Asked(given.origin, given.ahead, given.external, tuple(given.attribute))


def setup_of(given: argparse.Namespace) -> str:
    """SETUP of one recording."""
    recording = given.recordings[0]
    path = facts_of(given)
    refuse_inputs([recording, *([path] if path else [])], given.out, STREAM)
    known = known_at(path) if path else None
    networks = networks_of(recording).of_all()
    try:
        return setup_text(asked_of(given), told_by(known) if known else None, networks)
    except Refused as refused:
        raise Refused(f"{path}: {refused}") from None


def recorded_of(given: argparse.Namespace) -> list[Recorded]:
    """Several recordings, each of which is given once."""
    if given.facts is not None or given.origin is not None:
        raise Unusable("--facts and --origin are for one recording: several have their facts beside them")
    refuse_inputs([*given.recordings, *map(facts_path, given.recordings)], given.out, STREAM)
    refuse_twice(given.recordings)
    recordings = [Recorded(it, known_at(facts_path(it)), networks_of(it)) for it in given.recordings]
    judge_twice(recordings)
    return recordings


def as_operand(path: str) -> str:
    """A path as an operand of bpfrec, which no option is."""
    return os.path.join(".", path) if path.startswith("-") and path != STREAM else path


def become(recordings: list[str], setup: str, out: str) -> NoReturn:
    """Becomes bpfrec, which makes the file by a SETUP in memory. So whatever ends this process ends that program."""
    bpfrec = program.find()
    descriptor = in_memory(setup)
    os.set_inheritable(descriptor, True)
    files = [*map(as_operand, recordings), at_descriptor(descriptor), as_operand(out)]
    os.execv(bpfrec, [bpfrec, "chapter11", *files])


def in_memory(setup: str) -> int:
    """The descriptor of a file in memory that has SETUP."""
    descriptor = os.memfd_create("setup")
    with open(descriptor, "wb", closefd=False) as file:
        file.write(setup.encode())
    return descriptor


def at_descriptor(descriptor: int) -> str:
    """The path of an open file, which has no other."""
    return f"/proc/self/fd/{descriptor}"


def is_made_of(setup: str, given: argparse.Namespace) -> bool:
    """Whether a file is made by SETUP, which else is printed. An OUT that may not be overwritten is refused."""
    if given.out is None:
        printing.out(setup)
        return False
    if os.path.isdir(given.out):
        raise Unreadable(f"{given.out}: it is a folder")
    judge_overwriting(given.out, given.force)
    return True


def make_of_one(given: argparse.Namespace) -> None:
    """Makes the file of one recording, or prints SETUP."""
    setup = setup_of(given)
    if is_made_of(setup, given):
        become(given.recordings, setup, given.out)


def make_of_several(given: argparse.Namespace) -> None:
    """Makes the file of several recordings, or prints SETUP with the new IDs ahead of it."""
    runs = runs_of(recorded_of(given))
    lacking = [*missing_in(runs), *missing_behind([it for run in runs for it in run], given.last)]
    asked, missing = asked_of(given), missing_text(lacking, given.gaps)
    if missing:
        asked = asked._replace(attributes=(*asked.attributes, comment_of(missing)))
    lines, setup = renumbered(runs), setup_of_several(runs, asked)
    if is_made_of("".join([*(f"# {it}" for it in lines), setup]), given):
        printing.out("".join(lines))
        paths = [it.path for run in runs for it in run]
        if paths != given.recordings and os.isatty(2):
            printing.err(f"{name_of('export')}: the recordings in their order, from 0: {' '.join(paths)}")
        become(paths, setup, given.out)


def make(given: argparse.Namespace) -> int:
    """Makes the whole Chapter 11 file of recordings: the status."""
    if STREAM in given.recordings:
        raise Unusable(f"{STREAM}: it is standard input, and a whole file is made by reading twice")
    if given.out == STREAM:
        raise Unusable(f"{STREAM}: it is standard output, and a whole file is written twice, so OUT is a file")
    for path in filter(os.path.isfile, given.recordings):
        with open(path, "rb") as file:
            if begins_whole_file(file.read(HEADER_LEN)):
                raise Unusable(f"{path}: it is a whole Chapter 11 file, of which OUT.pcapng can be made")
    refuse_strange(given.recordings)
    if len(given.recordings) > 1:
        make_of_several(given)
    else:
        make_of_one(given)
    return 0
