"""Options of what makes setup records: the scale of the clock, who held it, and attributes, whose names may be none of the
record's own."""

from __future__ import annotations

import argparse
import re

from bpfrec_tools.cli.arguments import natural_up_to

# By how many seconds SETUP takes a clock to be ahead, at most.
MAX_AHEAD = 255
ATTRIBUTE = re.compile(r"([ -9<-~][ -9<-~]*):[ -:<-~]*")
# The name of the test program, whose line an attribute replaces.
PROGRAM_NAME = "G\\PN"
OF_THE_FILE = {PROGRAM_NAME, *(f"G\\{it}" for it in ("106", "OD", "DSI\\N", "DSI-1", "DST-1"))}
OF_THE_RECORDER = {f"R-1\\{it}" for it in "ID RID R1 TC1 RI3 RI4 NSB IDX\\E IDX\\IT IDX\\ICV EV\\E N COM".split()}
OF_A_CHANNEL = re.compile(r"R-1\\(?:TK1|TK4|CHE|DSI|CDT|TTF|TFMT|TSRC|ENTF|NNET|ENBR|ENAM)-")
LEADING_ZEROS = re.compile(r"(?<![0-9])0+(?=[0-9])")
# What a name has not in a setup record.
REPLACED = re.compile(r"[^ -~]|[;:\\]")


def add_setup_options(made: argparse._ActionsContainer) -> None:
    """The options that say what facts don't."""
    scales = made.add_mutually_exclusive_group()
    utc = "a clock whose scale is unknown ran UTC"
    scales.add_argument("--utc", dest="ahead", action="store_const", const=0, help=utc)
    tai = "it ran TAI, ahead of UTC by these seconds, as 37"
    scales.add_argument("--tai", dest="ahead", metavar="SECONDS", type=ahead_of, help=tai)
    made.add_argument("--external", action="store_true", help="an outside source held the clock, as the file then says")
    more = "a further line of the setup record; several times"
    made.add_argument("--attribute", metavar="NAME:VALUE", type=attribute_of, action="append", default=[], help=more)


def setup_arguments(given: argparse.Namespace) -> list[str]:
    """These as arguments."""
    scale = [] if given.ahead is None else [f"--tai={given.ahead}"]
    return [*scale, *(["--external"] if given.external else []), *(f"--attribute={it}" for it in given.attribute)]


def cleaned(name: str) -> str:
    """A name as setup records have it, of any length."""
    return REPLACED.sub("_", name).strip(" ")


def comment_of(text: str) -> str:
    """The attribute that has a comment of the file."""
    return f"G\\COM:{text}"


def ahead_of(word: str) -> int:
    """The seconds by which TAI is ahead."""
    return natural_up_to(word, MAX_AHEAD, f"number of seconds up to {MAX_AHEAD}")


def attribute_of(word: str) -> str:
    """The attribute that a word is."""
    found = ATTRIBUTE.fullmatch(word)
    if not found:
        raise argparse.ArgumentTypeError(f"{word!r} is no NAME:VALUE in printable ASCII without a semicolon")
    if is_kept(found[1]):
        raise argparse.ArgumentTypeError(f"{word!r}: the setup record has this line itself")
    return word


def is_kept(name: str) -> bool:
    """Whether a reader may take a name for one of the record's own: blanks around it, small letters and zeros ahead of
    numbers may count for nothing."""
    read = LEADING_ZEROS.sub("", name.strip(" ").upper())
    is_own = read in OF_THE_FILE or read in OF_THE_RECORDER or bool(OF_A_CHANNEL.match(read))
    return is_own and name != PROGRAM_NAME
