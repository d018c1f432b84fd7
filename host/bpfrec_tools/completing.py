"""What shells offer for the last word of a command line, which they ask for by `bpfrec complete WORD..`."""

from __future__ import annotations

import argparse
import importlib
import os
import re
import subprocess
from glob import escape, glob
from typing import Iterable, Optional

from bpfrec.formats.facts import NoFacts, read
from bpfrec.formats.names import all_of, facts_path
from bpfrec_tools import verbs
from bpfrec_tools.cli import printing, program
from bpfrec_tools.cli.arguments import Parser
from bpfrec_tools.live.capture_options import ORIGIN, VALUED
from bpfrec_tools.live.control.words import LINES
from bpfrec_tools.live.flight import flight_at

INTERFACES = "/sys/class/net"
# The words that an option takes beside those of its parser, and those of capture's, which has none.
WORDS: dict[str, tuple[str, ...]] = {
    **{option: words for option, words in VALUED.items() if words},
    ORIGIN: ("now", "zero", "first"),
}
# Of a run so many recordings are looked at, the last.
MOST_RECORDINGS = 8
# What the value of an option is, by how its help calls it: the endings of a file.
VALUE_FILES = {"FILE": "*", "KEY": "*", "SIGNERS": "*", "COMMAND": "*", "PATH": "*", "ARGUMENT": "toml ch11"}
# The place of an operand that is no file: an expression, or an address.
WORDED = {"filter": 0, "receive": 0, "publish": 1}


def beginning_with(word: str, offers: Iterable[str]) -> list[str]:
    """Those that begin with a word, in order."""
    return sorted(it for it in set(offers) if it.startswith(word))


def files(word: str, kinds: Iterable[str]) -> list[str]:
    """The files that begin so and end in one of these kinds, and folders; all files where there are none."""
    paths = [f"{it}/" if os.path.isdir(it) else it for it in glob(f"{escape(word)}*")]
    wanted = [it for it in paths if it.endswith("/") or it.rpartition(".")[2] in kinds]
    is_any = "*" in kinds or not any(not it.endswith("/") for it in wanted)
    return sorted(paths if is_any else wanted)


def interfaces(word: str) -> list[str]:
    """The interfaces of this machine that begin so."""
    return beginning_with(word, os.listdir(INTERFACES)) if os.path.isdir(INTERFACES) else []


def channels(named: list[str], word: str) -> list[str]:
    """The channels that begin so, by their IDs and names: of recordings, by the facts beside them, and of a flight."""
    found: dict[int, str] = {}
    for path in (path for it in named for path in all_of(it)[-MOST_RECORDINGS:] if not it.startswith("-")):
        flight = flight_at(path)
        found |= {**flight.routes(), **flight.names()} if flight else {}
        try:
            known = read(facts_path(path))
            found |= {**known.interfaces, **known.names}
        except (OSError, NoFacts):
            pass
    return beginning_with(word, [*map(str, found), *found.values()])


def action_of(parser: argparse.ArgumentParser, option: str) -> Optional[argparse.Action]:
    """The option of a parser that takes the next word; None where none does."""
    found = next((it for it in parser._actions if option in it.option_strings), None)
    return found if found is not None and found.nargs != 0 else None


def values(action: argparse.Action, before: list[str], word: str) -> list[str]:
    """What an option takes, which is the last of the words before."""
    name = str(action.metavar or "")
    if action.choices or before[-1] in WORDS:
        return beginning_with(word, map(str, action.choices or WORDS[before[-1]]))
    if before[-1] == "--interface":
        return interfaces(word)
    if before[-1] == "--channel":
        return channels(before[:-1], word)
    return files(word, VALUE_FILES[name].split()) if name in VALUE_FILES else []


def of_tool(verb: str, words: list[str]) -> list[str]:
    """What a tool takes as its last word."""
    *before, word = words
    parser: Parser = importlib.import_module(verbs.TOOLS[verb]).parser()
    action = action_of(parser, before[-1]) if before else None
    if action is not None:
        return values(action, before, word)
    if word.startswith("-"):
        options = [it for action in parser._actions for it in action.option_strings if it.startswith("--")]
        return beginning_with(word, [*options, "--version"])
    if verb == "tell" and before:
        return of_line(before[0], before[1:], word)
    if verb in ("live", "preflight") and before and ("=" in word or before[-1] == "="):
        # Some shells take a word apart at its sign.
        ahead, sign, begun = word.rpartition("=")
        flights = [flight for flight in map(flight_at, before) if flight]
        known = [str(it) for flight in flights for it in (*flight.routes(), *flight.names(), *flight.names().values())]
        return [f"{ahead}{sign}{it}" for it in beginning_with(begun, known)]
    if sum(not it.startswith("-") for it in before) == WORDED.get(verb):
        return []
    offers = files(word, verbs.VERBS[verb].kinds.split() or ["*"])
    return [*offers, *interfaces(word)] if verb in ("live", "preflight") and before else offers


def of_line(run_name: str, before: list[str], word: str) -> list[str]:
    """What a line to a run takes as its last word."""
    if not before:
        return beginning_with(word, LINES)
    if before == ["set"]:
        return channels([run_name], word)
    is_filter = before[0] == "set" and len(before) == 2
    return [*beginning_with(word, ["all"]), *files(word, ["bpf", "txt"])] if is_filter else []


def of_capture(words: list[str]) -> list[str]:
    """What capture takes as its last word, by its help."""
    word, before = words[-1], words[-2] if words[1:] else ""
    if before in WORDS:
        return beginning_with(word, WORDS[before])
    if word.startswith("-"):
        told = subprocess.run([program.capture_path(), "--help"], capture_output=True, text=True, check=False).stdout
        return beginning_with(word, re.findall("^  (--[a-z-]+)", told, re.MULTILINE))
    return [*files(word, "*"), *interfaces(word)]


def of_program(verb: str, words: list[str]) -> list[str]:
    """What a verb of the proved program takes as its last word."""
    word, kinds = words[-1], verbs.VERBS[verb].kinds.split()
    if verb == "extract" and len(words) == 2:
        return beginning_with(word, (it for it in channels(words[:1], word) if it.isdecimal()))
    if word.startswith("-") and word != "-":
        return beginning_with(word, ["--help"])
    place = len(words) - 1
    return files(word, [kinds[place]]) if place < len(kinds) and kinds[place] != "-" else []


def offers_for(words: list[str]) -> list[str]:
    """What is offered for the last of the words behind `bpfrec`."""
    verb, *rest = words or [""]
    if not rest:
        return beginning_with(verb, [*verbs.VERBS, "help", *["--help", "--version"] * verb.startswith("-")])
    if verb == "help":
        return beginning_with(rest[-1], verbs.VERBS) if len(rest) == 1 else []
    if verb not in verbs.VERBS:
        return []
    found = verbs.VERBS[verb]
    return of_tool(verb, rest) if found.is_tool else of_program(verb, rest) if found.is_proved else of_capture(rest)


def run(words: list[str]) -> int:
    """Prints what is offered, a line each: the status."""
    printing.out("".join(f"{it}\n" for it in offers_for(words)))
    return 0
