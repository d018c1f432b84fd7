"""What the program's help and the arguments of the tools say, as they stand in their sources."""
from __future__ import annotations

import importlib
import re
import sys
from argparse import ArgumentParser
from collections.abc import Iterator
from pathlib import Path
from typing import NamedTuple

ROOT = Path(__file__).resolve().parents[2]
sys.path.insert(0, str(ROOT / "host"))
from bpfrec_tools.cli.arguments import Parser
from bpfrec_tools.verbs import TOOLS as PYTHON_TOOLS

COMMANDS, HELP = ROOT / "crates/rec_words/src/command_line.rt", ROOT / "crates/rec_words/src/command_line/help.rt"
FORMATS = [ROOT / f"docs/user/formats/{it}.md" for it in ("filters", "recording")]
CAPTURE = ROOT / "capture/src/usage.c"


class Word(NamedTuple):
    name: str
    help: str


class Command(NamedTuple):
    name: str
    about: str
    help: str
    words: list[Word]


def parsers() -> dict[str, Parser]:
    """The parsers of the tools in Python, by their verbs."""
    return {name: importlib.import_module(module).parser() for name, module in PYTHON_TOOLS.items()}


def uses_in(text: str, name: str) -> list[str]:
    """What a tool takes, as its help begins: each use without the tool's name and the option for help."""
    first = text.partition("\n\n")[0].removeprefix("usage: ")
    uses = [" ".join(it.split()) for it in re.split(rf"(?:^|\n +){re.escape(name)} ", first) if it]
    return [it.removeprefix("[-h] ").replace("...", "..") for it in uses]


def string_of(literal: str) -> str:
    """What a string of the source says."""
    text = re.sub(r"\\\n\s*", "", literal)
    return re.sub(r"\\(.)", lambda found: {"n": "\n", "t": "\t"}.get(found[1], found[1]), text)


def shown(name: str, is_required: str) -> str:
    """A word's name as usage shows it."""
    return name if is_required == "true" else f"[{name}]"


def capture_text() -> str:
    """What capture --help prints, as its source has it."""
    literals = CAPTURE.read_text().partition("const char USAGE[] =")[2].partition(";\n")[0]
    return string_of("".join(re.findall(r'"((?:[^"\\]|\\.)*)"', literals)))


def parser_texts(parser: ArgumentParser) -> Iterator[tuple[str, str]]:
    """The help of a parser and of each of its commands: what it is called by, and its texts."""
    texts = [parser.description, parser.epilog, *(it.help for it in parser._actions)]
    yield f"{parser.prog} --help", "\n\n".join(it for it in texts if it)
    for action in parser._actions:
        if isinstance(action.choices, dict):
            for command in action.choices.values():
                yield from parser_texts(command)


def tool_texts() -> Iterator[tuple[str, str]]:
    """The help of all tools and of their commands: what it is called by, and its texts."""
    yield "capture --help", capture_text().partition("\n\n")[2]
    for parser in parsers().values():
        yield from parser_texts(parser)


class Help:
    """The texts of the program's help."""

    def __init__(self) -> None:
        source = COMMANDS.read_text() + HELP.read_text()
        quoted = r'"((?:[^"\\]|\\.)*)"'
        texts = {name: string_of(it) for name, it in re.findall(rf"const (\w+): &str =\s*{quoted};", source, re.DOTALL)}
        word = rf"WordTexts \{{\s*name: {quoted},\s*help: {quoted},\s*is_required: (true|false),\s*\}}"
        words = {
            name: Word(shown(string_of(a), c), string_of(b))
            for name, a, b, c in re.findall(rf"const (\w+): WordTexts = {word};", source)
        }
        named = dict(re.findall(r"HelpText::(\w+) => (\w+),", source))
        table = source[source.index("const COMMANDS:") :]
        self.about, self.statuses, self.version = texts["ABOUT"], texts["STATUSES"], texts["VERSION"]
        self.commands = []
        texts_of_row = rf"name: {quoted},\s*usage: {quoted},\s*about: {quoted},\s*help: HelpText::(\w+)"
        row = rf"CommandTexts \{{\s*{texts_of_row},\s*words: &\[(.*?)\],\s*\}},"
        for name, _, about, help_name, given in re.findall(row, table, re.DOTALL):
            found = []
            for place in re.finditer(rf"{word}|\b([A-Z_]+)\b(?=\s*[,\]]|\s*$)", given):
                found.append(
                    words[place[4]] if place[4] else Word(shown(string_of(place[1]), place[3]), string_of(place[2]))
                )
            self.commands.append(Command(name, string_of(about), texts[named[help_name]], found))
        if len(self.commands) != table.count("    CommandTexts {") or not self.commands:
            raise SystemExit(f"{COMMANDS.relative_to(ROOT)}: not every command of COMMANDS can be read")
