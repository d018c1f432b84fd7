#!/usr/bin/env python3
"""Looks whether the help that PROGRAM prints, as bin/bpfrec, is the help that stands in the source, of which the manual
pages are made: each command, its words and its text. Without PROGRAM it looks whether each page can be made, and
whether each verb of the program is one of `bpfrec --help`. The status is 1 where something differs.
"""
import argparse
import os
import shutil
import subprocess
import sys
from collections.abc import Iterator
from pathlib import Path

sys.dont_write_bytecode = True
sys.path.insert(0, str(Path(__file__).resolve().parents[1] / "package"))
import help_texts
import make_texts
from bpfrec_tools import VERSION
from manual_page import proved_verbs

# The commands that no verb is: `bpfrec --version` is the one, and `bpfrec export` of the tools has the words of the other.
UNLISTED = {"version", "export"}


def printed_otherwise(program: str) -> Iterator[str]:
    """What of its help the program doesn't print."""
    texts = help_texts.Help()
    top = printed(program, "--help")
    if [it for it in (texts.about, texts.statuses, *(f"{it.name} " for it in texts.commands)) if it not in top]:
        yield "--help"
    listed = top[top.index("Commands:") :].split("\n\n")[0].split("\n")[1:]
    names = [it.split()[0] for it in listed if it[2:3] != " " and it.split()[0] != "help"]
    if names != [it.name for it in texts.commands]:
        yield "the commands of --help"
    for command in texts.commands:
        said = printed(program, command.name, "--help")
        words = [it.name if it.name.startswith("[") else f"<{it.name}>" for it in command.words]
        wanted = [command.help, command.about, *(it.help for it in command.words), *words]
        if [it for it in wanted if it not in said]:
            yield f"{command.name} --help"
    if printed(program, "version") != f"bpfrec {texts.version}\n":
        yield "version"


def printed(program: str, *words: str) -> str:
    return subprocess.run([os.path.abspath(program), *words], stdout=subprocess.PIPE, text=True).stdout


def main() -> int:
    parser = argparse.ArgumentParser(description=__doc__, formatter_class=argparse.RawDescriptionHelpFormatter)
    parser.add_argument("program", nargs="?", metavar="PROGRAM", help="bin/bpfrec, whose help is compared too")
    words = parser.parse_args()
    if words.program and not shutil.which(words.program):
        parser.error(f"{words.program} is no program")
    make_texts.texts()  # that each can be made
    source = help_texts.Help()
    wrong = []
    if differing := {it.name for it in source.commands} ^ {*proved_verbs(), *UNLISTED}:
        wrong.append(f"verbs of the program or of bpfrec --help alone: {' '.join(sorted(differing))}")
    if source.version != VERSION:
        wrong.append(f"the tools have the version {VERSION}, and the program {source.version}")
    if words.program:
        printed_texts = printed_otherwise(words.program)
        wrong += [f"{words.program} prints other help than its source has: {it}" for it in printed_texts]
    print("\n".join(wrong) or "all verbs and pages are those of the help")
    return 1 if wrong else 0


if __name__ == "__main__":
    sys.exit(main())
