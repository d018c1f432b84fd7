"""Runs the tool whose name this is called by, or the one that the first word names."""

from __future__ import annotations

import importlib
import os
import sys
from typing import Callable, Optional

from bpfrec_tools import VERSION, verbs
from bpfrec_tools.cli import printing
from bpfrec_tools.cli.arguments import name_of, nearest
from bpfrec_tools.cli.ending import guarded
from bpfrec_tools.verbs import TOOLS


def run_tool(tool: str, words: Optional[list[str]] = None) -> int:
    """Runs a tool with these words, by default those of the command line: its status."""

    def command() -> int:
        if given == ["--version"]:
            printing.out(f"bpfrec {VERSION}\n")
            return 0
        # Imported here, so that Ctrl-C during an import ends as it does later.
        run: Callable[[list[str]], int] = importlib.import_module(TOOLS[tool]).run
        return run(given)

    given = sys.argv[1:] if words is None else words
    return guarded(name_of(tool), command)


def show_verbs(words: list[str]) -> int:
    """Lists the verbs: the status, which is 0 where that was asked for."""
    if words in ([], ["-h"], ["--help"], ["help"], ["help", "help"]):
        printing.out(verbs.text())
        return 0
    verb, known = words[words[0] == "help"], [*verbs.VERBS, "help"]
    printing.err(f"bpfrec: no verb {verb}{nearest(verb, known)}\nbpfrec --help lists all")
    return 2


def main() -> int:
    """Runs the tool that was called: the status."""
    called, words = os.path.basename(sys.argv[0]), sys.argv[1:]
    if called in TOOLS:
        return run_tool(called)
    if words[:1] == ["help"] and words[1:]:
        words = [words[1], "--help"] if words[1] in TOOLS else words[:2]
    if words[:1] == ["complete"]:
        from bpfrec_tools import completing

        return guarded("bpfrec complete", lambda: completing.run(words[1:]))
    if words and words[0] in TOOLS:
        return run_tool(words[0], words[1:])
    return guarded("bpfrec", lambda: show_verbs(words))


if __name__ == "__main__":
    sys.exit(main())
