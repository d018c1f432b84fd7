"""Tries what the tools of host/ have in common: how each ends where it can't print or run."""

import importlib
from pathlib import Path

import pytest
from bpfrec_tools.cli.arguments import Parser
from bpfrec_tools.verbs import TOOLS as TOOL_MODULES
from reading import SAMPLES
from support import TOOLS, judge, outcome

NAMES = sorted(TOOL_MODULES)
OLD = next(iter(sorted(Path.home().glob(".pyenv/versions/3.[78].*/bin/python"))), None)

# An option of a tool, and operands.
OPERANDS = {
    "check": "--quiet a b",
    "export": "--quiet a b.pcapng",
    "filter": "--force arp a b",
    "follow": "--now a",
    "info": "--quiet a b",
    "publish": "--ttl=3 a 127.0.0.1:5",
    "receive": "--idle=1s 127.0.0.1:5 b",
    "salvage": "--force a b",
}

each_tool = pytest.mark.parametrize("tool", NAMES)


@each_tool
@pytest.mark.parametrize("to, fault", [("> /dev/full", "No space left on device"), (">&-", "Bad file descriptor")])
def test_help_that_can_not_be_printed_is_told(tool: str, to: str, fault: str) -> None:
    done = outcome("sh", "-c", f"exec {TOOLS / tool} --help {to}")
    judge("it says why", (done.returncode, done.stderr) == (3, f"bpfrec {tool}: -: {fault}\n"), done)


@pytest.mark.parametrize("tool", OPERANDS)
def test_an_option_stands_ahead_of_operands_between_or_behind_them(tool: str) -> None:
    option, *operands = OPERANDS[tool].split()
    made: Parser = importlib.import_module(TOOL_MODULES[tool]).parser()
    found = [vars(made.parse_args([*operands[:at], option, *operands[at:]])) for at in range(len(operands) + 1)]
    judge("it says the same", all(it == found[0] for it in found) and found[0][option[2:].split("=")[0]], found)


@each_tool
def test_a_wrong_argument_is_refused_with_the_usage(tool: str) -> None:
    done = outcome(TOOLS / tool, "--nonsense")
    judge("a wrong argument", (done.returncode, done.stdout) == (2, "") and "Traceback" not in done.stderr, done)


@each_tool
def test_an_old_python_is_told_which_it_needs(tool: str) -> None:
    if OLD is None:
        pytest.skip("no Python before 3.9 is here")
    done = outcome(OLD, TOOLS / tool, SAMPLES[1])
    judge("no traceback by an old Python", "Traceback" not in done.stderr and done.stderr.count("\n") <= 1, done)
    judge("it says which it needs", (done.returncode, "3.9" in done.stderr) == (2, True), done)
