"""Tries dev/checks/prose.py on texts with and without faults. Nothing is run."""

import ast
import sys

import pytest
from support import ROOT, judge

sys.path.insert(0, str(ROOT / "dev" / "checks"))
import prose

LONG = " ".join(["word"] * 41)
CLEAN = [
    " ".join(["word"] * 40) + ". Two words.",
    f"{LONG[:100]}.\nThe next sentence: `{LONG}`",
    f"```text\n{LONG}\n```",
    f"| a cell of {LONG[:80]}; and {LONG[:100]} | `so many` |",
    "32-bit words are told apart by `told` alone.".replace("told apart", "read"),
    f"- {LONG[:100]}\n- {LONG[:100]}",
]
WRONG = [
    (f"{LONG}. Two words.", 1),
    (f"One.\n\n{LONG}", 3),
    ("It wants root.", 1),
    ("One.\nThe failure is\ntold.", 1),
    ("A default of 256 MiB\nby itself.", 1),
    (f"| {LONG} |", 1),
    ("So many frames", 1),
    ("These are passed\nover.", 1),
    (" ".join(["word"] * 26) + ".", 1),
]
SOURCE = """def call(name):
    '''What wants a name.'''
    return f"{name} wants" + "a thing"
"""


@pytest.mark.parametrize("text", CLEAN)
def test_clean_text_is_passed(text: str) -> None:
    found = list(prose.faults_in(text, prose.refused()))
    judge("it finds nothing", found == [], str(found))


@pytest.mark.parametrize("text, line", WRONG)
def test_each_fault_is_found_with_its_line(text: str, line: int) -> None:
    found = list(prose.faults_in(text, prose.refused()))
    judge("it finds the fault and its line", [at for at, _ in found] == [line], str(found))


def test_pages_with_too_many_words_are_found(monkeypatch: pytest.MonkeyPatch) -> None:
    """By the number that wc prints, and the bound."""
    count = len((ROOT / "README.md").read_text().split())
    monkeypatch.setattr(prose, "MOST_WORDS", {("README.md",): count})
    judge("as many as are allowed", list(prose.too_many_words()) == [])
    monkeypatch.setattr(prose, "MOST_WORDS", {("README.md",): count - 1})
    wanted = [f"README.md: {count:,} words, and at most {count - 1:,} are allowed"]
    judge("one more", list(prose.too_many_words()) == wanted, list(prose.too_many_words()))


def test_the_help_of_each_tool_is_read() -> None:
    """Each tool's help is read, and that of each of its commands."""
    names = [name for name, _ in prose.texts()]
    for name in ("capture", "check", "export", "filter", "live", "preflight"):
        judge(f"{name} --help", any(it.endswith(f"{name} --help") for it in names), names)


def test_printed() -> None:
    found = sorted(prose.strings_of(ast.parse(SOURCE)))
    judge("strings are read, and what documents isn't", found == [(3, "a thing"), (3, "x wants")], found)
    read = {str(file.relative_to(ROOT)) for file, _, _ in prose.printed()}
    for name in (
        "host/bpfrec_tools/live/parts/folder.py",
        "capture/src/arguments.c",
        "dev/trials/lib/trial_fixtures.py",
        "Makefile",
    ):
        judge(f"{name} is read", name in read, read)


def test_each_word_of_the_table_is_refused() -> None:
    judge("STYLE's table is read", len(prose.refused()) >= 10, str(prose.refused()))
