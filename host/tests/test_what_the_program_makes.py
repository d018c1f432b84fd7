"""Tries that the tools leave to the proved program what it makes: packets of Chapter 11 files, and their times."""

import ast
from collections.abc import Iterator
from pathlib import Path
from typing import Union

import pytest
from support import ROOT, judge

HOST = ROOT / "host"
MODULES = sorted(it for it in HOST.rglob("*.py") if "tests" not in it.relative_to(HOST).parts)
# What computes beside operators, and where that comes from.
COMPUTING = {"divmod", "sum", "round", "pow", "abs", "nanoseconds_of", "seconds_of"}
OF_NUMBERS = {"math", "operator", "decimal", "fractions", "datetime", "calendar", "time", "statistics", "struct"}
# What makes bytes of numbers, and which modules do, with what they make of them. None of it is a packet.
MAKING = {"pack", "pack_into", "to_bytes", "tobytes", "fromhex"}
SYSTEM = "what calls of the system take"
MAKERS = {
    "bpfrec.formats.packet": "the sync pattern, which is looked for",
    "bpfrec.formats.whole_file": "the word of a setup record, which is looked for",
    "second.setup_record": "the same",
    "bpfrec.formats.guesses": "what captures begin with, which is looked for",
    "bpfrec.formats.pcapng_blocks": "blocks of captures",
    "bpfrec.formats.transfer": "the headers of datagrams",
    "bpfrec_tools.live.parts.adapters": SYSTEM,
    "bpfrec_tools.live.parts.system": SYSTEM,
    "bpfrec_tools.preflight.live": SYSTEM,
    "bpfrec_tools.publish.sending": SYSTEM,
    "bpfrec_tools.receive.source": SYSTEM,
}
# Of the sync pattern and the tag of records, which packets have: who knows them, to read.
MARKS = {"SYNC", "SYNC_PATTERN", "RECORD_TAG"}
MAY_KNOW_MARKS = {
    *(f"bpfrec.formats.{it}" for it in ("packet", "records", "follow", "whole_file")),
    "bpfrec_tools.live.operands",
}
# What publish knows of formats: datagrams, and of packets where they begin, filters and ends, by which it follows them.
OF_PUBLISH = {
    "command": {"transfer"},
    "datagrams": {"transfer"},
    "recording": {"facts", "follow", "limits", "names", "records", "settings"},
    "sending": set(),
    "stream": {"limits"},
    "streaming": {"facts"},
}
# What begins lines of a setup record's text, and who has such: its reader, and options, which refuse its names.
OF_SETUP_RECORDS = ("R-1\\", "G\\")
MAY_NAME_LINES = {
    "bpfrec.formats.whole_file": "reads them",
    "second.setup_record": "reads them",
    "bpfrec_tools.chapter11.options": "refuses them, and has that of comments",
}


def name_of(path: Path) -> str:
    """A module's name, by which others import it."""
    return ".".join(path.relative_to(HOST).with_suffix("").parts).removesuffix(".__init__")


def tree_of(path: Path) -> ast.Module:
    return ast.parse(path.read_text())


def imported(path: Path) -> Iterator[tuple[str, str]]:
    """The modules that one imports, and what of each."""
    for node in ast.walk(tree_of(path)):
        if isinstance(node, ast.Import):
            yield from ((it.name, "") for it in node.names)
        elif isinstance(node, ast.ImportFrom):
            yield from ((node.module or "", it.name) for it in node.names)


def is_computed(node: ast.AST) -> bool:
    """Whether a number is computed here; `|` joins sets of flags."""
    if isinstance(node, (ast.BinOp, ast.AugAssign)):
        return not isinstance(node.op, ast.BitOr)
    return isinstance(node, ast.UnaryOp) and not isinstance(node.op, ast.Not)


@pytest.mark.parametrize("path", sorted((HOST / "bpfrec_tools/chapter11").glob("*.py")), ids=lambda it: it.stem)
def test_setup_is_copied_and_nothing_in_it_is_computed(path: Path) -> None:
    """So a time of a whole file is that of the facts, which the program reads."""
    nodes = [it for it in ast.walk(tree_of(path)) if isinstance(it, (ast.expr, ast.stmt))]
    found = [it.lineno for it in nodes if is_computed(it)]
    judge("no arithmetic", not found, [f"{path}:{line}" for line in found])
    called = {it.id for it in nodes if isinstance(it, ast.Name)}
    judge("nor by a function", not called & COMPUTING, called & COMPUTING)
    others = {module for module, _ in imported(path)} & OF_NUMBERS
    judge("nor by a module", not others, others)


def is_made(node: ast.AST) -> bool:
    """Whether bytes are made of numbers here."""
    if isinstance(node, ast.Attribute):
        return node.attr in MAKING
    if not isinstance(node, ast.Call) or not isinstance(node.func, ast.Name):
        return False
    are_numbers = any(isinstance(it, (ast.Tuple, ast.List, ast.GeneratorExp)) for it in node.args)
    return node.func.id in ("bytes", "bytearray") and are_numbers


def test_no_python_makes_a_packet() -> None:
    """Each module that makes bytes of numbers is known, with what it makes."""
    found = {name_of(path) for path in MODULES if any(map(is_made, ast.walk(tree_of(path))))}
    judge("they are those", found == set(MAKERS), found ^ set(MAKERS))
    knowing = {name_of(path) for path in MODULES if MARKS & {name for _, name in imported(path)}}
    judge("who knows what packets begin with", knowing == MAY_KNOW_MARKS, knowing ^ MAY_KNOW_MARKS)


def text_of(value: Union[str, bytes]) -> str:
    return value.decode("latin-1") if isinstance(value, bytes) else value


def test_none_makes_the_text_of_a_setup_record() -> None:
    found = set()
    for path in MODULES:
        texts = (
            it.value
            for it in ast.walk(tree_of(path))
            if isinstance(it, ast.Constant) and isinstance(it.value, (str, bytes))
        )
        if any(text_of(it).startswith(OF_SETUP_RECORDS) for it in texts):
            found.add(name_of(path))
    judge("its lines stand with those who read them", found == set(MAY_NAME_LINES), found ^ set(MAY_NAME_LINES))


def test_publish_imports_what_cuts_datagrams_alone() -> None:
    """It knows nothing of what packets hold, and has the stream's SETUP by what chapter11 has."""
    for path in sorted((HOST / "bpfrec_tools/publish").glob("[!_]*.py")):
        modules = {module for module, _ in imported(path)}
        formats = {it.rpartition(".")[2] for it in modules if it.startswith("bpfrec.formats")}
        judge(path.stem, formats == OF_PUBLISH[path.stem], formats)
        others = {it for it in modules if it.startswith(("bpfrec.core", "bpfrec_tools.export", "second"))}
        judge(f"{path.stem}: no other reader", not others, others)
