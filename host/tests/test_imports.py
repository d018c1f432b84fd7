"""Tries which module imports which: the library at the bottom, the tools above it, and the second opinion apart."""

import ast
import subprocess
import sys
from collections.abc import Iterator
from pathlib import Path

import pytest
from support import ROOT, judge

HOST = ROOT / "host"
# What a script that reads a recording has no use for, so that the library imports none of it.
OF_TOOLS = {"argparse", "subprocess", "socket", "signal", "select", "threading", "tempfile", "shutil"}
# How many modules of the library are loaded at most where it is used.
MOST_MODULES = 25
SERVED = "import sys; sys.path.insert(0, sys.argv[1]); import bpfrec_tools.{}; print(*sys.modules)"
CALLED = """import atexit, sys; sys.path.insert(0, sys.argv[1]); atexit.register(lambda: print(*sys.modules))
from bpfrec_tools.__main__ import run_tool; run_tool(*sys.argv[2:3], sys.argv[3:])"""
# What takes long to load, and what only a run or its judgement has a use for.
LATE = {"subprocess", "dataclasses", "datetime", "tempfile", "bpfrec_tools.live.beginning", "bpfrec_tools.live.ahead"}
LOADED = "import sys; sys.path.insert(0, sys.argv[1]); import bpfrec; bpfrec.open; print(*sys.modules)"


def imported(path: Path) -> Iterator[str]:
    """The modules that one imports, also in a function, and those that may be names of them."""
    for node in ast.walk(ast.parse(path.read_text())):
        if isinstance(node, ast.Import):
            yield from (it.name for it in node.names)
        elif isinstance(node, ast.ImportFrom):
            yield from (f"{node.module}.{it.name}" for it in node.names)


def all_imported(folder: str) -> dict[str, list[str]]:
    """What each module below a folder imports, by its path below host/."""
    return {str(it.relative_to(HOST)): [*imported(it)] for it in sorted((HOST / folder).rglob("*.py"))}


def top(name: str) -> str:
    return name.partition(".")[0]


def test_the_library_imports_itself_and_the_standard_library() -> None:
    for path, names in all_imported("bpfrec").items():
        others = [it for it in names if top(it) not in {*sys.stdlib_module_names, "bpfrec"} or top(it) in OF_TOOLS]
        judge(path, not others, others)


def test_the_library_prints_nothing() -> None:
    for path in sorted((HOST / "bpfrec").rglob("*.py")):
        calls = [it.func for it in ast.walk(ast.parse(path.read_text())) if isinstance(it, ast.Call)]
        names = {it.id for it in calls if isinstance(it, ast.Name)}
        judge(str(path), not {"print", "input", "exit"} & names, names)


def test_formats_import_nothing_above_them() -> None:
    """The layers of the library: its formats, what a recording has, and the face."""
    for layer, below in (("formats", ["formats"]), ("core", ["formats", "core"])):
        for path, names in all_imported(f"bpfrec/{layer}").items():
            above = [it for it in names if top(it) == "bpfrec" and it.split(".")[1] not in below]
            judge(path, not above, above)


def test_what_commands_share_imports_no_command() -> None:
    for path, names in all_imported("bpfrec_tools/cli").items():
        commands = [it for it in names if top(it) == "bpfrec_tools" and not it.startswith("bpfrec_tools.cli")]
        judge(path, not commands, commands)


def test_each_folder_of_modules_is_a_package_that_git_keeps() -> None:
    """So that one file of all has it too; git leaves out what builds make."""
    folders = {it.parent for name in ("bpfrec", "bpfrec_tools", "second") for it in (HOST / name).rglob("*.py")}
    lacking = [it for it in folders if not (it / "__init__.py").exists()]
    judge("each is", len(folders) > 20 and not lacking, lacking)
    made = {it.strip("/") for it in (ROOT / ".gitignore").read_text().splitlines() if it.endswith("/")}
    judge("none is called as what builds make", not made & {it.name for it in folders}, folders)


def test_the_second_opinion_imports_nothing_but_itself() -> None:
    """And nothing of the rest has its readers, but bpfrec check, which asks it."""
    names = {top(name) for found in all_imported("second").values() for name in found}
    names |= {top(it) for it in imported(HOST / "second/check_sums")}
    judge("the standard library", names <= {*sys.stdlib_module_names, "second"}, names)
    every = {**all_imported("bpfrec"), **all_imported("bpfrec_tools")}
    askers = [path for path, found in every.items() if "second" in map(top, found)]
    judge("who asks it", askers == ["bpfrec_tools/check/command.py"], askers)


def test_few_modules_are_loaded_to_read_a_recording() -> None:
    words = [sys.executable, "-I", "-B", "-c", LOADED, str(HOST)]
    loaded = subprocess.run(words, text=True, stdout=subprocess.PIPE, check=True).stdout.split()
    mine = [it for it in loaded if top(it).startswith("bpfrec")]
    judge(f"at most {MOST_MODULES}", len(mine) <= MOST_MODULES, mine)
    judge("and none of what tools need", not OF_TOOLS & {*loaded}, OF_TOOLS & {*loaded})


def test_live_imports_a_server_where_the_status_is_served_alone() -> None:
    for module in ("live.beginning", "preflight.judging"):
        words = [sys.executable, "-c", SERVED.format(module), str(HOST)]
        found = subprocess.run(words, capture_output=True, text=True, check=True).stdout.split()
        judge(module, "bpfrec_tools.live.arguments" in found and "http.server" not in found, found)


@pytest.mark.parametrize("tool", ["live", "preflight"])
@pytest.mark.parametrize("word", ["--help", "--nonsense"])
def test_help_and_a_refusal_load_little(tool: str, word: str) -> None:
    """So they take a tenth of a second, also without byte code."""
    words = [sys.executable, "-I", "-B", "-c", CALLED, str(HOST), tool, word]
    found = subprocess.run(words, capture_output=True, text=True, check=False).stdout.splitlines()[-1].split()
    judge(f"{tool} {word}", f"bpfrec_tools.{tool}.command" in found and not LATE & {*found}, LATE & {*found})
