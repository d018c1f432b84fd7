"""The repository as the scripts see it: the toolchain, the crates and their edits, the hash of all that a
crate depends on, and the tables that stand beside the scripts."""
import functools
import hashlib
import importlib.machinery
import importlib.util
import os
import shlex
import shutil
import subprocess
import sys
from pathlib import Path
from typing import Any

sys.dont_write_bytecode = True

ROOT = Path(__file__).resolve().parents[2]
RT = shlex.split(os.environ.get("RT", "rt"))
# What is checked beside the crates: what fails only where the program, or a statement of it, is wrong.
CHECKED = ("links", "callers", "examples", "uses", "unused", "limits")
CHECKS = tuple(f"dev/checks/{it}.py" for it in CHECKED)
# The folders of tests that need neither root nor a built program.
TESTS = ["host/tests", "capture/tests", "dev/tests"]
# What is checked of the program once it is built, and where it stands then.
MEMORY, PROGRAM = "dev/trials/long/check_memory.py", Path("crates/bpfrec/out/bpfrec")
# The files and folders of a crate that a step reads, and the folder that steps of edits read too.
READ = ("src", "specs", "proofs", "data", "stdin", "stdout", "args", "status")
EDITS = "must-fail"
# Crates that promise nothing, and are proved only to be built.
UNTESTED = ("bench",)


@functools.lru_cache(maxsize=None)
def toolchain() -> Any:
    """The toolchain's own script `rt`, as a module: its crates, its edits and its runs."""
    page = subprocess.run([*RT, "doc"], check=True, text=True, stdout=subprocess.PIPE).stdout
    file = str(Path(page.strip()).parent / "bin" / "rt")
    spec = importlib.util.spec_from_loader("rt", importlib.machinery.SourceFileLoader("rt", file))
    assert spec and spec.loader
    made = importlib.util.module_from_spec(spec)
    spec.loader.exec_module(made)
    made.Crate.allowed = made.handles_of(str(ROOT))
    made.rtlib.Crate = made.Crate
    return made


@functools.lru_cache(maxsize=None)
def crates() -> dict[str, Any]:
    """The crates of crates.txt by their names, each after those that it uses."""
    found = toolchain().rtlib.crates_below(str(ROOT / "crates"))
    return {it.name: it for it in sorted(found, key=lambda crate: len(crate.below()))}


def below(name: str) -> list[str]:
    """The names of the crates below one, each after those that it uses."""
    return [it.name for it in crates()[name].below()]


def edits_of(name: str) -> tuple[list[str], list[str]]:
    """The files of a crate's edits that must fail."""
    good, bad = toolchain().edits_of(crates()[name])
    return good, bad


@functools.lru_cache(maxsize=None)
def version() -> str:
    """The toolchain's version."""
    return subprocess.run([*RT, "version"], check=True, text=True, stdout=subprocess.PIPE).stdout.strip()


@functools.lru_cache(maxsize=None)
def line_of(name: str) -> str:
    """The crate's line of crates.txt, with its words apart."""
    for line in (ROOT / "crates.txt").read_text().split("\n"):
        words = line.split("#")[0].replace(":", " : ").split()
        if words and words[0] == name:
            return " ".join(words)
    return ""


@functools.lru_cache(maxsize=None)
def hash_of(name: str, edits: bool = False) -> str:
    """A sum of all that a crate's proof, or its edits, depend on: its files, its line of crates.txt, the
    toolchain's version, and the sums of the proofs of the crates below, whose edits no check here reads."""
    found = hashlib.sha256(repr((line_of(name), version())).encode())
    for file in sorted((ROOT / "crates" / name).rglob("*")):
        inside = file.relative_to(ROOT / "crates" / name)
        if file.is_file() and inside.parts[0] in (*READ, *[EDITS] * edits):
            found.update(repr((str(inside), file.read_bytes())).encode())
    for below in sorted(it.name for it in crates()[name].deps):
        found.update(hash_of(below).encode())
    return found.hexdigest()


def table_in(file: Path) -> dict[str, list[str]]:
    """The rows of a table of words, by their first words."""
    if not file.exists():
        return {}
    rows = [line.split() for line in file.read_text().split("\n") if line and line[0] != "#"]
    return {row[0]: row[1:] for row in rows}


def libraries() -> list[str]:
    """The crates that others use, and those of laws: neither programs nor tests."""
    found = [it for it in crates() if it not in UNTESTED and not is_program(it)]
    return [it for it in found if not crates()[it].has_tests()]


def is_program(name: str) -> bool:
    return crates()[name].is_program


def files() -> list[Path]:
    """The repository's files that git knows or doesn't ignore, by their paths in it, but for the crates
    that promise nothing."""
    words = ["git", "ls-files", "-z", "--cached", "--others", "--exclude-standard"]
    found = subprocess.run(words, cwd=ROOT, check=True, stdout=subprocess.PIPE).stdout
    paths = [Path(it) for it in found.decode().split("\0") if it and (ROOT / it).is_file()]
    return [it for it in paths if it.parts[0] != "crates" or it.parts[1] not in UNTESTED]


def copy_to(top: Path) -> None:
    """Copies the files below a folder, and leaves the untested crates out of crates.txt."""
    for file in files():
        (top / file).parent.mkdir(parents=True, exist_ok=True)
        shutil.copy2(ROOT / file, top / file, follow_symlinks=False)
    lines = (top / "crates.txt").read_text().split("\n")
    kept = [it for it in lines if (it.split() or [""])[0].rstrip(":") not in UNTESTED]
    (top / "crates.txt").write_text("\n".join(kept))
