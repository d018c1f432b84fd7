#!/usr/bin/env python3
"""Plants each wrong body of dev/mutants/ in a copy of the repository, and runs the one test that has to refuse it.

A planted body is a file NAME.edit: a line `file: PATH`, pairs of lines `old: TEXT` and `new: TEXT`, where the old text
stands in that file exactly once, perhaps another file with its pairs, and a line `test: TEST`, which is one of

  CRATE::NAME               a test of that crate, compiled with checks and without proof
  CRATE                     a program with a stored run, compiled so
  PATH.py::NAME             a test of pytest; a body of crates/ or capture/ is compiled into the program that it runs
  PATH.py                   a script, which is given that program

A NAME stands for the planted bodies whose path contains it; without one all are planted. Each test has to pass on what
is there, once a run, and to fail where the body is planted: refused. What can't be planted or compiled is a BAD EDIT.
The last line is `N passed, N failed`, and how many were left out since their test needs what isn't here.
"""
import argparse
import ast
import functools
import os
import random
import re
import shutil
import subprocess
import sys
import tempfile
import threading
import time
from concurrent.futures import ThreadPoolExecutor
from pathlib import Path
from typing import Any, NamedTuple, Optional

from lanes import minutes, processors
from repository import ROOT, copy_to, toolchain
from unproved import compiled

PYTHON = "/usr/bin/python3"
PLANTED = ROOT / "dev" / "mutants"
# What a test came to, and what a planted body came to besides.
PASSED, FAILED, BROKEN, LEFT_OUT = "passed", "failed", "broken", "left out"
REFUSED, NOT_REFUSED, BAD_EDIT = "refused", "NOT REFUSED", "BAD EDIT"
VERDICTS = {PASSED: NOT_REFUSED, FAILED: REFUSED, BROKEN: BAD_EDIT, LEFT_OUT: LEFT_OUT}
# The seconds that a test of a crate may take, and any other; how `timeout` ends where that is over.
OF_CRATES, OF_OTHERS = 90, 900
NOT_ENDED = (124, 137)


class Mutant(NamedTuple):
    """A planted body: its name, its test, and the texts of the files that it changes."""

    name: str
    test: str
    texts: dict[str, str]


class Found(NamedTuple):
    """What a run came to, with the line that says most."""

    verdict: str
    said: str


def field(line: str, name: str) -> Optional[str]:
    """The value of a line of an edit that has this name."""
    return line[len(name) + 1 :].removeprefix(" ") if line.startswith(f"{name}:") else None


def planted(file: Path, root: Path) -> Mutant:
    """The planted body of a file of edits; ValueError where it can't be planted."""
    texts: dict[str, str] = {}
    path, old, tests = "", "", []
    for line in file.read_text(encoding="utf-8").split("\n"):
        path = field(line, "file") or path
        old = field(line, "old") or old
        tests += [it for it in [field(line, "test")] if it]
        new = field(line, "new")
        if new is not None:
            text = texts.get(path) or (root / path).read_text(encoding="utf-8")
            if not old or text.count(old) != 1:
                raise ValueError(f"an old text is in {path} {text.count(old)} times, and not once")
            texts[path], old = text.replace(old, new), ""
    if len(tests) != 1 or not texts:
        raise ValueError("it has no test, several, or no pair of old and new")
    return Mutant(str(file.relative_to(PLANTED).with_suffix("")), tests[0], texts)


@functools.cache
def plain_copy() -> tempfile.TemporaryDirectory[str]:
    """A copy of the repository's files with the plugin, which goes with this run."""
    made = tempfile.TemporaryDirectory(prefix="bpfrec-mutants-")
    copy_to(Path(made.name))
    make_by([PYTHON, "dev/package/make_texts.py"], Path(made.name))
    return made


def rewrite(file: Path, text: str) -> None:
    """Gives a file of a copy another text; other copies keep theirs."""
    mode = file.stat().st_mode
    file.unlink()
    file.write_text(text, encoding="utf-8")
    file.chmod(mode)


def copied(top: Path, texts: dict[str, str]) -> Path:
    """A copy below a folder, by links to the plain one, with these texts in place of their own."""
    subprocess.run(["cp", "-al", f"{plain_copy().name}/.", top], check=True)
    for path, text in texts.items():
        rewrite(top / path, text)
    return top


def last_line(text: str) -> str:
    return (text.strip().splitlines() or [""])[-1][:200]


def ran(words: list[Any], top: Path, **env: str) -> subprocess.CompletedProcess[str]:
    """Runs a command in a copy, with all that it printed."""
    given = {**os.environ, "PYTHONDONTWRITEBYTECODE": "1", **env}
    how: dict[str, Any] = {"stdin": subprocess.DEVNULL, "stdout": subprocess.PIPE, "stderr": subprocess.STDOUT}
    words = ["timeout", "-k", "5", str(OF_OTHERS), *map(str, words)]
    return subprocess.run(words, cwd=top, env=given, text=True, errors="replace", **how)


# ---- tests of crates, and stored runs


def crate_in(top: Path, name: str) -> Any:
    """A crate of a copy."""
    return {it.name: it for it in toolchain().rtlib.crates_below(str(top / "crates"))}[name]


def keep_module_of(source: Path, test: str) -> None:
    """Leaves of a crate's tests the module that has this test, with those that it names: the others only take time."""
    texts = {it.stem: it.read_text() for it in source.glob("*.rt") if it.stem != "lib"}
    for file in source.glob("*/**/*.rt"):
        texts[file.relative_to(source).parts[0]] += file.read_text()
    waiting = [name for name, text in texts.items() if f"fn {test}(" in text]
    kept = set(waiting)
    while waiting:
        named = set(re.findall(r"crate::(\w+)", texts[waiting.pop()])) & texts.keys() - kept
        kept |= named
        waiting += named
    lines = (source / "lib.rt").read_text().replace("#[cfg(test)]\nmod ", "mod ")
    lines = re.sub(r"(?m)^mod (\w+);\n", lambda found: f"#[cfg(test)]\n{found[0]}" if found[1] in kept else "", lines)
    rewrite(source / "lib.rt", lines)
    for name in texts.keys() - kept:
        (source / f"{name}.rt").unlink()
        shutil.rmtree(source / name, ignore_errors=True)


def crate_tests(top: Path, name: str, test: str = "") -> tuple[bool, str]:
    """Compiles a crate's tests in a copy and runs them, or one: whether they could be compiled, and what was said."""
    if test:
        keep_module_of(top / "crates" / name / "src", test)
    could, said = compiled(crate_in(top, name), top / "tests", tests=True, processors=1)
    if could:
        words = [toolchain().rtlib.RUNNER, "--seconds", OF_CRATES, *(["--filter", test] if test else []), top / "tests"]
        said = ran(words, top).stdout
    return could, said


def found_of(could: bool, said: str, name: str) -> Found:
    """What a test of a crate came to, by what was said."""
    if not could:
        faults = re.findall(r"(?m)^\S+:\d+:\d+: error.*", said)
        return Found(BROKEN, f"it isn't compiled: {(faults or [last_line(said)])[0][:300]}")
    found = re.search(rf"(?m)^test (?:\S+::)?{name} \.\.\. (.*)$", said)
    if not found:
        return Found(BROKEN, f"no test {name} ran: {last_line(said)}")
    return Found(PASSED if found[1] == "ok" else FAILED, found[1])


def stored_run(top: Path, name: str) -> Found:
    """Compiles a program with a stored run in a copy, and runs it."""
    done = ran([PYTHON, "dev/build/step.py", "tried", name, "1"], top)
    if not (top / "crates" / name / "out" / name).exists():
        return found_of(False, done.stdout, name)
    return Found(FAILED if done.returncode else PASSED, last_line(done.stdout))


# ---- what runs the programs


def own_program(name: str) -> Path:
    """A program of this checkout: by the variable of its name, from its proof, or without one."""
    given = os.environ.get(name.upper())
    made = [ROOT / "bin" / name, ROOT / "bin" / f"{name}-unproved"]
    return Path(given) if given else next((it for it in made if it.exists()), made[0])


def made_in(top: Path, paths: list[str]) -> dict[str, str]:
    """Makes in a copy what is made of these files: the programs, by their variables; ValueError where it fails."""
    programs = {it.upper(): str(own_program(it)) for it in ("bpfrec", "capture")}
    for path in paths:
        if path.endswith(".py") or path == "host/tool":
            ast.parse((top / path).read_text(encoding="utf-8"))
    if any(it.startswith("crates/") for it in paths):
        programs["BPFREC"] = str(top / "bpfrec")
        could, said = compiled(crate_in(top, "bpfrec"), top / "bpfrec", processors=1)
        if not could:
            raise ValueError(found_of(False, said, "").said)
    if any(it.startswith("capture/") for it in paths):
        programs["CAPTURE"] = str(top / "bin" / "capture")
        make_by(["make", "-s", "-C", "capture"], top)
    if any(it.endswith(".lua") for it in paths):
        (top / "bin" / "bpfrec.lua").unlink()
        make_by([PYTHON, "dev/package/make_texts.py"], top)
        make_by(["tshark", "-X", "lua_script:bin/bpfrec.lua", "-r", os.devnull], top, "Lua:")
    return programs


def make_by(words: list[str], top: Path, fault: str = "") -> None:
    """Runs what makes something in a copy; ValueError where it fails, or where a line says this of a fault."""
    done = ran(words, top)
    faults = [it for it in done.stdout.splitlines() if (fault or " error: ") in it]
    if faults or (done.returncode and not fault):
        raise ValueError(f"{words[0]} fails: {(faults or [last_line(done.stdout)])[0][:300]}")


def trial(top: Path, test: str, paths: list[str]) -> Found:
    """Runs a test of pytest, or a script, in a copy in which these files were changed."""
    programs = made_in(top, paths)
    if "::" not in test:
        done = ran([PYTHON, test, programs["BPFREC"]], top, **programs)
        return Found(FAILED if done.returncode else PASSED, first_fault(done.stdout))
    done = ran([PYTHON, "-m", "pytest", "-q", "-p", "no:cacheprovider", test], top, **programs)
    last = last_line(done.stdout)
    if done.returncode in NOT_ENDED:
        return Found(FAILED, f"it hasn't ended after {OF_OTHERS} s")
    if done.returncode == 0:
        return Found(PASSED if "passed" in last else LEFT_OUT, last)
    return Found(FAILED if done.returncode == 1 and "failed" in last else BROKEN, first_fault(done.stdout))


def first_fault(said: str) -> str:
    """The first line that says what is wrong, else the last one."""
    faults = re.findall(r"(?m)^(?:E  |WRONG:).*", said)
    return str(faults[0])[:300] if faults else last_line(said)


# ---- planted bodies


def found_in(top: Path, test: str, paths: list[str]) -> Found:
    """What a test comes to in a copy in which these files were changed."""
    if ".py" in test:
        return trial(top, test, paths)
    crate, _, name = test.partition("::")
    return found_of(*crate_tests(top, crate, name), name) if name else stored_run(top, crate)


class Plain:
    """What tests come to on what is there, each run once; all tests of a crate at once, but for a draw."""

    def __init__(self, is_draw: bool) -> None:
        self.is_draw, self.lock = is_draw, threading.Lock()
        self.locks: dict[str, threading.Lock] = {}

    def found(self, test: str) -> Found:
        crate, _, name = test.partition("::")
        is_of_crate = bool(name) and ".py" not in test and not self.is_draw
        with self.lock:
            of_this = self.locks.setdefault(crate if is_of_crate else test, threading.Lock())
        with of_this:
            if not is_of_crate:
                return plain_test(test)
            could, said = plain_tests(crate)
        return found_of(could, said, name)


@functools.cache
def plain_test(test: str) -> Found:
    """What a test comes to, in a second run where the first fails: some judge times, and others run beside them."""
    for _ in range(2):
        with tempfile.TemporaryDirectory(prefix="bpfrec-plain-") as top:
            found = found_in(copied(Path(top), {}), test, [])
        if found.verdict != FAILED:
            break
    return found


@functools.cache
def plain_tests(crate: str) -> tuple[bool, str]:
    with tempfile.TemporaryDirectory(prefix="bpfrec-plain-") as top:
        return crate_tests(copied(Path(top), {}), crate)


def tried(mutant: Mutant, plain: Plain) -> Found:
    """Plants a body and runs its test."""
    before = plain.found(mutant.test)
    if before.verdict != PASSED:
        return before if before.verdict == LEFT_OUT else Found(BAD_EDIT, f"its test fails without it: {before.said}")
    with tempfile.TemporaryDirectory(prefix="bpfrec-planted-") as top:
        try:
            found = found_in(copied(Path(top), mutant.texts), mutant.test, list(mutant.texts))
        except (ValueError, SyntaxError) as error:
            return Found(BAD_EDIT, str(error))
    return Found(VERDICTS[found.verdict], found.said)


def judged(file: Path, plain: Plain, until: float) -> Optional[str]:
    """The verdict on a file of edits, which is printed; nothing where its turn doesn't come in time."""
    if time.monotonic() > until:
        return None
    began, name, test = time.monotonic(), str(file.relative_to(PLANTED).with_suffix("")), ""
    try:
        mutant = planted(file, ROOT)
        test, found = f" by {mutant.test}", tried(mutant, plain)
    except (ValueError, OSError) as error:
        found = Found(BAD_EDIT, str(error))
    print(f"{name}: {found.verdict}{test}, in {minutes(time.monotonic() - began)}: {found.said}", flush=True)
    return found.verdict


def commit() -> str:
    return ran(["git", "rev-parse", "--short", "HEAD"], ROOT).stdout.strip()


def main() -> int:
    parser = argparse.ArgumentParser(description=__doc__, formatter_class=argparse.RawDescriptionHelpFormatter)
    parser.add_argument("names", nargs="*", metavar="NAME")
    parser.add_argument("--seconds", type=float, help="draws them by the commit, and begins none after so many seconds")
    parser.add_argument("--seed", help="draws by this in place of the commit")
    given = parser.parse_args()
    chosen = [it for it in sorted(PLANTED.rglob("*.edit")) if not given.names or any(n in str(it) for n in given.names)]
    if given.seconds:
        seed = given.seed or commit()
        random.Random(seed).shuffle(chosen)
        print(f"drawn for {given.seconds:.0f} s by --seed {seed}, of {len(chosen)} planted bodies", flush=True)
    plain_copy()
    plain, until = Plain(bool(given.seconds)), time.monotonic() + (given.seconds or float("inf"))
    with ThreadPoolExecutor(processors()) as pool:
        verdicts = list(pool.map(lambda found: judged(found, plain, until), chosen))
    refused, left_out = verdicts.count(REFUSED), verdicts.count(LEFT_OUT)
    failed = len(verdicts) - refused - left_out - verdicts.count(None)
    print(f"{refused} passed, {failed} failed{f', {left_out} skipped' if left_out else ''}")
    return 1 if failed or not refused else 0


if __name__ == "__main__":
    sys.exit(main())
