"""The steps of a build or of a test run, and what each costs.

A step is something to do with one crate: prove it as a library that others use, build a program and run
it, prove and run tests, or try edits that must fail. Each runs as a process of its own, by dev/build/step.py,
and is passed over where it was done before, so a run that is interrupted goes on where it was.
"""
import os
import re
import subprocess
import sys
from collections.abc import Collection, Iterable, Sequence
from dataclasses import dataclass, field
from pathlib import Path
from typing import Optional

from repository import ROOT, UNTESTED, below, crates, edits_of, hash_of, is_program, libraries, table_in

LOGS = ROOT / "bin" / "steps"
COSTS = ROOT / "dev" / "build" / "costs.txt"
# The program that is shipped; all others are tests.
SHIPPED = "bpfrec"
# How many edits one step tries.
EDITS_A_STEP = 16
# How much of a step that doesn't tell its functions may seem to be done before it has ended.
MOST_OF_A_STEP = 0.95
# A first guess of what a crate costs that dev/build/costs.txt doesn't have.
SECONDS_A_LINE, SECONDS_AN_EDIT, MEGABYTES = 0.15, 40, 3000


def seconds_of(process: int) -> float:
    """The seconds of processor that a process and those below it have taken: 0 of one that has ended."""
    try:
        words = Path(f"/proc/{process}/stat").read_text().rsplit(")", 1)[1].split()
        below = Path(f"/proc/{process}/task/{process}/children").read_text().split()
    except OSError:
        return 0
    return sum(map(int, words[11:15])) / os.sysconf("SC_CLK_TCK") + sum(seconds_of(int(it)) for it in below)


@dataclass
class Cost:
    """What a step costs: processor seconds, megabytes of its largest process, and how many functions
    it checks."""

    seconds: float
    megabytes: int
    functions: int = 0


def cost_of(key: str, name: str, edits: Sequence[str] = ()) -> Cost:
    """What a step cost when it was measured, or a guess by the number of its edits or by the crate's length."""
    row = table_in(COSTS).get(key)
    if row:
        return Cost(float(row[0]), int(row[1]), int(row[2]))
    if edits:
        return Cost(SECONDS_AN_EDIT * len(edits), cost_of(f"library-{name}", name).megabytes, len(edits))
    return Cost(SECONDS_A_LINE * crates()[name].count(rb"\n"), MEGABYTES)


@dataclass
class Step:
    """Something to do with one crate, once the steps that it waits for are done."""

    kind: str
    crate: str
    words: list = field(default_factory=list)
    waits: list = field(default_factory=list)
    # whether a library's proof is to be kept function by function, as its edits want it
    keeps: bool = False
    # its place behind what goes first, from 1 on, and whether a run that is short of time may leave it
    turn: int = 0
    may_be_left: bool = False

    def __post_init__(self) -> None:
        self.key = "-".join([self.kind, self.crate, *[it.replace("/", "_") for it in self.words]])
        self.cost = cost_of(self.key, self.crate, self.edits() if self.kind == "edits" else ())
        self.log = LOGS / f"{self.key}.log"
        self.done = Path(crates()[self.crate].folder) / "out" / f"{self.key}.done"
        # How many seconds of processors the longest way to the end takes from it on, which lanes.py adds up.
        self.behind = 0.0
        self.jobs = 0
        self.status: Optional[int] = None
        self.process: Optional[subprocess.Popen[bytes]] = None
        self.spent: Optional[Cost] = None

    def name(self) -> str:
        """The step in words."""
        says = {"library": "{}", "program": "{}, built", "twice": "{}, built twice", "tests": "tests of {}"}
        says["tried"] = "{}, not proved"
        return says.get(self.kind, "edits of {}").format(self.crate)

    def is_done(self) -> bool:
        """Whether an earlier run did this, on the files as they are."""
        crate = crates()[self.crate]
        if self.kind == "library" and not (crate.is_built() and (crate.has_kept() or not self.keeps)):
            return False
        return self.done.exists() and self.done.read_text() == hash_of(self.crate, self.kind == "edits")

    def is_well(self) -> bool:
        """Whether it was done, now or in an earlier run."""
        return self.status == 0 or self.status is None and self.is_done()

    def edits(self) -> list[str]:
        """The edits that a step of edits tries."""
        part, parts = map(int, self.words[0].split("/"))
        return edits_of(self.crate)[0][part - 1 :: parts]

    def start(self, jobs: int) -> None:
        self.jobs = jobs
        words = [*self.words, *["--keep"] * self.keeps]
        with open(self.log, "w") as log:
            self.process = subprocess.Popen(
                [sys.executable, ROOT / "dev" / "build" / "step.py", self.kind, self.crate, str(jobs), *words],
                stdin=subprocess.DEVNULL,
                stdout=log,
                stderr=subprocess.STDOUT,
            )

    def ended(self) -> bool:
        """Whether the process has ended; then its status and what it took are known."""
        assert self.process
        found, status, used = os.wait4(self.process.pid, os.WNOHANG)
        if not found:
            return False
        self.status = os.waitstatus_to_exitcode(status)
        self.process.returncode = self.status
        functions = max(self.functions()[1], len(re.findall(r"(?m)^fn \S+: proved", self.text())))
        self.spent = Cost(used.ru_utime + used.ru_stime, used.ru_maxrss // 1000, functions)
        return True

    def functions(self) -> tuple[int, int]:
        """How many functions are checked, or edits tried, and of how many: of a step that doesn't tell it,
        about as many as the processor time that it took stands for."""
        text = self.text() if self.process else ""
        rows = re.findall(r"(?m)^(?:so far|checked \S+)[:,] (\d+) of (\d+)", text)
        if rows:
            return int(rows[-1][0]), int(rows[-1][1])
        running = self.process if self.status is None else None
        share = seconds_of(running.pid) / max(self.cost.seconds, 1) if running else 0
        return int(min(share, MOST_OF_A_STEP) * self.cost.functions), self.cost.functions

    def text(self) -> str:
        return self.log.read_text(errors="replace") if self.log.exists() else ""


def steps_for(names: Iterable[str], kept: Collection[str] = ()) -> list[Step]:
    """The steps that prove these libraries and those below them; `kept` are the libraries whose edits are
    to be tried."""
    wanted = dict.fromkeys(it for name in names for it in [*below(name), name])
    return [Step("library", it, waits=[f"library-{dep}" for dep in below(it)], keeps=it in kept) for it in wanted]


def all_steps(kept: Collection[str], proves_tests: bool = False) -> list[Step]:
    """A step for each library, each program and each crate of tests; `kept` as in steps_for. The tests' own code, and
    programs that are not shipped, are compiled with checks and run, or proved too."""
    others = [it for it in crates() if it not in UNTESTED and it not in libraries()]
    waits = {it: [f"library-{dep}" for dep in below(it)] for it in others}
    return [*steps_for(libraries(), kept), *(other_step(it, waits[it], proves_tests) for it in others)]


def other_step(name: str, waits: list[str], proves_tests: bool) -> Step:
    """The step of a program or of a crate of tests. What is only compiled waits for no proof."""
    if name == SHIPPED:
        return Step("twice" if proves_tests else "program", name, waits=waits)
    if proves_tests:
        return Step("twice" if is_program(name) else "tests", name, waits=waits)
    return Step("tried", name)


def edit_steps(name: str, turn: int, may_be_left: bool = False) -> list[Step]:
    """Steps that try all edits of a library, some at a time."""
    count = len(edits_of(name)[0])
    parts = max(-(-count // EDITS_A_STEP), 1)
    steps = [Step("edits", name, [f"{at}/{parts}"], [f"library-{name}"]) for at in range(1, parts + 1)]
    for step in steps:
        step.turn, step.may_be_left = turn, may_be_left
    return steps


def counts_of(steps: list[Step]) -> tuple[int, int]:
    """How many things the steps showed, and how many failed or were not reached."""
    done, wrong = 0, 0
    for step in steps:
        refused = len(re.findall(r"(?m)^rt: must-fail .*: refused, as it must be", step.text()))
        count = len(step.edits()) if step.kind == "edits" else 1
        well = refused if step.kind == "edits" and step.status is not None else count * step.is_well()
        done, wrong = done + well, wrong + max(count - well, int(not step.is_well()))
    return done, wrong


def keep_costs(steps: list[Step]) -> None:
    """Writes what these steps took into dev/build/costs.txt, beside what it has of others."""
    rows = table_in(COSTS)
    for step in steps:
        if step.spent and step.status == 0:
            rows[step.key] = [f"{step.spent.seconds:.0f}", str(step.spent.megabytes), str(step.spent.functions)]
    head = "# written by dev/build/build.py and dev/build/test.py with --keep-costs: "
    head += "processor seconds, megabytes, functions\n"
    COSTS.write_text(head + "".join(f"{key} {' '.join(rows[key])}\n" for key in sorted(rows)))
