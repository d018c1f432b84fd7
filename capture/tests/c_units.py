"""Builds programs of the capture's own functions: a C file beside this one each, with the archive of all."""

from pathlib import Path

from support import ROOT, SECOND, SECONDS, Running, present, run

FOLDER, SOURCES = ROOT / "capture/tests", ROOT / "capture/src"
# What C leaves undefined, as an overflow or a byte past its memory, ends a program.
FLAGS = [
    "-std=gnu11",
    "-O0",
    "-Wall",
    "-fsanitize=address,undefined",
    "-fsanitize-undefined-trap-on-error",
    '-DVERSION="0"',
]
# The first has a main of its own, and the other one needs a library of check sequences.
LEFT_OUT = ("main.c", "check_sequence.c")
# What a program hasn't freed by its end is no fault.
LEAKS = {"ASAN_OPTIONS": "detect_leaks=0"}


class Units:
    """The archive of the capture's functions, and the programs that call them."""

    def __init__(self, folder: Path) -> None:
        self.folder, self.archive = folder, folder / "capture.a"
        self.compile("-c", *sorted(it for it in SOURCES.glob("*.c") if it.name not in LEFT_OUT))
        run("ar", "rcs", self.archive, *folder.glob("*.o"))

    def compile(self, *arguments: object) -> None:
        run("gcc", *FLAGS, "-I", SOURCES, *arguments, cwd=self.folder, seconds=2 * SECONDS)

    def program(self, name: str) -> Path:
        program = self.folder / name
        if not program.exists():
            # At a fixed place: older sanitizers may have their memory where chance puts a program.
            self.compile("-no-pie", "-o", program, FOLDER / f"{name}.c", self.archive, "-lpcap", "-lpthread")
        return program


class Script(Running):
    """A program that answers each call, a line, with a line."""

    PROGRAM = ""

    def __init__(self, work: Path, units: Units) -> None:
        super().__init__(work, units.program(self.PROGRAM), adds=LEAKS)
        self.work, self.path, self.seen, self.now = work, work / "file", 0, 5 * SECOND

    def ask(self, *arguments: object) -> str:
        self.type_in(" ".join(map(str, arguments)))
        answer = present(self.process.stdout).readline()
        assert answer, f"{arguments} ended the program with {self.process.wait(SECONDS)}"
        return answer.strip()

    def wait(self, time: int) -> None:
        self.now += time
        self.ask("time", self.now, self.now)

    def new_lines(self) -> list[str]:
        """The lines on standard error since they were asked for last."""
        lines = self.told().splitlines()
        new, self.seen = lines[self.seen :], len(lines)
        return new
