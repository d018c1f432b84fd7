"""What `bpfrec` may answer, by docs/user/formats/, and runs of it that are judged by that, for fuzz.py."""

import re
import subprocess
from collections.abc import Callable
from dataclasses import dataclass, field
from pathlib import Path

from fuzz_inputs import Frame, held_frames

ADDRESS_SPACE = 2**30
SECONDS_A_RUN = 20
MOST_MEMORY_KIB = 2_048

# ---- what each command may answer: for each status, what stands on standard output and error

NAMES = r"(BadOpcode|BadScratch|ZeroDivisor|JumpOut) \d+"
REFUSED = rf"refused (1 Empty|2 TooLong|[3-6] {NAMES}|7 NoReturn|8 Unset \d+ \d+( \d+)+)\n"
LISTING = r"listing (1 Syntax \d+|2 Count \d+ \d+|3 Range \d+)\n"
READ = r"read (1 Truncated|2 Sync|3 Checksum|4 Length|5 Body|8 DataChecksum) \d+\n"
ASM_FAULTS = r"Syntax|Number|UnknownMnemonic|OperandNotAllowed|LabelMissing|LabelTwice|Backward|TooFar"
ASM = rf"asm ([1-8] ({ASM_FAULTS}) line \d+|9 TooLong)\n"
DIS = r"dis (1 NoForm|2 JumpOut) \d+\n"
SETTINGS = r"settings (1 Syntax|2 Unknown .*|3 Missing \w+|4 Value \w+|5 Channels|6 SameChannel \d+)\n"
INSN = r"\d+ \d+ \d+ \d+,"
WHAT = r"frames \d+|program \d+ \d+ \d+ \d+|end \d+ \d+ \d+|other"
PACKETS = rf"(\d+ \d+ [0-9a-f]{{2}} \d+ \d+ \d+ \d+ ({WHAT})\n)*packets \d+ other \d+\n"
NO = r"no (1 NoProgram \d+|2 BadProgram \d+|3 NotAccepted \d+ \d+|4 Order \d+|5 NoEnd \d+|6 Counts \d+)\n"
YES = r"(channel \d+ programs \d+ frames \d+ offered \d+\n)*yes other \d+\n"
ENDING = r"SourceEnd|CountFull|SourceFault (Truncated|Length|Marks|Device)"
REPORT = rf"(channel \d+ versions \d+ offered \d+ kept \d+ ({ENDING})\n)+wrote \d+ \d+\n"
ANSWERS = r"(installed \d+ \d+ \d+\n|refused \d+ (Line|File|Listing|Program|NoChannel|VersionsFull)\n)*"
REFUSALS = r"NoChannel|Closed|RingFull|NothingToSend|NothingToWrite|VersionsFull|CountFull"
EVENT = (
    r"took \d+ \d+ \d+|timed|installed \d+ \d+|sent (program \d+|frames \d+|end)|wrote [0-9a-f]+|"
    rf"closed \d+ \d+|refused [1-7] ({REFUSALS})"
)
EVENTS = rf"(({EVENT})\n)*"
FILE = (3, "", r"file .*\n")
ALLOWED = {
    "asm": [(0, rf"\d+,({INSN})*\n", ""), (1, "", ASM), FILE],
    "dis": [(0, r"([^\n]+\n)*", ""), (1, "", LISTING), (1, "", DIS), FILE],
    "verify": [(0, r"valid \d+\n", ""), (1, REFUSED, ""), (1, "", LISTING), FILE],
    "run": [(0, r"\d+ \d+\n", ""), (1, REFUSED, ""), (1, "", LISTING), (1, "", r"view\n"), FILE],
    "": [(0, r"\d+ \d+\n", ""), (1, REFUSED, ""), (1, "", LISTING), (1, "", r"view\n"), FILE],
    "list": [(0, PACKETS, ""), (1, "", READ), FILE],
    "audit": [(0, YES, ""), (1, NO, ""), (1, "", READ), FILE],
    "extract": [(0, r"frames \d+ passed \d+\n", ""), (1, "", READ), (2, "", r"(.*\n)+"), FILE],
    "export": [(0, "", ""), (1, "", READ), (2, "", r"(.*\n)+"), FILE],
    "upgrade": [(0, r"upgraded \d+ copied \d+\n", ""), (1, "", READ), FILE],
    # the rings of some settings don't fit the address space
    "record": [(0, REPORT, ANSWERS), (1, "", LISTING), (1, REFUSED, ""), (2, "", SETTINGS), FILE, (4, "", "memory\n")],
    "simulate": [(0, EVENTS, ""), (1, EVENTS, r"script line \d+\n"), FILE],
}

# ---- cases


@dataclass
class Case:
    """The words of a run, the files that lie where it runs, and its standard input."""

    words: list[str]
    files: dict[str, bytes] = field(default_factory=dict)
    input: bytes = b""

    def command(self) -> str:
        return self.words[0] if self.words else ""

    def held_kib(self) -> int:
        """What it may hold of its input: a script with its frames."""
        return 2 * len(self.files["in"]) // 1_024 if self.command() == "simulate" else 0


@dataclass
class Answer:
    """What a run answered, and the files that it left."""

    status: int
    output: str
    errors: str
    folder: Path

    def file(self, name: str) -> bytes | None:
        path = self.folder / name
        return path.read_bytes() if path.exists() else None


Run = Callable[[Case], Answer]


class Wrong(Exception):
    """A case that was answered as it must not be."""


class Runner:
    """Runs cases of the program, each in the same folder, and remembers what memory they took."""

    def __init__(self, program: str, folder: Path) -> None:
        self.folder, self.peak_file = folder / "run", folder / "peak"
        self.folder.mkdir()
        self.words = ["prlimit", f"--as={ADDRESS_SPACE}", "time", "-f", "%M", "-o", str(self.peak_file), program]
        self.inputs: set[int] = set()
        self.empty: dict[int | str, int] = {}
        self.over: dict[str, int] = {}

    def answer(self, case: Case) -> Answer:
        """Runs a case, and judges the form of its answer and the memory that it took."""
        empty = self.peak_of_empty(case)
        self.inputs.add(hash((tuple(sorted(case.files.items())), case.input)))
        ran, peak = self.run(case)
        command = case.command()
        self.over[command] = max(self.over.get(command, 0), peak - empty)
        if peak > empty + MOST_MEMORY_KIB + case.held_kib():
            raise Wrong(f"{peak} KiB of memory, {empty} on an empty file")
        output, errors = ran.stdout.decode(errors="replace"), ran.stderr.decode(errors="replace")
        for status, on_output, on_errors in ALLOWED[command]:
            if ran.returncode == status and re.fullmatch(on_output, output) and re.fullmatch(on_errors, errors):
                return Answer(ran.returncode, output, errors, self.folder)
        raise Wrong(f"status {ran.returncode}\n-- output\n{output[:2000]}\n-- errors\n{errors[:2000]}")

    def run(self, case: Case) -> tuple[subprocess.CompletedProcess[bytes], int]:
        """Runs a case in a fresh folder: how it ended, and the most memory that it took, in KiB."""
        for old in self.folder.iterdir():
            old.unlink()
        for name, content in case.files.items():
            (self.folder / name).write_bytes(content)
        try:
            ran = subprocess.run(
                [*self.words, *case.words],
                input=case.input,
                capture_output=True,
                cwd=self.folder,
                timeout=SECONDS_A_RUN,
            )
        except subprocess.TimeoutExpired:
            raise Wrong(f"no answer within {SECONDS_A_RUN} seconds") from None
        return ran, int(self.peak_file.read_text().split()[-1])

    def peak_of_empty(self, case: Case) -> int:
        """The memory that the command takes on an empty file, and `record` on empty feeds."""
        files = {
            name: b"" if name in ("in", "feed", "one.feed") and case.words[1] != name else content
            for name, content in case.files.items()
        }
        key: int | str = hash(tuple(sorted(files.items())))
        if case.command() != "record":
            files, key = dict.fromkeys(case.files, b""), case.command()
        if key not in self.empty:
            self.empty[key] = self.run(Case(case.words, files))[1]
        return self.empty[key]


def judge_frames(recording: bytes, frames: list[Frame], net: int, speed: int, report: str) -> None:
    """The frames that a recording has are of the feed, in its order, with its marks and the numbers of the settings."""
    left, found = iter(frames), list(held_frames(recording))
    if len(found) != int(report.split()[7]):
        raise Wrong(f"{len(found)} frames are recorded, and it says {report}")
    for frame, *numbers in found:
        if frame not in left or numbers != [net, speed]:
            raise Wrong(f"a frame of counter {frame[0]}, marks {frame[1]} and {len(frame[2])} bytes, {numbers}")
