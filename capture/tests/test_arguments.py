"""The arguments of bin/capture: what each takes, at both ends, and what is refused (capture/src/arguments.c)."""

import contextlib
import fcntl
import os
from subprocess import CompletedProcess
from typing import Any

import pytest
from c_units import LEAKS, Units
from support import outcome

NOW = 1_764_590_400
HINT = ": bpfrec capture --help has its arguments\n"
LINE_LEN = 4096
MOST_SPAN = 2**48 - 1
TICKS = f"TICKS, of 100 ns, 1 to {MOST_SPAN}"
DEFAULTS = f"""files 0|buffer 256|interface -1|promiscuous 1|quiet 0|strict 0|adapter 0|hold 0|parent 0|events -|counts 0\
|direction 0|check 0|origin {NOW}.000000000"""


class Arguments:
    """Reads arguments as bin/capture does."""

    def __init__(self, units: Units) -> None:
        self.program, self.memory = units.program("arguments"), 1 << 20

    def outcome(self, *arguments: str, **more: Any) -> CompletedProcess:
        env = {"NOW": str(NOW), "MEMORY_MIB": str(self.memory), **LEAKS}
        return outcome(self.program, *arguments, env=env, **more)

    def lines(self, *arguments: str, **more: Any) -> list[list[str]]:
        """What arguments mean that are right: a name and its value each."""
        done = self.outcome(*arguments, **more)
        assert (done.returncode, done.stderr) == (0, ""), arguments
        return [line.split(" ", 1) for line in done.stdout.splitlines()]

    def read(self, *arguments: str, **more: Any) -> dict[str, str]:
        return {name: value for name, value in self.lines(*arguments, **more) if name != "route"}

    def routes(self, *arguments: str) -> list[str]:
        return [value for name, value in self.lines(*arguments) if name == "route"]

    def refusal(self, *arguments: str, **more: Any) -> str:
        """What is said of arguments that are wrong."""
        done = self.outcome(*arguments, **more)
        assert (done.returncode, done.stdout) == (2, "") and done.stderr.startswith("bpfrec capture: "), arguments
        return str(done.stderr).removeprefix("bpfrec capture: ")


@pytest.fixture
def arguments(units: Units) -> Arguments:
    return Arguments(units)


NUMBERS = {
    "buffer": (1, 2047, "1 to 2047 MiB"),
    "hold": (0, 60, "0 to 60 seconds"),
    "interface": (0, 65_535, "0 to 65535"),
    "parent": (1, 2**31 - 1, "the number of a process"),
}
WORDS = {
    "direction": (["both", "in", "out"], "both, in or out"),
    "clock": (["host", "adapter"], "host or adapter"),
    "check-sequence": (["adapter", "given", "missing"], "given, missing or adapter"),
}
FIELDS = {"clock": "adapter", "check-sequence": "check"}


def test_without_options_each_has_the_default_that_help_says(arguments: Arguments) -> None:
    assert arguments.read("eth0=pipe") == dict(line.split(" ", 1) for line in DEFAULTS.split("|"))


def test_without_a_buffer_all_interfaces_have_a_quarter_of_the_memory_at_most(arguments: Arguments) -> None:
    """The kernel makes twice as much of a buffer, and each has 1 MiB at least."""
    cases = [(8192, 4, 256), (8191, 4, 255), (2048, 1, 256), (2047, 1, 255), (1024, 64, 2), (64, 64, 1), (1, 1, 1)]
    for memory, count, buffer in cases:
        arguments.memory = memory
        assert arguments.read(*(f"eth{at}=pipe{at}" for at in range(count)))["buffer"] == str(buffer)


@pytest.mark.parametrize("name", NUMBERS)
def test_a_number_is_taken_at_both_ends_of_its_range_and_refused_beyond(arguments: Arguments, name: str) -> None:
    least, most, says = NUMBERS[name]
    for value in (least, most):
        # Of two the last counts.
        assert arguments.read(f"--{name}", "5", f"--{name}", str(value), "eth0=pipe")[name] == str(value)
    others = ["", " 5", "5 ", "+5", "5.0", "0x5", "5MiB", "five", "9" * 30, "-" + "9" * 30]
    for word in [str(least - 1), str(most + 1), str(2**32 + least), str(2**64 + least), *others]:
        assert arguments.refusal(f"--{name}", word, "eth0=pipe") == f"--{name} {word}: {says}\n"


@pytest.mark.parametrize("name", WORDS)
def test_a_choice_is_one_of_its_words_and_others_are_refused_with_these(arguments: Arguments, name: str) -> None:
    words, says = WORDS[name]
    for number, word in enumerate(words):
        assert arguments.read(f"--{name}", word, "eth0=pipe")[FIELDS.get(name, name)] == str(number)
    for word in ["", words[0].upper(), words[0][:-1], words[0] + " ", ",".join(words)]:
        assert arguments.refusal(f"--{name}", word, "eth0=pipe") == f"--{name} {word}: {says}\n"


def test_counts_take_a_descriptor_that_was_given_open_for_writing_and_let_no_write_wait(arguments: Arguments) -> None:
    """Not a standard stream, nor one of the program's own, as standard error that it has opened anew."""
    pipe = os.pipe()
    # So that 3 is what the program opens.
    reads, writes = (fcntl.fcntl(it, fcntl.F_DUPFD, 10) for it in pipe)
    given = {"pass_fds": (reads, writes)}
    assert arguments.read("--counts", str(writes), "eth0=pipe", **given)["counts"] == str(writes)
    assert not os.get_blocking(writes) and os.get_blocking(reads)
    says = "the number of a descriptor that is open for writing, 3 or more"
    for word in ("2", "3", str(reads), str(writes + 1), str(2**31), "-1", "", f"{writes} ", "three"):
        assert arguments.refusal("--counts", word, "eth0=pipe", **given) == f"--counts {word}: {says}\n"
    for end in (*pipe, reads, writes):
        os.close(end)


@pytest.mark.parametrize("word", ["--quiet", "--strict", "--no-promiscuous", "--events=a=b"])
def test_a_flag_or_a_file_changes_that_alone_before_and_behind_the_routes(arguments: Arguments, word: str) -> None:
    name, _, value = word.removeprefix("--").removeprefix("no-").partition("=")
    wanted = {**arguments.read("eth0=pipe"), name: value or str(int("no-" not in word))}
    assert arguments.read(word, "eth0=pipe") == arguments.read("eth0=pipe", word) == wanted


def test_an_origin_of_interfaces_has_the_turns_since_and_one_of_files_is_as_given(arguments: Arguments) -> None:
    later = 62 * 2**48
    for routes, origin in ((["eth0=pipe"], f"{later // 10**7}.{later % 10**7:07}00"), (["-r", "a=b"], "0.000000000")):
        assert arguments.read("--origin", "zero", *routes)["origin"] == origin
    assert arguments.read("-r", "file=feed")["origin"] == "first"


def test_an_origin_is_a_time_that_of_interfaces_does_not_lie_ahead_nor_is_the_first_frame(arguments: Arguments) -> None:
    ahead, needs_files = f"{NOW}.000000001", "it needs -r, since the first frames of interfaces aren't known"
    says = f"{ahead} lies ahead of now, which is {NOW}.000000000"
    for word, reason in ((ahead, says), ("first", needs_files)):
        assert arguments.refusal("--origin", word, "eth0=pipe") == f"--origin {word}: {reason}\n"
        assert arguments.read("--origin", word, "-r", "file=feed")["origin"] == word
    says = "now, zero, or a time as 1764590400.25 or 2025-12-01T12:00:00.25Z; with -r first too"
    for word in ("", " 1", "1 ", "yesterday", "2025-12-01", "2025-12-01 12:00:00Z"):
        assert arguments.refusal("--origin", word, "eth0=pipe") == f"--origin {word}: {says}\n"


def test_a_route_has_two_ends_an_interface_up_to_the_first_sign_and_a_file_to_the_last(arguments: Arguments) -> None:
    assert arguments.routes("eth0=a=b", "eth1=-") == ["eth0 a=b - 0", "eth1 - - 0"]
    assert arguments.routes("-r", "a=b=c", "-r-=-") == ["a=b c - 0", "- - - 0"]
    for word in ("eth0", "=pipe", "eth0=", "=", ""):
        assert arguments.refusal(word) == f"no INTERFACE=PIPE: {word}{HINT}"
        assert arguments.refusal("-r", word) == f"no FILE=FEED: {word}{HINT}"
    assert arguments.refusal() == arguments.refusal("--quiet") == f"nothing to capture{HINT}"


def test_what_is_given_of_an_interface_goes_to_each_of_its_routes_and_the_last_counts(arguments: Arguments) -> None:
    given = ["--span", "eth0=1", "--prefilter", "eth1=old", "--prefilter", "eth1=a=b", "--span", f"eth0={MOST_SPAN}"]
    wanted = [f"eth0 x - {MOST_SPAN}", "eth1 y a=b 0", f"eth0 z - {MOST_SPAN}"]
    assert arguments.routes(*given, "eth0=x", "eth1=y", "eth0=z") == wanted


@pytest.mark.parametrize("option, says", [("--prefilter", "LISTING"), ("--span", TICKS)], ids=["prefilter", "span"])
def test_what_is_given_of_no_interface_that_is_captured_is_refused(
    arguments: Arguments, option: str, says: str
) -> None:
    for routes in (["eth0=pipe"], ["-r", "eth1=feed"]):
        assert arguments.refusal(option, "eth1=1", *routes) == f"{option} of what isn't captured: eth1{HINT}"
    for word in ("eth0", "eth0=", "=1", "", "="):
        assert arguments.refusal(option, word, "eth0=pipe") == f"{option} {word}: INTERFACE={says}\n"


@pytest.mark.parametrize(
    "ticks", ["0", str(2**48), str(2**64 + 1), "-1", "+1", " 1", "1 ", "1.0", "0x1", "1s", "a=1"]
)
def test_a_span_is_1_to_the_most_ticks_of_a_counter(arguments: Arguments, ticks: str) -> None:
    assert arguments.refusal("--span", f"eth0={ticks}", "eth0=pipe") == f"--span eth0={ticks}: INTERFACE={TICKS}\n"


def test_an_unknown_option_or_one_without_its_value_is_refused(arguments: Arguments) -> None:
    for given, what in {
        "--unknown": "no such option: --unknown",
        "-x": "no such option: -x",
        "-xy": "no such option: -x",
        "--quiet=1": "it takes no value: --quiet=1",
        "--hold": "a value is missing behind --hold",
        "-r": "a value is missing behind -r",
    }.items():
        assert arguments.refusal("eth0=pipe", given) == f"{what}{HINT}"


def test_an_unknown_option_names_the_one_that_is_meant(arguments: Arguments) -> None:
    for given, meant in {
        "--dirction": "--direction",
        "--checksequence": "--check-sequence",
        "--HOLD": None,
        "--bufferr=4": "--buffer",
        "--dirction=both": "--direction",
        f"--{'x' * 4_000}": None,
    }.items():
        told = arguments.refusal("eth0=pipe", given)
        assert told == (
            f"no such option: {given}: did you mean {meant}?\n" if meant else f"no such option: {given}{HINT}"
        )


def test_help_with_each_option_and_the_version_are_printed_whatever_else_is_there(arguments: Arguments) -> None:
    others = ["origin", "prefilter", "span", "no-promiscuous", "quiet", "strict", "events", "counts"]
    parts = [
        "usage: bpfrec capture [OPTION..] INTERFACE=PIPE..\n",
        *(f"\n  --{it} " for it in [*NUMBERS, *WORDS, *others]),
    ]
    for count in (0, 1):
        given = ["nothing"] * count
        shown, version = arguments.outcome(*given, "--help", "--unknown"), arguments.outcome(*given, "--version")
        assert (shown.returncode, shown.stderr) == (0, "") and [it for it in parts if it not in shown.stdout] == []
        assert (version.returncode, version.stdout, version.stderr) == (0, "capture 0\n", "")


@pytest.mark.parametrize("length", [4_000, 4_051, 4_052, 4_053, 4_054, 5_000, 12_000])
def test_a_line_of_a_long_text_keeps_its_beginning_and_its_end_in_one_write(arguments: Arguments, length: int) -> None:
    told, room = arguments.refusal("--hold", "1" * length, "eth0=pipe"), LINE_LEN - len("bpfrec capture: ")
    assert told.startswith("--hold 111") and told.endswith("111: 0 to 60 seconds\n")
    assert told.count("\n") == 1 and len(told) < room
    assert ("..." in told) == (len("--hold : 0 to 60 seconds\n") + length >= room)


def test_a_line_that_standard_error_has_no_room_for_is_left_out_and_not_waited_for(arguments: Arguments) -> None:
    reads, writes = os.pipe()
    os.set_blocking(writes, False)
    with contextlib.suppress(BlockingIOError):
        while os.write(writes, bytes(LINE_LEN)):
            pass
    os.set_blocking(writes, True)
    done = arguments.outcome("--hold", "61", "eth0=pipe", stderr=writes)
    os.close(reads)
    os.close(writes)
    assert done.returncode == 2
