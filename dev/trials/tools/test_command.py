"""Tries the command `bpfrec`: which words go to the proved program, as they stand, and which to a tool."""

import os
import pty
import shutil
import signal
import subprocess
from pathlib import Path

import pytest
from bpfrec_tools import VERSION, verbs
from reading import SAMPLES
from support import BPFREC, COMMAND, KEEPS_ALL, ROOT, judge, judge_quietly, outcome, run, wait_for

pytestmark = pytest.mark.wanted("bin/bpfrec")
PROVED = [name for name, verb in verbs.VERBS.items() if verb.is_proved]
TOOLS = list(verbs.TOOLS)


@pytest.mark.parametrize(
    "words",
    [[], ["--version"], ["-V"], ["version"], *([it] for it in PROVED), *([it, "--nonsense", ""] for it in PROVED)]
    + [["help", it] for it in PROVED],
)
def test_words_of_the_proved_program_reach_it_as_they_stand(work: Path, words: list[str]) -> None:
    given = f"{KEEPS_ALL}\n00112233\n"
    ways = [outcome(it, *words, cwd=work, input=given) for it in (COMMAND, BPFREC)]
    judge(f"bpfrec {words}", ways[0].args[1:] == words)
    first, second = ((it.returncode, it.stdout, it.stderr) for it in ways)
    judge("its bytes and its status", first == second, ways)


def test_the_command_becomes_the_program(work: Path) -> None:
    """So a signal that ends the one ends the other."""
    with subprocess.Popen([COMMAND, "audit", "-"], stdin=subprocess.PIPE) as running:
        wait_for("it runs", lambda: os.readlink(f"/proc/{running.pid}/exe") == str(BPFREC.resolve()))
        running.send_signal(signal.SIGTERM)
        judge("it is ended", running.wait(10) == -signal.SIGTERM)


@pytest.mark.parametrize("seconds", ["0", "1764590400"])
def test_an_export_with_a_number_of_seconds_is_the_programs(work: Path, seconds: str) -> None:
    for program, out in ((COMMAND, "a"), (BPFREC, "b")):
        run(program, "export", SAMPLES[1], work / out, seconds)
    judge("the same capture", (work / "a").read_bytes() == (work / "b").read_bytes())


def test_any_other_export_is_the_tools(work: Path) -> None:
    told = run(COMMAND, "export", SAMPLES[1], work / "out.pcapng")
    judge("the tool made it", told.startswith("frames ") and " skipped " in told, told)
    done = outcome(COMMAND, "export", "--force", SAMPLES[1], work / "5", "5")
    judge("an option is the tool's", (done.returncode, done.stderr[-30:]) != (0, ""), done)


@pytest.mark.parametrize("words", [["--help"], ["help"], ["-h"], ["help", "help"]])
def test_help_lists_all_verbs_by_group(words: list[str]) -> None:
    told = run(COMMAND, *words)
    *of_a_flight, others = verbs.GROUPS
    judge("five groups", of_a_flight == ["Record", "Look", "Hand on", "Check", "Mend"])
    steps = {*PROVED, "capture"}
    judge("and the steps that they take, which are the proved program's", steps == set(verbs.GROUPS[others]))
    for group, members in verbs.GROUPS.items():
        judge_quietly(group, f"\n{group}:\n" in told)
        for name, verb in members.items():
            row = f"\n  {'*' if verb.is_proved else ' '} {name:<10} {verb.about}\n"
            judge_quietly(f"{name}: {row}", row in told and f" {verb.example}\n" in told)


@pytest.mark.parametrize("verb", TOOLS)
def test_each_tool_has_help_and_a_version(verb: str) -> None:
    told = run(COMMAND, verb, "--help")
    judge("its help", told.startswith(f"usage: bpfrec {verb} "), told)
    judge("the same by help", run(COMMAND, "help", verb) == told)
    judge("its version", run(COMMAND, verb, "--version") == f"bpfrec {VERSION}\n")


@pytest.mark.parametrize("verb", PROVED)
def test_each_proved_verb_has_the_programs_version(verb: str) -> None:
    judge("its version", run(COMMAND, verb, "--version") == run(COMMAND, "--version"))


def test_a_verb_or_an_option_that_is_unknown_names_the_nearest() -> None:
    known: dict[tuple[str, ...], str] = {
        ("liev",): "bpfrec: no verb liev: did you mean live?\nbpfrec --help lists all\n",
        ("hlep",): "bpfrec: no verb hlep: did you mean help?\nbpfrec --help lists all\n",
        ("help", "infos"): "bpfrec: no verb infos: did you mean info?\nbpfrec --help lists all\n",
        ("xyzzy",): "bpfrec: no verb xyzzy\nbpfrec --help lists all\n",
        ("verrify", "x"): "bpfrec: no verb verrify: did you mean verify?\nbpfrec --help lists all\n",
        ("live", "--evry", "3"): "bpfrec live: no such option: --evry: did you mean --every?\n",
    }
    for words, line in known.items():
        done = outcome(COMMAND, *words)
        judge(f"bpfrec {' '.join(words)}", (done.returncode, done.stdout, done.stderr) == (2, "", line), done)
    day, old = "2026-11-29T09:00:00Z", SAMPLES[1]
    for given, what in {
        ("--chanel", "1", "a", "b.pcapng"): "no such option: --chanel: did you mean --channel?",
        ("o.ch10", old): f"{old}: it is there, and OUT is the last word: {old} o.ch10",
        (
            old,
            "o",
            day,
        ): f"{day}: OUT is the last word, and a time stands behind --from or --to; `date -u -d {day} +%s` has seconds",
        (old, "o"): "o: it ends neither in .pcapng nor in .ch10: --as pcapng or --as chapter11 says what it is",
    }.items():
        done = outcome(COMMAND, "export", *given)
        judge(what, done.returncode == 2 and done.stderr.endswith(f"bpfrec export: error: {what}\n"), done)


def test_without_words_a_terminal_gets_the_help() -> None:
    """The program would wait for a listing there."""
    master, slave = pty.openpty()
    try:
        judge("the help", outcome(COMMAND, stdin=slave).stdout == verbs.text())
    finally:
        os.close(master)
        os.close(slave)


# ---- where it is installed


@pytest.fixture
def installed(work: Path) -> Path:
    """The command as it is installed, with the program alone."""
    (work / "usr/bin").mkdir(parents=True)
    (work / "usr/libexec/bpfrec").mkdir(parents=True)
    shutil.copy(COMMAND, work / "usr/bin/bpfrec")
    shutil.copy(BPFREC, work / "usr/libexec/bpfrec/bpfrec")
    return work / "usr/bin/bpfrec"


def without_names(**more: str) -> dict[str, str]:
    """The environment, which names no program."""
    return {**{it: value for it, value in os.environ.items() if it not in ("BPFREC", "CAPTURE")}, **more}


def test_the_program_alone_takes_all_words(work: Path, installed: Path) -> None:
    given: list[list[object]] = [["audit", SAMPLES[1]], ["--help"], ["liev"], []]
    for words in given:
        ways = [outcome(it, *words, env=without_names(), input="") for it in (installed, BPFREC)]
        first, second = ((it.returncode, it.stdout, it.stderr) for it in ways)
        judge(f"bpfrec {words}", first == second, ways)


def test_what_is_installed_is_found_by_a_link_too(work: Path, installed: Path) -> None:
    run(ROOT / "dev/package/make_host.py", work / "usr/libexec/bpfrec/tool")
    (work / "usr/libexec/bpfrec/tool").chmod(0o755)
    (work / "elsewhere").symlink_to(installed)
    told = run(work / "elsewhere", "info", SAMPLES[1], env=without_names())
    judge("the tool finds the program", "audit                      yes other 0" in told, told)


def test_a_program_that_is_missing_is_said(work: Path, installed: Path) -> None:
    (work / "usr/libexec/bpfrec/bpfrec").unlink()
    done = outcome(installed, "audit", "x", env=without_names())
    line = f"bpfrec: {work}/usr/bin/../libexec/bpfrec/bpfrec is missing: make build makes it\n"
    judge("it is said", (done.returncode, done.stdout, done.stderr) == (3, "", line), done)
