"""Tries what bpfrec live and bpfrec preflight say of calls that are wrong: in words that say what to do, with
nothing begun or left."""

import fcntl
import os
from pathlib import Path
from typing import Any

import pytest
from frames import numbers
from namespace import send_together
from recordings import RUN, extracted, facts_of, nothing_left, processes_of, settings_of, write_settings
from support import LIVE, PREFLIGHT, ROOT, Running, judge, judge_quietly, outcome, wait_for

pytestmark = [
    pytest.mark.wanted("bin/bpfrec", "bin/capture", "ip", "tcpdump"),
    pytest.mark.timed,
    pytest.mark.usefixtures("namespace"),
]
TEXT_FOR_ASM = ROOT / "examples/filters/arp.bpf"
IN_SECONDS, IN_PARTS, IN_BYTES = "in seconds, or as 10m", "in seconds, or as 100ms, or 0", "in bytes, or as 2G"


def judge_refused(work: Path, words: list, status: int, told: str, **more: Any) -> None:
    """A call is refused in one line, and nothing is left of it."""
    before = sorted(os.listdir(work))
    running = Running(work, LIVE, *words, cwd=work, adds={RUN: str(work)}, **more)
    judge(
        f"refused: {told}", (running.ended()[0], running.told()) == (status, f"bpfrec live: {told}\n"), running.told()
    )
    wait_for("its programs have ended", lambda: not processes_of(work))
    judge_quietly("nothing is created or left", nothing_left(work) and sorted({*os.listdir(work), "told"}) == before)


# ---- options


@pytest.mark.parametrize("at", [0, 1, 2, 3])
def test_options_are_taken_anywhere_among_the_arguments(work: Path, at: int) -> None:
    words = [work / "out.ch11", "rx0", "rx1=4"]
    running = Running(work, LIVE, *words[:at], "--buffer", 4, "--quiet", "--no-audit", "--mode", "0600", *words[at:])
    running.wait_until_told("bpfrec capture: origin")
    send_together(0, 10)
    running.interrupt()
    status, printed = running.ended()
    judge("it records", status == 0 and "audit" not in printed, (status, running.told()))
    judge("all of both", numbers(extracted(work, work / "out.ch11", 1)) == list(range(10)), printed)
    judge("the option is live's", (work / "out.ch11").stat().st_mode & 0o777 == 0o600 and nothing_left(work))


def test_recordings_follow_one_another_also_with_options_behind(work: Path) -> None:
    running = Running(work, LIVE, work / "turn.ch11", "rx0", "--every", 1, "--quiet")
    wait_for(lambda: f"a second one: {running.told()}", lambda: (work / "turn_00002.ch11").exists())
    running.interrupt()
    judge("it ends well", running.ended()[0] == 0 and nothing_left(work), running.told())


OPTIONS = [
    (["o.ch11", "rx0", "--events"], "no such option: --events: did you mean --every?"),
    (["o.ch11", "rx0", "-r", "x"], "no such option: -r"),
    (["--events", "o.ch11", "rx0"], "no such option: --events: did you mean --every?"),
    (["o.ch11", "rx0", "--every"], "--every needs a value"),
    (["o.ch11", "--", "rx0", "--events"], "--events: the name of an interface doesn't begin with -"),
    (["--", "o.ch11", "-x=7"], "-x: the name of an interface doesn't begin with -"),
]


@pytest.mark.parametrize("words,told", OPTIONS, ids=[" ".join(it) for it, _ in OPTIONS])
def test_options_and_interfaces_that_are_none_are_refused(work: Path, words: list, told: str) -> None:
    (work / "told").touch()
    judge_refused(work, words, 2, told)
    done = outcome(PREFLIGHT, "--live", *words, cwd=work)
    judge("preflight says so too", done.returncode in (1, 2) and told in done.stdout + done.stderr, done)


def test_a_name_behind_two_dashes_is_out(work: Path) -> None:
    running = Running(work, LIVE, "--quiet", "--", "-o.ch11", "rx0", cwd=work)
    running.wait_until_told("bpfrec capture: origin")
    running.interrupt()
    judge("it records", running.ended()[0] == 0 and (work / "-o.ch11").exists() and nothing_left(work), running.told())


# ---- the words


NO_CAPTURE = "OUT is a recording, as flight.ch11, of which bpfrec export makes a capture"
UNFED = "settings 3 Missing feed: no interface is this channel, as eth0=2"
READ = "which is read"


UNQUOTED = (
    "line 2, column 11: Expected newline or end of document after a statement: "
    'a value with a unit is in quotes, as every = "20s"'
)


def unquoted(work: Path) -> Path:
    path = work / "unquoted.toml"
    path.write_text("[run]\nevery = 20s # a turn\n")
    return path


def refusals(work: Path) -> list[tuple[list, int, str]]:
    """Calls, what they end with, and what is said of them."""
    settings = settings_of(work)
    one = f"{work}/o.ch11"
    return [
        (["rx0", "OUT"], 3, "rx0 is an interface: SETTINGS, OUT, then interfaces"),
        (["rx0", "OUT", "rx1"], 3, "rx0 is an interface: SETTINGS, OUT, then interfaces"),
        (["rx0=1", "OUT"], 3, "rx0=1 is an interface: SETTINGS, OUT, then interfaces"),
        (["rx0", "rx1"], 2, "rx0 is an interface: SETTINGS, OUT, then interfaces"),
        (["nosuch.toml", "OUT", "rx0=1"], 3, "nosuch.toml: no such file"),
        (["nosuch.toml"], 3, "nosuch.toml: no such file"),
        (["private", "OUT"], 3, "private: it is a directory"),
        (["--require-clock", "1", "sec", "OUT", "rx0"], 3, "sec: no such file"),
        (["/no/o.ch11", "rx0"], 3, "/no/o.ch11: no such folder"),
        (["/no/o.ch11", "rx0", "--every", "9"], 3, "/no/o.ch11: no such folder"),
        (["OUT", "rx0=0"], 2, "rx0=0: a channel ID is 1 to 65535"),
        (["OUT", "rx0=x"], 2, "rx0=x: a channel ID is 1 to 65535"),
        ([one, "rx0=65536"], 2, "rx0=65536: a channel ID is 1 to 65535"),
        ([settings, one, "rx0=01"], 2, "rx0=01: a channel ID is 1 to 65535"),
        ([settings, one, "rx0"], 2, "rx0: with SETTINGS name its channel, as rx0=1"),
        ([one, "rx0=1:"], 2, "rx0=1: the expression is empty"),
        ([one, "rx0=1: "], 2, "rx0=1: the expression is empty"),
        (
            [one, "rx0=1:udp prot 53"],
            2,
            "rx0=1:udp prot 53: tcpdump: can't parse filter expression: syntax error",
        ),
        (["--every", "10x", one, "rx0"], 2, f"--every needs a number from 1 to 999999999, {IN_SECONDS}"),
        (["--sync", "9M", one, "rx0"], 2, f"--sync needs a number from 0.01 to 999999999, {IN_PARTS}"),
        (["--span", "326d", one, "rx0"], 2, f"--span needs a number from 0.000001 to 28147497, {IN_PARTS}"),
        (["--size", "2GiB", one, "rx0"], 2, f"--size needs a number from 1 on, {IN_BYTES}"),
        (["--keep-free", "1m", one, "rx0"], 2, f"--keep-free needs a number from 1 on, {IN_BYTES}"),
    ]


def refusals_of_files(work: Path) -> list[tuple[list, int, str]]:
    """The same of files that are none of a recording, or that the run reads."""
    settings = settings_of(work)
    one = f"{work}/o.ch11"
    return [
        ([unquoted(work)], 2, f"{work}/unquoted.toml: settings 1 Syntax: {UNQUOTED}"),
        (["o.pcap", "rx0"], 2, f"o.pcap: {NO_CAPTURE}"),
        ([settings, "o.pcapng", "rx0=1"], 2, f"o.pcapng: {NO_CAPTURE}"),
        ([settings, one, "rx0=1"], 2, f"{settings}:8: channel 2: {UNFED}"),
        (
            [settings, "--force", settings.parent / "all", "rx0=1", "rx1=2"],
            3,
            f"{work}/all: it is {work}/all itself, {READ}",
        ),
    ]


def test_what_is_wrong_with_the_words_is_said_with_what_they_should_be(work: Path) -> None:
    cases = [*refusals(work), *refusals_of_files(work)]
    (work / "told").touch()
    for words, status, told in cases:
        judge_refused(work, words, status, told)


def test_an_id_that_two_channels_have_is_refused_ahead(work: Path) -> None:
    settings = write_settings(work, *[f'id = 1\nfilter = "{work}/all"'] * 2)
    (work / "told").touch()
    judge_refused(work, [settings, "o.ch11", "rx0=1"], 2, f"{settings}:8: channel 1: settings 6 SameChannel 1")


def test_an_out_that_another_program_writes_is_refused_also_by_force(work: Path) -> None:
    out = work / "o.ch11"
    (work / "told").touch()
    with open(out, "wb") as held:
        fcntl.flock(held, fcntl.LOCK_EX)
        judge_refused(work, ["--force", out, "rx0"], 3, f"{out}: another program writes it")
        done = outcome(PREFLIGHT, "--live", "--force", out, "rx0", cwd=work)
        judge("preflight says so too", done.returncode == 1 and "another program writes it" in done.stdout, done)


TAPS = ["rx0=1", "rx1=2"]
AUDITED = "what was audited, and --no-audit audits nothing"
NEEDS = "--every and --size need an interface"
# Options, what stands behind SETTINGS and OUT, and why they are refused.
CONTRADICTIONS: list[tuple[list, list, str]] = [
    (["--keep", 3], TAPS, "--keep and --keep-free need --every or --size"),
    (["--every", 1, "--keep", 3, "--no-audit"], TAPS, f"--keep and --keep-free remove {AUDITED}"),
    (["--keep", 0], TAPS, "--keep needs a number from 1 to 999999999"),
    (["--mode", "999"], TAPS, "--mode needs a mode of three octal digits, as 0640"),
    (["--mode", "0444"], TAPS, "--mode needs a mode by which the owner may read and write, as 0640"),
    (["--span", 1], [], "--span needs an interface"),
    (["--chapter11", "--no-audit"], TAPS, f"--chapter11 is made of {AUDITED}"),
    (["--chapter11"], [], "--chapter11 needs an interface"),
    (["--external"], TAPS, "--external is for --chapter11 and --publish"),
    (["--every", 0], TAPS, f"--every needs a number from 1 to 999999999, {IN_SECONDS}"),
    (["--size=1x"], TAPS, f"--size needs a number from 1 on, {IN_BYTES}"),
    (["--size", 5], [], NEEDS),
]


@pytest.mark.parametrize("words, taps, told", CONTRADICTIONS)
def test_options_that_contradict_are_refused(work: Path, words: list, taps: list, told: str) -> None:
    (work / "told").touch()
    given = [*words, settings_of(work), "o.ch11", *taps]
    judge_refused(work, given, 2, told)
    done = outcome(PREFLIGHT, "--live", *given, cwd=work)
    judge("preflight says so too", done.returncode in (1, 2) and told in done.stdout + done.stderr, done)


def test_a_device_is_no_name_of_recordings_that_follow(work: Path) -> None:
    settings = settings_of(work)
    (work / "told").touch()
    told = "--every and --size make files, and /dev/null is not a file"
    judge_refused(work, ["--size", 5, settings, "/dev/null", *TAPS], 2, told)


def test_a_filter_that_can_not_be_installed_is_refused_ahead_by_its_channel(work: Path) -> None:
    (work / "jump").write_text("2,5 0 0 1,6 0 0 0,")
    (work / "wrong.bpf").write_text("nonsense\n")
    (work / "told").touch()
    for path, status, told in [
        ("wrong.bpf", 2, "filter wrong.bpf of channel 2: asm 3 UnknownMnemonic line 1"),
        ("jump", 1, "channel 2: refused 6 JumpOut 0: filter jump"),
        ("none.txt", 3, "channel 2: none.txt: no such file"),
        ("private", 3, "channel 2: private: it is a directory"),
    ]:
        settings = write_settings(work, f'id = 1\nfilter = "{work}/all"', f'id = 2\nfilter = "{path}"')
        judge_refused(work, [settings, "o.ch11", "rx0=1", "rx1=2"], status, f"{settings}:9: {told}")
    done = outcome(PREFLIGHT, "--live", write_settings(work, f'id = 1\nfilter = "{TEXT_FOR_ASM}"'), "o.ch11", "rx0=1")
    judge("a text for the assembler is taken", f"filter {TEXT_FOR_ASM}: " in done.stdout, done)
    running = Running(work, LIVE, "--quiet", work / "live.toml", work / "o.ch11", "rx0=1:arp")
    running.wait_until_told("bpfrec capture: origin")
    running.end_well()


def test_times_and_sizes_have_units(work: Path) -> None:
    from bpfrec_tools.live import arguments

    given = arguments.read(["o.ch11", "rx0", "--every", "10m", "--size", "2G", "--sync", "5s", "--keep-free", "10k"])
    judge("minutes, G, s, k", (given.every, given.size, given.sync, given.keep_free) == (600, 2 * 10**9, 5, 10_000))
    given = arguments.read(["o.ch11", "rx0", "--every", "2h", "--for", "1d", "--size", "3MB"])
    judge("hours, days, M", (given.every, given.seconds, given.size) == (7_200, 86_400, 3 * 10**6))


# ---- names


@pytest.mark.parametrize("options,most", [([], 246), (["--every", "1"], 240)], ids=["single", "every"])
def test_an_out_whose_facts_would_have_too_long_a_name_is_refused(work: Path, options: list, most: int) -> None:
    (work / "told").touch()
    behind = "_00001" if options else ""
    for length in (most + 1, 255 - len(behind), 255):
        out = "x" * length
        length += len(behind)
        told = f"{out}{behind}: its name has {length} bytes, and may have 246 with its facts beside it"
        judge_refused(work, [*options, out, "rx0"], 3, told)
        done = outcome(PREFLIGHT, "--live", *options, out, "rx0", cwd=work)
        judge("preflight says so too", done.returncode == 1 and told in done.stdout, done)
    out = "x" * most
    running = Running(work, LIVE, "--quiet", *options, out, "rx0", cwd=work)
    running.wait_until_told("bpfrec capture: origin")
    wait_for("facts are there", (work / f"{out}{behind}.json").exists)
    running.interrupt()
    judge("one that is shorter by a byte is recorded", running.ended()[0] == 0 and nothing_left(work), running.told())
    judge("with its facts", facts_of(work / f"{out}{behind}")["status"] == 0)


def test_a_tmpdir_that_is_not_utf8_is_refused_by_name(work: Path) -> None:
    holder = os.fsencode(work) + b"/t\xff\xfe"
    os.mkdir(holder)
    (work / "told").touch()
    line = f"TMPDIR is not UTF-8: {holder!r}"
    words = [work / "o.ch11", "rx0"]
    running = Running(work, LIVE, *words, adds={RUN: str(work), "TMPDIR": holder})
    judge("live refuses it", (running.ended()[0], running.told()) == (3, f"bpfrec live: {line}\n"), running.told())
    judge("and leaves nothing", os.listdir(holder) == [] and not (work / "o.ch11").exists())
    done = outcome(PREFLIGHT, "--live", *words, env={**os.environ, "TMPDIR": holder})
    judge("preflight says so too", done.returncode == 1 and line in done.stdout, done)


@pytest.mark.parametrize(
    "words, told",
    [
        (["--status-name", "a.lan", "x.ch11", "rx0"], "--status-name needs --status"),
        (["--status", "127.0.0.1:99999", "x.ch11", "rx0"], "127.0.0.1:99999"),
        (["-", "rx0"], "-: OUT is a file or a named pipe"),
    ],
)
def test_preflight_says_what_live_refuses(work: Path, words: list, told: str) -> None:
    refused = outcome(LIVE, *words, cwd=work)
    judge("live does", refused.returncode == 2 and told in refused.stderr, refused)
    ahead = outcome(PREFLIGHT, "--live", *words, cwd=work)
    judge("so does preflight", ahead.returncode == 1 and told in ahead.stdout, ahead)
