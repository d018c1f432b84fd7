"""Tries several of a thing where most tests have one: each list that an option of a tool may be has a test here of two
that differ and of many, and statuses that are gathered one where the first is wrong and the last right."""

import argparse
import errno
import importlib
import json
import socket
import threading
import time
from collections.abc import Callable
from pathlib import Path
from typing import Any, NamedTuple, cast

import pytest
from bpfrec_tools.live.arguments import read
from bpfrec_tools.live.reports.publishers import Publishers
from bpfrec_tools.live.status.endpoint import endpoint_in
from bpfrec_tools.live.targets import target_of
from bpfrec_tools.tell.command import line_of
from bpfrec_tools.verbs import TOOLS as MODULES
from expected_facts import facts_of_run
from frames import end_packet, number_of, program_packet
from pcapng_blocks import frames_in
from small_recordings import ONE_ORIGIN, packet
from support import CHECK, EXPORT, FOLLOW, INFO, TOOLS, judge, judge_same, outcome

MANY = 300
LISTS = ("*", "+", argparse.REMAINDER)


def parser_of(verb: str) -> argparse.ArgumentParser:
    name = "bpfrec_tools.live.arguments" if verb == "live" else MODULES[verb]
    made: argparse.ArgumentParser = importlib.import_module(name).parser()
    return made


def lists_of(verb: str) -> dict[str, argparse.Action]:
    """What of a tool's arguments may be given several times, by its name."""
    several = [it for it in parser_of(verb)._actions if isinstance(it, argparse._AppendAction) or it.nargs in LISTS]
    return {f"{verb} {(it.option_strings or [it.dest])[-1]}": it for it in several}


FOUND = {name: action for verb in MODULES for name, action in lists_of(verb).items()}


def words(form: str) -> Callable[[int], str]:
    return lambda number: form.format(number + 1)


# Of each list a value by its number.
VALUES: dict[str, Callable[[int], str]] = {
    "preflight --live": words("eth{0}"),
    "live --status-name": words("tap{0}.example"),
    "live --publish": words("192.0.2.1:{0}"),
    "live --attribute": words("P-{0}\\X:{0}"),
    "live operands": words("eth{0}={0}"),
    "tell words": words("word{0}"),
    "follow --channel": words("{0}"),
    "info recordings": words("flight{0}.ch11"),
    "export --channel": words("{0}"),
    "export --attribute": words("P-{0}\\X:{0}"),
    "export paths": words("flight{0}.ch11"),
    "publish --attribute": words("P-{0}\\X:{0}"),
    "check files": words("flight{0}.ch11"),
}
# What stands ahead of them on a line, which is needed beside them.
AHEAD = {"tell words": ["RUN"], "publish --attribute": ["x.ch11", "192.0.2.1:5"], "follow --channel": ["x.ch11"]}


def test_each_list_of_an_option_is_tried_here() -> None:
    assert set(FOUND) == set(VALUES)


@pytest.mark.parametrize("count", [2, MANY])
@pytest.mark.parametrize("name", VALUES)
def test_all_that_are_given_are_taken_in_their_order(name: str, count: int) -> None:
    action, verb = FOUND[name], name.split()[0]
    given = [VALUES[name](it) for it in range(count)]
    option = action.option_strings[-1] if action.option_strings else ""
    repeats = option and action.nargs is None
    words = [word for it in given for word in (option, it)] if repeats else [*filter(None, [option]), *given]
    found = vars(parser_of(verb).parse_args([*AHEAD.get(name, []), *words]))[action.dest]
    type_of = cast(Callable[[str], object], action.type or str)
    judge(f"{count} of {name}", found == [type_of(it) for it in given], found[:5])


# ---- what is done with them


@pytest.mark.parametrize("count", [2, 8])
def test_a_run_has_all_attributes_names_stations_and_interfaces(count: int) -> None:
    given = range(count)
    attributes = [f"P-{it}\\X:{it}" for it in given]
    line = ["--status=0", *(f"--status-name=tap{it}" for it in given), *(f"--attribute={it}" for it in attributes)]
    line += [*(f"--publish=192.0.2.1:{5 + it}" for it in given), "x.ch11", *(f"eth{it}={it + 1}" for it in given)]
    found = read(line)
    wanted = [f"--attribute={it}" for it in attributes]
    judge("attributes", found.setup == wanted, found.setup)
    judge("of each station too", [it.arguments() for it in found.targets] == [wanted] * count, found.targets)
    judge("stations", [str(it.address) for it in found.targets] == [f"192.0.2.1:{5 + it}" for it in given])
    judge("interfaces", [(it.interface, it.channel) for it in found.routes] == [(f"eth{it}", it + 1) for it in given])
    place = endpoint_in("0", found.status_names)
    judge("names", all(f"tap{it}" in place.names for it in given), place)


@pytest.mark.parametrize("count", [2, MANY])
def test_a_line_has_all_words(count: int) -> None:
    given = ["mark", *map(str, range(count))]
    judge(f"{count} words", line_of(given) == " ".join(given), line_of(given))


def recording_at(path: Path, damaged_at: int | None = None, channels: int = 2) -> Path:
    """A recording of some channels, with facts of a host of its own, that has ended; perhaps with a wrong byte."""
    given = range(1, channels + 1)
    parts = [program_packet(it, 0, sequence=it - 1) for it in given]
    parts += [packet(it, [10 * it, 10 * it + 5]) for it in given]
    parts += [end_packet(it, 2, channels + it - 1) for it in given]
    data = bytearray(b"".join(parts))
    if damaged_at is not None:
        data[damaged_at] ^= 1
    path.write_bytes(data)
    facts = {**facts_of_run(ONE_ORIGIN), "state": "ended", "host": path.stem, "begun": "2025-12-01T12:00:00Z"}
    Path(f"{path}.json").write_text(json.dumps(facts))
    return path


BEHIND_A_HEADER = 64 * 2 + 30
# Of two recordings which are damaged, and the status of what reads both.
DAMAGED = {"neither": (0, 0), "the first": (1, 0), "the last": (0, 1), "both": (1, 1)}


@pytest.fixture(params=DAMAGED)
def pair(request: pytest.FixtureRequest, work: Path) -> tuple[list[Path], list[Path]]:
    """Two recordings, and those of them that are damaged."""
    which = DAMAGED[request.param]
    both = [recording_at(work / f"{it}.ch11", BEHIND_A_HEADER if bad else None) for it, bad in zip("ab", which)]
    return both, [path for path, bad in zip(both, which) if bad]


Pair = tuple[list[Path], list[Path]]


def test_each_of_several_damaged_recordings_is_said(work: Path, pair: Pair) -> None:
    """By each tool that reads several, whose status is that of all."""
    both, damaged = pair
    for path in both:
        Path(f"{path}.json").unlink()
    done = outcome(EXPORT, *both, work / "o.pcapng")
    judge("export names each", [it for it in both if f"{it}" in done.stderr] == damaged, done)
    told = outcome(INFO, "--json", *both)
    found = [bool(it["damaged_count"]) for it in json.loads(told.stdout)["recordings"]]
    judge("info has the damage of each", found == [it in damaged for it in both], found)
    checked = outcome(CHECK, "--no-audit", *both)
    wrong = [" wrong 0\n" not in it for it in checked.stdout.split("recording ")[1:]]
    judge("check has the sums of each", wrong == [it in damaged for it in both], checked)
    judge_same("the status of each", [it.returncode for it in (done, told, checked)], [int(bool(damaged))] * 3)


def followed(work: Path, damaged: tuple[int, ...], channels: int = 2) -> list[Path]:
    """Recordings of a run, of which some are damaged."""
    given = enumerate(damaged, 1)
    return [recording_at(work / f"f_{it:05}.ch11", BEHIND_A_HEADER if bad else None, channels) for it, bad in given]


@pytest.mark.parametrize("which", DAMAGED)
def test_a_run_is_followed_beyond_what_is_damaged(work: Path, which: str) -> None:
    paths = followed(work, DAMAGED[which])
    done = outcome(FOLLOW, paths[0], text=False)
    said = done.stderr.decode()
    judge("the status", done.returncode == any(DAMAGED[which]), said)
    judge("each is named", [f"{it}: " in said for it in paths] == [bool(bad) for bad in DAMAGED[which]], said)
    judge("frames of both", 4 <= len(frames_in(done.stdout)) == 8 - 2 * sum(DAMAGED[which]), said)


@pytest.mark.parametrize("command", [FOLLOW, EXPORT], ids=["follow", "export"])
@pytest.mark.parametrize("asked", [(1, 3), (3, 2), tuple(range(1, 40))], ids=["first", "last", "many"])
def test_all_channels_that_are_asked_for_are_shown_and_no_other(work: Path, command: Path, asked: tuple) -> None:
    path = recording_at(work / "x.ch11", channels=40)
    words = [word for it in asked for word in ("--channel", it)]
    done = outcome(command, *words, path, *["-"] * (command == EXPORT), text=False)
    found = {number_of(it.bytes) // 10 for it in frames_in(done.stdout)}
    judge(f"channels {asked}", (done.returncode, found) == (0, set(asked)), (done, found))


class Answering(threading.Thread):
    """Answers each line of a client by how it begins: what is refused, or done."""

    def __init__(self, path: Path) -> None:
        super().__init__(daemon=True)
        self.socket = socket.socket(socket.AF_UNIX)
        self.socket.bind(str(path))
        self.socket.listen()
        self.start()

    def run(self) -> None:
        with self.socket, self.socket.accept()[0] as client, client.makefile("rwb") as lines:
            for line in lines:
                lines.write((b"refused\n" if line.startswith(b"bad") else b"done\n") + b"of " + line + b"\n")
                lines.flush()


@pytest.mark.parametrize("lines, status", [("ok 1,ok 2", 0), ("bad 1,ok 2", 1), ("ok 1,bad 2", 1), ("bad 1,bad 2", 1)])
def test_of_several_lines_each_is_answered_and_one_that_is_refused_counts(work: Path, lines: str, status: int) -> None:
    answering = Answering(work / "c")
    done = outcome(TOOLS / "tell", work / "c", input=lines.replace(",", "\n") + "\n")
    answering.join(5)
    judge("the status", done.returncode == status, done)
    given = lines.split(",")
    judge("what was done", done.stdout.splitlines() == [f"of {it}" for it in given if it[0] == "o"], done)
    judge("what was refused", done.stderr.splitlines() == [f"of {it}" for it in given if it[0] == "b"], done)


class PlayedLoop:
    """A loop that follows nothing."""

    def on_read(self, *_: object) -> None:
        pass


class PlayedGuard:
    """Starts nothing, and keeps what it was to start."""

    def __init__(self) -> None:
        self.all = 0
        self.asked: list[list[str]] = []

    def start(self, words: list[str], *_: object) -> None:
        self.asked.append(words)
        raise FileNotFoundError(errno.ENOENT, "No such file or directory")


class Begun(NamedTuple):
    """A recording that has begun."""

    about: Any


@pytest.mark.parametrize("count", [2, 8])
def test_each_of_several_publishers_that_die_is_said_and_begun_again(
    count: int, monkeypatch: pytest.MonkeyPatch
) -> None:
    """Each at its own time, the earliest of which is waited for."""
    now = [100.0]
    monkeypatch.setattr(time, "monotonic", lambda: now[0])
    lines: list[str] = []
    seen: list[tuple[str, object]] = []
    guard = PlayedGuard()
    targets = [target_of(f"192.0.2.1:{5 + it}") for it in range(count)]
    made = Publishers(
        targets, cast(Any, PlayedLoop()), cast(Any, guard), lines.append, lambda place, sent: seen.append((place, sent))
    )
    made.begun(cast(Any, Begun(argparse.Namespace(out="x.ch11"))))
    places = [f"192.0.2.1:{5 + it}" for it in range(count)]
    judge("each is begun", [it[-1] for it in guard.asked] == places, guard.asked)
    judge("each is seen to die", seen == [(it, None) for it in places], seen)
    judge("and said", len(lines) == count and all(f"publish {it}: " in line for it, line in zip(places, lines)), lines)
    made.all[-1].due = 101.0
    judge("the earliest", made.deadline() == 101.0, made.deadline())
    made.tick(101.0)
    judge("is begun again alone", [it[-1] for it in guard.asked[count:]] == places[-1:], guard.asked[count:])
    made.tick(102.0)
    judge("and then the others", [it[-1] for it in guard.asked[count + 1 :]] == places[:-1], guard.asked)
    made.finish(lambda: True)
    judge("none is begun again", (made.deadline(), len(lines)) == (None, 3 * count + 0), lines)
