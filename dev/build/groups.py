"""Edits that must fail, several in one check of their crate.

Most edits change the body of one function. A function is proved by the contracts of those that it calls, so where none
of the changed functions names another, near or far, no edit can have another one refused, and one check tells of each.
An edit counts as refused there if the prover says of its own function, and at its own lines, that a goal isn't proved,
and of every function that no edit changes at most that it calls one of these.
All others are tried alone, as the toolchain does it: what changes a definition, a constant or what one may be made of
(`const fn`), a contract or a method of a trait, and what wasn't refused so.
"""
import functools
import re
from collections.abc import Iterator
from pathlib import Path
from typing import Any, NamedTuple, Optional

from repository import toolchain

# How many edits are tried in one check. Of nine edits of bpf_verify three at a time took 46 % of the time.
TOGETHER = 8
HEAD = re.compile(r"^( *)(?:pub(?:\([\w ]+\))? )?(?:const )?fn (\w+)")
# A line of a check on a goal that is not proved.
GOAL = re.compile(r"note: (\S+?):(\d+):\d+: it is not proved ")
OF_TRAIT = re.compile(r"^( *)impl\b.* for .*[\w>]")


# The edits of a group, each with the body that it changes: None of one that is tried alone.
Group = list[tuple[str, Optional["Body"]]]


class Body(NamedTuple):
    """The body of a function: its file in the crate, its name, and the lines of the whole function, from 1 on."""

    path: str
    name: str
    first: int
    last: int


def spans(lines: list[str], head: re.Pattern[str]) -> Iterator[tuple[re.Match[str], int, int]]:
    """The lines of what begins with each line that `head` matches, from 1 on, with the match."""
    for at, line in enumerate(lines):
        found = head.match(line)
        if found:
            ends = (number for number, it in enumerate(lines[at:], at + 1) if it.rstrip(";,") == f"{found[1]}}}")
            last = next(ends, None)
            if last:
                yield found, at + 1, last


def first_of_item(lines: list[str], first: int) -> int:
    """The line where a function begins with its attributes, by which the prover names its goals."""
    while first > 1 and lines[first - 2].lstrip().startswith("#["):
        first -= 1
    return first


def begin_of_body(lines: list[str], first: int, indent: str) -> int:
    """The line of the brace behind which the body of a function begins."""
    braces = (number for number, it in enumerate(lines[first - 1 :], first) if it == f"{indent}{{")
    return first if lines[first - 1].endswith(" {") else next(braces, first)


@functools.lru_cache(maxsize=None)
def bodies(folder: str, path: str) -> list[tuple[Body, int]]:
    """The functions of a file of code that are no methods of a trait and make no constants, each with the line where
    its body begins."""
    lines = Path(folder, path).read_text(encoding="utf-8").split("\n")
    traits = [(first, last) for _, first, last in spans(lines, OF_TRAIT)]
    found = []
    for match, first, last in spans(lines, HEAD):
        if "const fn" not in match[0] and not any(begin < first < end for begin, end in traits):
            body = Body(path, match[2], first_of_item(lines, first), last)
            found.append((body, begin_of_body(lines, first, match[1])))
    return found


@functools.lru_cache(maxsize=None)
def names_in_bodies(folder: str) -> dict[str, set[str]]:
    """The names of a crate's functions, each with the words of all functions of that name."""
    found: dict[str, set[str]] = {}
    for file in sorted(Path(folder, "src").rglob("*.rt")):
        lines = file.read_text(encoding="utf-8").split("\n")
        for match, first, last in spans(lines, HEAD):
            found.setdefault(match[2], set()).update(re.findall(r"\w+", "\n".join(lines[first - 1 : last])))
    return found


@functools.lru_cache(maxsize=None)
def reached(folder: str, name: str) -> set[str]:
    """The functions that one names, near or far, by their names."""
    named, waiting = names_in_bodies(folder), [name]
    found: set[str] = set()
    while waiting:
        for callee in named.get(waiting.pop(), set()) & named.keys() - found:
            found.add(callee)
            waiting.append(callee)
    return found - {name} if name not in named.get(name, set()) else found


def body_of(folder: str, edit: str) -> Optional[Body]:
    """The function whose body an edit changes, in one line; None of any other edit."""
    text = Path(edit).read_text(encoding="utf-8")
    paths = re.findall(r"(?m)^file: (src/\S+\.rt)$", text)
    old = re.findall(r"(?m)^old: (.*)$", text)
    if len(paths) != 1 or len(old) != 1 or len(re.findall(r"(?m)^file: ", text)) != 1:
        return None
    code = Path(folder, paths[0]).read_text(encoding="utf-8")
    if code.count(old[0]) != 1:
        return None
    line = code[: code.index(old[0])].count("\n") + 1
    holding = [it for it, begin in bodies(folder, paths[0]) if begin < line < it.last]
    return holding[0] if len(holding) == 1 else None


def are_apart(folder: str, one: Body, other: Body) -> bool:
    """Whether neither of two functions names the other."""
    return (
        one.name != other.name
        and one.name not in reached(folder, other.name)
        and other.name not in reached(folder, one.name)
    )


def has_room(folder: str, group: Group, body: Body) -> bool:
    """Whether a body may join a group."""
    return len(group) < TOGETHER and all(other and are_apart(folder, body, other) for _, other in group)


def grouped(folder: str, edits: list[str]) -> list[Group]:
    """The edits in groups, each edit with its body: of several where they can be tried together, else of one."""
    groups: list[Group] = []
    alone: list[Group] = []
    for edit in edits:
        body = body_of(folder, edit)
        if body is None:
            alone.append([(edit, None)])
            continue
        group = next((it for it in groups if has_room(folder, it, body)), None)
        if group is None:
            group = []
            groups.append(group)
        group.append((edit, body))
    return groups + alone


def is_goal_of(line: str, body: Body) -> bool:
    """Whether a line of a check says that a goal of this function isn't proved."""
    found = GOAL.match(line)
    return found is not None and found[1] == body.path and body.first <= int(found[2]) <= body.last


def refused_names(lines: list[str], name: str) -> set[str]:
    """The functions of a crate that a check refuses for goals of their own, by their last names."""
    refused = re.compile(rf"fn {name}::(?:\S+::)?([^\s:]+): (?:no proof|not proved|could not)(?!: it calls )")
    return {it[1] for it in map(refused.match, lines) if it}


def refusals(lines: list[str], name: str, group: list[tuple[str, Body]]) -> dict[str, str]:
    """The edits of a group that a check refuses, each with the goal that is false; none where something else is
    wrong."""
    refused = refused_names(lines, name)
    if not refused <= {body.name for _, body in group}:
        return {}
    goals = {edit: next((it for it in lines if is_goal_of(it, body)), "") for edit, body in group}
    return {edit: goals[edit] for edit, body in group if goals[edit] and body.name in refused}


def line_in(edit: str, head: str) -> str:
    """What stands behind a head in an edit, in one line."""
    found = re.search(rf"(?m)^{head}: ?(.*)$", edit)
    return found[1] if found else ""


def texts_of(rt: Any, crate: Any, group: list[tuple[str, Body]]) -> Optional[dict[str, str]]:
    """The files that a group of edits changes, as they are then; None where two of them don't go together."""
    texts: dict[str, str] = {}
    for edit, body in group:
        changed, why = rt.read_edit(edit, crate.folder)
        if why or list(changed) != [body.path]:
            return None
        old, new = (line_in(Path(edit).read_text(encoding="utf-8"), it) for it in ("old", "new"))
        text = texts.get(body.path) or Path(crate.folder, body.path).read_text(encoding="utf-8")
        if text.count(old) != 1:
            return None
        texts[body.path] = text.replace(old, new)
    return texts


def tried_together(crate: Any, edits: Group, flags: list[str], kept: str) -> dict[str, str]:
    """The edits of a group that one check of all of them refuses, each with what to say."""
    rt = toolchain()
    group = [(edit, body) for edit, body in edits if body]
    texts = texts_of(rt, crate, group) if len(group) > 1 else None
    if texts is None:
        return {}
    ran = rt.checked(crate, texts, flags, kept)
    lines = ran.stdout.rstrip("\n").split("\n")
    is_read = not any(rt.unread(it, texts) for it in lines) and not rt.rtlib.STALE.search(ran.stdout)
    if ran.returncode != 1 or not lines[-1].startswith("logic=not-proved") or not is_read:
        return {}
    found = refusals(lines, crate.name, group)
    said = {edit: f"must-fail {crate.name}/{Path(edit).name}: refused, as it must be" for edit in found}
    return {edit: f"{text}: {found[edit][:160]}" for edit, text in said.items()}
