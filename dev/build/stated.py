"""What a crate states to those above it, by its files: contracts, types, constants and definitions, without the bodies
of functions and the proofs of lemmas.

A function is proved by the contracts of those that it calls, and a proof cites lemmas by their signatures, so neither a
body nor a proof below can have an edit refused or let through. Code is laid out by `rt fmt` (a step holds it to that),
so a body stands between braces of one indentation. Of a definition in proofs/ another crate sees the signature alone,
and where it isn't `pub` nothing, but for one marked `abbrev` or `unfoldable` (the toolchain's primer, 4.11); answers to
goals it can't name. Whatever isn't known to be a body or a proof counts, and of specs/ all but comments.
"""

import hashlib
import re
from collections.abc import Iterable, Iterator
from pathlib import Path
from typing import Optional

from groups import OF_TRAIT, begin_of_body, first_of_item, spans
from repository import line_of

# Comments, and how a function is proved.
ASIDE = re.compile(r"(?m)^\s*//.*\n|^\s*#!?\[tactic\([^\]]*\]\n")
FUNCTION = re.compile(r"^( *)(pub )?(?:pub\([\w ]+\) )?(?:unsafe )?fn (\w+)")
TRAIT = re.compile(r"^( *)(?:pub(?:\([\w ]+\))? )?(?:unsafe )?trait \w+")
MACRO = re.compile(r"^( *)macro_rules! \w+")
# A type that the body gives, so that others read it.
OPEN_TYPE = re.compile(r"-> (?:\S+<)?impl\b")
IMPORT = re.compile(r"(?ms)^ *((?:ghost )?use [\w:.·]+?(?:::|\.))\{([^{}]*)\};\n")
# The begin of a declaration of antt, with its marks and its names, and an import of one.
SIGNATURE = re.compile(
    r"((?:(?:pattern|unfoldable|abbrev|axiom|pub) )*)"
    r"((?:(?![=|] )[^\s(){}.;,@\"\xab\xbb]+ )+?)(?:\{[^}]*\} )?:(?: |$)",
    re.M,
)
USE = re.compile(r"use (\S+)\.\{(.*)\}$", re.S)
WORD = re.compile(r"[^\s(){}.;,@\"\xab\xbb]+")
OPEN = {"unfoldable", "abbrev", "pattern", "axiom"}
ANSWERS = ("Answers.antt", "Invariants.antt")


def code_stated(text: str) -> str:
    """A file of code without comments, the bodies of its functions, and functions of its own that no statement
    names."""
    lines = ASIDE.sub("", text).split("\n")
    macros, impls, traits = ([it[1:] for it in spans(lines, head)] for head in (MACRO, OF_TRAIT, TRAIT))
    dropped: set[int] = set()
    own: dict[str, set[int]] = {}
    for head, first, last in spans(lines, FUNCTION):
        begin = begin_of_body(lines, first, head[1])
        if is_within(first, macros) or OPEN_TYPE.search("\n".join(lines[first - 1 : begin])):
            continue
        dropped.update(range(begin, last - 1))
        if not head[2] and not is_within(first, impls + traits):
            own.setdefault(head[3], set()).update(range(first_of_item(lines, first) - 1, last))
    said = set(re.findall(r"\w+", joined(lines, dropped.union(*own.values()))))
    return imports_named(joined(lines, dropped.union(*(it for name, it in own.items() if name not in said))))


def is_within(line: int, places: Iterable[tuple[int, int]]) -> bool:
    return any(first < line < last for first, last in places)


def joined(lines: list[str], dropped: set[int]) -> str:
    return "\n".join(it for at, it in enumerate(lines) if it and at not in dropped)


def imports_named(text: str) -> str:
    """Code behind those of its imports that it names, in one order."""
    text = f"{text}\n"
    code = IMPORT.sub("", text)
    words = set(WORD.findall(re.sub(r"[<>&:\[\]!?]", " ", code)))

    def named(found: re.Match[str]) -> list[str]:
        return sorted(it for it in re.split(r",\s*", found[2].strip()) if it in words or not it.isidentifier())

    return "".join(sorted({f"{it[1]}{named(it)}\n" for it in IMPORT.finditer(text) if named(it)})) + code


def items(text: str) -> list[str]:
    """The declarations of a file of antt: each begins at a line's first place."""
    text = re.sub(r"(?s)\{-.*?-\}", "", re.sub(r"(?m)^\s*--(?: .*)?\n", "", text))
    return [it.rstrip() for it in re.split(r"\n(?=\S)", text) if it.strip()]


def proofs_stated(text: str) -> str:
    """A file of lemmas without proofs: what others can cite or unfold, and the imports that it names."""
    heads = [SIGNATURE.match(it) for it in items(text)]
    shut = {name for it in heads if it and not set(it[1].split()) & OPEN for name in it[2].split()}
    kept = [it for it, head in zip(items(text), heads) if is_seen(it, head, shut)]
    words = {word for it in kept if not USE.match(it) for word in WORD.findall(it)}
    return "\n".join(it for it in (use_named(it, words) for it in kept) if it)


def use_named(item: str, words: set[str]) -> str:
    """An import with the names that these words have, nothing where there is none, and any other declaration as it is."""
    use = USE.match(item)
    if not use:
        return item
    is_named = lambda name: name in words or "◌" in name and words & set(name.strip("◌").split("◌")) or " " in name
    names = sorted(filter(is_named, use[2].split(", ")))
    return f"use {use[1]} {names}" * bool(names)


def is_seen(item: str, head: Optional[re.Match[str]], shut: set[str]) -> bool:
    """Whether other crates can see a declaration of a file of lemmas."""
    if head:
        return "pub" in head[1].split() or not set(head[2].split()) <= shut
    words = WORD.findall(item)
    return not (item.startswith("unfolding ") or words and words[0] in shut)


def stated(folder: Path) -> Iterator[tuple[str, str]]:
    """What a crate's files state, each with its path."""
    for file in sorted(Path(folder).rglob("*")):
        inside = file.relative_to(folder)
        if not file.is_file() or inside.parts[0] not in ("src", "specs", "proofs") or file.name in ANSWERS:
            continue
        text = file.read_text(encoding="utf-8")
        if file.suffix == ".rt":
            text = code_stated(text)
        elif inside.parts[0] == "proofs":
            text = proofs_stated(text)
        else:
            text = "\n".join(items(text))
        yield str(inside), text


def stated_sum(name: str, folder: Path) -> str:
    """A sum of what a crate states, and of its line of crates.txt."""
    return hashlib.sha256(repr((line_of(name), [it for it in stated(folder) if it[1]])).encode()).hexdigest()
