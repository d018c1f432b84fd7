#!/usr/bin/env python3
"""Checks that what the documents name in backticks exists.

Without a document it reads each *.md of the repository. It looks at each word in backticks:
- a path, which contains a / or ends in .rt, .antt, .md, .edit or .txt, must exist, from the root or
  from the document's folder;
- a name as `crate::item` or `crate::Type::method`, of a crate of this repository, must be declared
  `pub` in that crate's src/;
- a name right before its file, as "`name` (`path`)", must be declared in that file;
- the target of a link, as `[text](path)`, must exist, from the document's folder;
- a tool, as host/bin/NAME, must exist, also in a block of code;
- in a table with the column "Call, clause", each call must be a function of the crate that the last
  title names, and each word after it a clause of that function, or another function.
Passed over are blocks of code, commands, patterns, what a build makes (bin/, out/, /tmp/), and the
folders that each crate has (specs/, proofs/, src/, must-fail/, data/). In docs/dev/STYLE.md, whose names
of files are examples, only names of items are checked.
It prints each broken link as FILE:LINE: TEXT, and the status is 1 where there is one.
"""
import argparse
import re
import sys
from collections.abc import Iterator
from pathlib import Path

ROOT = Path(__file__).resolve().parents[2]
CRATES = {it.name for it in (ROOT / "crates").iterdir() if (it / "src").is_dir()}
ENDINGS = (".rt", ".antt", ".md", ".edit", ".txt")
MADE = re.compile(r"^bin(/|$)|(^|/)out(/|$)|^/tmp/")
NO_PATH = re.compile(r"[\s*?<>{}()|$'\"=;,…]|\.\.|://|^[-~@#]|^/(usr|opt|dev|proc)/")
ITEM = re.compile(r"(\w+)((?:::\w+)+)")
CRATE_FOLDERS = {"specs/", "proofs/", "src/", "must-fail/", "data/"}
EXAMPLES = {ROOT / "docs/dev/STYLE.md"}
KINDS = r"(?:fn|struct|enum|trait|const|static|type|mod)"
# A name with the file that has it; the column that names clauses.
IN_FILE = re.compile(r"`([\w:]+)` \(`([\w/.]+\.(?:rt|antt))`")
CLAUSES = "Call, clause"


def documents() -> list[Path]:
    """Each document of the repository, but for what a build or a tool keeps."""
    skipped = {"out", "bin", ".git", "node_modules"}
    return sorted(it for it in ROOT.rglob("*.md") if not skipped & set(it.relative_to(ROOT).parts))


def words_of(text: str) -> Iterator[tuple[int, str]]:
    """Each word in backticks with its line's number, outside of blocks of code."""
    is_code = False
    for number, line in enumerate(text.split("\n"), 1):
        if line.lstrip().startswith("```"):
            is_code = not is_code
        elif not is_code:
            for word in re.findall(r"``(.+?)``|`([^`]+)`", line):
                yield number, word[0] or word[1]


def is_path(word: str) -> bool:
    """Whether a word looks like a path that the repository keeps."""
    if NO_PATH.search(word) or MADE.search(word) or "::" in word or word in CRATE_FOLDERS:
        return False
    return word.endswith(ENDINGS) or "/" in word.strip("/") or word.endswith("/")


def source_of(crate: str) -> str:
    """The code of a crate, without its comments and its tests."""
    files = sorted((ROOT / "crates" / crate / "src").rglob("*.rt"))
    kept = [it.read_text() for it in files if "tests" not in it.with_suffix("").parts]
    return "\n".join(re.sub(r"(?m)^\s*//.*$", "", it) for it in kept)


def is_declared(source: str, name: str) -> bool:
    """Whether the code declares the name `pub`, or as a variant, or as what a trait has."""
    if re.search(rf"pub (?:const |unsafe )?{KINDS} {name}\b", source):
        return True
    open_to_all = "\n".join(re.findall(r"(?ms)^pub (?:enum|trait) .*?^}", source))
    return bool(re.search(rf"(?m)^\s+(?:{name}\b\s*[,({{=]|(?:fn|const|type) {name}\b)", open_to_all))


def is_item(crate: str, names: str) -> bool:
    """Whether `crate::item`, or `crate::Type::method`, names what the crate has."""
    source = source_of(crate)
    first, *inner = names.strip(":").split("::")
    top = rf"pub (?:const |unsafe )?{KINDS} {first}\b|pub use [^;]*\b{first}\b|(?m:^mod {first};)"
    return bool(re.search(top, source)) and all(is_declared(source, name) for name in inner)


def declares(file: Path, name: str) -> bool:
    """Whether a file of code or of definitions declares a name, or the last part of `Type::method`."""
    last = re.escape(name.split("::")[-1])
    is_code = file.suffix != ".antt"
    in_code = rf"(?m)\b(?:{KINDS}|macro_rules!) {last}\b|^\s+{last}\b\s*[,({{]"
    in_definitions = rf"(?m)^\s*(?:pub |abbrev |unfoldable |record |data |ruleset )*{last}\b"
    return bool(re.search(in_code if is_code else in_definitions, file.read_text()))


def misplaced_in(document: Path) -> Iterator[tuple[int, str]]:
    """Each name that stands before a file which doesn't declare it."""
    for number, line in enumerate(document.read_text().split("\n"), 1):
        for name, path in IN_FILE.findall(line):
            found = [it / path for it in (ROOT, document.parent) if (it / path).exists()]
            if found and not declares(found[0], name):
                yield number, f"`{name}`: {path} declares no such name"


def contracts_of(crate: str) -> dict[str, set[str]]:
    """The functions and types of a crate's code, each with the names of its clauses or of its laws; a name
    may stand for several."""
    source = source_of(crate)
    names = {*re.findall(rf"\b{KINDS} (\w+)", source), *re.findall(r"(?m)^impl.* (\w+)(?:<.*>)? for ", source)}
    laws = set(re.findall(r"(?m)^\s+ghost (\w+)(?:: | = )\{", source))
    found = {it: set(laws) for it in names}
    for part in re.split(r"(?m)^(?=[ \t]*(?:pub(?:\([\w ]+\))? )?(?:const )?fn \w)", source)[1:]:
        clauses = re.findall(r"(?:ensures|requires) (\w+) \{", part)
        found.setdefault(re.findall(r"fn (\w+)", part)[0], set()).update(clauses)
    return found


def rows_of(document: Path) -> Iterator[tuple[int, str, str]]:
    """The rows of a page's tables that name clauses: the line's number, the crate whose they are, and the named cell."""
    column, crate = None, ""
    for number, line in enumerate(document.read_text().split("\n"), 1):
        cells = [it.strip() for it in line.strip().strip("|").split(" | ")] if line.startswith("|") else []
        if line.startswith("#"):
            crate = next((it for it in re.findall(r"\w+", line) if it in CRATES), crate)
        if not cells:
            column = None
        elif column is None:
            column = cells.index(CLAUSES) if CLAUSES in cells else -1
        elif 0 <= column < len(cells):
            yield number, crate, cells[column]


def unclaused_in(document: Path) -> Iterator[tuple[int, str]]:
    """Each word in a document that is to be a call or a clause, and is none."""
    contracts: dict[str, dict[str, set[str]]] = {}
    for number, crate, cell in rows_of(document):
        calls = contracts.setdefault(crate, contracts_of(crate))
        known: set[str] = set()
        for word in re.findall(r"`([\w:]+)`", re.sub(r"\([^)]*\)|`\w+` of `\w+`", "", cell)):
            name = word.split("::")[-1]
            if name in calls and (name not in known or "::" in word):
                known = calls[name]
            elif name not in known:
                yield number, f"`{word}`: no function of {crate}, and no clause of the call before it"


def lost_links_in(document: Path) -> Iterator[tuple[int, str]]:
    """Each link of a document that leads to no file, and each tool that isn't there, with its line's number and a reason."""
    for number, line in enumerate(document.read_text().split("\n"), 1):
        for target in re.findall(r"\]\(([^)\s#]+)(?:#[^)\s]*)?\)", line):
            if "://" not in target and not (document.parent / target).exists():
                yield number, f"`{target}`: the link leads to no file or folder"
        for tool in re.findall(r"\bhost/bin/\w+", line):
            if not (ROOT / tool).exists():
                yield number, f"`{tool}`: no such tool"


def broken_in(document: Path) -> Iterator[tuple[int, str]]:
    """Each word of a document that names nothing, with its line's number and a reason."""
    yield from lost_links_in(document)
    yield from misplaced_in(document)
    yield from unclaused_in(document)
    for number, word in words_of(document.read_text()):
        name = word.split("(")[0]
        match = ITEM.fullmatch(name)
        if match and match[1] in CRATES:
            if not is_item(match[1], match[2]):
                yield number, f"`{word}`: the crate {match[1]} has no such pub item"
        elif is_path(word) and document not in EXAMPLES:
            if not any((it / word).exists() for it in (ROOT, document.parent)):
                yield number, f"`{word}`: no such file or folder"


def main() -> int:
    parser = argparse.ArgumentParser(description=__doc__, formatter_class=argparse.RawDescriptionHelpFormatter)
    parser.add_argument("documents", nargs="*", type=Path, metavar="DOCUMENT", help="these alone")
    chosen = [it.resolve() for it in parser.parse_args().documents] or documents()
    if lost := [it for it in chosen if not it.is_file()]:
        parser.error(f"no such document: {lost[0]}")
    broken = 0
    for document in chosen:
        for number, reason in broken_in(document):
            print(f"{document.relative_to(ROOT)}:{number}: {reason}")
            broken += 1
    print(f"{len(chosen)} documents, {broken} broken links")
    return 1 if broken else 0


sys.exit(main())
