#!/usr/bin/env python3
"""Checks the English of what users and engineers read: no sentence over 40 words, no page over 25 a sentence on
average, none of the words that STYLE refuses, and no more words in all pages than MOST_WORDS has.

It reads README.md, CONTRIBUTING.md, CHANGELOG.md, the pages of docs/, examples/, bench/ and of each crate, what the
schemas of docs/user/formats/ say of their keys, the page bpfrec(1), which has each line of the program's help, and the
help of all tools and of their commands. A word in backticks counts as one word, and blocks of code are left out. A
sentence ends at a full stop, a question mark, an exclamation mark, or a colon at the end of a line; in a table, where
cells have notes, at a semicolon too. The average is of what is no table and no title. Each row of STYLE's table of
words says what stands in place of a refused one. These words are also refused in what programs print: the strings of
host/ and capture/src/, what tests say as they are left out, and the lines of the Makefiles. It prints FILE:LINE: TEXT
for each, and the status is 1 where there is one.
"""
import argparse
import ast
import json
import re
import subprocess
import sys
from collections.abc import Iterator
from pathlib import Path

sys.dont_write_bytecode = True
ROOT = Path(__file__).resolve().parents[2]
sys.path.insert(0, str(ROOT / "dev" / "package"))
import help_texts
import manual_page

STYLE = ROOT / "docs" / "dev" / "STYLE.md"
MOST, MOST_ON_AVERAGE = 40, 25
# How many words pages of the repository may have together, as wc counts them: all, the first, and those that a user in
# flight reads first.
FIRST_PAGES = ("README.md", "docs/user/USING.md", "docs/user/using/record.md", "docs/user/using/read.md")
MOST_WORDS = {("*.md",): 60_000, ("README.md",): 1_500, FIRST_PAGES: 4_000}
# Words that STYLE refuses, as patterns, each with what to write.
Refused = list[tuple[re.Pattern[str], str]]
# The rows of STYLE's table of words: what is refused, as a pattern, and what to write.
ROW = re.compile(r"^\| `([^`]+)` \| (.+) \|$", re.MULTILINE)
# Of syntax trees what has a text that documents; the strings of C; what a Makefile prints.
DOCUMENTED = (ast.Module, ast.ClassDef, ast.FunctionDef, ast.AsyncFunctionDef)
C_STRINGS = re.compile(r'/\*.*?\*/|//[^\n]*|((?:"(?:[^"\\\n]|\\.)*"\s*)+)', re.DOTALL)
MADE = re.compile(r'echo "([^"]*)"|## (.*)')


def refused() -> Refused:
    """What STYLE refuses: each pattern with what stands in its place."""
    table = STYLE.read_text().partition("| Refused |")[2].partition("\n\n")[0]
    rows = [(it.replace("\\|", "|"), better) for it, better in ROW.findall(table)]
    return [(re.compile(rf"\b(?:{it})\b", re.IGNORECASE), better) for it, better in rows]


# ---- sentences


def blocks_of(text: str) -> Iterator[tuple[int, str]]:
    """The texts of a page that stand by themselves, each with its first line's number: a paragraph, an item, a cell."""
    is_code, begins = False, 0
    block: list[str] = []
    for number, line in enumerate([*text.split("\n"), ""], 1):
        is_fence = line.lstrip().startswith("```")
        is_code ^= is_fence
        is_new = not line.strip() or is_fence or re.match(r"\s*(?:[-*|#>]|\d+\.) ?", line) is not None
        if (is_new or is_code) and block:
            yield begins, "\n".join(block)
            block = []
        if is_code or is_fence or not line.strip():
            continue
        if line.startswith("|"):
            yield from ((number, f"{it}\n") for cell in re.split(r"(?<!\\)\|", line) for it in cell.split(";"))
        else:
            begins = begins if block else number
            block.append(line)


def plain(text: str) -> str:
    """A text without what is marked: a word in backticks and the target of a link are one word."""
    text = re.sub(r"``.+?``|`[^`\n]+`", "x", text)
    text = re.sub(r"!?\[([^\]]*)\]\([^)]*\)", r"\1", text)
    return re.sub(r"<!--.*?-->|[*_#|>]+", " ", text)


def words_in(sentence: str) -> int:
    """How many words a sentence has: what has a letter or a digit."""
    return sum(1 for it in sentence.split() if re.search(r"\w", it))


def faults_in(text: str, patterns: Refused) -> Iterator[tuple[int, str]]:
    """Each fault of a page: the line's number and what it is."""
    lines = text.split("\n")
    counts: list[int] = []
    for number, block in blocks_of(text):
        shown = plain(block)
        found = [it for it in re.split(r"(?<=[.?!])[)*\"']*\s+|:[*)]*\s*\n|:\s*$", shown) if words_in(it)]
        if not lines[number - 1].startswith(("|", "#")):
            counts += map(words_in, found)
        for sentence in found:
            if words_in(sentence) > MOST:
                yield number, f"{words_in(sentence)} words: {' '.join(sentence.split()[:8])} .."
        yield from ((number, it) for it in refused_in(shown, patterns))
    if counts and sum(counts) > MOST_ON_AVERAGE * len(counts):
        yield 1, f"{sum(counts) / len(counts):.1f} words a sentence on average: {MOST_ON_AVERAGE} at most"


def refused_in(text: str, patterns: Refused) -> Iterator[str]:
    """The words of a text that are refused, each with what to write."""
    for pattern, better in patterns:
        for found in pattern.finditer(re.sub(r"\s+", " ", text)):
            yield f'"{found[0]}": write {better}'


def too_many_words() -> Iterator[str]:
    """Which pages have more words together than they may."""
    for pages, most in MOST_WORDS.items():
        listed = subprocess.run(["git", "ls-files", *pages], cwd=ROOT, check=True, text=True, stdout=subprocess.PIPE)
        count = sum(len((ROOT / it).read_text().split()) for it in listed.stdout.splitlines() if (ROOT / it).exists())
        if count > most:
            yield f"{' '.join(pages)}: {count:,} words, and at most {most:,} are allowed"


# ---- what is read


def man_text() -> str:
    """The running text of the page bpfrec(1) and of the proved verbs' pages, without examples."""
    made = manual_page.pages(help_texts.Help())
    names = ["bpfrec.1", *(f"bpfrec-{it}.1" for it in manual_page.proved_verbs())]
    text = re.sub(r"(?s)\n\.nf\n.*?\n\.fi(?=\n)", "\n\n", "\n".join(made[it] for it in names))
    # What stands beside a name is a note, as a cell of a table.
    text = re.sub(r"(?s)(?<=\n)\.TP\n.*?(?=\n\.[A-Z])", lambda found: found[0].replace(";", "\n\n"), text)
    text = re.sub(r"(?m)^\.(?:B|I|BR|IR) ?", "", text)
    return re.sub(r"(?m)^\..*$", "", text).replace("\\", "")


def texts() -> Iterator[tuple[str, str]]:
    """Each text that is read, with what it is called."""
    named = [ROOT / it for it in ("README.md", "CONTRIBUTING.md", "CHANGELOG.md")]
    folders = ("docs/**/*.md", "examples/*.md", "bench/*.md", "crates/*/README.md")
    pages = [*named, *sorted(it for pattern in folders for it in ROOT.glob(pattern))]
    yield from ((str(it.relative_to(ROOT)), it.read_text()) for it in pages if it != STYLE)
    for schema in sorted(ROOT.glob("docs/user/formats/*.json")):
        said = re.findall(r'"description": ("(?:[^"\\]|\\.)*")', schema.read_text())
        yield str(schema.relative_to(ROOT)), "\n\n".join(json.loads(it) for it in said).replace("; ", "\n\n")
    yield "bpfrec.1", man_text()
    # An indented line is an example, or a row of what is printed.
    yield from ((name, re.sub(r"(?m)^(?=  \S)", "\n", text)) for name, text in help_texts.tool_texts())


def strings_of(tree: ast.AST) -> Iterator[tuple[int, str]]:
    """The strings of a syntax tree that don't document, each with its line; a value within one is a word."""
    left_out = set()
    for node in ast.walk(tree):
        if isinstance(node, DOCUMENTED) and node.body and isinstance(node.body[0], ast.Expr):
            left_out.add(id(node.body[0].value))
        elif isinstance(node, ast.JoinedStr):
            left_out.update(map(id, node.values))
            yield node.lineno, "".join(it.value if isinstance(it, ast.Constant) else "x" for it in node.values)
        elif isinstance(node, ast.Constant) and isinstance(node.value, str) and id(node) not in left_out:
            yield node.lineno, node.value


def strings_in(file: Path) -> Iterator[tuple[int, str]]:
    """The strings that a file prints, each with its line: of a test what it says as it is left out."""
    text = file.read_text()
    if file.name == "Makefile":
        for number, line in enumerate(text.split("\n"), 1):
            yield from ((number, "".join(it)) for it in MADE.findall(line))
    elif file.suffix in (".c", ".h"):
        for text_found in C_STRINGS.finditer(text):
            yield text.count("\n", 0, text_found.start()) + 1, re.sub(r'"\s*"|\\n', " ", text_found[1] or "")
    elif {"tests", "trials"} & set(file.relative_to(ROOT).parts):
        calls = [it for it in ast.walk(ast.parse(text)) if isinstance(it, ast.Call)]
        for call in calls:
            if isinstance(call.func, ast.Attribute) and call.func.attr == "skip":
                yield from strings_of(call)
    else:
        yield from strings_of(ast.parse(text))


def printed() -> Iterator[tuple[Path, int, str]]:
    """Each string that is printed, with its file and its line."""
    python = ["host/**/*.py", "host/tool", "capture/tests/*.py", "dev/tests/*.py", "dev/trials/**/*.py"]
    patterns = [*python, "capture/src/*.[ch]", "**/Makefile"]
    for file in sorted(it for pattern in patterns for it in ROOT.glob(pattern) if it.is_file()):
        yield from ((file, *it) for it in strings_in(file))


def main() -> int:
    argparse.ArgumentParser(description=__doc__, formatter_class=argparse.RawDescriptionHelpFormatter).parse_args()
    patterns = refused()
    faults = [f"{name}:{at}: {reason}" for name, text in texts() for at, reason in faults_in(text, patterns)]
    faults += too_many_words()
    for file, at, text in printed():
        shown = " ".join(text.split())[:80]
        faults += [f"{file.relative_to(ROOT)}:{at}: {it}: {shown}" for it in refused_in(plain(text), patterns)]
    print("\n".join(faults) or "no sentence or page is too long, and no word is one that docs/dev/STYLE.md refuses")
    return 1 if faults else 0


if __name__ == "__main__":
    sys.exit(main())
