"""The manual pages: bpfrec(1), made of the list of verbs and of the tables of docs/user/formats/, and one of each verb, made of
its help."""
import argparse
import re
import textwrap
from collections.abc import Iterator

from bpfrec_tools import verbs
from help_texts import FORMATS, Command, Help, capture_text, parsers, uses_in

# The day of the page's last change, which pages have.
DATE = "2026-11-29"
# The sections whose tables the page has, where the first column is one of these.
SECTIONS = (
    "Listing",
    "Assembler text",
    "Disassembled text",
    "Verifier",
    "Feed",
    "Script",
    "Settings",
    "Lines that change a filter",
    "What `record` refuses",
    "What `record` prints",
    "Packets",
    "What is read",
    "Audit",
)
FIRST_COLUMNS = ("Fault", "Refusal", "Printed", "Key", "Bytes", "Path", "Line")
WIDTH = 78


def escaped(text: str) -> str:
    """A text as roff has it."""
    return text.replace("\\", "\\e").replace("-", "\\-")


def inline(text: str) -> str:
    """A text of a document, whose words in backticks are bold."""
    parts = re.split(r"`([^`]+)`", re.sub(r"\[([^]]+)\]\([^)]+\)", r"\1", text))
    return "".join(f"\\fB{escaped(it)}\\fR" if at % 2 else escaped(it) for at, it in enumerate(parts))


def filled(text: str) -> list[str]:
    """A paragraph as lines, none of which roff takes for a command."""
    found = textwrap.wrap(text, WIDTH, break_long_words=False, break_on_hyphens=False)
    return [f"\\&{it}" if it[:1] in (".", "'") else it for it in found]


def literal(lines: list[str]) -> list[str]:
    return [".PP", ".nf", *(f"\\&{escaped(it)}" if it[:1] in (".", "'") else escaped(it) for it in lines), ".fi"]


def item(term: str, said: str) -> list[str]:
    """An item of a list: a term, in bold where it isn't already, and what is said of it."""
    term = term if "\\f" in term else f"\\fB{term}\\fR"
    return [".TP", f"\\&{term}" if term[:1] in (".", "'") else term, *(filled(said) or ["\\&"])]


def text_page(text: str) -> list[str]:
    """A help text: paragraphs, and indented rows of a word or two and what is said of them; behind `Example:` all is
    as it stands."""
    prose, _, example = text.partition("Example:\n")
    found: list[str] = []
    rows: list[tuple[str, str]] = []
    paragraph: list[str] = []

    def close() -> None:
        if paragraph:
            found.extend([".PP", *filled(escaped(" ".join(paragraph)))])
            paragraph.clear()
        if rows and all(not said for _, said in rows):
            found.extend(literal([term for term, _ in rows]))
        elif rows:
            for term, said in rows:
                found.extend(item(escaped(term), escaped(said)))
        rows.clear()

    for line in prose.split("\n"):
        indent = len(line) - len(line.lstrip())
        if not line.strip():
            close()
        elif indent >= 20 and rows:
            rows[-1] = rows[-1][0], f"{rows[-1][1]} {line.strip()}".strip()
        elif indent >= 2:
            if paragraph:
                close()
            term, _, said = line.strip().partition("  ")
            # A term that is long has one space before what is said of it.
            rows.append((term, said.strip()))
        else:
            if rows:
                close()
            paragraph.append(line.strip())
    close()
    return found + ([".PP", "Example:", *literal(example.strip("\n").split("\n"))] if example else [])


def tables() -> Iterator[tuple[str, list[str], list[list[str]]]]:
    """The tables of docs/user/formats/ that the page has: the titles before each, and its rows."""
    titles, rows, section = [], [], ""
    # Behind a number may stand its name, which is no part of the page.
    for line in [*re.sub("<!--.*?-->", "", "\n".join(it.read_text() for it in FORMATS)).split("\n"), ""]:
        if line.startswith("#"):
            level, title = line.split(" ", 1)
            section = title if level == "##" else section
            titles = [section] + ([title] if level == "###" else [])
        elif line.startswith("|"):
            cells = re.split(r"(?<!\\)\|", line)[1:-1]
            rows.append([it.strip() for it in cells])
        elif rows:
            if section in SECTIONS and rows[0][0] in FIRST_COLUMNS and len(rows[0]) > 1:
                yield titles[-1], rows[0], rows[2:]
            rows = []


def table_page(head: list[str], rows: list[list[str]]) -> list[str]:
    found = []
    for cells in rows:
        said = [inline(cells[1])] + [
            f"{escaped(name)}: {inline(it)}" for name, it in zip(head[2:], cells[2:]) if name and it
        ]
        found += item(inline(cells[0]), "; ".join(it for it in said if it))
    return found


MADE = '.\\" Made by dev/package/make_texts.py of the help and of docs/user/formats/.'


def joined(lines: list[str]) -> str:
    """The lines of a page as a text; below a title no paragraph is begun anew."""
    kept = [line for at, line in enumerate(lines) if line != ".PP" or not lines[at - 1].startswith((".SH", ".SS"))]
    return "\n".join(kept) + "\n"


def head(name: str, version: str, about: str) -> list[str]:
    """How a page begins."""
    title = f'.TH {name.upper()} 1 "{DATE}" "bpfrec {version}" "User Commands"'
    return [MADE, title, ".SH NAME", f"{escaped(name)} \\- {escaped(about)}", ".SH SYNOPSIS"]


def page(texts: Help) -> str:
    """The page bpfrec(1)."""
    found = head("bpfrec", texts.version, "records Ethernet channels through filters, and reads the recordings")
    found += [".B bpfrec", ".I VERB ..", ".SH DESCRIPTION"]
    found += [*filled(escaped(texts.about)), *text_page(texts.statuses), ".SH VERBS"]
    found += filled("Each has a page, as bpfrec\\-audit(1). Those with * are proved, and the others are tested.")
    for group, members in verbs.GROUPS.items():
        found.append(f".SS {group}")
        for name, verb in members.items():
            found += item(f"{name}{' *' * verb.is_proved}", f"{escaped(verb.about)}: \\fB{escaped(verb.example)}\\fR")
    found += [".SH FORMATS"]
    found += filled("By their sections; a number of several bytes has its lowest byte first.")
    last = ""
    for title, columns, rows in tables():
        found += [f'.SS "{inline(title)}"'] if title != last else [".PP"]
        found += [*filled(", ".join(escaped(it) for it in columns if it) + ":"), *table_page(columns, rows)]
        last = title
    found += [".SH SEE ALSO", ".BR tcpdump (1),", ".BR capinfos (1),", ".BR pcap\\-filter (7)"]
    return joined(found)


def end(example: str) -> list[str]:
    """How the page of a verb ends."""
    return [".SH EXAMPLE", *literal([example]), ".SH SEE ALSO", ".BR bpfrec (1)"]


def command_page(command: Command, version: str) -> str:
    """The page of a verb of the proved program."""
    words = " ".join(it.name for it in command.words)
    found = head(f"bpfrec-{command.name}", version, command.about)
    found += [f".B bpfrec {command.name}", *([f".I {words}"] if words else []), ".SH DESCRIPTION"]
    found += text_page(command.help.partition("Example:\n")[0])
    for word in command.words:
        found += item(f"\\fI{escaped(word.name)}\\fR", escaped(word.help))
    return joined(found + end(verbs.VERBS[command.name].example))


def options_page(parser: argparse.ArgumentParser) -> Iterator[str]:
    """The options of a parser, in its groups, and those of its commands."""
    for group in parser._action_groups:
        named = [it for it in group._group_actions if it.option_strings and it.help != argparse.SUPPRESS]
        if named and group.title not in ("options", "optional arguments"):
            yield f'.SS "{escaped(str(group.title))}"'
        for action in named:
            value = f" \\fI{escaped(str(action.metavar or action.dest))}\\fR" if action.nargs != 0 else ""
            yield from item(f"\\fB{escaped(', '.join(action.option_strings))}\\fR{value}", escaped(action.help or ""))
    for action in parser._actions:
        for name, command in action.choices.items() if isinstance(action, argparse._SubParsersAction) else ():
            yield f'.SS "{escaped(name)}"'
            yield from text_page(command.description or "")
            yield from options_page(command)
            yield from text_page(command.epilog or "")


def tool_page(name: str, parser: argparse.ArgumentParser, version: str) -> str:
    """The page of a verb of the tools."""
    verb = verbs.VERBS[name]
    found = head(f"bpfrec-{name}", version, verb.about)
    for at, use in enumerate(uses_in(parser.format_usage(), parser.prog)):
        found += [".br"] * bool(at) + [f".B bpfrec {name}", f".I {escaped(use)}"]
    found += [".SH DESCRIPTION", *text_page(parser.description or ""), ".SH OPTIONS", *options_page(parser)]
    found += [".SH NOTES", *text_page(parser.epilog)] if parser.epilog else []
    return joined(found + end(verb.example))


def capture_page(version: str) -> str:
    """The page of the capture."""
    verb, text = verbs.VERBS["capture"], capture_text()
    found = head("bpfrec-capture", version, verb.about)
    for at, use in enumerate(uses_in(text, "capture")):
        found += [".br"] * bool(at) + [".B bpfrec capture", f".I {escaped(use)}"]
    return joined([*found, ".SH DESCRIPTION", *text_page(text.partition("\n\n")[2]), *end(verb.example)])


def pages(texts: Help) -> dict[str, str]:
    """All pages by the names of their files."""
    found = {"bpfrec.1": page(texts), "bpfrec-capture.1": capture_page(texts.version)}
    found |= {
        f"bpfrec-{it.name}.1": command_page(it, texts.version) for it in texts.commands if it.name in proved_verbs()
    }
    return found | {f"bpfrec-{name}.1": tool_page(name, it, texts.version) for name, it in parsers().items()}


def proved_verbs() -> list[str]:
    """The verbs of the proved program."""
    return [name for name, verb in verbs.VERBS.items() if verb.is_proved]
