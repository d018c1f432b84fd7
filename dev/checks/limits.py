#!/usr/bin/env python3
"""Compares the numbers of host/, of the plugin for Wireshark and of docs/user/formats/ with those of the program.

The stored run of crates/test_cases prints the constants that libraries offer, as `limit MAX_INSNS 4096`. Of these, and
of the lines that declare the others, --write makes the first half of host/bpfrec/formats/limits.py. Of that file
it makes the numbers at the head of the plugin, and each number of those pages that has a name behind it, as
4,096<!--MAX_INSNS-->. The help and the schema of the facts must have them too. Without --write it prints what
differs, with status 1.
"""
import argparse
import re
import runpy
import sys
from collections.abc import Iterator
from pathlib import Path
from typing import Any

sys.dont_write_bytecode = True
ROOT = Path(__file__).resolve().parents[2]
sys.path.insert(0, str(ROOT / "dev/package"))
import help_texts

STORED, LIMITS = ROOT / "crates/test_cases/stdout", ROOT / "host/bpfrec/formats/limits.py"
PLUGIN, FORMATS = ROOT / "host/wireshark/parts/bytes.lua", ROOT / "docs/user/formats"
# The constants that no library offers, and those of the capture: where each stands, and its name there.
DECLARED = {
    "RECORD_HEAD_LEN": ("crates/eth_frame/src/feed/head.rt", "HEAD_LEN"),
    "MARK_CHECK_SEQUENCE": ("crates/eth_frame/src/feed/head.rt", "CRC_ERROR"),
    "MARK_OTHER_FAULT": ("crates/eth_frame/src/feed/head.rt", "FRAME_ERROR"),
    "BODY_WORD_LEN": ("crates/ch11_packet/src/frames/word.rt", "BODY_WORD_LEN"),
    "FRAME_HEADER_LEN": ("crates/ch11_packet/src/frames/word.rt", "FRAME_HEADER_LEN"),
    "PROGRAM_RECORD": ("crates/ch11_packet/src/records.rt", "PROGRAM_RECORD"),
    "END_RECORD": ("crates/ch11_packet/src/records.rt", "END_RECORD"),
    "TAGGED_HEAD_LEN": ("crates/ch11_packet/src/records.rt", "RECORD_HEAD_LEN"),
    "SPARE_BUFFERS": ("crates/rec_run/src/threads/setup.rt", "SPARE_BUFFERS"),
    "USUAL_BUFFER": ("capture/src/arguments.c", "USUAL_BUFFER"),
    "BUFFERS_IN_MEMORY": ("capture/src/arguments.c", "BUFFERS_IN_MEMORY"),
    "BUFFER_FOLD": ("capture/src/arguments.c", "BUFFER_FOLD"),
}
# What help says of them, beside what crates/test_program/src/help.rt looks for.
HELP = {
    "list": "in hexadecimal: {ETHERNET_DATA:02x} frames, {COMPUTER_GENERATED_DATA:02x} a record",
    "simulate": "marks: {MARK_CHECK_SEQUENCE} CRC error, {MARK_OTHER_FAULT} frame error",
    "capture": "(default {USUAL_BUFFER},",
}
# Numbers by their names, and what else host/bpfrec/formats/limits.py has.
Values = dict[str, Any]
# A number that has a name: in code, on a line of its own, and in a document.
ASSIGNED = re.compile(r'^(?:local )?(?P<name>[A-Z][A-Z_]+) = "?(?P<number>0x[0-9A-F]+|\d[\d_]*)"?$', re.MULTILINE)
MARKED = re.compile(r"(?P<number>0x[0-9A-F]+|\d[\d,]*)<!--(?P<name>[A-Z_]+)-->")


def program_values() -> Values:
    """The constants of the program and of the capture, by the names that they have in host/."""
    values = {name: int(it) for name, it in re.findall(r"(?m)^limit (\w+) (\d+)$", STORED.read_text())}
    for name, (file, constant) in DECLARED.items():
        found = re.findall(rf"\b{constant}(?:: \w+)? = (\d+)[;,]$", (ROOT / file).read_text(), re.MULTILINE)
        if len(found) != 1:
            raise SystemExit(f"{file}: no line gives {constant} a number")
        values[name] = int(found[0])
    return values


def with_values(text: str, pattern: re.Pattern[str], values: Values, separator: str) -> str:
    """A text whose numbers are those of their names, each written as it was before."""

    def written(found: re.Match[str]) -> str:
        before, value = found["number"], values.get(found["name"])
        if value is None:
            return found[0]
        is_hex = before.startswith("0x")
        after = f"0x{value:0{len(before) - 2}X}" if is_hex else f"{value:,}".replace(",", separator)
        return found[0].replace(before, after)

    return pattern.sub(written, text)


def compare(
    file: Path, pattern: re.Pattern[str], values: Values, separator: str, writes: bool, end: str = "\0"
) -> Iterator[str]:
    """What is wrong with a file, up to a line that begins with `end`; of one that it writes, the names that are unknown."""
    text = file.read_text()
    head, line, rest = text.partition(end)
    made = with_values(head, pattern, values, separator)
    unknown = [it["name"] for it in pattern.finditer(head) if it["name"] not in values]
    if writes:
        file.write_text(made + line + rest)
    elif made != head:
        differing = [new for old, new in zip(head.split("\n"), made.split("\n")) if old != new]
        yield from (f"{file.relative_to(ROOT)}: --write makes it {it.strip()}" for it in differing)
    yield from (f"{file.relative_to(ROOT)}: {it} is no number of the program" for it in unknown)


def missing_in_help(values: Values) -> Iterator[str]:
    """What the help of a command doesn't say."""
    texts = {it.name: it.help for it in help_texts.Help().commands}
    texts["capture"] = help_texts.capture_text()
    for command, said in HELP.items():
        if said.format(**values) not in texts[command]:
            yield f"the help of {command} doesn't say: {said.format(**values)}"
    keys = {**values["TOP_KEYS"], **values["CHANNEL_KEYS"]}
    defaults = {key: it.default for key, it in keys.items() if it and it.default is not None}
    shown = dict(re.findall(r"(?m)^  (\w+) = (\S+)", texts["record"]))
    if list(shown) != list(keys) or any(shown[key] != str(it) for key, it in defaults.items()):
        yield f"the help of record has not the keys {', '.join(keys)} with their defaults {defaults}"


def missing_in_facts(values: Values) -> Iterator[str]:
    """What the schema of the facts doesn't say."""
    file = FORMATS / "facts.schema.json"
    most = [2 ** values[it] - 1 for it in ("COUNTER_BITS", "COUNT_BITS")] + [values["MAX_TAI_OFFSET"]]
    marks = (f'"maxItems": {values["MAX_NOTED_MARKS"]}', f'"maxLength": {values["MAX_MARK_LEN"]}')
    for said in (f'{{0,{values["MAX_HOST_LEN"]}}}', *(f'"maximum": {it}' for it in most), *marks):
        if said not in file.read_text():
            yield f"{file.relative_to(ROOT)} doesn't say: {said}"


def main() -> int:
    parser = argparse.ArgumentParser(description=__doc__, formatter_class=argparse.RawDescriptionHelpFormatter)
    parser.add_argument("--write", action="store_true", help="writes the numbers")
    writes = parser.parse_args().write
    faults = [*compare(LIMITS, ASSIGNED, program_values(), "_", writes, "\n# ---- what follows")]
    values = runpy.run_path(str(LIMITS))
    faults += compare(PLUGIN, ASSIGNED, values, "", writes, "\n-- ---- what packets begin with")
    for page in sorted(FORMATS.glob("*.md")):
        faults += compare(page, MARKED, values, ",", writes)
    faults += [*missing_in_help(values), *missing_in_facts(values)]
    print("\n".join(faults) or "the numbers of host/, of the plugin, of docs/user/formats/ and of help are right")
    return 1 if faults else 0


if __name__ == "__main__":
    sys.exit(main())
