#!/usr/bin/env python3
"""Makes in bin/ what stands beside the program: the manual pages in man/, and bpfrec.lua.

The pages are made of the program's help, where it stands in the source, and of the tools' arguments, so nothing need be
built. The plugin for Wireshark is made of host/wireshark/parts/: Wireshark loads each file of its
folders of plugins by itself, so there is one.
"""
import argparse
import shutil
import sys

sys.dont_write_bytecode = True
from help_texts import ROOT, Help
from manual_page import pages

PARTS = ROOT / "host/wireshark/parts"
# In the order in which each uses those before it.
ORDER = ("bytes", "packets", "reader", "json", "facts", "clock", "rows", "filters", "protocol", "datagrams", "handlers")


def plugin() -> str:
    """The plugin for Wireshark, as one file."""
    if left := {it.stem for it in PARTS.glob("*.lua")} ^ set(ORDER):
        raise SystemExit(f"{PARTS.relative_to(ROOT)}: {min(left)} is no part, or is missing")
    parts = [(PARTS / f"{name}.lua").read_text() for name in ORDER]
    return "\n".join(["-- Made by dev/package/make_texts.py of host/wireshark/parts/, where it is changed.\n", *parts])


def texts() -> dict[str, str]:
    """What is made, by the paths in bin/."""
    made = {f"man/{name}": text for name, text in pages(Help()).items()}
    return {**made, "bpfrec.lua": plugin()}


def main() -> int:
    argparse.ArgumentParser(description=__doc__, formatter_class=argparse.RawDescriptionHelpFormatter).parse_args()
    made = texts()
    # A page of what is gone stays nowhere.
    shutil.rmtree(ROOT / "bin/man", ignore_errors=True)
    for path, text in made.items():
        (ROOT / "bin" / path).parent.mkdir(parents=True, exist_ok=True)
        (ROOT / "bin" / path).write_text(text)
    return 0


if __name__ == "__main__":
    sys.exit(main())
