"""Tries dev/package/copyright, which names what is linked into the programs of the packages."""

import re

import pytest
from support import ROOT, judge, run

pytestmark = pytest.mark.wanted("bin/bpfrec", "bin/capture")


def test_each_linked_library_is_named_with_its_licence() -> None:
    text = (ROOT / "dev/package/copyright").read_text()
    for name in set(re.findall(r"^\s*lib(pcap|deflate|z|seccomp)\.", run("ldd", ROOT / "bin/capture"), re.M)):
        known = "zlib" if name == "z" else f"lib{name}"
        judge(f"the licence of {known} is named", re.search(rf"\b{known}\s+\([-\w.]+\)", text), text)


def test_each_crate_that_is_linked_into_the_program_is_named() -> None:
    """Those of the toolchain that the program stands on, with whose they are."""
    rows = [it.split(":") for it in (ROOT / "crates.txt").read_text().splitlines() if not it.startswith("#")]
    own = {name.split()[0]: used.split() for name, used in rows}
    reached, left = set(), ["bpfrec"]
    while left:
        name = left.pop()
        left += own.get(name, []) if name not in reached else []
        reached.add(name)
    shipped = reached - set(own)
    paragraph = (ROOT / "dev/package/copyright").read_text().split("Files: usr/bin/bpfrec")[1].split("\n\n")[0]
    lacking = {it for it in shipped if len(re.findall(rf"\b{it}\b", paragraph)) < 2}
    judge(f"{len(shipped)} crates are named twice", shipped and not lacking, lacking)
