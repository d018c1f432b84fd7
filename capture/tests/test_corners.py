"""The corners of captures (dev/trials/lib/corners.py), by the readers in C."""

from pathlib import Path

import pytest
from c_units import Script
from corners import CAPTURES, CLASSIC, Read
from pcapng import section


class Unit(Script):
    """The reader in C."""

    PROGRAM = "pcapng_blocks"

    def read(self, path: Path) -> tuple[list[Read], str]:
        frames, fault = self.ask("file", path, -1).split(";", 1)
        return [read_of(it) for it in frames.split(",") if it], fault


def read_of(text: str) -> Read:
    counter, whole, has_check_sequence, marks, data = text.split(" ")
    moment = None if counter == "-" else int(counter)
    return Read(moment, bytes.fromhex(data), whole == "1", has_check_sequence == "1", int(marks))


@pytest.mark.parametrize("order", ["<", ">"], ids=["little", "big"])
@pytest.mark.parametrize("name", CAPTURES)
def test_corners_of_captures_are_read(unit: Unit, name: str, order: str) -> None:
    corner, path = CAPTURES[name], unit.path
    path.write_bytes(section(order) + b"".join(corner.blocks(order)))
    assert unit.read(path) == (corner.frames, corner.fault)


@pytest.mark.parametrize("order", ["<", ">"], ids=["little", "big"])
@pytest.mark.parametrize("name", CLASSIC)
def test_corners_of_classic_captures_are_read(unit: Unit, name: str, order: str) -> None:
    corner, path = CLASSIC[name], unit.path
    path.write_bytes(corner.bytes(order))
    assert unit.read(path) == (corner.frames, corner.fault)
