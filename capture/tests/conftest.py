"""The capture's units, compiled once for all tests."""

from collections.abc import Iterator
from pathlib import Path

import pytest
from c_units import Script, Units
from support import missing


@pytest.fixture(scope="session")
def units(tmp_path_factory: pytest.TempPathFactory) -> Units:
    if lacking := missing(("gcc", "pcap-config")):
        pytest.skip(f"it needs {lacking[0]}")
    return Units(tmp_path_factory.mktemp("units"))


@pytest.fixture
def unit(request: pytest.FixtureRequest, units: Units, tmp_path: Path) -> Iterator[Script]:
    """The program of a test file's class Unit, as it begins."""
    script: Script = request.module.Unit(tmp_path, units)
    yield script
    assert script.ended()[0] == 0
