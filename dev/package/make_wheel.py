#!/usr/bin/env python3
"""Makes bin/bpfrec-<version>-py3-none-any.whl, the Python package bpfrec for pip, and prints its path.

It has what is in host/bpfrec/, and needs no other package. The same sources make the same bytes.

Status: 0 made, 2 the arguments are wrong.
"""
import argparse
import base64
import hashlib
import sys
import zipfile
from pathlib import Path

sys.dont_write_bytecode = True
HOST, PACKAGE = Path(__file__).resolve().parents[2] / "host", "bpfrec"
sys.path.insert(0, str(HOST))
from bpfrec import __version__

BIN = HOST.parent / "bin"
NAME = f"{PACKAGE}-{__version__}"
METADATA = f"""\
Metadata-Version: 2.1
Name: {PACKAGE}
Version: {__version__}
Summary: Frames of bpfrec's recordings in Python
Requires-Python: >=3.9
"""
WHEEL = "Wheel-Version: 1.0\nGenerator: make_wheel\nRoot-Is-Purelib: true\nTag: py3-none-any\n"
# The earliest that an archive can have, and what may be done with its files.
TIME, MODE = (1980, 1, 1, 0, 0, 0), 0o644 << 16


def recorded(name: str, data: bytes) -> str:
    """The line of a file in the list of all."""
    digest = base64.urlsafe_b64encode(hashlib.sha256(data).digest()).rstrip(b"=").decode()
    return f"{name},sha256={digest},{len(data)}"


def contents() -> dict[str, bytes]:
    """The files of the wheel, by their paths in it."""
    paths = sorted([*(HOST / PACKAGE).rglob("*.py"), HOST / PACKAGE / "py.typed"])
    found = {str(it.relative_to(HOST)): it.read_bytes() for it in paths}
    found |= {f"{NAME}.dist-info/{name}": text.encode() for name, text in (("METADATA", METADATA), ("WHEEL", WHEEL))}
    listed = f"{NAME}.dist-info/RECORD"
    lines = [*(recorded(name, data) for name, data in found.items()), f"{listed},,"]
    return {**found, listed: "".join(f"{it}\n" for it in lines).encode()}


def main() -> int:
    argparse.ArgumentParser(description=__doc__, formatter_class=argparse.RawDescriptionHelpFormatter).parse_args()
    BIN.mkdir(exist_ok=True)
    made = BIN / f"{NAME}-py3-none-any.whl"
    with zipfile.ZipFile(made, "w", zipfile.ZIP_STORED) as into:
        for name, data in contents().items():
            info = zipfile.ZipInfo(name, TIME)
            info.create_system, info.external_attr = 3, MODE
            into.writestr(info, data)
    print(made.relative_to(HOST.parent))
    return 0


if __name__ == "__main__":
    sys.exit(main())
