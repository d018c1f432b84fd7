#!/usr/bin/env python3
"""Makes one file of the Python tools, which are the packages below host/: `FILE info` runs the tool info, and so on.

FILE is an archive that Python runs. Beside each module it has what this Python compiles of it, which another version
passes over. The same sources make the same bytes: the files stand by their names, and have one time.

Status: 0 made, 2 the arguments are wrong.
"""
import argparse
import io
import py_compile
import sys
import tempfile
import zipapp
import zipfile
from pathlib import Path

HOST = Path(__file__).resolve().parents[2] / "host"
PACKAGES = ("bpfrec", "bpfrec_tools", "second")
# No modules of the caller's folder, and none that the environment names.
INTERPRETER = "/usr/bin/python3 -I"
MAIN = """import sys

if sys.version_info < (3, 9):
    sys.stderr.write("bpfrec: the tools need Python 3.9 or later, and this is %d.%d\\n" % sys.version_info[:2])
    sys.exit(2)
from bpfrec_tools.__main__ import main

sys.exit(main())
"""
# Of the packages: their modules, and the page that they serve.
SUFFIXES = (".py", ".html")
# The earliest that an archive can have, and what may be done with its files.
TIME, MODE = (1980, 1, 1, 0, 0, 0), 0o644 << 16


def compiled(source: bytes, name: str) -> bytes:
    """What Python compiles of a module, which it takes without a look at the source."""
    with tempfile.TemporaryDirectory() as folder:
        module, made = Path(folder) / "module.py", Path(folder) / "module.pyc"
        module.write_bytes(source)
        unchecked = py_compile.PycInvalidationMode.UNCHECKED_HASH
        py_compile.compile(str(module), str(made), name, doraise=True, invalidation_mode=unchecked)
        return made.read_bytes()


def archive() -> io.BytesIO:
    """The archive of the packages and of what calls them."""
    parts = [it for name in PACKAGES for it in (HOST / name).rglob("*") if it.suffix in SUFFIXES]
    files = {f"{it.relative_to(HOST)}": it.read_bytes() for it in parts}
    files |= {f"{name}c": compiled(text, name) for name, text in files.items() if name.endswith(".py")}
    made = io.BytesIO()
    # Not compressed, so that no version of a library is in its bytes.
    with zipfile.ZipFile(made, "w", zipfile.ZIP_STORED) as into:
        for name, text in sorted({**files, "__main__.py": MAIN.encode()}.items()):
            info = zipfile.ZipInfo(name, TIME)
            info.create_system, info.external_attr = 3, MODE
            into.writestr(info, text)
    made.seek(0)
    return made


def main() -> int:
    parser = argparse.ArgumentParser(description=__doc__, formatter_class=argparse.RawDescriptionHelpFormatter)
    parser.add_argument("file", metavar="FILE")
    zipapp.create_archive(archive(), parser.parse_args().file, INTERPRETER)
    return 0


if __name__ == "__main__":
    sys.exit(main())
