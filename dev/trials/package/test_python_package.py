"""Tries the Python package as it is installed, by `make install` and by the Debian package python3-bpfrec."""

import os
import shutil
import subprocess
from pathlib import Path

import pytest
from pythons import PROMISED, interpreter
from recorder import RECORDINGS
from support import ROOT, judge, judge_quietly, outcome

pytestmark = pytest.mark.wanted("bin/bpfrec", "dpkg-deb")
NAME = "python3-bpfrec"
FOLDER = "usr/lib/python3/dist-packages"
PATIENCE = 120
# Nothing but the folder and the standard library is looked into.
READ = """
import sys
sys.path[:0] = [sys.argv[1]]
import bpfrec
assert bpfrec.__file__.startswith(sys.argv[1])
for frame in bpfrec.open(sys.argv[2]):
    print(frame.channel, frame.counter, len(frame.bytes), frame.fcs_wrong)
"""
# All modules that are installed can be imported, so none is missing that one of them needs.
IMPORT_ALL = """
import importlib, pkgutil, sys
sys.path[:0] = [sys.argv[1]]
names = [it.name for it in pkgutil.walk_packages([f"{sys.argv[1]}/bpfrec"], "bpfrec.")]
for name in names:
    importlib.import_module(name)
    assert sys.modules[name].__file__.startswith(sys.argv[1])
print(len(names))
"""


def made(target: str, **words: object) -> str:
    """What a target of make prints."""
    given = [f"{name}={value}" for name, value in words.items()]
    done = outcome("make", "-s", "-C", ROOT, target, *given, seconds=PATIENCE)
    judge_quietly(f"make {target}", done.returncode == 0, done)
    return done.stdout


@pytest.fixture(scope="module")
def package() -> Path:
    return ROOT / next(it for it in made("deb").splitlines() if f"/{NAME}_" in it)


@pytest.fixture(scope="module")
def unpacked(package: Path, place: Path) -> Path:
    """The folder of Python's packages, of the Debian package that is unpacked."""
    done = outcome("dpkg-deb", "-x", package, place / "root")
    judge_quietly("it unpacks", done.returncode == 0, done)
    return place / "root" / FOLDER


def printed(python: str, text: str, *words: object) -> str:
    found = interpreter(python)
    if found is None:
        pytest.skip(f"{python} isn't here")
    done = outcome(found, "-I", "-B", "-W", "error", "-c", text, *words, seconds=PATIENCE)
    judge_quietly(f"it ends well on {python}", (done.returncode, done.stderr) == (0, ""), done)
    return done.stdout


@pytest.mark.parametrize("python", PROMISED)
def test_the_unpacked_package_reads_a_recording(unpacked: Path, python: str) -> None:
    told = printed(python, READ, unpacked, RECORDINGS / "two_versions_checked.ch11")
    judge("its frame", told == "1 32 18 False\n", told)
    judge("and has all modules that it needs", int(printed(python, IMPORT_ALL, unpacked)) > 30)


def test_the_package_needs_python_alone(package: Path) -> None:
    fields = outcome("dpkg-deb", "-f", package, "Depends", "Recommends", "Architecture").stdout
    judge("by its fields", fields == "Depends: python3 (>= 3.9)\nArchitecture: all\n", fields)


def test_the_package_has_its_types_and_nothing_of_the_tools(unpacked: Path) -> None:
    judge("types are marked", (unpacked / "bpfrec/py.typed").exists())
    judge("nothing else is in it", [it.name for it in unpacked.iterdir()] == ["bpfrec"], [*unpacked.iterdir()])
    judge("nothing is compiled", not list(unpacked.rglob("__pycache__")))


def test_what_dpkg_runs_ends_well_without_debians_compilers(package: Path, work: Path) -> None:
    """As where python3-minimal is removed with it."""
    outcome("dpkg-deb", "-e", package, work / "control")
    for name, word in (("postinst", "configure"), ("prerm", "remove")):
        done = outcome("/bin/sh", work / "control" / name, word, env={"PATH": "/nowhere"})
        judge(name, (done.returncode, done.stderr) == (0, ""), done)


def test_make_install_puts_it_where_python_looks(work: Path) -> None:
    """Below /usr/local and /usr; elsewhere into lib/python3, which PYTHONPATH names then."""
    text = "import site; print(*site.getsitepackages())"
    looked = subprocess.run(
        ["/usr/bin/python3", "-I", "-c", text], text=True, stdout=subprocess.PIPE, check=True
    ).stdout
    for prefix in ("/usr/local", "/usr", "/opt/bpfrec"):
        dest = work / prefix.replace("/", "_")
        made("install", PREFIX=prefix, DESTDIR=dest)
        (found,) = [it for it in dest.rglob("bpfrec/values.py")]
        folder = f"/{found.parents[1].relative_to(dest)}"
        is_right = (
            folder in looked.split() if prefix.startswith("/usr") else folder == f"{prefix}/lib/python3/dist-packages"
        )
        judge(f"{folder} below {prefix}", is_right, looked)
        told = printed("python3.11", READ, found.parents[1], RECORDINGS / "two_versions_checked.ch11")
        judge_quietly("it reads a recording", told == "1 32 18 False\n", told)


def test_uninstall_removes_what_python_compiled(work: Path) -> None:
    """And a module that an older installation had goes with the next one."""
    dest, folder = work / "dest", work / "dest/opt/bpfrec/lib/python3/dist-packages"
    made("install", PREFIX="/opt/bpfrec", DESTDIR=dest)
    (folder / "bpfrec/_old.py").write_text("")
    shutil.copytree(folder / "bpfrec", folder / "anothers")
    made("install", PREFIX="/opt/bpfrec", DESTDIR=dest)
    judge("an old module is removed", not (folder / "bpfrec/_old.py").exists())
    env = {it: value for it, value in os.environ.items() if it != "PYTHONDONTWRITEBYTECODE"}
    outcome("/usr/bin/python3", "-c", f"import sys; sys.path[:0] = ['{folder}']; import bpfrec", env=env)
    judge("Python compiled it", list(folder.rglob("bpfrec/__pycache__")))
    made("uninstall", PREFIX="/opt/bpfrec", DESTDIR=dest)
    judge("another's package is left alone", [it.name for it in folder.iterdir()] == ["anothers"])
