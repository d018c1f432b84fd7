"""Tries the manual pages, install and uninstall, and the Debian packages.

The packages are unpacked into an empty folder and record there. Where DEBIAN_ROOT names a folder with a clean Debian,
as `debootstrap --variant=minbase bookworm FOLDER` makes one (as root), that of the program is installed there by dpkg,
records, and is removed.
"""

import os
import re
import shutil
import subprocess
import sys
from pathlib import Path

import pytest
from support import BPFREC, ROOT, judge, judge_quietly, outcome

sys.path.insert(0, str(ROOT / "dev/package"))
from typing import Any

import help_texts
from bpfrec_tools import VERSION, verbs

pytestmark = pytest.mark.wanted("bin/bpfrec", "man", "mandoc", "dpkg-deb", "tshark")
PAGES = sorted((ROOT / "bin/man").glob("*.1"))
SETTINGS = '[[channel]]\nid = 1\nfeed = "one.feed"\nfilter = "all"\n'
FACTS = '{"facts": 1, "host": "fc1", "origins": [{"origin": "1764590400.250000000", "counter": 0}], "losses": []}'
PREFIX = "/opt/bpfrec"
PATIENCE = 120
YES = "channel 1 programs 1 frames 60 offered 60\nyes other 0\n"


def ran(*words: object, **more: Any) -> tuple[int, str]:
    """The status of a run, and what it printed on both streams."""
    streams = {"stdout": subprocess.PIPE, "stderr": subprocess.STDOUT}
    done = outcome(*words, **{**streams, "seconds": PATIENCE, **more})
    return done.returncode, done.stdout


# ---- the page


def test_pages_are_made_of_the_printed_help() -> None:
    done = ran(ROOT / "dev/checks/page.py", BPFREC)
    judge("the pages are of the program's help, which it prints", done[0] == 0, done)


def test_mandoc_finds_nothing_in_the_pages() -> None:
    done = ran("mandoc", "-Tlint", *PAGES)
    judge("mandoc -Tlint finds nothing", done == (0, ""), done)


def shown(page: Path) -> str:
    """What man shows of a page, without a warning."""
    env = {**os.environ, "LC_ALL": "C.UTF-8", "MANWIDTH": "80"}
    done = outcome("man", "--warnings", "-l", page, env=env)
    judge_quietly(f"man -l {page}", (done.returncode, done.stderr) == (0, ""), done.stderr)
    return done.stdout


def test_man_shows_each_verb_and_the_formats() -> None:
    text = shown(ROOT / "bin/man/bpfrec.1")
    wanted = [*verbs.VERBS, "DataChecksum", "16,424 to 524,284", "refused 8 Unset"]
    lacking = [it for it in wanted if it not in text]
    judge("bpfrec(1) has each verb, and the tables of the formats", not lacking, lacking)
    for verb, printed in {"audit": "no 3 NotAccepted", "record": "SourceEnd"}.items():
        judge(f"bpfrec-{verb}(1) has its help", printed in shown(ROOT / f"bin/man/bpfrec-{verb}.1"))
    judge("each verb has a page", {it.name for it in PAGES} == {"bpfrec.1", *(f"bpfrec-{it}.1" for it in verbs.VERBS)})


def test_the_page_of_a_tool_has_all_its_options() -> None:
    for name, parser in help_texts.parsers().items():
        text = shown(ROOT / f"bin/man/bpfrec-{name}.1")
        options = [option for action in parser._actions for option in action.option_strings]
        lacking = [it for it in options if it not in text]
        judge(f"bpfrec-{name}(1)", not lacking and f"bpfrec {name} " in text and "EXAMPLE" in text, lacking)


# ---- what is installed


def record_in(folder: Path, programs: object, *before: object) -> tuple[int, str]:
    """Records by the installed programs, in that folder: the audit's answer."""
    (folder / "all").write_text("1,6 0 0 1,")
    (folder / "s.toml").write_text(SETTINGS)
    shutil.copy(ROOT / "examples/feeds/one.feed", folder / "one.feed")
    words = [*before, f"{programs}/bpfrec", "record", "s.toml", "one.ch11"]
    status, told = ran(*words, cwd=folder, stdin=subprocess.DEVNULL)
    judge("it records", status == 0 and told.startswith("channel 1 versions 1 offered 60 kept 60 SourceEnd\n"), told)
    return ran(*before, f"{programs}/bpfrec", "audit", "one.ch11", cwd=folder)


def judge_tools(folder: Path, programs: Path) -> None:
    """The tools as they are installed, which find the program that is."""
    env = {it: value for it, value in os.environ.items() if it not in ("BPFREC", "CAPTURE")}

    def by(tool: str, *words: object) -> tuple[int, str]:
        return ran(programs / "bpfrec", tool, *words, cwd=folder, env=env)

    told = by("info", "one.ch11")[1]
    judge("info finds the program", "audit                      yes other 0" in told, told)
    judge("salvage", by("salvage", "one.ch11", "kept.ch11")[1].endswith("lost 0 bytes at 0 places\n"))
    (folder / "one.ch11.json").write_text(FACTS)
    setup = by("export", "--print-setup", "one.ch11")
    judge("export finds what reads facts", setup[0] == 0 and 'host = "fc1"\n' in setup[1], setup)
    told = by("info", "one.ch11")[1]
    judge("info too", "  first time                 2025-12-01T12:00:00.2500000Z\n" in told, told)
    (folder / "one.ch11.json").write_text("")
    told = by("info", "one.ch11")[1]
    judge("and names itself", "bpfrec info: one.ch11.json: no facts of a recording: " in told, told)
    judge("preflight finds the program", by("preflight", "s.toml")[1].endswith("0 faults\n"))
    wanted = folder / "none.toml"
    judge("live finds the program", by("live", wanted, "out") == (3, f"bpfrec live: {wanted}: no such file\n"))


def judge_plugin(root: Path) -> None:
    """Wireshark's folder of plugins has the one for recordings, and tshark that is given it opens one."""
    found = list(root.rglob("wireshark/plugins/bpfrec.lua"))
    judge("the plugin stands where Wireshark looks", len(found) == 1, found)
    told = ran("tshark", "-G", "folders")[1]
    judge("in the folder that it names", f"\t{found[0].parent}\n".replace(str(root), "") in told, told)
    is_same = found[0].read_bytes() == (ROOT / "bin/bpfrec.lua").read_bytes()
    holds = is_same and found[0].is_symlink()
    judge("it is the plugin of this checkout, and a link that holds when it is moved", holds)


def judge_names(programs: Path) -> None:
    """Each verb says what it takes, the list of all has it, and each has the version."""
    listed = ran(programs / "bpfrec", "--help")[1]
    for name in verbs.VERBS:
        for words in ([name, "--help"], ["help", name]):
            status, told = ran(programs / "bpfrec", *words)
            judge_quietly(f"bpfrec {words}", status == 0 and "usage: " in told.lower() and f" {name} " in listed, told)
        version = ran(programs / "bpfrec", name, "--version")
        is_said = version[0] == 0 and version[1].endswith(f" {VERSION}\n")
        judge(f"bpfrec {name} --version", is_said or verbs.VERBS[name].is_proved, version)
    judge("the command's version", ran(programs / "bpfrec", "--version") == (0, f"bpfrec {VERSION}\n"))
    judge("one command is there", [it.name for it in programs.iterdir()] == ["bpfrec"])


def made(target: str, dest: Path) -> None:
    words = [f"PREFIX={PREFIX}", f"DESTDIR={dest}"]
    status, told = ran("make", "-s", "-C", ROOT, target, *words)
    judge(f"make {target}", status == 0, told)


def files_in(folder: Path) -> list[Path]:
    return [it for it in folder.rglob("*") if not it.is_dir() or it.is_symlink()]


def test_what_is_installed_records_and_leaves_nothing_beside(work: Path) -> None:
    dest, field = work / "dest", work / "field"
    made("install", dest)
    programs = Path(f"{dest}{PREFIX}/bin")
    field.mkdir()
    answer = record_in(field, programs)
    judge("the audit says yes", answer == (0, YES), answer)
    judge_tools(field, programs)
    judge_names(programs)
    judge_plugin(dest)
    for name in ("bpfrec", "bpfrec-info", "bpfrec-audit"):
        status, found = ran("man", "-M", f"{dest}{PREFIX}/share/man", "-w", name)
        judge(f"man finds {name}", status == 0 and f"{dest}{PREFIX}/share/man/man1/bpfrec" in found, found)
    unit = Path(f"{dest}{PREFIX}/lib/systemd/system/bpfrec.service").read_text()
    judge("the unit runs what is installed", f"{PREFIX}/bin/bpfrec live" in unit and "/opt/bpfrec/host" not in unit)
    holds = all(it.exists() for it in files_in(dest)) and not list(dest.rglob("__pycache__"))
    judge("no link leads nowhere, and nothing is left beside", holds)


def installed_in(dest: Path) -> dict[str, tuple]:
    """All that is installed: its mode, and its bytes or where it leads."""
    found: dict[str, tuple] = {}
    for path in dest.rglob("*"):
        what = os.readlink(path) if path.is_symlink() else path.read_bytes() if path.is_file() else "folder"
        found[str(path.relative_to(dest))] = (oct(path.lstat().st_mode & 0o7777), what)
    return found


def test_what_is_installed_may_be_read_by_all_whatever_the_umask(work: Path) -> None:
    """Whatever the umask, all may be read by all, and programs alone be run; each verb has its page; and a second
    installation, over one with another umask, makes the same."""
    dest, before = work / "dest", os.umask(0o077)
    try:
        made("install", dest)
    finally:
        os.umask(before)
    first = installed_in(dest)
    programs = ("bin/", "libexec/bpfrec/")
    for name, (mode, what) in first.items():
        is_program = name.startswith(tuple(f"{PREFIX[1:]}/{it}" for it in programs))
        wanted = "0o755" if what == "folder" or is_program else "0o644"
        holds = mode == ("0o777" if isinstance(what, str) and what != "folder" else wanted)
        judge_quietly(f"{name} has the mode {wanted}: {mode}", holds)
    pages = {it.name for it in Path(f"{dest}{PREFIX}/share/man/man1").iterdir()}
    judge("each verb has its page", pages == {it.name for it in PAGES}, pages)
    made("install", dest)
    again = installed_in(dest)
    judge("a second installation makes the same", again == first, {it for it in again if again[it] != first.get(it)})


def test_uninstall_leaves_what_is_anothers_alone(work: Path) -> None:
    """After two installs nothing is left but what is another's."""
    dest = work / "dest"
    top = Path(f"{dest}{PREFIX}")
    made("install", dest)
    (top / "libexec/bpfrec/other").write_text("another's")
    made("install", dest)
    made("uninstall", dest)
    judge("nothing is left but what is another's", files_in(dest) == [top / "libexec/bpfrec/other"], files_in(dest))
    judge("and no folder of its own", not (top / "share/doc/bpfrec").exists())


def test_a_program_without_its_proof_is_not_installed(work: Path) -> None:
    top = work / "unproved"
    (top / "dev/package").mkdir(parents=True)
    (top / "bin").mkdir()
    shutil.copy(ROOT / "dev/package/install.sh", top / "dev/package")
    shutil.copy("/bin/true", top / "bin/bpfrec")
    status, told = ran(top / "dev/package/install.sh", env={**os.environ, "DESTDIR": str(top / "dest")})
    holds = status == 3 and "wasn't built from its proof" in told and not (top / "dest").exists()
    judge("a program that isn't proved is refused", holds, told)


# ---- the packages


def made_packages() -> dict[str, Path]:
    """The packages that `make deb` makes, by their names."""
    status, told = ran("make", "-s", "-C", ROOT, "deb")
    found = {it.name.split("_")[0]: it for it in map(ROOT.joinpath, told.split())}
    judge_quietly("make deb", status == 0 and list(found) == ["bpfrec", "bpfrec-tools", "python3-bpfrec"], told)
    return found


@pytest.fixture(scope="module")
def packages() -> dict[str, Path]:
    return made_packages()


@pytest.fixture(scope="module")
def unpacked(packages: dict[str, Path], place: Path) -> Path:
    """A folder into which all are unpacked."""
    for package in packages.values():
        done = ran("dpkg-deb", "-x", package, place / "root")
        judge_quietly(f"{package.name} unpacks into an empty folder", done[0] == 0, done)
    return place / "root"


def paths_in(package: Path) -> set[str]:
    """The paths of all that a package has but folders."""
    rows = ran("dpkg-deb", "-c", package)[1].splitlines()
    return {it.split()[5] for it in rows if not it.startswith("d")}


def test_what_is_unpacked_from_a_package_records(work: Path, unpacked: Path) -> None:
    judge("it records", record_in(work, unpacked / "usr/bin")[1].endswith("yes other 0\n"))
    judge_tools(work, unpacked / "usr/bin")
    judge_names(unpacked / "usr/bin")
    judge_plugin(unpacked)


def test_the_package_of_the_program_needs_the_c_library_alone(work: Path, packages: dict[str, Path]) -> None:
    depends = ran("dpkg-deb", "-f", packages["bpfrec"], "Depends", "Recommends")[1]
    judge("its field", re.fullmatch(r"Depends: libc6 \(>= 2\.\d+\)\n", depends), depends)
    ran("dpkg-deb", "-x", packages["bpfrec"], work / "root")
    programs = [it for it in files_in(work / "root") if os.access(it, os.X_OK) and not it.is_symlink()]
    wanted = {work / "root/usr/bin/bpfrec", work / "root/usr/libexec/bpfrec/bpfrec"}
    judge("the command and the program are in it", set(programs) == wanted, programs)
    judge("which records", record_in(work, work / "root/usr/bin")[1].endswith("yes other 0\n"))


def test_the_package_of_the_tools_depends_on_what_they_need(packages: dict[str, Path]) -> None:
    depends = ran("dpkg-deb", "-f", packages["bpfrec-tools"], "Depends")[1].replace("\n", "")
    version = ran("dpkg-deb", "-f", packages["bpfrec"], "Version")[1].strip()
    for name in (f"bpfrec (= {version})", "python3 (>= 3.9)", "python3 (>= 3.11) | python3-tomli", "libpcap0.8"):
        judge(f"on {name}", name in depends.split(", "), depends)


def test_no_path_is_in_two_packages(packages: dict[str, Path]) -> None:
    found = [path for it in packages.values() for path in paths_in(it)]
    twice = {it for it in found if found.count(it) > 1}
    judge("none is", all(map(paths_in, packages.values())) and not twice, twice)


def test_packages_have_documents_maintainer_and_copyright(packages: dict[str, Path]) -> None:
    for name, package in packages.items():
        fields, paths = ran("dpkg-deb", "-f", package, "Maintainer")[1], paths_in(package)
        judge("it has a maintainer", re.fullmatch(r".+ <\S+@\S+>\n", fields) and "root@" not in fields, fields)
        lacking = {f"./usr/share/doc/{name}/{it}" for it in ("copyright", "changelog.gz")} - paths
        judge(f"{name} has a copyright file and a changelog", not lacking, lacking)
    documents = {f"./usr/share/doc/bpfrec/{it}" for it in ("README.md", "USING.md", "CHANGELOG.md", "GLOSSARY.md")}
    judge("and the documents", documents <= paths_in(packages["bpfrec"]))


@pytest.mark.parametrize("mask", [0o077, 0o002])
def test_the_callers_umask_is_in_no_package(packages: dict[str, Path], mask: int) -> None:
    """The same sources and programs make the same bytes, whatever modes the caller's files get."""
    whole, before = [it.read_bytes() for it in packages.values()], os.umask(mask)
    try:
        again = [it.read_bytes() for it in made_packages().values()]
    finally:
        os.umask(before)
    judge("the same bytes", again == whole)


def test_lintian_finds_no_error(packages: dict[str, Path]) -> None:
    if not shutil.which("lintian"):
        pytest.skip("left out: lintian is missing: apt-get install lintian")
    for package in packages.values():
        status, told = ran("lintian", "--fail-on", "error", package)
        judge(f"lintian finds no error in {package.name}", status == 0, told)


def test_installed_tools_run_nothing_that_the_environment_names(work: Path, unpacked: Path) -> None:
    tools = unpacked / "usr/libexec/bpfrec/tool"
    judge("by its first line", tools.read_bytes().startswith(b"#!/usr/bin/python3 -I\n"), tools.read_bytes()[:40])
    (work / "json.py").write_text("raise SystemExit(77)")
    env = {**os.environ, "PYTHONPATH": str(work)}
    status, told = ran(unpacked / "usr/bin/bpfrec", "info", "--help", env=env, cwd=work)
    judge("and a module of the environment isn't taken", status == 0, told)


def test_the_unit_records_by_settings_that_are_installed(unpacked: Path) -> None:
    unit = (unpacked / "usr/lib/systemd/system/bpfrec.service").read_text()
    judge("it runs what is installed", "ExecStart=/usr/bin/bpfrec live " in unit and "host/bin" not in unit, unit)
    judge("the page is for this machine alone", "IPAddressAllow=localhost\nIPAddressDeny=any\n" in unit, unit)
    judge("and a part of the disk stays free", re.search(r" --every \d+ --keep-free 10G ", unit), unit)
    named = re.findall(r"\S+/wire.toml", unit)
    judge("its comments name an example", "/usr/share/doc/bpfrec/examples/wire.toml" in named, named)
    example = (unpacked / "usr/share/doc/bpfrec/examples/wire.toml").read_text()
    listings = re.findall(r'^filter = "/(.*)"$', example, re.M)
    judge("whose listings are there", len(listings) == 2 and all((unpacked / it).is_file() for it in listings), example)


def installed_words(text: str) -> list[str]:
    """What a document names that stands in the source tree alone."""
    found = re.findall(
        r"(?<![\w/.-])(?:host|dev|crates|bench|capture|docs|man)/[\w./]+|\bmake (?:build|try|capture)\b", text
    )
    return found + re.findall(r"(?<![\w/])bin/(?:bpfrec|capture)\b(?![-.\w])", text)


def test_installed_documents_name_what_is_installed(unpacked: Path) -> None:
    documents = unpacked / "usr/share/doc/bpfrec"
    pages = set(documents.rglob("*.md")) - {documents / "CHANGELOG.md", documents / "examples/README.md"}
    for page in pages:
        links = re.findall(r"\]\(([^)#:]+)(?:#[^)]*)?\)", page.read_text())
        missing = [it for it in links if not (page.parent / it).exists()]
        judge_quietly(f"the links of {page.name} lead somewhere", missing == [], missing)
    whole = "\n".join(it.read_text() for it in pages)
    others = installed_words(whole)
    judge(f"{len(pages)} pages name installed commands", others == [] and "bpfrec live" in whole, others)
    bare = re.findall(r"^sudo .*(?<!/)capture\b.*", whole, re.M)
    judge("the permission is given to the file, not to a name", bare == [], bare)
    files = set(re.findall(r"(?<![\w/.-])examples/[\w./]*\w|(?<![\w/.-])[A-Z]+\.md", whole))
    # The last is misspelled, and refused.
    missing = [it for it in files - {"examples/apr.txt"} if not (documents / it).exists()]
    judge("and files that are there", missing == [] and "examples/feeds.toml" in files, missing)
    programs = set(re.findall(r"(?<!\w)/usr/(?:lib|libexec|share)/[\w./-]*\w", whole))
    missing = [it for it in programs if not (unpacked / it[1:]).exists()]
    judge("also where paths are whole", missing == [] and programs, missing)


def test_dpkg_installs_and_removes_it_on_a_clean_machine(request: pytest.FixtureRequest) -> None:
    if not os.environ.get("DEBIAN_ROOT"):
        pytest.skip("an installation by dpkg needs a clean Debian in DEBIAN_ROOT")
    root, package = Path(os.environ["DEBIAN_ROOT"]), request.getfixturevalue("packages")["bpfrec"]
    inside = root / "root/field"
    inside.mkdir(exist_ok=True)
    shutil.copy(package, root / "root/bpfrec.deb")
    status, told = ran("chroot", root, "dpkg", "-i", "/root/bpfrec.deb")
    judge("dpkg installs it on a clean machine", status == 0, told)
    there = ["chroot", root, "sh", "-c", 'cd /root/field && exec "$@"', "sh"]
    answer = record_in(inside, "/usr/bin", *there)
    judge("and it records there", answer == (0, YES), answer)
    judge(
        "dpkg removes it",
        ran("chroot", root, "dpkg", "-P", "bpfrec")[0] == 0
        and not (root / "usr/bin/bpfrec").exists()
        and not (root / "usr/share/doc/bpfrec").exists(),
    )
