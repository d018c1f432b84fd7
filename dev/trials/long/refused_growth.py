#!/usr/bin/env python3
"""Refuses each growth of memory of the built program, and of tests of calls that no command makes, in
turn, and checks what they do then.

Each command runs on each sample of crates/test_cases/data, and on words that are no command, first
as it is and then with its 1st, 2nd, .. growth refused, by a malloc that is preloaded
(dev/trials/lib/failing_malloc.c). A run with a refused growth must end in one of two ways: with nothing on
standard output, `memory` on standard error, status 4 and no feed, or with the very answer of the run as
it is. A recording may also go on to its end, where the growth was one for a line of standard input: then
it prints its lines, and `memory` after the answers. A script may have answered its first events, and a
recording that is read twice may have been listed, extracted or upgraded in part, and one exported in part.

The tests make a call that lacked memory again, and assert that it is answered then as ever. Each must pass
with its 1st, 2nd, .. growth refused, or end before its calls because what it needs itself lacked memory. The
status is 1 where a run or a test does something else.
"""
import argparse
import os
import subprocess
import sys
import tempfile
from pathlib import Path

sys.path.insert(0, str(Path(__file__).resolve().parents[1] / "lib"))
from support import BPFREC, LIBRARY, ROOT, present, shared_library

DATA = ROOT / "crates/test_cases/data"
VIEW = "ffffffffffff0200000000010806"
FEED = "feed"
# The words and the standard input of a run.
Sample = tuple[list[str], bytes]
# The status, standard output and standard error of a run, and the bytes of its feed; None where there is none.
Outcome = tuple[int, bytes, bytes, bytes | None]
MEMORY = (4, b"", b"memory\n", None)
MOST_GROWTHS = 20_000
# the tests of each crate
TESTS = {
    "test_recorder": [
        "lane::each_frame_gives_the_pieces_that_are_certain",
        "lane::versions_end_packets_and_counters_may_fall",
        "world::an_event_without_memory_is_done_again",
    ],
    "test_reader": ["reader::a_call_without_memory_is_made_again"],
}
# how a test ends that lacks memory for what it makes beside its calls
LACKED = ("AllocError", "AllocFailed { .. }", "Memory", "OutOfMemory")
CHANGES = b"set 1 records/keeps\nset 9 records/keeps\nset 1 nowhere\nset 1 wrong_count\nx\n"


def samples() -> list[Sample]:
    runs: list[Sample] = [([], (ROOT / "crates/bpfrec/stdin").read_bytes()), ([], b"1,6 0 0 0,\nxy\n"), ([], b"")]
    texts = sorted(DATA.glob("filters/*.bpf")) + sorted(DATA.glob("texts/*.bpf"))
    runs += [(["asm", str(text)], b"") for text in texts]
    listings = sorted(path for path in DATA.iterdir() if path.is_file())
    for listing in listings:
        runs += [([command, str(listing)], b"") for command in ("dis", "verify")]
        runs.append((["run", str(listing), VIEW], b""))
    arp = str(DATA / "arp")
    runs += [(["run", arp, view], b"") for view in ("", "f", "0g")]
    runs += [(words, b"") for words in (["--help"], ["help", "asm"], ["asm", "--help"], ["asm"], ["nothing"])]
    runs += [(words, b"") for words in (["--version"], ["version"])]
    for recording in sorted(DATA.glob("recordings/*.ch11")):
        runs += [([command, str(recording)], b"") for command in ("list", "audit")]
        runs += [(["extract", str(recording), channel, FEED], b"") for channel in ("1", "7", "x")]
        runs += [(["upgrade", str(recording), FEED], b""), (["export", str(recording), FEED, "1"], b"")]
        runs.append((["chapter11", str(recording), str(DATA / "setups/names.toml"), FEED], b""))
    runs += [(["simulate", str(script)], b"") for script in sorted(DATA.glob("scripts/*.script"))]
    for settings in sorted(DATA.glob("records/*.toml")):
        if settings.name == "endings.toml":
            continue  # its packets come in another order each time
        runs.append((["record", str(settings), FEED], CHANGES if settings.name == "none.toml" else b""))
    # an output that is an input
    runs.append((["record", str(DATA / "records/two.toml"), "records/two.toml"], b""))
    two = str(DATA / "recordings/two_versions.ch11")
    runs += [(["extract", two, "1", two], b""), (["upgrade", two, two], b""), (["export", two, two], b"")]
    runs += [(["export", two, "-"], b""), (["export", two, FEED, "x"], b"")]
    return runs + [(["verify", str(DATA / "nowhere")], b""), (["asm", str(DATA)], b"")]


def outcome(program: str, words: list[str], text: bytes, library: str, refused: int, count: str) -> Outcome:
    """How a run ends whose growth `refused` fails."""
    env = {"LD_PRELOAD": library, "REFUSED_GROWTH": str(refused), "GROWTHS": count}
    feed = Path(count).parent / FEED
    feed.unlink(missing_ok=True)
    # paths in settings begin in the folder of the samples
    records = feed.parent / "records"
    if not records.exists():
        records.symlink_to(DATA / "records")
    ran = subprocess.run([program, *words], input=text, capture_output=True, env=env, timeout=60, cwd=feed.parent)
    return ran.returncode, ran.stdout, ran.stderr, feed.read_bytes() if feed.exists() else None


def is_recorded(words: list[str], got: Outcome, whole: Outcome) -> bool:
    """Whether a recording began: it has no packet and ended for want of memory, it went to its end and
    only lines of standard input lacked memory, or lines of its report did."""
    status, output, errors, recording = got
    if words[:1] != ["record"] or status != 4 or not errors.endswith(b"memory\n"):
        return False
    if output and output.splitlines()[-1].endswith(f" {len(present(recording))}".encode()):
        return True
    is_part = whole[1].startswith(output) and (not output or output.endswith(b"\n"))
    return is_part and (recording == whole[3] or not recording and not output)


def is_begun(words: list[str], got: Outcome, whole: Outcome) -> bool:
    """Whether a script, a list, an audit, an extraction, an export, an upgrade or a whole file ended for want of memory
    after a part of it."""
    status, output, errors, feed = got
    begun = whole[1].startswith(output) and (words[:1] == ["export"] or not output or output.endswith(b"\n"))
    written = feed is None or (whole[3] is not None and whole[3].startswith(feed))
    partly = (["simulate"], ["list"], ["audit"], ["extract"], ["upgrade"], ["export"], ["chapter11"])
    return words[:1] in partly and status == 4 and errors == b"memory\n" and begun and written


def growths_of(program: str, words: list[str], text: bytes, library: str, count: str) -> int | None:
    """The number of growths of a run, each of which was refused once; None where one went wrong."""
    whole = outcome(program, words, text, library, 0, count)
    growths = int.from_bytes(Path(count).read_bytes()[:8], sys.byteorder)
    if growths > MOST_GROWTHS:
        print(f"{' '.join(words)}: {growths} growths are too many to refuse each")
        return None
    for refused in range(1, growths + 1):
        got = outcome(program, words, text, library, refused, count)
        if got not in (MEMORY, whole) and not is_recorded(words, got, whole) and not is_begun(words, got, whole):
            print(f"bpfrec {' '.join(words)}: with growth {refused} of {growths} refused: {got}")
            return None
    return growths


def outcome_of_test(tests: str, name: str, library: str, count: str, refused: int) -> tuple[int, str]:
    """The status and standard error of a test whose growth `refused` fails."""
    env = {"LD_PRELOAD": library, "REFUSED_GROWTH": str(refused), "GROWTHS": count}
    ran = subprocess.run([tests, name], capture_output=True, env=env, timeout=60)
    return ran.returncode, ran.stderr.decode()


def growths_of_test(tests: str, name: str, library: str, count: str) -> tuple[int, int] | None:
    """The number of growths of a test, each of which was refused once, and how many of these runs passed;
    None where one went wrong."""
    status, errors = outcome_of_test(tests, name, library, count, 0)
    if status != 0:
        print(f"{name}: {errors}")
        return None
    growths, passed = int.from_bytes(Path(count).read_bytes()[:8], sys.byteorder), 0
    for refused in range(1, growths + 1):
        status, errors = outcome_of_test(tests, name, library, count, refused)
        if status != 0 and not errors.startswith(tuple(f"error: {it}\n" for it in LACKED)):
            print(f"{name}: with growth {refused} of {growths} refused: {errors}")
            return None
        passed += status == 0
    return growths, passed


def main() -> int:
    parser = argparse.ArgumentParser(description=__doc__, formatter_class=argparse.RawDescriptionHelpFormatter)
    parser.add_argument("program", nargs="?", default=BPFREC, metavar="PROGRAM", help="bin/bpfrec (default)")
    for crate in TESTS:
        made = ROOT / f"crates/{crate}/out/{crate}_tests"
        where = f"which `rt test` makes in crates/{crate}"
        parser.add_argument(crate, nargs="?", default=made, metavar=crate.upper(), help=where)
    program, *tests = (os.path.abspath(it) for it in vars(parser.parse_args()).values())
    hows = ["`make build`"] + [f"`rt test` in crates/{crate}" for crate in TESTS]
    for needed, how in zip([program, *tests], hows):
        if not os.access(needed, os.X_OK):
            print(f"{needed} is not there: run {how} first")
            return 2
    with tempfile.TemporaryDirectory() as work:
        library = str(shared_library(LIBRARY / "failing_malloc.c", Path(work) / "failing_malloc.so"))
        named = [(built, name) for built, names in zip(tests, TESTS.values()) for name in names]
        of_tests = [growths_of_test(built, name, library, f"{work}/growths") for built, name in named]
        counts = [growths_of(program, words, text, library, f"{work}/growths") for words, text in samples()]
    if None in counts + of_tests:
        return 1
    growths, passed = (sum(column) for column in zip(*(it for it in of_tests if it)))
    print(
        f"{growths} growths of {len(of_tests)} tests were refused, one a run: {passed} of calls, which were made again "
        f"with the right answer, and {growths - passed} of what the tests make beside them, which ended the run"
    )
    print(
        f"{sum(it for it in counts if it)} growths of {len(counts)} runs were refused, one a run: each run ended with "
        "`memory`, status 4 and no feed, or with its answer; a recording of which only lines lacked memory, with its "
        "lines and `memory`; a script, a list or an extraction in part with `memory`"
    )
    return 0


if __name__ == "__main__":
    sys.exit(main())
