"""What fuzz.py tries first, always the same: lengths and counts that nothing follows, samples that are cut, and samples with a
byte changed."""

from random import Random

from frames import feed_of
from fuzz_answers import Answer, Case, Run, Wrong
from fuzz_inputs import DATA, Corpus, set_data_sum
from fuzz_readings import readings

# a header that claims four gigabytes, with nothing behind it
LONE_HEADER = bytes.fromhex("25eb0100 fcffffff 00000000 08000001 00000000 000029ec")
FRAME = bytes.fromhex("ffffffffffff0200000000010806a1b2c3d4")
SETTINGS_TEXT = b'limit = 16424\n[[channel]]\nid = 1\nfeed = "feed"\nfilter = "filter"\nspeed = 3\n'


def expect(what: str, answer: Answer, *printed: str) -> None:
    if answer.output + answer.errors not in printed:
        raise Wrong(f"{what}: {answer.output}{answer.errors}")


def fixed(run: Run, _: Random, corpus: Corpus) -> None:
    """Lengths and counts that nothing follows; each beginning of a text, of settings, of a feed's record and
    of a recording, and each byte of the recording at its ends."""
    expect("a lone header", run(Case(["list", "in"], {"in": LONE_HEADER})), "read 1 Truncated 0\n")
    readings(run, LONE_HEADER)
    expect("a count alone", run(Case(["verify", "in"], {"in": b"65535,"})), "listing 2 Count 65535 0\n")
    text = (DATA / "filters/arp.bpf").read_bytes()
    for cut in range(len(text) + 1):
        run(Case(["asm", "in"], {"in": text[:cut]}))
    files = {"settings": SETTINGS_TEXT, "filter": b"1,6 0 0 1,", "feed": feed_of([(16, 0, FRAME)])}
    for cut in range(len(SETTINGS_TEXT)):
        run(Case(["record", "settings", "out"], {**files, "settings": SETTINGS_TEXT[:cut]}))
    for cut in range(len(files["feed"]) + 1):
        recorded = run(Case(["record", "settings", "out"], {**files, "feed": files["feed"][:cut]}))
        ending = "SourceEnd" if cut in (0, len(files["feed"])) else "SourceFault Truncated"
        if recorded.output.splitlines()[0].split(" ", 8)[8] != ending:
            raise Wrong(f"a feed cut to {cut} bytes")
    cut_and_changed(run, (DATA / "recordings/two_versions.ch11").read_bytes(), [0, 60, 120, 180, 232])
    checked = (DATA / "recordings/two_versions_checked.ch11").read_bytes()
    cut_and_changed(run, checked, [0, 64, 128, 192, 248])
    changed_with_sums(run, checked, [0, 64, 128, 192, 248])


def changed_with_sums(run: Run, recording: bytes, places: list[int]) -> None:
    """Each byte after a header at its ends, with the data checksum made right again."""
    for begin, end in zip(places, places[1:]):
        for at in range(begin + 24, end - 4):
            for value in (0x00, 0xFF):
                changed = bytearray(recording)
                changed[at] = value
                set_data_sum(changed, begin, end)
                readings(run, bytes(changed))


def cut_and_changed(run: Run, recording: bytes, places: list[int]) -> None:
    for cut in range(len(recording) + 1):
        readings(run, recording[:cut])
        if cut not in places:
            place = max(it for it in places if it < cut)
            listed = run(Case(["list", "in"], {"in": recording[:cut]}))
            expect(f"cut to {cut} bytes", listed, f"read 1 Truncated {place}\n")
    for at in range(len(recording)):
        for value in (b"\x00", b"\xff"):
            readings(run, recording[:at] + value + recording[at + 1 :])
