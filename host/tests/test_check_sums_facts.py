"""Tries what bpfrec check judges beside sums: what facts claim, recordings that follow one another, and who
signed."""

import hashlib
import json
import os
from pathlib import Path
from typing import Any, Optional, cast

import pytest
from bpfrec_tools.check import claims
from bpfrec_tools.check.claims import Before, Claims, NoClaims, claims_in
from bpfrec_tools.check.judge import PIECE, Judge, content_of
from bpfrec_tools.check.order import Place, in_order, place_of
from bpfrec_tools.check.verifier import Verifier, verifier_of
from bpfrec_tools.cli.signatures import Unsigned
from support import judge, judge_quietly, judge_same, program_at, sums

DIGEST = "0123456789abcdef" * 4
FACTS: dict[str, Any] = {"recording": "b.ch11", "sha256": DIGEST, "bytes": 5, "before": None}


# ---- what facts claim


def test_claims_are_read(work: Path) -> None:
    before = {"recording": "a.ch11", "sha256": DIGEST}
    cases: list[tuple[dict, Claims]] = [
        (FACTS, Claims("b.ch11", DIGEST, 5, None)),
        ({**FACTS, "before": before}, Claims("b.ch11", DIGEST, 5, Before("a.ch11", DIGEST))),
        ({**FACTS, "before": {**before, "sha256": None}}, Claims("b.ch11", DIGEST, 5, Before("a.ch11", None))),
        ({"recording": "b.ch11"}, Claims("b.ch11", None, None, None)),
    ]
    for told, wanted in cases:
        judge_same(str(wanted), claims_in(json.dumps(told).encode()), wanted)


@pytest.mark.parametrize("wrong", ["", "x" * 64, DIGEST.upper(), f"{DIGEST}\n", DIGEST[1:], 1, True, [], {}])
def test_what_is_no_hash_claims_nothing(wrong: object) -> None:
    for told in ({**FACTS, "sha256": wrong}, {**FACTS, "before": {"recording": "a.ch11", "sha256": wrong}}):
        with pytest.raises(NoClaims, match="sha256 is no hash"):
            claims_in(json.dumps(told).encode())


@pytest.mark.parametrize(
    "told, why",
    [
        ({"bytes": -1}, "bytes is no length"),
        ({"bytes": True}, "bytes is no length"),
        ({"bytes": 1.0}, "bytes is no length"),
        ({"recording": 1}, "they name no recording"),
        ({"before": 1}, "before names no recording"),
        ({"before": {"recording": None, "sha256": DIGEST}}, "before names no recording"),
    ],
)
def test_values_of_another_form_claim_nothing(told: dict, why: str) -> None:
    with pytest.raises(NoClaims, match=why):
        claims_in(json.dumps({**FACTS, **told}).encode())


@pytest.mark.parametrize("data", [b"", b"[]", b"1", b"{", b"[" * 100_000, b'{"recording": "\xff"}'])
def test_what_is_no_object_of_json_claims_nothing(data: bytes, monkeypatch: pytest.MonkeyPatch) -> None:
    with pytest.raises(NoClaims):
        claims_in(data)
    monkeypatch.setattr(claims, "MAX_LEN", 4)
    with pytest.raises(NoClaims, match="more than 0 MiB"):
        claims_in(json.dumps(FACTS).encode())


# ---- recordings


@pytest.mark.parametrize("length", [0, PIECE - 1, PIECE, PIECE + 1])
def test_the_hash_is_that_of_all_bytes(work: Path, length: int) -> None:
    data = os.urandom(length)
    (work / "x").write_bytes(data)
    judge_same(f"{length} bytes", content_of(str(work / "x")), (hashlib.sha256(data).hexdigest(), length))


def test_recordings_follow_one_another_by_their_numbers() -> None:
    """Also past five digits, of several runs, and in whichever folders they are."""
    names = ["g/9_00001.ch11", "h/9_00002.ch11", "f/9_99999.ch11", "f/9_100000.ch11", "f/9_a.ch11", "h/a_00001.ch11"]
    judge("in this order", in_order(names[::-1]) == names, in_order(names[::-1]))


@pytest.mark.parametrize(
    "path, place",
    [
        ("card/flight_00003.ch11", Place("flight.ch11", 3)),
        ("flight_2_100000.ch11", Place("flight_2.ch11", 100_000)),
        ("flight.v2_00003", Place("flight.v2", 3)),
        ("flight_00003.ch11.ch10", Place("flight_00003.ch11.ch10", 0)),
        ("flight_0003.ch11", Place("flight_0003.ch11", 0)),
        ("flight_0000\u0663.ch11", Place("flight_0000\u0663.ch11", 0)),
        (f"flight_{'9' * 5_000}", Place(f"flight_{'9' * 5_000}", 0)),
    ],
)
def test_a_run_is_known_by_the_names_of_its_recordings(path: str, place: Place) -> None:
    judge(path, place_of(path) == place, place_of(path))


class Judged:
    """Recordings that are judged, one after another."""

    def __init__(self, work: Path, verifier: Optional[Verifier] = None) -> None:
        self.work, self.lines = work, list[str]()
        self.judge = Judge(verifier, self.lines.append)

    def of(self, name: str, data: bytes, **changes: object) -> tuple[bool, list[str]]:
        """A recording with right facts, but for these keys."""
        path = self.work / name
        path.parent.mkdir(exist_ok=True)
        path.write_bytes(data)
        digest = hashlib.sha256(data).hexdigest()
        facts = {"recording": path.name, "sha256": digest, "bytes": len(data), "before": None, **changes}
        Path(f"{path}.json").write_text(json.dumps(facts))
        self.lines.clear()
        return self.judge.judge(str(path)), self.lines


def named(name: str, data: bytes) -> dict[str, str]:
    return {"recording": name, "sha256": hashlib.sha256(data).hexdigest()}


def test_the_one_before_is_the_one_that_is_given_before(work: Path) -> None:
    judged = Judged(work)
    for name, before, is_right, line in [
        ("r_00002", named("r_00001", b"a"), True, "before not given: r_00001"),
        ("r_00003", named("r_00002", b"2"), True, "before right: r_00002"),
        ("r_00004", None, True, "before none"),
        ("r_00005", named("r_00003", b"3"), False, "before wrong: r_00004, the facts say r_00003"),
        ("r_00006", named("r_00005", b"x"), False, "before wrong: r_00005 has another hash than the facts say"),
        ("r_00007", {"recording": "r_00006", "sha256": None}, True, "before unknown: r_00006 had no hash"),
        ("s_00003", named("s_00002", b"b"), True, "before not given: s_00002"),
    ]:
        judge_same(name, judged.of(name, name[-1:].encode(), before=before), (is_right, ["hash right", line]))


def test_runs_of_one_name_are_judged_together(work: Path) -> None:
    """Of two days, the second of which lacks one, and a copy of a recording."""
    judged = Judged(work)
    for folder in ("monday", "tuesday"):
        judge(folder, judged.of(f"{folder}/r_00001", folder.encode())[0], judged.lines)
    for folder in ("copy", "monday"):
        found = judged.of(f"{folder}/r_00002", b"2", before=named("r_00001", b"monday"))
        judge(folder, found == (True, ["hash right", "before right: r_00001"]), found)
    found = judged.of("tuesday/r_00003", b"3", before=named("r_00002", b"of tuesday"))
    line = "before wrong: r_00002 has another hash than the facts say"
    judge("the one that lacks its own", found == (False, ["hash right", line]), found)


def recorded(work: Path, *folders: str) -> list[Path]:
    """Empty recordings of one run in these folders, each with facts that name the one before."""
    paths: list[Path] = []
    for number, folder in enumerate(folders, 1):
        path = work / folder / f"r_{number:05}"
        path.parent.mkdir(exist_ok=True)
        path.write_bytes(b"")
        before = named(paths[-1].name, b"") if paths else None
        Path(f"{path}.json").write_text(json.dumps({**named(path.name, b""), "bytes": 0, "before": before}))
        paths.append(path)
    return paths


def test_one_that_is_missing_is_seen_where_a_run_has_several_folders(work: Path) -> None:
    """The later ones are in the folder that is sorted first."""
    paths = recorded(work, "card2", "card2", "card1", "card1")
    done = sums(*paths)
    judge("all of them", done.returncode == 0 and done.stdout.count("before right") == 3, done)
    done = sums(paths[0], *paths[2:])
    line = "before wrong: r_00001, the facts say r_00002\n"
    judge("without the second", done.returncode == 1 and line in done.stdout, done)


def test_a_recording_that_is_given_twice_is_refused(work: Path) -> None:
    """Also by another name; one that isn't there is another fault."""
    (path,) = recorded(work, "card")
    (work / "link").symlink_to(path)
    for again in (path, work / "card/../card" / path.name, work / "link"):
        done = sums(path, again)
        judge(f"{again}", done.returncode == 1 and f"check: {again}: it is given twice" in done.stderr, done)
    done = sums(work / "none")
    judge("no", (done.returncode, done.stderr) == (3, f"bpfrec check: {work}/none: No such file or directory\n"), done)


def test_a_name_that_is_no_utf8_is_that_of_its_facts(work: Path) -> None:
    """They lack what isn't UTF-8; and it is printed."""
    names = ("_00001", "_00002")
    for name in names:
        path = os.fsencode(work) + b"/\xff" + name.encode()
        Path(os.fsdecode(path)).write_bytes(b"")
        digest = hashlib.sha256(b"").hexdigest()
        before = None if name == names[0] else {"recording": names[0], "sha256": digest}
        facts = {"recording": name, "sha256": digest, "bytes": 0, "before": before}
        Path(os.fsdecode(path + b".json")).write_text(json.dumps(facts))
    paths = [os.fsencode(work) + b"/\xff" + name.encode() for name in names]
    done = sums(*paths, env={**os.environ, "LC_ALL": "C.UTF-8"})
    empty = ["empty: there is no packet", "packets 0 data checksums 0 without 0 wrong 0"]
    lines = [f"recording {work}/?_00001", "hash right", "before none", *empty]
    lines += [f"recording {work}/?_00002", "hash right", "before right: _00001", *empty]
    judge("each is right", (done.returncode, done.stdout.splitlines()) == (0, lines), done)


def test_each_claim_is_judged(work: Path) -> None:
    digest = hashlib.sha256(b"a").hexdigest()
    cases: list[tuple[dict[str, Any], bool, list[str]]] = [
        ({"sha256": None, "bytes": None}, True, ["hash none: the facts have none", "before none"]),
        ({"sha256": DIGEST}, False, [f"hash wrong: {digest}, the facts say {DIGEST}", "before none"]),
        ({"bytes": 2}, False, ["length wrong: 1, the facts say 2", "hash right", "before none"]),
        ({"bytes": 0}, False, ["length wrong: 1, the facts say 0", "hash right", "before none"]),
        ({"recording": "\x1b[2J\n"}, False, ["hash right", "name wrong: the facts are of ?[2J?", "before none"]),
        ({"sha256": 1}, False, ["facts wrong: sha256 is no hash"]),
    ]
    for changes, is_right, lines in cases:
        judge_same(f"{changes}", Judged(work).of("a", b"a", **changes), (is_right, lines))


class PlayedVerifier:
    """Says who signed, or why nobody did."""

    def __init__(self, answer: object) -> None:
        self.answer = answer

    def signer_of(self, facts: bytes, signature: str) -> str:
        judge_quietly("these facts are asked for", facts == Path(signature.removesuffix(".sig")).read_bytes())
        if isinstance(self.answer, Exception):
            raise self.answer
        return str(self.answer)


def test_where_signatures_are_asked_for_all_has_to_be_there(work: Path) -> None:
    judged = Judged(work, cast(Verifier, PlayedVerifier("fc1")))
    judge("none", judged.of("a", b"a") == (False, ["hash right", "before none", "signature none"]), judged.lines)
    (work / "a.json.sig").write_text("signature")
    judge("it is right", judged.of("a", b"a") == (True, ["hash right", "before none", "signature right: fc1"]))
    found = judged.of("a", b"a", sha256=None)
    judge("no hash", found == (False, ["hash none: the facts have none", "before none", "signature right: fc1"]), found)
    judged.of("r_00001", b"a", sha256=None)
    (work / "r_00002.json.sig").write_text("signature")
    found = judged.of("r_00002", b"a", before={"recording": "r_00001", "sha256": None})
    lines = ["hash right", "before unknown: r_00001 had no hash", "signature right: fc1"]
    judge("nobody knew the one before", found == (False, lines), found)
    (work / "a.json").unlink()
    judged.lines.clear()
    found = judged.judge.judge(str(work / "a")), judged.lines
    judge("no facts", found == (False, ["hash none: there are no facts"]), found)
    judged = Judged(work, cast(Verifier, PlayedVerifier(Unsigned("why"))))
    judge_same("a wrong one", judged.of("a", b"a"), (False, ["hash right", "before none", "signature wrong: why"]))


def test_a_pipe_has_no_hash(work: Path) -> None:
    os.mkfifo(work / "pipe")
    lines: list[str] = []
    judge("it is said", Judge(None, lines.append).judge(str(work / "pipe")) and lines, lines)
    judge("so", lines == ["hash none: it is no regular file"], lines)
    (work / "r").write_bytes(b"")
    done = sums(work / "pipe", work / "r", seconds=20)
    lines = [f"recording {work}/pipe", "hash none: it is no regular file", "sums none: it is no regular file"]
    judge("and nothing is waited for", (done.returncode, done.stdout.splitlines()[:3]) == (1, lines), done)


def test_facts_and_signatures_that_are_pipes_are_not_waited_for(work: Path) -> None:
    judged = Judged(work, cast(Verifier, PlayedVerifier("fc1")))
    os.mkfifo(work / "a.json.sig")
    found = judged.of("a", b"a")
    judge_same("a signature", found, (False, ["hash right", "before none", "signature wrong: it is no regular file"]))
    (work / "a.json").unlink()
    os.mkfifo(work / "a.json")
    judged.lines.clear()
    found = judged.judge.judge(str(work / "a")), judged.lines
    judge("facts", found == (False, ["facts wrong: they are no regular file"]), found)


# ---- who signed


def played(work: Path, monkeypatch: pytest.MonkeyPatch, text: str) -> Verifier:
    """What verifies by a program that is played."""
    program_at(work / "ssh-keygen", text)
    (work / "signers").write_text("")
    monkeypatch.setenv("PATH", f"{work}:{os.environ['PATH']}")
    return verifier_of(str(work / "signers"), None)


def test_each_whom_the_key_belongs_to_may_have_signed(work: Path, monkeypatch: pytest.MonkeyPatch) -> None:
    """As whom ssh-keygen verifies it first; what it says last where it does for nobody."""
    text = 'case "$2$6" in find*) echo a; echo b; echo c ;; verifyb|verifyc) cat > /dev/null ;; *) echo no $6 >&2; exit 1 ;; esac'
    verifier = played(work, monkeypatch, text)
    judge("the first that may", verifier.signer_of(b"facts", "sig") == "b")
    with pytest.raises(Unsigned, match="no d"):
        Verifier(verifier.signers, "d").signer_of(b"facts", "sig")
    with pytest.raises(Unsigned, match="nobody may sign"):
        played(work, monkeypatch, "exit 0").signer_of(b"facts", "sig")
