"""Tries the order of what bpfrec live, its recorder and its tools do to each file that they make, call by call, by a
library that is preloaded (dev/trials/lib/seen_calls.c)."""

import re
import time
from pathlib import Path

import pytest
from clock import capture_with
from namespace import send_together
from recordings import begin, nothing_left
from support import judge, judge_quietly, run, wait_for

pytestmark = [
    pytest.mark.wanted("bin/bpfrec", "bin/capture", "ip", "cc", "ssh-keygen"),
    pytest.mark.usefixtures("namespace"),
]

# Facts take the place of earlier ones: the new ones are on the disk before, and the name is behind.
FACTS = r"open_new (write_new )+force_data_new rename_facts open_folder force_folder "
# Each file, by its calls and those of its folder. OUT is forced by live as it grows, and read once it is whole.
FILES = {
    "out": r"open_out open_out lock_out empty_out (write_out |force_data_out )+force_out (force_data_out )+",
    "facts": rf"open_folder force_folder ({FACTS}){{2,}}",
    "whole": r"open_newwhole open_newwhole lock_newwhole empty_newwhole open_folder force_folder (write_newwhole )+"
    r"force_newwhole rename_whole open_folder force_folder ",
}
# Of the last facts OUT is on its disk before. Then they get its hash, their signature is made of them, and the whole
# file of OUT and facts.
SIGNATURE = r"open_newsignature write_newsignature force_data_newsignature rename_signature open_folder force_folder "
END = rf"force_data_out ({FACTS}){{2}}{SIGNATURE}open_newwhole "


def calls_of(work: Path, out: Path) -> list[str]:
    """The calls on the files that are made, and on their folder; not those that only read a file."""
    names = {str(out): "out", f"{out}.json.new": "new", f"{out}.json": "facts", f"{out}.ch10.new": "newwhole"}
    names |= {
        f"{out}.ch10": "whole",
        f"{out}.json.sig.new": "newsignature",
        f"{out}.json.sig": "signature",
        str(work): "folder",
    }
    found = []
    for line in (work / "calls").read_text().splitlines():
        what, name, number = line.rsplit(" ", 1)[0].split(" ", 1) + [line.rsplit(" ", 1)[1]]
        if name in names and (what != "open" or int(number) & 1 or name == str(work)):
            found.append(f"{what}_{names[name]}")
    return found


def of_files(calls: list[str], *names: str) -> str:
    return "".join(f"{it} " for it in calls if it.rpartition("_")[2] in names)


def test_each_file_of_a_run_is_forced_to_its_disk_with_its_name(work: Path, seen_calls: Path) -> None:
    (work / "calls").write_text("")
    out = work / "seen.ch11"
    # The capture may not write the calls.
    adds = {"LD_PRELOAD": str(seen_calls), "CALLS": str(work / "calls")}
    adds["CAPTURE"] = str(capture_with(work, {"LD_PRELOAD": ""}))
    run("ssh-keygen", "-q", "-t", "ed25519", "-N", "", "-f", work / "key")
    running = begin(work, out, "--quiet", "--chapter11", "--sign", work / "key", adds=adds)
    wait_for("facts are there", Path(f"{out}.json").exists)
    send_together(0, 100)
    time.sleep(1.2)
    running.interrupt()
    status, told = running.ended()[0], running.told()
    judge_quietly("it records", status == 0 and nothing_left(work), told)
    calls = calls_of(work, out)
    whole = calls.index("open_newwhole")
    parts = {
        "out": of_files(calls, "out"),
        "facts": of_files(calls[: calls.index("open_newsignature")], "new", "facts", "folder"),
        "whole": of_files(calls[whole:], "newwhole", "whole", "folder", "new", "facts"),
    }
    for name, wanted in FILES.items():
        judge(f"the calls on {name}", re.fullmatch(wanted, parts[name]), parts[name])
    judge("all in their order", re.search(END, "".join(f"{it} " for it in calls)), calls)
