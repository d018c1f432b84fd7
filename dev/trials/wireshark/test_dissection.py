"""Tries bin/bpfrec.lua in tshark: rows, frames, filters, statistics, and the texts of programs."""

import random
import re
import shutil
import subprocess
import zlib
from pathlib import Path

import pytest
from frames import (
    COMPUTER,
    FRAMES,
    body_of,
    insns_of,
    numbered,
    packet_of,
    program_data,
    program_packet,
    records,
    with_check_sequence,
)
from pcapng import frames_in, times_of
from reading import SEED
from recorder import RECORDINGS, extracted
from rows import (
    FIELDS,
    PLUGIN,
    TICKS_A_SECOND,
    drawn_recording,
    expected_rows,
    flight_of,
    printed,
    rows_of,
    saved,
    tshark,
)
from support import BPFREC, ROOT, judge, judge_quietly, outcome, run

pytestmark = pytest.mark.wanted("bin/bpfrec", "tshark", "editcap")
DRAWN = 8
BOTH_MODES = ((), ("-2",))
# Replaces what Wireshark gives to a reader of files, and reads the rows of RECORDING again in a drawn order.
DRIVER = """
local handlers = {}
_G.FileHandler = {new = function() return {} end}
function _G.register_filehandler(it) handlers[#handlers + 1] = it end
dofile(os.getenv("PLUGIN"))
local function file_of(path)
  local opened = io.open(path, "rb")
  return {seek = function(_, ...) return opened:seek(...) end, read = function(_, count) return opened:read(count) end}
end
local function told(it)
  return it.data .. "|" .. tostring(it.time) .. "|" .. tostring(it.original_length) .. "|" .. it.flags
end
local capture, first, second = {}, file_of(os.getenv("RECORDING")), file_of(os.getenv("RECORDING"))
assert(handlers[1].read_open(first, capture))
local places, rows = {}, {}
while true do
  local frame = {}
  local place = handlers[1].read(first, capture, frame)
  if not place then break end
  places[#places + 1], rows[place] = place, told(frame)
end
math.randomseed(1)
for _ = 1, 3000 do
  local place, frame = places[math.random(#places)], {}
  assert(handlers[1].seek_read(second, capture, frame, place))
  assert(told(frame) == rows[place], place)
end
print("rows " .. #places)
"""


def judge_rows(work: Path, what: str, recording: Path) -> None:
    wanted = expected_rows(recording)
    for mode in BOTH_MODES:
        found = rows_of(work, recording, *mode)
        differing = next((it for it in zip(found, wanted) if it[0] != it[1]), (len(found), len(wanted)))
        judge_quietly(f"{what} {mode}", found == wanted, differing)


# ---- rows


def test_rows_of_samples_are_those_of_the_reader(work: Path) -> None:
    samples = [*sorted(RECORDINGS.glob("*.ch11")), flight_of(work)]
    for sample in samples:
        judge_rows(work, sample.name, sample)
    judge(f"the rows of {len(samples)} recordings, read once and twice", len(samples) > 15)


def test_rows_of_drawn_recordings_are_those_of_the_reader(work: Path, three: Path) -> None:
    judge_rows(work, "three channels", three)
    draw, path = random.Random(SEED), work / "drawn.ch11"
    for turn in range(DRAWN):
        path.write_bytes(drawn_recording(draw, turn % 2 == 0))
        judge_rows(work, f"draw {turn}", path)


def test_frames_are_those_of_extract(work: Path, three: Path) -> None:
    """Bytes, order and times are those of `bpfrec extract`."""
    for recording in (three, flight_of(work)):
        for channel in (1, 2, 3)[: 3 if recording == three else 2]:
            capture, feed = saved(work, recording, channel), records(extracted(recording, channel, work / "one.feed"))
            holds = [it[2] for it in frames_in(capture)] == [it.frame for it in feed] and times_of(capture) == [
                it.counter * 100 for it in feed
            ]
            judge(f"channel {channel} of {recording.name}: {len(feed)} frames as extract has them", holds)


def test_rows_read_again_in_any_order_are_the_same(work: Path, three: Path) -> None:
    """Rows that are read again in any order are the same; by the reader's own functions, over files of Lua."""
    (work / "driver.lua").write_text(DRIVER)
    env = {"PLUGIN": str(PLUGIN), "RECORDING": str(three), "HOME": str(work), "PATH": "/usr/bin:/bin"}
    done = outcome("tshark", "-X", f"lua_script:{work}/driver.lua", "-r", "/dev/null", env=env)
    judge("rows in a drawn order", f"rows {len(expected_rows(three))}\n" in done.stdout, done.stdout + done.stderr)


FAILING = """
local handler = handlers[1]
local capture, file, frame = {}, file_of(os.getenv("RECORDING")), {}
assert(handler.read_open(file, capture))
assert(handler.read(file, capture, {}))
capture.private_table.reader.next = function() error("no more", 0) end
local count, place = 0, nil
repeat
  frame, place = {}, handler.read(file, capture, frame)
  count = count + 1
until not place
print("ended " .. count)
"""


def test_a_failure_of_the_plugin_is_a_row(work: Path) -> None:
    """Where the plugin itself fails, a row says so, and nothing is on the screen."""
    (work / "driver.lua").write_text(DRIVER[: DRIVER.index("local function told")] + FAILING)
    recording = str(RECORDINGS / "two_versions.ch11")
    env = {"PLUGIN": str(PLUGIN), "RECORDING": recording, "HOME": str(work), "PATH": "/usr/bin:/bin"}
    done = outcome("tshark", "-X", f"lua_script:{work}/driver.lua", "-r", "/dev/null", env=env)
    judge("one row more, and the end", "ended 2\n" in done.stdout, done.stdout + done.stderr)
    broken = PLUGIN.read_text().replace(
        "function Reader:next()", "function Reader:next()\nif self.at > 0 then error('x', 0) end"
    )
    (work / "broken.lua").write_text(broken)
    words = ["-X", f"lua_script:{work}/broken.lua", "-n", "-r", recording]
    for mode in BOTH_MODES:
        done = outcome("tshark", *words, *mode, env={**env, "HOME": str(work)})
        told = done.stdout.splitlines()
        holds = len(told) == 2 and "the plugin failed: x" in told[1] and "Error" not in done.stderr
        judge(f"its row {mode}", holds, done)


def test_a_pipe_is_read(work: Path, three: Path) -> None:
    """Through a pipe too, where nothing can be read twice."""
    with subprocess.Popen(["cat", three], stdout=subprocess.PIPE) as cat:
        found = printed(work, "-r", "-", "-T", "fields", "-e", "ch11.place", stdin=cat.stdout)
    judge("the rows of a pipe", found == [it["place"] for it in expected_rows(three)])


# ---- filters and statistics


def test_a_filter_on_each_field_finds_its_rows(work: Path, three: Path) -> None:
    """A filter on each field finds the rows that have the value."""
    draw, wanted = random.Random(SEED), expected_rows(three)
    data = bytearray(three.read_bytes())
    data[5_000] ^= 1
    (work / "filtered.ch11").write_bytes(data)
    wanted = expected_rows(work / "filtered.ch11")
    fields = {name: field for name, field in FIELDS.items() if field.startswith("ch11.")}
    for name, field in fields.items():
        value = draw.choice([it[name] for it in wanted if name in it])
        chosen = f'{field} == "{value}"' if name == "damage" else f"{field} == {value}"
        found = printed(work, "-r", work / "filtered.ch11", "-Y", chosen, "-T", "fields", "-e", "ch11.place")
        places = [it["place"] for it in wanted if it.get(name) == value]
        judge(f"{chosen}: {len(places)} rows", found == places and places, (found[:3], places[:3]))


def bytes_and_frames(lines: list[str]) -> tuple[int, int]:
    """The frames and the bytes of a table of io,stat."""
    rows = [re.findall(r"\d+(?:\.\d+)?", it) for it in lines if "<>" in it and "Interval" not in it]
    return sum(int(it[-2]) for it in rows), sum(int(it[-1]) for it in rows)


def test_statistics_count_frames_and_bytes(work: Path, three: Path) -> None:
    """They count frames and bytes as of a capture of the same frames."""
    capture = work / "frames.pcap"
    printed(work, "-r", three, "-Y", "eth", "-F", "nsecpcap", "-w", work / "user.pcap")
    run("editcap", "-F", "nsecpcap", "-T", "ether", work / "user.pcap", capture)
    wanted = [
        (it[0], it[2])
        for it in conversations(printed(work, "-o", "eth.fcs:Always", "-r", capture, "-q", "-z", "conv,eth"))
    ]
    found = [(it[0], it[2]) for it in conversations(printed(work, "-r", three, "-q", "-z", "conv,eth"))]
    judge("conversations", sorted(found) == sorted(wanted) and wanted, (found[:2], wanted[:2]))
    frames = [it[2] for it in frames_in(capture.read_bytes())]
    told = bytes_and_frames(printed(work, "-r", three, "-q", "-z", "io,stat,0,eth"))
    judge("io,stat", told == (len(frames), sum(map(len, frames))), told)
    rows = expected_rows(three)
    told = bytes_and_frames(printed(work, "-r", three, "-q", "-z", "io,stat,0"))
    judge("io,stat of all rows", told[0] == len(rows), told)


def test_statistics_by_time_count_each_frame_in_its_interval(work: Path) -> None:
    """Statistics by time, a channel a column, count each frame in its own interval."""
    recording, ticks = flight_of(work), 20_000
    rows = [(int(it["channel"]), int(it["counter"])) for it in expected_rows(recording) if "number" in it]
    begin = int(expected_rows(recording)[0]["counter"])
    columns = ",".join(f"ch11.channel=={it} && ch11.number" for it in (1, 2))
    lines = printed(work, "-r", recording, "-q", "-z", f"io,stat,{ticks / TICKS_A_SECOND},{columns}")
    found = [
        [int(it[2]), int(it[4])]
        for it in (re.findall(r"[\d.]+", line) for line in lines if "<>" in line)
        if len(it) > 5
    ]
    wanted = [[0, 0] for _ in found]
    for channel, counter in rows:
        wanted[(counter - begin) // ticks][channel - 1] += 1
    judge(f"{len(found)} intervals of two channels", found == wanted and len(found) > 5, (found, wanted))


def conversations(lines: list[str]) -> list[tuple[str, ...]]:
    found = [re.match(r"(\S+ +<-> \S+).* (\d+) ([\d ,]+(?:bytes|kB|MB)) +-?[\d.]+ +[\d.]+$", it) for it in lines]
    return [it.groups() for it in found if it]


def wrong_ones(work: Path) -> tuple[Path, list[bool]]:
    """A recording of frames of which some have a wrong check sequence and some are marked, and which are wrong."""
    draw = random.Random(SEED)
    frames = []
    for number in range(200):
        frame = with_check_sequence(numbered(number, draw.choice([60, 61, 300])))
        at = draw.randrange(len(frame)) if draw.random() < 0.3 else None
        changed = frame if at is None else frame[:at] + bytes([frame[at] ^ 1 << draw.randrange(8)]) + frame[at + 1 :]
        frames.append((number * 100, draw.choice([0, 0, 1 << 31, 1 << 30]), changed))
    parts = [program_packet(1, 0), packet_of(1, body_of(frames), 0, FRAMES, 0, True)]
    (work / "wrong.ch11").write_bytes(b"".join(parts))
    return work / "wrong.ch11", [zlib.crc32(it[:-4]).to_bytes(4, "little") != it[-4:] for _, _, it in frames]


def test_wrong_check_sequences_are_shown(work: Path) -> None:
    recording, are_wrong = wrong_ones(work)
    asked = ["-o", "eth.check_fcs:TRUE", "-T", "fields", "-e", "ch11.bad_fcs", "-e", "eth.fcs.status"]
    found = [it.split("\t") for it in printed(work, "-r", recording, "-Y", "ch11.number", *asked)]
    judge("Wireshark's own judgement", [it[1] == "0" for it in found] == are_wrong and any(are_wrong), found[:5])
    judge("and that of the plugin", [it[0] == "1" for it in found] == are_wrong)
    marked = sum(it.get("wrong_fcs") == "1" for it in expected_rows(recording))
    told = printed(work, "-r", recording, "-q", "-z", "expert")
    wanted = f"{marked} Checksum CH11 Recorded with a wrong check sequence"
    judge("what the recorder marked is expert information", wanted in [" ".join(it.split()) for it in told], told)
    chosen = printed(work, "-r", recording, "-Y", "ch11.bad_fcs == 1", "-T", "fields", "-e", "ch11.number")
    judge("a filter on it", chosen == [str(at) for at, it in enumerate(are_wrong) if it])
    rows = [it for it in expected_rows(recording) if "number" in it]
    infos = printed(work, "-r", recording, "-Y", "ch11.number", "-T", "fields", "-e", "_ws.col.Info")
    marks = [
        "[wrong check sequence]" if it["wrong_fcs"] == "1" else "[faulty]" if it["other_error"] == "1" else ""
        for it in rows
    ]
    holds = [(re.findall(r"\[(?:wrong|faulty).*", it) or [""])[0] for it in infos] == marks
    judge("marked frames show it in the list", holds)


# ---- programs


def lines_shown(work: Path, recording: Path) -> tuple[str, list[str]]:
    """The line that has the number of instructions, and those of the instructions."""
    lines = printed(work, "-r", recording, "-V")
    at = next(at for at, it in enumerate(lines) if it.strip().startswith("Instructions: "))
    shown = [it.strip() for it in lines[at + 1 :] if it.startswith("        ")]
    return lines[at].strip(), shown


def program_of(listing: str) -> bytes:
    """The packet of the program of a listing."""
    numbers = [int(it) for it in re.findall(r"\d+", listing)]
    insns = insns_of(*(tuple(numbers[at : at + 4]) for at in range(1, len(numbers), 4)))
    return packet_of(0, program_data(7, 2, insns), 0, COMPUTER, 0, True)


def test_programs_are_shown_as_dis_prints_them(work: Path) -> None:
    """Instructions are shown as `bpfrec dis` prints them; those that have no text, as a listing has them."""
    texts = [run(BPFREC, "asm", it) for it in sorted((ROOT / "examples/filters").glob("*.bpf"))]
    forms = [code for code in range(0x100) if code not in (0x05,)]
    texts += [f"2,{code} 0 0 {1 if k else 0},6 0 0 0," for code in forms for k in (False, True)][::23]
    texts += [
        "2,5 0 0 0,6 0 0 0,",
        "2,5 0 0 1,6 0 0 0,",
        "1,6 1 0 0,",
        "1,7 0 0 1,",
        "3,29 1 0 0,22 0 0 0,6 0 0 4294967295,",
    ]
    for text in texts:
        (work / "program.ch11").write_bytes(program_of(text))
        done = outcome(BPFREC, "dis", "-", input=text)
        title, shown = lines_shown(work, work / "program.ch11")
        listed = [it.strip() for it in text.strip(", \n").split(",")[1:]]
        fault = f", which have no text: {done.stderr.strip()}" if done.returncode else ""
        wanted = (f"Instructions: {len(listed)}{fault}", listed if fault else done.stdout.splitlines())
        judge_quietly(f"{text[:60]}", (title, shown) == wanted, (title, shown, wanted))


# ---- saved captures


def test_what_is_saved_has_the_frames(work: Path, three: Path) -> None:
    """What is saved from a recording has the frames; editcap makes Ethernet of it, and the plugin shows it too."""
    printed(work, "-r", three, "-Y", "ch11.channel == 1", "-w", work / "saved.pcapng")
    rows = [it for it in expected_rows(three) if it.get("channel") == "1"]
    again = printed(
        work, "-r", work / "saved.pcapng", "-T", "fields", "-e", "frame.md5_hash", "-o", "frame.generate_md5_hash:TRUE"
    )
    judge("a saved capture has the rows", again == [it["sum"] for it in rows])
    seen = printed(work, "-r", work / "saved.pcapng", "-T", "fields", "-e", "frame.protocols")
    holds = sum("eth_withfcs" in it or ":eth" in it for it in seen) == sum("number" in it for it in rows)
    judge("frames are dissected", holds, seen[:3])


def test_a_plugin_in_two_folders_says_nothing(work: Path) -> None:
    """Where it stands in two folders of plugins nothing is said."""
    shutil.copy(PLUGIN, work / "again.lua")
    done = tshark(work, "-X", f"lua_script:{work}/again.lua", "-r", RECORDINGS / "two_versions.ch11")
    holds = done.returncode == 0 and not done.stderr and len(done.stdout.splitlines()) == 4
    judge("a second copy is silent", holds, done)
