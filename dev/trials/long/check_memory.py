#!/usr/bin/env python3
"""Refuses memory and threads to the built program, and counts what it takes.

By a malloc that is preloaded (dev/trials/lib/failing_malloc.c, with cc):

- a recording of 100,000 frames asks for no memory from the first bytes of its feed until it has ended, also
  where each growth would be refused
- nor do its worker and its writer while its filter is changed a hundred times: what they have in hand does;
  `list`, `audit` and `extract` find what was fed, from the file and from standard input
- nor do those of a recording at full size, at both limits of packets: 64 channels from pipes with long paths, the
  longest frames, and 1,024 programs of one channel, each met by a frame
- a hundred changes that are installed take memory as often as a hundred for a channel that there isn't
- a line of standard input that gets no memory ends the lines, and the recording goes on to its end
- recordings of 1,000 and of 100,000 frames take memory equally often
- a filter runs once on a frame: a recording with the greatest filter takes less than 1.4 times the
  processor's time of its audit, which runs the filter once on each frame (0.8 to 1.1 as measured, and twice
  that where it ran twice), by the least of three rounds or more
- each further place of a ring takes one growth, its buffer's; each further channel takes as many as another
- where a thread can't be started, whichever, those that run are stopped, no line of standard input is read,
  nothing is written, and the program ends as out of memory

And under a limit of addresses: `list`, `audit` and `extract` of a header that claims four gigabytes, which
ask for 65,536 bytes at once at most.

It takes half a minute, and dev/build/test.py and dev/build/gate.py run it. The status is 1 where something else happens.
"""
import argparse
import os
import resource
import struct
import subprocess
import sys
import tempfile
import threading
from pathlib import Path
from typing import AnyStr

sys.path.insert(0, str(Path(__file__).resolve().parents[1] / "lib"))
from feeding import feed_on, feed_once, frames_of, pipe_to, seconds_of_children
from full_size import CHANNELS, LIMITS, LONG, MOST_INSNS, feed_by_pipes, feed_path, report_of, write_all
from recorder import begin
from support import BPFREC, DROPS_ALL, KEEPS_ALL, LIBRARY, present, shared_library

FRAMES, FEW, CHANGES = 100_000, 1_000, 100
# The growths of a channel whose ring has one place: 30 as measured, beside those of lists that double.
MOST_A_CHANNEL = 32
FILTERED, FEWEST_ROUNDS, MOST_ROUNDS, MOST_RATIO = 20_000, 3, 10, 1.4
SECONDS = 100
# A header that claims a packet of four gigabytes, and how much memory its readers may have.
CLAIM = bytes.fromhex("25eb0100 fcffffff 00000000 08000001 00000000 000029ec")
ADDRESSES = 64_000_000
MOST_AT_ONCE = 65_536
# A line that is answered at once: whoever gets the answer knows that the control waits for lines.
NO_LINE, NO_LINE_ANSWER = b"x\n", b"refused 0 Line\n"
COUNTS = ("growths", "recording", "late", "refused", "largest", "started", "running", "left")
# A folder whose name alone is longer than most paths.
PREFIX = "bpfrec-memory-" + 12 * "longer-"


class Checks:
    """The checks, each of which says what it saw."""

    def __init__(self, program: Path, work: Path) -> None:
        self.program, self.work, self.wrong = str(program), work, 0
        self.counts = work / "counts"
        self.library = shared_library(LIBRARY / "failing_malloc.c", work / "failing_malloc.so")
        (work / "keeps").write_text(KEEPS_ALL)
        (work / "drops").write_text(DROPS_ALL)

    def judge(self, what: str, holds: bool, seen: object = "") -> None:
        print(f"{'ok' if holds else 'WRONG'}: {what}{'' if holds else f': {seen}'}", flush=True)
        self.wrong += not holds

    def counted(self) -> dict[str, int]:
        """What the preloaded library counted in the last run."""
        return dict(zip(COUNTS, struct.unpack(f"={len(COUNTS)}q", self.counts.read_bytes())))

    def settings(self, channels: int) -> Path:
        """Settings of so many channels, each with a pipe of its own, which keep all frames."""
        text = ""
        for channel in range(1, channels + 1):
            feed = self.work / f"feed_{channel}"
            feed.unlink(missing_ok=True)
            os.mkfifo(feed)
            text += f'[[channel]]\nid = {channel}\nfeed = "{feed}"\nfilter = "{self.work / "keeps"}"\n'
        (self.work / "settings.toml").write_text(text)
        return self.work / "feed_1"

    def start(self, out: str, stdin: int, **more: str) -> subprocess.Popen[bytes]:
        """Starts a recording under the preloaded library."""
        words = [self.program, "record", str(self.work / "settings.toml"), str(self.work / out)]
        env = self.preloads(**more)
        return self.in_time(
            subprocess.Popen(words, stdin=stdin, stdout=subprocess.PIPE, stderr=subprocess.PIPE, env=env)
        )

    def preloads(self, **more: str) -> dict[str, str]:
        """The environment in which the library is preloaded."""
        return {"LD_PRELOAD": str(self.library), "GROWTHS": str(self.counts), **more}

    def in_time(self, running: subprocess.Popen[AnyStr]) -> subprocess.Popen[AnyStr]:
        """The same program, which is killed where it doesn't end."""
        limit = threading.Timer(SECONDS, running.kill)
        limit.daemon = True
        limit.start()
        return running

    def wait_for_control(self, running: subprocess.Popen[bytes]) -> bytes:
        """Waits until the control's thread reads standard input: the room for its first answer is taken then."""
        self.write_lines(running, NO_LINE)
        return present(running.stderr).readline()

    def write_lines(self, running: subprocess.Popen[bytes], lines: bytes) -> None:
        present(running.stdin).write(lines)
        present(running.stdin).flush()

    def recorded(self, out: str, count: int, lines: bytes = b"", **more: str) -> tuple[int, bytes, bytes, bytes]:
        """Records so many frames from a pipe, amid these lines: status, printed lines, errors, bytes."""
        feed = self.settings(1)
        if "REFUSED_FROM" in more:
            more["REFUSED_FROM"] = str(feed)
        running = self.start(out, subprocess.PIPE, **more)
        with pipe_to(running, feed) as pipe:
            answer, frames = self.wait_for_control(running), frames_of(count)
            pipe.write(frames[: len(frames) // 2])
            pipe.flush()
            if lines:
                self.write_lines(running, lines)
            pipe.write(frames[len(frames) // 2 :])
        output, errors = running.communicate(timeout=SECONDS)
        return running.returncode, output, answer + errors, (self.work / out).read_bytes()

    def no_growth(self) -> None:
        plain = self.recorded("plain.ch11", FRAMES)
        self.judge(
            f"{FRAMES} frames are recorded",
            plain[:1] == (0,) and f"offered {FRAMES} kept {FRAMES}".encode() in plain[1],
            plain[:3],
        )
        refused = self.recorded("refused.ch11", FRAMES, REFUSED_FROM="feed")
        self.judge(
            "where each growth is refused from the first frame on, the same is recorded", refused == plain, refused[:3]
        )
        late = self.counted()["late"]
        self.judge("and no growth was asked for", late == 0, f"{late} growths")
        lines = f"set 1 {self.work / 'drops'}\n".encode() * 3
        status, output, errors, recording = self.recorded("lines.ch11", FRAMES, lines, REFUSED_FROM="feed")
        as_ever = (output, recording) == (plain[1], plain[3])
        self.judge(
            "a line without memory ends the lines, and the same is recorded",
            as_ever and (status, errors) == (4, NO_LINE_ANSWER + b"memory\n"),
            (status, output, errors),
        )

    def changes(self) -> None:
        """A hundred changes, each after a thousand more frames were written; the control alone may take memory."""
        feed, many = self.settings(1), FRAMES // CHANGES
        running = self.start("changes.ch11", subprocess.PIPE, REFUSED_FROM=str(feed), SPARED_INPUT="1")
        marks = [0]
        with pipe_to(running, feed) as pipe:
            self.wait_for_control(running)
            for change in range(CHANGES):
                pipe.write(frames_of(many, change * many))
                pipe.flush()
                name = "keeps" if change % 2 else "drops"
                self.write_lines(running, f"set 1 {self.work / name}\n".encode())
                answer = present(running.stderr).readline().split()
                if answer[:3] != [b"installed", b"1", b"%d" % (change + 1)]:
                    break
                marks.append(int(answer[3]))
        output, errors = running.communicate(timeout=SECONDS)
        self.judge(
            f"{CHANGES} changes are answered",
            len(marks) == CHANGES + 1 and (running.returncode, errors) == (0, b""),
            (len(marks), output, errors),
        )
        refused = self.counted()["refused"]
        self.judge("and no growth was asked for by the worker or the writer", refused == 0, f"{refused} growths")
        ends = [*marks[1:], FRAMES]
        kept = [
            it for version, (mark, end) in enumerate(zip(marks, ends)) if version % 2 == 0 for it in range(mark, end)
        ]
        met = len({mark for mark in ends if mark > 0})
        self.judge("half of them meet a frame at least", met > CHANGES // 2, met)
        self.read_again(kept)

    def read_again(self, kept: list[int]) -> None:
        """Reads the recording of the changes by each command, as a file and as a stream."""
        path = self.work / "changes.ch11"
        for file in (str(path), "-"):
            again, new = self.work / "again.feed", self.work / "again.ch11"
            again.unlink(missing_ok=True)
            new.unlink(missing_ok=True)
            writes = (["extract", file, "1", str(again)], ["upgrade", file, str(new)], ["export", file, "-"])
            ran = [self.run_on(path, *words) for words in (["list", file], ["audit", file], *writes)]
            listed = [line.split() for line in ran[0].stdout.splitlines()]
            counts = [int(line[-1]) for line in listed if line[-2] == b"frames"]
            feed = again.read_bytes()
            found = [int.from_bytes(feed[at : at + 6], "little") for at in range(0, len(feed), 73)]
            seen = (
                [it.returncode for it in ran],
                len(listed) - 1,
                sum(counts),
                len(found),
                ran[2].stdout,
                ran[3].stdout,
                len(ran[4].stdout),
            )
            holds = (
                seen[0] == [0, 0, 0, 0, 0]
                and listed[-1][1] == b"%d" % seen[1]
                and sum(counts) == len(kept)
                and found == kept
            )
            holds = holds and seen[5] == b"upgraded 0 copied %d\n" % seen[1] and new.read_bytes() == path.read_bytes()
            by = f"`list`, `audit`, `extract` and `upgrade` of {'the stream' if file == '-' else 'the file'}"
            self.judge(f"and each meets the frames from its mark on, by {by}", holds, seen)

    def run_on(self, path: Path, *words: str) -> subprocess.CompletedProcess[bytes]:
        """Runs a command with this file as its standard input."""
        with open(path, "rb") as stream:
            return subprocess.run([self.program, *words], stdin=stream, capture_output=True, timeout=SECONDS)

    def installs(self) -> None:
        counts = []
        for channel, answer in ((1, b"installed 1 "), (2, b"refused 2 NoChannel\n")):
            lines = f"set {channel} {self.work / 'drops'}\n".encode() * CHANGES
            errors = self.recorded("installs.ch11", FEW, lines)[2]
            counts.append((errors.count(answer), self.counted()["recording"]))
        self.judge(
            f"{CHANGES} changes take memory equally often for a channel and for none",
            counts[0] == counts[1] and counts[0][0] == CHANGES,
            counts,
        )

    def once(self) -> None:
        """A recording that runs the filter on each frame, beside the audit of it."""
        (self.work / "greatest").write_text(f"{MOST_INSNS}," + "0 0 0 1," * (MOST_INSNS - 1) + "6 0 0 1,")
        (self.work / "once.feed").write_bytes(frames_of(FILTERED))
        (self.work / "once.toml").write_text('[[channel]]\nid = 1\nfeed = "once.feed"\nfilter = "greatest"\n')
        recorded, audited = [], []
        for done in range(1, MOST_ROUNDS + 1):
            recorded.append(self.seconds_of("record", "once.toml", "once.ch11"))
            audited.append(self.seconds_of("audit", "once.ch11"))
            ratio = min(recorded) / min(audited)
            if done >= FEWEST_ROUNDS and ratio < MOST_RATIO:
                break
        self.judge(
            "a filter runs once on a frame",
            ratio < MOST_RATIO,
            f"{ratio:.2f} times the audit's time, {recorded} beside {audited}",
        )

    def seconds_of(self, *words: str) -> float:
        """The seconds of a processor that a command takes for itself."""
        before = seconds_of_children()
        subprocess.run(
            [self.program, *words],
            cwd=self.work,
            stdin=subprocess.DEVNULL,
            capture_output=True,
            check=True,
            timeout=SECONDS,
        )
        return seconds_of_children() - before

    def full_size(self) -> None:
        """A recording as large as its parts may get, from pipes; the control alone may take memory."""
        for limit in LIMITS:
            settings, feeds = write_all(self.work / f"limit {limit}", limit, range(1, CHANNELS + 1))
            out = self.work / "full.ch11"
            out.unlink(missing_ok=True)
            env = self.preloads(REFUSED_FROM=str(feed_path(settings.parent, LONG)), SPARED_INPUT="1")
            streams = dict.fromkeys(("stdin", "stderr"), subprocess.PIPE)
            with self.in_time(begin(settings, out, self.program, env=env, **streams)) as running:
                feed_by_pipes(running, settings, out, feeds)
                output, errors = running.communicate(timeout=SECONDS)
            printed = output.splitlines()[:-1]
            self.judge(f"all is recorded at full size, with limit {limit}", printed == report_of(feeds), errors)
            counts = self.counted()
            self.judge("and the control alone asked for growths", counts["refused"] == 0 < counts["late"], counts)

    def same_number(self) -> None:
        counts = []
        for count in (FEW, FRAMES):
            self.recorded("counted.ch11", count)
            counts.append(self.counted()["recording"])
        self.judge(f"{FEW} and {FRAMES} frames take memory equally often", counts[0] == counts[1] > 0, counts)
        print(f"    {counts[0]} times")

    def growths_of(self, channels: int, ring: int) -> int:
        """How often a recording of so many channels and places of a ring takes memory."""
        self.settings(channels)
        settings = self.work / "settings.toml"
        settings.write_text(f"limit = 16424\nring = {ring}\n{settings.read_text()}")
        for channel in range(1, channels + 1):
            threading.Thread(target=feed_once, args=(self.work / f"feed_{channel}", frames_of(1)), daemon=True).start()
        self.start("shapes.ch11", subprocess.DEVNULL).communicate(timeout=SECONDS)
        return self.counted()["recording"]

    def shapes(self) -> None:
        rings = [1, 2, 3, 64, 4_096]
        by_ring = [self.growths_of(1, it) for it in rings]
        self.judge(
            "a further place of a ring takes one growth",
            [it - by_ring[0] for it in by_ring] == [it - 1 for it in rings],
            by_ring,
        )
        by_channels = [self.growths_of(it, 1) for it in (16, 32, 64)]
        few, many = by_channels[1] - by_channels[0], by_channels[2] - by_channels[1]
        self.judge(
            f"a further channel takes {MOST_A_CHANNEL} growths at most, however many there are",
            few <= 16 * MOST_A_CHANNEL and many <= 32 * MOST_A_CHANNEL,
            by_channels,
        )

    def threads(self) -> None:
        """Refuses each thread of three channels and the control; their feeds go on for as long as they are read."""
        channels = 3
        for refused in range(1, channels + 2):
            self.settings(channels)
            for channel in range(1, channels + 1):
                threading.Thread(target=feed_on, args=(self.work / f"feed_{channel}",), daemon=True).start()
            out = self.work / "threads.ch11"
            out.unlink(missing_ok=True)
            read, write = os.pipe()
            line = f"set 1 {self.work / 'drops'}\n".encode()
            os.write(write, line)
            running = self.start(out.name, read, REFUSED_THREAD=str(refused))
            try:
                output, errors = running.communicate(timeout=SECONDS)
            except subprocess.TimeoutExpired:
                running.kill()
                output, errors = running.communicate()
            os.close(write)
            left, counts = os.read(read, len(line)), self.counted()
            os.close(read)
            seen = (
                running.returncode,
                output,
                errors,
                out.stat().st_size,
                left == line,
                counts["started"],
                counts["left"],
            )
            self.judge(
                f"thread {refused} can't be started: all end, and nothing was read or written",
                seen == (4, b"", b"memory\n", 0, True, refused - 1, 0),
                seen,
            )

    def claims(self) -> None:
        (self.work / "claim.ch11").write_bytes(CLAIM)
        limit = lambda: resource.setrlimit(resource.RLIMIT_AS, (ADDRESSES, ADDRESSES))
        for words in (
            ["list"],
            ["audit"],
            ["extract", "1", "claim.feed"],
            ["upgrade", "claim.new"],
            ["export", "claim.pcapng"],
        ):
            words = [self.program, words[0], "claim.ch11", *words[1:]]
            env = self.preloads()
            ran = subprocess.run(words, cwd=self.work, env=env, capture_output=True, preexec_fn=limit, timeout=SECONDS)
            seen = (ran.returncode, ran.stdout, ran.stderr, self.counted()["largest"])
            holds = seen[0] == 1 and b"read 1 Truncated 0" in seen[1] + seen[2] and seen[3] <= MOST_AT_ONCE
            self.judge(f"`{words[1]}` of a header that claims four gigabytes", holds, seen)


def main() -> int:
    parser = argparse.ArgumentParser(description=__doc__, formatter_class=argparse.RawDescriptionHelpFormatter)
    parser.add_argument("program", nargs="?", default=BPFREC, metavar="PROGRAM", help="bin/bpfrec (default)")
    program = Path(parser.parse_args().program).resolve()
    if not os.access(program, os.X_OK):
        print(f"{program} is not there: run `make build` first")
        return 2
    with tempfile.TemporaryDirectory(prefix=PREFIX) as work:
        checks = Checks(program, Path(work))
        for check in (
            checks.no_growth,
            checks.changes,
            checks.installs,
            checks.same_number,
            checks.once,
            checks.full_size,
            checks.shapes,
            checks.threads,
            checks.claims,
        ):
            try:
                check()
            except (AssertionError, OSError, LookupError, ValueError, subprocess.SubprocessError) as error:
                checks.judge(f"{check.__name__} goes to its end", False, repr(error))
    return 1 if checks.wrong else 0


if __name__ == "__main__":
    sys.exit(main())
