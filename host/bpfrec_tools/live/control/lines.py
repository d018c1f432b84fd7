"""The way of lines that change filters, from standard input to the recorder that goes on, and of its answers."""

from __future__ import annotations

import os
import time
from collections import deque
from typing import Callable, NamedTuple, Optional, Sequence

from bpfrec.formats.answers import Answer
from bpfrec.formats.limits import MAX_VERSIONS
from bpfrec_tools.live.arguments import Arguments
from bpfrec_tools.live.control.changes import MAX_WAITING, Change, Changes, Held, Input
from bpfrec_tools.live.control.sockets import ControlSocket
from bpfrec_tools.live.control.words import HELP, Asker, Word, answer, mark_in, word_of
from bpfrec_tools.live.kept.names import Refusal
from bpfrec_tools.live.parts.loop import Loop
from bpfrec_tools.live.parts.part import Part
from bpfrec_tools.live.parts.recorder import Recorder
from bpfrec_tools.live.said import said
from bpfrec_tools.live.status import Terminal

# So many lines a recorder has at once at most. From this version of a channel's filter on the next recording begins,
# where one may follow, so that none of them is refused.
MOST_UNANSWERED = 128
LAST_VERSION = MAX_VERSIONS - 1 - MOST_UNANSWERED
# So many lines wait for a recorder until no further line is read; marks don't wait behind them.
MOST_HELD = 16
# So many filters are made at once at most, each by a program.
MOST_MADE = 4
# What is said of a line while OUT has failed, and the next recording hasn't begun.
NOTHING_RECORDED = "nothing is recorded, and the next recording hasn't begun"
# So many seconds lines are taken in a turn of the loop: then signals and all else come.
TURN_TIME = 0.01


class ControlPorts(NamedTuple):
    """What lines have beside the recorder: what ends the run, begins the next recording, says how it goes, notes a mark
    and prints a line, and the terminal on which it is shown."""

    stop: Callable[[], None]
    next: Callable[[], None]
    report: Callable[[], Sequence[str]]
    mark: Callable[[bytes, Asker], None]
    err: Callable[[str], None]
    terminal: Terminal


class ControlLines(Part):
    """The lines of a run; `current` gives the recording that goes on."""

    def __init__(
        self, loop: Loop, given: Arguments, changes: Changes, current: Callable[[], Recorder], ports: ControlPorts
    ) -> None:
        self.loop, self.given, self.changes, self.current = loop, given, changes, current
        self.ports, self.mark, self.err, self.terminal = ports, ports.mark, ports.err, ports.terminal
        self.input = Input()
        self.socket = self.made_socket(given.socket())
        # The lines that no recorder has yet.
        self.held: deque[Held] = deque()

    def made_socket(self, path: Optional[str]) -> Optional[ControlSocket]:
        """The socket by which lines come too. The usual one may be missing, which is said."""
        try:
            return ControlSocket(path, self.loop, self.may_take, self.take_line) if path else None
        except Refusal as why:
            if self.given.control is not None:
                raise
            self.err(said(f"warning: bpfrec tell finds no socket: {why.what()}"))
            return None

    def is_open(self) -> bool:
        """Whether a line may come still: from standard input or by the socket."""
        may_come = self.input.descriptor is not None or bool(self.input.buffer.lines) or self.socket is not None
        return may_come or bool(self.held)

    def read(self) -> None:
        """Takes lines that were read, for a moment, and has more read where all were taken."""
        self.hand_on()
        end = time.monotonic() + TURN_TIME
        while self.take_next():
            if time.monotonic() > end:
                self.loop.call_soon(lambda: None)
                break
        if self.input.descriptor is not None:
            self.loop.on_read(self.input.descriptor, None if self.input.buffer.lines else self.read_input)
        if self.socket:
            self.socket.read()

    def may_take(self) -> bool:
        """Whether a line may be taken that is no mark: not where too many wait, or are made."""
        return len(self.held) < MOST_HELD and sum(not it.is_ready() for it in self.held) < MOST_MADE

    def take_next(self) -> bool:
        """Takes a line of each who has sent one: whether one did."""
        typed = self.input.buffer.take(self.may_take)
        if typed is not None:
            self.take_line(typed)
            self.end_input()
        return bool(self.socket and self.socket.take_next()) or typed is not None

    def waits(self, recorder: Recorder) -> bool:
        """Whether a recorder takes no line now."""
        is_full = len(recorder.lines.waiting) > MAX_WAITING or len(recorder.lines.unanswered) >= MOST_UNANSWERED
        return (
            is_full or recorder.recording.has_failed or recorder.recording.was_killed or recorder.recording.is_used_up
        )

    def read_input(self) -> None:
        """Reads lines of standard input. The terminal has shown them all by now."""
        descriptor, before = self.input.descriptor, len(self.input.buffer.lines)
        self.input.read()
        if descriptor is not None and self.terminal.is_of(descriptor):
            for _ in range(len(self.input.buffer.lines) - before):
                self.terminal.note_typed()
        if self.input.descriptor is None and descriptor is not None:
            self.loop.on_read(descriptor, None)
        self.end_input()

    def end_input(self) -> None:
        """Ends the recorder's lines, where no more can come."""
        if not self.is_open():
            self.current().lines.is_ending = True
            self.push(self.current())

    def take_line(self, line: bytes, asker: Asker = None) -> None:
        """Takes a line, and hands on what can be."""
        self.guard(line, asker, lambda: self.take(line, asker))
        self.hand_on()

    def guard(self, line: bytes, asker: Asker, call: Callable[[], None]) -> None:
        """Does what a line asks for; a fault of ours in that is said, and ends nothing."""
        try:
            call()
        except Exception as error:
            self.say(asker, said(f"{os.fsdecode(line)}: {type(error).__name__}: {error}"), False)

    def take(self, line: bytes, asker: Asker) -> None:
        """Takes a line. A mark is noted at once, since it is of this moment."""
        text = mark_in(line)
        if text is not None:
            self.mark(text, asker)
        elif self.given.is_prefiltered and not word_of(line):
            # It would change what the kernel doesn't know.
            why = "with --prefilter no line changes a filter, since the kernel runs it"
            self.say(asker, said(f"{os.fsdecode(line)}: {why}"), False)
        elif fault := self.changes.why_refused(line):
            self.say(asker, said(f"{os.fsdecode(line)}: {fault}"), False)
        else:
            self.held.append(self.changes.held(line, asker))

    def say(self, asker: Asker, text: str, is_done: bool) -> None:
        """Answers who asked; what was asked on standard input is answered on standard error."""
        if asker:
            asker(text, is_done)
            return
        for line in text.split("\n"):
            self.err(line)

    def hand_on(self) -> None:
        """Hands on the lines that the recorder takes."""
        recorder = self.current()
        if not self.held:
            return
        while self.held and self.held[0].is_ready() and not self.waits(recorder):
            self.hand(self.held.popleft(), recorder)
        if self.is_without(recorder):
            self.pass_by(recorder)
        recorder.lines.is_ending = recorder.lines.is_ending or not self.is_open()
        self.push(recorder)

    def is_without(self, recorder: Recorder) -> bool:
        """Whether nothing is recorded until a next recording begins, which may last; behind a killed one it begins soon."""
        return recorder.recording.has_failed

    def pass_by(self, recorder: Recorder) -> None:
        """Obeys the words that wait behind changes of filters. A change by the socket is refused, for whose answer
        somebody waits; one that was typed is of the next recording."""
        held, self.held = list(self.held), deque()
        for line in held:
            if line.word or line.change.asker:
                self.hand(line, recorder)
            else:
                self.held.append(line)

    def push(self, recorder: Recorder) -> None:
        """Hands on the lines that wait, and the rest once the recorder takes more."""
        lines = recorder.lines
        if lines.has_ended:
            return
        lines.write()
        self.loop.on_room(lines.writer, (lambda: self.push(recorder)) if lines.waiting else None)
        if lines.is_ending and not lines.waiting:
            lines.close()

    def end(self, recorder: Recorder) -> None:
        """Ends the lines of a recorder, once it has those that wait."""
        is_last = recorder is self.current() and not recorder.recording.has_failed and not recorder.recording.was_killed
        while self.held and is_last:
            self.hand(self.held.popleft(), recorder)
        recorder.lines.is_ending = True
        self.push(recorder)

    def hand(self, held: Held, recorder: Recorder) -> None:
        """Does what a line says, or hands it on."""
        self.guard(held.line, held.change.asker, lambda: self.pass_on(held, recorder))

    def pass_on(self, held: Held, recorder: Recorder) -> None:
        """Does what a line says, or hands it on; a filter that isn't made yet comes too late."""
        too_late = said(f"{os.fsdecode(held.line)}: the recording takes no more lines")
        fault, asker = held.fault() if held.is_ready() else too_late, held.change.asker
        if asker and not held.word and self.is_without(recorder):
            self.say(asker, said(f"{os.fsdecode(held.line)}: {NOTHING_RECORDED}"), False)
        elif fault:
            self.say(asker, fault, False)
        elif held.word is Word.HELP:
            self.say(asker, HELP, True)
        elif held.word:
            self.obey(held.word, asker)
        elif recorder.lines.is_ending:
            answer(asker, too_late, False)
        else:
            recorder.lines.put(*held.asked())

    def obey(self, word: Word, asker: Asker) -> None:
        """Does what a line says that is a word alone."""
        if word is Word.STOP:
            answer(asker, "the recording ends", True)
            self.ports.stop()
        elif word is Word.STATUS:
            self.say(asker, "\n".join(self.ports.report()), True)
        elif self.given.is_rotating() and self.is_without(self.current()):
            self.say(asker, said(f"next: {NOTHING_RECORDED}"), False)
        elif self.given.is_rotating():
            answer(asker, "the next recording begins", True)
            self.ports.next()
        else:
            self.say(asker, said("next: recordings follow one another with --every or --size alone"), False)

    def ended(self, recorder: Recorder) -> None:
        """Ends the lines of a recorder that has ended."""
        if not recorder.lines.has_ended:
            self.loop.on_room(recorder.lines.writer, None)
            recorder.lines.close()
        recorder.lines.forget()

    def leave_input(self) -> None:
        """All recordings have ended: what is typed from now on is read by who comes next, as a shell."""
        if self.input.descriptor is not None:
            self.loop.on_read(self.input.descriptor, None)

    def finish(self) -> None:
        """The run has ended: lines that nobody took are answered, and none comes any more."""
        for held in self.held:
            answer(held.change.asker, said(f"{os.fsdecode(held.line)}: the run has ended"), False)
        if self.socket:
            self.socket.close()
            self.socket = None

    def told(self, recorder: Recorder, line: str, changed: Callable[[Change, Answer], None]) -> str:
        """How a line of the recorder is told: an answer with the recording, where another one may follow. `changed` is
        called with each change that was answered, and its answer."""
        found = Answer.of(line)
        if not found or not recorder.lines.unanswered:
            return line
        change = recorder.lines.unanswered.pop(0)
        self.changes.answered(change, found.is_installed(), recorder.folder)
        changed(change, found)
        where = f" in {recorder.about.out}" if found.is_installed() and self.given.is_rotating() else ""
        told = f"{line}{where}{change.why_refused(line)}"
        answer(change.asker, told, found.is_installed())
        return told
