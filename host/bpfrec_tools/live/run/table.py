"""The run of live as a table: in which state what happens leads to which state, and what is done then.

A run opens its interfaces, its recorder and OUT; it records; where recordings follow one another it hands over; and it
ends. ROWS has for each state what changes something in it, and all else changes nothing. A timer runs in its own states
alone.
"""

from __future__ import annotations

from enum import Enum


class State(Enum):
    """Where a run is."""

    STARTING = "the capture opens its interfaces"
    OPENING = "the recorder opens its pipes and OUT"
    RECORDING = "a recording goes on"
    HANDING_OVER = "the next recorder opens, and the recording before isn't done"
    OVERLAPPING = "the next recording goes on, and the one before isn't done"
    RETRYING = "OUT failed or the recorder was killed, and the next recording is to begin"
    ENDING = "the capture is to end, and the last recorder behind it"
    DRAINING = "the capture has ended, and the last recorder hasn't"
    HURRIED = "what doesn't end is killed"
    CONCLUDING = "the last recording is audited"
    REFUSED = "nothing was recorded, and what runs is to end"
    DONE = "all has ended"


class Event(Enum):
    """What happens to a run. A recorder is the one of the recording that goes on, if nothing else is said."""

    READY = "all interfaces are open"
    OUT_REFUSED = "OUT can't be created"
    OPENED = "the recorder has opened OUT"
    DUE = "the next recording is due"
    ROOM = "the next recording may be tried"
    NEXT_BEGUN = "the next recorder was started, and the recording before isn't done"
    NEXT_ALONE = "the next recorder was started, and no other one runs"
    BEFORE_DONE = "the recording before is done"
    OUT_FAILED = "OUT can't be written any more, and another recording may follow"
    LAST_OUT_FAILED = "OUT can't be written any more, and none may follow"
    RECORDER_KILLED = "the recorder was killed, and another recording may follow"
    RECORDER_ENDED = "the recorder has ended"
    CAPTURE_REFUSED = "the capture has ended, and has begun nothing"
    CAPTURE_ENDED = "the capture has ended"
    CAPTURE_ENDED_EARLY = "the capture has ended before all interfaces were open"
    ALL_ENDED = "the capture and all recorders have ended"
    CONCLUDED = "all is known of the last recording"
    SIGNAL = "a signal ends the run"
    SIGNAL_AT_START = "a signal ends the run, whose recorder waits for feeds of its own"
    LATER_SIGNAL = "another signal hurries the end"
    STUCK = "the capture, which nobody reads, hasn't ended in time"
    CAPTURE_OVERDUE = "the capture hasn't ended in a hurry"
    RECORDER_UNREAD = "nobody reads OUT in time"
    RECORDER_OVERDUE = "the recorder hasn't ended in time"
    UNOPENED = "the recorder waits for pipes that the capture doesn't open any more"


class Action(Enum):
    """What is done, for the recording that goes on where one is meant."""

    CREATE_OUT = "creates OUT, unless the recorder has ended, and has the capture find the recorder's pipes"
    BEGIN_NEXT = "starts the next recorder"
    GO_OVER = "has the capture go over to the next recorder's pipes, and ends the lines of the one before"
    END_FEEDING = "tells what brings frames to end: the capture, or without interfaces the lines"
    HOLD_FRAMES = "has the capture keep frames for the next recorder, and ends the lines"
    FREE_OUT = "kills the recorder and closes OUT, which would keep its room on the disk"
    END_LINES = "ends the lines that change filters"
    LET_GO = "opens the pipes for which the recorder waits"
    KILL_CAPTURE = "kills the capture"
    KILL_RECORDER = "kills the recorder"
    KILL_ALL = "kills recorders and audits"
    REPORT = "prints what the recorder reported, and audits the recording"


class Timer(Enum):
    """What waits for a moment. Whether a next recording is due or may be tried is looked at in RECORDING and RETRYING."""

    HURRY = "when a capture that nobody reads gets a second signal to end"
    GIVE_UP = "when a recorder that may hang is killed"
    KILL = "when what still runs is killed in a hurry"
    LET_GO = "when the pipes are opened again for which a recorder waits"


TIMERS = {
    State.ENDING: {Timer.HURRY, Timer.GIVE_UP},
    State.DRAINING: {Timer.GIVE_UP, Timer.LET_GO},
    State.HURRIED: {Timer.HURRY, Timer.KILL, Timer.LET_GO},
    State.REFUSED: {Timer.KILL},
}

S, E, A = State, Event, Action
Outcome = tuple[State, tuple[Action, ...]]
# What may happen in each state in which frames come.
FEEDING: dict[Event, Outcome] = {
    E.CAPTURE_ENDED: (S.DRAINING, (A.END_LINES, A.LET_GO)),
    E.SIGNAL: (S.ENDING, (A.END_FEEDING,)),
}
GOING: dict[Event, Outcome] = {
    **FEEDING,
    E.OUT_FAILED: (S.RETRYING, (A.HOLD_FRAMES, A.FREE_OUT)),
    E.RECORDER_KILLED: (S.RETRYING, (A.HOLD_FRAMES,)),
    E.RECORDER_ENDED: (S.ENDING, (A.END_FEEDING,)),
}
ROWS: dict[State, dict[Event, Outcome]] = {
    S.STARTING: {
        E.READY: (S.OPENING, (A.CREATE_OUT,)),
        E.RECORDER_ENDED: (S.ENDING, (A.END_FEEDING,)),
        E.CAPTURE_REFUSED: (S.REFUSED, (A.KILL_RECORDER,)),
        E.CAPTURE_ENDED_EARLY: (S.DRAINING, (A.CREATE_OUT, A.END_LINES, A.LET_GO)),
        E.SIGNAL: (S.ENDING, (A.END_FEEDING,)),
    },
    S.OPENING: {
        **GOING,
        E.OPENED: (S.RECORDING, ()),
        E.LAST_OUT_FAILED: (S.ENDING, (A.END_FEEDING,)),
        E.OUT_REFUSED: (S.REFUSED, (A.KILL_CAPTURE, A.KILL_RECORDER)),
        E.SIGNAL_AT_START: (S.REFUSED, (A.KILL_RECORDER,)),
    },
    S.RECORDING: {
        **GOING,
        E.LAST_OUT_FAILED: (S.ENDING, (A.END_FEEDING,)),
        E.DUE: (S.RECORDING, (A.BEGIN_NEXT,)),
        E.NEXT_BEGUN: (S.HANDING_OVER, (A.GO_OVER,)),
    },
    S.HANDING_OVER: {**GOING, E.OPENED: (S.OVERLAPPING, ()), E.BEFORE_DONE: (S.OPENING, ())},
    S.OVERLAPPING: {**GOING, E.BEFORE_DONE: (S.RECORDING, ())},
    S.RETRYING: {
        **FEEDING,
        E.ROOM: (S.RETRYING, (A.BEGIN_NEXT,)),
        E.NEXT_BEGUN: (S.HANDING_OVER, (A.GO_OVER,)),
        E.NEXT_ALONE: (S.OPENING, (A.GO_OVER,)),
    },
    S.ENDING: {
        E.READY: (S.ENDING, (A.CREATE_OUT,)),
        E.OUT_REFUSED: (S.REFUSED, (A.KILL_CAPTURE, A.KILL_RECORDER)),
        E.RECORDER_ENDED: (S.ENDING, (A.END_FEEDING,)),
        E.CAPTURE_REFUSED: (S.REFUSED, (A.KILL_RECORDER,)),
        E.CAPTURE_ENDED: (S.DRAINING, (A.END_LINES, A.LET_GO)),
        E.CAPTURE_ENDED_EARLY: (S.DRAINING, (A.CREATE_OUT, A.END_LINES, A.LET_GO)),
        E.ALL_ENDED: (S.CONCLUDING, (A.REPORT,)),
        E.SIGNAL: (S.ENDING, (A.END_FEEDING,)),
        E.SIGNAL_AT_START: (S.REFUSED, (A.KILL_RECORDER,)),
        E.LATER_SIGNAL: (S.HURRIED, (A.END_FEEDING,)),
        E.STUCK: (S.ENDING, (A.END_FEEDING,)),
        E.RECORDER_OVERDUE: (S.ENDING, (A.KILL_RECORDER,)),
    },
    S.DRAINING: {
        E.OUT_REFUSED: (S.REFUSED, (A.KILL_RECORDER,)),
        E.OUT_FAILED: (S.DRAINING, (A.END_LINES, A.FREE_OUT)),
        E.ALL_ENDED: (S.CONCLUDING, (A.REPORT,)),
        E.LATER_SIGNAL: (S.HURRIED, ()),
        E.RECORDER_UNREAD: (S.REFUSED, (A.KILL_RECORDER,)),
        E.RECORDER_OVERDUE: (S.DRAINING, (A.KILL_RECORDER,)),
        E.UNOPENED: (S.DRAINING, (A.LET_GO,)),
    },
    S.HURRIED: {
        E.READY: (S.HURRIED, (A.CREATE_OUT,)),
        E.OUT_REFUSED: (S.REFUSED, (A.KILL_CAPTURE, A.KILL_RECORDER)),
        E.RECORDER_ENDED: (S.HURRIED, (A.END_FEEDING,)),
        E.CAPTURE_REFUSED: (S.REFUSED, (A.KILL_RECORDER,)),
        E.CAPTURE_ENDED: (S.HURRIED, (A.END_LINES, A.LET_GO)),
        E.CAPTURE_ENDED_EARLY: (S.HURRIED, (A.CREATE_OUT, A.END_LINES, A.LET_GO)),
        E.ALL_ENDED: (S.HURRIED, (A.REPORT,)),
        E.CONCLUDED: (S.DONE, ()),
        E.SIGNAL: (S.HURRIED, (A.END_FEEDING,)),
        E.STUCK: (S.HURRIED, (A.END_FEEDING,)),
        E.CAPTURE_OVERDUE: (S.HURRIED, (A.KILL_CAPTURE,)),
        E.RECORDER_UNREAD: (S.REFUSED, (A.KILL_RECORDER,)),
        E.RECORDER_OVERDUE: (S.HURRIED, (A.KILL_ALL,)),
        E.UNOPENED: (S.HURRIED, (A.LET_GO,)),
    },
    S.CONCLUDING: {E.CONCLUDED: (S.DONE, ()), E.LATER_SIGNAL: (S.HURRIED, ())},
    S.REFUSED: {
        E.RECORDER_ENDED: (S.REFUSED, (A.END_FEEDING,)),
        E.ALL_ENDED: (S.DONE, ()),
        E.SIGNAL: (S.REFUSED, (A.END_FEEDING,)),
        E.LATER_SIGNAL: (S.REFUSED, (A.END_FEEDING,)),
        E.CAPTURE_OVERDUE: (S.REFUSED, (A.KILL_CAPTURE,)),
        E.RECORDER_OVERDUE: (S.REFUSED, (A.KILL_ALL,)),
    },
    S.DONE: {},
}


def outcome_of(state: State, event: Event) -> Outcome:
    """The state to which an event leads, and what is done then."""
    return ROWS[state].get(event, (state, ()))
