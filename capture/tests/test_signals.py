"""The signals that end a run, and those by which its feeds go over (capture/src/signals.c)."""

import signal

from c_units import Script
from support import MILLISECOND, SECOND, wait_for


class Unit(Script):
    """A run, by what signals have asked of it."""

    PROGRAM = "signals"

    def begin(self) -> None:
        self.wait(0)
        assert self.ask("begin") == "1"
        self.switches = 0

    def state(self) -> list[int]:
        """How many switches were asked for, whether a reader follows, and whether the run is to end, and at once."""
        return [int(it) for it in self.ask("state").split()]

    def come(self, number: signal.Signals) -> tuple[bool, bool]:
        """Whether the run is to end, and at once, as soon as a signal is served: INT is, before USR1 is."""
        self.ask("send", int(number))
        self.ask("send", int(signal.SIGUSR1))
        self.switches += 1
        wait_for("they are served", lambda: self.state()[0] == self.switches)
        return self.state()[2] == 1, self.state()[3] == 1


def test_signals_within_a_second_of_the_first_are_one_and_a_later_one_hurries(unit: Unit) -> None:
    """As a terminal and a script may send the same; those in between don't begin the second anew."""
    unit.begin()
    assert unit.come(signal.SIGINT) == (True, False)
    for pause in (0, 50 * MILLISECOND, 850 * MILLISECOND, 100 * MILLISECOND):
        unit.wait(pause)
        assert unit.come(signal.SIGINT) == (True, False), pause
    unit.wait(1)
    assert unit.come(signal.SIGINT) == (True, True)


def test_a_late_second_signal_hurries(unit: Unit) -> None:
    unit.begin()
    unit.come(signal.SIGINT)
    unit.wait(3600 * SECOND)
    assert unit.come(signal.SIGINT) == (True, True)


def test_a_word_that_a_reader_follows_holds_until_the_next_switch(unit: Unit) -> None:
    unit.begin()
    for count in range(1, 4):
        unit.ask("send", int(signal.SIGUSR2))
        wait_for("it is held", lambda: unit.state()[1] == 1)
        unit.ask("send", int(signal.SIGUSR1))
        wait_for("it goes over", lambda: unit.state() == [count, 0, 0, 0])
