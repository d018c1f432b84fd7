"""Datagrams put in order by their numbers: what is missing, doubled or too late is counted."""

from __future__ import annotations

from typing import Callable, Optional

from bpfrec.formats.transfer import NUMBERS, Datagram

# How many datagrams wait for one that is missing, and how many in a row that lie far behind begin a stream anew.
WIDTH, MOST_BEHIND = 64, 16


class Window:
    """`take` gets each datagram in order, `gap` how many are missing ahead of a number, and `restarted` is called where
    another stream begins."""

    def __init__(
        self, take: Callable[[Datagram], None], gap: Callable[[int, int], None], restarted: Callable[[], None]
    ) -> None:
        self.take, self.gap, self.restarted = take, gap, restarted
        # The number that comes next, and those that wait by how far behind it they are.
        self.next: Optional[int] = None
        self.held: dict[int, Datagram] = {}
        # The datagram with number 0 of the stream, where it came.
        self.first: Optional[Datagram] = None
        self.lost = self.doubled = 0
        # The last of those in a row that lay far behind, and how many these are.
        self.behind, self.behind_count = -1, 0

    def add(self, datagram: Datagram) -> None:
        """Takes a datagram as it came."""
        number = datagram.number
        if self.next is None:
            # The first ones may have changed places; where the number is higher, a part of the stream was missed.
            self.next = 0 if number < WIDTH else number
        ahead = (number - self.next) % NUMBERS
        if ahead >= NUMBERS // 2:
            self.take_behind(datagram)
            return
        self.behind_count = 0
        if number in self.held:
            self.doubled += 1
            return
        self.held[number] = datagram
        if number == 0:
            self.first = datagram
        while self.held and (self.next in self.held or self.must_go_on()):
            self.go_on()

    def must_go_on(self) -> bool:
        """Whether what is missing is waited for no longer: too many wait, or one is too far ahead."""
        assert self.next is not None
        return any((it - self.next) % NUMBERS >= WIDTH for it in self.held)

    def go_on(self) -> None:
        """Gives the next datagram that is there, with what is missing ahead of it."""
        next_number = self.next or 0
        ahead = min((it - next_number) % NUMBERS for it in self.held)
        number = (next_number + ahead) % NUMBERS
        if ahead:
            self.lost += ahead
            self.gap(ahead, number)
        self.next = (number + 1) % NUMBERS
        self.take(self.held.pop(number))

    def give_up(self) -> None:
        """Waits no longer for what is missing."""
        while self.held:
            self.go_on()

    def take_behind(self, datagram: Datagram) -> None:
        """Takes a datagram that had its turn: it came twice or too late, or another stream has begun."""
        is_next = datagram.number == (self.behind + 1) % NUMBERS
        self.behind, self.behind_count = datagram.number, self.behind_count + 1 if is_next else 1
        if datagram.number == 0 and self.begins_anew(datagram) or self.behind_count >= MOST_BEHIND:
            self.give_up()
            # Those in a row before it were counted as doubled, and are missing.
            self.next, self.behind_count = datagram.number, 0
            self.restarted()
            self.add(datagram)
            return
        self.doubled += 1

    def begin_anew(self) -> None:
        """The next datagram is another stream's."""
        self.give_up()
        self.next, self.first, self.behind_count = None, None, 0
        self.restarted()

    def begins_anew(self, first: Datagram) -> bool:
        """Whether a datagram with number 0 is another stream's: it isn't that of this one, or comes long after it."""
        is_far = self.next is not None and (self.next - first.number) % NUMBERS > WIDTH
        return is_far or self.first is not None and first != self.first
