"""What a connection has to send: lines of all its sessions, which leave one after another."""

import threading
from collections.abc import Callable, Iterator
from contextlib import contextmanager
from weakref import WeakKeyDictionary

from .carriers import Carrier

FEW = 65_536  # bytes that may wait for an answer at a time on a slow connection, or one longer line
LOOK = 0.5  # seconds until a line that waits for its turn looks again how far the connection is


class Uplink:
    """What a connection has to send: the lines of all its sessions, which leave one after another.

    The turn of a line is a time of a clock of the connection's own. Answers put that clock forward: what was answered has left, and
    all before it.
    """

    def __init__(self) -> None:
        self.most = float("inf")  # bytes that may wait for an answer at a time, or one longer line
        self.waiting = 0
        self.change = threading.Condition()
        self.forward = 0.0  # by how many seconds this clock is ahead of the carrier's
        self.free = 0.0  # when, by this clock, all has left

    @contextmanager
    def room_for(self, size: int) -> Iterator[None]:
        """A line of so many bytes may be sent, once others have been answered or given up, and waits for its answer."""
        with self.change:
            self.change.wait_for(lambda: not self.waiting or self.waiting + size <= self.most)
            self.waiting += size
        try:
            yield
        finally:
            self.end_waiting(size)

    def begin_waiting(self, size: int) -> bool:
        """Whether a line of so many bytes may be sent now: then it waits for its answer, until `end_waiting`."""
        with self.change:
            if self.waiting and self.waiting + size > self.most:
                return False
            self.waiting += size
            return True

    def end_waiting(self, size: int) -> None:
        with self.change:
            self.waiting -= size
            self.change.notify_all()

    def take_turn(self, now: float, seconds: float) -> float:
        """The turn of a line that is sent now, and takes so many seconds."""
        with self.change:
            turn = max(self.free, now + self.forward)
            self.free = turn + seconds
            return turn

    def time_of(self, turn: float) -> float:
        """When a turn comes, by the carrier's clock."""
        return turn - self.forward

    def note_left(self, now: float, end: float) -> None:
        """What has its turn before this one has left."""
        with self.change:
            self.forward = max(self.forward, end - now)

    def note_broken(self, now: float) -> None:
        """The connection has ended, and what waited is lost. From now on one long line waits at a time: two may have been too much for it."""
        self.note_left(now, self.free)
        self.most = FEW


UPLINKS: WeakKeyDictionary[Carrier, Uplink] = WeakKeyDictionary()


def uplink_of(carrier: Carrier) -> Uplink:
    """That of the carrier's connection, the same for all its sessions."""
    return UPLINKS.setdefault(carrier, Uplink())


class Sent:
    """A line that was sent. It waits for its turn, and from then on so many seconds for an answer."""

    def __init__(self, uplink: Uplink, now: Callable[[], float], length: float, patience: float):
        self.uplink, self.now, self.patience = uplink, now, patience
        self.turn = uplink.take_turn(now(), length)
        self.end = self.turn + length
        self.again: float | None = None  # when it is sent again, once it has left

    def left(self) -> float:
        """How many seconds an answer is waited for now; none where the line has to be sent again."""
        now = self.now()
        if self.again is None:
            wait = self.uplink.time_of(self.turn) - now
            if wait > 0:
                return min(wait, LOOK)
            self.again = now + self.patience
        return self.again - now
