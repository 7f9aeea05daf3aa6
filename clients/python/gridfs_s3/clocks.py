"""Whether age can be told by this machine's clock. What is removed because it is old rests on that: a clock that is years ahead would have all go.

That a client signs by the same time is wanted, and is not enough: many correct their clock by that of a gateway that has refused them. So a refusal counts against
the clock for a day. And so does what was put last before this process began, where that is long ago: then either nobody wrote, or this clock is ahead. The first
ends in a day, in which clients agree and none is refused; the second is told to whoever runs the gateway.

No client has a say in the clocks of nodes. Where these tell theirs, more than half of those that answer have to agree.
"""

import time
from collections.abc import Callable, Iterable, Mapping

from gridfs_client.buckets import FIRST_MOMENT, Held

from .places import number_of, of_words

SET = 900.0  # seconds by which a clock is off that was set to another time
DAY = 86_400.0


class Clock:
    """This machine's clock. Times of what was put are milliseconds since the epoch, all others seconds. `nodes` tells by how much theirs are ahead."""

    def __init__(
        self,
        wall: Callable[[], float] = time.time,
        steady: Callable[[], float] = time.monotonic,
        nodes: Callable[[], Mapping[str, float]] = dict,
    ):
        self.wall, self.steady, self.nodes = wall, steady, nodes
        self.began, self.doubted = wall(), steady()  # the start; and until when clients were to agree for a day, where that is wanted
        self.agreed: float | None = None  # by how much the clock was ahead of the steady one when a client agreed last
        self.refused: float | None = None  # when a client was refused last, since its clock is another one
        self.last_put: float | None = None  # before the start

    def note_agreement(self) -> None:
        """A client has signed a request by a time that is near the clock's."""
        self.agreed = self.wall() - self.steady()

    def note_disagreement(self) -> None:
        """A client's key has signed one by another time."""
        self.refused = self.doubted = self.steady()

    def look(self, every: Iterable[Held]) -> None:
        """Looks for what was put last before the start. (What has no time, or one of before there were grids, tells nothing.)"""
        times = (number_of(of_words(held.words), "t") / 1000 for held in every)
        self.last_put = max((each for each in times if FIRST_MOMENT <= each < self.began), default=self.began)

    def others(self) -> list[str]:
        """The nodes whose clock is another one, each with what it tells."""
        differ = ((node, ahead) for node, ahead in self.nodes().items() if abs(ahead) >= SET)
        return [f"that of {node} is {how_long(abs(ahead))} {'ahead' if ahead > 0 else 'behind'}" for node, ahead in differ]

    def doubt(self) -> str | None:
        """Why age can't be told now; None where it can."""
        others, many = self.others(), len(self.nodes())
        if 2 * len(others) >= many > 0:
            return f"this machine's clock is not that of {len(others)} of {many} nodes ({', '.join(others)}). Set the one that is wrong"
        if self.agreed is None or abs(self.wall() - self.steady() - self.agreed) >= SET:
            return "no client has signed a request by the time of this machine's clock yet, or it was set since"
        if self.steady() - self.doubted >= DAY:
            return None
        if self.refused is not None:
            return "a client's clock is another one than this machine's. Set the one that is wrong; where it is the client's, this ends after a day without such a client"
        if self.last_put is not None and self.began - self.last_put > DAY:
            days = (self.began - self.last_put) / DAY
            return f"the last put is {days:.0f} days older than the start of this gateway. If this machine's clock is right, it ends a day after the start"
        return None


def how_long(seconds: float) -> str:
    """For who reads it."""
    return f"{seconds / DAY:.0f} days" if seconds >= 2 * DAY else f"{seconds / 60:.0f} minutes"
