"""Where chunks are, as lines of pages say it."""

from collections.abc import Iterable
from dataclasses import dataclass

Place = tuple[int, int, int]  # of a chunk: its column, session and number
MOST_NUMBER = (1 << 64) - 1


@dataclass(frozen=True)
class Run:
    """Chunks of one session at one column, whose numbers follow one another."""

    column: int
    session: int
    first: int
    count: int = 1

    @property
    def last(self) -> int:
        return self.first + self.count - 1

    def numbers(self) -> range:
        return range(self.first, self.first + self.count)

    def places(self) -> Iterable[Place]:
        return ((self.column, self.session, number) for number in self.numbers())

    def text(self) -> str:
        """`0.1:90` or `0.1:90+2`: column and session, the first number, and how many more there are."""
        return f"{self.column}.{self.session}:{self.first}" + (f"+{self.count - 1}" if self.count > 1 else "")


def parse_run(text: str) -> Run:
    """A ValueError for numbers that no chunk has."""
    column, _, rest = text.partition(".")
    session, _, numbers = rest.partition(":")
    first, _, more = numbers.partition("+")
    run = Run(int(column), int(session), int(first), 1 + int(more or 0))
    if run.last > MOST_NUMBER:
        raise ValueError(text)
    return run


def runs_of(places: Iterable[Place]) -> tuple[Run, ...]:
    """The runs of these chunks, in their order."""
    runs: list[Run] = []
    for column, session, number in places:
        last = runs[-1] if runs else None
        if last and (last.column, last.session, last.last + 1) == (column, session, number):
            runs[-1] = Run(column, session, last.first, last.count + 1)
        else:
            runs.append(Run(column, session, number))
    return tuple(runs)
