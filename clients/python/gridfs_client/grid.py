"""How the nodes of a grid are arranged, and whether it goes on without those that are silent.

What a node tells of rows and columns wins over the setting `grid`: four nodes may also be one column, or four. With a wrong setting
contents would be kept at nodes that are no column, and nobody would notice before a disk is lost.
"""

import math
from collections.abc import Iterable, Mapping
from dataclasses import dataclass, field

from .answers import PlanTold

MOST_ROWS = MOST_COLUMNS = 8


@dataclass(frozen=True)
class Shape:
    """So many rows and columns. Place p is in row p div COLUMNS and column p mod COLUMNS."""

    rows: int
    columns: int

    @property
    def nodes(self) -> int:
        return self.rows * self.columns

    def row(self, number: int) -> range:
        """The places of a row."""
        return range(number * self.columns, (number + 1) * self.columns)

    def column(self, number: int) -> range:
        """The places of a column."""
        return range(number, self.nodes, self.columns)

    def rows_up(self, silent: set[int]) -> list[int]:
        """The rows without a silent place."""
        return [number for number in range(self.rows) if silent.isdisjoint(self.row(number))]

    def columns_up(self, silent: set[int]) -> list[int]:
        """The columns without a silent place."""
        return [number for number in range(self.columns) if silent.isdisjoint(self.column(number))]

    def goes_on(self, silent: set[int]) -> bool:
        """Whether operations can end: some row and some column have no silent place."""
        return bool(self.rows_up(silent) and self.columns_up(silent))


def told_shape(told: PlanTold) -> Shape | None:
    """How the nodes are arranged, as a node told it; None where it is of before, and did not."""
    return Shape(told.rows, told.columns) if told.rows else None


def possible_shapes(nodes: int) -> list[Shape]:
    """The shapes that a grid of so many nodes can have."""
    rows = [number for number in range(1, MOST_ROWS + 1) if nodes % number == 0]
    return [Shape(number, nodes // number) for number in rows if nodes // number <= MOST_COLUMNS]


def square(nodes: int) -> Shape | None:
    """The square of so many nodes; None where there is none."""
    side = math.isqrt(nodes)
    return Shape(side, side) if side * side == nodes else None


def listed(things: Iterable[object]) -> str:
    """`0`, `0 and 1`, or `0, 1 and 2`."""
    *first, last = map(str, things)
    return f"{', '.join(first)} and {last}" if first else last


@dataclass(frozen=True)
class Nodes:
    """The nodes of a grid with those that are silent, how they are arranged, if that is said, and which forms of lines between nodes some told."""

    told: PlanTold
    silent: frozenset[int]
    said: Shape | None = None
    forms: Mapping[int, int] = field(default_factory=dict)

    @property
    def shape(self) -> Shape | None:
        """How the nodes are arranged: as it is said, else as a square, if they can be one."""
        return self.said or square(self.told.nodes)

    @property
    def silent_places(self) -> set[int]:
        return {place for place in range(self.told.nodes) if self.told.node_at(place) in self.silent}

    def form_of(self, node: int) -> int | None:
        """The form of lines that a node told; None where it is silent, or told none."""
        return None if node in self.silent else self.forms.get(node)

    def of_before(self) -> list[str]:
        """Where nodes that answer speak different forms of lines: those that don't speak the latest one, a line for each form."""
        by_form: dict[int, list[int]] = {}
        for node in sorted(map(self.told.node_at, range(self.told.nodes))):
            form = self.form_of(node)
            if form is not None:
                by_form.setdefault(form, []).append(node)
        latest = max(by_form, default=0)
        return [
            f"node{'s' * (len(nodes) > 1)} {listed(nodes)} speak{'s' * (len(nodes) == 1)} form {form} of lines, others form {latest}: {'its' if len(nodes) == 1 else 'their'} program is of before"
            for form, nodes in sorted(by_form.items())
            if form < latest
        ]

    def goes_on(self) -> bool | None:
        """Whether a row and a column are wholly up; None where that depends on the arrangement, which is not known."""
        shapes = [self.said] if self.said else possible_shapes(self.told.nodes)
        found = {shape.goes_on(self.silent_places) for shape in shapes}
        if len(found) == 1:
            return found.pop()
        return True if self.shape and self.shape.goes_on(self.silent_places) else None

    def lacking(self) -> str:
        """What is not wholly up, of a row and a column; empty where both are, or the arrangement is not known."""
        if not self.shape:
            return ""
        up = {"no row": self.shape.rows_up(self.silent_places), "no column": self.shape.columns_up(self.silent_places)}
        missing = [what for what, numbers in up.items() if not numbers]
        doubt = "" if self.said else f", if the grid is {self.shape.rows} by {self.shape.columns}"
        return f"{' and '.join(missing)} is wholly up{doubt}" if missing else ""

    def summary(self) -> str:
        """In one line which nodes are silent, and what that comes to."""
        if not self.silent:
            return f"all {self.told.nodes} nodes answer"
        is_one, lacking = len(self.silent) == 1, self.lacking()
        text = f"node{'' if is_one else 's'} {listed(sorted(self.silent))} {'is' if is_one else 'are'} silent"
        return f"{text}: {lacking}" if lacking else text
