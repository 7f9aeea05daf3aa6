"""A listing of names over several grids without input and output: which grids are to be looked at next, and what names hold.

All grids of the map are looked at side by side, each page of each. Then, as in the walk of one name (ways.py), each grid of a way has to be looked at after
the one before it; and a line that counts and is at a grid before the last one has to be there still in a look at the end. So some grids are looked at
again, for all such names together. Ways that go through the same grids in other orders are followed one after another.

    listing = Listing(fleet_map)
    while grids := listing.wanted:
        listing.looked({grid: .. for grid in grids})       # what a client knows of each bucket, or why the grid was silent
"""

from collections.abc import Callable, Collection, Iterable, Iterator, Mapping, Sequence
from dataclasses import dataclass

from . import core, ways
from .buckets import Held, held_of
from .core import Knows, Signpost
from .errors import BadSettings, ClientError, Replaced
from .fleet_map import FleetMap
from .layout import Layout
from .ways import Found, Stop, slice_of

MOST_LOOKS = 1_000  # while names go on and on


@dataclass(frozen=True)
class Told:
    """What a name holds, and in which looks that was seen: the first and the last."""

    held: Held
    first: int
    last: int


@dataclass(frozen=True)
class Looked:
    """What a client knows of each bucket of a grid, by its number; of those that have split nothing, but of the ones in their place."""

    layout: Layout
    buckets: Mapping[int, Knows]

    def pages_for(self, name: str) -> Iterable[core.Known]:
        """The pages that may have lines of a name."""
        numbers = (self.layout.page_of(name, level) for level in range(len(self.layout.levels)))
        return next(self.buckets[number].seen for number in numbers if number in self.buckets)


class Listing:
    """Names that begin so. `wanted` are the grids that are to be looked at next, `silent` those that gave no answer."""

    def __init__(self, fleet_map: FleetMap, prefix: str = ""):
        self.map, self.prefix = fleet_map, prefix
        self.wanted = {each.grid for each in fleet_map.ranges}
        self.needs: dict[tuple[str, ...], str] = {}  # of each way that is not followed yet the grid that is to be looked at next
        self.silent: dict[str, ClientError] = {}
        self.seen: dict[str, Looked] = {}  # what was seen last of each grid's buckets
        self.latest: dict[str, int] = {}  # in which look
        self.count = 0
        self.signposts: dict[str, set[Signpost]] = {}  # of all pages of a grid
        self.followed: set[int] = set()  # first slices of those whose grids were looked at one after another, whether a name was shown or not
        self.confirms: dict[str, tuple[Found, int]] = {}  # lines that are looked for once more, after this look
        self.done: dict[str, Told | None] = {}

    def looked(self, found: Mapping[str, Looked | ClientError]) -> None:
        """What came of the looks at the grids that were wanted."""
        self.count += 1
        self.needs = {}
        for grid, seen in found.items():
            if isinstance(seen, ClientError):
                self.silent[grid] = seen
            else:
                self.seen[grid], self.latest[grid] = seen, self.count
        self.signposts = {grid: {each for client in seen.buckets.values() for known in client.seen for each in known.page.signposts} for grid, seen in self.seen.items()}
        for first in self.firsts() - self.followed:
            if self.note_order(list(self.way(first, self.signposts.__getitem__))):
                self.followed.add(first)
        for name, lines in self.by_name().items():
            if name not in self.done:
                self.follow(name, lines)
        self.wanted = self.next_looks()
        if self.count > MOST_LOOKS and self.wanted:
            raise Replaced(f"names go to other grids on and on: {len(self.confirms)} are not told")

    def next_looks(self) -> set[str]:
        """What ways need, but for what would have another one to be followed anew: so the first of them goes on."""
        wanted, passed = set[str](), set[str]()
        for way, grid in sorted(self.needs.items()):
            if grid in wanted or grid not in passed:
                wanted.add(grid)
                passed.update(way)
        return wanted

    def firsts(self) -> set[int]:
        """The first slices of those that have one way."""
        seen = set[Signpost]().union(*self.signposts.values())
        return {each.first for each in self.map.ranges} | {each.first for each in seen} | {each.last + 1 for each in seen if each.last + 1 < ways.SLICES}

    def note_order(self, grids: Sequence[str]) -> bool:
        """Whether each grid of a way was looked at after the one before; else the first that was not is wanted."""
        for number, grid in enumerate(grids):
            if grid in self.silent:
                return False
            if grid not in self.seen or number and self.latest[grid] <= self.latest[grids[number - 1]]:
                self.needs[tuple(grids)] = grid
                return False
        return True

    def by_name(self) -> dict[str, list[Found]]:
        found: dict[str, list[Found]] = {}
        for grid, looked in self.seen.items():
            for session, known in ((session, known) for client in looked.buckets.values() for session, known in enumerate(client.seen, 1)):
                for line in known.page.lines:
                    if line.name.startswith(self.prefix):
                        found.setdefault(line.name, []).append(Found(core.version_of(line, session, grid), session, grid, line))
        return found

    def follow(self, name: str, lines: Sequence[Found]) -> None:
        """Tells the name, or wants another look."""
        grids = list(self.way(slice_of(name), lambda grid: self.shown_to(name, grid)))
        found = max((line for line in lines if line.grid in grids), key=ways.version_in, default=None)
        confirmed, since = self.confirms.pop(name, (None, 0))
        if found is None or found != confirmed or self.latest[found.grid] <= since:
            if not self.note_order(grids):
                return
            if found and found.grid != grids[-1]:
                self.confirms[name] = found, self.count
                self.needs[tuple(grids)] = found.grid
                return
        held = held_of(found)
        looks = [self.latest[grid] for grid in grids]
        self.done[name] = Told(held, min(looks), max(looks)) if held else None

    def shown_to(self, name: str, grid: str) -> set[Signpost]:
        """The signposts of the pages where the name has its lines."""
        return {each for known in self.seen[grid].pages_for(name) for each in known.page.signposts}

    def way(self, slice_number: int, signposts: Callable[[str], Collection[Signpost]]) -> Iterator[str]:
        """The grids of a way, as far as they were seen, each once: as it was come to last."""
        stops = [self.map.stop(slice_number)]
        while stops[-1].grid in self.seen:
            shown = [each for each in signposts(stops[-1].grid) if each.leads(slice_number, stops[-1].move)]
            if not shown:
                break
            onward = max(shown, key=lambda each: each.move)
            if onward.grid not in self.map.grids:
                raise BadSettings(f"{self.map.path}: a signpost leads to {onward.grid}, and the map has no such grid: get a later one")
            stops.append(Stop(onward.grid, onward.move))
        return reversed(dict.fromkeys(stop.grid for stop in reversed(stops)))

    def told(self) -> list[Told]:
        """What the names hold, in the order of their letters' numbers."""
        return [told for _, told in sorted(self.done.items()) if told]
