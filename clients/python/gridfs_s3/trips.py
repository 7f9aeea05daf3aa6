"""The way of a name over several grids, for one operation, which has a session at each of them."""

from collections.abc import Mapping

from gridfs_client import ways
from gridfs_client.buckets import Held, held_of
from gridfs_client.fleet import FleetFiles
from gridfs_client.fleet_map import FleetMap
from gridfs_client.names import NamedFiles
from gridfs_client.ways import Walk


class Elsewhere(Exception):
    """What is to be done has to be done at another grid, or by another session there. Nothing was changed."""

    def __init__(self, grid: str, session: int | None = None):
        super().__init__(grid, session)
        self.grid, self.session = grid, session


class Trip(FleetFiles):
    """Looks along the ways of names over these grids; Elsewhere where a way leads to another one."""

    def __init__(self, fleet_map: FleetMap, stores: Mapping[str, NamedFiles]):
        super().__init__(fleet_map, lambda grid, _: self.grid(grid))
        self.grids.update(stores)
        self.walked: Walk | None = None  # the last walk for a change

    def grid(self, grid: str) -> NamedFiles:
        if grid not in self.grids:
            raise Elsewhere(grid)
        return self.grids[grid]

    def look(self, name: str) -> Held | None:
        return held_of(ways.greatest(self.walk(name)))

    def look_for_change(self, name: str, grid: str) -> Held | None:
        """What the name holds, for a change at this grid, which has to be the last one of its way."""
        self.walked = self.walk_for_change(name, with_own=True)
        if self.walked.last.grid != grid:
            raise Elsewhere(self.walked.last.grid)
        return held_of(ways.greatest(self.walked))

    def look_again(self, name: str, grid: str, is_wanted: bool) -> Held | None:
        """The same right before the change: by another walk where that is wanted, or where a page was looked at since the last one."""
        if is_wanted or not self.walked or not self.is_as_walked(self.walked):
            return self.look_for_change(name, grid)
        return held_of(ways.greatest(self.walked))
