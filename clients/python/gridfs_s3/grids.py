"""The grids of a tenant: one, or those of a map, over which the names are spread; and who works by which sessions of them."""

import asyncio
from collections.abc import Callable, Sequence
from contextvars import ContextVar
from dataclasses import dataclass, field
from typing import TypeVar

from aiohttp import web
from gridfs_client.errors import BadSettings, ClientError, Unanswered
from gridfs_client.fleet import looked_at
from gridfs_client.fleet_map import FleetMap, read_map
from gridfs_client.listing import Looked
from gridfs_client.opening import turn_of
from gridfs_client.settings import OF_GATEWAYS, Settings
from gridfs_client.ways import Ground, Stop, slice_of

from .errors import S3Error
from .index import Index
from .sessions import Pool
from .shared import Turns
from .store import Store
from .trips import Elsewhere, Trip
from .workers import Lending, Worker

Told = TypeVar("Told")
asked_by: ContextVar[web.BaseRequest] = ContextVar("asked_by")  # the request for which something is done


@dataclass
class Want:
    """What somebody wants workers for: a name, the session that is to do it, if that is known, and grids to which its way was seen to lead, the one where it is
    to be done last."""

    name: str
    number: int | None = None
    is_sure: bool = False  # the session was told by the grid, not by who asks
    onward: list[str] = field(default_factory=list)
    full: set[tuple[str, int]] = field(default_factory=set)  # sessions, each with its grid, whose pages have no room for it

    def passes_over(self, pool: Pool, worker: Worker) -> bool:
        """Leaves out a session whose page has no room; whether there is another one."""
        self.full.add((pool.grid, worker.number))
        left = [each.number for each in pool.workers.values() if (pool.grid, each.number) not in self.full and not each.is_silent and not each.is_lent]
        self.number = left[0] if left else None
        return bool(left)

    def goes_on(self, fault: Elsewhere) -> None:
        self.onward = [grid for grid in self.onward if grid != fault.grid] + [fault.grid]
        if fault.session is not None:
            self.number, self.is_sure = fault.session, True


@dataclass
class Taken:
    """The workers that somebody has: the one by which something is done, and one at each other grid of the way."""

    pool: Pool
    worker: Worker
    others: list[tuple[Pool, Worker]]
    trip: Trip | None

    @property
    def workers(self) -> list[tuple[Pool, Worker]]:
        return [(self.pool, self.worker), *self.others]

    @property
    def has_written(self) -> bool:
        return any(worker.session.has_written for _, worker in self.workers)

    def release(self) -> None:
        for pool, worker in self.workers:
            pool.release(worker)

    async def run(self, work: Callable[[Store], Told], keep: bool = False, is_soon: bool = False) -> Told:
        return await self.pool.run(self.worker, work, keep, is_soon, self.trip, self.others)


class Grids:
    """The pool of each grid; without a map there is one, whose word is empty."""

    def __init__(self, settings: Settings, index: Index | None = None):
        self.settings, self.turns, self.gathering, self.lending = settings, Turns(), asyncio.Lock(), Lending()
        self.map = read_map(settings.values["map"]) if "map" in settings.values else None
        self.pools: dict[str, Pool] = {}
        if self.map and (named := sorted(OF_GATEWAYS.keys() & settings.values.keys())):
            raise BadSettings(f"{named[0]}: over several grids gateways don't tell one another what they changed")
        if not self.map:
            self.pools[""] = Pool(settings, self.lending, self.turns, index=index)

    @property
    def tenant(self) -> str:
        """The tenant whose access keys these are; of a map that says none, the first grid's."""
        if not self.map or "tenant" in self.settings.values:
            return self.settings.tenant
        grid, file = next(iter(self.map.grids.items()))
        return self.settings.of_grid(self.map.path, grid, file).tenant

    async def open(self) -> None:
        """Opens all grids, of which one has to answer: others are opened once they do."""
        if not self.map:
            await self.pools[""].begin()
        else:
            await self.adopt(self.map)
        if not any(pool.is_open for pool in self.pools.values()):
            raise next((pool.fault for pool in self.pools.values() if pool.fault), Unanswered("no grid answers"))

    async def adopt(self, fleet_map: FleetMap) -> None:
        """Goes on by a map, whose new grids are opened."""
        new = {grid: file for grid, file in fleet_map.grids.items() if grid not in self.pools}
        for grid, file in new.items():
            settings = self.settings.of_grid(fleet_map.path, grid, file)
            self.pools[grid] = Pool(settings, self.lending, self.turns, self.ground(grid))
        self.map = fleet_map
        await asyncio.gather(*(self.pools[grid].begin() for grid in new))

    def ground(self, grid: str) -> Ground:
        """What the map says of a grid, as it is then."""

        def arrived(slice_number: int) -> int | None:
            assert self.map
            stop = self.map.stop(slice_number)
            return stop.move if stop.grid == grid and self.map.is_clear(slice_number) else None

        return Ground(grid, arrived)

    @property
    def has_all(self) -> bool:
        return all(pool.has_all for pool in self.pools.values())

    @property
    def sessions(self) -> int:
        """How many sessions the grid with the most of them has."""
        return max(pool.sessions for pool in self.pools.values())

    @property
    def workers(self) -> int:
        return sum(len(pool.workers) for pool in self.pools.values())

    def clocks(self) -> dict[str, float]:
        """By how many seconds the clock of each node is ahead of this machine's, of those that told it a moment ago."""
        return {f"{pool.named()}node {node}": ahead for pool in self.pools.values() for node, ahead in pool.clocks().items()}

    def has_session(self, number: int) -> bool:
        return any(number in pool.workers for pool in self.pools.values())

    def pool(self, grid: str) -> Pool:
        """Unanswered where the grid has not answered yet."""
        if not self.pools[grid].is_open:
            raise Unanswered(f"{grid or 'the grid'} does not answer")
        return self.pools[grid]

    # Ways

    def way(self, name: str) -> list[str]:
        """The grids of a name's way as far as is known: pages that were read before show signposts."""
        if not self.map:
            return [""]
        slice_number = slice_of(name)
        stop, found = self.map.stop(slice_number), list[str]()
        while True:
            found = [grid for grid in found if grid != stop.grid] + [stop.grid]
            pages = self.pools[stop.grid].known_pages(name)
            shown = [each for page in pages for each in page.signposts if each.leads(slice_number, stop.move) and each.grid in self.pools]
            if not shown:
                return found
            signpost = max(shown, key=lambda each: each.move)
            stop = Stop(signpost.grid, signpost.move)

    def pools_of(self, name: str) -> list[Pool]:
        return [self.pool(grid) for grid in self.way(name)]

    def is_settled(self, name: str) -> bool:
        """Whether all sessions of the tenant are here, and nothing is under way into the pages of a name but changes of this gateway that are asked for now."""
        return all(pool.is_settled(pool.page_of(name)) for pool in self.pools_of(name))

    # Taking workers

    async def take(self, want: Want) -> Taken:
        (taken,) = await self.take_all([want])
        return taken

    async def take_all(self, wants: Sequence[Want]) -> list[Taken]:
        """Workers for all of these. A ConnectionResetError where nobody is there any more who asked for it: nothing was begun."""
        found = await self.take_in_turn(wants)
        if (request := asked_by.get(None)) and (request.transport is None or request.transport.is_closing()):
            for taken in found:
                taken.release()
            raise ConnectionResetError("the client has gone")
        return found

    async def take_in_turn(self, wants: Sequence[Want]) -> list[Taken]:
        """Workers for all of these: who waits for several at a time is the only one."""
        grids = [self.grids_for(want) for want in wants]
        if len(wants) == len(grids[0]) == 1:
            pool = self.pool(grids[0][0])
            return [self.taken([(pool, await pool.lease(self.number(wants[0], pool), self.preferred(wants[0], pool)))])]
        self.expect_workers([grid for each in grids for grid in each])
        found: dict[tuple[int, str], tuple[Pool, Worker]] = {}
        async with self.gathering:
            try:
                # (those of a number first: no other one of these is to have them)
                places = [(at, grid) for at, each in enumerate(grids) for grid in each]
                for at, grid in sorted(places, key=lambda place: self.number_at(wants, grids, place) is None):
                    pool = self.pool(grid)
                    found[at, grid] = pool, await pool.lease(self.number_at(wants, grids, (at, grid)), self.preferred(wants[at], pool))
            except BaseException:
                for pool, worker in found.values():
                    pool.release(worker)
                raise
        return [self.taken([found[at, grid] for grid in each]) for at, each in enumerate(grids)]

    def grids_for(self, want: Want) -> list[str]:
        """The grids of its way; the last one is where it is to be done."""
        return [grid for grid in self.way(want.name) if grid not in want.onward] + want.onward

    def number_at(self, wants: Sequence[Want], grids: Sequence[Sequence[str]], place: tuple[int, str]) -> int | None:
        at, grid = place
        return self.number(wants[at], self.pool(grid)) if grid == grids[at][-1] else None

    def number(self, want: Want, pool: Pool) -> int | None:
        """The session that is wanted; any, where that of an upload may have been moved. 503 ServiceUnavailable where another gateway has it."""
        if want.number is None or want.number in pool.workers:
            return want.number
        if want.is_sure or not self.map:
            raise S3Error("ServiceUnavailable", "Another gateway of the tenant has this upload.")
        return None

    def preferred(self, want: Want, pool: Pool) -> int:
        """The session by which changes of a name mostly go: so its lines are mostly in one page."""
        numbers = list(pool.workers)
        return numbers[turn_of(want.name, len(numbers))] if numbers else 0

    def expect_workers(self, grids: Sequence[str]) -> None:
        for grid in set(grids):
            workers = self.pool(grid).workers.values()
            if len(workers) < grids.count(grid):
                raise S3Error("NotImplemented", "A gateway with one session copies at most 1 MiB.")
            if sum(not worker.is_silent for worker in workers) < grids.count(grid):
                raise Unanswered("too few sessions have a home that answers")

    def taken(self, workers: list[tuple[Pool, Worker]]) -> Taken:
        *others, (pool, worker) = workers
        trip = Trip(self.map, {pool.grid: worker.store for pool, worker in workers}) if self.map else None
        return Taken(pool, worker, others, trip)

    # Listings

    def is_exact(self) -> bool:
        """Whether the indexes of all grids have what names hold, with nobody asked: none of them lacks anything, no move is under way, and no name went on to a
        grid that the map lacks."""
        pools = self.pools.values()
        return self.map is not None and not self.map.moves and all(pool.all_pages.is_exact() and pool.shared.index.leads <= self.pools.keys() for pool in pools)

    async def look_at(self, grid: str) -> Looked | ClientError:
        """What is seen of each bucket of a grid, by another session where the home of one is silent; or why it can't be told."""
        for turn in range(3):
            try:
                pool = self.pool(grid)
                return await pool.run(await pool.lease(), looked_at, is_soon=turn < 2)
            except ClientError as fault:
                told = fault
        return told
