"""What a tenant's growth wants of a gateway: it goes on by a plan that has grown, and has pages split to more of the same grid (docs/NAMES.md, *Pages that split*).

`gridfs-client grow` locks `TENANT-0.wanted`, as another command locks that of a session for which it waits. As long as it does, a gateway locks `TENANT-N.grows` of each session N that it
has, and has all pages of these split, one bucket after another: so these are changes of its own, and a listing asks nobody. After each bucket it rests as long as that took of the
processor, where somebody asks for something. Once all are through it lets go of these locks, and the command has each session in turn, and sees to what is left.

A gateway splits pages wholly that a client would leave half split, since it lasts and has idle sessions, and each look at such names is two. It
has its own pages split itself, since nobody tells it what a session writes that it lends. It rests by its processor and not by the clock: over
nodes most of the time is waiting, which costs others nothing.
"""

import asyncio
import time
from collections.abc import Collection
from contextlib import suppress
from typing import IO, TYPE_CHECKING

from gridfs_client.answers import NO_SESSION, PlanTold
from gridfs_client.carriers import Carrier
from gridfs_client.errors import ClientError, Unanswered
from gridfs_client.layout import Layout, layout_of
from gridfs_client.settings import GROWTH

from .errors import error_of, tell
from .store import Store
from .workers import RETRY, Worker

if TYPE_CHECKING:
    from .sessions import Pool

PLAN_AGAIN, ANSWERS = 10.0, 2.0  # seconds after which all nodes are asked whether the plan has grown, and for which their answers are waited for
LOOK = 0.1  # seconds between looks whether it has
AGAIN = 30.0  # seconds after which a page that did not split is tried again
SPLIT_AT_ONCE, SPLIT_LEASE = 2, 5.0  # sessions by which a page splits at the same time; seconds for which one is waited for
ASKS_FOR = 1.0  # seconds for which somebody who asks is taken to ask for more


class Growing:
    """By later plans, and by pages that split to those of them."""

    def __init__(self, pool: "Pool"):
        self.pool = pool
        self.wants_plan = asyncio.Event()  # a page has split to others that are not known here
        self.locks: dict[int, IO[str]] | None = None  # of sessions whose pages all split, since a command waits for that; empty once they have
        self.tried: dict[tuple[int, int], float] = {}  # sessions with a page that did not split, and when

    async def follow_plan(self) -> None:
        """Goes on by a plan that has grown, once all nodes that answer have it."""
        while True:
            self.wants_plan.clear()
            if self.pool.is_open and self.pool.carrier:
                async with self.pool.asking:
                    layout = await self.pool.loop.run_in_executor(self.pool.threads, self.told_by_all, self.pool.carrier)
                    with suppress(ClientError):
                        await self.pool.loop.run_in_executor(self.pool.threads, self.pool.ask_room)
                if layout:
                    await self.take_layout(layout)
            await asyncio.sleep(RETRY)
            with suppress(asyncio.TimeoutError):
                await asyncio.wait_for(self.wants_plan.wait(), PLAN_AGAIN - RETRY)

    def told_by_all(self, carrier: Carrier) -> Layout | None:
        """(A thread's.) What all nodes that answer tell, where that is more volumes than are known here."""
        begun, found = carrier.now(), set[Layout]()
        try:
            carrier.attach(NO_SESSION)
            for place in range(carrier.told.nodes if carrier.told else 0):
                assert carrier.told
                carrier.send(carrier.told.node_at(place), b"plan")
            while (is_last := not carrier.silent_since(begun)) or carrier.now() < begun + ANSWERS:
                answer = carrier.receive(NO_SESSION, 0 if is_last else max(0, begun + ANSWERS - carrier.now()))
                if isinstance(answer, PlanTold):
                    found.add(layout_of(answer))
                elif is_last:
                    break
        except ClientError:
            return None
        self.pool.shared.may_grow = found == {self.pool.layout}
        more = found.pop() if len(found) == 1 else self.pool.layout
        return more if more.sessions == self.pool.layout.sessions and more.volumes[: len(self.pool.layout.volumes)] == self.pool.layout.volumes != more.volumes else None

    async def take_layout(self, layout: Layout) -> None:
        tell(f"{self.pool.named()}the plan has {len(layout.volumes)} volumes now, {len(layout.volumes) - len(self.pool.layout.volumes)} more than before")
        self.pool.layout = layout
        for number in list(self.pool.workers):
            try:
                worker = await self.pool.lease(number)
            except Unanswered:
                continue  # (it is renewed once its home answers)
            self.go_by_plan(worker)
            self.pool.release(worker)
        self.pool.shared.may_grow = True

    def go_by_plan(self, worker: Worker) -> None:
        """Has a worker that is leased go by the last plan."""
        if worker.store.layout is not self.pool.layout:
            carried = worker.store.writer.carried  # (its pages stay where they are)
            self.pool.renew(worker)
            worker.store.writer.take_carried(carried)

    async def split_on(self) -> None:
        """Has pages split wholly that have begun to, by each session that is here: else each look at their names is one at the old pages, too."""
        while True:
            await asyncio.sleep(RETRY)
            if self.locks:
                await self.grow(self.locks)
            elif self.pool.is_open:
                for page, whose in sorted(self.pool.shared.index.to_split(self.pool.layout).items()):
                    await self.split(page, whose)

    def see(self) -> None:
        """Where a command waits for that, all pages of the sessions that are here are to split; it has each session once that is done, and sees to what is left."""
        is_wanted = self.pool.is_open and self.pool.settings.is_wanted(GROWTH)
        if not is_wanted:
            self.locks = None
        elif self.locks is None:
            self.locks = {number: lock for number in self.pool.workers if (lock := self.pool.settings.grows(number))}

    async def grow(self, locks: dict[int, IO[str]]) -> None:
        """Has all pages of these sessions split, one after another, as long as a command waits for that."""
        try:
            self.wants_plan.set()
            until = time.monotonic() + PLAN_AGAIN
            while len(self.pool.layout.levels) == 1 and time.monotonic() < until:
                await asyncio.sleep(LOOK)
            for level in self.pool.layout.levels[:-1]:
                for page in range(level.first, level.first + level.pages):
                    if self.locks is not locks:
                        return
                    await self.split(page, locks.keys() - self.pool.shared.index.whole(page))
        finally:
            while locks:
                locks.popitem()[1].close()

    async def split(self, page: int, whose: Collection[int]) -> None:
        """Has a page split by these sessions, as far as they are here, some at a time, so that requests find one; and lets who asks for something have as much of the processor."""
        now, at_once = time.monotonic(), asyncio.Semaphore(max(1, min(SPLIT_AT_ONCE, len(self.pool.workers) // 2)))
        wanted = [number for number in sorted(whose) if number in self.pool.workers and now >= self.tried.get((number, page), now - AGAIN) + AGAIN]
        if wanted:
            used = sum(await asyncio.gather(*(self.split_by(number, page, at_once) for number in wanted)))
            await asyncio.sleep(used if time.monotonic() < self.pool.asked + ASKS_FOR else 0)

    async def split_by(self, number: int, page: int, at_once: asyncio.Semaphore) -> float:
        """The same by one session: how many seconds of the processor it took."""

        def split(store: Store) -> float:
            begun = time.thread_time()
            store.split(page)
            return time.thread_time() - begun

        async with at_once:
            worker = self.pool.workers[number]
            if worker.is_lent or worker.is_silent:
                return 0.0
            self.tried[number, page] = time.monotonic()
            try:
                async with asyncio.timeout(SPLIT_LEASE):  # (one that is lent may come back late)
                    await self.pool.lease(number)
                used = await self.pool.run(worker, split, is_soon=True)
                self.tried.pop((number, page), None)
                return used
            except (ClientError, TimeoutError) as fault:
                tell(f"{self.pool.named()}session {number}: page {page} does not split yet: {fault or 'it is used'}")
            except Exception as fault:
                error_of(fault)
            return 0.0
