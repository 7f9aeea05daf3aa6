"""The tenant of the endpoint: how operations look and change, and what all of them need."""

import asyncio
import time
from collections.abc import AsyncIterator, Callable, Iterable, Mapping
from concurrent.futures import ThreadPoolExecutor
from contextlib import AsyncExitStack, asynccontextmanager, closing, suppress
from dataclasses import dataclass
from typing import TypeVar

from gridfs_client.buckets import Held
from gridfs_client.errors import ClientError, NoRoom, NoSuchName, SessionTaken, Unanswered
from gridfs_client.fleet import MAP_NAME
from gridfs_client.fleet_map import parse_map, read_map
from gridfs_client.listing import Listing

from . import metrics
from .bodies import body_of
from .bounds import IN_HAND, Places
from .clocks import Clock
from .errors import S3Error, tell
from .grids import Grids, Taken, Want
from .index import Few, Names, Union
from .keys import Key
from .looker import Looked
from .markup import Element, element, many, parse
from .places import BUCKETS, Object, check_bucket, of_words
from .requests import Asked, matches
from .sessions import Pool
from .store import Condition, NoLine, PageFull, Store
from .trips import Elsewhere
from .versions import Place, Restated, expect_id, is_there

Told = TypeVar("Told")
KNOWN_FOR = 2.0  # seconds for which a bucket that was there is taken to be there
TURNS = 20  # how often a change begins anew that wants the room of all sessions while others do, or judges a condition amid others
LONGEST_XML = 4 << 20
MOST_GRIDS = 4  # of a way, whose pages are settled
LENT_FOR = 20.0  # seconds for which a condition waits for a session that another command has
WATCH, WATCH_FOR, MOST_FAILURES = 10.0, 60.0, 3  # seconds after which it looks whether it still can do anything, for which it waits, and failures that are too many
PROBE = f"{BUCKETS}-"  # (which no bucket is)
MAP_AGAIN = 5.0  # seconds after which a later map is looked for


def map_in(store: Store) -> bytes | None:
    """The fleet's own map, where there is one."""
    try:
        _, parts, data = store.read(MAP_NAME, whole)
    except NoSuchName:
        return None
    return data + b"".join(parts)


def whole(held: Held | None) -> tuple[int, int]:
    if not held:
        raise NoSuchName(MAP_NAME)
    return 0, held.content.size


def state_in(bucket: str, held: Held | None) -> str:
    """The state of a bucket's versions, by what stands at its name. 404 NoSuchBucket."""
    if not held:
        raise S3Error("NoSuchBucket", BucketName=bucket)
    return of_words(held.words).get("v", "")


@dataclass(frozen=True)
class Glance:
    """What was seen of a name with no session: the rows of its volume, if it was looked at, and what it holds, if that was known of such pages."""

    looked: Looked | None = None
    is_known: bool = False
    held: Held | None = None


class NotSettled(Exception):
    """A condition can't be judged now: a change of the page got no answer since. Nothing was changed."""


class Gateway:
    """One tenant, by the sessions of its grids."""

    def __init__(self, grids: Grids, tenant: str, keys: Mapping[str, Key], region: str | None, domain: str | None):
        self.grids, self.tenant, self.keys, self.domain = grids, tenant, keys, domain
        self.region, self.region_is_told = region or "us-east-1", region is not None
        self.known_buckets: dict[str, tuple[float, str]] = {}  # when they were seen, and the state of their versions
        self.clock = Clock(nodes=grids.clocks)
        self.places, self.documents = Places(), asyncio.Semaphore(IN_HAND)
        self.parsing = ThreadPoolExecutor(2, "documents")  # (which bodies don't wait for)
        self.in_memory = 0  # gets whose answer may be in memory though it is not short
        self.map_faults = list[str]()  # what was the matter when a later map was looked for last
        if not grids.map:
            grids.pools[""].all_pages.secret = lambda: next(iter(self.keys.values())).secret.encode()

    # Sessions

    async def take(self, want: Want) -> Taken:
        begin = time.monotonic()
        try:
            return await self.grids.take(want)
        finally:
            metrics.waits.labels(self.tenant).observe(time.monotonic() - begin)

    async def go_on(self, want: Want, fault: Elsewhere) -> None:
        """To where something has to be done, perhaps a grid that only a later map has."""
        if fault.grid not in self.grids.pools:
            await self.look_for_map()
        if fault.grid not in self.grids.pools:
            raise S3Error("ServiceUnavailable", f"A signpost leads to the grid {fault.grid}, and the map has no such grid. Nothing was changed.")
        want.goes_on(fault)

    async def glance(self, name: str) -> Glance:
        """A look at the pages of a name, which began since this was asked for, and is for all who asked meanwhile. (Over several grids a name has a way.)"""
        if self.grids.map:
            return Glance()
        pool = self.grids.pool("")
        layout, page = pool.layout, pool.page_of(name)
        if not pool.shared.index.is_alone(layout, page):
            return Glance()
        volume, files = pool.shared.files(layout, page)
        if not (rows := await pool.looker.rows(volume, files)):
            return Glance()
        known = pool.shared.recall(name, page, tuple(map(rows.__getitem__, files)))
        return Glance((page, rows), True, known[0]) if known else Glance((page, rows))

    async def held(self, name: str) -> Held | None:
        """What a name holds; by some session, where that is not known of its pages as they are."""
        seen = await self.glance(name)
        return seen.held if seen.is_known else await self.look(name, lambda store: store.look(name, seen.looked))

    async def look(self, name: str, work: Callable[[Store], Told], has_begun: Callable[[], bool] = lambda: False) -> Told:
        """Has some session do what changes nothing; another one where its home is silent, as long as nothing of an answer is out."""
        want, silent = Want(name), 0
        for _ in range(TURNS):
            taken = await self.take(want)
            try:
                return await taken.run(work, is_soon=silent < 2)
            except Elsewhere as fault:
                await self.go_on(want, fault)
            except (Unanswered, SessionTaken):
                silent += 1
                if silent > 2 or has_begun():
                    raise
        raise S3Error("ServiceUnavailable", "The name goes from grid to grid again and again.")

    async def change(self, name: str, work: Callable[[Store], Told], number: int | None = None, condition: Condition | None = None) -> Told:
        """Has a session change something, this one or any; another one where its page has no room, or its home is silent and nothing was written yet. The
        condition is one by which the work is done."""
        want, silent, has_searched = Want(name, number), 0, False
        for _ in range(TURNS):
            await asyncio.gather(*(pool.settle_before(name) for pool in self.grids.pools_of(name)))
            async with self.judging(condition, name):
                taken = await self.take(want)
                try:
                    return await taken.run(work, is_soon=number is None and silent < 2)
                except Elsewhere as fault:
                    await self.go_on(want, fault)
                except PageFull as full:
                    await taken.pool.sweep(full.page)
                except NoLine:
                    if number is not None or not want.passes_over(taken.pool, taken.worker):
                        raise
                except NoRoom:
                    if has_searched or not await taken.pool.sweeps.found_room():
                        raise
                    has_searched = True
                except (NotSettled, Restated):
                    pass
                except Unanswered:
                    silent += 1
                    if taken.has_written or number is not None or silent > 2:
                        raise
        raise S3Error("ServiceUnavailable", "Many others change this at the same time. Nothing was changed.")

    async def listing(self, work: Callable[[Names], Told]) -> Told:
        """What comes of names, each with what it held at some moment of the call. Unanswered where a grid is silent.

        The index of a grid has them. It is right without a look where nobody else changes a page: what it lacks then is what nobody has seen, of changes that
        are under way. Else all pages that others may have changed are looked at first; over several grids along the ways of all names."""
        if not self.grids.map:
            return await self.listing_by(self.grids.pool(""), work)
        if not (self.grids.is_exact() and all(await asyncio.gather(*(pool.all_pages.find_sessions() for pool in self.grids.pools.values())))):
            return await self.all(lambda every: work(Few(every)))
        names = Union([pool.shared.index for pool in self.grids.pools.values()])
        return await asyncio.get_running_loop().run_in_executor(None, lambda: work(names))

    async def listing_by(self, pool: Pool, work: Callable[[Names], Told]) -> Told:
        """The same of one grid. Others may look meanwhile: a page may come into the index whose line went because of one that is not there yet. Then it is begun anew."""
        index = pool.shared.index
        for _ in range(TURNS):
            if not (pool.all_pages.is_exact() and await pool.all_pages.find_sessions()):
                await pool.all_pages.look()
            is_whole, before = not index.open, index.times_open
            told = await pool.loop.run_in_executor(pool.threads, lambda: work(index))
            if is_whole and index.times_open == before:
                break
        return told

    async def all(self, work: Callable[[Iterable[Held]], Told]) -> Told:
        """What comes of all that names hold, with their contents and words, each at some moment of the call: all pages are read. Unanswered where a grid is silent."""
        if not self.grids.map:
            return await self.look("", lambda store: work(store.all()))
        listing = Listing(self.grids.map)
        while wanted := sorted(listing.wanted):
            for grid in wanted:
                if grid not in self.grids.pools:
                    raise Unanswered(f"a grid is not known yet: {grid}")
            listing.looked(dict(zip(wanted, await asyncio.gather(*map(self.grids.look_at, wanted)))))
            for grid, fault in listing.silent.items():
                raise Unanswered(f"{grid}: {fault}")
        return await asyncio.get_running_loop().run_in_executor(None, lambda: work(told.held for told in listing.told()))

    # The map

    async def look_for_map(self) -> None:
        """Goes on by a later map, where one is in its file, or in the fleet. What is no map there is told, and passed over."""
        before, faults = self.grids.map, list[str]()
        if not before:
            return
        latest = before
        try:
            latest = read_map(before.path)
            if content := await self.look(MAP_NAME, map_in):
                found = parse_map(content.decode("ascii"), MAP_NAME).by_settings_of(latest)
                latest = max(latest, found, key=lambda each: each.age)
        except (ClientError, S3Error) as fault:
            faults.append(str(fault))
        except UnicodeDecodeError:
            faults.append(f"{MAP_NAME}: no map of a fleet")
        if latest.age > before.age:
            try:
                await self.grids.adopt(latest)
            except ClientError as fault:
                faults.append(str(fault))
        if faults and faults != self.map_faults:
            tell(f"a later map is not found: {'; '.join(faults)}")
        self.map_faults = faults

    async def follow_maps(self) -> None:
        while True:
            await asyncio.sleep(MAP_AGAIN)
            await self.look_for_map()
            await self.share_in_moves()

    async def share_in_moves(self) -> None:
        """Does for moves that are under way what is its own sessions', so that a mover on another machine need not have these."""
        assert self.grids.map
        for move in self.grids.map.moves:
            pool = self.grids.pools[move.source]
            for number, page in pool.pages_lacking(move):
                with suppress(ClientError):
                    await pool.run(await pool.lease(number), lambda store, move=move, page=page: store.share_in(move, page))  # type: ignore[misc]

    # Whether it still can do what it is for

    async def watch(self) -> str:
        """Why the gateway can't go on, once that is so: what has to last has ended, or a look at a name meets again and again a fault that nobody knows. (A
        grid that does not answer is told elsewhere, and comes back.)"""
        failures = 0
        while True:
            await asyncio.sleep(WATCH)
            for pool in self.grids.pools.values():
                for task in pool.lasting:
                    if task.done() and not task.cancelled():
                        return f"{pool.named()}what has to last has ended: {task.exception()!r}"
            try:
                async with asyncio.timeout(WATCH_FOR):
                    await self.look(PROBE, lambda store: store.look(PROBE))
                failures = 0
            except (ClientError, S3Error, asyncio.TimeoutError):
                failures = 0
            except Exception as fault:
                failures += 1
                if failures == MOST_FAILURES:
                    return f"each look at a name fails: {fault!r}"

    # Pages that are settled

    @asynccontextmanager
    async def judging(self, condition: Condition | None, name: str) -> AsyncIterator[None]:
        """Where there is a condition no session is lent meanwhile, and the name's pages are settled. 503 ServiceUnavailable where a session's home is silent, or
        other commands have sessions for long: nothing was changed."""
        if not condition:
            yield
            return
        async with AsyncExitStack() as judged:
            try:
                await asyncio.wait_for(judged.enter_async_context(self.grids.lending.judge()), LENT_FOR)
            except asyncio.TimeoutError:
                raise S3Error("ServiceUnavailable", "A condition needs all sessions, and another command has one. Nothing was changed.") from None
            for _ in range(MOST_GRIDS):  # (what is read meanwhile may show that the way goes on)
                if self.grids.is_settled(name):
                    break
                await asyncio.gather(*(pool.settle(pool.page_of(name)) for pool in self.grids.pools_of(name)))
            if not self.grids.is_settled(name):
                raise S3Error("ServiceUnavailable", "A condition needs all sessions, and the home of one is silent. Nothing was changed.")
            yield

    async def condition_of(self, asked: Asked, name: str) -> Condition | None:
        """What judges a conditional change of a name, right before it, while no other one of the name is under way.

        It is judged rightly where this gateway is the tenant's only writer, and nothing of earlier ones is under way into the page. 501 NotImplemented
        where it is not; 412 PreconditionFailed; 404 NoSuchKey for If-Match of a key that is not there.
        """
        match, none = asked.headers.get("if-match"), asked.headers.get("if-none-match")
        if match is None and none is None:
            return None
        if none not in (None, "*"):
            raise S3Error("NotImplemented", "If-None-Match of a put has to be *.")

        def judge(held: Held | None) -> None:
            held = is_there(held)
            if none and held:
                raise S3Error("PreconditionFailed", Condition="If-None-Match")
            if match is not None and not held:
                raise S3Error("NoSuchKey", Key=asked.key)
            if match is not None and held and not matches(match, Object(asked.key, held).etag):
                raise S3Error("PreconditionFailed", Condition="If-Match")

        return self.judged(name, judge)

    def judged(self, name: str, judge: Condition) -> Condition:
        """This condition, as nobody can change the name between it and the change. 501 NotImplemented where others may."""
        self.expect_all()

        def condition(held: Held | None) -> None:
            if not self.grids.is_settled(name):
                raise NotSettled
            judge(held)

        return condition

    def expect_all(self) -> None:
        """501 NotImplemented where this gateway has not all sessions."""
        if not self.grids.has_all and all(pool.is_open for pool in self.grids.pools.values()):
            what = "Conditional puts, changes of tags, and objects that expire"
            raise S3Error("NotImplemented", f"{what} need a gateway that has all sessions of its tenant: others write by the rest.")

    # Bodies

    def expect_room(self, size: int) -> None:
        """507 InsufficientStorage for what would have no room if nothing else were there. (What has none now is seen once it is here.)"""
        pools = list(self.grids.pools.values())
        rooms = [pool.most_bytes if pool.is_open else None for pool in pools]
        if all(room is not None and size > room for room in rooms):
            why = "" if any(rooms) else f": {pools[0].why_no_room()}"
            raise S3Error("InsufficientStorage", f"The tenant has no room for so long a content{why}.")

    async def document(self, asked: Asked, name: str, is_of_content: bool = True) -> Element:
        """The root of the XML of a request's body. The errors of a body; 400 MalformedXML; 501 NotImplemented for an element that is not known."""
        body, loop = body_of(asked, is_of_content), asyncio.get_running_loop()
        if body.told_size > LONGEST_XML:
            raise S3Error("EntityTooLarge")
        await let_body_come(asked)
        with closing(await body.spooled()) as spool:
            async with self.documents:
                return await loop.run_in_executor(self.parsing, lambda: parse(spool.read(0, spool.size), name, asked.elements))

    async def text(self, asked: Asked, most: int) -> bytes:
        """The whole of a request's body that is no content. The errors of a body."""
        body = body_of(asked, is_of_content=False)
        await let_body_come(asked)
        return await body.all(most)

    # Buckets

    async def need_bucket(self, bucket: str) -> str:
        """The state of a bucket's versions, empty where it never had any. 400 InvalidBucketName, 404 NoSuchBucket; 501 NotImplemented where it has versions, over
        several grids."""
        check_bucket(bucket)
        if (known := self.state_known(bucket)) is not None:
            return known
        self.known_buckets.pop(bucket, None)
        seen = time.monotonic()
        state = state_in(bucket, await self.held(BUCKETS + bucket))
        if state and self.grids.map:
            raise S3Error("NotImplemented", "The bucket has versions, which are not told apart over several grids.")
        return self.knows(bucket, seen, state)

    def state_known(self, bucket: str) -> str | None:
        """The state of a bucket's versions, if it was seen no more than two seconds ago."""
        seen, state = self.known_buckets.get(bucket, (-KNOWN_FOR, ""))
        return state if time.monotonic() - seen < KNOWN_FOR else None

    def knows(self, bucket: str, seen: float, state: str) -> str:
        """The state as it is known now: this one, if nobody saw it later."""
        if len(self.known_buckets) > 1_000:
            self.known_buckets.clear()
        known = self.known_buckets[bucket] = max((seen, state), self.known_buckets.get(bucket, (seen, state)))
        return known[1]

    def state_now(self, bucket: str, store: Store) -> str:
        """(A thread's.) The state of a bucket's versions, as it was two seconds ago at the earliest. 404 NoSuchBucket."""
        if (known := self.state_known(bucket)) is not None or self.grids.map:
            return known or ""
        seen = time.monotonic()
        return self.knows(bucket, seen, state_in(bucket, store.look(BUCKETS + bucket)))

    async def place_of(self, bucket: str, key: str, version: str | None) -> Place:
        """Where an object is looked for. 400 InvalidArgument for what is no ID of a version; the errors of need_bucket."""
        state = await self.need_bucket(bucket)
        return Place(bucket, key, state, expect_id(version))

    def owner(self, name: str = "Owner") -> str:
        return many(name, element("ID", self.tenant), element("DisplayName", self.tenant))


class Operations:
    """Operations on one kind of resource. Each is called as S3's documentation names it, and gives the answer to a request."""

    def __init__(self, gateway: Gateway):
        self.gateway, self.grids = gateway, gateway.grids


async def let_body_come(asked: Asked) -> None:
    """Tells a client that waits for that word to send the body."""
    await asyncio.sleep(0)
    if asked.is_expecting and asked.request.transport:
        asked.is_expecting = False
        asked.request.transport.write(b"HTTP/1.1 100 Continue\r\n\r\n")
