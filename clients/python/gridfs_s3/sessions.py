"""The sessions of a tenant at one grid, which this gateway has for itself, and who works by which."""

import asyncio
import gc
import time
from collections import Counter
from collections.abc import Callable, Collection, Sequence
from concurrent.futures import ThreadPoolExecutor
from contextlib import suppress
from dataclasses import replace
from typing import Any, TypeVar

from gridfs_client.answers import Tag
from gridfs_client.asking import ask_plan
from gridfs_client.carriers import Carrier
from gridfs_client.core import Page
from gridfs_client.ends import End, read_end, write_end
from gridfs_client.errors import BadSettings, CarrierFault, ClientError, SessionTaken, Unanswered, UnusableFile
from gridfs_client.fleet_map import Move
from gridfs_client.in_chunks import ChunkContents, why_none
from gridfs_client.layout import Layout, layout_of
from gridfs_client.opening import SOON
from gridfs_client.settings import Settings
from gridfs_client.ways import Ground, slice_of

from .all_pages import AllPages
from .claims import Claims
from .errors import error_of, tell
from .going_on import GoingOn
from .growing import Growing
from .index import Index
from .looker import Looker
from .peers import AllBut
from .shared import Shared, Turns
from .store import Store
from .sweeping import Sweeps
from .trips import Trip
from .workers import RETRY, Lending, Turn, Wanted, Who, Worker, who_asks

Told = TypeVar("Told")
TIDY = 30.0  # seconds
BEFORE, PAGES_BEFORE = 0.5, 2  # seconds for which a change waits until its page is settled; pages that are at a time for that
TRIES = 60  # of settling a page by a session whose home is silent
LOOK = 0.1  # seconds between looks at what other commands want
TOLD_FOR = 60.0  # seconds for which a node's clock goes on as it told it
COLLECTIONS = 700, 10, 100  # thresholds of Python's collections of cycles: full ones are ten times as seldom as it has them


class Pool:
    """All workers. Whoever waits for one gets it by turns; those whose homes are silent are left out as long as there are others. Where another command of
    this machine waits for a session, it is lent to that."""

    def __init__(self, settings: Settings, lending: Lending, turns: Turns, ground: Ground | None = None, index: Index | None = None):
        self.settings, self.ground, self.lending = settings, ground, lending
        self.shared = Shared(turns, index or Index(grid=ground.grid if ground else ""))
        self.grid = ground.grid if ground else ""
        self.workers: dict[int, Worker] = {}
        self.waiting: list[Wanted] = []
        self.begun: dict[int, asyncio.Task[None]] = {}  # pages on which something is changed, each with what settles it before
        self.carrier: Carrier | None = None
        self.layout: Layout  # once it is opened
        self.sessions = 0  # of the tenant, once it is opened
        self.fault: ClientError | None = None  # why it was not opened at first
        self.threads = ThreadPoolExecutor(32, thread_name_prefix="session")
        self.loop = asyncio.get_running_loop()
        self.looker = Looker(self.loop, lambda: self.carrier, lambda: self.settings.pace().rate)
        self.tasks: set[asyncio.Task[None]] = set()
        self.lends: set[int] = set()  # numbers of sessions that are lent, or are to be
        self.lasting: list[asyncio.Task[None]] = []  # what goes on as long as the gateway does
        self.all_pages = AllPages(self, {} if ground else settings.values)  # (over several grids no other gateway is asked)
        self.claims = Claims(settings, lambda claim, answer: self.loop.call_soon_threadsafe(self.loop.add_reader, claim, answer), self.all_pages.meet)
        self.going_on, self.growing, self.sweeps = GoingOn(self), Growing(self), Sweeps(self)
        self.asking = asyncio.Lock()  # of who asks all nodes: what they tell of no session is kept for one who asks
        self.settling, self.before = asyncio.Semaphore(), asyncio.Semaphore(PAGES_BEFORE)  # so that requests find a session
        self.has_begun = False  # to see to what earlier clients left
        self.tidied: set[int] = set()  # numbers of sessions whose pages are being settled
        self.asked = 0.0  # when somebody asked for something last

    # Beginning

    def open(self) -> None:
        """Opens the carrier, and takes the sessions that no other client of this machine has. Faults as those of a client."""
        carrier = self.settings.carrier()
        try:
            told = ask_plan(carrier, self.settings.pace())
            layout = layout_of(told)
            if not self.is_open or len(layout.volumes) > len(self.layout.volumes):  # (a node may know an earlier plan still)
                self.layout = layout
            for number in self.settings.session_numbers(told.sessions):
                self.add(carrier, number, told.home_of(number))
        except BaseException:
            carrier.close()
            raise
        if not self.workers:
            carrier.close()
            others = self.claims.told()
            raise SessionTaken(f"other clients use all sessions that the settings name{': ' * bool(others)}{others}")
        self.carrier, self.sessions = carrier, told.sessions
        self.ask_room()

    def ask_room(self) -> None:
        """(A thread's.) Asks nodes what room they have for chunks."""
        if contents := self.chunk_contents():
            contents.chunks.another().ask_rooms(SOON)

    def add(self, carrier: Carrier, number: int, home: int) -> Worker | None:
        """A worker of a session, or one that is there by this carrier; None where another client has it."""
        known = self.workers.get(number)
        lock = known.lock if known else self.settings.lock(number)
        if lock is None:
            return None
        if not known and not self.claims.take(number):
            lock.close()
            return None
        session = Turn(carrier, number, home, self.settings.pace())
        session.notes, session.looker = self.going_on.notes, self.looker
        worker = known or Worker(session, lock)
        worker.session = session
        self.renew(worker)
        self.workers[number] = worker
        return worker

    async def begin(self) -> None:
        """Opens it, or has it opened as soon as that can be done; then what goes on side by side with requests. Faults of settings are raised."""
        self.all_pages.listen()
        try:
            await self.loop.run_in_executor(self.threads, self.open)
            if others := self.claims.told():
                tell(f"{self.named()}not all sessions can be had: {others}")
        except (BadSettings, UnusableFile):
            raise
        except ClientError as fault:
            self.fault = fault
            tell(f"{self.named()}{fault}: it is tried again")
            self.spawn(self.open_again())
        await self.going_on.begin()
        lasting = self.tidy(), self.lend_on(), self.growing.follow_plan(), self.growing.split_on(), self.sweeps.go_on()
        self.lasting = list(map(self.spawn, lasting))

    def named(self) -> str:
        return f"{self.grid}: " if self.grid else ""

    @property
    def is_open(self) -> bool:
        return self.sessions > 0

    @property
    def has_all(self) -> bool:
        """Whether all sessions of the tenant are here."""
        return self.is_open and len(self.workers) == self.sessions

    @property
    def most_bytes(self) -> int | None:
        """What all columns have room for; None where no node told it yet."""
        contents = self.chunk_contents()
        return contents.chunks.allowed() if contents else 0

    def why_no_room(self) -> str:
        """Why the tenant has no room for chunks, where it has none."""
        return why_none(self.chunk_contents())

    @property
    def in_chunks(self) -> tuple[int, int]:
        """The bytes of chunks, and those for which there is room, as nodes told them some seconds ago."""
        contents = self.chunk_contents()
        return contents.chunks.room_told() if contents else (0, 0)

    def clocks(self) -> dict[int, float]:
        """By how many seconds the clock of each node is ahead of this machine's, of those that told it a moment ago."""
        if not self.carrier:
            return {}
        since = self.carrier.now() - TOLD_FOR
        return {node: ahead for node, ahead in sorted(self.carrier.clocks.items()) if self.carrier.heard.get(node, since) > since}

    def chunk_contents(self) -> ChunkContents | None:
        """Those of some session, where it is said how the nodes are arranged."""
        return next((worker.store.writer.contents for worker in self.workers.values()), None)

    def renew(self, worker: Worker) -> None:
        """Forgets all that the worker knows of files; its pages are settled anew, by and by."""
        worker.store = Store(worker.session, self.layout, self.shared, self.ground)
        worker.session.has_settled = worker.store.writer.has_settled_all
        if self.has_begun:
            self.loop.call_soon_threadsafe(lambda: self.spawn(self.tidy_session(worker.number)))

    def page_of(self, name: str) -> int:
        """The page of a name, at the last level to which names of its bucket went on, as far as is known."""
        return self.shared.index.page_of(self.layout, name)

    def known_pages(self, name: str) -> list[Page]:
        """The pages that may have lines of a name, as they were seen last."""
        if not self.is_open:
            return []
        index, number = self.shared.index, self.page_of(name)
        found = (index.known(index.counting(number, session), session) for session in range(1, self.sessions + 1))
        return [known.page for known in found if known]

    def pages_lacking(self, move: Move) -> list[tuple[int, int]]:
        """The sessions that are here, each with its pages that may not be yet as a move wants them, as they were seen last."""
        numbers = [number for number, worker in self.workers.items() if not worker.is_lent and not worker.is_silent]
        index = self.shared.index
        whole = [page for page in self.layout.page_numbers if index.is_begun(self.layout, page) and page not in index.split]
        pages = [(number, page, index.known(index.counting(page, number), number)) for number in numbers for page in whole]
        return [(number, page) for number, page, known in pages if known is None or not is_shared(known.page, move, lambda name, page=page: self.page_of(name) == page)]  # type: ignore[misc]

    # Taking turns

    def is_idle(self, worker: Worker) -> bool:
        return not worker.is_busy and not worker.is_silent

    async def lease(self, number: int | None = None, preferred: int | None = None) -> Worker:
        """A worker: the one of this number, or any, best the preferred one."""
        if number is not None and number not in self.workers:
            raise KeyError(number)
        if any(who_asks.get()):
            self.asked = time.monotonic()
        if number is not None and self.workers[number].is_silent or all(each.is_silent for each in self.workers.values()):
            raise Unanswered(f"{self.named()}the homes of the sessions are silent")
        wanted = number if number is not None else preferred
        found = self.workers.get(wanted) if wanted is not None else None
        if (found is None or not self.is_idle(found)) and number is None:
            found = next((each for each in self.workers.values() if self.is_idle(each)), None)
        if found is not None and self.is_idle(found):
            found.is_busy, found.who = True, who_asks.get()
            return found
        waiting = Wanted(number, self.loop.create_future(), who_asks.get())
        self.waiting.append(waiting)
        try:
            return await waiting.future
        except asyncio.CancelledError:
            if waiting in self.waiting:
                self.waiting.remove(waiting)
            elif waiting.future.done() and not waiting.future.cancelled() and not waiting.future.exception():
                self.release(waiting.future.result())
            raise

    def release(self, worker: Worker) -> None:
        worker.is_busy = False
        if worker.is_silent:
            return
        fitting = [wanted for wanted in self.waiting if wanted.number in (None, worker.number) and not wanted.future.done()]
        if fitting:
            # (By turns of those who want this one, and those who want any: else what settles pages would have all.)
            fitting = [wanted for wanted in fitting if (wanted.number is None) == worker.was_named] or fitting
            # (the first of those who have fewest: so much as one asks for, others wait for one of his requests only)
            has, by_key = Counter[Who](), Counter[str]()
            for each in self.workers.values():
                if each.is_busy:
                    has[each.who] += 1
                    by_key[each.who[0]] += 1
            wanted = min(fitting, key=lambda wanted: (by_key[wanted.who[0]], has[wanted.who]) if wanted.number is None else (0, 0))
            self.waiting.remove(wanted)
            worker.is_busy, worker.who, worker.was_named = True, wanted.who, wanted.number is not None
            wanted.future.set_result(worker)

    def idle(self) -> list[Worker]:
        """Workers that nobody has or waits for, which are leased now."""
        found = [] if self.waiting else [each for each in self.workers.values() if self.is_idle(each)]
        for worker in found:
            worker.is_busy, worker.who = True, who_asks.get()
        return found

    # Lending

    async def lend_on(self) -> None:
        """Lends a session to a command that waits for it, and takes those that other commands had before."""
        while True:
            await asyncio.sleep(LOOK)
            try:
                self.growing.see()
                for number, worker in list(self.workers.items()):
                    if number not in self.lends and not worker.is_silent and len(self.lends) < max(1, len(self.workers) // 2) and self.settings.is_wanted(number):
                        self.lends.add(number)
                        self.spawn(self.lend(worker))
                if self.carrier and len(self.workers) < self.sessions:
                    self.take_more(self.carrier)
            except OSError as fault:
                tell(f"{self.named()}{fault.filename or 'locks'}: {fault.strerror}: no session is lent")
                await asyncio.sleep(TIDY)

    def take_more(self, carrier: Carrier) -> None:
        for number in self.settings.session_numbers(self.sessions):
            if number not in self.workers and not self.settings.is_wanted(number) and carrier.told:
                if worker := self.add(carrier, number, carrier.told.home_of(number)):
                    self.release(worker)

    async def lend(self, worker: Worker) -> None:
        """Gives a session up once it is free, and has it again once the command is done. What is known of files is forgotten; and all pages are settled anew, or
        those alone that commands changed, where these ended in order and say so."""
        async with self.lending.lend():
            worker.is_lent = True
            try:
                await self.lease(worker.number)
                settled: AllBut | Collection[int] = AllBut() if worker.store.writer.has_settled_all() else dict(worker.store.writer.carried)
                carried, path = dict(worker.store.writer.carried), self.settings.end_path(worker.number)
                last = worker.session.last
                self.sweeps.unswept.add(worker.number)  # (what it was to have forgotten is not known any more, and the command may die)
                self.renew(worker)
                worker.settled_when_lent, worker.index_when_lent = settled, self.shared.index.beginnings
                write_end(path, None if last is None else End(worker.session.home, last, settled=len(carried) if isinstance(settled, AllBut) else 0))
                worker.lock.close()
                lock = None
                while lock is None:
                    await asyncio.sleep(LOOK)
                    with suppress(OSError):  # (which is told elsewhere)
                        lock = None if self.settings.is_wanted(worker.number) else self.settings.lock(worker.number)
                worker.lock = lock
                await self.loop.run_in_executor(self.threads, self.take_back, worker, carried)
                self.release(worker)
            except Unanswered:
                pass
            finally:
                worker.is_lent = False
                self.lends.discard(worker.number)

    def take_back(self, worker: Worker, carried: dict[int, Tag]) -> None:
        """(A thread's.) Goes on by a session that was lent."""
        path = self.settings.end_path(worker.number)
        with worker.asking:
            worker.store.take_back(carried, read_end(path))
            worker.settled_when_lent = ()  # (not before: else a listing amid that would look at all pages)
            write_end(path, None)

    # Working

    async def run(
        self,
        worker: Worker,
        work: Callable[[Store], Told],
        keep: bool = False,
        is_soon: bool = False,
        trip: "Trip | None" = None,
        others: "Sequence[tuple[Pool, Worker]]" = (),
    ) -> Told:
        """Has a leased worker do some work in a thread, and releases it then, unless it is kept. Where others can do it too, it is told soon that the home is
        silent. With a trip it has other workers, each of another grid, which are released with it."""

        def begin() -> Told:
            store = worker.store
            store.trip = trip
            for _, each in every:
                each.session.begin(is_soon)
            try:
                return work(store)
            finally:
                for _, each in every:
                    each.session.end()
                    each.store.trip = None

        def end(future: "asyncio.Future[Told]") -> None:
            fault = None if future.cancelled() else future.exception()
            for pool, each in [(pool, each) for pool, each in every if each.session.has_failed] or every:
                pool.look_at(each, fault)
            if not keep:
                for pool, each in every:
                    pool.release(each)

        every: list[tuple[Pool, Worker]] = [(self, worker), *others]
        for pool, each in every:
            pool.growing.go_by_plan(each)
        future = self.loop.run_in_executor(self.threads, begin)
        future.add_done_callback(end)
        return await asyncio.shield(future)

    def look_at(self, worker: Worker, fault: BaseException | None) -> None:
        """Sees to a worker whose work ended with a fault."""
        if isinstance(fault, CarrierFault):
            self.reopen(str(fault))
        elif isinstance(fault, (Unanswered, SessionTaken)):
            self.renew(worker)
            self.probe(worker)
            for each in self.idle() if isinstance(fault, Unanswered) else ():
                self.spawn(self.ask_whether_silent(each))
        elif isinstance(fault, BadSettings):
            self.growing.wants_plan.set()

    def probe(self, worker: Worker) -> None:
        """Leaves a worker out until its home answers."""
        if not worker.is_silent:
            worker.is_silent = True
            if self.carrier and self.carrier.why:  # (a certificate that has ended, say)
                tell(f"{self.named()}session {worker.number} is silent; {self.carrier.why}")
            for wanted in list(self.waiting):
                if wanted.number == worker.number or all(each.is_silent for each in self.workers.values()):
                    self.waiting.remove(wanted)
                    if not wanted.future.done():
                        wanted.future.set_exception(Unanswered("the homes of the sessions are silent"))
            self.spawn(self.wait_for(worker))

    def spawn(self, work: Any) -> "asyncio.Task[None]":
        task: asyncio.Task[None] = self.loop.create_task(work)
        self.tasks.add(task)
        task.add_done_callback(self.tasks.discard)
        return task

    async def ask_whether_silent(self, worker: Worker) -> None:
        """Asks the home of a worker that is leased, since that of another one was silent: so one request alone waits for what may be silent for all."""
        pace, worker.session.pace = worker.session.pace, replace(worker.session.pace, timeout=SOON)
        try:
            await self.loop.run_in_executor(self.threads, worker.session.read, 0, 0)
        except (Unanswered, SessionTaken):
            self.probe(worker)
        except CarrierFault as fault:
            self.reopen(str(fault))
        finally:
            worker.session.pace = pace
            self.release(worker)

    async def wait_for(self, worker: Worker) -> None:
        while worker.is_silent:
            while worker.is_busy:
                await asyncio.sleep(0.05)
            worker.is_busy = True
            pace, worker.session.pace = worker.session.pace, replace(worker.session.pace, timeout=SOON)
            try:
                await self.loop.run_in_executor(self.threads, worker.session.read, 0, 0)
                worker.is_silent = False
            except (Unanswered, SessionTaken):
                await asyncio.sleep(RETRY)
            except CarrierFault as fault:
                self.reopen(str(fault))
                await asyncio.sleep(RETRY)
            finally:
                worker.session.pace = pace
                worker.is_busy = False
        self.renew(worker)
        self.release(worker)

    def reopen(self, why: str) -> None:
        """Opens the carrier anew, once, and as often as it takes."""
        carrier, self.carrier = self.carrier, None
        if carrier:
            tell(f"{self.named()}{why}: it is tried again")
            carrier.close()
            for worker in self.workers.values():
                worker.is_silent = True
            for wanted in self.waiting:
                if not wanted.future.done():
                    wanted.future.set_exception(Unanswered("the carrier has ended"))
            self.waiting.clear()
            self.spawn(self.open_again())

    async def open_again(self) -> None:
        while True:
            await asyncio.sleep(RETRY)
            while any(worker.is_busy for worker in self.workers.values()):
                await asyncio.sleep(0.05)
            try:
                await self.loop.run_in_executor(self.threads, self.open)
                break
            except ClientError:
                continue
        tell(f"{self.named()}the carrier is there again")
        for worker in self.workers.values():
            worker.is_silent = False
            self.release(worker)

    # Pages

    async def settle_before(self, name: str) -> None:
        """Before the first change on a page: what an earlier gateway left under way there ends, where its session's home answers soon. Each page takes all
        sessions, so many changes of many pages would wait for one another. (What is left has a lower version, as far as clocks agree.)"""
        page = self.page_of(name)
        if page not in self.begun:
            self.begun[page] = self.spawn(self.settle_in_turn(page))
        if not self.begun[page].done():
            await asyncio.wait([self.begun[page]], timeout=BEFORE)

    async def settle_in_turn(self, page: int) -> None:
        """The same of few pages at a time. Who has no turn soon leaves it to a later change, or to what settles all pages."""
        try:
            async with asyncio.timeout(BEFORE):
                await self.before.acquire()
        except asyncio.TimeoutError:
            self.begun.pop(page)
            return
        try:
            with suppress(ClientError):
                await self.settle(page)
        finally:
            self.before.release()

    async def settle(self, page: int) -> None:
        """Sees that nothing that earlier clients of these sessions wrote can come into a page any more: by each that is here and whose home answers, side by
        side. A fault is raised where there is one, once all have ended."""
        wanted = [worker for worker in self.workers.values() if not self.has_settled(worker, page) and not worker.is_silent]

        async def settle_here(worker: Worker) -> None:
            if not worker.is_lent:
                await self.settle_by(worker.number, page)

        found = await asyncio.gather(*map(settle_here, wanted), return_exceptions=True)
        for fault in found:
            if isinstance(fault, BaseException):
                raise fault

    async def settle_by(self, number: int, page: int) -> None:
        worker = await self.lease(number)
        await self.run(worker, lambda store: store.settle(page), is_soon=True)

    def is_settled(self, page: int) -> bool:
        """Whether all sessions of the tenant are here, and nothing is under way into this page but changes of this gateway that are asked for now."""
        return self.has_all and all(self.has_settled(worker, page) for worker in self.workers.values())

    def has_settled(self, worker: Worker, page: int) -> bool:
        """The same of one session; of a bucket that takes the place of a part of another one, also of that one's page."""
        return all(each in worker.store.settled for each in self.shared.index.and_before(page))

    async def sweep(self, page: int) -> None:
        """Has lines go from a page: by two changes of no name of each session that answers."""
        self.shared.swept[page] = time.monotonic()
        for _ in range(2):
            for number in [number for number, worker in self.workers.items() if not worker.is_lent]:
                try:
                    await self.run(await self.lease(number), lambda store: store.sweep_own(page))
                except ClientError:
                    continue

    async def tidy(self) -> None:
        """Sees after a start to what earlier clients left, page by page, so that nobody waits for long; and from then on, where nobody waits, to
        chunks that nothing names any more."""
        while not self.is_open:
            await asyncio.sleep(RETRY)
        if self.going_on.task:
            await self.going_on.task
        self.has_begun = True
        self.settling = asyncio.Semaphore(max(1, len(self.workers) // 2))
        await asyncio.gather(*(self.tidy_session(number) for number in list(self.workers)))
        gc.collect()
        gc.freeze()  # (what is known of pages stays: else each full collection goes through all of it, while nobody else has a turn)
        gc.set_threshold(*COLLECTIONS)
        while True:
            await asyncio.sleep(TIDY)
            for number in list(self.workers):
                store = self.workers[number].store
                if self.is_idle(self.workers[number]) and store.writer.has_gone(store.forget_after):
                    try:
                        await self.run(await self.lease(number), Store.forget_gone)
                    except ClientError:
                        pass
                    except Exception as fault:
                        error_of(fault)  # (which tells it)

    async def tidy_session(self, number: int) -> None:
        """Settles all pages of a session, one after another, and then has chunks forgotten that none of them names. Where the session is renewed meanwhile it
        begins anew."""
        if number in self.tidied:
            return
        self.tidied.add(number)
        try:
            store = None
            while store is not self.workers[number].store:
                store = self.workers[number].store
                await self.tidy_store(number, store)
        finally:
            self.tidied.discard(number)

    async def tidy_store(self, number: int, store: Store) -> None:
        for page in self.layout.page_numbers:
            for _ in range(TRIES):
                while self.workers[number].is_lent:
                    await asyncio.sleep(RETRY)
                if page in store.settled or store is not self.workers[number].store:
                    break
                try:
                    async with self.settling:
                        await self.settle_by(number, page)
                    break
                except ClientError:
                    await asyncio.sleep(RETRY)
                except Exception as fault:
                    error_of(fault)
                    break
        if not store.goes_on:
            self.sweeps.unswept.add(number)

    async def flush(self) -> None:
        """Has chunks forgotten that nothing names any more, by the sessions that are free."""
        for worker in self.idle():
            try:
                await self.run(worker, Store.close)
            except ClientError:
                pass

    def close(self) -> None:
        self.threads.shutdown(wait=False, cancel_futures=True)
        self.looker.close()
        if self.carrier:
            self.carrier.close()


def is_shared(page: Page, move: Move, is_here: Callable[[str], bool]) -> bool:
    """Whether a page of the old grid is as a move wants it, for these names."""
    return not any(move.has(slice_of(line.name)) and is_here(line.name) for line in page.lines) if move.is_there else move.signpost in page.signposts


def now_ms() -> int:
    return time.time_ns() // 1_000_000
