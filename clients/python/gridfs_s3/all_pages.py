"""All pages of a tenant at one grid: which of them have to be looked at so that the index has them as they are, and what other gateways tell of that (docs/S3.md, *Many objects*).

No page is asked for where the gateway has all sessions of its tenant, and each has settled all its pages: then nobody but this gateway changes a page, and nothing of earlier clients is
under way into one. Once in SURE_FOR seconds each session's home is asked whether it is still this gateway's: so one that was stopped, and replaced elsewhere, goes on for so long at most.
Else those volumes are looked at that have pages which are not settled, by all sessions side by side, and each page whose tag is another one is read. One look does for all listings that
came before it began. Over several grids the indexes of all are taken as they are at one moment, where no move is under way and all grids are settled.

While a session is lent a listing looks at the volumes of the pages alone that its command notes (gridfs_client/ends.py). First the session's home tells its last operation, and then the
note is read: each operation of which anybody was told was known to the home by then, and had been noted before. Where the home tells of more than one operation after the last that is
noted, somebody has the session without a note, as an older client, which begins by an operation that reads. Then all volumes are looked at, and later all pages of the session are settled
anew. So it is too where the home is silent, or a note would have too many files. No note outlives the gateway that lent the session, so it need not be synced.

Of pages that split (gridfs_client/splits.py) a listing looks at all old ones first, and then at the new ones of those that have split. So it sees of each session a page that counted at
some moment of the request. A page from which lines went stands in the index only once the new pages of these are there too: so each name is told once, whichever is read first. A page is
settled together with those in its place.

A listing may ask nobody, where a get always looks. A get tells what its client rests a change on; a listing of many pages is no snapshot anyway.
"""

import asyncio
import socket
import time
from collections import Counter
from collections.abc import Callable, Collection, Iterator, Mapping, Sequence
from contextlib import suppress
from dataclasses import replace
from functools import partial
from itertools import islice
from typing import TYPE_CHECKING

from gridfs_client.ends import read_end
from gridfs_client.errors import ClientError, SessionTaken, Unanswered
from gridfs_client.opening import SOON

from . import peers
from .claims import answer
from .peers import MOST_ASKING, NEVER, AllBut, Pages, Reach
from .remote import Remote
from .store import Store
from .workers import Worker

if TYPE_CHECKING:
    from .sessions import Pool

SURE_FOR = 2.0  # seconds for which sessions that were this gateway's are taken to be
SOME, TURNS = 16, 3  # volumes that a session looks at, before others have their turn; and how often it is tried
Meets = Callable[[socket.socket], Reach]


class AllPages:
    """Sees that the index has them, and tells other gateways which changed."""

    def __init__(self, pool: "Pool", values: Mapping[str, str]):
        self.pool = pool
        self.remote = Remote(values)  # gateways of the tenant on other machines
        self.secret: Callable[[], bytes] | None = None  # which the tenant's gateways have, and others have not
        self.meeting = Counter[Meets]()  # how many connections of other gateways there are, by names and by addresses
        self.known: tuple[int, dict[str, int]] = 0, {}  # how many changes of other gateways the index has, by their starts; and which beginning of the index
        self.looks, self.looked = asyncio.Lock(), 0.0  # at all pages; and when the last one began that ended well
        self.asking_all, self.sure_until = asyncio.Lock(), 0.0  # whether all sessions are still this gateway's

    def listen(self) -> None:
        """Has other gateways answered that connect to the address for them. BadSettings where it can't be had."""
        if listener := self.remote.listener():
            self.pool.loop.add_reader(listener, answer, listener, partial(self.meet, how=self.remote.accept))

    # Whether the index has them

    def is_exact(self) -> bool:
        """Whether the index has what all pages say, with nobody asked: all sessions of the tenant are here, and nothing but changes of this gateway comes
        into their pages."""
        return self.pool.has_all and all(worker.store.writer.has_settled_all() for worker in self.pool.workers.values())

    async def find_sessions(self) -> bool:
        """Whether all sessions are still this gateway's, as each of them was found to be in the last two seconds. (It may have been stopped, and replaced by
        another one, which nobody tells it.)"""
        async with self.asking_all:
            now = self.pool.asked = time.monotonic()
            if now <= self.sure_until:
                return True
            found = all(await asyncio.gather(*map(self.has_session, list(self.pool.workers))))
            self.sure_until = now + SURE_FOR if found else 0.0
            return found

    async def has_session(self, number: int) -> bool:
        if self.pool.workers[number].is_lent:  # (it is asked for right before it is waited for: who comes after the command waits until that is done)
            return True
        try:
            worker = await self.pool.lease(number)
            await self.pool.run(worker, lambda store: worker.session.expect_own(), is_soon=True)
            return True
        except ClientError:
            return False

    async def settled_now(self) -> list[Pages]:
        """Of each session that is here the pages into which nothing has come but changes of this gateway, at some moment of the call. Of one that is lent these are those of
        which its note says nothing. Of others that this gateway has no more, none."""
        if not await self.find_sessions():
            return [()]
        lent = {number: worker for number, worker in self.pool.workers.items() if worker.settled_when_lent}
        left = await asyncio.gather(*(self.pool.loop.run_in_executor(self.pool.threads, self.settled_in_note, each) for each in lent.values()))
        rest = [worker.store for number, worker in self.pool.workers.items() if number not in lent]
        return [*left, *map(settled_by, rest)]

    def settled_in_note(self, worker: Worker) -> Pages:
        """(A thread's.) Those of a lent session. First its home tells how far the session came, and then the note is read: so that has all writes of which anybody was told."""
        with worker.asking:
            pages, session, last = worker.settled_when_lent, worker.session, None
            if not pages:  # (it was had back meanwhile)
                return settled_by(worker.store)
            if worker.index_when_lent == self.pool.shared.index.beginnings:
                pace, session.pace = session.pace, replace(session.pace, timeout=SOON)
                with suppress(ClientError):
                    last = session.last_at_home()
                session.pace = pace
            end = read_end(self.pool.settings.end_path(worker.number))
            if last is None or end is None or not end.covers(session.home, last):
                return ()
        written = {page for place in end.written if (page := self.pool.layout.page_at(*place)) is not None}
        return AllBut(written) if isinstance(pages, AllBut) else {page for page in pages if page not in written}

    # Other gateways of the tenant

    def meet(self, connection: socket.socket, how: Meets = peers.by_socket) -> None:
        """Another process has connected, by the name of a session or by the address for others."""
        if not self.pool.is_open or self.secret is None or self.meeting[how] >= MOST_ASKING:
            connection.close()
            return
        connection.setblocking(False)
        self.meeting[how] += 1
        task = self.pool.spawn(peers.tell(how(connection), self.secret(), self.pool.shared.changes.start, self.pool.workers, self.changed_since))
        task.add_done_callback(lambda _: self.meeting.subtract([how]))

    async def changed_since(self, count: int) -> tuple[int, Collection[int] | None]:
        """How many changes there were, and the pages of this gateway's sessions that are other ones since there were so many, or may be soon; None where that can't be told."""
        settled = await self.settled_now()
        now, pages = self.pool.shared.changes.since(count)
        noted = pages_of(settled)
        return now, None if pages is None or noted is None else pages | noted

    async def ask_others(self) -> tuple[list[peers.Told], bool]:
        """What other gateways tell of what changed since the index had their pages; and whether they have all other sessions. All are asked that have an address; and by
        names those of this machine that have what is left."""
        beginnings, counts = self.known
        known = counts if beginnings == self.pool.shared.index.beginnings else {}
        left, found = set(range(1, self.pool.sessions + 1)) - self.pool.workers.keys(), list[peers.Told]()
        if left and self.secret:
            found += [told for told in await self.remote.ask_all(self.secret(), lambda start: known.get(start, NEVER)) if told.start != self.pool.shared.changes.start]
            left = left.difference(*(told.sessions for told in found))
        while left and self.secret:
            number = min(left)
            told = await peers.ask(peers.by_name(self.pool.claims.name(number)), self.secret(), number, lambda start: known.get(start, NEVER))
            if told is None or number not in told.sessions:
                break
            found.append(told)
            left -= told.sessions
        return found, not left

    # Looks

    async def look(self) -> None:
        """Sees that the index has each page as it was at some moment of this call, or a later one. Who comes while others look waits, and then one look is for
        all of those."""
        begin = time.monotonic()
        async with self.looks:
            if self.looked > begin:
                return
            begun = time.monotonic()
            beginnings = self.pool.shared.index.beginnings
            told, is_all = await self.ask_others()
            others: list[Pages] = [() if each.pages is None else AllBut(each.pages) for each in told]
            settled = [*await self.settled_now(), *others] if is_all else [()]
            for level in self.pool.layout.levels:  # (the old pages first, of those that have split)
                await self.look_at_volumes(self.volumes_to_look_at(level.page_volumes, settled))
            self.looked, self.known = begun, (beginnings, {each.start: each.count for each in told})

    def volumes_to_look_at(self, volumes: range, settled: Sequence[Pages]) -> list[int]:
        """Those of a level with pages that are not settled, or ask for later ones than are known."""
        changed = pages_of(settled)
        if changed is None:
            return [volume for volume in volumes if not self.is_exact_in(volume, settled)]
        found = {self.pool.layout.page(1, page)[0] for page in changed | self.pool.shared.index.open}
        return sorted(volume for volume in found if volume in volumes)

    async def look_at_volumes(self, volumes: list[int]) -> None:
        """Looks at these volumes, by all sessions side by side."""
        left = iter(volumes)
        count = sum(not worker.is_silent and not worker.is_lent for worker in self.pool.workers.values())
        found = await asyncio.gather(*(self.look_at_some(left) for _ in range(max(1, count))), return_exceptions=True)
        for fault in found:
            if fault:
                raise fault  # (once all have ended)

    def is_exact_in(self, volume: int, settled: Sequence[Pages]) -> bool:
        """Whether all pages in a volume are settled, where these of each session are."""
        begun = (page for page in self.pool.layout.pages_in(volume) if self.pool.shared.index.is_begun(self.pool.layout, page))
        return all(page in pages for page in begun for pages in settled)

    async def look_at_some(self, volumes: Iterator[int]) -> None:
        """Looks at these volumes, some at a time, by another session where the home of one is silent."""
        while some := list(islice(volumes, SOME)):
            for turn in range(TURNS):
                try:
                    await self.pool.run(await self.pool.lease(), lambda store, some=some: store.look_at(some), is_soon=turn < TURNS - 1)  # type: ignore[misc]
                    break
                except (Unanswered, SessionTaken):
                    if turn == TURNS - 1:
                        raise


def settled_by(store: Store) -> Pages:
    return AllBut() if store.writer.has_settled_all() else store.settled


def pages_of(settled: Sequence[Pages]) -> set[int] | None:
    """The pages that are not settled, where of each session all others are."""
    found = set[int]()
    for each in settled:
        if not isinstance(each, AllBut):
            return None
        found |= each.pages
    return found
