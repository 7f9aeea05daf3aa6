"""Sweeps of sessions' chunks over the index: by small parts, so that whoever waits for something has his turn between them.

One begins once all pages of the session are settled: then the index has what its pages say, and journals say no more. While it goes on a line goes from a page to a later one
alone (where pages split), and pages are read in their order. So no line is missed that named a chunk at the beginning and names it still.
"""

import asyncio
import time
from collections.abc import Iterator
from typing import TYPE_CHECKING

from gridfs_client.contents import Part, parse_part
from gridfs_client.errors import ClientError
from gridfs_client.in_chunks import ChunkContents, Gone, Sweep
from gridfs_client.pages import parse_line
from gridfs_client.skimming import PLAIN

from .errors import error_of
from .store import Store
from .workers import RETRY

if TYPE_CHECKING:
    from .sessions import Pool

SOME = 256  # pages that are read at a time
SWEEP_AGAIN, SWEEP_IN_WANT = 3_600.0, 60.0  # seconds after which chunks that nobody names are looked for again; and where somebody finds no room
ROOM_FOR = 10.0  # seconds for which who finds none waits for that
REST = 0.02  # seconds after which it is looked again whether somebody waits
END = object()


class NotWhole(Exception):
    """The index has not all pages of a session as its journals have them, or has them no more."""


class IndexSweep:
    """A sweep that begins by who has the session, and goes on beside others. NotWhole."""

    def __init__(self, store: Store, contents: ChunkContents):
        self.index, self.session = store.shared.index, store.me
        self.beginnings = self.index.beginnings
        if not store.writer.has_settled_all():
            raise NotWhole
        self.sweep = Sweep(ChunkContents(contents.chunks.another()), contents.new_floor())

    def parts(self) -> Iterator[None]:
        """Finds what may be forgotten, part by part. A ClientError, Gone, NotWhole: nothing may be."""
        yield from self.sweep.list()
        first = 0
        while first < (end := self.index.end()):
            for first in range(first, end, SOME):
                for text in self.index.texts(self.session, range(first, first + SOME)):
                    self.sweep.spare(named_in(text))
                if self.index.beginnings != self.beginnings:
                    raise NotWhole
                yield
            first += SOME

    def forget(self) -> int:
        """Has nodes forget what was found: how many chunks that are."""
        return self.sweep.forget()[0]


def begin(store: Store) -> IndexSweep | None:
    """A sweep of a session's chunks; None where the tenant has no room for any. NotWhole."""
    contents = store.writer.contents
    return IndexSweep(store, contents) if contents and store.has_chunks() else None


def named_in(text: bytes) -> Iterator[Part]:
    """The contents that a page's lines name. (Most lines have one of few short forms.)"""
    for line in text.decode().split("\n")[1:-1]:
        if plain := PLAIN.fullmatch(line):
            if " " in plain[2]:
                yield parse_part(plain[2])
        elif not line.startswith(">") and (content := parse_line(line).content):
            yield from content.parts


class Sweeps:
    """Has nodes forget the chunks that clients which died left, and no line names."""

    def __init__(self, pool: "Pool"):
        self.pool, self.turn = pool, asyncio.Lock()
        self.unswept: set[int] = set()  # numbers of sessions that may have such chunks
        self.swept_at: dict[int, float] = {}  # when these were looked for last
        self.in_want, self.freed = 0, 0  # how many wait for room meanwhile; how many chunks were found in all

    async def go_on(self) -> None:
        """Looks for such chunks from time to time, while nobody waits."""
        while True:
            await asyncio.sleep(RETRY)
            await self.sweep(SWEEP_AGAIN)

    async def found_room(self) -> bool:
        """Where something finds no room: whether such chunks were found, within some seconds. Those that are looked for then are looked for at once."""
        before = self.freed
        self.in_want += 1
        try:
            await asyncio.wait([self.pool.spawn(self.sweep(SWEEP_IN_WANT))], timeout=ROOM_FOR)
        finally:
            self.in_want -= 1
        return self.freed > before

    async def sweep(self, again: float) -> None:
        """The same by one session after another, each where that was not done in so many seconds since."""
        async with self.turn:
            for number in sorted(self.unswept):
                if time.monotonic() < self.swept_at.get(number, -again) + again or self.pool.workers[number].is_lent:
                    continue
                try:
                    self.freed += await self.sweep_by(number)
                    self.unswept.discard(number)
                    self.swept_at[number] = time.monotonic()
                except (ClientError, Gone, NotWhole):
                    continue  # (it is tried again)
                except Exception as fault:
                    error_of(fault)
                    self.unswept.discard(number)

    async def sweep_by(self, number: int) -> int:
        """Has nodes forget what no page of the session names: how many chunks that were. NotWhole too where the session is renewed meanwhile: a command may have had it."""
        store = self.pool.workers[number].store
        sweep = await self.pool.run(await self.pool.lease(number), begin)
        if sweep is None:
            return 0
        parts, begun = sweep.parts(), time.monotonic()
        while await self.pool.loop.run_in_executor(self.pool.threads, lambda: next(parts, END) is not END):
            await self.rest(time.monotonic() - begun)
            begun = time.monotonic()
        if store is not self.pool.workers[number].store:
            raise NotWhole
        return await self.pool.loop.run_in_executor(self.pool.threads, sweep.forget)

    async def rest(self, seconds: float) -> None:
        """Lets others have so much of the processor, and waits until nobody waits for a session; unless somebody waits for room."""
        await asyncio.sleep(0 if self.in_want else seconds)
        while not self.in_want and (self.pool.waiting or any(each.is_busy and not each.is_silent and not each.is_lent for each in self.pool.workers.values())):
            await asyncio.sleep(REST)
