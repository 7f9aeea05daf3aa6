"""A session of the gateway, and who works by it."""

import asyncio
import threading
from collections.abc import AsyncIterator, Callable, Collection
from contextlib import asynccontextmanager
from contextvars import ContextVar
from dataclasses import replace
from typing import IO

from gridfs_client.answers import Done, Row
from gridfs_client.errors import ClientError
from gridfs_client.opening import SOON
from gridfs_client.sessions import Pace, Session

from .looker import Looker
from .notes import Begun, Notes
from .peers import AllBut
from .store import Store

RETRY = 1.0  # seconds until a session whose home is silent, or a carrier that has ended, is tried again
Who = tuple[str, str]  # an access key, and the URL or form that it signed, if it is asked by that
who_asks: ContextVar[Who] = ContextVar("who_asks", default=("", ""))


class Turn(Session):
    """A session that knows whether what is done now has written anything. Until it is answered for the first time it is told soon that its home is
    silent, where another session can do the same."""

    has_written, has_failed = False, False
    full: Pace | None = None
    looker: Looker | None = None  # who looks for all sessions
    notes: Notes | None = None  # where it is noted how far it came, and whether all its pages are settled
    has_settled: Callable[[], bool] = staticmethod(lambda: False)

    def begin(self, is_soon: bool) -> None:
        self.full, self.has_written, self.has_failed = self.pace, False, False
        if is_soon:
            self.pace = replace(self.pace, timeout=min(self.pace.timeout, 2 * SOON))

    def end(self) -> None:
        self.pace = self.full or self.pace

    def look(self, volume: int, wanted: Collection[int] | None = None) -> tuple[Row | None, ...]:
        told = self.carrier.told
        if self.looker is None or told is None or volume >= len(told.volumes):
            return super().look(volume, wanted)
        return self.looker.rows_at_once(volume, range(told.volumes[volume][0]) if wanted is None else wanted) or self.list(volume)

    def ask(self, kind: str, place: tuple[int, ...], content: bytes | None = None) -> Done:
        if content is not None and not self.has_written:
            self.has_written = True
            self.end()
        try:
            told = super().ask(kind, place, content)
        except ClientError:
            self.has_failed = True
            raise
        self.end()
        return told

    def begins(self, kind: str, number: int, place: tuple[int, ...]) -> None:
        if self.notes:
            self.notes.write(self.number, Begun(self.home, number, (place[0], place[1]) if kind == "write" else None, self.has_settled()))


class Worker:
    """A session, its objects, and whether somebody works by it, or its home is silent."""

    def __init__(self, session: Turn, lock: IO[str]):
        self.session, self.lock, self.number = session, lock, session.number
        self.store: Store
        self.is_busy, self.is_silent = False, False
        self.who: Who = ("", "")  # for whom somebody works by it
        self.was_named = False  # somebody waited for it by its number, and for no other one
        self.is_lent = False  # to another command of this machine, or about to be
        self.settled_when_lent: AllBut | Collection[int] = ()  # the pages into which nothing could come, until it is had again
        self.index_when_lent = 0  # which beginning of the index had them
        self.asking = threading.Lock()  # of who asks by its session while that is lent


class Lending:
    """A session is lent only while no condition is judged, and a condition is judged only while none is lent: whoever has one may change what the condition is
    about. (Who has one and wants another one gets it: meanwhile no condition is judged.)"""

    def __init__(self) -> None:
        self.judging, self.lent, self.change = 0, 0, asyncio.Condition()

    @asynccontextmanager
    async def judge(self) -> AsyncIterator[None]:
        async with self.change:
            await self.change.wait_for(lambda: not self.lent)
            self.judging += 1
        try:
            yield
        finally:
            async with self.change:
                self.judging -= 1
                self.change.notify_all()

    @asynccontextmanager
    async def lend(self) -> AsyncIterator[None]:
        async with self.change:
            self.lent += 1
            await self.change.wait_for(lambda: not self.judging)
        try:
            yield
        finally:
            async with self.change:
                self.lent -= 1
                self.change.notify_all()


class Wanted:
    """Somebody who waits for a worker: for this one, or for any; and for whom."""

    def __init__(self, number: int | None, future: "asyncio.Future[Worker]", who: Who):
        self.number, self.future, self.who = number, future, who
