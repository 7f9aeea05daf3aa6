"""Looks for all who want one at the same time: who comes while one is under way waits for the next one, which is for all of those.

A look is a read of each file that it settles, at some moment from its beginning to its end (gridfs_client/looks.py). So one that began once somebody had asked for it is as good as
his own, and one that had begun before is not. All volumes that are wanted then are looked at at once, by one thread: that spares lines, and threads that wake one another.
"""

import queue
import threading
from asyncio import AbstractEventLoop, Future
from collections.abc import Callable, Collection
from contextlib import suppress

from gridfs_client.answers import Row
from gridfs_client.carriers import Carrier
from gridfs_client.errors import CarrierFault
from gridfs_client.looks import Look, looked_at

from .errors import error_of

MOST_AT_ONCE = 64  # who are told by one look

Rows = tuple[Row | None, ...]
Looked = tuple[int, Rows]  # the bucket for which its volume was looked at, and the rows of that
Answered = Future[Rows | None] | queue.SimpleQueue[Rows | None]


class Looker:
    """The looks of all sessions of a grid, by its carrier as it is then. Each call gives the rows of a volume, of which these files are wanted; None where too few of
    them are settled, or nodes answer no looks: then the volume is to be listed."""

    def __init__(self, loop: AbstractEventLoop, carrier: Callable[[], Carrier | None], rate: Callable[[], float]):
        self.loop, self.carrier, self.rate = loop, carrier, rate
        self.wanted: queue.SimpleQueue[tuple[int, Collection[int], Answered] | None] = queue.SimpleQueue()
        self.alone = threading.Lock()  # of a thread that looks by itself, while nobody else does
        threading.Thread(target=self.go_on, name="looker", daemon=True).start()

    def rows(self, volume: int, files: Collection[int]) -> "Future[Rows | None]":
        """(The loop's.)"""
        answered: Future[Rows | None] = self.loop.create_future()
        self.wanted.put((volume, files, answered))
        return answered

    def rows_at_once(self, volume: int, files: Collection[int]) -> Rows | None:
        """(A thread's, which waits. Where nobody else looks it does so itself.)"""
        if self.alone.acquire(blocking=False):
            try:
                return self.look({volume: set(files)}).get(volume)
            finally:
                self.alone.release()
        answered: queue.SimpleQueue[Rows | None] = queue.SimpleQueue()
        self.wanted.put((volume, files, answered))
        return answered.get()

    def close(self) -> None:
        self.wanted.put(None)

    def go_on(self) -> None:
        """(The looker's own thread.) One look after another."""
        while asked := self.wanted.get():
            every = [asked]
            while len(every) < MOST_AT_ONCE and not self.wanted.empty() and (asked := self.wanted.get()):
                every.append(asked)
            files: dict[int, set[int]] = {}
            for volume, some, _ in every:
                files.setdefault(volume, set()).update(some)
            found = self.look(files)
            tasks = list[tuple[Future[Rows | None], Rows | None]]()
            for volume, _, answered in every:
                if isinstance(answered, queue.SimpleQueue):
                    answered.put(found.get(volume))
                else:
                    tasks.append((answered, found.get(volume)))
            if tasks:
                with suppress(RuntimeError):  # (the loop has ended)
                    self.loop.call_soon_threadsafe(tell, tasks)
            if asked is None:
                return

    def look(self, files: dict[int, set[int]]) -> dict[int, Rows]:
        try:
            carrier = self.carrier()
            looks = looked_at(carrier, files, self.rate()) if carrier else {}
        except CarrierFault:  # (which whoever lists the volume is told)
            return {}
        except Exception as fault:
            error_of(fault)  # (which tells it)
            return {}
        return {volume: tuple(look.rows) for volume, look in looks.items() if is_enough(look)}


def is_enough(look: Look) -> bool:
    """Whether what it left is read file by file."""
    return 2 * len(look.left) <= look.files


def tell(tasks: list[tuple["Future[Rows | None]", Rows | None]]) -> None:
    for answered, rows in tasks:
        if not answered.done():
            answered.set_result(rows)
