"""What one connection, one access key, one signed URL or form and all of them may hold at a time: bytes, seconds and places. What more comes waits, or is refused.

A body is taken whole before a session works for it, and an answer is given from where a session has put it. So whoever is slow holds a file, and no session:
others' requests do not wait for him. Of an answer little more is read than is taken. Several gateways may have their files on one disk: who holds much there
leaves some of it to those who hold little.
"""

import asyncio
import os
import tempfile
import threading
from collections.abc import AsyncIterator
from contextlib import AbstractAsyncContextManager, asynccontextmanager, nullcontext
from typing import IO

from .errors import S3Error
from .requests import Asked

# Of a connection
MOST_HEAD = 1 << 17  # bytes of a request's head
HEAD_PIECE, BODY_PIECE = 1 << 12, 1 << 16  # bytes that are looked at before it is seen how many requests they were
MOST_AHEAD = 8  # requests of one connection that wait for those before them
FIRST = 60.0  # seconds in which the first head of a connection has to come
MOST_CONNECTIONS = 2_048  # with more the oldest one ends on which nothing is asked for now

# Of bodies and answers
IN_MEMORY = 1 << 16  # bytes up to which they are held in memory
LONG = 1 << 20  # bytes from which on they want a place
MOST_IN_MEMORY = 16  # answers of up to that length that are in memory at a time until they are taken; others of more than a little are in files
GIVEN = 1 << 17  # bytes that are given at a time
AHEAD, AHEAD_OF_ANYBODY = 16 << 20, 1 << 20  # bytes of an answer that are read at a time, into a file: the next ones once half of these were taken
HELD = 512 << 20  # bytes in files of a gateway from which on all is read by as little as anybody's
IDLE = 60.0  # seconds in which the next bytes have to come, or to be taken
LEAST_RATE, GRACE = 4_096, 60.0  # bytes a second that have to come, or to be taken, on the whole; and seconds besides
PLACES, OF_A_KEY, OF_A_URL = 64, 32, 4  # of long ones that are under way: in all, of an access key, of a signed URL or form
OF_ANYBODY = 128  # anybody's answers of up to a MiB that are in files
LEFT = 64 << 20  # bytes that the disk keeps free
OWN = 64 << 20  # bytes in files that a gateway may have in any case. With more it leaves these to others:
TO_OTHERS, LEAST_TO_OTHERS, MOST_TO_OTHERS = 16, 128 << 20, 4 << 30  # a part of the disk, and at least and at most so many bytes
OF_COMPLETIONS = 8  # completions of uploads that are in hand at a time, of an access key
IN_HAND = 32  # contents of up to a MiB that are copied, and documents that are read, at a time


def is_too_slow(seconds: float, size: int) -> bool:
    return seconds > GRACE + size / LEAST_RATE


class Places:
    """Places of long bodies and answers. Whoever waits for one holds nothing else, and is one of those who wait for the same URL or key."""

    def __init__(self) -> None:
        self.all, self.taken = asyncio.Semaphore(PLACES), dict[str, tuple[asyncio.Semaphore, int]]()

    @asynccontextmanager
    async def one(self, asked: Asked) -> AsyncIterator[None]:
        async with self.share(f"key {asked.signed.key.access}", OF_A_KEY):
            async with self.share(f"url {asked.by_anybody}", OF_A_URL) if asked.by_anybody else nullcontext(), self.all:
                yield

    def some_of_anybody(self) -> AbstractAsyncContextManager[None]:
        """A place for an answer of anybody's that is not long."""
        return self.share("anybody's", OF_ANYBODY)

    @asynccontextmanager
    async def share(self, name: str, most: int) -> AsyncIterator[None]:
        """One of so many places of a name, which is forgotten once nobody has one."""
        places, count = self.taken.get(name, (asyncio.Semaphore(most), 0))
        self.taken[name] = places, count + 1
        try:
            async with places:
                yield
        finally:
            places, count = self.taken.pop(name)
            if count > 1:
                self.taken[name] = places, count - 1


def left_to_others(held: int, disk: int) -> int:
    """How many bytes of a disk of that size a gateway leaves free which holds so many in files."""
    return LEFT if held <= OWN else max(LEAST_TO_OTHERS, min(disk // TO_OTHERS, MOST_TO_OTHERS))


def ahead_of(is_anybody: bool) -> int:
    """How many bytes of an answer are read at a time."""
    return AHEAD_OF_ANYBODY if is_anybody or Spool.held > HELD else AHEAD


class Spool:
    """Bytes that are kept for a while: in a file without a name, whose end is where a thread or the loop writes, and which another one reads. It may be closed amid
    these: then the file ends once they have, so that none of them meets another one that has got its number."""

    held, counting = 0, threading.Lock()  # bytes in all files that are open

    def __init__(self) -> None:
        self.file: IO[bytes] | None = tempfile.TemporaryFile(buffering=0)
        self.size = 0

    def opened(self) -> IO[bytes]:
        """(Whoever has it keeps it open.) A ValueError once it is closed."""
        if self.file is None:
            raise ValueError("the file is closed")
        return self.file

    def add(self, data: bytes) -> None:
        """503 ServiceUnavailable where the disk is full, but for what is left to others."""
        file = self.opened()
        try:
            room, rest = os.fstatvfs(file.fileno()), memoryview(data)
            if room.f_bavail * room.f_frsize < left_to_others(Spool.held + len(data), room.f_blocks * room.f_frsize) + len(data):
                raise OSError
            while rest:
                rest = rest[os.pwrite(file.fileno(), rest, self.size + len(data) - len(rest)) :]
        except OSError:
            raise S3Error("ServiceUnavailable", "The gateway has no room for so many long contents at a time. Nothing was changed.") from None
        self.count(len(data))

    def count(self, added: int) -> None:
        with Spool.counting:
            self.size += added
            Spool.held += added if self.file else 0

    def read(self, at: int, length: int) -> bytes:
        file = self.opened()
        return os.pread(file.fileno(), length, at)

    def close(self) -> None:
        with Spool.counting:
            Spool.held -= self.size if self.file else 0
            self.file = None
