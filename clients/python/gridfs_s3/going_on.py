"""How a gateway goes on with the index of an earlier one, and what it leaves for a later one (docs/S3.md, *Many objects*).

After an end in order, with nobody at its sessions since, it asks for nothing. After a kill it serves at once, and compares the tags of all pages meanwhile, by a look for each volume.
`FILE.sessions` tells the last operation that each session began: a page that it wrote is settled anew. Where somebody had a session since, or pages were not settled yet, all pages of that
session are. The name `.s3/index` tells whether an index is of this grid.
"""

import asyncio
import secrets
from contextlib import suppress
from functools import partial
from typing import TYPE_CHECKING

from gridfs_client.ends import parse_end
from gridfs_client.errors import ClientError, NoSuchName
from gridfs_client.names import NamedFiles

from .errors import tell
from .notes import Begun, Notes
from .store import Store
from .workers import RETRY, Worker

if TYPE_CHECKING:
    from .sessions import Pool

TRIES = 60  # of a look at all pages, while homes are silent
WORD_OF_GRID = ".s3/index"  # a name, with what the index of this grid says of it


class GoingOn:
    """By the index of an earlier gateway, and how far its sessions had come."""

    def __init__(self, pool: "Pool"):
        self.pool = pool
        self.notes: Notes | None = None  # of how far sessions come, where a later gateway may go on
        self.task: asyncio.Task[None] | None = None  # where an earlier gateway was killed, until all pages were looked at

    async def begin(self) -> None:
        """Goes on with the index of an earlier gateway, if that is of this grid. Where that gateway ended in order, and nobody had a session since, nothing is
        under way into its pages, and they stand in the index."""
        index = self.pool.shared.index
        if not index.is_kept:
            return
        before = self.read_notes()
        found = await asyncio.gather(*(self.go_on_by(worker, before.get(worker.number)) for worker in list(self.pool.workers.values())))  # (first: asking for the word takes numbers)
        try:
            word = await self.pool.run(await self.pool.lease(), self.word_of_grid, is_soon=True) if self.pool.is_open else ""
        except ClientError:
            word = ""
        if not word or index.about("grid") != word:
            index.forget()
            for worker in self.pool.workers.values():
                self.pool.renew(worker)
            if word:
                index.say("grid", word)
        elif killed := [each for each in found if each]:
            self.task = self.pool.spawn(self.go_on_after(killed))

    async def go_on_after(self, killed: list[tuple[Worker, Store, Begun]]) -> None:
        """Goes on by sessions whose gateway was killed, once the index has all pages as they are. Requests are served meanwhile."""
        for _ in range(TRIES):
            try:
                await self.pool.all_pages.look()
                break
            except ClientError:
                await asyncio.sleep(RETRY)
        else:
            return
        await asyncio.gather(*(self.go_on_by_after(*each) for each in killed))

    async def go_on_by_after(self, worker: Worker, store: Store, begun: Begun) -> None:
        with suppress(ClientError):
            await self.pool.run(await self.pool.lease(worker.number), lambda now: store.go_on_after(begun) if now is store else None, is_soon=True)

    def word_of_grid(self, store: Store) -> str:
        """What the index of this grid says of it: a random word under a name. (What the index has is not asked: perhaps it is another grid's.)"""
        files = NamedFiles(store.session, self.pool.layout)
        try:
            return files.get(WORD_OF_GRID)[0].decode()
        except NoSuchName:
            files.put(WORD_OF_GRID, secrets.token_hex(16).encode())
            return files.get(WORD_OF_GRID)[0].decode()

    def read_notes(self) -> dict[int, Begun]:
        """How far each session came by the gateway before; from now on it is noted how far it comes by this one."""
        try:
            self.notes = Notes(f"{self.pool.shared.index.path}.sessions")
        except OSError as fault:
            tell(f"{fault.filename}: {fault.strerror}: a gateway that goes on after a kill settles all pages")
            return {}
        found = ((number, self.notes.read(number)) for number in self.pool.workers)
        told = {number: begun for number, begun in found if begun}
        for worker in self.pool.workers.values():
            worker.session.notes = self.notes
        return told

    async def go_on_by(self, worker: Worker, begun: Begun | None) -> tuple[Worker, Store, Begun] | None:
        """Begins with a session, as it ended; where its gateway was killed, how far it had come, if nobody had it since and all its pages were settled."""
        end = parse_end(self.pool.shared.index.about(f"session {worker.number}"))
        if end is None and begun is None:
            return None
        with suppress(ClientError):
            await self.pool.run(await self.pool.lease(worker.number), partial(Store.go_on, end=end), is_soon=True)
            if begun and begun.is_settled and worker.session.last and begun.is_last(worker.session.home, worker.session.last) and not worker.store.goes_on:
                return worker, worker.store, begun
        return None

    def note_end(self) -> None:
        """Writes down how far each session came, for a later gateway. Called once nothing is under way."""
        index = self.pool.shared.index
        if index.is_kept:
            for worker in self.pool.workers.values():
                end = None if worker.is_busy or worker.is_silent or worker.is_lent else worker.store.end()
                index.say(f"session {worker.number}", end.text() if end else "")
            index.close()
