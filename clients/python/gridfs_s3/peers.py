"""What gateways of one tenant tell one another: which pages they changed. So a listing looks at these alone (docs/S3.md, *What gateways tell one another*).

A gateway has a name of this machine for each of its sessions (claims.py), and perhaps an address for those on others (remote.py). Who connects to it is told a line `START CHALLENGE`: a random word of the
gateway's start, and one of this connection. He asks, as often as he likes for a while

    NONCE SESSION COUNT MAC                what changed since that count, or all (-1); of which session he thinks that this gateway has it, or of none (0)
    {"sessions": .., "count": .., "pages": ..}      and behind it a line with the MAC: the gateway's sessions, its count, and the pages; null where it can't tell them

A MAC is by a key that all gateways of the tenant have, since they have the tenant's access keys, and other tenants' have not. It is over START, CHALLENGE and all that was said.
Nothing rests on an answer but that less is looked at.

Why a listing is still exact. A page is noted before anything of a change is asked for, and remembered with a count once the change is over. A listing asks once it has begun. A change that
was over by then is remembered, so its page is looked at. One that is under way is told too, so its page is looked at, and the next listing is told it once more. One that begins later need
not be seen. The new count is kept only once all looks have ended well. So the index has each page as it was when its gateway was asked, or later. A session that comes to another gateway is
told as settled once that has written each page of it: so all these pages are told.

By addresses it holds word for word, since each question bears a word of its own: no answer is older than its question. But names of a machine keep two gateways from one session, and
addresses don't. So all addresses are asked, also those of which no session is wanted any more, and the pages of each answer are looked at. A gateway that was stopped, and replaced by one
that is asked too, hides nothing of that one. Where its successor is not asked, it may tell for two seconds at most that nothing changed: then it finds at the homes of its sessions that
they are no more its own, and all volumes are looked at.

A file of the grid could say it, at the price of one more synced write for each put. Settings name the other gateways, since each gateway has a
file of settings that its unit and the file `several` name already. Gateways over several grids tell one another nothing: there a listing takes
the indexes of all grids as of one moment, at which no move is under way, and a mover may have a session of another gateway.
"""

import asyncio
import hmac
import json
import secrets
import socket
import threading
from collections import OrderedDict
from collections.abc import Awaitable, Callable, Collection, Container, Iterable
from contextlib import closing, suppress
from dataclasses import dataclass
from functools import partial

MOST = 4_096  # pages of which is remembered that they changed
PATIENCE = 1.0  # seconds for an answer
LASTS = 60.0  # seconds for which who was answered may ask again by the same connection: then keys and certificates count as they are
MOST_ASKING = 16  # connections at a time
LONGEST = 1 << 17  # bytes of a line
NEVER, ANY = -1, 0
FAULTS = OSError, ValueError, TypeError, KeyError, TimeoutError
Streams = tuple[asyncio.StreamReader, asyncio.StreamWriter]
Reach = Callable[[], Awaitable[Streams]]  # has a connection; an OSError where there is none


class AllBut(Container[int]):
    """All pages but these."""

    def __init__(self, pages: Iterable[int] = ()):
        self.pages = frozenset(pages)

    def __contains__(self, page: object) -> bool:
        return page not in self.pages


Pages = Container[int]


class Changes:
    """The pages of this gateway's sessions that changed, in order. Each call may come from any thread."""

    def __init__(self, most: int = MOST):
        self.start, self.most = secrets.token_hex(16), most
        self.guard = threading.Lock()
        self.count = self.forgotten = 0  # of changes that are over; up to which of them not all pages are known any more
        self.latest: OrderedDict[int, int] = OrderedDict()  # of each page its last change, the latest behind the others
        self.under_way: set[tuple[int, int]] = set()  # sessions with pages that change now

    def begins(self, session: int, page: int) -> None:
        """Before anything is asked for by which others could see the page as another one."""
        with self.guard:
            self.under_way.add((session, page))

    def ends(self, session: int, page: int) -> None:
        with self.guard:
            self.under_way.discard((session, page))
            self.count += 1
            self.latest.pop(page, None)
            self.latest[page] = self.count
            if len(self.latest) > self.most:
                _, self.forgotten = self.latest.popitem(last=False)

    def since(self, count: int) -> tuple[int, set[int] | None]:
        """The count now, and the pages that changed since one that was told before, or change now; None where that is not known any more."""
        with self.guard:
            if not self.forgotten <= count <= self.count:
                return self.count, None
            found = {page for _, page in self.under_way}
            for page, last in reversed(self.latest.items()):
                if last <= count:
                    break
                found.add(page)
            return self.count, found


@dataclass(frozen=True)
class Told:
    """What a gateway told: by its start, its sessions, how many changes there were, and which pages others have to look at; None: all."""

    start: str
    sessions: frozenset[int]
    count: int
    pages: frozenset[int] | None


def mac(key: bytes, *words: str) -> str:
    return hmac.new(key, "\n".join(words).encode(), "sha256").hexdigest()


async def line_of(reader: asyncio.StreamReader) -> str:
    """The next line. A ValueError for one that has no end or is too long."""
    line = await reader.readline()
    if not line.endswith(b"\n"):
        raise ValueError("a line has no end")
    return line[:-1].decode("ascii")


def by_name(name: str) -> Reach:
    """The gateway that has this name of the machine."""
    return partial(asyncio.open_unix_connection, name, limit=LONGEST)


def by_socket(connection: socket.socket) -> Reach:
    """Who has connected on this machine."""
    return partial(asyncio.open_connection, sock=connection, limit=LONGEST)


class Line:
    """A connection to a gateway, on which it is asked one thing after another."""

    def __init__(self, streams: Streams, head: str):
        (self.reader, self.writer), self.head = streams, head

    async def ask(self, key: bytes, session: int, known: Callable[[str], int]) -> Told:
        """What it tells of what changed since the count that is known of its start. Of FAULTS, where it tells nothing: then the connection is closed."""
        try:
            start, _ = self.head.split(" ")
            question = f"{secrets.token_hex(16)} {session} {known(start)}"
            self.writer.write(f"{question} {mac(key, 'asks', self.head, question)}\n".encode())
            answer = await line_of(self.reader)
            if not hmac.compare_digest(await line_of(self.reader), mac(key, "tells", self.head, question, answer)):
                raise ValueError("another key")
            told = json.loads(answer)
            pages = told["pages"]
            return Told(start, frozenset(map(int, told["sessions"])), int(told["count"]), None if pages is None else frozenset(map(int, pages)))
        except BaseException:
            self.close()
            raise

    def close(self) -> None:
        self.writer.transport.abort()


async def line_to(reach: Reach) -> Line:
    reader, writer = await reach()
    try:
        return Line((reader, writer), await line_of(reader))
    except BaseException:
        writer.transport.abort()
        raise


async def ask(reach: Reach, key: bytes, session: int, known: Callable[[str], int]) -> Told | None:
    """The same of the gateway that is reached so; None where there is none, or it tells nothing in time."""
    with suppress(*FAULTS):
        async with asyncio.timeout(PATIENCE):
            with closing(await line_to(reach)) as line:
                return await line.ask(key, session, known)
    return None


async def tell(reach: Reach, key: bytes, start: str, sessions: Collection[int], answer: Callable[[int], Awaitable[tuple[int, Collection[int] | None]]]) -> None:
    """Answers who is reached so, as one of the tenant's gateways, and may ask again for a while; any other one is told nothing."""
    loop, head = asyncio.get_running_loop(), f"{start} {secrets.token_hex(16)}"
    with suppress(OSError, ValueError, TimeoutError):
        async with asyncio.timeout(PATIENCE) as until:
            reader, writer = await reach()
            try:
                writer.write(f"{head}\n".encode())
                end = loop.time() + LASTS
                while loop.time() < end:
                    question, _, told = (await line_of(reader)).rpartition(" ")
                    until.reschedule(loop.time() + PATIENCE)
                    _, session, count = question.split(" ")
                    if not hmac.compare_digest(told, mac(key, "asks", head, question)) or int(session) not in (ANY, *sessions):
                        return
                    had = sorted(sessions)  # (first: one that comes meanwhile is not settled)
                    now, pages = await answer(int(count))
                    text = json.dumps({"sessions": had, "count": now, "pages": None if pages is None else sorted(pages)})
                    writer.write(f"{text}\n{mac(key, 'tells', head, question, text)}\n".encode())
                    await writer.drain()
                    until.reschedule(end)
            finally:
                writer.close()
