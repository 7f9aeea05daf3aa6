"""What the pages of a grid say, in the order of keys: an index on disk, so that a listing reads no page, and that memory has to hold few.

It has the text of each page as any session of this gateway saw it last, with the tag of its file, and a row for each line. A tag tells one content of a
file: so a page of which the grid tells the same tag is the page that stands here. Which pages have to be asked for, so that the rows are what names held at
some moment of a request, is not decided here (all_pages.py).

A disk may give back what was not written there, or long ago. So each page has a sum, and all that is there has one together, by which a later process judges what
it finds: where a sum is wrong it begins anew. It is the exclusive or of the digests of all rows, so that a change costs only what it changes.

Of a page that has split the lines are rows as long as the session's page of the next level, which takes its place for their names, is not known here. That was written only once the old
one had the signpost: so whoever saw it need not have seen that (gridfs_client/splits.py).
"""

import hashlib
import os
import re
import sqlite3
import tempfile
import threading
import time
import zlib
from bisect import bisect_left
from collections import OrderedDict
from collections.abc import Iterable, Iterator, Mapping, Sequence
from contextlib import AbstractContextManager, ExitStack, closing, contextmanager, nullcontext, suppress
from heapq import merge
from itertools import groupby, islice
from typing import Any, Final, NamedTuple, Protocol
from urllib.parse import quote

from gridfs_client.answers import Tag
from gridfs_client.buckets import Held
from gridfs_client.core import BEYOND, Known, Line, Page, Version, version_of
from gridfs_client.errors import BadSettings, ClientError
from gridfs_client.layout import Layout
from gridfs_client.pages import parse_line, parse_page, text_of
from gridfs_client.ways import Found, version_in

from .errors import S3Error, tell
from .later import WHERE, head_in, later_page
from .places import KEYS, NULL, VERSIONS, Object, of_words

FORM, OF_A_GATEWAY = 2, 0x67667333  # of the tables; and by what a file is known to be an index, in the head of the database
HEAD, MAGIC = 100, b"SQLite format 3\0"  # bytes of that head, and its first ones
RECENT = 4 << 20  # bytes of text of pages that are kept as they were read
COMMIT = 2.0  # seconds after which what was kept is written down
TABLES = (
    "create table if not exists pages (place integer primary key, number integer, session integer, sum integer, text blob)",
    "create table if not exists rows (key blob, name text, session integer, version integer, writer integer, grid text, move integer, "
    "size integer, etag text, time integer, words text, number integer, chooser integer, is_marker integer, primary key (key, name, session)) without rowid",
    "create table if not exists about (word text primary key, value text)",
)
ADDED = f"insert into rows values ({', '.join('?' * 14)})"
SUM: Final = "sum"  # the word of the sum of all, in `about`
OF_DAMAGE = (0, sqlite3.SQLITE_ERROR, sqlite3.SQLITE_CORRUPT, sqlite3.SQLITE_NOTADB)  # codes of faults by which an index is damaged, or of no form
LINE: Final = ""  # in the place of a name: the row is that of a line of a session's page, by its name
SIZE: Final = 7  # places in a row
WORDS: Final = 10
AT_ONCE = 5_000  # names that are counted before others are let in
TO_A_LEVEL: Final = b"\n>%d " % BEYOND  # a signpost to more pages
LINES: Final = re.compile(rb"\n[^>\n]")  # behind the first one, and signposts
BESIDE = (KEYS, VERSIONS)  # names of objects that don't tell their keys


class Row(NamedTuple):
    """An object, a version of one, or another name, as a listing tells of it. An object has its bucket and key for its key. `words` are kept of names that are no
    objects' alone; the versions of one key are in order by `order`."""

    key: str
    name: str
    size: int
    etag: str
    time: int
    words: str
    order: tuple[int, int]
    is_marker: bool

    @property
    def version(self) -> str:
        """Its ID among the versions of its key."""
        return self.name.removeprefix(VERSIONS).split("/")[1] if self.name.startswith(VERSIONS) else NULL


# A row of the index: key, name, session; the version; size (none of a removal), ETag, time, words; the order among versions, and whether it is a marker.
Stored = tuple[bytes, str, int, int, int, str, int, int | None, str, int, str, int, int, int]
COLUMNS = "key, name, session, version, writer, grid, move, size, etag, time, words, number, chooser, is_marker"


def row_for(held: Held) -> Row:
    """The row of what a name holds, by that name."""
    found = Object("", held)
    words = held.words if held.name.startswith(".s3/") else ""
    return Row(held.name, held.name, found.size, found.etag, found.time, words, found.order, found.is_marker)


def stored(line: Line, session: int, grid: str) -> Stored:
    version = version_of(line, session, grid)
    place = line.name.encode(), LINE, session, version.number, version.session, version.grid, version.move
    if line.content is None:
        return *place, None, "", 0, "", 0, 0, 0
    row = row_for(Held(line.name, Version(line.version, session), line.content, line.words))
    return *place, row.size, row.etag, row.time, row.words, *row.order, int(row.is_marker)


def digest_of(row: Sequence[object]) -> int:
    return int.from_bytes(hashlib.blake2b(repr(tuple(row)).encode("utf-8", "surrogatepass"), digest_size=8).digest(), "little")


def sum_of(place: int, number: int, session: int, text: bytes) -> int:
    """Of a page in its place."""
    return zlib.crc32(text, zlib.crc32(b"%d %d %d" % (place, number, session)))


def expect_sum(sum: object, *page: Any) -> None:
    """Damage where a page is not what was written."""
    try:
        if sum == sum_of(*page):
            return
    except TypeError:  # (it has not even its form)
        pass
    raise Damage("a page has another sum")


def expect_index(path: str) -> None:
    """NotOurs for a file that is something else than an index: it is somebody's. (A cut may leave one that is empty, or zeros.)"""
    with open(path, "rb") as file:
        head = file.read(HEAD)
    if not head.strip(b"\0"):
        return
    if not head.startswith(MAGIC):
        raise NotOurs
    if int.from_bytes(head[68:72], "big") != OF_A_GATEWAY:
        with closing(sqlite3.connect(f"file:{quote(path)}?mode=ro", uri=True)) as base:
            tables = {name for (name,) in base.execute("select name from sqlite_master where type = 'table'")}
        if int.from_bytes(head[60:64], "big") > 1 or not tables <= {"pages", "rows", "about"}:
            raise NotOurs


def key_beside(name: str, words: str) -> bytes | None:
    """Bucket and key of an object whose name does not tell its key; None where the words don't either, as those of a removal."""
    key = of_words(words).get("k")
    prefix = next(each for each in BESIDE if name.startswith(each))
    return f"{name[len(prefix):].partition('/')[0]}/{key}".encode() if key else None


def line_in(text: bytes, name: str) -> Line | None:
    """The line of a name in the text of a page."""
    end = f" {name}\n".encode()
    at = text.find(end, text.find(b"\n"))
    while at >= 0:
        line = parse_line(text[text.rfind(b"\n", 0, at) + 1 : at + len(end) - 1].decode())
        if line.name == name:
            return line
        at = text.find(end, at + 1)  # (another name ends so)
    return None


class NotOurs(sqlite3.OperationalError):
    """A file that is there is no index."""

    def __init__(self) -> None:
        super().__init__("it is there, and is no index of a gateway. Name another file")


class Damage(sqlite3.DatabaseError):
    """What is there is not what was written."""


class Names(Protocol):
    """All that names hold, each at some moment of a request."""

    def at_once(self) -> AbstractContextManager[None]:
        """What is read meanwhile is of one moment."""

    def rows(self, begin: bytes, end: bytes) -> Iterator[Row]:
        """What holds something from the first of these keys on to before the other, in the order of their bytes, by who is in `at_once`. An object has its
        bucket and key for its key, and also stands by its name where that does not tell it."""

    def names(self, prefix: str) -> list[Row]:
        """The names that begin so, and hold something."""

    def has_any(self, prefix: str) -> bool: ...

    def total(self, prefix: str) -> tuple[int, int]:
        """How many keys begin so that are there, and the bytes of the latest version of each."""


class Few:
    """Names that are all in memory."""

    def __init__(self, every: Iterable[Held]):
        found = [row_for(held) for held in every]
        beside = [(row, key_beside(row.name, row.words)) for row in found if row.name.startswith(BESIDE)]
        found += [row._replace(key=key.decode(), words="") for row, key in beside if key]
        self.every = sorted((row.key.encode(), row) for row in found)

    def at_once(self) -> AbstractContextManager[None]:
        return nullcontext()

    def rows(self, begin: bytes, end: bytes) -> Iterator[Row]:
        return (row for key, row in islice(self.every, bisect_left(self.every, begin, key=first), None) if key < end)

    def names(self, prefix: str) -> list[Row]:
        return list(self.rows(prefix.encode(), prefix.encode() + b"\xff"))

    def has_any(self, prefix: str) -> bool:
        return next(self.rows(prefix.encode(), prefix.encode() + b"\xff"), None) is not None

    def total(self, prefix: str) -> tuple[int, int]:
        return total(self, prefix)


def first(pair: tuple[bytes, Row]) -> bytes:
    return pair[0]


class Index:
    """Each call may come from any thread. Without a path the file is nobody else's, and goes with the process; else a later process goes on with it."""

    def __init__(self, path: str | None = None, grid: str = ""):
        self.path, self.grid, self.guard = path, grid, threading.RLock()
        self.tags: dict[tuple[int, int], Tag] = {}
        self.recent: OrderedDict[tuple[int, int], tuple[Known, int]] = OrderedDict()
        self.recent_bytes, self.changes, self.committed = 0, 0, time.monotonic()
        self.fullest = 0  # bytes of the fullest page
        self.numbers: dict[tuple[int, int], int] = {}
        self.asks: dict[tuple[int, int], tuple[int, ...]] = {}  # of pages that ask for others
        self.leads: set[str] = set()  # grids to which signposts lead
        self.open: set[int] = set()  # buckets of which a page asks for a later one than is known
        self.times_open = 0  # how often one became such
        self.layout: Layout | None = None  # once it is known; without one all pages are of one level
        self.split: dict[int, set[int]] = {}  # pages that have split, and whose
        self.not_cleared: set[tuple[int, int]] = set()  # those of them, each with its session, that have lines still
        self.not_signed: set[int] = set()  # those that may not have split of all sessions
        self.is_kept, self.beginnings = path is not None, 0  # how often it was begun anew
        self.sum = 0  # of all rows
        if path is None:
            handle, name = tempfile.mkstemp(prefix="gridfs-s3-index-")
            os.close(handle)
            self.base = self.opened(name)
            os.unlink(name)
        else:
            self.base = self.opened_or_anew(path)

    def opened_or_anew(self, path: str) -> sqlite3.Connection:
        """The index of a file, or one that is begun anew where that is damaged; in memory where the disk is full."""
        try:
            os.close(os.open(path, os.O_RDWR | os.O_CREAT, 0o600))  # (names are nobody else's to read)
            expect_index(path)
        except OSError as fault:
            raise sqlite3.OperationalError(fault.strerror) from None
        except sqlite3.DatabaseError:
            raise NotOurs from None
        try:
            return self.opened(path)
        except (sqlite3.DatabaseError, ClientError) as fault:
            code = getattr(fault, "sqlite_errorcode", 0) & 0xFF
            if code == sqlite3.SQLITE_FULL:
                tell(f"the index can't be written: {fault}; it is in memory")
                self.is_kept = False
                return self.opened(":memory:")
            if code not in OF_DAMAGE:
                raise  # (as where another gateway has it)
            tell(f"{path} is damaged: {fault}; the index is begun anew")
        for end in ("", "-wal", "-shm"):
            with suppress(FileNotFoundError):
                os.unlink(path + end)
        os.close(os.open(path, os.O_RDWR | os.O_CREAT, 0o600))
        return self.opened(path)

    def opened(self, path: str) -> sqlite3.Connection:
        base = sqlite3.connect(path, timeout=1, check_same_thread=False, isolation_level=None)
        try:
            base.execute("pragma locking_mode = exclusive")
            base.execute("pragma cache_size = -65536")
            if self.is_kept:
                base.execute("begin exclusive")
                base.execute(f"pragma application_id = {OF_A_GATEWAY}")
                base.execute("commit")
                base.execute("pragma journal_mode = wal")
                base.execute("pragma synchronous = normal")  # (a cut takes the last seconds, and tears nothing)
            else:
                base.execute("pragma journal_mode = memory")
                base.execute("pragma synchronous = off")
            base.execute("begin immediate")
            if base.execute("pragma user_version").fetchone() != (FORM,):
                for (name,) in base.execute("select name from sqlite_master where type = 'table'").fetchall():
                    base.execute(f"drop table {name}")
                base.execute(f"pragma user_version = {FORM}")
            for table in TABLES:
                base.execute(table)
            self.judge(base)
            self.learn(base)
        except BaseException:
            base.close()
            raise
        return base

    def judge(self, base: sqlite3.Connection) -> None:
        """Damage where anything there is not what was written last."""
        self.sum, told = 0, base.execute("select value from about where word = ?", (SUM,)).fetchone()
        for place, number, session, sum, text in base.execute("select place, number, session, sum, text from pages"):
            expect_sum(sum, place, number, session, text)
            self.sum ^= digest_of((place, number, session, sum))
        for table in ("rows", f"about where word != '{SUM}'"):
            for row in base.execute(f"select * from {table}"):
                self.sum ^= digest_of(row)
        if str(self.sum) != (told[0] if told else "0"):
            raise Damage("all has another sum")

    def learn(self, base: sqlite3.Connection) -> None:
        """What is known of pages in memory."""
        self.tags.clear()
        self.numbers.clear()
        self.asks.clear()
        self.split.clear()
        self.not_cleared.clear()
        self.not_signed.clear()
        for place, number, session, length, head in base.execute("select place, number, session, length(text), substr(text, 1, 500) from pages"):
            self.note(divmod(place, 64), Tag(number, session), *head_in(head), TO_A_LEVEL in head, length > len(head) or bool(LINES.search(head)))
            self.fullest = max(self.fullest, length)
        for place, text in base.execute("select place, text from pages where instr(text, x'0a3e')") if self.grid else ():  # (a grid alone has but one in a page)
            page, each = parse_page(text, WHERE), divmod(place, 64)
            self.leads.update(leads_of(page))
            self.note(each, self.tags[each], page.number, page.after, has_split(page), bool(page.lines))
        self.open = {page for page in {page for page, _ in self.asks} if not self.is_closed(page)}

    def note(self, each: tuple[int, int], tag: Tag, number: int, after: tuple[int, ...], is_split: bool, has_lines: bool) -> None:
        """Of a page and its session. (One pair is for all: there may be half a million.)"""
        self.tags[each], self.numbers[each] = tag, number
        if is_split:
            self.note_split(*each)
            self.not_cleared.add(each) if has_lines else self.not_cleared.discard(each)
        if after:
            self.asks[each] = after
        else:
            self.asks.pop(each, None)

    def note_split(self, page: int, session: int) -> None:
        whose = self.split.setdefault(page, set())
        if session not in whose:
            whose.add(session)
            self.not_signed.add(page)

    def is_closed(self, page: int) -> bool:
        """Whether each page of a bucket is there with the number that the others ask for."""
        pages = [(self.counting(page, session) if self.split else page, session) for session in range(1, 17)]
        asks = [self.asks[each] for each in pages if each in self.asks]
        return all(self.numbers.get(pages[session - 1], 0) >= number for after in asks for session, number in enumerate(after, 1))

    def close(self) -> None:
        """Writes down what is known, for a later process."""
        with self.guard:
            self.write_down()
            self.base.close()

    def forget(self) -> None:
        """Nothing is known."""
        with self.guard:
            for table in ("pages", "rows", "about"):
                self.base.execute(f"delete from {table}")
            self.sum = 0
            self.know_nothing()

    def know_nothing(self) -> None:
        self.beginnings += 1
        self.tags.clear()
        self.recent.clear()
        self.numbers.clear()
        self.asks.clear()
        self.open.clear()
        self.split.clear()
        self.not_cleared.clear()
        self.not_signed.clear()
        self.recent_bytes = 0

    def go_on_in_memory(self, why: sqlite3.Error) -> None:
        """Where the disk takes no more, it begins anew in memory, and nothing is left for a later process."""
        tell(f"the index can't be {'written' if isinstance(why, sqlite3.OperationalError) else 'read'}: {why}; it is in memory from now on")
        with suppress(sqlite3.Error):
            self.base.close()
        self.is_kept = False
        self.base = self.opened(":memory:")
        self.know_nothing()

    @contextmanager
    def reading(self) -> Iterator[None]:
        """What is read meanwhile is of one moment. Where it turns out to be damaged, all is begun anew: 503 ServiceUnavailable."""
        with self.guard:
            try:
                yield
            except sqlite3.DatabaseError as fault:
                self.go_on_in_memory(fault)
                raise S3Error("ServiceUnavailable", "The gateway's index was damaged, and is begun anew. Nothing was changed.") from None

    def about(self, word: str) -> str:
        with self.guard:
            found = self.base.execute("select value from about where word = ?", (word,)).fetchone()
        return str(found[0]) if found else ""

    def say(self, word: str, value: str) -> None:
        with self.guard:
            self.take_out("about where word = ?", word)
            self.base.execute("insert into about values (?, ?)", (word, value))
            self.sum ^= digest_of((word, value))
            self.commit()

    def commit(self) -> None:
        self.write_down()
        self.base.execute("begin")
        self.committed = time.monotonic()

    def write_down(self) -> None:
        if self.base.in_transaction:
            self.base.execute("insert or replace into about values (?, ?)", (SUM, str(self.sum)))
            self.base.execute("commit")

    def take_out(self, where: str, *words: object) -> None:
        """Removes rows; their digests go from the sum of all."""
        for row in self.base.execute(f"delete from {where} returning *", words):
            self.sum ^= digest_of(row)

    def add(self, row: Sequence[object]) -> None:
        self.base.execute(ADDED, row)
        self.sum ^= digest_of(row)

    # Pages

    def tag(self, page: int, session: int) -> Tag:
        return self.tags.get((page, session), Tag(0, 0))

    def known(self, page: int, session: int) -> Known | None:
        """The page of a session as it was seen last."""
        with self.reading():
            return self.found(page, session)

    def found(self, page: int, session: int) -> Known | None:
        if found := self.recent.get((page, session)):
            self.recent.move_to_end((page, session))
            return found[0]
        told = next(self.texts_at("place = ?", page * 64 + session), None)
        if told is None:
            return None
        known = Known(told[1], later_page(told[2]))
        self.note_recent(page, session, known, len(told[2]))
        return known

    def texts_at(self, where: str, *words: int) -> Iterator[tuple[int, Tag, bytes]]:
        """The places, tags and texts of pages. Damage where one is not what was written."""
        for place, number, session, sum, text in self.base.execute(f"select place, number, session, sum, text from pages where {where}", words):
            expect_sum(sum, place, number, session, text)
            yield place, Tag(number, session), text

    def greatest(self, page: int, name: str) -> Found | None:
        """The line of a name that counts, of all pages of its bucket; only that is read."""
        lines, seen = list[Found](), set[int]()
        with self.reading():
            for each in self.and_before(page):
                for place, _, text in self.texts_at("place between ? and ?", each * 64, each * 64 + 63):
                    if place % 64 not in seen and (line := line_in(text, name)):
                        lines.append(Found(Version(line.version, place % 64), place % 64, "", line))
                    seen.add(place % 64)
                if self.layout and len(seen) == self.layout.sessions:
                    break
        return max(lines, key=version_in) if lines else None

    def note_recent(self, page: int, session: int, known: Known, length: int) -> None:
        _, before = self.recent.pop((page, session), (None, 0))
        self.recent[page, session] = known, length
        self.recent_bytes += length - before
        while self.recent_bytes > RECENT and len(self.recent) > 1:
            _, (_, length) = self.recent.popitem(last=False)
            self.recent_bytes -= length

    def keep(self, page: int, session: int, known: Known) -> None:
        """A page as it was read or written, unless a later one is known."""
        with self.guard:
            if known.tag <= self.tag(page, session):
                return
            text = text_of(known.page)
            try:
                self.keep_text(page, session, known, text)
            except sqlite3.DatabaseError as fault:
                self.go_on_in_memory(fault)
                self.keep_text(page, session, known, text)
            self.note((page, session), known.tag, known.page.number, known.page.after, has_split(known.page), bool(known.page.signposts and known.page.lines))
            if self.layout and (first := self.layout.before(page)) is not None:
                self.note_split(first, session)  # (else nobody had written this one)
            self.leads.update(leads_of(known.page))
            self.note_open(page)
            self.note_recent(page, session, known, len(text))
            self.fullest = max(self.fullest, len(text))
            self.changes += 1
            if self.is_kept and time.monotonic() - self.committed > COMMIT:
                try:
                    self.commit()
                except sqlite3.DatabaseError as fault:
                    self.go_on_in_memory(fault)

    def note_open(self, page: int) -> None:
        if self.is_closed(page):
            self.open.discard(page)
        else:
            self.open.add(page)
            self.times_open += 1

    def keep_text(self, page: int, session: int, known: Known, text: bytes) -> None:
        before = self.shown(page, session)
        place, tag = page * 64 + session, known.tag
        row = place, tag.number, tag.session, sum_of(place, tag.number, tag.session, text)
        for gone in self.base.execute("delete from pages where place = ? returning place, number, session, sum", (place,)):
            self.sum ^= digest_of(gone)
        self.base.execute("insert into pages values (?, ?, ?, ?, ?)", (*row, text))
        self.sum ^= digest_of(row)
        if page in self.split or has_split(known.page):
            self.change_rows(self.part(before, page, session), self.part(known.page.by_name, page, session), session)
        else:
            self.change_rows(before, known.page.by_name, session)

    def change_rows(self, old: Mapping[str, Line], new: Mapping[str, Line], session: int) -> None:
        changed = [name for name in old.keys() | new.keys() if old.get(name) is not new.get(name) and old.get(name) != new.get(name)]
        beside = {name: self.keys_of(name, old) for name in changed if name.startswith(BESIDE)}
        for name in changed:
            self.take_out("rows where key = ? and name = '' and session = ?", name.encode(), session)
            if name in new:
                self.add(stored(new[name], session, self.grid))
        for name, keys in beside.items():
            found = max(self.lines(name), key=by_version, default=None)
            key = key_beside(name, found[WORDS]) if found and found[SIZE] is not None else None
            for each in keys | ({key} if key else set()):
                self.take_out("rows where key = ? and name = ?", each, name)
            if found and key:
                self.add((key, name, 0, *found[3:WORDS], "", *found[WORDS + 1 :]))

    def lines(self, name: str) -> list[Stored]:
        """The lines of a name."""
        return self.base.execute(f"select {COLUMNS} from rows where key = ? and name = ''", (name.encode(),)).fetchall()

    def keys_of(self, name: str, old: Mapping[str, Line]) -> set[bytes]:
        """The key of an object whose name does not tell it, as the lines say it that were known until now."""
        words = [each[WORDS] for each in self.lines(name)] + ([old[name].words] if name in old else [])
        return {key for key in (key_beside(name, each) for each in words) if key}

    def pages_of(self, session: int) -> Iterator[Page]:
        """All pages of a session."""
        for page, each in sorted(self.tags):
            if each == session:
                with self.reading():
                    told = next(self.texts_at("place = ?", page * 64 + session), None)
                if told:
                    yield parse_page(told[2], WHERE)

    def texts(self, session: int, pages: range) -> list[bytes]:
        """The texts of these pages of a session, as far as they are known."""
        with self.reading():
            return [text for page in pages if (page, session) in self.tags for _, _, text in self.texts_at("place = ?", page * 64 + session)]

    def end(self) -> int:
        """Behind the last page that is known."""
        with self.guard:
            return max((page for page, _ in self.tags), default=-1) + 1

    # Pages that split

    def and_before(self, page: int) -> Iterator[int]:
        """A page, and those of whose names it has a part, back to level 0."""
        found: int | None = page
        while found is not None:
            yield found
            found = self.layout.before(found) if self.layout else None

    def counting(self, page: int, session: int) -> int:
        """The page of a session that counts for a bucket, as far as is known."""
        if (page, session) in self.tags:
            return page
        return next((each for each in self.and_before(page) if (each, session) in self.tags), page)

    def page_of(self, layout: Layout, name: str) -> int:
        """The page of a name at the last level to which names of its bucket went on, as far as is known. BadSettings where this plan lacks that."""
        level, page = 0, layout.page_of(name)
        while page in self.split:
            level += 1
            if level == len(layout.levels):
                raise BadSettings(f"page {page} has split, and its names went on to pages of a later plan")
            page = layout.page_of(name, level)
        return page

    def is_open(self, page: int) -> bool:
        """Whether a page of the bucket asks for a later one than is known."""
        return not self.is_closed(page) if self.split else page in self.open

    def is_begun(self, layout: Layout, page: int) -> bool:
        """Whether names of the bucket before went on to this page, as far as is known."""
        before = layout.before(page)
        return before is None or before in self.split

    def is_alone(self, layout: Layout, page: int) -> bool:
        """Whether the pages before were seen with the signpost, of all sessions: then nothing comes into them any more that counts."""
        before = layout.before(page)
        return before is None or len(self.split.get(before, ())) == layout.sessions and self.is_alone(layout, before)

    def to_split(self, layout: Layout) -> dict[int, set[int]]:
        """Pages to split wholly that have begun to, and of which sessions."""
        every = set(range(1, layout.sessions + 1))
        with self.guard:
            self.not_signed -= {page for page in self.not_signed if self.split[page] >= every}
            found = {page: every - self.split[page] for page in self.not_signed if page < layout.levels[-1].first}
            for page, session in self.not_cleared:
                found.setdefault(page, set()).add(session)
        return found

    def whole(self, page: int) -> set[int]:
        """The sessions whose page has split wholly."""
        with self.guard:
            return {session for session in self.split.get(page, ()) if (page, session) not in self.not_cleared}

    def shown(self, page: int, session: int) -> Mapping[str, Line]:
        """The lines of which rows stand here for a bucket: of the page itself, or of one before."""
        known = self.found(self.counting(page, session), session)
        if known is None:
            return {}
        if self.layout is None or (page, session) in self.tags:
            return known.page.by_name
        level = self.layout.level_of(page)
        return {name: known.page.by_name[name] for name in known.page.by_name if self.layout.page_of(name, level) == page}

    def part(self, lines: Mapping[str, Line], page: int, session: int) -> Mapping[str, Line]:
        """Those of which no page of the next level is known."""
        if self.layout is None or (level := self.layout.level_of(page) + 1) == len(self.layout.levels):
            return lines
        return {name: lines[name] for name in lines if (self.layout.page_of(name, level), session) not in self.tags}

    def lacks_for(self, page: int, session: int, later: Page) -> set[int]:
        """Pages of the next level that are not known, and to which lines went that the session's page showed, and does not any more."""
        if self.layout is None or (level := self.layout.level_of(page) + 1) == len(self.layout.levels):
            return set()
        with self.reading():
            gone = self.shown(page, session).keys() - later.by_name.keys()
        return {number for name in gone if ((number := self.layout.page_of(name, level)), session) not in self.tags}

    # Names

    def at_once(self) -> AbstractContextManager[None]:
        return self.reading()

    def rows(self, begin: bytes, end: bytes) -> Iterator[Row]:
        return that_count(self.stored(begin, end))

    def stored(self, begin: bytes, end: bytes) -> Iterator[Stored]:
        return self.base.execute(f"select {COLUMNS} from rows where key >= ? and key < ? order by key, name", (begin, end))

    def names(self, prefix: str) -> list[Row]:
        with self.reading():
            return list(self.rows(prefix.encode(), prefix.encode() + b"\xff"))

    def has_any(self, prefix: str) -> bool:
        with self.reading():
            return next(self.rows(prefix.encode(), prefix.encode() + b"\xff"), None) is not None

    def total(self, prefix: str) -> tuple[int, int]:
        return total(self, prefix)


def has_split(page: Page) -> bool:
    return any(each.move == BEYOND for each in page.signposts)


def leads_of(page: Page) -> set[str]:
    """The grids to which signposts of a page lead."""
    return {each.grid for each in page.signposts if each.move != BEYOND}


def by_version(found: Stored) -> tuple[int, int, str, int]:
    return found[3:7]


def that_count(every: Iterable[Stored]) -> Iterator[Row]:
    """Of rows in order those that count, where they hold something."""
    best: Stored | None = None
    for found in every:
        if best and best[:2] != found[:2]:
            if best[SIZE] is not None:
                yield row_of(best)
            best = None
        if best is None or by_version(found) > by_version(best):
            best = found
    if best and best[SIZE] is not None:
        yield row_of(best)


def row_of(found: Stored) -> Row:
    key = found[0].decode()
    return Row(key, found[1] or key, found[SIZE] or 0, found[8], found[9], found[WORDS], (found[11], found[12]), bool(found[13]))


class Union:
    """The indexes of several grids as they are at one moment: of each name the greatest line of all counts, as where all pages of a way are read at once."""

    def __init__(self, indexes: Sequence[Index]):
        self.indexes = indexes

    @contextmanager
    def at_once(self) -> Iterator[None]:
        with ExitStack() as held:
            for index in self.indexes:
                held.enter_context(index.at_once())
            yield

    def rows(self, begin: bytes, end: bytes) -> Iterator[Row]:
        for row in that_count(merge(*(index.stored(begin, end) for index in self.indexes), key=by_key)):
            # (a key that stands beside a name is as old as the grid that says it)
            if row.name != row.key:
                found = max((line for index in self.indexes for line in index.lines(row.name)), key=by_version)
                if found[SIZE] is None:
                    continue
                row = row_of((row.key.encode(), row.name, *found[2:]))
            yield row

    def names(self, prefix: str) -> list[Row]:
        with self.at_once():
            return list(self.rows(prefix.encode(), prefix.encode() + b"\xff"))

    def has_any(self, prefix: str) -> bool:
        with self.at_once():
            return next(self.rows(prefix.encode(), prefix.encode() + b"\xff"), None) is not None

    def total(self, prefix: str) -> tuple[int, int]:
        return total(self, prefix)


def by_key(found: Stored) -> tuple[bytes, str]:
    return found[:2]


def by_keys(rows: Iterable[Row]) -> Iterator[list[Row]]:
    """The versions of each key, the latest first, of rows in order."""
    return (sorted(each, key=lambda row: row.order, reverse=True) for _, each in groupby(rows, key=lambda row: row.key))


def total(names: Names, prefix: str) -> tuple[int, int]:
    """How many keys begin so that are there, and the bytes of the latest version of each, as they were at some moments: others are let in meanwhile."""
    place, end, count, size = prefix.encode(), prefix.encode() + b"\xff", 0, 0
    while True:
        found, last = 0, ""
        with names.at_once():
            for latest, *_ in islice(by_keys(names.rows(place, end)), AT_ONCE):
                found, last = found + 1, latest.key
                count, size = (count, size) if latest.is_marker else (count + 1, size + latest.size)
        if found < AT_ONCE:
            return count, size
        place = last.encode() + b"\0"
