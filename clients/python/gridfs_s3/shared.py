"""What the sessions of a gateway share: turns at a name and the clock, and pages of their grid that one of them has read."""

import threading
import time
from collections.abc import Iterable, Iterator
from contextlib import contextmanager
from dataclasses import replace
from typing import cast
from weakref import WeakValueDictionary

from gridfs_client import core, splits
from gridfs_client.answers import Row, Tag
from gridfs_client.buckets import Bucket, Held
from gridfs_client.core import Known, Page
from gridfs_client.layout import Layout
from gridfs_client.sessions import Files
from gridfs_client.skimming import NEVER
from gridfs_client.ways import Ground
from gridfs_client.writers import Writer

from .index import Index
from .later import whole
from .peers import Changes

AHEAD = 3_600_000  # milliseconds by which a time may be ahead of the clock
MOST_AT_HAND = 2_048  # names of which it is remembered what they hold
LATEST = 9_999_999_999_999  # which a line has room for


class Turns:
    """Turns and the clock of all sessions of a gateway, at whichever grid. Each call may come from any thread."""

    def __init__(self) -> None:
        self.guard = threading.Lock()
        self.locks: dict[str, tuple[threading.Lock, int]] = {}  # of names, and how many changes of them are under way
        self.numbers: dict[str, int] = {}  # of the last versions of these names
        self.unsure: dict[str, int] = {}  # names, and the number of a version that may still take effect, since nobody answered
        self.last = 0  # the last time that was given

    @contextmanager
    def under_way(self, name: str) -> Iterator[threading.Lock]:
        """A change of a name, from its first look on; and the lock by which changes of one name go one after another within a gateway."""
        with self.guard:
            lock, count = self.locks.get(name, (threading.Lock(), 0))
            self.locks[name] = lock, count + 1
        try:
            yield lock
        finally:
            with self.guard:
                lock, count = self.locks.pop(name)
                if count > 1:
                    self.locks[name] = lock, count - 1
                else:
                    self.numbers.pop(name, None)

    def time_after(self, before: int) -> int:
        """The time of a change, in milliseconds since the epoch. It is after that of what the name held, and after all that were given before, even
        where the machine's clock goes back. But for that of the name itself none counts that is far ahead of the clock: that, or the clock then, was wrong."""
        with self.guard:
            now = time.time_ns() // 1_000_000
            least = self.last + 1 if self.last <= now + AHEAD else 0
            told = max(now, least, before + 1)
            self.last = told if told <= now + AHEAD else max(now, least)
            return min(told, LATEST)

    def advance_past(self, before: int) -> None:
        """Times that are given from now on are after this one, unless it is far ahead of the clock."""
        with self.guard:
            if before <= time.time_ns() // 1_000_000 + AHEAD:
                self.last = max(self.last, before)

    def number_for(self, name: str, least: int) -> int:
        """The number of a version: at least so great, and above that of a change of this gateway that may still take effect, or had its turn since this one
        looked."""
        with self.guard:
            number = max(least, self.unsure.get(name, 0) + 1, self.numbers.get(name, 0) + 1)
            if name in self.locks:
                self.numbers[name] = number
            return number

    def note_unsure(self, name: str, number: int) -> None:
        """A change got no answer: later ones have to be greater, so that it is over once one of them has ended."""
        with self.guard:
            if len(self.unsure) > 10_000:
                self.unsure.pop(next(iter(self.unsure)))
            self.unsure[name] = max(number, self.unsure.pop(name, 0))


Seen = tuple[Row | None, ...]


class Shared:
    """Pages of all sessions of a gateway at one grid. Each call may come from any thread."""

    def __init__(self, turns: Turns | None = None, index: Index | None = None) -> None:
        self.turns = turns or Turns()
        self.index = index or Index()  # pages as they were seen last by any session
        self.changes = Changes()  # of pages by this gateway
        self.swept: dict[int, float] = {}  # pages that were swept, and when
        self.guard = threading.Lock()
        self.places: dict[int, tuple[int, tuple[int, ...]]] = {}  # of buckets: the volume and the files of the pages, session by session
        self.at_hand: dict[str, tuple[int, Seen, Held | None]] = {}  # what names held by pages of these buckets as they were
        self.may_grow = False  # whether a put that finds no room may go on to more pages, since all nodes have them

    def keep(self, session: int, number: int, known: Known) -> None:
        self.index.keep(number, session, known)

    def files(self, layout: Layout, page: int) -> tuple[int, tuple[int, ...]]:
        """Where the pages of a bucket stand: the volume, and the file of each session."""
        if found := self.places.get(page):
            return found
        every = [layout.page(each, page) for each in range(1, layout.sessions + 1)]
        self.places[page] = every[0][0], tuple(file for _, file in every)
        return self.places[page]

    def remember(self, name: str, page: int, pages: Seen, held: Held | None) -> None:
        """What a name holds as long as the pages of its bucket are told to be these: a tag tells one content of a file."""
        with self.guard:
            self.at_hand.pop(name, None)
            if len(self.at_hand) >= MOST_AT_HAND:
                del self.at_hand[next(iter(self.at_hand))]
            self.at_hand[name] = page, pages, held

    def recall(self, name: str, page: int, pages: Seen) -> tuple[Held | None] | None:
        """The same, where it was seen; else None."""
        found = self.at_hand.get(name)
        return (found[2],) if found and found[:2] == (page, pages) else None


class SharedBucket(Bucket):
    """A bucket that reads no page that another session of the gateway has read since it was written. A tag tells one content of a file: so a page with
    the tag that is listed is the page that would be read."""

    def __init__(self, writer: "SharedWriter", session: Files, layout: Layout, number: int, ground: Ground | None = None, before: Bucket | None = None):
        super().__init__(session, layout, number, ground, before)
        self.writer, self.shared = writer, writer.shared
        self.is_changing = False
        self.go_on()

    def go_on(self) -> None:
        """Begins with what is known of the pages; and where the own one is as it was carried last, that is the journal."""
        index, carried = self.shared.index, self.writer.carried.get(self.number)
        if carried == NEVER and self.before is not None:
            old = self.before.client.journal
            self.client = replace(self.client, seen=tuple(map(self.indexed, self.all)), journal=splits.part_of(old, self.has) if old else None)
            return
        own = index.known(self.number, self.me) if carried else None
        if own is None or own.tag != carried:
            return
        self.client = replace(self.client, seen=tuple(map(self.indexed, self.all)), journal=whole(own.page))
        self.is_carried = self.is_new = True

    def tag_of(self, session: int) -> Tag:
        """The tag of the page of a session that counts, as the index has it."""
        tag = self.shared.index.tag(self.number, session)
        if self.before is None:
            return tag
        return cast(SharedBucket, self.before).tag_of(session) if tag == NEVER else self.later(tag)

    def indexed(self, session: int) -> Known:
        """That page, as the index has it."""
        found = self.shared.index.known(self.number, session)
        if self.before is None:
            return found or Known()
        if found is None:
            old = cast(SharedBucket, self.before).indexed(session)
            return Known(old.tag, splits.part_of(old.page, self.has))
        return Known(self.later(found.tag), found.page)

    def later(self, tag: Tag) -> Tag:
        return Tag(tag.number + self.level_number * splits.LATER, tag.session)

    def known(self, state: core.State) -> core.Answer | None:
        match state:
            case core.Looks(client, _, ((session, least), *_)):
                listed = self.listed[session - 1]
                if listed and self.tag_of(session) == listed != client.seen[session - 1].tag:
                    found = self.indexed(session)
                    if found.tag == listed and found.page.number >= least:
                        return found
        return None

    def answer_of_files(self, request: core.Request, rows: tuple[Row | None, ...] | None) -> core.Answer:
        if isinstance(request, core.WriteJournal | core.WritePage):
            self.shared.changes.begins(self.me, self.number)
        told = super().answer_of_files(request, rows)
        match request:
            case core.ReadPage(session):
                self.keep(session, cast(Known, told))
            case core.WritePage(page):
                self.keep(self.me, Known(cast(Tag, told), page))
                self.shared.changes.ends(self.me, self.number)
        return told

    def keep(self, session: int, known: Known) -> None:
        """Keeps a page that was read or written. Lines that went to new pages don't go from the index before it has these."""
        for page in self.shared.index.lacks_for(self.number, session, known.page) if splits.is_split(known.page, self.level_number + 1) else ():
            cast(SharedBucket, self.writer.bucket(page)).answer_of_files(core.ReadPage(session), None)
        self.shared.keep(session, self.number, known)

    def answer_of_both(self, before: Bucket, request: core.Request, rows: tuple[Row | None, ...] | None) -> core.Answer:
        cast(SharedBucket, before).see()
        if not self.is_fresh and not all(splits.is_split(known.page, self.level_number) for known in before.client.seen):
            rows = None  # (that look began before one at the old pages)
        return super().answer_of_both(before, request, rows)

    def see(self) -> None:
        """Sees what any session has seen of the pages. (Of the own one, which nobody else is to write, this one knows.)"""
        for session in self.all:
            if self.tag_of(session) > self.client.seen[session - 1].tag and not (self.is_carried and session == self.me):
                self.client, self.index = core.with_seen(self.client, session, self.indexed(session)), None

    def answer_for_later(self, request: core.Request) -> core.Answer:
        """What a signpost, or lines that go behind it, change of the page changes nothing that counts: so it is settled meanwhile, as before."""
        if not isinstance(request, core.WriteJournal | core.WritePage):
            return super().answer_for_later(request)
        self.is_changing = True
        try:
            told = super().answer_for_later(request)
        except BaseException:
            self.writer.carried.pop(self.number, None)
            raise
        finally:
            self.is_changing = False
        if isinstance(request, core.WritePage):
            self.writer.carried[self.number] = self.shared.index.tag(self.number, self.me)
        return told

    def forget(self) -> None:
        super().forget()
        if not self.is_changing:
            self.writer.carried.pop(self.number, None)

    def change(self, journal: Page) -> Page:
        """The page is settled meanwhile, as before, and no more where no answer comes."""
        self.is_changing = True
        try:
            before = super().change(journal)
        except BaseException:
            self.writer.carried.pop(self.number, None)
            raise
        finally:
            self.is_changing = False
        self.writer.carried[self.number] = self.shared.index.tag(self.number, self.me)
        return before


class SharedWriter(Writer):
    """A writer whose buckets share what they read. Of many it keeps those that were used last: what it needs of others is in the index."""

    most_buckets = 64

    def __init__(self, shared: Shared, session: Files, layout: Layout, ground: Ground | None = None):
        super().__init__(session, layout)
        self.shared, self.ground = shared, ground
        shared.index.layout = layout
        self.tags_carried, self.beginnings = dict[int, Tag](), shared.index.beginnings
        self.at_hand: WeakValueDictionary[int, Bucket] = WeakValueDictionary()

    @property
    def carried(self) -> dict[int, Tag]:
        """Pages of the session into which nothing can come that an earlier client, or an unanswered change, wrote: each with its tag, as it was carried. None
        where the index was begun anew: it has to have each of these."""
        if self.beginnings != self.shared.index.beginnings:
            self.tags_carried, self.beginnings = {}, self.shared.index.beginnings
        return self.tags_carried

    @carried.setter
    def carried(self, tags: dict[int, Tag]) -> None:
        self.tags_carried = tags

    def bucket(self, page: int) -> Bucket:
        """The bucket of a page: one of the last that were used, or that somebody has at hand. (Two for one page would each have a journal.)"""
        found = self.buckets.pop(page, None) or self.at_hand.get(page) or self.new_bucket(page)
        self.buckets[page] = self.at_hand[page] = found
        if len(self.buckets) > self.most_buckets:
            del self.buckets[next(iter(self.buckets))]
        return found

    def new_bucket(self, page: int) -> Bucket:
        return SharedBucket(self, self.session, self.layout, page, self.ground, self.bucket_before(page))

    def first_bucket(self, name: str) -> Bucket:
        return self.bucket(self.shared.index.page_of(self.layout, name))

    def has_settled_all(self) -> bool:
        return len(self.carried) == len(self.layout.page_numbers)

    def settle(self, bucket: Bucket) -> None:
        """Sees that nothing comes into a page any more that an earlier client of the session wrote, or into one that has a part of its names and was never written. One whose names went
        on splits by that, if it hasn't wholly."""
        self.tidy(bucket, anew=True)
        was_signed = bucket.client.journal is not None and splits.is_split(bucket.journal, bucket.level_number + 1)
        if bucket.has_split():
            self.split(bucket)
            if bucket.number not in self.carried:
                bucket.carry_for_later(bucket.journal)
        if not was_signed:
            self.note_never_written(bucket.number)

    def take_carried(self, carried: dict[int, Tag]) -> None:
        """These were carried by an earlier plan, which had fewer pages."""
        self.carried = carried
        for page in list(carried):
            if self.me not in self.shared.index.split.get(page, ()):
                self.note_never_written(page)

    def note_never_written(self, page: int) -> None:
        """Of those of the next levels that have parts of a page's names nothing was written: the own page had no signpost. (A client writes one only once that was carried.)"""
        if self.layout.level_of(page) + 1 < len(self.layout.levels):
            for part in self.layout.parts_of(page):
                self.carried.setdefault(part, NEVER)
                self.note_never_written(part)

    def journals(self) -> Iterable[Page]:
        return self.shared.index.pages_of(self.me) if self.has_settled_all() else super().journals()
