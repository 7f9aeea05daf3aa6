"""What the one client of a session writes: its journals, its pages and its chunks."""

import time
from collections.abc import Callable, Collection, Iterable, Iterator
from itertools import chain

from . import splits, ways
from .buckets import Bucket
from .contents import InSlots, Part, PartList
from .core import Line, Page
from .errors import Damaged
from .in_chunks import ChunkContents, Gone, contents_of
from .layout import Layout
from .pages import length_of_lines, length_of_signposts
from .sessions import Files
from .skimming import NEVER


class Writer:
    """The journals and pages of one session."""

    def __init__(self, session: Files, layout: Layout):
        self.session, self.layout = session, layout
        self.me = session.number
        self.buckets: dict[int, Bucket] = {}
        self.contents = contents_of(session)  # in chunks, where it may have some
        self.gone: dict[int, set[Part]] = {}  # of each page, what is in chunks and no line names any more
        self.gone_since = 0.0
        self.ground: ways.Ground | None = None

    def bucket(self, page: int) -> Bucket:
        if page not in self.buckets:
            self.buckets[page] = self.new_bucket(page)
        return self.buckets[page]

    def keep_few(self) -> None:
        """Forgets what pages said, as far as nothing has to be known of them any more."""
        self.buckets = {page: bucket for page, bucket in self.buckets.items() if page in self.gone}

    def new_bucket(self, page: int) -> Bucket:
        return Bucket(self.session, self.layout, page, self.ground, self.bucket_before(page))

    def bucket_before(self, page: int) -> Bucket | None:
        """That of whose names this page has a part."""
        before = self.layout.before(page)
        return None if before is None else self.bucket(before)

    def place_of(self, name: str) -> Bucket:
        """The bucket of a name, as far as is known now."""
        bucket = self.first_bucket(name)
        while bucket.has_split():
            bucket = self.part_for(bucket, name)
        return bucket

    def first_bucket(self, name: str) -> Bucket:
        return self.bucket(self.layout.page_of(name))

    def looked_at(self, name: str, look: Callable[[Bucket, bool], None]) -> Bucket:
        """The bucket of a name, once it was looked at: another one where the look shows that its pages have split. A look is told whether the bucket before was
        just looked at."""
        bucket = self.place_of(name)
        look(bucket, False)
        while bucket.has_split():
            bucket = self.part_for(bucket, name)
            look(bucket, True)
        return bucket

    def has_parts(self, bucket: Bucket) -> bool:
        """Whether there is a next level."""
        return bucket.level_number + 1 < len(self.layout.levels)

    def part_for(self, bucket: Bucket, name: str) -> Bucket:
        """The bucket of the next level that has a name of this one."""
        return self.bucket(self.layout.page_of(name, bucket.level_number + 1))

    def change(self, bucket: Bucket, journal: Page) -> None:
        """Announces and carries a journal, and notes the chunks that its page doesn't name any more: once that was carried, no page that does is seen
        again."""
        gone = bucket.change(journal).without(journal).in_chunks()
        if gone:
            self.not_named(bucket.number, gone - journal.in_chunks())

    def not_named(self, page: int, parts: Iterable[Part]) -> None:
        """Of these contents no line of a page names those that are in chunks any more, and none that could still be seen."""
        if gone := {part for part in parts if not isinstance(part, InSlots)}:
            self.gone_since = self.gone_since if self.gone else time.monotonic()
            self.gone.setdefault(page, set()).update(gone)

    def forget_gone(self, least: float = 0) -> None:
        """Has nodes forget the chunks of contents that no line names any more, where that is so for so many seconds."""
        if self.contents and self.has_gone(least):
            gone, self.gone = self.gone, {}
            for page, parts in gone.items():
                self.not_needed(self.contents, page, parts)
            self.contents.forget()

    def begin_to_forget(self, least: float) -> None:
        """Asks nodes for the same, and waits for none of them. (What lists name has to be read first: that comes with `forget_gone`.)"""
        if self.contents and self.has_gone(least):
            for page in [page for page in self.gone if not self.has_lists(page)]:
                self.not_needed(self.contents, page, self.gone.pop(page))
            self.contents.begin_to_forget()

    def has_gone(self, least: float = 0) -> bool:
        """Whether chunks are there that nothing names any more, for so many seconds."""
        return self.contents is not None and (bool(self.gone) or self.contents.chunks.has_unneeded) and time.monotonic() - self.gone_since >= least

    def has_lists(self, page: int) -> bool:
        """Whether lists are among what a page names, or named."""
        journal = self.bucket(page).client.journal
        return any(isinstance(part, PartList) for part in (*self.gone[page], *(journal.in_chunks() if journal else ())))

    def not_needed(self, contents: ChunkContents, page: int, parts: set[Part]) -> None:
        journal = self.bucket(page).client.journal
        if journal is not None:  # (else a change got no answer: a sweep finds them)
            contents.not_needed(parts, journal.in_chunks())

    def tidy(self, bucket: Bucket, anew: bool = False) -> int:
        """Changes no name, where a line can go, or the page is to say that it was made beside another one's removal. With `anew` also where this client
        hasn't carried the page yet, so that nothing that an earlier one wrote can come into it. How many removals are forgotten by that."""
        bucket.look()
        if bucket.has_split():
            return 0  # (its names are in other buckets by now)
        before, journal = bucket.journal, bucket.changed(None)
        if (journal.lines, journal.after) == (before.lines, before.after) and (bucket.is_carried or not anew):
            return 0
        self.change(bucket, journal)
        return len(before.removals()) - len(journal.removals())

    def announcement(self, bucket: Bucket, line: Line, besides: Collection[str] = ()) -> Page | None:
        """The journal that announces a line; None for no room. An eighth of the page is kept for removals, so that names can be taken away from a
        full one."""
        journal = bucket.changed(line, besides)
        return journal if self.has_room(bucket, journal, line.content is None) else None

    def has_room(self, bucket: Bucket, journal: Page, for_removals: bool = False) -> bool:
        """Whether a page has room for these lines, beside what is kept for removals."""
        room = bucket.level.lines_room if for_removals else bucket.level.contents_room
        return length_of_lines(journal.lines) + length_of_signposts(journal) <= room

    def carry_all(self) -> None:
        """Sees that nothing that an earlier client left comes into a page of the session: where that is not noted of it, it is carried, without lines that can go. A request
        for each such page, and four where this client hasn't carried it yet."""
        done = set[int]()
        while left := set(self.unsettled()) - done:  # (a note that has no room for more ends meanwhile)
            for bucket in self.all_buckets(sorted(left)):
                self.tidy(bucket, anew=True)
            done |= left

    def unsettled(self) -> Collection[int]:
        """The pages of the first level that are to be carried, or of which parts are."""
        note = getattr(self.session, "note", None)
        files = note.unsettled(len(self.layout.page_numbers)) if note else None
        if files is None:
            return range(self.layout.pages)
        return {self.layout.first_before(page) for place in files if (page := self.layout.page_at(*place)) is not None}

    def sweep_chunks(self) -> tuple[int, set[int], set[int]]:
        """Has nodes forget the chunks that no page of the session names, all of which were just carried: how many there were, the places of nodes that did
        not answer, and of those of these that told `refused bad`."""
        if self.contents is None or not self.contents.rooms():
            return 0, set(), set()
        try:
            return self.contents.sweep(part for page in self.journals() for part in page.in_chunks())
        except Gone:
            raise Damaged(f"session {self.me}: a list that a page names is gone") from None

    def journals(self) -> Iterable[Page]:
        """What the session's journals say, once all pages are carried; of those that were settled before what the pages say, old ones first, from which lines go to others."""
        first = self.unsettled()
        yield from (bucket.journal for bucket in self.all_buckets(first, is_known=True))
        for volume in self.layout.all_pages_volumes if len(first) < self.layout.pages else ():
            rows = self.session.look(volume)
            for page in self.layout.pages_in(volume):
                place = self.layout.page(self.me, page)
                row = rows[place[1]]
                if self.layout.first_before(page) not in first and (row is None or row.tag != NEVER):
                    yield self.new_bucket(page).read(place).page

    def all_buckets(self, first: Collection[int] | None = None, is_known: bool = False) -> Iterator[Bucket]:
        """The buckets of all names, or of those of these first pages: those of the next level in place of such as have split. Whether they have it is looked at, unless that `is_known`."""
        return chain.from_iterable(self.parts_of(self.bucket(page), is_known) for page in (range(self.layout.pages) if first is None else first))

    def parts_of(self, bucket: Bucket, is_known: bool) -> Iterator[Bucket]:
        level = bucket.level_number + 1
        if level < len(self.layout.levels) and not is_known:
            bucket.look()
        if not bucket.has_split():
            yield bucket
            return
        for page in self.layout.parts_of(bucket.number):
            yield from self.parts_of(self.bucket(page), is_known)

    # Pages that split

    def split(self, bucket: Bucket) -> int:
        """Has the page of the session split, where it hasn't wholly: its lines go to pages of the next level. How many these are."""
        bucket.look(own=True)
        level, lines = bucket.level_number + 1, bucket.journal.lines
        is_first = not splits.is_split(bucket.journal, level)  # so nobody wrote a page of the session at the next level, nor a journal
        if not splits.is_split(bucket.client.seen[self.me - 1].page, level):
            bucket.carry_for_later(splits.signed(bucket.journal, level))
        for page in sorted({self.layout.page_of(line.name, level) for line in lines}):
            part = self.bucket(page)
            part.begin_with(bucket, is_first)
            part.look(is_fresh=True)
            if not part.is_in_place():
                self.change(part, part.changed(None))
        if lines or bucket.client.seen[self.me - 1].page.lines:  # (who dies between the two writes of clearing has left a page that its journal does not have any more)
            bucket.carry_for_later(splits.cleared(bucket.journal))
        return len(lines)
