"""Reading objects by one session: what names hold, and contents by ranges."""

import hashlib
from collections.abc import Callable, Generator, Iterable, Iterator, Sequence
from contextlib import closing
from dataclasses import dataclass, field, replace
from itertools import groupby

from gridfs_client.answers import Row
from gridfs_client.buckets import Bucket, Held, held_of
from gridfs_client.contents import Inline, InSlots, Part, PartList
from gridfs_client.errors import Damaged, Replaced
from gridfs_client.in_chunks import Cut, Gone, SoFar
from gridfs_client.layout import Layout, Slot
from gridfs_client.names import BEGINNINGS, NamedFiles, refresh, where_of
from gridfs_client.pieces import head, without_head
from gridfs_client.sessions import Files
from gridfs_client.ways import Ground

from .looker import Looked
from .places import VERSIONS, beside, bucket_in, number_of, of_words, version_in
from .shared import Shared, SharedWriter
from .trips import Elsewhere, Trip


@dataclass
class Stretch:
    """About how much of a content is read at a time, and what of it was read before."""

    most: int | None = None
    so_far: SoFar = field(default_factory=SoFar)


@dataclass(frozen=True)
class Span:
    """A piece of a content: of which part, its place in that, the slot where it stands, its first byte in the whole, and how many it has."""

    part: InSlots
    place: int
    slot: Slot
    begin: int
    length: int


def first_of(cuts: Iterable[Cut], most: int, chunk: int) -> Iterator[Cut]:
    """What is first of these, until they have so many bytes, up to the end of a chunk."""
    for cut in cuts:
        end = min(cut.end, -(-(cut.first + most) // chunk) * chunk)
        yield replace(cut, end=end)
        most -= end - cut.first
        if most <= 0:
            return


def first_pieces(pieces: Iterable[bytes], most: int | None) -> Iterator[bytes]:
    """The same of pieces, each whole."""
    for piece in pieces:
        yield piece
        if most is not None and (most := most - len(piece)) <= 0:
            return


class Reader(NamedFiles):
    """What names hold, by one session; by one thread at a time."""

    def __init__(self, session: Files, layout: Layout, shared: Shared, ground: Ground | None = None):
        super().__init__(session, layout, ground=ground)
        self.shared, self.grid = shared, ground.grid if ground else ""
        self.writer: SharedWriter = SharedWriter(shared, session, layout, ground)
        self.trip: Trip | None = None  # what is done now is about a name over several grids

    # Looks

    def look(self, name: str, looked: Looked | None = None) -> Held | None:
        """What a name holds; by these rows, where a look at its volume began once it was asked for."""
        if self.trip:
            return self.trip.look(name)
        page, index = self.shared.index.page_of(self.layout, name), self.shared.index
        if not index.is_alone(self.layout, page):  # (the pages before have to be looked at first)
            return self.writer.looked_at(name, refresh).held(name)
        volume, files = self.shared.files(self.layout, page)
        rows = looked[1] if looked and looked[0] == page else self.session.look(volume, files)
        pages = tuple(map(rows.__getitem__, files))
        if not self.ground and (known := self.shared.recall(name, page, pages)):
            return known[0]
        if self.index_has(page, rows):
            held = held_of(index.greatest(page, name))
            if self.index_has(page, rows):  # (no page of it came meanwhile)
                self.shared.remember(name, page, pages, held)
            return held
        return self.writer.looked_at(name, lambda bucket, is_fresh: bucket.refresh(rows if bucket.number == page else None, is_fresh)).held(name)

    def latest(self, name: str) -> Held | None:
        """The latest of all versions of the object of this name, which may be a marker."""
        return self.latest_in(self.writer.looked_at(name, refresh), name)

    def latest_in(self, bucket: Bucket, name: str) -> Held | None:
        """The same, of what was seen last."""
        begin, end = f"{VERSIONS}{bucket_in(name)}/", beside(name)
        held = [bucket.held(name), *(each for each in bucket.names() if each.name.startswith(begin) and each.name.endswith(end))]
        versions = [each for each in (version_in(name, found) for found in held if found) if each]
        return max(versions, key=lambda each: each.order).held if versions else None

    def index_has(self, page: int, rows: Sequence[Row | None]) -> bool:
        """Whether the index has all pages of a bucket as they are listed: then a look would see just these. Of a bucket that takes the place of a part of another one these are the pages of
        sessions whose old ones show the signpost; the others were to be looked at before."""
        index, files, before = self.shared.index, self.shared.files(self.layout, page)[1], self.layout.before(page)
        whose = range(1, len(files) + 1) if before is None else index.split.get(before, set()).copy()
        return not self.ground and not index.is_open(page) and all((row := rows[files[each - 1]]) and row.tag == index.tag(page, each) for each in whose)

    def all(self) -> Iterator[Held]:
        """All that names hold, each at some moment of the call."""
        for bucket, _ in self.buckets():
            yield from bucket.names()

    def spans(self, held: Held) -> Iterator[Span]:
        """The pieces of what is in slots."""
        begin = 0
        for part in held.content.parts:
            if not isinstance(part, InSlots):
                begin += part.size
                continue
            left = part.size
            for place, slot in enumerate(self.slots_in(held.name, part)):
                length = min(slot.room - len(head(held.version.session, part.put, place)), left)
                yield Span(part, place, slot, begin, length)
                begin, left = begin + length, left - length
            if left:
                raise Damaged(f"{held.name}: its slots don't hold it")

    def content(self, held: Held, first: int, end: int, stretch: Stretch | None = None) -> Generator[bytes, None, None]:
        """The bytes from the first to before the end, or the first ones of these. Replaced where a slot has something else by now. Of a part that is read whole, in
        one stretch or by several, the last bytes are told once its digest was found right."""
        if isinstance(held.content, Inline):
            yield held.content.content[first:end]
            return
        stretch = stretch or Stretch()
        if any(isinstance(part, InSlots) for part in held.content.parts):
            with closing(self.content_in_order(held, first, end, stretch.so_far)) as pieces:
                yield from first_pieces(pieces, stretch.most)
        else:
            yield from self.in_chunks(held, held.content.parts, first, end, stretch)

    def sizes_of_parts(self, held: Held) -> list[int]:
        """The sizes of the parts in which an object was uploaded, or its own; nothing where they are not told apart, as where one of them is empty."""
        count, parts = number_of(of_words(held.words), "n"), held.content.parts
        if not count:
            return [held.content.size]
        if any(isinstance(part, PartList) for part in parts):
            parts = tuple(self.chunk_contents(held.name).without_lists(parts))
        return [part.size for part in parts] if len(parts) == count else []

    def content_in_order(self, held: Held, first: int, end: int, so_far: SoFar) -> Generator[bytes, None, None]:
        """The same of a content of which some parts are in slots: parts in chunks, and between them those that are in slots together."""
        begin = 0
        for is_in_slots, parts in groupby(held.content.parts, lambda part: isinstance(part, InSlots)):
            some = list(parts)
            behind = begin + sum(part.size for part in some)
            if begin < end and behind > first:
                if is_in_slots:
                    yield from self.in_slots_between(held, max(begin, first), min(behind, end), so_far)
                else:
                    yield from self.in_chunks(held, some, first - begin, end - begin, Stretch(None, so_far))
            begin = behind

    def in_chunks(self, held: Held, parts: Sequence[Part], first: int, end: int, stretch: Stretch) -> Generator[bytes, None, None]:
        contents = self.chunk_contents(held.name)
        cuts: Iterable[Cut] = contents.cuts(parts, first, end)
        if stretch.most is not None:
            cuts = first_of(cuts, stretch.most, contents.most)
        try:
            with closing(contents.read_cuts(cuts, stretch.so_far)) as found:
                yield from found
        except Gone:
            raise Replaced(f"{held.name}: replaced while it was read") from None
        except Damaged as fault:
            raise Damaged(f"{held.name}: {fault}") from None

    def in_slots_between(self, held: Held, first: int, end: int, so_far: SoFar) -> Generator[bytes, None, None]:
        begin_of_part = 0
        for span in self.spans(held):
            begin_of_part = begin_of_part if span.place else span.begin
            if span.begin >= end or span.begin + span.length <= first:
                continue
            data = without_head(held.version.session, span.part.put, span.place, self.session.read(span.slot.volume, span.slot.file).content)
            if data is None:
                raise Replaced(f"{held.name}: replaced while it was read")
            if len(data) != span.length or not so_far.take(span.part, span.begin - begin_of_part, data):
                raise Damaged(f"{held.name}: its slots don't hold it")
            yield data[max(0, first - span.begin) : end - span.begin]

    def stands(self, name: str, held: Held) -> bool:
        """Whether the page that shows a content does so still. (Others may have read it since, so its tag says nothing.)"""
        bucket = self.bucket(name)
        bucket.reread(held.version.session)
        line = bucket.client.seen[held.version.session - 1].page.shown(held.name)
        return bool(line and line.content == held.content)

    def read(
        self,
        name: str,
        choose: Callable[[Held | None], tuple[int, int]],
        is_latest: bool = False,
        looked: Looked | None = None,
        stretch: Stretch | None = None,
    ) -> tuple[Held, Generator[bytes, None, None], bytes]:
        """What a name holds, or the latest version of the object of this name; its bytes in the range that is chosen by that, as `content` has them, and before them
        the first ones, which are there for sure. At first it is looked by these rows, where there are any."""
        for turn in range(BEGINNINGS):
            held = self.latest(name) if is_latest else self.look(name, looked if not turn else None)
            first, end = choose(held)
            assert held
            if held.version.grid != self.grid:
                raise Elsewhere(held.version.grid)
            parts = self.content(held, first, end, stretch)
            try:
                return held, parts, next(parts, b"")
            except Replaced:
                if self.stands(name, held):
                    raise Damaged(f"{name}: {where_of(held.content)} don't hold it") from None
        raise Replaced(f"{name}: replaced each of {BEGINNINGS} times while it was read")
