"""Objects over the names of one session: what the client for names lacks, which are conditions, times, and uploads in parts.

Registers can't compare and swap between writers. So conditions are judged only by a gateway that has all sessions of its tenant. Each session first writes its page of the key once, so that
no late write can change it. Then changes of one key go one after another, and the condition is judged right before its change. It needs all homes; else it is told 503, and nothing was
changed. A change of tags is made so too: it undoes no put that comes meanwhile. Where the content can't stay where it is, it is put anew beside the tags.
"""

import secrets
import time
from collections.abc import Callable, Collection, Iterable, Sequence
from contextlib import suppress
from dataclasses import replace
from typing import IO, Protocol, cast

from gridfs_client.answers import Tag
from gridfs_client.buckets import Bucket, Held
from gridfs_client.contents import Content, Inline, PartList
from gridfs_client.contents import Part as At
from gridfs_client.core import Line, Version
from gridfs_client.ends import End
from gridfs_client.errors import CarrierFault, ClientError, NoRoom, NoSuchName, SessionTaken, Unanswered
from gridfs_client.fleet import sign, spool
from gridfs_client.fleet_map import Move
from gridfs_client.moving import clear
from gridfs_client.names import LONG_LINE
from gridfs_client.pages import check_words
from gridfs_client.sessions import MOST_WRITTEN, Session
from gridfs_client.streams import Source

from .checksums import Checksum
from .errors import S3Error
from .notes import Begun
from .part_lists import Uploaded, for_object, uploaded
from .places import Part, Values, number_of, of_words, to_words, upload_name
from .reading import Reader
from .trips import Elsewhere
from .versions import Target

Condition = Callable[[Held | None], None]  # judges what a name holds, right before it is changed
AGAIN = 60.0  # seconds until a page that is full is swept again
MANY_AGAIN = 0.25  # seconds until a page is swept again that has many removals again
LINES = 8  # of an upload that a page has room for, before parts in chunks go into lists
STAMP = "0" * 13  # as long as a time is


class PageFull(Exception):
    """A page has to be swept by all sessions before it takes one more line. Nothing was changed."""

    def __init__(self, page: int):
        super().__init__(page)
        self.page = page


class NoLine(NoRoom):
    """The page of this session has no room for a line; that of another one may have. Nothing was changed."""


class Changed(Exception):
    """The name holds something else than was seen. Nothing was changed."""


def expect_same(held: Held | None, seen: Held) -> None:
    """Changed where it was put anew, or removed, since it was seen."""
    if not held or held.version != seen.version:
        raise Changed


class Body(Protocol):
    """A content that is read once, of known length."""

    told_size: int

    def read(self, length: int) -> bytes:
        """So many bytes, fewer only at the end."""

    def digest(self) -> str:
        """MD5 in hexadecimal, of what was read until now."""

    def rewind(self) -> None:
        """Begins anew. An S3Error where some was read that can't be read again."""

    def checksum(self, algorithm: str) -> Checksum | None:
        """That of what was read until now, by this algorithm; without one the one that the content has already, if any."""


class Store(Reader):
    """The names of one session, as objects; by one thread at a time."""

    goes_on = False  # where an earlier gateway ended, with nothing left under way

    @property
    def settled(self) -> Collection[int]:
        """Pages of the session into which nothing can come that an earlier client, or an unanswered change, wrote."""
        return self.writer.carried

    def make_room(self, bucket: Bucket, line: Line) -> None:
        """Where a page has no room, or is half full of removals, all sessions have to sweep it: PageFull, but not again at once, unless there are many removals
        again."""
        has_room, removals = self.writer.announcement(bucket, line) is not None, self.removals_in(bucket)
        if has_room and removals <= bucket.level.lines_room // 2:
            return
        again = MANY_AGAIN if removals > bucket.level.lines_room // 8 else AGAIN
        if time.monotonic() - self.shared.swept.get(bucket.number, -AGAIN) >= again:
            raise PageFull(bucket.number)

    # Changes

    def change(
        self,
        name: str,
        content: Callable[[Bucket, Held | None], Content | None],
        values: Callable[[], Values] | None,
        condition: Condition | None = None,
        besides: frozenset[str] = frozenset(),
        about: str | None = None,
    ) -> Held:
        """Gives a name a content with the words beside it, or has it removed where there are no words. The content is placed first; then, while no
        other change of the name is under way in this gateway, the condition is judged, the time is taken, and the change announced and carried. Where the
        name is `about` an object, as a version of it, that is so for all its versions, and the condition is of the latest.

        What the condition raises, NoRoom, S3Error of the content: nothing was changed. Unanswered, SessionTaken, CarrierFault: it may take effect
        until this session has changed the page again.
        """
        with self.shared.turns.under_way(about or name) as turn:
            bucket, held = self.look_for_change(name)
            held = self.latest_in(bucket, about) if about else held
            if condition:
                condition(held)  # (before a long content is moved)
            self.make_room(bucket, self.shortest_line(bucket, name, values))
            bucket = self.with_more_pages(bucket, name, values) if values else bucket
            placed = content(bucket, held)
            with turn:
                return self.commit_in_turn(bucket, name, placed, values, condition, besides, about)

    def with_more_pages(self, bucket: Bucket, name: str, values: Callable[[], Values]) -> Bucket:
        """The bucket at which a name is put that was looked for at this one: that of the next level where the page has no room for it, and all nodes have that."""
        while self.shared.may_grow and self.writer.has_parts(bucket) and self.writer.announcement(bucket, replace(self.shortest_line(bucket, name, values), content=LONG_LINE)) is None:
            if self.trip:  # (whose walks go by pages that have split)
                self.writer.split(bucket)
                bucket, _ = self.look_for_change(name)
            else:
                bucket = self.writer.part_for(bucket, name)
                bucket.look(own=True)
            self.make_room(bucket, self.shortest_line(bucket, name, values))
        return bucket

    def look_for_change(self, name: str) -> tuple[Bucket, Held | None]:
        """What a name holds, for a change by this session, and the bucket at which that is made. Elsewhere where the change is another grid's."""
        if self.trip:
            held = self.trip.look_for_change(name, self.grid)
            return self.trip.bucket(self.grid, name), held
        bucket = self.writer.looked_at(name, lambda bucket, is_fresh: bucket.look(own=True, is_fresh=is_fresh))
        return bucket, bucket.held(name)

    def look_again(self, bucket: Bucket, name: str, is_wanted: bool) -> tuple[Bucket, Held | None]:
        """The same right before the change, of a bucket that was looked at for it; where that is wanted, by one more look."""
        if self.trip:
            held = self.trip.look_again(name, self.grid, is_wanted)
            return self.trip.bucket(self.grid, name), held
        if is_wanted:
            bucket.look(own=True)
        return self.look_for_change(name) if bucket.has_split() else (bucket, bucket.held(name))

    def shortest_line(self, bucket: Bucket, name: str, values: Callable[[], Values] | None) -> Line:
        return Line(name, bucket.new_version().number, Inline(b"") if values else None, self.words_at(values, STAMP))

    def words_at(self, values: Callable[[], Values] | None, stamp: str) -> str:
        words = to_words({"t": stamp, **values()}) if values else ""
        check_words(words)
        return words

    def commit_in_turn(
        self,
        bucket: Bucket,
        name: str,
        content: Content | None,
        values: Callable[[], Values] | None,
        condition: Condition | None,
        besides: frozenset[str],
        about: str | None,
    ) -> Held:
        subject = about or name
        try:
            bucket, before = self.look_again(bucket, name, condition is not None)
            before = self.latest_in(bucket, about) if about else before
            if condition:
                condition(before)
            stamp = self.shared.turns.time_after(number_of(of_words(before.words), "t") if before else 0)
            words = self.words_at(values, str(stamp))
            version = Version(self.shared.turns.number_for(subject, bucket.new_version().number), self.me, self.grid)
            journal = self.writer.announcement(bucket, Line(name, version.number, content, words), besides)
            if journal is None:
                raise self.no_line(bucket, name)
        except BaseException:
            self.unplace(bucket, content)
            raise
        try:
            self.writer.change(bucket, journal)
        except (Unanswered, SessionTaken, CarrierFault):
            self.shared.turns.note_unsure(subject, version.number)
            self.writer.carried.clear()
            raise
        return Held(name, version, content or Inline(b""), words)

    def no_line(self, bucket: Bucket, name: str) -> NoLine:
        return NoLine(f"{name}: page {bucket.number} of session {self.me} has no room for one more line")

    def put_object(self, name: str, body: Body, values: Callable[[], Values], condition: Condition | None = None, about: str | None = None) -> Held:
        """Puts a content, which is read as it comes. `values` are asked for before it, and again after it."""
        body.rewind()  # (it may have been begun before)

        def placed(bucket: Bucket, _: Held | None) -> Content:
            if self.writer.announcement(bucket, self.shortest_line(bucket, name, values)) is None:
                raise self.no_line(bucket, name)  # (before a long content is moved)
            return self.placed(bucket, name, Source(cast(IO[bytes], body)), lambda: self.words_at(values, STAMP))

        return self.change(name, placed, values, condition, about=about)

    def mark(self, target: Target, condition: Condition | None = None) -> Held:
        """Has an object go by a marker, as its latest version."""
        return self.change(target.name, lambda *_: Inline(b""), lambda: {**target.values, "d": "1"}, condition, about=target.about)

    def take_away(self, target: Target, condition: Condition | None = None) -> None:
        """Has an object go; where its bucket has versions, by a marker."""
        if target.about:
            self.mark(target, condition)
        else:
            self.delete(target.name, condition)

    def delete(self, name: str, condition: Condition | None = None, about: str | None = None) -> bool:
        """Takes a name away; whether it held something. Where it holds nothing, nothing is changed."""

        def expect(bucket: Bucket, held: Held | None) -> None:
            if not (bucket.held(name) if about else held):
                raise NoSuchName(name)

        try:
            self.change(name, expect, None, condition, about=about)
            return True
        except NoSuchName:
            return False

    def touch(self, name: str, seen: Held, values: Callable[[], Values], condition: Condition | None = None) -> Held | None:
        """Gives a content other words where it is, which this session put, or in the line; None where the name holds another one by now, or it is at another
        grid."""
        if seen.version.grid != self.grid:
            return None

        def expect_unchanged(held: Held | None) -> None:
            if condition:
                condition(held)
            expect_same(held, seen)

        def in_place(_: Bucket, held: Held | None) -> Content:
            expect_unchanged(held)
            return seen.content

        try:
            return self.change(name, in_place, values, expect_unchanged)
        except Changed:
            return None

    def settle(self, page: int) -> None:
        """Sees that nothing that an earlier client of this session wrote can come into one of its pages any more: by changes of no name, after which
        pending ones have no effect (docs/NAMES.md, Why each name has one order)."""
        before = self.layout.before(page)
        if before is not None:
            self.settle(before)
        if page not in self.settled:
            bucket = self.writer.bucket(page)
            self.writer.settle(bucket)
            times = (number_of(of_words(line.words), "t") for known in bucket.client.seen for line in known.page.lines)
            self.shared.turns.advance_past(max(times, default=0))

    def split(self, page: int) -> None:
        """Has the page split wholly; what earlier clients left under way there ends before."""
        self.settle(page)
        self.writer.split(self.writer.bucket(page))

    def look_at(self, volumes: Iterable[int]) -> None:
        """Sees that the index has each page of these volumes as it is now, or was after this began: a request for each volume, and those for each bucket of
        which a page was changed. Those of a level only once those of the levels before were looked at; and none to which no names went on."""
        for volume in volumes:
            pages = [page for page in self.layout.pages_in(volume) if self.shared.index.is_begun(self.layout, page)]
            rows = self.session.look(volume) if pages else ()
            for page in pages:
                if not self.index_has(page, rows):
                    self.writer.bucket(page).refresh(rows, is_fresh=True)

    def share_in(self, move: Move, page: int) -> None:
        """What a move wants of this session at the old grid: that its page has the signpost, and later that the lines of the slices go."""
        if not move.is_there:
            sign(self, self.writer.bucket(page), move.signpost)
        else:
            clear(self, page, move)

    def sweep_own(self, page: int) -> int:
        """Has this session's lines go from a page that can, and says that it was made beside the removals of others."""
        return self.writer.tidy(self.writer.bucket(page))

    def forget_gone(self) -> None:
        """Has chunks forgotten that nothing names any more for some time."""
        self.writer.forget_gone(self.forget_after)

    def end(self) -> End | None:
        """Where the session came to its end, where nothing is under way into its pages."""
        assert isinstance(self.session, Session)
        return End(self.session.home, self.session.last) if self.writer.has_settled_all() and self.session.last is not None else None

    def go_on(self, end: End | None) -> None:
        """Goes on as it came to an end in an earlier gateway, where nobody had the session since."""
        self.take_back({page: self.shared.index.tag(page, self.me) for page in self.layout.page_numbers}, end)

    def go_on_after(self, begun: Begun) -> None:
        """The same where the gateway was killed, and the index has all pages as they are now: what was under way was one operation. Pages to which this gateway wrote
        since are as that left them."""
        assert isinstance(self.session, Session)
        if len(self.session.written) >= MOST_WRITTEN:
            return
        places = self.session.written | ({begun.place} if begun.place else set())
        but = {self.layout.page_at(*place) for place in places}
        self.writer.carried = {each: self.shared.index.tag(each, self.me) for each in self.layout.page_numbers if each not in but} | self.writer.carried

    def take_back(self, carried: dict[int, Tag], end: End | None) -> None:
        """Begins with a session whose pages were as they were carried, but for those that the note tells of; where that is not to be believed, with none."""
        assert isinstance(self.session, Session)
        self.session.forget()
        with suppress(ClientError):
            self.session.start()
            if end and end.is_of(self.session):
                changed = {self.layout.page_at(volume, file) for volume, file in end.written}
                self.writer.carried = {page: tag for page, tag in carried.items() if page not in changed}
                self.goes_on = True

    def has_chunks(self) -> bool:
        """Whether nodes tell of room for chunks."""
        return self.writer.contents is not None and bool(self.writer.contents.rooms())

    # Uploads in parts. All of an upload is one line of this session, on the page of the object to be: so one change of that page brings the object
    # with the parts, and has the upload go.

    def begin_upload(self, bucket_name: str, object_name: str, values: Values) -> str:
        """Begins an upload; its ID, which has the number of this session."""
        upload = f"{self.me}.{secrets.token_hex(12)}"
        self.change(upload_name(bucket_name, upload, object_name), lambda *_: Inline(b""), lambda: values)
        return upload

    def upload(self, name: str) -> Held:
        """What was uploaded until now; NoSuchUpload (404)."""
        return found_upload(self.look(name))

    def own_upload(self, name: str) -> Held:
        """An upload that this session has at the last grid of its way, to which it is brought where its slice is moved. NoSuchUpload (404), or Elsewhere for
        what another session has."""
        found = found_upload(self.look_for_change(name)[1])
        if found.version.grid != self.grid:
            return self.bring(name, found)
        self.expect_own(found)
        return found

    def expect_own(self, held: Held) -> None:
        if (held.version.grid, held.version.session) != (self.grid, self.me):
            raise Elsewhere(held.version.grid, held.version.session)

    def bring(self, name: str, held: Held) -> Held:
        """Puts an upload that is at an earlier grid anew, with the same parts."""
        assert self.trip
        source, words = cast(Store, self.trip.grid(held.version.grid)), values_beside(held)

        def expect_unchanged(now: Held | None) -> None:
            if not now or now.version != held.version:
                raise Elsewhere(self.grid)

        def placed(bucket: Bucket, _: Held | None) -> Content:
            parts = Uploaded(words, self.writer.contents)
            try:
                for part, where in source.uploaded(held):
                    parts.in_line[part.number] = part, None
                    if where:
                        with spool() as room:
                            if source.copy_part(held, where, room) is not None:
                                raise Elsewhere(self.grid)  # (it was replaced meanwhile)
                            room.seek(0)
                            parts.in_line[part.number] = part, self.in_place(bucket, name, Source(room), lambda: "x" * 64)
                    parts.keep_short(self.layout.page_room // LINES)
            except BaseException:
                self.unplace(bucket, parts.content())
                raise
            words["p"] = parts.words()
            return parts.content()

        return self.change(name, placed, lambda: words, expect_unchanged)

    def put_part(self, name: str, number: int, body: Body, now: int, algorithm: str = "") -> str:
        """Adds a part, or puts another one in its place; its MD5. Its checksum by this algorithm is kept, or the one that it came with. NoSuchUpload (404)."""
        body.rewind()
        values: Values = {}
        if self.trip:
            self.own_upload(name)

        def placed(bucket: Bucket, held: Held | None) -> Content:
            self.expect_own(found_upload(held))
            body.checksum(algorithm)  # (which is computed from here on)
            source = Source(cast(IO[bytes], body))
            added: At | None = None
            if source.size:
                added = self.in_place(bucket, name, source, lambda: "x" * 64)
            else:
                source.expect_end()
            try:
                now_held = found_upload(bucket.held(name))
                parts = uploaded(now_held, self.writer.contents)
                parts.in_line[number] = Part(number, body.digest(), added.size if added else 0, now, body.checksum(algorithm)), added
                values.update(values_beside(now_held))
                parts.keep_short(self.layout.page_room // LINES)
            except BaseException:
                self.unplace(bucket, added)
                raise
            values["p"] = parts.words()
            return parts.content()

        self.change(name, placed, lambda: values)
        return body.digest()

    def uploaded(self, held: Held) -> list[tuple[Part, At | None]]:
        """The parts of an upload in ascending order, each with where it stands."""
        return uploaded(held, self.writer.contents).all()

    def complete(self, name: str, target: Target, values: Callable[[], Values], chosen: Sequence[At | None], condition: Condition | None) -> Held:
        """Gives the object the parts as they are, and has the upload go, in one change. Over several grids the upload stays, and has to be removed: another grid
        may still have an older line of it. (Both lines are in one page, so what one of them names stays.)"""
        besides = frozenset[str]() if self.trip else frozenset([name])

        def placed(bucket: Bucket, _: Held | None) -> Content:
            held = bucket.held(name)
            lists = [each for each in held.content.parts if isinstance(each, PartList)] if held else []
            return for_object([each for each in chosen if each], lists, self.writer.contents)

        return self.change(target.name, placed, values, condition, besides, target.about)


def values_beside(held: Held) -> Values:
    """What is kept beside an upload, but for the time."""
    return {key: value for key, value in of_words(held.words).items() if key != "t"}


def found_upload(held: Held | None) -> Held:
    if not held:
        raise S3Error("NoSuchUpload")
    return held
