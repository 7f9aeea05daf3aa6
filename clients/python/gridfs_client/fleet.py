"""Named files over several grids: put, get, remove, stat and names as `NamedFiles` has them, each along the way of the name (ways.py)."""

import io
import tempfile
import time
from collections.abc import Callable, Sequence
from concurrent.futures import ThreadPoolExecutor
from dataclasses import dataclass
from typing import IO

from . import core, ways
from .buckets import OLDER, Bucket, Held, held_of
from .contents import Content, Inline, PartTold
from .core import Line, Version
from .errors import BadName, BadSettings, ClientError, Damaged, NoRoom, NoSuchName, Replaced
from .fleet_map import FleetMap
from .layout import Layout
from .listing import Listing, Looked
from .names import Entry, Listed, NamedFiles, Swept, copied_whole, entry_of, listed_of, no_words, where_of
from .pages import check_name, check_words, text_of
from .streams import Source
from .ways import Found, Ground, Opens, Walk, slice_of

TRIES = 20  # of a change whose name goes to another grid in its midst
MAP_NAME = ".fleet"


def expect_no_map(name: str) -> None:
    if name == MAP_NAME:
        raise BadName(f"{MAP_NAME}: the fleet's copy of its map, which gridfs-fleet puts")


def ground_of(fleet_map: FleetMap, grid: str) -> Ground:
    def arrived(slice_number: int) -> int | None:
        stop = fleet_map.stop(slice_number)
        return stop.move if stop.grid == grid and fleet_map.is_clear(slice_number) else None

    return Ground(grid, arrived)


@dataclass(frozen=True)
class Names:
    """A listing, and the grids that didn't answer, each with what was the matter."""

    entries: list[Listed]
    silent: dict[str, ClientError]


Look = Callable[[str], "Looked | ClientError"]
SideBySide = Callable[[Look, Sequence[str]], "list[Looked | ClientError]"]


def looked_at(files: NamedFiles) -> Looked:
    """What is seen of each bucket of a grid, those in place of such as have split."""
    return Looked(files.layout, {bucket.number: bucket.client for bucket, _ in files.buckets()})


def one_by_one(look: Look, grids: Sequence[str]) -> "list[Looked | ClientError]":
    return list(map(look, grids))


def in_threads(look: Look, grids: Sequence[str]) -> "list[Looked | ClientError]":
    with ThreadPoolExecutor(max(1, len(grids))) as threads:
        return list(threads.map(look, grids))


class FleetFiles:
    """`open_grid` gives a client's files at a grid, of a session that has no other client, with this ground; it is asked once for each. Grids are looked
    at for a listing by `side_by_side`."""

    def __init__(self, fleet_map: FleetMap, open_grid: Callable[[str, Ground], NamedFiles], side_by_side: "SideBySide" = one_by_one):
        self.map, self.open_grid, self.side_by_side = fleet_map, open_grid, side_by_side
        self.grids: dict[str, NamedFiles] = {}
        self.walked_at: tuple[str, dict[str, Bucket]] = "", {}  # the buckets at which the last walk was gone, and of which name

    def grid(self, grid: str) -> NamedFiles:
        if grid not in self.grids:
            if grid not in self.map.grids:
                raise BadSettings(f"{self.map.path}: a signpost leads to {grid}, and the map has no such grid: get a later one")
            self.grids[grid] = self.open_grid(grid, ground_of(self.map, grid))
        return self.grids[grid]

    def ground(self, grid: str) -> Ground:
        return ground_of(self.map, grid)

    @property
    def has_asked(self) -> bool:
        """Whether other sessions help at some grid."""
        return any(files.has_asked for files in self.grids.values())

    @property
    def is_bound(self) -> bool:
        """Whether nobody else may begin anew what a call did that got no answer, as at one grid."""
        return any(files.is_bound for files in self.grids.values())

    def bucket(self, grid: str, name: str) -> Bucket:
        """The bucket of a name: that at which the last walk looked, though others may have seen since that it has split."""
        if self.walked_at[0] != name:
            self.walked_at = name, {}
        if grid not in self.walked_at[1]:
            self.walked_at[1][grid] = self.grid(grid).bucket(name)
        return self.walked_at[1][grid]

    # Walks

    def walk(self, name: str, is_change: bool = False, with_own: bool = True) -> Walk:
        return self.drive(ways.walk(name, self.map.stop(slice_of(name)), is_change, with_own))

    def drive(self, state: Walk) -> Walk:
        """A walk to its end. Where a page is seen to have split, to more of the same grid, it begins anew, and goes by those."""
        first = state
        while request := ways.request_of(state):
            grid, asked = request
            if isinstance(asked, Opens) and self.walked_at[0] == state.name:
                self.walked_at[1].pop(grid, None)
            bucket = self.bucket(grid, state.name)
            try:
                if isinstance(asked, Opens):
                    state = ways.told(state, bucket.to_look(state.is_change))
                else:
                    if isinstance(asked, core.WriteJournal | core.WritePage):
                        bucket.forget()  # until the answer is there
                    assert state.state
                    state = ways.told(state, bucket.known(state.state) or bucket.answer(asked, None))
                    bucket.is_carried |= isinstance(asked, core.WritePage)
            except core.Older as fault:
                raise Damaged(f"{grid}: {bucket.where(*fault.args)} {OLDER}") from None
            client = dict(state.clients).get(grid, bucket.client)
            if bucket.client is not client:
                bucket.client, bucket.index = client, None
            if bucket.has_split():
                state = first
        return state

    def walk_for_change(self, name: str, with_own: bool) -> Walk:
        """The walk for a change, and signposts in the own pages on its way: so that this session, which no mover may have, has them."""
        walk = self.walk(name, True, with_own)
        for stop, following in zip(walk.stops, walk.stops[1:]):
            if stop.grid != walk.last.grid:
                self.help(walk, stop.grid, following.move)
        bucket = self.bucket(walk.last.grid, name)
        bucket.least = max(bucket.least, ways.number_above(walk))
        return walk

    def help(self, walk: Walk, grid: str, move: int) -> None:
        files, bucket = self.grid(grid), self.bucket(grid, walk.name)
        shown = {each for known in bucket.client.seen for each in known.page.signposts if each.move == move}
        for signpost in shown - set(bucket.journal.signposts):
            sign(files, bucket, signpost)

    def is_as_walked(self, walk: Walk) -> bool:
        """Whether nothing was looked at since: else a signpost may have been, and the walk has to be gone anew."""
        return self.bucket(walk.last.grid, walk.name).client is walk.client(walk.last.grid)

    def present(self, name: str) -> tuple[Walk, Found, Held]:
        walk = self.walk(name)
        found = ways.greatest(walk)
        held = held_of(found)
        if not found or not held:
            raise NoSuchName(f"{name}: no such name")
        return walk, found, held

    # What is asked

    def get(self, name: str) -> tuple[bytes, Entry]:
        content = io.BytesIO()
        entry = self.get_to(name, content)
        return content.getvalue(), entry

    def get_to(self, name: str, target: IO[bytes]) -> Entry:
        check_name(name)

        def attempt(to: IO[bytes]) -> Entry | int:
            _, found, held = self.present(name)
            files = self.grid(found.grid)
            return files.attempt_to_copy(files.bucket(name), held, found.session, to)

        def bind() -> None:
            for files in self.grids.values():
                files.bind()

        return copied_whole(name, target, attempt, bind)

    def stat(self, name: str) -> Entry:
        check_name(name)
        return entry_of(self.present(name)[2])

    def parts(self, name: str) -> tuple[PartTold, ...]:
        check_name(name)
        _, found, held = self.present(name)
        return self.grid(found.grid).parts_of(held)

    def put(self, name: str, content: bytes | IO[bytes], words: Callable[[], str] = no_words) -> Entry:
        check_name(name)
        check_words(words())
        source = Source(content)
        walk = self.with_room(name, lambda bucket: Line(name, bucket.new_version().number, Inline(b""), words()), with_own=False)
        files, bucket = self.grid(walk.last.grid), self.bucket(walk.last.grid, name)
        placed = files.placed(bucket, name, source, words)
        grid = walk.last.grid
        for _ in range(TRIES):
            if self.is_as_walked(walk):
                return entry_of(files.commit(bucket, name, placed, words()))
            walk = self.walk_for_change(name, with_own=False)
            bucket = self.bucket(grid, name)
            if walk.last.grid != grid:
                # The name went on while its content was placed. It stands here already, and is read from here.
                placed = self.replaced(Held(name, Version(1, files.me), placed, words()), grid, walk.last.grid)
                grid = walk.last.grid
                files, bucket = self.grid(grid), self.bucket(grid, name)
        raise Replaced(f"{name}: went to another grid {TRIES} times while it was put")

    def replaced(self, held: Held, grid: str, target: str) -> Content:
        """A content that stands at one grid, placed at another one; no line at the first one is to name it."""
        with spool() as room:
            if self.grid(grid).copy_to(held, room) is not None:
                raise Damaged(f"{held.name}: {where_of(held.content)} don't hold it")
            room.seek(0)
            placed = self.grid(target).placed(self.bucket(target, held.name), held.name, Source(room), lambda: held.words)
        self.grid(grid).unplace(self.bucket(grid, held.name), held.content)
        return placed

    def remove(self, name: str) -> None:
        check_name(name)
        walk = self.with_room(name, lambda bucket: Line(name, bucket.new_version().number, None), with_own=True)
        if not held_of(ways.greatest(walk)):
            raise NoSuchName(f"{name}: no such name")
        self.grid(walk.last.grid).commit(self.bucket(walk.last.grid, name), name, None)

    def with_room(self, name: str, line: Callable[[Bucket], Line], with_own: bool) -> Walk:
        """A walk for a change, at whose last grid there is room for a line, if that can be made: where it is for a content its page may split."""
        for _ in range(TRIES):
            walk = self.walk_for_change(name, with_own)
            files, bucket = self.grid(walk.last.grid), self.bucket(walk.last.grid, name)
            files.make_room(bucket, line(bucket))
            if not self.is_as_walked(walk):
                continue
            if line(bucket).content is None or not files.wants_parts(bucket, line(bucket)):
                break
            files.writer.split(bucket)
        return walk

    def names(self, prefix: str = "") -> list[Listed]:
        """The names that begin so; a fault where a grid is silent."""
        found = self.names_told(prefix)
        for fault in found.silent.values():
            raise fault
        return found.entries

    def names_told(self, prefix: str = "") -> Names:
        """The names at all grids that answer, which are looked at side by side."""
        listing, moments = Listing(self.map, prefix), [time.time()]
        while grids := sorted(listing.wanted):
            listing.looked(dict(zip(grids, self.side_by_side(self.all_buckets, grids))))
            moments.append(time.time())
        entries = [listed_of(told.held, moments[told.first - 1], moments[told.last]) for told in listing.told()]
        return Names(entries, listing.silent)

    def all_buckets(self, grid: str) -> "Looked | ClientError":
        """What is seen of each bucket of a grid, or why it was silent."""
        try:
            return looked_at(self.grid(grid))
        except ClientError as fault:
            return fault

    def sweep(self) -> Swept:
        found = [self.grid(grid).sweep() for grid in self.map.grids]
        forgotten, left = (sum(counts) for counts in zip(*((each.forgotten, each.left) for each in found)))
        absent = sorted({number for each in found for number in each.absent})
        silent = tuple(sorted({place for each in found for place in each.silent}))
        refusing = tuple(sorted({place for each in found for place in each.refusing}))
        return Swept(forgotten, left, absent, sum(each.chunks for each in found), silent, refusing)

    def catch_up(self) -> int:
        return sum(self.grid(grid).catch_up() for grid in self.map.grids)

    def close(self) -> None:
        for files in self.grids.values():
            files.close()

    def let_go(self) -> None:
        """Behind a call that did not end well, as at one grid."""
        for files in self.grids.values():
            files.let_go()


def spool() -> "tempfile.SpooledTemporaryFile[bytes]":
    return tempfile.SpooledTemporaryFile(1 << 20)


def sign(files: NamedFiles, bucket: Bucket, signpost: core.Signpost) -> bool:
    """Puts a signpost into a page of this session; whether it had to be. (Of one that has split those that took its place are to have it.)"""
    bucket.look(own=True)
    if bucket.has_split():
        return False
    journal = ways.signed(bucket.client, signpost, bucket.keeps)
    if journal is None:
        return False
    expect_room(files.layout, bucket, journal)
    files.writer.change(bucket, journal)
    return True


def expect_room(layout: Layout, bucket: Bucket, journal: core.Page) -> None:
    if len(text_of(journal)) > layout.page_room:
        raise NoRoom(f"page {bucket.number} of session {bucket.me} has no room for a signpost: take some names away, and sweep")
