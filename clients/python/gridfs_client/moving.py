"""Moves the names of slices from one grid to another while they are used. It may be killed at any moment: whoever runs it again goes on.

1. The map says which move is under way.
2. The signpost is put into each page of each session of the old grid: from then on its lines of these slices stay as they are.
3. Each name whose line that counts stands at the old grid is copied, and each bucket of the new grid gets a number above those of the old one.
4. The map says the new grid.
5. The lines of the slices go from the pages of the old grid, and with them the chunks of their contents.
6. The map says that the move has ended.

A move that has not come yet can be taken back, by a move of the same slices to the old grid. That puts its signposts into the pages of the new one, and copies
what was changed there meanwhile.

It has a session for a page at a time. What it can't have of a session, its own client does, which sees the signpost elsewhere; or a mover at another
machine.
"""

import time
from collections.abc import Callable, Collection
from contextlib import AbstractContextManager, suppress
from dataclasses import replace

from . import core, ways
from .answers import Tag
from .buckets import Bucket, Held, held_of
from .contents import Content, Inline, Part, joined
from .core import Version
from .errors import BadSettings, Damaged, NoRoom, Refused, SessionTaken
from .fleet import FleetFiles, ground_of, sign, spool
from .fleet_map import FleetMap, Move
from .grid import listed
from .layout import Layout
from .names import NamedFiles
from .opening import turn_of
from .pages import length_of_lines, length_of_signposts
from .streams import Source
from .ways import Ground, Stop, slice_of

# Gives the files of one of these sessions of a grid, or of any, as long as they are used. SessionTaken where none can be had.
OpenSession = Callable[[str, Collection[int], Ground], AbstractContextManager[NamedFiles]]
LayoutOf = Callable[[str], Layout]
AGAIN = 0.5  # seconds after which it is looked again what others have done


# Changes the map as it is then, which other moves may have changed meanwhile, and gives it.
ChangeMap = Callable[[Callable[[FleetMap], FleetMap]], FleetMap]


class Mover:
    """One move that a map says to be under way. `tell` is called with what is done. Moves of other slices may go on side by side."""

    def __init__(
        self,
        fleet_map: FleetMap,
        move: Move,
        open_session: OpenSession,
        layout_of: LayoutOf,
        change_map: ChangeMap,
        tell: Callable[[str], None] = lambda _: None,
        patience: float = 0,
    ):
        self.map, self.move, self.open_session, self.layout_of, self.change_map, self.tell = fleet_map, move, open_session, layout_of, change_map, tell
        self.copied, self.patience = 0, patience

    def run(self) -> FleetMap:
        """Ends the move; the map behind it."""
        self.expect_sense()
        if not self.move.is_there:
            if before := self.map.taken_back(self.move):  # (all of its pages have to stay as they are, too)
                Mover(self.map, before, self.open_session, self.layout_of, self.change_map, self.tell, self.patience).sign_all()
            self.sign_all()
            self.expect_latest_map()  # (a mover by another copy of the map may have begun meanwhile)
            self.copy_all()
            self.expect_last_move()
            self.map = self.change_map(lambda now: now.come(self.move))
        self.clear_all()
        self.map = self.change_map(lambda now: now.ended(self.move))
        return self.map

    # What the grids themselves say of it, before anything is changed

    def expect_sense(self) -> None:
        """BadSettings where the map is older than what pages show, where both grids are the same one, or where names that are to be cleared were not copied."""
        self.expect_two_grids()
        self.expect_last_move()
        if self.move.is_there:
            self.expect_copies()
        else:
            self.expect_latest_map()

    def expect_two_grids(self) -> None:
        """BadSettings where the settings of both grids lead to the same one: there a page of one shows each time what was just written at the other."""
        page = 0
        for _ in range(1 + len(self.layout_of(self.move.source).levels)):  # (once more, should the other grid have been written to by chance)
            with self.files(self.move.source) as source:
                place = source.layout.page(source.me, page)
                before = self.tag_at(self.move.target, place)
                bucket = source.writer.bucket(page)
                bucket.look(own=True)
                if bucket.has_split():
                    page = source.layout.parts_of(page)[0]
                    continue
                source.writer.change(bucket, core.changed(bucket.client, None, keeps=bucket.keeps))
                written = source.session.read(*place).tag
            after = self.tag_at(self.move.target, place)
            if before == after or after != written:
                return
        raise BadSettings(f"move {self.move.number}: the settings of {self.move.source} and of {self.move.target} lead to the same grid")

    def tag_at(self, grid: str, place: tuple[int, int]) -> Tag | None:
        with self.files(grid) as files:
            try:
                return files.session.read(*place).tag
            except Refused:
                return None

    def expect_latest_map(self) -> None:
        """BadSettings where pages of the old grid show a move of these slices that the map doesn't know."""
        ranges = [each for each in self.map.ranges if each.first <= self.move.last and self.move.first <= each.last]
        with self.files(self.move.source) as files:
            shown = {each for bucket, _ in files.buckets() for known in bucket.client.seen for each in known.page.signposts}
        for signpost in sorted(shown - {self.move.signpost}, key=lambda each: each.move):
            for each in ranges:
                first, last = max(signpost.first, each.first, self.move.first), min(signpost.last, each.last, self.move.last)
                if first <= last and signpost.move > each.move:
                    told = f"the map is older than move {signpost.move}, by which the slices {first}-{last} went on to {signpost.grid}"
                    raise BadSettings(f"{self.map.path}: {told}: get the last one, of which a copy is in the fleet as .fleet")

    def expect_last_move(self) -> None:
        """BadSettings where pages of the new grid show that the slices went on: a mover by another copy of the map may have taken the move back."""
        with self.files(self.move.target) as files:
            shown = {each for bucket, _ in files.buckets() for known in bucket.client.seen for each in known.page.signposts}
        for each in shown:
            if each.move > self.move.number and each.first <= self.move.last and self.move.first <= each.last:
                raise BadSettings(f"{self.map.path}: the map is older than move {each.move}: get the last one, of which a copy is in the fleet as .fleet")

    def expect_copies(self) -> None:
        """BadSettings where a name of the slices stands at the old grid alone, or there with a greater line: nothing is cleared then."""
        old, new = self.greatest(self.move.source), self.greatest(self.move.target)
        lacking = sorted(name for name, version in old.items() if name not in new or original(new[name]) < original(version))
        if lacking:
            told = f"{len(lacking)} names of move {self.move.number} are not at {self.move.target}, {lacking[0]!r} is one"
            raise BadSettings(f"{self.map.path}: {told}: let the map say that it moves, not that it clears")

    def greatest(self, grid: str) -> dict[str, Version]:
        """Of each name of the slices that a grid shows, removed ones too, its greatest version there."""
        found = dict[str, Version]()
        with self.files(grid) as files:
            for bucket, _ in files.buckets():
                for session, known in enumerate(bucket.client.seen, 1):
                    for line in known.page.lines:
                        if self.move.has(slice_of(line.name)):
                            version = core.version_of(line, session, grid)
                            found[line.name] = max(version, found.get(line.name, version))
        return found

    def sessions(self, grid: str) -> range:
        return range(1, self.layout_of(grid).sessions + 1)

    def pages(self, grid: str) -> range:
        """Its pages of level 0."""
        return range(self.layout_of(grid).pages)

    def files(self, grid: str, numbers: Collection[int] = ()) -> AbstractContextManager[NamedFiles]:
        return self.open_session(grid, numbers, ground_of(self.map, grid))

    # Signposts

    def sign_all(self) -> None:
        """In each page that doesn't show it, by its session; SessionTaken where some sessions can't be had, and don't have it by themselves."""
        lacking, count, taken = self.lacking(), 0, set[int]()
        for turn, _ in enumerate(self.layout_of(self.move.source).levels):  # (pages may split meanwhile)
            for session, page in self.lacking() if turn else lacking:
                if session in taken:
                    continue
                try:
                    with self.files(self.move.source, [session]) as files:
                        count += sign(files, files.writer.bucket(page), self.move.signpost)
                except SessionTaken:
                    taken.add(session)
        left = sorted({session for session, _ in self.waited(self.lacking)}) if lacking else []
        if left:
            raise SessionTaken(f"sessions {listed(left)} of {self.move.source} lack signposts: run it where they are used, or once they are free")
        self.tell(f"{count} pages have got the signpost")

    def lacking(self) -> list[tuple[int, int]]:
        return self.pages_where(lambda page: self.move.signpost not in page.signposts)

    def pages_where(self, wanted: Callable[[core.Page], bool]) -> list[tuple[int, int]]:
        """Pages of the old grid, each with its session."""
        with self.files(self.move.source) as files:
            return [(session, bucket.number) for bucket, _ in files.buckets() for session, known in enumerate(bucket.client.seen, 1) if wanted(known.page)]

    def waited(self, lacking: Callable[[], list[tuple[int, int]]]) -> list[tuple[int, int]]:
        """Pages that lack something still, once those who have their sessions had some time for it."""
        until = time.monotonic() + self.patience
        while (found := lacking()) and time.monotonic() < until:
            time.sleep(AGAIN)
        return found

    # Copies

    def copy_all(self) -> None:
        highest = max(map(self.copy_page, self.pages(self.move.source)))
        for page in self.pages(self.move.target):
            with self.files(self.move.target) as target:
                raise_number(target, page, highest)
        self.tell(f"{self.copied} names copied")

    def copy_page(self, page: int) -> int:
        """Copies the names of a bucket; the highest number of its pages."""
        with self.files(self.move.source) as source:
            bucket = source.writer.bucket(page)
            bucket.refresh()
            parts = source.layout.parts_of(page) if bucket.has_split() else ()
            highest = max(known.page.number for known in bucket.client.seen)
            names = [name for name in bucket.by_name() if self.move.has(slice_of(name))] if not parts else []
            turns = {name: self.turn(bucket, name) for name in names}
            for turn in sorted(set(turns.values())):
                self.copy_some(source, turn, [name for name in names if turns[name] == turn])
        return max([highest, *map(self.copy_page, parts)])

    def turn(self, bucket: Bucket, name: str) -> int:
        """Whose turn it is for a name: the session's that has it at the old grid; of another count of sessions the one's that clients try first."""
        count, found = self.layout_of(self.move.target).sessions, bucket.greatest(name)
        return found.session - 1 if found and count == self.layout_of(self.move.source).sessions else turn_of(name, count)

    def copy_some(self, source: NamedFiles, turn: int, names: list[str]) -> None:
        """By the session of the new grid whose turn it is for these names, as clients have them, or by another one that can be had and whose page has room."""
        sessions, last = self.sessions(self.move.target), None
        for number in (*sessions[turn:], *sessions[:turn]):
            try:
                with self.files(self.move.target, [number]) as target:
                    self.copy_names(source, target, names)
                return
            except (NoRoom, SessionTaken) as fault:
                last = last if isinstance(last, NoRoom) else fault
        assert last
        raise last

    def copy_names(self, source: NamedFiles, target: NamedFiles, names: list[str]) -> None:
        fleet = FleetFiles(self.map, lambda grid, _: {self.move.source: source, self.move.target: target}[grid])
        for name in names:
            self.copy(fleet, name)
        target.close()

    def copy(self, fleet: FleetFiles, name: str) -> None:
        """Has the new grid a line at least as great as that of the old one."""
        target_grid = self.move.target
        target = fleet.grid(target_grid)
        while True:
            walk = fleet.drive(ways.walk(name, self.start(name), True))
            found = ways.greatest(walk)
            if not found or self.is_there(walk, found):
                return
            if walk.last.grid != self.move.target:
                raise Damaged(f"{name}: a later move leads to {walk.last.grid}")
            bucket, held = fleet.bucket(target_grid, name), held_of(found)
            content = None
            if held:
                content = self.placed(fleet.grid(found.grid), target, bucket, held)
                if content is None:
                    continue  # (its chunks are forgotten, or its slots used anew: the line has gone)
                again = fleet.drive(ways.walk(name, self.start(name), True))
                if ways.greatest(again) != found:
                    target.unplace(bucket, content)
                    continue
                walk, bucket = again, fleet.bucket(target_grid, name)
            journal = ways.copied(walk, content, bucket.keeps)
            assert journal
            if length_of_lines(journal.lines) + length_of_signposts(journal) > bucket.level.lines_room:
                target.unplace(bucket, content)
                if target.writer.has_parts(bucket) and target.may_grow():
                    target.writer.split(bucket)
                    continue
                raise NoRoom(f"{name}: page {bucket.number} of session {target.me} of {self.move.target} has no room for a copy")
            target.writer.change(bucket, journal)
            self.copied += 1
            return

    def is_there(self, walk: ways.Walk, found: ways.Found) -> bool:
        """Whether the new grid shows the line that counts, or what that is a copy of: where a move is taken back, most names have never left."""
        return any(each.grid == self.move.target and original(each.version) == original(found.version) for each in ways.lines(walk))

    def placed(self, source: NamedFiles, target: NamedFiles, bucket: Bucket, held: Held) -> Content | None:
        """What a name holds, in its place at the new grid: each part by itself, so that it has the same parts. None where the old one has not all of it any more."""
        if isinstance(held.content, Inline):
            return target.placed(bucket, held.name, Source(held.content.content), lambda: held.words)
        parts: list[Part] = []
        try:
            for part in held.content.parts:
                with spool() as room:
                    if source.copy_part(held, part, room) is not None:
                        self.unplace(target, bucket, parts)
                        return None
                    room.seek(0)
                    parts.append(target.in_place(bucket, held.name, Source(room), lambda: held.words))
        except NoRoom:
            self.unplace(target, bucket, parts)
            raise
        return joined(parts)

    def unplace(self, target: NamedFiles, bucket: Bucket, parts: list[Part]) -> None:
        if parts:
            target.unplace(bucket, joined(parts))

    def start(self, name: str) -> Stop:
        found = self.map.range_of(slice_of(name))
        return Stop(found.grid, found.move)

    # The old lines

    def clear_all(self) -> None:
        count = 0
        for _ in self.layout_of(self.move.source).levels:
            for session, page in self.left():
                with suppress(SessionTaken), self.files(self.move.source, [session]) as files:
                    count += clear(files, page, self.move)
                    files.close()
        if self.waited(self.left):
            raise SessionTaken(f"lines are left at {self.move.source}: run it again")
        self.tell(f"{count} lines are gone from {self.move.source}")

    def left(self) -> list[tuple[int, int]]:
        """Those that show names of the slices."""
        return self.pages_where(lambda page: any(self.move.has(slice_of(line.name)) for line in page.lines))


def clear(files: NamedFiles, page: int, move: Move) -> int:
    """Has the lines of a move's slices go from a page of this session at the old grid; how many."""
    bucket = files.writer.bucket(page)
    bucket.look(own=True)
    if bucket.has_split():
        return 0  # (those that took its place have them)
    names = {line.name for line in bucket.journal.lines if move.has(slice_of(line.name))}
    journal = ways.cleared(bucket.client, move.signpost, names, bucket.keeps)
    if journal is None:
        if not bucket.client.seen[files.me - 1].page.lines == bucket.journal.lines:
            files.writer.change(bucket, core.changed(bucket.client, None, keeps=bucket.keeps))  # (its journal has let them go)
        return 0
    files.writer.change(bucket, journal)
    return len(names)


def original(version: Version) -> Version:
    """The version of which a line is a copy, by whichever moves it came."""
    return replace(version, move=0)


def raise_number(files: NamedFiles, page: int, highest: int) -> None:
    """A page of the bucket gets a number that is at least this, where none has."""
    bucket = files.writer.bucket(page)
    bucket.refresh()
    if bucket.has_split():
        for part in files.layout.parts_of(page):
            raise_number(files, part, highest)
    elif max(known.page.number for known in bucket.client.seen) < highest:
        bucket.look()
        if bucket.has_split():
            return raise_number(files, page, highest)
        files.writer.change(bucket, core.changed(bucket.client, None, keeps=bucket.keeps, least=highest))


def moves_to_end(fleet_map: FleetMap) -> list[Move]:
    """Moves that were begun and may go on side by side, those whose slices are at the new grid first: no grid is an old one of some and a new one of others, so
    that none waits for a session of one that waits for its own. One that is taken back is none of them."""
    found = list[Move]()
    for move in sorted((each for each in fleet_map.moves if not fleet_map.is_taken_back(each)), key=lambda move: (not move.is_there, move.number)):
        if move.source not in {each.target for each in found} and move.target not in {each.source for each in found}:
            found.append(move)
    return found


__all__ = ["Mover", "OpenSession", "moves_to_end"]
