"""Names over grids in memory, step by step: what a mover leaves that dies at each of its steps, what clients with each map see, and maps."""

import contextlib
import dataclasses
import hashlib
import io
import json
import os
import shutil
import sys
import tempfile
import unittest
from unittest import mock

HERE = os.path.dirname(os.path.abspath(__file__))
sys.path[:0] = [os.path.join(HERE, "..", name) for name in ("names", "chunks", "s3")]
import fleets
from endpoint import stand_in
from histories import Killed
from in_slots import OldClient, tables
from maps import Maps
from memory import Memory, MemorySession
from memory_with_chunks import with_chunks
from servers import Servers

from gridfs_client import BadSettings, NamedFiles, NoRoom, NoSuchName, OneByOne, Unanswered, command, core, fleet_command, splits, ways
from gridfs_client.buckets import held_of
from gridfs_client.contents import Inline, Joined, digest_of
from gridfs_client.core import Copied, Line, Page, Signpost
from gridfs_client.fleet import FleetFiles
from gridfs_client.fleet_map import Range, new_map, parse_map
from gridfs_client.listing import Listing, Told
from gridfs_client.moving import Mover, moves_to_end
from gridfs_client.pages import parse_page, text_of
from gridfs_client.streams import Source
from gridfs_client.ways import SLICES, Ground, slice_of

LONG = bytes(range(200))
SETTINGS = "[gridfs]\ntenant = ann\nsocket = none\n"


class Grids(Maps):
    """Grids of memory, and a map by which all names are at `east`, or go from there to `west`."""

    def __init__(self, sessions=2, slots=0, pages=1, labels=("east", "west"), page_blocks=64, levels=()):
        super().__init__(labels)
        self.memories = {label: Memory(sessions, pages, page_blocks, slots, 2, levels) for label in labels}
        self.steps, self.at_step = 0, lambda _: None
        self.held = []  # sessions that the mover has
        self.growing = set()  # grids whose pages may split

    def step(self, _):
        self.steps += 1
        self.at_step(self.steps)

    def named(self, label, number, ground, watched=False):
        memory = self.memories[label]
        files = NamedFiles(with_chunks(MemorySession(memory, number, self.step if watched else None), memory), memory.layout, team=OneByOne(), ground=ground)
        files.may_grow = lambda: label in self.growing
        return files

    def files(self, number, fleet_map=None, watched=False):
        return FleetFiles(fleet_map or self.map, lambda label, ground: self.named(label, number, ground, watched))

    def begin(self, first, last, target):
        self.save(self.map.begun(first, last, target))

    def mover(self, watched=False, kind=Mover):
        @contextlib.contextmanager
        def session(label, numbers, ground):
            number = min(numbers or [1])
            self.held.append(number)
            try:
                yield self.named(label, number, ground, watched)
            finally:
                self.held.remove(number)

        return kind(self.map, moves_to_end(self.map)[0], session, lambda label: self.memories[label].layout, self.change_map)

    def end(self):
        while self.map.moves:
            self.mover().run()

    def surface(self):
        for memory in self.memories.values():
            memory.surface()

    def forget(self):
        for memory in self.memories.values():
            memory.pending = []


class Forms(unittest.TestCase):
    def test_pages(self):
        page = Page((Line("a b", 7, Inline(b"x"), "w", Copied(2, "east", 3, 40)), Line("c", 9, None)), (0, 4), 41, (Signpost(4, 0, 99, "west"),))
        text = b"names 2 41 0 4\n>4 0-99 west\n7@east.2>3.40 {w} @eA a b\n9 - c\n"
        self.assertEqual((text_of(page), parse_page(text, "")), (text, page))
        plain = Page((Line("a", 7, Inline(b"x")),), (), 7)
        self.assertEqual(text_of(plain), b"names 2 7\n7 @eA a\n")
        self.assertEqual(core.version_of(page.lines[0], 1, "west"), core.Version(7, 2, "east", 3))

    def test_maps(self):
        begun = dataclasses.replace(new_map("a", "a.ini"), grids={"a": "a.ini", "b": "b.ini"}).begun(100, 199, "b")
        come = begun.come(begun.moves[0])
        self.assertEqual(come.ranges, (Range(0, 99, 0, "a"), Range(100, 199, 1, "b"), Range(200, SLICES - 1, 0, "a")))
        for each in (begun, come, come.ended(come.moves[0])):
            self.assertEqual(parse_map(each.text()), each)
        self.assertFalse(come.is_clear(150))
        with self.assertRaises(BadSettings):
            come.begun(150, 150, "a")
        self.assertTrue(come.ended(come.moves[0]).begun(150, 150, "a"))
        for wrong in ("", "fleet 1\n", "fleet 1\ngrid a a\nslices 0-65534 0 a\n", "fleet 1\ngrid a a\nslices 0-65535 0 b\n", "fleet 1\ngrid a a\ngrid a b\nslices 0-65535 0 a\n"):
            with self.assertRaises(BadSettings):
                parse_map(wrong)

    def test_moves_that_do_not_go_with_slices(self):
        head = "fleet 1\ngrid a a\ngrid b b\nslices 0-99 0 a\nslices 100-65535 3 b\n"
        for moves in ("moves 4 0-50 a b\nclears 3 100-65535 a b\n", "moves 1 0-99 a b\nmoves 4 100-200 b a\n"):
            self.assertEqual(parse_map(head + moves).text(), head + moves)
        for moves in (
            "moves 0 0-50 a b", "moves 4 0-50 a a", "moves 4 0-50 b a", "moves 4 50-0 a b", "moves 4 0-100 a b", "moves 3 100-200 b a", "clears 4 0-50 a b", "clears 2 100-200 a b",
            "clears 3 99-100 a b", "moves 4 0-50 a b\nmoves 4 60-70 a b", "moves 4 0-50 a b\nmoves 5 50-70 a b", "moves 4 65535-65536 b a", "moves 4 70000-80000 b a",
        ):  # fmt: skip
            with self.assertRaises(BadSettings, msg=moves):
                parse_map(f"{head}{moves}\n")

    def test_spread(self):
        now = dataclasses.replace(new_map("a", "-"), grids=dict.fromkeys("abcd", "-"))
        while part := now.next_part():
            now = now.begun(*part)
            now = now.come(now.moves[0])
            now = now.ended(now.moves[0])
        self.assertEqual(set(now.shares().values()), {SLICES // 4})


class Moves(unittest.TestCase):
    def filled(self, **words):
        grids = Grids(**words)
        files = grids.files(1)
        files.put("short", b"s")
        files.put("long", LONG)
        grids.files(2).put("short", b"t")
        grids.files(2).put("gone", b"g")
        files.remove("gone")
        return grids, {"short": b"t", "long": LONG}

    def expect(self, grids, held):
        for fleet_map in grids.maps:
            files = grids.files(1, fleet_map)
            for name, content in held.items():
                self.assertEqual(files.get(name)[0], content)
            with self.assertRaises(NoSuchName):
                files.get("gone")
            self.assertEqual([entry.name for entry in files.names()], sorted(held))

    def test_move(self):
        grids, held = self.filled()
        grids.begin(0, SLICES - 1, "west")
        grids.end()
        self.expect(grids, held)
        for fleet_map in grids.maps:
            files = grids.files(2, fleet_map)
            files.put("short", held["short"] + b"x")
            held["short"] += b"x"
            files.put("long", LONG + held["short"])
            held["long"] = LONG + held["short"]
            self.expect(grids, held)
        for memory in (grids.memories["east"],):
            self.assertFalse([line for copy in memory.registers.values() if copy.content.startswith(b"names") for line in parse_page(copy.content, "").lines])
        with self.assertRaises(BadSettings):
            grids.named("east", 1, None).get("short")

    def test_a_full_page(self):
        """A put that finds no room lets its page split where it may, at the last grid of its way, and so does a copy; else it is refused, and nothing has changed."""
        grids, names = Grids(page_blocks=16, levels=(4,)), [f"{number:02}" for number in range(40)]
        with self.assertRaises(NoRoom):
            self.put_all(grids, names)
        self.assertFalse(self.has_split(grids, "east"))
        grids.growing = {"east"}
        self.put_all(grids, names[:30])
        self.assertTrue(self.has_split(grids, "east"))
        grids.begin(0, SLICES - 1, "west")
        with self.assertRaises(NoRoom):
            grids.end()
        self.assertFalse(self.has_split(grids, "west"))
        grids.growing = {"west"}
        grids.end()
        self.assertTrue(self.has_split(grids, "west"))
        self.put_all(grids, names)
        self.held(grids, names)

    def test_a_full_page_amid_a_move(self):
        """A mover dies at a step. Puts let pages split, and who goes on with the move too."""
        for step in range(5, 600, 30):
            grids, names = Grids(page_blocks=16, levels=(4,)), [f"{number:02}" for number in range(30)]
            grids.growing = {"east", "west"}
            self.put_all(grids, names[:20])
            grids.begin(0, SLICES - 1, "west")

            def dies(now):
                if now == step:
                    raise Killed

            grids.at_step = dies
            with contextlib.suppress(Killed):
                grids.mover(watched=True).run()
            self.put_all(grids, names)
            self.held(grids, names)
            grids.end()
            self.held(grids, names)
            grids.surface()
            self.held(grids, names)

    def put_all(self, grids, names):
        files = grids.files(1)
        for name in names:
            files.put(name, name.encode() * 20)

    def held(self, grids, names):
        for fleet_map in grids.maps:
            files = grids.files(2, fleet_map)
            self.assertEqual([entry.name for entry in files.names()], names)
            self.assertEqual([files.get(name)[0] for name in names], [name.encode() * 20 for name in names])

    def has_split(self, grids, grid):
        memory = grids.memories[grid]
        return splits.is_split(parse_page(memory.read(memory.layout.page(1, 0)).content, ""), 1)

    def split_amid(self, who, step):
        """A mover dies at a step, and pages split; or they begin to, whoever does so dies at the step, and the move goes on. Whether there was such a step."""
        grids, held = self.filled(levels=(2,))
        grids.begin(0, SLICES - 1, "west")

        def dies(now):
            if now == step:
                raise Killed

        grids.at_step = dies
        try:
            if who == "mover":
                grids.mover(watched=True).run()
            else:
                grids.files(2, watched=True).grid("east").grow()
                grids.files(1, watched=True).grid("west").grow()
            return False
        except Killed:
            pass
        grids.files(2).grid("east").grow()
        self.expect(grids, held)
        held["short"] = b"once more"
        grids.files(1, grids.maps[0]).put("short", held["short"])
        self.expect(grids, held)
        grids.files(1).grid("west").grow()
        grids.surface()
        grids.end()
        self.expect(grids, held)
        held["long"] = b"l"
        grids.files(2).put("long", held["long"])
        self.expect(grids, held)
        return True

    def test_pages_that_split(self):
        for who in ("mover", "grow"):
            for step in (*range(1, 70), *range(70, 2_000, 5)):
                if not self.split_amid(who, step):
                    break
            self.assertGreater(step, 9)

    def test_pages_that_split_wrongly(self):
        for bug in fleets.SPLITTING:
            with fleets.planted(bug):
                self.assertRaises((AssertionError, NoSuchName), lambda: [self.split_amid("mover", step) for step in (*range(30, 45), *range(45, 200, 10))])

    def refuse(self, grids, fleet_map, why):
        """A move by a map is refused, and nothing is another one than before."""
        shown = [{place: copy for place, copy in memory.registers.items() if copy.content.startswith(b"names")} for memory in grids.memories.values()]
        before = [sorted((place, parse_page(copy.content, "").lines) for place, copy in pages.items()) for pages in shown]
        grids.map = fleet_map
        with self.assertRaisesRegex(BadSettings, why):
            grids.mover().run()
        for memory, pages in zip(grids.memories.values(), before):
            self.assertEqual([(place, parse_page(memory.registers[place].content, "").lines) for place, _ in pages], pages)

    def test_two_names_of_one_grid(self):
        """The settings of the new grid lead to the old one: else its names would be copied onto themselves, and then cleared."""
        grids, held = self.filled()
        grids.memories["west"] = grids.memories["east"]
        grids.begin(0, SLICES - 1, "west")
        self.refuse(grids, grids.map, "lead to the same grid")
        self.assertEqual(grids.files(1, grids.maps[0]).get("long")[0], held["long"])

    def test_older_map(self):
        """A mover by a map from before a move: what that took on would be left behind."""
        grids, held = self.filled(labels=("east", "west", "south"))
        before = grids.map
        grids.begin(0, SLICES - 1, "west")
        grids.end()
        last = grids.map
        self.refuse(grids, before.begun(0, SLICES - 1, "south"), "the map is older than move 1, by which the slices 0-65535 went on to west")
        self.refuse(grids, before.begun(7, 9, "south"), "the map is older than move 1, by which the slices 7-9 went on to west")
        grids.map, grids.maps = last, grids.maps[:4]
        grids.begin(0, SLICES - 1, "south")
        grids.end()
        self.expect(grids, held)

    def test_older_map_amid_a_move(self):
        """Two movers by copies of one map: the second one sees signposts of the first."""
        grids, _ = self.filled(labels=("east", "west", "south"))
        before = grids.map
        grids.begin(0, SLICES - 1, "west")
        grids.mover().sign_all()
        self.refuse(grids, before.begun(0, 0, "south"), "the map is older than move 1") if slice_of("short") else None
        grids.map = before.begun(0, SLICES - 1, "south")
        mover = grids.mover()
        with mock.patch.object(mover, "expect_sense"), self.assertRaisesRegex(BadSettings, "the map is older than move 1"):
            mover.run()

    def test_names_that_were_not_copied(self):
        """A map by hand says that a move clears which only was to begin."""
        grids, _ = self.filled()
        began = grids.map.begun(0, SLICES - 1, "west")
        self.refuse(grids, began.come(began.moves[0]), "3 names of move 1 are not at west, 'gone' is one")

    def test_there_and_back(self):
        grids, held = self.filled(pages=3)
        for target in ("west", "east", "west"):
            grids.begin(0, SLICES - 1, target)
            grids.end()
            self.expect(grids, held)
            grids.files(1, grids.maps[0]).put("short", target.encode())
            held["short"] = target.encode()
            self.expect(grids, held)

    def test_taken_back(self):
        """A move whose new grid has no room is taken back, whatever was copied and changed there until then; and goes to another grid then."""
        for most in (*range(2, 12), *range(12, 60, 5)):
            grids, held = self.filled(labels=("east", "west", "south"))
            grids.begin(0, SLICES - 1, "west")
            if not self.ends_for_lack_of_room(grids, most):
                self.assertGreater(most, 10)
                break
            for number, name in enumerate(("short", "new")):
                files = grids.files(1 + number)
                files.put(name, b"%d" % most)
                held[name] = b"%d" % most
            with self.assertRaisesRegex(BadSettings, "move 1 has some of these slices"):
                grids.begin(0, SLICES - 1, "south")
            grids.begin(0, SLICES - 1, "east")
            self.assertEqual(parse_map(grids.map.text(), grids.map.path), grids.map)
            self.expect(grids, held)
            with self.assertRaisesRegex(BadSettings, "move 1 has some of these slices"):
                grids.begin(0, SLICES - 1, "west")
            grids.end()
            self.assertEqual([(each.grid, each.move) for each in grids.map.ranges], [("east", 2)])
            self.expect(grids, held)
            self.assertEqual([line for page in grids.named("west", 1, Ground("west", lambda _: None)).buckets() for known in page[0].client.seen for line in known.page.lines], [])
            grids.begin(0, SLICES - 1, "south")
            grids.end()
            self.expect(grids, held)
            grids.files(2, grids.maps[0]).put("long", b"l")
            self.expect(grids, held | {"long": b"l"})

    def ends_for_lack_of_room(self, grids, most):
        """Whether a mover ends early that has so many sessions, one after another, until there is no room."""
        mover, count = grids.mover(), 0
        open_session = mover.open_session

        def session(*words):
            nonlocal count
            count += 1
            if count > most:
                raise NoRoom
            return open_session(*words)

        mover.open_session = session
        try:
            mover.run()
        except NoRoom:
            return not grids.map.moves[0].is_there
        return False

    def test_a_mover_that_goes_on(self):
        """While its move is taken back from another machine: it says so, and changes nothing any more."""
        grids, held = self.filled()
        grids.begin(0, SLICES - 1, "west")
        other = grids.mover()
        self.assertTrue(self.ends_for_lack_of_room(grids, 8))
        began = grids.map
        grids.begin(0, SLICES - 1, "east")
        grids.end()
        for fleet_map in (began, began.come(began.moves[0])):
            mover = Mover(fleet_map, fleet_map.moves[0], other.open_session, other.layout_of, lambda change: self.fail())
            with self.assertRaisesRegex(BadSettings, "the map is older than move 2"):
                mover.run()
        self.expect(grids, held)

    def test_parts(self):
        """A content of several parts has them still after a move, at a grid of another layout too."""
        grids = Grids(page_blocks=16)
        grids.memories["west"] = Memory(3, 5, 16)
        files = grids.named("east", 1, Ground("east", lambda _: 0))
        bucket = files.bucket("joined")
        bucket.look(own=True)
        parts = tuple(files.in_place(bucket, "joined", Source(content)) for content in (LONG, b"short", LONG[:130]))
        files.commit(bucket, "joined", Joined(parts), "w")
        before = grids.files(1).stat("joined")
        grids.begin(0, SLICES - 1, "west")
        grids.end()
        for fleet_map in grids.maps:
            content, entry = grids.files(2, fleet_map).get("joined")
            self.assertEqual((content, entry.sha256, entry.words), (LONG + b"short" + LONG[:130], before.sha256, "w"))
        moved = grids.named("west", 1, Ground("west", lambda _: 1))
        moved.bucket("joined").refresh()
        self.assertEqual([part.size for part in moved.bucket("joined").held("joined").content.parts], [200, 5, 130])

    def in_slots(self):
        """Grids with contents that a client from before chunks put at the old one, in slots that a session lent too."""
        grids = Grids(slots=12)
        sessions = [grids.named("east", number, Ground("east", lambda _: 0)).session for number in (1, 2)]
        old = OldClient(sessions[0], grids.memories["east"].layout, sessions[1:])
        old.put("long", LONG)
        old.put("joined", LONG, LONG[:130], words="w")
        return grids, tables(lambda *place: grids.memories["east"].read(place), grids.memories["east"].layout)

    def test_contents_in_slots(self):
        """They are read by each map, put over, and moved into chunks."""
        grids, told = self.in_slots()
        files = grids.files(2)
        self.assertEqual([files.get(name)[0] for name in ("long", "joined")], [LONG, LONG + LONG[:130]])
        grids.begin(0, SLICES - 1, "west")
        grids.end()
        for fleet_map in grids.maps:
            files = grids.files(2, fleet_map)
            self.assertEqual([files.get(name)[0] for name in ("long", "joined")], [LONG, LONG + LONG[:130]])
            self.assertEqual(files.stat("joined").words, "w")
        files.put("long", LONG + b"x")
        self.assertEqual(grids.files(1).get("long")[0], LONG + b"x")
        east = grids.memories["east"]
        self.assertEqual(tables(lambda *place: east.read(place), east.layout), told)  # (which nobody writes)

    def test_a_new_grid_without_room_for_chunks(self):
        """The move is refused, and says why; the names are what they were."""
        grids, _ = self.in_slots()
        west = grids.memories["west"]
        west.servers = Servers(sessions=2, allowed=0)
        grids.begin(0, SLICES - 1, "west")
        with self.assertRaisesRegex(NoRoom, "the plan gives the tenant none for chunks; .*more NAME 16G in chunks"):
            grids.mover().run()
        files = grids.files(2)
        self.assertEqual([files.get(name)[0] for name in ("long", "joined")], [LONG, LONG + LONG[:130]])
        with self.assertRaisesRegex(NoRoom, "more NAME 16G in chunks"):
            files.put("long", bytes(300))
        files.put("long", b"short")
        self.assertEqual(grids.files(1).get("long")[0], b"short")

    def test_along(self):
        for name in ("a", "b/c", "ä"):
            along = f"any/name/={digest_of(name.encode())}"
            self.assertEqual(slice_of(along), slice_of(name))
            for memory in (Memory(2, 7), Memory(3, 5)):
                self.assertEqual(memory.layout.page_of(along), memory.layout.page_of(name))

    def test_silent(self):
        """A listing tells what the other grids have, and which one was silent."""
        grids, _ = self.filled()
        middle = SLICES // 2
        grids.begin(middle, SLICES - 1, "west")
        grids.end()
        files = grids.files(1)
        names = [f"name {number}" for number in range(8)]
        for name in names:
            files.put(name, b"x")

        def open_grid(label, ground):
            if label == "west":
                raise Unanswered("no answer")
            return grids.named(label, 1, ground)

        told = FleetFiles(grids.map, open_grid).names_told("name")
        self.assertEqual(([entry.name for entry in told.entries], list(told.silent)), ([name for name in names if slice_of(name) < middle], ["west"]))
        self.assertTrue(0 < len(told.entries) < len(names))
        with self.assertRaises(Unanswered):
            FleetFiles(grids.map, open_grid).names()

    def test_side_by_side(self):
        """Moves of which none has an old grid that is another one's new grid."""
        now = dataclasses.replace(new_map("a", "-"), grids=dict.fromkeys("abcd", "-")).spread()
        self.assertEqual([move.target for move in moves_to_end(now)], ["b", "c", "d"])
        for move in now.moves:
            now = now.come(move).ended(move)
        self.assertEqual(set(now.shares().values()), {SLICES // 4})
        first, last = now.ranges[0].first, now.ranges[0].last
        now = now.begun(first, first, "b").begun(last, last, "c")
        there = next(each for each in now.ranges if each.grid == "b")
        now = now.begun(there.first, there.first, "a")
        self.assertEqual([move.target for move in moves_to_end(now)], ["b", "c"])

    def test_other_layout(self):
        grids, held = self.filled(pages=2)
        grids.memories["west"] = Memory(3, 5, 16)
        grids.begin(0, SLICES - 1, "west")
        grids.end()
        self.expect(grids, held)

    def test_dies_at_each_step(self):
        """The mover dies at each of its steps; what it left takes effect or not; names are what they were, can be changed, and another one ends the move."""
        for surfaces in (False, True):
            step, is_done = 0, False
            while not is_done:
                step += 1
                grids, held = self.filled()
                grids.begin(0, SLICES - 1, "west")
                grids.steps = 0

                def dies(number, last=step):
                    if number == last:
                        raise Killed

                grids.at_step = dies
                is_done = True
                while grids.map.moves:
                    try:
                        grids.mover(watched=True).run()
                    except Killed:
                        is_done = False
                        break
                grids.at_step = lambda _: None
                grids.surface() if surfaces else None
                self.expect(grids, held)
                files = grids.files(1 + step % 2, grids.maps[step % len(grids.maps)])
                files.put("short", b"new")
                held["short"] = b"new"
                self.expect(grids, held)
                grids.end()
                grids.surface()
                self.expect(grids, held)
            self.assertGreater(step, 30)

    def test_clients_at_each_step(self):
        """A client with the first map, or a later one, puts, gets and removes at each step of a mover."""
        for kind in ("put", "get", "remove"):
            step, is_done = 0, False
            while not is_done:
                step += 3
                grids, held = self.filled(sessions=3)
                grids.begin(0, SLICES - 1, "west")
                done = []

                def comes(number, last=step, grids=grids, held=held, done=done, kind=kind):
                    if number != last:
                        return
                    done.append(number)
                    free = min({1, 2, 3} - set(grids.held))
                    files = grids.files(free, grids.maps[last % len(grids.maps)])
                    if kind == "put":
                        files.put("short", b"in between")
                        held["short"] = b"in between"
                    elif kind == "remove":
                        files.remove("long")
                        del held["long"]
                    else:
                        self.assertEqual(files.get("long")[0], LONG)

                grids.at_step = comes
                while grids.map.moves:
                    grids.mover(watched=True).run()
                is_done = not done
                grids.at_step = lambda _: None
                for fleet_map in grids.maps:
                    for name, content in held.items():
                        self.assertEqual(grids.files(1, fleet_map).get(name)[0], content, (kind, step))


def unordered(self, grids):
    """A listing looks at each grid once."""
    missing = [grid for grid in grids if grid not in self.seen]
    self.wanted.update(missing[:1])
    return not missing


def unconfirmed(self, name, lines):
    """A listing tells a line of an old grid without another look at it."""
    grids = list(self.way(slice_of(name), lambda grid: self.shown_to(name, grid)))
    if self.note_order(grids):
        held = held_of(max((line for line in lines if line.grid in grids), key=ways.version_in, default=None))
        self.done[name] = Told(held, 1, 1) if held else None


class Listings(unittest.TestCase):
    """What a listing tells while a move goes on between its looks at one grid and at the other."""

    def told(self, grids, between, first):
        """A listing by the map before, which looks at this grid first."""
        begun, works = grids.maps[-1], [between]

        def side_by_side(look, labels):
            found = {}
            for label in sorted(labels, key=lambda label: label != first):
                found[label] = look(label)
                if works:
                    works.pop()()
            return [found[label] for label in labels]

        files = FleetFiles(begun, lambda label, ground: grids.named(label, 1, ground), side_by_side)
        return {entry.name: entry.sha256 for entry in files.names()}

    def copied_amid(self):
        """Names are copied and cleared after the look at the new grid, and before that at the old one."""
        grids = Grids()
        grids.files(1).put("a", b"x")
        grids.begin(*((0, 0) if slice_of("a") else (1, 1)), "west")  # (so that it looks at the new grid too at first)
        grids.end()
        grids.begin(slice_of("a"), slice_of("a"), "west")
        return self.told(grids, grids.end, "west").get("a")

    def removed_amid(self):
        """A name is put at the new grid before the listing. After the look at the old grid it is removed, and that forgotten."""
        grids = Grids()
        grids.files(1).put("a", b"old")
        grids.begin(0, SLICES - 1, "west")
        grids.mover().sign_all()
        grids.files(1).put("a", b"new")

        def remove():
            grids.end()
            grids.files(2).remove("a")
            for number in (1, 2, 1, 2):
                files = grids.named("west", number, Ground("west", lambda _: 1))
                files.writer.tidy(files.writer.bucket(0), anew=True)

        return self.told(grids, remove, "east").get("a")

    def test_looks_in_order(self):
        self.assertEqual(self.copied_amid(), hashlib.sha256(b"x").hexdigest())
        with mock.patch.object(Listing, "note_order", unordered):
            self.assertIsNone(self.copied_amid())

    def test_ways_in_other_orders(self):
        """Slices have gone from the first grid to the third by the second one, and others the other way round, since the map that the listing has."""
        grids, middle = Grids(labels=("east", "west", "south")), SLICES // 2
        names = [f"name {number}" for number in range(8)]
        for name in names:
            grids.files(1).put(name, name.encode())
        grids.begin(middle, SLICES - 1, "south")
        grids.end()
        before = grids.map
        for first, last, target in ((0, middle - 1, "west"), (middle, SLICES - 1, "west"), (0, middle - 1, "south"), (middle, SLICES - 1, "east")):
            grids.begin(first, last, target)
            grids.end()
        self.assertTrue(0 < sum(slice_of(name) < middle for name in names) < len(names))
        listing = Listing(before)
        files = grids.files(1, before)
        while wanted := sorted(listing.wanted):
            listing.looked({grid: files.all_buckets(grid) for grid in wanted})
            self.assertLess(listing.count, 12)
        self.assertEqual([told.held.name for told in listing.told()], sorted(names))

    def test_looks_again(self):
        self.assertNotEqual(self.removed_amid(), hashlib.sha256(b"old").hexdigest())
        with mock.patch.object(Listing, "follow", unconfirmed):
            self.assertEqual(self.removed_amid(), hashlib.sha256(b"old").hexdigest())


class Commands(unittest.TestCase):
    """Wrong words, maps and settings: one line each on standard error, and the status."""

    def setUp(self):
        self.before, folder = os.getcwd(), tempfile.TemporaryDirectory(prefix="fleet")
        self.addCleanup(folder.cleanup)
        self.addCleanup(os.chdir, self.before)
        os.chdir(folder.name)
        maps = {"no map": "hello\n", "bytes": "\xff", "later": "fleet 2\n", "more": "fleet 1\nweights 1\n"}
        for name, text in {"a.ini": SETTINGS, "b.ini": SETTINGS, "a b.ini": SETTINGS, **maps}.items():
            with open(name, "w", encoding="latin-1") as out:
                out.write(text)

    def told(self, call, words):
        with contextlib.redirect_stderr(io.StringIO()) as told, contextlib.redirect_stdout(io.TextIOWrapper(io.BytesIO())) as out:
            status = call(words)
            out.flush()
        return status, told.getvalue().splitlines(), out.buffer.getvalue().decode()

    def refuse(self, status, why, *words, map="map", call=fleet_command.main):
        found = self.told(call, ["--map", map, "--timeout", "1", *words])
        self.assertEqual((found[0], len(found[1])), (status, 1), found)
        self.assertIn(why, found[1][0])

    def test_wrong(self):
        for words in (["status"], ["spread"], ["move"], ["add", "a", "a.ini"]):
            self.refuse(2, "there is no such map; `gridfs-fleet --map missing begin GRID SETTINGS` makes one", *words, map="missing")
            self.refuse(2, "no map of a fleet", *words, map="no map")
            self.refuse(2, "no map of a fleet", *words, map="bytes")
            self.refuse(2, "later: a map of the form 'fleet 2', and this program knows 'fleet 1' alone", *words, map="later")
            self.refuse(2, "more: line 2: 'weights 1' has no form", *words, map="more")
            self.refuse(2, "Is a directory", *words, map=".")
        self.assertFalse([name for name in os.listdir() if name.endswith(".lock")])
        self.refuse(6, "no folder/map: No such file or directory", "begin", "a", "a.ini", map="no folder/map")
        self.refuse(2, "c.ini: no such file: the settings of a", "begin", "a", "c.ini")
        self.refuse(2, "A!: no word for a grid", "begin", "A!", "a.ini")
        self.refuse(2, "'a b.ini': a map has no such path", "begin", "a", "a b.ini")
        self.assertEqual(self.told(fleet_command.main, ["--map", "map", "begin", "a", "a.ini"])[0], 0)
        self.refuse(2, "there is a map", "begin", "a", "a.ini")
        self.refuse(2, "there is such a grid", "add", "a", "a.ini")
        self.refuse(6, "b: none: No such file or directory", "add", "b", "b.ini")
        with open("map", "w") as out:
            out.write(f"fleet 1\ngrid a a.ini\ngrid b b.ini\nslices 0-{SLICES - 1} 0 a\n")
        for words in (["5"], ["5-3", "b"], ["0-5", "c"], ["0-99999", "b"], ["0-5", "a"]):
            self.refuse(2, "", "move", *words)
        self.refuse(2, "is no number of seconds", "--timeout", "x", "spread")
        self.refuse(6, "a: none: No such file or directory", "move", "0-5", "b")
        self.refuse(6, "a: none: No such file or directory", "spread")
        status, told, out = self.told(fleet_command.main, ["--map", "map", "status"])
        self.assertEqual((status, told, out.splitlines()[0]), (6, [], "a: none: No such file or directory: no grid runs there (./grid starts one); 65536 slices"))

    def test_wrong_maps_of_clients(self):
        client = command.main
        for words in (["ls"], ["get", "x"], ["put", "a.ini", "x"], ["rm", "x"], ["rm", "-r", "x"], ["stat", "x"], ["status"], ["mirror", ".", "grid:"], ["sweep"]):
            self.refuse(2, "there is no such map", *words, map="missing", call=client)
            self.refuse(2, "no map of a fleet", *words, map="no map", call=client)
        for words in (["write", "0", "0", "x"], ["list", "0"], ["plan"], ["read", "0", "0"]):
            self.refuse(2, "is about one grid", *words, map="missing", call=client)
        self.told(fleet_command.main, ["--map", "map", "begin", "a", "a.ini"])
        self.refuse(6, "a: none: No such file or directory", "get", "x", call=client)
        status, told, out = self.told(client, ["--map", "map", "ls"])
        wanted = ["gridfs-client: names at a are not told: none: No such file or directory: no grid runs there (./grid starts one)", "gridfs-client: not all names are told: a is silent"]
        self.assertEqual((status, told, out), (6, wanted, ""))


class OverGrids(unittest.TestCase):
    """The commands over two stand-ins for grids, whose settings are east.ini and west.ini, and a map of the first one."""

    def setUp(self):
        before, found = os.getcwd(), {}
        for label in ("east", "west"):
            found[label] = self.enterContext(stand_in())
        folder = self.enterContext(tempfile.TemporaryDirectory(prefix="fleet"))
        self.addCleanup(os.chdir, before)
        os.chdir(folder)
        for label, room in found.items():
            os.symlink(os.path.join(room, "carol.ini"), f"{label}.ini")
        self.enterContext(mock.patch.dict(os.environ, {"GRIDFS_LOCKS": os.path.join(folder, "locks"), "HOME": folder}))
        self.fleet("begin", "east", "east.ini")

    def done(self, call, words, status):
        with contextlib.redirect_stderr(io.StringIO()) as told, contextlib.redirect_stdout(io.TextIOWrapper(io.BytesIO())) as out:
            found = call(words)
            out.flush()
        self.assertEqual(found, status, told.getvalue())
        return out.buffer.getvalue().decode() + told.getvalue()

    def fleet(self, *words, map="map", status=0):
        return self.done(fleet_command.main, ["--map", map, *words], status)

    def client(self, *words, where=("--map", "map"), status=0):
        return self.done(command.main, [*where, *words], status)

    def put(self, name, text, where=("--map", "map"), status=0):
        with open("content", "w") as out:
            out.write(text)
        return self.client("put", "content", name, where=where, status=status)

    def test_what_stands_under_the_name_of_the_map(self):
        """Who may put names puts a map that names files, commands and grids: it says where names are, and nothing else."""
        self.fleet("add", "west", "west.ini")
        self.put("hello", "hello")
        with open("evil", "w") as out:
            out.write("[gridfs]\ntenant = carol\nvia = touch was.run\n")
        all_slices = f"slices 0-{SLICES - 1} 900"
        for text in ("", "x", "\xff", f"fleet 1\ngrid east east.ini\ngrid evil evil\n{all_slices} evil\n", "fleet 1\ngrid east evil\n", f"fleet 1\ngrid east evil\n{all_slices} east\nmoves 901 5-4 east east\n"):
            self.put(".fleet", text, where=("--config", "east.ini"))
            for words in (["get", "hello"], ["ls"], ["sweep"]):
                self.assertIn("the fleet's copy of the map is passed over: .fleet: ", self.client(*words))
        self.put(".fleet", f"fleet 1\ngrid east evil\ngrid west evil\n{all_slices} east\n", where=("--config", "east.ini"))
        self.assertEqual(self.client("get", "hello"), "hello")
        self.assertFalse(os.path.exists("was.run"))
        self.assertIn("which gridfs-fleet puts", self.put(".fleet", "x", status=2))
        self.put(".fleet", "x", where=("--config", "east.ini"))
        self.client("rm", ".fleet")
        self.assertEqual(self.client("get", "hello"), "hello")

    def test_a_grid_that_has_names(self):
        self.put("hello", "hello", where=("--config", "west.ini"))
        self.assertIn("west: it has names already, 'hello' is one", self.fleet("add", "west", "west.ini", status=2))
        self.put("mine", "mine")
        self.assertIn("again: it has names already, 'mine' is one", self.fleet("add", "again", "east.ini", status=2))
        self.assertIn("1 names", self.fleet("status"))

    def test_two_settings_of_one_grid(self):
        """While it has no names yet."""
        self.fleet("add", "west", "east.ini")
        for number in range(20):
            self.put(f"name {number}", str(number))
        with open("map") as before:
            text = before.read()
        self.assertIn("the settings of east and of west lead to the same grid", self.fleet("spread", status=2))
        self.assertEqual([self.client("get", f"name {number}") for number in range(20)], list(map(str, range(20))))
        with open("map") as after:
            self.assertEqual(after.read(), text)

    def test_a_grid_without_room(self):
        """A move that finds no room is taken back, and its slices go to a grid with room."""
        plan = "grid 1 1\nroom 100000\ntenant carol 40000 4 1000 1024\ngo\n" + "carol open 8 4\n" * 2 + "carol open 1 1\ncarol chunks 4000\n"
        with open("plan", "w") as out:
            out.write(plan)
        os.symlink(os.path.join(self.enterContext(stand_in("plan")), "carol.ini"), "small.ini")
        self.fleet("add", "small", "small.ini")
        held = {f"a name that is somewhat long {number}": str(number) for number in range(24)}
        for name, text in held.items():
            self.put(name, text)
        self.assertIn("has no room", self.fleet("move", "0-65535", "small", status=3))
        found = [name for name in held if "has no room" not in self.put(name, "new", status=mock.ANY)]
        held |= dict.fromkeys(found, "new")
        self.assertTrue(0 < len(found) < 24)
        self.fleet("add", "west", "west.ini")
        self.assertIn("move 1 has some of these slices", self.fleet("move", "0-65535", "west", status=2))
        told = self.fleet("move", "0-65535", "east")
        self.assertIn("move 2: slices 0-65535 from small to east", told)
        self.assertIn("move 2: ended", told)
        self.fleet("move", "0-65535", "west")
        self.assertIn("west: 65536 slices", self.fleet("status"))
        self.assertEqual({name: self.client("get", name) for name in held}, held)

    def test_a_copy_of_the_map(self):
        """A machine with a copy from before a move can't move what that took away; one with a link to the map has the map."""
        self.fleet("add", "west", "west.ini")
        shutil.copy("map", "copy")
        os.symlink("map", "link")
        for number in range(20):
            self.put(f"name {number}", str(number))
        self.fleet("spread", map="link")
        self.assertTrue(os.path.islink("link"))
        os.symlink(os.path.join(self.enterContext(stand_in()), "carol.ini"), "north.ini")
        for file in ("map", "copy"):
            self.fleet("add", "north", "north.ini", map=file)
        with open("copy") as before, open("map") as now:
            text = before.read()
            self.assertNotEqual(now.read(), text)
        for words in (["spread"], ["move", "65000-65535", "west"]):
            self.assertIn("the map is older than move 1", self.fleet(*words, map="copy", status=2))
            with open("copy") as after:
                self.assertEqual(after.read(), text)
        for where in ("map", "copy", "link"):
            self.assertEqual([self.client("get", f"name {number}", where=("--map", where)) for number in range(20)], list(map(str, range(20))))


    def spread(self, count):
        """Names at both grids, with their contents; some of these stand in chunks."""
        self.fleet("add", "west", "west.ini")
        self.fleet("spread")
        held = {f"folder/name {number}": f"{number} " * (1 + 40 * (number % 3)) for number in range(count)}
        for name, text in held.items():
            self.put(name, text)
        return held

    def files_in(self, folder):
        found = {}
        for inside, _, names in os.walk(folder):
            for name in names:
                with open(os.path.join(inside, name)) as file:
                    found[os.path.relpath(os.path.join(inside, name), folder)] = file.read()
        return found

    def test_mirror(self):
        """A backup of all grids, brought up to date and put back: by a map from before the last move too. The fleet's own copy of its map stays what it is."""
        held = self.spread(24)
        self.assertIn("got 24, removed 0; 0 the same", self.client("mirror", "grid:", "backup"))
        self.assertEqual(self.files_in("backup"), held)
        shutil.copy("map", "older")
        self.fleet("move", "40000-50000", "east")
        self.put("folder/name 3", "another")
        self.client("rm", "folder/name 5")
        held |= {"folder/name 3": "another"}
        del held["folder/name 5"]
        self.assertIn("would get 1, remove 1; 22 the same", self.client("mirror", "--dry-run", "--delete", "grid:", "backup", where=("--map", "older")))
        self.assertIn("got 1, removed 1; 22 the same", self.client("mirror", "--delete", "grid:", "backup", where=("--map", "older")))
        self.assertEqual(self.files_in("backup"), held)
        self.assertIn("removed 23", self.client("rm", "-r", "folder"))
        self.assertNotIn("folder/", self.client("ls"))
        for file, text in ((".fleet", "x"), ("folder/name 3", "the last")):
            with open(f"backup/{file}", "w") as out:
                out.write(text)
        told = self.client("mirror", "--delete", "backup", "grid:", status=2)
        self.assertIn("skipped backup/.fleet: .fleet: the fleet's copy of its map", told)
        self.assertIn("put 23, removed 0; 0 the same", told)
        self.assertEqual({name: self.client("get", name) for name in held}, held | {"folder/name 3": "the last"})
        self.assertIn("grid:nothing/: no name begins so", self.client("mirror", "grid:nothing", "empty", status=1))

    def test_status(self):
        self.spread(12)
        told = json.loads(self.client("status", "--json"))
        self.assertEqual(set(told["grids"]), {"east", "west"})
        each = [told["grids"][label] for label in ("east", "west")]
        self.assertTrue(all(grid["goes_on"] and grid["names"] for grid in each), told)
        self.assertEqual(told["names"], sum(grid["names"] for grid in each))
        self.assertEqual(told["bytes"]["free"], sum(grid["bytes"]["free"] for grid in each))
        self.assertIn(f"all: {told['names']} names, ", self.client("status"))
        os.unlink("west.ini")
        with open("west.ini", "w") as out:
            out.write(SETTINGS)
        told = self.client("status", status=6)
        self.assertIn("west:\n  names, pages, bytes: left out: none: No such file or directory", told)
        self.assertIn("not all is told: west: none: No such file or directory", told)


if __name__ == "__main__":
    unittest.main()
