"""The index of a gateway: what it tells of random pages, as they come and go; where it is right with nobody asked; what a later process takes from it; and looks
for all who want one."""

import asyncio
import collections
import contextlib
import io
import os
import random
import sqlite3
import sys
import tempfile
import threading
import time
import types
import unittest
from unittest import mock

sys.path.insert(0, os.path.dirname(os.path.abspath(__file__)))
import code_of_s3  # noqa: F401  (which says where the code is)

from busy import longer
from gridfs_client.answers import Tag
from gridfs_client.contents import InChunks, Inline, digest_of
from gridfs_client.core import Copied, Known, Line, Page, Signpost
from gridfs_client.errors import CarrierFault, Damaged, NoRoom, Unanswered
from gridfs_client.pages import text_of
from gridfs_client.runs import Run
from gridfs_s3 import looker, sweeping
from gridfs_s3.all_pages import AllPages
from gridfs_s3.errors import S3Error
from gridfs_s3.gateway import Gateway
from gridfs_s3.grids import Grids
from gridfs_s3.index import MAGIC, Few, Index, NotOurs, Union, line_in
from gridfs_s3.later import later_page, whole
from gridfs_s3.listing import Cut, latest_of
from gridfs_s3.places import KEYS, to_words
from gridfs_s3.sessions import Pool

SESSIONS, PAGES = 3, 2
KEYS_OF_NAMES = ["a", "ab", "a/b", "a/", "ü", "b", "b/c/d", "\x01", "z z", "5"]


def name_of(key):
    return f"b/{key}" if not key.endswith("/") and key.isprintable() else f"{KEYS}b/{digest_of(key.encode())}"


class Grid:
    """Pages of one grid as its sessions write them: each puts or removes a name, and lets go what another session shows a greater line of, now and then."""

    def __init__(self, draw, index, grid=""):
        self.draw, self.index, self.grid = draw, index, grid
        self.number = {page: 0 for page in range(PAGES)}
        self.pages = {(page, session): Page() for page in range(PAGES) for session in range(1, SESSIONS + 1)}
        self.tags = dict.fromkeys(self.pages, 0)
        self.history = []  # what the index was told of, once or more

    def held(self):
        """The greatest line of each name: what it holds, where that is something."""
        found = {}
        for (_, session), page in self.pages.items():
            for line in page.lines:
                copied = line.copied
                version = (line.version, copied.session, copied.grid, copied.move) if copied else (line.version, session, self.grid, 0)
                found[line.name] = max(found.get(line.name, (version, line)), (version, line), key=lambda pair: pair[0])
        return found

    def may_go(self, line, page, session, shown):
        """Whether a greater line is shown, or it is a removal of what no other page shows."""
        if shown[line.name][1] is not line:
            return True
        return line.content is None and not any(other.shown(line.name) for (at, each), other in self.pages.items() if (at, each) != (page, session))

    def change(self, copy=None):
        key = self.draw.choice(KEYS_OF_NAMES)
        name = copy.name if copy else name_of(key)
        page, session = len(name) % PAGES, self.draw.randrange(1, SESSIONS + 1)
        # (two sessions that don't see each other choose one number)
        self.number[page] += self.pages[page, session].number >= self.number[page] or self.draw.random() < 0.6
        number = max(self.number[page], copy.version if copy else 0)
        self.number[page] = number
        lines = [line for line in self.pages[page, session].lines if line.name != name]
        if not copy:
            values = {"t": str(number), "k": key} if name.startswith(KEYS) else {"t": str(number)}
            copy = Line(name, number, None if self.draw.random() < 0.4 else Inline(bytes(self.draw.randrange(9))), to_words(values))
            if copy.content is None:
                copy = Line(name, number, None)
        lines.append(copy)
        shown = self.held() | {name: ((number, session, self.grid, 0), copy)}
        lines = [line for line in lines if line is copy or not self.may_go(line, page, session, shown) or self.draw.random() < 0.5]
        self.pages[page, session] = Page(tuple(lines), (), number)
        self.tags[page, session] += 1
        known = Known(Tag(self.tags[page, session], session), self.pages[page, session])
        self.history.append((page, session, known))
        self.index.keep(page, session, known)
        if self.draw.random() < 0.3:
            self.index.keep(*self.draw.choice(self.history))  # (who was slow tells of it late)


def right(grids):
    """What names hold, over these grids, as rows that a listing is to tell: key, size and time."""
    lines = {}
    for grid in grids:
        for name, (version, line) in grid.held().items():
            lines[name] = max(lines.get(name, (version, line)), (version, line), key=lambda pair: pair[0])
    keys = {name_of(key): f"b/{key}" for key in KEYS_OF_NAMES}
    return sorted((keys[name].encode(), line.content.size, line.version) for name, (_, line) in lines.items() if line.content)


def told(names):
    cut = Cut(names, "b", "", "", "", 1_000, latest_of)
    return [(f"b/{row.key}".encode(), row.size, row.time) for row in cut.rows]


class Pages(unittest.TestCase):
    def test_random_pages(self):
        for seed in range(25):
            draw, index = random.Random(seed), Index()
            grid = Grid(draw, index)
            for _ in range(60):
                grid.change()
                self.assertEqual(told(index), right([grid]), seed)
                for key in KEYS_OF_NAMES:
                    name = name_of(key)
                    found, wanted = index.greatest(len(name) % PAGES, name), grid.held().get(name)
                    self.assertEqual(found and found.line, wanted and wanted[1])
            lines = sum(len(page.lines) for page in grid.pages.values())
            self.assertEqual(index.base.execute("select count(*) from rows where name = ''").fetchone(), (lines,))
            for each in grid.pages:
                if grid.tags[each]:
                    self.assertEqual(index.known(*each).page, grid.pages[each])
                    self.assertEqual(index.tag(*each), Tag(grid.tags[each], each[1]))
            for session in range(1, SESSIONS + 1):
                self.assertEqual(list(index.pages_of(session)), [grid.pages[page, session] for page in range(PAGES) if grid.tags[page, session]])

    def test_several_grids(self):
        """A copy is greater than what it is a copy of, and less than what comes after."""
        for seed in range(25):
            draw = random.Random(seed)
            east, west = (Grid(draw, Index(grid=grid), grid) for grid in ("east", "west"))
            both = Union([east.index, west.index])
            for _ in range(40):
                if draw.random() < 0.5:
                    east.change()
                elif east.held():
                    (number, session, grid, move), line = draw.choice(sorted(east.held().values(), key=lambda pair: pair[0]))
                    if line.name not in west.held():
                        west.change(Line(line.name, line.version, line.content, line.words, Copied(session, grid, 1, number)))
                    else:
                        west.change()
                self.assertEqual(told(both), right([east, west]), seed)

    def test_a_later_process(self):
        with tempfile.TemporaryDirectory() as folder:
            path = os.path.join(folder, "index")
            index = Index(path)
            grid = Grid(random.Random(7), index)
            for _ in range(50):
                grid.change()
            index.say("grid", "word")
            self.assertEqual({os.stat(each).st_mode & 0o777 for each in os.scandir(folder)}, {0o600})
            index.close()
            with self.assertRaisesRegex(sqlite3.OperationalError, "No such file"):
                Index(os.path.join(folder, "nowhere", "index"))
            later = Index(path)
            self.assertEqual((told(later), later.tags, later.about("grid")), (right([grid]), index.tags, "word"))
            grid.index = later
            for _ in range(50):
                grid.change()
                self.assertEqual(told(later), right([grid]))
            later.forget()
            self.assertEqual((told(later), later.tags, later.about("grid"), later.known(0, 1)), ([], {}, "", None))
            later.close()

    def test_a_file_that_is_none(self):
        """What is something else is somebody's, and stays as it is; one that is empty, or of another form, is begun anew. One that another gateway has is left to it."""
        known = Known(Tag(1, 1), Page((Line("b/a", 1, Inline(b"")),), (), 1))
        with tempfile.TemporaryDirectory() as folder:
            path = os.path.join(folder, "index")
            with contextlib.closing(sqlite3.connect(path)) as base, base:
                base.execute("create table customers (name text)")
                base.execute("pragma user_version = 1")
            with open(path, "rb") as file:
                of_others = file.read()
            for text in (of_others, b"[gridfs]\ntenant = carol\n", b"x", b"no index\n" * 999, MAGIC + b"\xff" * 9_000):
                with open(path, "wb") as out:
                    out.write(text)
                with self.assertRaisesRegex(NotOurs, "no index of a gateway"):
                    Index(path)
                with open(path, "rb") as file:
                    self.assertEqual(file.read(), text)
                self.assertEqual(os.listdir(folder), ["index"])
            for text in (b"", bytes(8_192)):
                with open(path, "wb") as out:
                    out.write(text)
                index = Index(path)
                index.keep(0, 1, known)
                with self.assertRaisesRegex(sqlite3.OperationalError, "locked"):
                    Index(path)
                index.close()
            with contextlib.closing(sqlite3.connect(path)) as base:
                base.execute("pragma user_version = 99")
            later = Index(path)
            self.assertEqual((later.tags, told(later)), ({}, []))
            later.close()
            with contextlib.closing(sqlite3.connect(path)) as base, base:
                base.execute("drop table pages")
                base.execute("create table pages (place integer primary key, number integer, session integer, text blob)")
                base.execute("pragma application_id = 0")
                base.execute("pragma user_version = 1")
            self.assertEqual(Index(path).tags, {})  # (of an older gateway)

    def test_damage(self):
        """An index of which some blocks are as they were, or something else, tells what was written, or is begun anew."""
        counts = collections.Counter()
        with tempfile.TemporaryDirectory() as folder:
            path = os.path.join(folder, "index")
            for seed in range(16):
                draw, index = random.Random(seed), Index(path)
                grid = Grid(draw, index)
                for _ in range(30):
                    grid.change()
                index.close()
                with open(path, "rb") as file:
                    before = file.read()
                grid.index = index = Index(path)
                for _ in range(40):
                    grid.change()
                right, tags = told(index), dict(index.tags)
                index.close()
                with open(path, "r+b") as file:
                    now = file.read()
                    for at in range(0, len(now), 4_096):
                        old = before[at : at + 4_096] if seed % 2 else draw.randbytes(4_096)
                        if at and old and old != now[at : at + 4_096] and draw.random() < 0.3:
                            file.seek(at)
                            file.write(old)
                            counts["damaged"] += 1
                later = Index(path)
                counts["anew" if not later.tags else "kept"] += 1
                self.assertIn((told(later), later.tags), [(right, tags), ([], {})], seed)
                later.close()
                for name in os.listdir(folder):
                    os.unlink(os.path.join(folder, name))
        self.assertGreater(min(counts["damaged"], counts["anew"]), 5, counts)

    def test_damage_amid_work(self):
        """It is begun anew, in memory; whoever asked is told to ask again."""
        with tempfile.TemporaryDirectory() as folder:
            index = Index(os.path.join(folder, "index"))
            grid = Grid(random.Random(3), index)
            for _ in range(30):
                grid.change()
            index.recent.clear()
            index.base.execute("update pages set text = cast(substr(text, 1, length(text) - 1) || 'x' as blob)")
            place = next(iter(index.tags))
            with self.assertRaisesRegex(S3Error, "begun anew"):
                index.known(*place)
            self.assertEqual((index.tags, told(index), index.beginnings), ({}, [], 1))
            index.keep(0, 1, Known(Tag(1, 1), Page((Line("b/a", 1, Inline(b"")),), (), 1)))
            self.assertEqual(len(told(index)), 1)

    def test_a_line_in_a_text(self):
        lines = (Line("x 5", 1, Inline(b"a")), Line("5", 2, Inline(b"b")), Line("x x 5", 3, None))
        text = text_of(Page(lines, (7, 5), 5))
        self.assertEqual([line_in(text, name) for name in ("x 5", "5", "x x 5", "x", "y")], [*lines, None, None])
        self.assertIsNone(line_in(text_of(Page((), (), 5)), "5"))
        self.assertIsNone(line_in(b"", "5"))

    def test_pages_that_are_read_later(self):
        """They say what pages say that are read at once, whatever is asked first."""
        draw, contents = random.Random(5), [None, Inline(b""), Inline(b"x" * 9), InChunks(9, "A" * 43, (Run(0, 1, 7),)), InChunks(9, "A" * 43, (Run(0, 1, 7, 2),))]
        names = ["a", "x - y", "- 1", "@ b", "ü", "5", "1 @ 2"]
        asks = [
            lambda page: page.removals(), lambda page: sorted(page.by_name), lambda page: [page.shown(name) for name in [*names, "z"]], lambda page: page.lines,
            lambda page: page.in_chunks(), lambda page: sorted(line.version for line in page.by_name.values()), lambda page: page.without(Page()).lines, lambda page: (page.number, page.after, page.signposts),
            lambda page: text_of(page), lambda page: list(page.by_name.items()) and {name: page.by_name.get(name) for name in names},
        ]  # fmt: skip
        for turn in range(300):
            lines = tuple(Line(name, draw.randrange(1, 99), draw.choice(contents), draw.choice(("", "t=5"))) for name in draw.sample(names, draw.randrange(len(names) + 1)))
            page = Page(lines, draw.choice(((), (0, 7))), 99, (Signpost(1, 0, 9, "west"),) if turn % 10 == 0 else ())
            found = later_page(text_of(page))
            for ask in draw.sample(asks, len(asks)):
                self.assertEqual(ask(found), ask(page))
            self.assertEqual((found, hash(found), whole(found)), (page, hash(page), page))
        with self.assertRaises(Damaged):
            later_page(b"no page\n")
        with self.assertRaises(ValueError):
            later_page(b"names 2 1\n01 @ a\n").shown("a")

    def test_what_pages_ask_for(self):
        index = Index()
        index.keep(0, 1, Known(Tag(1, 1), Page((), (0, 4), 3)))
        self.assertEqual(index.open, {0})
        index.keep(1, 2, Known(Tag(1, 2), Page((), (), 4)))
        self.assertEqual(index.open, {0})
        index.keep(0, 2, Known(Tag(1, 2), Page((), (), 4)))
        self.assertEqual(index.open, set())

    def test_signposts(self):
        with tempfile.TemporaryDirectory() as folder:
            index = Index(os.path.join(folder, "index"), "east")
            index.keep(0, 1, Known(Tag(1, 1), Page((), (), 3, (Signpost(1, 0, 9, "west"),))))
            self.assertEqual(index.leads, {"west"})
            index.close()
            self.assertEqual(Index(os.path.join(folder, "index"), "east").leads, {"west"})

    def test_memory(self):
        """Few pages are kept as they were read."""
        index = Index()
        for number in range(4_000):
            lines = tuple(Line(f"b/{number}/{each}", 1, Inline(b"x" * 30)) for each in range(40))
            index.keep(number, 1, Known(Tag(1, 1), Page(lines, (), 1)))
        self.assertLess(len(index.recent), 3_000)
        self.assertEqual(index.total("b/"), (160_000, 4_800_000))


    def test_a_full_disk(self):
        """It goes on in memory, and knows nothing of before: so nobody takes a page to be there that is not."""
        for path in (None, "index"):
            with tempfile.TemporaryDirectory() as folder:
                index = Index(path and os.path.join(folder, path))
                index.base.execute("commit")
                index.base.execute("pragma max_page_count = 12")
                index.base.execute("begin")
                grid, told_of = Grid(random.Random(3), index), io.StringIO()
                lines = tuple(Line(f"b/long/{each}", 1, Inline(b"x" * 1_000)) for each in range(100))
                grid.change()
                self.assertEqual(told(index), right([grid]))
                with contextlib.redirect_stderr(told_of):
                    index.keep(7, 1, Known(Tag(1, 1), Page(lines, (), 1)))
                self.assertIn("in memory from now on", told_of.getvalue())
                self.assertEqual((index.beginnings, index.is_kept, list(index.tags), len(told(index))), (1, False, [(7, 1)], 100))


class FewTests(unittest.TestCase):
    def test_no_names(self):
        self.assertEqual((told(Few([])), Few([]).has_any(""), Few([]).total("")), ([], False, (0, 0)))


def pages_of(settled, looks):
    """All pages, of sessions that have settled these, each with what a look does."""
    layout = types.SimpleNamespace(levels=[types.SimpleNamespace(page_volumes=range(len(looks)))], pages=len(looks), pages_in=lambda volume: range(volume, volume + 1), page=lambda _, page: (page, 0))
    pool = Pool.__new__(Pool)
    pool.layout, pool.sessions, pages = layout, len(settled), AllPages(pool, {})
    pool.shared = types.SimpleNamespace(index=types.SimpleNamespace(beginnings=0, open=set(), is_begun=lambda *_: True))
    writer = lambda pages: types.SimpleNamespace(has_settled_all=lambda: len(pages) == layout.pages)
    pool.workers = {number: types.SimpleNamespace(store=types.SimpleNamespace(settled=each, writer=writer(each)), is_silent=False, is_lent=False, settled_when_lent=()) for number, each in enumerate(settled, 1)}

    async def lease():
        return None

    async def find_sessions():
        return True

    async def run(worker, work, is_soon=False):
        await asyncio.sleep(0)
        return work(types.SimpleNamespace(look_at=lambda volumes: [looks[volume]() for volume in volumes]))

    pool.lease, pool.run, pages.find_sessions = lease, run, find_sessions
    return pages


class Looks(unittest.TestCase):
    def test_where_nobody_is_asked(self):
        everything = {0, 1, 2}
        for settled, is_exact, looked in [
            ([everything, everything], True, []), ([everything, {0, 2}], False, [1]), ([everything, set()], False, [0, 1, 2]), ([{1}, {1, 2}], False, [0, 2]),
        ]:  # fmt: skip
            found = []
            pages = pages_of(settled, [lambda each=each: found.append(each) for each in range(3)])
            self.assertEqual(pages.is_exact(), is_exact)
            asyncio.run(pages.look())
            self.assertEqual(sorted(found), looked)
            pages.pool.sessions += 1  # (another gateway has it)
            self.assertFalse(pages.is_exact())

    def test_who_comes_while_others_look(self):
        """A look that began before does not do; one for all who wait does."""
        value, seen, count = [0], {}, [0]

        async def work():
            pages = pages_of([set()], [lambda: (seen.update(value=value[0]), count.__setitem__(0, count[0] + 1))])

            async def listing():
                wanted = value[0]
                await pages.look()
                self.assertGreaterEqual(seen["value"], wanted)

            found = []
            for _ in range(30):
                found.append(asyncio.ensure_future(listing()))
                await asyncio.sleep(0)
                value[0] += 1
            await asyncio.gather(*found)

        asyncio.run(work())
        self.assertLess(count[0], 30)

    def test_a_line_that_goes_while_others_look(self):
        """A line went from a page because of another one, which comes into the index behind that: a listing that met this begins anew."""
        index, name, asked = Index(), name_of("a"), []
        old, new = (Line(name, version, Inline(b"x")) for version in (1, 2))
        index.keep(0, 1, Known(Tag(1, 1), Page((old,), (), 1)))

        async def look():
            if asked:
                index.keep(0, 2, Known(Tag(2, 2), Page((new,), (), 2)))
            asked.append("look")

        def listing(names):
            index.keep(0, 1, Known(Tag(3, 1), Page((), (0, 2), 3)))  # (somebody else read it)
            asked.append(names.has_any("b/"))
            return asked[-1]

        async def work():
            pages = types.SimpleNamespace(is_exact=lambda: False, look=look)
            pool = types.SimpleNamespace(all_pages=pages, loop=asyncio.get_running_loop(), threads=None, shared=types.SimpleNamespace(index=index))
            return await Gateway.listing_by(Gateway.__new__(Gateway), pool, listing)

        self.assertTrue(asyncio.run(work()))
        self.assertEqual(asked, ["look", False, "look", True])

    def test_a_look_that_fails(self):
        """It is nobody else's: who waited looks himself."""
        faults, count = [None, *[Unanswered("silent")] * 3], [0]

        def look():
            count[0] += 1
            if faults and (fault := faults.pop(0)):
                raise fault

        async def work():
            pages = pages_of([set()], [look])
            return await asyncio.gather(*(pages.look() for _ in range(3)), return_exceptions=True)

        told = asyncio.run(work())
        self.assertEqual([type(each) for each in told], [type(None), Unanswered, type(None)])
        self.assertEqual(count[0], 5)

    def test_several_grids(self):
        """Nobody is asked where all grids are settled, no move is under way, and no signpost leads to a grid that the map lacks."""
        pool = lambda is_exact, *leads: types.SimpleNamespace(all_pages=types.SimpleNamespace(is_exact=lambda: is_exact), shared=types.SimpleNamespace(index=types.SimpleNamespace(leads=set(leads))))
        for east, west, moves, is_exact in [
            (pool(True), pool(True), (), True), (pool(True, "west"), pool(True, "east"), (), True), (pool(True, "north"), pool(True), (), False),
            (pool(True), pool(False), (), False), (pool(True), pool(True), ("a move",), False),
        ]:  # fmt: skip
            grids = Grids.__new__(Grids)
            grids.pools, grids.map = {"east": east, "west": west}, types.SimpleNamespace(moves=moves)
            self.assertEqual(grids.is_exact(), is_exact)

    def test_a_silent_home(self):
        faults = [Unanswered("silent")] * 2

        def look():
            if faults:
                raise faults.pop()

        asyncio.run(pages_of([set()], [look]).look())
        faults = [Unanswered("silent")] * 3
        with self.assertRaises(Unanswered):
            asyncio.run(pages_of([set()], [look]).look())


class Waiting(list):
    """Those who wait, and how often it was looked whether there are any."""

    looks = 0

    def __bool__(self):
        self.looks += 1
        return len(self) > 0


async def until(is_so):
    end = time.monotonic() + longer(5)
    while not is_so() and time.monotonic() < end:
        await asyncio.sleep(0.01)


class Swept(unittest.TestCase):
    """Chunks that nobody names, of a session whose store is asked for a sweep of three parts."""

    def setUp(self):
        self.done = []
        self.enterContext(mock.patch.object(sweeping, "begin", lambda store: store.sweep))

    def sweeps(self):
        pool = pages_of([{0}], []).pool
        parts = lambda: (self.done.append("part") for _ in range(3))
        forget = lambda: self.done.append("forgotten") or 5
        pool.workers[1].store.sweep = types.SimpleNamespace(parts=parts, forget=forget)
        pool.workers[1].is_busy = False
        pool.waiting, pool.threads, pool.tasks, found = [], None, set(), sweeping.Sweeps(pool)
        found.unswept = {1}
        pool.loop = asyncio.get_running_loop()
        lease, run = pool.lease, pool.run

        async def run(worker, work):
            return work(pool.workers[1].store)

        pool.lease, pool.run = lambda _: lease(), run
        return found

    def test_while_nobody_waits(self):
        async def work():
            found = self.sweeps()
            pool = found.pool
            pool.workers[1].is_busy = True
            task = pool.spawn(found.sweep(60))
            await until(lambda: self.done)
            await asyncio.sleep(0.1)
            self.assertEqual(self.done, ["part"])
            pool.workers[1].is_busy, pool.waiting = False, Waiting(["somebody"])
            await until(lambda: pool.waiting.looks > 1 or len(self.done) > 1)
            self.assertEqual(self.done, ["part"])
            # Who finds no room waits for what is under way, which waits for nobody then.
            self.assertTrue(await found.found_room())
            self.assertEqual(self.done, [*["part"] * 3, "forgotten"])
            self.assertFalse(await found.found_room())
            await task
            # Not again, unless somebody died since, and not soon.
            found.unswept, pool.waiting = {1}, []
            await found.sweep(60)
            self.assertEqual((len(self.done), found.unswept), (4, {1}))
            await found.sweep(0)
            self.assertEqual((len(self.done), found.unswept, found.freed), (8, set(), 10))

        asyncio.run(work())

    def test_a_put_that_finds_none(self):
        """It is tried once more where some was found, and else told at once."""

        class Taken:
            pool = types.SimpleNamespace(sweeps=types.SimpleNamespace())

            async def run(self, work, is_soon):
                return work()

        async def taken(_):
            return Taken()

        async def found():
            asked.append("room")
            return has_found

        gateway = Gateway.__new__(Gateway)
        gateway.grids, gateway.take, Taken.pool.sweeps.found_room = types.SimpleNamespace(pools_of=lambda _: []), taken, found
        for has_found, faults, tries in ((True, 1, 2), (True, 2, 2), (False, 1, 1)):
            left, asked, done = [NoRoom("none")] * faults, [], []

            def put():
                done.append("put")
                if left:
                    raise left.pop()

            with contextlib.nullcontext() if faults < tries else self.assertRaises(NoRoom):
                asyncio.run(gateway.change("b/a", put))
            self.assertEqual((len(done), asked), (tries, ["room"]))

    def test_a_session_that_is_renewed(self):
        """A command may have had it, and moved what it names: nothing is forgotten."""

        async def work():
            found = self.sweeps()
            pool = found.pool
            pool.workers[1].is_busy = True
            task = pool.spawn(found.sweep(60))
            await asyncio.sleep(0.05)
            pool.workers[1].store = types.SimpleNamespace(**vars(pool.workers[1].store))
            pool.workers[1].is_busy = False
            await task
            self.assertEqual((self.done, found.unswept, found.swept_at), (["part"] * 3, {1}, {}))
            pool.workers[1].is_lent = True
            await found.sweep(0)
            self.assertEqual(len(self.done), 3)

        asyncio.run(work())


class Together(unittest.TestCase):
    """Looks for all who want one: what is told was seen once it was asked for."""

    def setUp(self):
        self.values, self.looks = {0: 0, 1: 0}, []
        self.begun, self.may_end = threading.Semaphore(0), threading.Semaphore(0)

        def looked_at(_, files, __):
            self.looks.append({volume: set(some) for volume, some in files.items()})
            seen = dict(self.values)
            self.begun.release()
            self.may_end.acquire(timeout=20)
            return {volume: types.SimpleNamespace(rows=[seen[volume]], left=set(), files=1) for volume in files}

        self.enterContext(mock.patch.object(looker, "looked_at", looked_at))

    async def begins(self):
        await asyncio.get_running_loop().run_in_executor(None, self.begun.acquire)

    def looker(self):
        found = looker.Looker(asyncio.get_running_loop(), lambda: True, lambda: 1e6)
        self.addCleanup(found.close)
        return found

    def test_who_comes_while_others_look(self):
        """A look that had begun does not do; one for all who wait does, whichever volumes these want."""

        async def work():
            one = self.looker()
            first = one.rows(0, [1])
            await self.begins()
            self.values.update({0: 5, 1: 6})
            others = [one.rows(0, [2]), one.rows(1, [3]), one.rows(0, [4])]
            self.may_end.release(2)
            self.assertEqual([await each for each in (first, *others)], [(0,), (5,), (6,), (5,)])
            self.assertEqual(self.looks, [{0: {1}}, {0: {2, 4}, 1: {3}}])

        asyncio.run(work())

    def test_threads(self):
        """One that is alone looks by itself; those that come meanwhile do not take what it sees."""

        async def work():
            one, loop = self.looker(), asyncio.get_running_loop()
            first = loop.run_in_executor(None, one.rows_at_once, 0, [1])
            await self.begins()
            self.values[0] = 5
            others = [loop.run_in_executor(None, one.rows_at_once, 0, [each]) for each in (2, 3)]
            await self.begins()
            self.values[0] = 7
            self.may_end.release(9)
            self.assertEqual((await first, {await each for each in others} - {(5,), (7,)}), ((0,), set()))

        asyncio.run(work())

    def test_random(self):
        """Each is told a value that was there after it had asked."""

        async def work():
            one, told = self.looker(), []
            self.may_end.release(10_000)

            async def ask(volume):
                for _ in range(20):
                    wanted, self.values[volume] = self.values[volume], self.values[volume] + 1
                    (seen,) = await one.rows(volume, [0])
                    told.append(seen)
                    self.assertGreater(seen, wanted)

            await asyncio.gather(*(ask(each % 2) for each in range(12)))
            self.assertLess(len(self.looks), len(told))

        asyncio.run(work())

    def test_a_fault(self):
        """It is told to nobody but who lists the volume then; and the next look is as good as ever."""

        async def work():
            one = self.looker()
            self.may_end.release(9)
            for fault in (CarrierFault("gone"), KeyError("a bug")):
                with mock.patch.object(looker, "looked_at", side_effect=fault), mock.patch.object(looker, "error_of") as told:
                    self.assertIsNone(await one.rows(0, [1]))
                self.assertEqual(told.call_count, isinstance(fault, KeyError))
            self.assertEqual(await one.rows(0, [1]), (0,))

        asyncio.run(work())


if __name__ == "__main__":
    unittest.main()
