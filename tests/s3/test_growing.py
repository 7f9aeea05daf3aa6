"""Pages that split before a gateway: what its index tells of them, what it sees while another session grows, step by step, and what it does itself once a page is full."""

import asyncio
import os
import random
import signal
import subprocess
import sys
import tempfile
import time
import types
import unittest
from dataclasses import replace
from unittest import mock

HERE = os.path.dirname(os.path.abspath(__file__))
sys.path[:0] = [HERE, os.path.join(HERE, "..", "names")]
from busy import longer
import code_of_s3  # noqa: F401  (which says where the code is)
import endpoint
from bodies_in_memory import Body
from histories import Killed
from memory import Memory, MemorySession
from test_steps import client, content_of, put

from gridfs_client import BadSettings, Layout, Unanswered, splits
from gridfs_client.answers import Tag
from gridfs_client.contents import Inline
from gridfs_client.core import Known, Line, Page
from gridfs_client.fleet import ground_of
from gridfs_client.fleet_map import SLICES, new_map
from gridfs_client.pages import parse_page
from gridfs_client.settings import Settings
from gridfs_s3 import growing
from gridfs_s3.all_pages import AllPages
from gridfs_s3.index import Index
from gridfs_s3.shared import Shared
from gridfs_s3.store import Store
from gridfs_s3.trips import Trip

NAMES = [f"bucket/{number}" for number in range(12)]
SESSIONS = 3
GROWS = ["carol open 1 1", "carol open 64 64 times 4", "carol open 1 1"]  # more pages, in the plan of a stand-in
SMALL = ["grid 2 2", "room 3000000", "tenant carol 2900000 4 1000 16384", "go", "carol open 8 64 times 4", "carol open 64 64", "carol open 64 1024"]


class Pages:
    """Pages of a grid as their sessions write them, and an index that is told of them, now and then late or twice."""

    def __init__(self, draw, index):
        self.draw, self.index = draw, index
        self.layout = index.layout = Memory(sessions=SESSIONS, pages=2, levels=draw.choice(((2,), (3,), (2, 2)))).layout
        self.pages, self.tags, self.history, self.left = {}, {}, [], []

    def level(self, page):
        return self.layout.level_of(page)

    def has_split(self, page, session):
        return splits.is_split(self.pages.get((page, session), Page()), self.level(page) + 1)

    def counting(self, name, session):
        """The page that counts for a name."""
        found = self.layout.page_of(name)
        for level in range(1, len(self.layout.levels)):
            if (self.layout.page_of(name, level), session) in self.pages:
                found = self.layout.page_of(name, level)
        return found

    def lines(self):
        """Those that count, each with its session."""
        return [(line, session) for (page, session), each in self.pages.items() for line in each.lines if self.counting(line.name, session) == page]

    def held(self):
        found = {}
        for line, session in self.lines():
            found[line.name] = max(found.get(line.name, (0, 0, None)), (line.version, session, line), key=lambda each: each[:2])
        return {name: line for name, (_, _, line) in found.items() if line.content}

    def write(self, page, session, content, is_told=True):
        self.pages[page, session] = content
        self.tags[page, session] = self.tags.get((page, session), 0) + 1
        told = page, session, Known(Tag(self.tags[page, session], session), content)
        self.history.append(told)
        if is_told:
            self.index.keep(*told)
        if self.draw.random() < 0.2:
            self.index.keep(*self.draw.choice(self.history[:-1] or [told]))  # (who was slow tells of it late)

    def of(self, page, session):
        """A page, or what stands in its place as long as it was not written."""
        if (page, session) in self.pages:
            return self.pages[page, session]
        before = self.layout.before(page)
        return Page() if before is None else splits.part_of(self.of(before, session), lambda name: self.layout.page_of(name, self.level(page)) == page)

    def step(self):
        name, session = self.draw.choice(NAMES), self.draw.randrange(1, SESSIONS + 1)
        page, level = self.layout.page_of(name), 0
        while self.has_split(page, session):
            level += 1
            page = self.layout.page_of(name, level)
        kind = self.draw.choice(("put", "put", "put", "remove", "sign", "clear"))
        if kind == "sign" and level + 1 < len(self.layout.levels) and (page, session) in self.pages:
            content = self.pages[page, session]
            return self.write(page, session, splits.signed(content, level + 1), is_told=self.draw.random() < 0.7)
        if kind == "clear":
            return self.clear(session)
        self.change(page, session, name, kind == "put")

    def change(self, page, session, name, is_put):
        number = max((each.number for each in self.pages.values()), default=0) + 1
        line, shown = Line(name, number, Inline(b"x") if is_put else None), self.held()
        lines = [each for each in self.of(page, session).lines if each.name != name]
        # (what another session shows a greater line of may go)
        lines = [each for each in lines if shown.get(each.name, each) == each or self.draw.random() < 0.5]
        self.write(page, session, Page((*lines, line), (), number))

    def clear(self, session):
        """Lines go from a page that has split, once each stands in a new one; of which the index is told before."""
        for page, each in [(page, each) for page, each in self.pages if each == session and self.has_split(page, session) and self.pages[page, each].lines]:
            level = self.level(page) + 1
            for part in sorted({self.layout.page_of(line.name, level) for line in self.pages[page, each].lines}):
                if (part, session) not in self.pages:
                    self.write(part, session, self.of(part, session))
            self.write(page, session, splits.cleared(self.pages[page, session]))


class IndexOfPages(unittest.TestCase):
    def test_random_pages(self):
        """Each name is told once, as it is: by a listing, and where it is looked for alone."""
        for seed in range(40):
            index = Index()
            pages = Pages(random.Random(seed), index)
            for _ in range(60):
                pages.step()
                held = pages.held()
                self.assertEqual({row.name: row.order for row in index.names("")}.keys(), held.keys(), seed)
                for name in NAMES:
                    found = index.greatest(index.page_of(pages.layout, name), name)
                    self.assertEqual(found.line if found and found.line.content else None, held.get(name), seed)
            self.assertEqual(index.base.execute("select count(*) from rows where name = ''").fetchone(), (len(pages.lines()),))

    def test_a_later_process(self):
        """It knows which pages have split, and which of them have lines still."""
        for seed in range(12):
            with tempfile.TemporaryDirectory() as folder:
                path, draw = os.path.join(folder, "index"), random.Random(seed)
                pages = Pages(draw, Index(path))
                for turn in range(4):
                    for _ in range(20):
                        pages.step()
                    for page, session, known in pages.history:
                        pages.index.keep(page, session, known)
                    split, left, closed = pages.index.split, pages.index.not_cleared, {page: pages.index.is_closed(page) for page in pages.layout.page_numbers}
                    pages.index.close()
                    pages.index = Index(path)
                    pages.index.layout = pages.layout
                    self.assertEqual((pages.index.split, pages.index.not_cleared), (split, left), (seed, turn))
                    self.assertEqual({page: pages.index.is_closed(page) for page in pages.layout.page_numbers}, closed)
                    self.assertEqual({row.name for row in pages.index.names("")}, pages.held().keys())
                pages.index.close()

    def test_what_pages_ask_for(self):
        """A new page may ask for what an old one of another session says, or for what a new one does."""
        index = Index()
        layout = index.layout = Memory(sessions=2, levels=(2,)).layout
        name = next(name for name in NAMES if layout.page_of(name, 1) == 1)
        signed = splits.signed(Page((Line(name, 4, Inline(b"")),), (), 4), 1)
        index.keep(0, 1, Known(Tag(1, 1), signed))
        index.keep(1, 1, Known(Tag(1, 1), Page((), (0, 7), 8)))
        self.assertEqual((index.is_open(1), index.is_open(2)), (True, False))
        index.keep(0, 2, Known(Tag(1, 2), Page((), (), 7)))
        self.assertFalse(index.is_open(1))
        index.keep(1, 2, Known(Tag(1, 2), Page((), (9,), 9)))
        self.assertTrue(index.is_open(1))


def truth(memory):
    files = memory.client(3)
    return {entry.name: files.get(entry.name)[0] for entry in files.names()}


class Steps(unittest.TestCase):
    """Over registers: a gateway with sessions 1 and 2, while session 3 grows."""

    def filled(self, **words):
        memory, shared = Memory(**({"sessions": 3, "pages": 1, "page_blocks": 64, "slots": 24, "levels": (3,)} | words)), Shared()
        stores = [client(memory, number, shared=shared) for number in (1, 2)]
        for number, name in enumerate(NAMES):
            put(stores[number % 2], name, name.encode())
            if number % 3 == 0:
                memory.client(3).put(name, b"by another one")
        stores[0].look_at(memory.layout.all_pages_volumes)
        return memory, stores

    def listed(self, store):
        """A listing, by a look at all pages."""
        store.look_at(store.layout.all_pages_volumes)
        return {row.name for row in store.shared.index.names("")}

    def seen(self, store, memory, what):
        wanted = truth(memory)
        self.assertEqual(self.listed(store), wanted.keys(), what)
        held = {name: store.look(name) for name in NAMES}
        self.assertEqual({name: each.content.content for name, each in held.items() if each}, wanted, what)

    def test_at_each_step(self):
        """What it sees is right, by a look at all and at each name; a look at one name takes nothing from what the index has of others; and it puts and removes."""
        for kind in ("looks", "looks at one", "puts"):
            for step in range(1, 400):
                memory, (one, two) = self.filled(levels=(2, 2) if kind == "looks at one" else (3,))
                steps = []

                def amid(now, step=step, steps=steps, one=one, two=two, memory=memory, kind=kind):
                    if now == step:
                        steps.append(now)
                        if kind == "looks":
                            self.seen(one, memory, step)
                        elif kind == "looks at one":
                            one.look(NAMES[0])
                            self.assertEqual({row.name for row in one.shared.index.names("")}, truth(memory).keys(), step)
                        elif kind == "puts":
                            put(one, NAMES[1], b"amid")
                            two.delete(NAMES[2])
                            self.assertEqual(content_of(two, NAMES[1]), b"amid")

                memory.client(3, amid).grow()
                if kind == "looks at one":
                    one.look(NAMES[0])
                    self.assertEqual({row.name for row in one.shared.index.names("")}, truth(memory).keys(), step)
                for store in (one, two, client(memory, 1)):
                    self.seen(store, memory, (kind, step))
                if not steps:
                    break
            self.assertGreater(step, 10)

    def test_another_session(self):
        """One whose page has not split yet, as was seen, may have done so since, and have put."""
        memory, stores = self.filled(sessions=4)
        memory.client(3).grow()
        self.seen(stores[0], memory, "grown")
        memory.client(4).put(NAMES[5], b"by the fourth one")
        for store in stores:
            self.assertEqual(content_of(store, NAMES[5]), b"by the fourth one")
        self.seen(stores[1], memory, "put")

    def test_splits_wholly(self):
        """Each of its sessions does, once one has begun; and then no look is at the old pages, and no slower than before."""
        for levels in ((3,), (2, 2)):
            memory, stores = self.filled(levels=levels)
            memory.client(3).grow()
            stores[0].look_at(memory.layout.all_pages_volumes)
            while left := stores[0].shared.index.to_split(memory.layout):
                self.assertTrue(all(left.values()))
                for page, sessions in left.items():
                    for store in stores:
                        if store.me in sessions:
                            store.split(page)
            for store in stores:
                self.seen(store, memory, levels)
                memory.counts.clear()
                self.assertIsNotNone(store.look(NAMES[0]))
                self.assertEqual(dict(memory.counts), {"list": 1})
                put(store, NAMES[0], b"x")
                memory.counts.clear()
                put(store, NAMES[0], b"y")
                self.assertEqual(dict(memory.counts), {"list": 1, "write": 2})
            self.assertEqual(stores[0].shared.index.not_signed, set())  # (so what is left is found without a look at all that have split)
            for page in range(memory.layout.levels[-1].first):
                self.assertEqual(stores[0].shared.index.whole(page), {1, 2, 3})
                for session in (1, 2, 3):
                    self.assertEqual(parse_page(memory.read(memory.layout.page(session, page)).content, "").lines, ())

    def test_requests(self):
        """A page that nobody has begun to split is split by a look at it and one at each part, and what has to be written; then nothing is unsettled, as before."""
        memory, shared = Memory(sessions=2, pages=1, page_blocks=64, slots=24, levels=(3,)), Shared()
        stores = [client(memory, number, shared=shared) for number in (1, 2)]
        for store in stores:
            for page in memory.layout.page_numbers:
                store.settle(page)
            for name in NAMES:
                put(store, name, b"x")
        for store in stores:
            store.settle(0)
            memory.counts.clear()
            store.split(0)
            parts = len({memory.layout.page_of(name, 1) for name in NAMES})
            self.assertEqual(dict(memory.counts), {"list": 1 + parts, "write": 4 + 2 * parts})
            self.assertTrue(store.writer.has_settled_all())
        self.assertEqual({row.name for row in shared.index.names("")}, set(NAMES))

    def test_settled(self):
        """Once all pages are settled nothing of an earlier client comes into one, wherever that died as it split or put: listings need no look then."""
        for step in range(1, 400):
            memory = Memory(sessions=2, page_blocks=64, slots=24, levels=(2,))
            memory.client(2).put(NAMES[0], b"first")
            memory.client(1).put(NAMES[1], b"second")

            def dies(now, step=step):
                if now == step:
                    raise Killed

            try:
                earlier = memory.client(2, dies)
                earlier.put(NAMES[0], b"last")
                earlier.grow()
                earlier.put(NAMES[2], b"third")
            except Killed:
                pass
            else:
                break
            shared = Shared()
            stores = [client(memory, number, shared=shared) for number in (1, 2)]
            for store in stores:
                for page in memory.layout.page_numbers:
                    store.settle(page)
                    self.assertEqual(store.writer.has_settled_all(), set(store.writer.carried) == set(memory.layout.page_numbers), step)
                self.assertTrue(store.writer.has_settled_all(), step)
            before = {row.name: row.size for row in shared.index.names("")}
            memory.surface()
            self.assertEqual({name: len(content) for name, content in truth_by(memory, 1).items()}, before, step)
            for store in stores:
                memory.counts.clear()
                put(store, NAMES[3], b"x" * store.me)
                self.assertEqual({row.name: row.size for row in shared.index.names("")}, before | {NAMES[3]: store.me}, step)
        self.assertGreater(step, 20)

    def test_an_earlier_plan(self):
        """What was carried by a plan with fewer pages stays settled by a later one."""
        memory = Memory(sessions=1, page_blocks=64, slots=24, levels=(2,))
        whole, memory.layout = memory.layout, Layout(1, memory.layout.volumes[:3])
        one = client(memory)
        one.settle(0)
        put(one, NAMES[0], b"x")
        memory.layout = whole
        later = client(memory, shared=one.shared)
        later.writer.take_carried(one.writer.carried)
        self.assertTrue(later.writer.has_settled_all())
        later.writer.split(later.writer.bucket(0))
        self.assertTrue(later.writer.has_settled_all())
        self.assertEqual([row.name for row in later.shared.index.names("")], [NAMES[0]])
        with self.assertRaises(BadSettings):
            one.look(NAMES[0])

    def test_a_full_page(self):
        memory, shared = Memory(sessions=2, page_blocks=16, slots=2, levels=(4,)), Shared()
        one = client(memory, shared=shared)
        for page in memory.layout.page_numbers:
            one.settle(page)
            shared.swept[page] = float("inf")
        shared.may_grow = True
        for number in range(40):
            one.put_object(f"bucket/{number}", Body(b"x" * 20), lambda: {"m": "x"})
        self.assertTrue(splits.is_split(parse_page(memory.read(memory.layout.page(1, 0)).content, ""), 1))
        self.assertEqual(len(truth_by(memory, 1)), 40)
        self.assertEqual(len(shared.index.names("")), 40)
        self.assertTrue(one.writer.has_settled_all())


    def test_a_full_page_over_grids(self):
        """The page splits at the last grid of the way, to which a move has not come, and the trip goes on by its parts."""
        fleet_map = replace(new_map("east", "-"), grids={"east": "-", "west": "-"}).begun(0, SLICES - 1, "west")
        memories, stores = {}, {}
        for grid in fleet_map.grids:
            memories[grid], shared = Memory(sessions=2, page_blocks=16, slots=2, levels=(4,)), Shared()
            stores[grid] = Store(MemorySession(memories[grid], 1), memories[grid].layout, shared, ground_of(fleet_map, grid))
            shared.swept, shared.may_grow = dict.fromkeys(memories[grid].layout.page_numbers, float("inf")), True
        store = stores["east"]
        for number in range(40):
            store.trip = Trip(fleet_map, stores)
            store.put_object(f"bucket/{number}", Body(b"x" * 20), lambda: {"m": "x"})
        page = parse_page(memories["east"].read(memories["east"].layout.page(1, 0)).content, "")
        self.assertTrue(splits.is_split(page, 1))
        self.assertEqual([entry.name for entry in Trip(fleet_map, stores).names()], sorted(f"bucket/{number}" for number in range(40)))


class Looks(unittest.TestCase):
    def test_levels_one_after_another(self):
        """For a listing the new pages are looked at once all old ones were, of those that have split as was seen by then."""
        pool, told = types.SimpleNamespace(), []
        pool.layout = Memory(sessions=1, pages=2, levels=(2, 2)).layout
        first, second, third = (list(range(level.volume, level.volume + level.volumes)) for level in pool.layout.levels)
        index = Index()
        index.layout = pool.layout
        pool.shared, pool.sessions, pages = types.SimpleNamespace(index=index), 2, AllPages(pool, {})
        store = types.SimpleNamespace(settled=(), writer=types.SimpleNamespace(has_settled_all=lambda: False))
        pool.workers = {number: types.SimpleNamespace(store=store, is_silent=False, is_lent=False, settled_when_lent=()) for number in (1, 2)}

        async def lease():
            return None

        async def run(worker, work, is_soon=False):
            work(types.SimpleNamespace(look_at=told.append))
            await asyncio.sleep(0)
            if told[-1] == first:
                index.split[0] = {1}
            told.append("ended")

        async def find_sessions():
            return True

        pool.lease, pool.run, pages.find_sessions = lease, run, find_sessions
        asyncio.run(pages.look())
        new = [volume for volume in second if any(pool.layout.before(page) == 0 for page in pool.layout.pages_in(volume))]
        self.assertEqual(told, [first, "ended", new, "ended"])
        self.assertFalse(set(third) & set(new))


class Paces(unittest.TestCase):
    """By which sessions a page splits, and when."""

    sleep = staticmethod(asyncio.sleep)

    def growing(self, numbers=(1, 2, 3, 4, 5, 6), split=lambda number: None):
        pool, self.done, self.at_once, self.rests = types.SimpleNamespace(named=str), [], [], []
        pool.workers = {number: types.SimpleNamespace(number=number, is_lent=False, is_silent=False) for number in numbers}
        pool.asked, under_way = time.monotonic(), set()

        async def lease(number):
            return pool.workers[number]

        async def run(worker, work, is_soon):
            under_way.add(worker.number)
            self.at_once.append(len(under_way))
            await sleep(0.01)
            under_way.discard(worker.number)
            return work(types.SimpleNamespace(split=lambda page: self.done.append((worker.number, page)) or split(worker.number)))

        sleep = self.sleep
        self.enterContext(mock.patch.object(growing.asyncio, "sleep", lambda seconds: self.rests.append(seconds) or sleep(0)))
        self.enterContext(mock.patch.object(growing.time, "thread_time", iter(range(1_000)).__next__))
        pool.lease, pool.run = lease, run
        return growing.Growing(pool)

    def test_some_at_a_time(self):
        """Requests find a session; and who asks has as much of the processor, but nobody waits for one who is not there."""
        for numbers, most in (((1, 2, 3, 4, 5, 6), 2), ((1, 2, 3), 1), ((1,), 1)):
            found = self.growing(numbers)
            asyncio.run(found.split(7, set(range(1, 9))))
            self.assertEqual((self.done, max(self.at_once), self.rests), ([(number, 7) for number in numbers], most, [len(numbers)]))
            found.pool.asked -= growing.ASKS_FOR
            asyncio.run(found.split(8, {1}))
            self.assertEqual(self.rests, [len(numbers), 0])

    def test_those_that_can_not(self):
        """Sessions that are lent, or silent, or have it split already are passed over; of one that fails it is tried again later, and told."""

        def fails(number):
            if number == 2:
                raise Unanswered("none")

        found = self.growing(split=fails)
        found.pool.workers[1].is_lent = found.pool.workers[3].is_silent = True
        with mock.patch.object(growing, "tell") as told:
            asyncio.run(found.split(7, {1, 2, 3, 4}))
            asyncio.run(found.split(7, {1, 2, 3}))
        self.assertEqual((self.done, told.call_count), ([(2, 7), (4, 7)], 1))
        found.tried[2, 7] -= growing.AGAIN
        asyncio.run(found.split(7, {2}))
        self.assertEqual(self.done[2:], [(2, 7)])

    def test_one_that_is_lent_meanwhile(self):
        """Nobody waits for long until it comes back."""
        found = self.growing()

        async def lease(number):
            if number == 1:
                await asyncio.Event().wait()
            return found.pool.workers[number]

        found.pool.lease = lease
        with mock.patch.object(growing, "tell"), mock.patch.object(growing, "SPLIT_LEASE", 0.05):
            asyncio.run(asyncio.wait_for(found.split(7, {1, 2}), 10))
        self.assertEqual(self.done, [(2, 7)])

    def test_as_long_as_it_is_wanted(self):
        """All pages of all levels but the last split; no more once nobody waits, and then others may have the sessions."""
        found = self.growing((1, 2))
        found.pool.layout = Memory(sessions=2, pages=2, levels=(2, 2)).layout
        found.pool.shared = types.SimpleNamespace(index=types.SimpleNamespace(whole=lambda page: {2} if page == 1 else set()))
        for wanted, last in ((True, 6), (False, 1)):
            locks = {number: mock.Mock() for number in (1, 2)}
            every, found.locks, self.done[:] = list(locks.values()), locks, []
            pages = []

            async def split(page, whose, pages=pages, wanted=wanted):
                pages.append((page, set(whose)))
                if not wanted:
                    found.locks = None

            found.split = split
            asyncio.run(found.grow(locks))
            self.assertEqual(pages, [(page, {1} if page == 1 else {1, 2}) for page in range(last)])
            self.assertEqual(([lock.close.call_count for lock in every], locks), ([1, 1], {}))


def truth_by(memory, number):
    files = memory.client(number)
    return {entry.name: files.get(entry.name)[0] for entry in files.names()}


class Running(unittest.TestCase):
    def test_a_plan_that_grows(self):
        """A gateway whose pages are full takes more by a later plan while it runs: puts go on, all pages split wholly, and listings need no look at the end."""
        with tempfile.TemporaryDirectory() as room:
            plan, folder, processes = os.path.join(room, "plan"), os.path.join(room, "grid"), {}
            with open(plan, "w") as out:
                out.write("\n".join([*SMALL, ""]))
            with endpoint.stand_in(plan, folder, processes), endpoint.gateways(folder) as (found,):
                s3, put_until = found.client(), 0
                s3.create_bucket(Bucket="one")
                words = {"Bucket": "one", "Metadata": {"a": "x" * 800}}
                with self.assertRaises(s3.exceptions.ClientError) as fault:
                    for put_until in range(100):
                        s3.put_object(Key=f"{put_until:03}", Body=b"x" * put_until, **words)
                self.assertEqual(fault.exception.response["Error"]["Code"], "InsufficientStorage")
                with open(plan, "a") as out:
                    out.write("\n".join([*GROWS, ""]))
                processes[folder].send_signal(signal.SIGHUP)
                self.wait(lambda: "the plan has 12 volumes now" in found.told(), found)
                keys = [f"{number:03}" for number in range(put_until + 9)]
                for number, key in enumerate(keys[put_until:], put_until):
                    s3.put_object(Key=key, Body=b"x" * number, **words)
                    with self.subTest(key):
                        self.assertEqual({each["Key"]: each["Size"] for each in s3.list_objects_v2(Bucket="one")["Contents"]}, {each: int(each) for each in keys[: number + 1]})
                for key in keys:
                    self.assertEqual(s3.get_object(Bucket="one", Key=key)["Body"].read(), b"x" * int(key))

                def is_quiet():
                    s3.list_objects_v2(Bucket="one")
                    endpoint.counts(folder)
                    s3.list_objects_v2(Bucket="one")
                    return sum(endpoint.counts(folder).get(kind, 0) for kind in ("look", "list", "read")) <= 1

                def is_quick():
                    """A get takes one look, but for one at the bucket now and then."""
                    s3.get_object(Bucket="one", Key=keys[0])
                    endpoint.counts(folder)
                    for key in keys:
                        s3.get_object(Bucket="one", Key=key)
                    return endpoint.counts(folder).get("look", 0) < 1.4 * len(keys)

                self.wait(is_quiet, found)
                self.wait(is_quick, found)
                self.assertNotIn("Traceback", found.told())

    def test_grow(self):
        """A command waits while gateways have their pages split, and finds them split. Until then one that has all sessions keeps these, and its listings ask nobody."""
        for gateways in (("all",), ("1-2", "3-4")):
            with tempfile.TemporaryDirectory() as room:
                plan, folder = os.path.join(room, "plan"), os.path.join(room, "grid")
                with open(plan, "w") as out:
                    out.write("\n".join([*SMALL[:4], "carol open 64 64 times 4", "carol open 64 1024", GROWS[0], "carol open 64 64 times 16", GROWS[2], ""]))
                with endpoint.stand_in(plan, folder), endpoint.gateways(folder, *gateways) as found:
                    self.grow_before([each.client() for each in found], folder, found)

    def grow_before(self, clients, folder, gateways):
        s3, keys = clients[0], [f"{number:03}" for number in range(60)]
        settings = Settings.gather({"config": f"{folder}/carol.ini", "locks": f"{folder}/locks"}, {})
        s3.create_bucket(Bucket="one")
        for key in keys:
            s3.put_object(Bucket="one", Key=key, Body=b"x" * int(key))
        self.wait(lambda: self.requests(s3, folder) == 0, gateways[0])
        words = [sys.executable, "-B", os.path.join(code_of_s3.CLIENT, "gridfs-client"), "--config", f"{folder}/carol.ini", "--locks", f"{folder}/locks", "grow", "--json"]
        with subprocess.Popen(words, stdout=subprocess.PIPE) as command:
            self.wait(lambda: endpoint.counts(folder).get("write", 0), gateways[0])
            asked, until = [], time.monotonic() + longer(90)
            while any(map(settings.is_growing, range(1, 5))) and time.monotonic() < until:
                asked.append(self.requests(clients[len(asked) % len(clients)], folder, ("list", "read")))
            told = command.communicate()[0]
        self.assertEqual(told, b'{"pages": 0, "lines": 0, "absent": []}\n')
        self.assertGreater(len(asked), 2)
        if len(clients) == 1:  # (a volume is listed where a look is late, on a machine that does much else; and beside the last listing the command has begun)
            self.assertLess(sum(asked[:-1]), len(asked))
        for client in clients:
            for key in keys:
                self.assertEqual(client.get_object(Bucket="one", Key=key)["Body"].read(), b"x" * int(key))
            self.assertEqual([each["Key"] for each in client.list_objects_v2(Bucket="one")["Contents"]], keys)
        self.wait(lambda: self.requests(s3, folder) == 0, gateways[0])

    def requests(self, s3, folder, kinds=("look", "list", "read")):
        """How many a listing makes, and what goes on beside it."""
        endpoint.counts(folder)
        self.assertEqual(s3.list_objects_v2(Bucket="one")["KeyCount"], 60)
        counts = endpoint.counts(folder)
        return sum(counts.get(kind, 0) for kind in kinds)

    def wait(self, is_so, gateway):
        until = time.monotonic() + longer(90)
        while not is_so():
            self.assertLess(time.monotonic(), until, gateway.told()[-500:])
            time.sleep(0.3)


if __name__ == "__main__":
    unittest.main()
