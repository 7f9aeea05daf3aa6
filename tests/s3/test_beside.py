"""Several gateways of one tenant that tell one another which pages they changed: what is remembered, who is answered, and where a listing looks."""

import asyncio
import contextlib
import itertools
import os
import random
import secrets
import socket
import sys
import tempfile
import time
import types
import unittest

sys.path.insert(0, os.path.dirname(os.path.abspath(__file__)))
from busy import longer
import code_of_s3  # noqa: F401  (which says where the code is)
import endpoint
import test_going_on
from bodies_in_memory import Body
from gridfs_client.errors import Unanswered
from gridfs_s3 import peers
from gridfs_s3.all_pages import AllPages
from gridfs_s3.peers import NEVER, AllBut, Changes
from gridfs_s3.shared import Shared
from gridfs_s3.store import Store
from memory import Memory, MemorySession
from test_going_on import command, listed, looks_in

KEY, OTHER = b"a secret of the tenant", b"a secret of another tenant"


class Remembered(unittest.TestCase):
    def test_random_changes(self):
        """Beside all changes in order; where more pages changed than are remembered, that is told."""
        for seed in range(200):
            draw, changes, history, under_way = random.Random(seed), Changes(3), [], set()
            counts = [(0, 0)]
            for _ in range(40):
                each = draw.randrange(1, 3), draw.randrange(6)
                if each in under_way or draw.random() < 0.3:
                    changes.ends(*each)
                    under_way.discard(each)
                    history.append(each[1])
                else:
                    changes.begins(*each)
                    under_way.add(each)
                count, place = draw.choice(counts)
                now, pages = changes.since(count)
                counts.append((now, len(history)))
                wanted = set(history[place:]) | {page for _, page in under_way}
                if pages is None:
                    self.assertGreater(len(set(history[place:])), 2)
                else:
                    self.assertEqual(pages, wanted)
            self.assertEqual(changes.since(NEVER)[1], None)
            self.assertEqual(changes.since(changes.count + 1)[1], None)
            self.assertLessEqual(len(changes.latest), 3)


class Searched(unittest.TestCase):
    """A gateway that changes two pages, and one that lists three times, in each order of their steps: a listing shows each change that anybody could see when it began."""

    def writer(self, changes, values, pages):
        for number, page in enumerate(pages, 1):
            changes.begins(1, page)
            yield
            values[page] = number  # (from here on others see it)
            yield
            changes.ends(1, page)
            yield

    def lister(self, changes, values, seen):
        index, known = {0: 0, 1: 0}, NEVER
        for _ in range(3):
            wanted = dict(values)
            yield
            count, pages = changes.since(known)
            yield
            for page in (0, 1):
                if pages is None or page in pages:
                    index[page] = values[page]
                yield
            known = count
            seen.append((wanted, dict(index), pages))

    def test_each_order(self):
        alone = 0
        for pages in ((0, 1), (0, 0), (1, 0)):
            for most in (1, 4):
                for turns in itertools.combinations(range(18), 6):
                    changes, values, seen = Changes(most), {0: 0, 1: 0}, []
                    writer, lister = self.writer(changes, values, pages), self.lister(changes, values, seen)
                    for turn in range(18):
                        next(writer if turn in turns else lister, None)
                    for _ in range(9):
                        next(lister, None)
                    for wanted, index, told in seen:
                        self.assertTrue(all(index[page] >= wanted[page] for page in (0, 1)), (pages, most, turns, seen))
                        alone += told is not None
        self.assertGreater(alone, 100_000)


class Noted(unittest.TestCase):
    def test_before_it_is_asked_for(self):
        """Each write of a page or journal finds that noted, and the change is remembered once it is over."""
        world = Memory(2, 3, 64)
        objects = Store(MemorySession(world, 1, None), world.layout, Shared())
        changes, seen, write = objects.shared.changes, [], objects.session.write

        def noted(volume, file, content):
            seen.append((world.layout.page_at(volume, file), changes.since(changes.count)[1]))
            return write(volume, file, content)

        objects.session.write = noted
        for turn in range(6):
            name = f"bucket/{turn}"
            objects.put_object(name, Body(b"x"), lambda: {"m": "x"})
            page = world.layout.page_of(name)
            self.assertEqual((changes.since(turn), changes.under_way), ((turn + 1, {page}), set()))
        self.assertEqual([page for page, _ in seen], [page for page, pages in seen if page in pages])
        self.assertEqual(len(seen), 12)


class Asked(unittest.TestCase):
    """By a name of this machine."""

    def setUp(self):
        self.name, self.asked = f"\0gridfs-s3-test {secrets.token_hex(8)}", []

    def told(self, work, key=KEY, sessions=(1, 2), pages=frozenset({5, 7})):
        """What comes of this work, beside a gateway that answers so."""

        async def answer(count):
            self.asked.append(count)
            return 9, pages

        async def both():
            claim = socket.socket(socket.AF_UNIX)
            claim.bind(self.name)
            claim.listen(8)
            claim.setblocking(False)
            tasks = set()

            def met():
                connection = claim.accept()[0]
                connection.setblocking(False)
                tasks.add(loop.create_task(peers.tell(peers.by_socket(connection), key, "start", sessions, answer)))

            loop = asyncio.get_running_loop()
            loop.add_reader(claim, met)
            try:
                return await work()
            finally:
                loop.remove_reader(claim)
                claim.close()
                await asyncio.gather(*tasks)

        return asyncio.run(both())

    def ask(self, key=KEY, session=1, count=4):
        return lambda: peers.ask(peers.by_name(self.name), key, session, lambda start: count if start == "start" else NEVER)

    def test_who_is_answered(self):
        self.assertEqual(self.told(self.ask()), peers.Told("start", frozenset({1, 2}), 9, frozenset({5, 7})))
        self.assertEqual(self.told(self.ask(), pages=None), peers.Told("start", frozenset({1, 2}), 9, None))
        self.assertEqual(self.asked, [4, 4])
        self.assertIsNone(self.told(self.ask(key=OTHER)))
        self.assertIsNone(self.told(self.ask(session=3)))  # (who has that session may have asked this one in place of whom he was asked himself)
        self.assertEqual(self.asked, [4, 4])
        self.assertIsNone(asyncio.run(self.ask()()))  # (nobody is there)

    def test_a_session_that_comes_meanwhile(self):
        """Is not told: its pages are not settled."""

        found = [1, 2]
        self.asked = types.SimpleNamespace(append=lambda _: found.append(3))
        self.assertEqual(self.told(self.ask(), sessions=found), peers.Told("start", frozenset({1, 2}), 9, frozenset({5, 7})))
        self.assertEqual(found, [1, 2, 3])

    def test_who_is_believed(self):
        """Not who has the name and not the key."""
        for forged in ([b"start 1\n", b'{"sessions": [1, 2], "count": 9, "pages": []}\n', b"0" * 64 + b"\n"], [b"\n"], [b"start 1\n", b"\n\n"], [b"x" * 200_000], []):

            async def serve(reader, writer, forged=forged):
                for line in forged:
                    writer.write(line)
                    with contextlib.suppress(ConnectionError):
                        await writer.drain()
                writer.close()

            async def work(serve=serve):
                async with await asyncio.start_unix_server(serve, self.name):
                    return await self.ask()()

            self.assertIsNone(asyncio.run(work()), forged)

    def test_an_older_gateway(self):
        """It closes the connection at once."""

        async def work():
            async with await asyncio.start_unix_server(lambda _, writer: writer.close(), self.name):
                return await self.ask()()

        self.assertIsNone(asyncio.run(work()))

    def test_who_says_nothing(self):
        async def idle():
            _, writer = await asyncio.open_unix_connection(self.name)
            begun = time.monotonic()
            found = await self.ask()()
            writer.close()
            return found is not None, time.monotonic() - begun < longer(20)

        self.assertEqual(self.told(idle), (True, True))


def pages_of(told, looks, sessions=3, far=()):
    """All pages, of a gateway with session 1, which is settled; others tell this by session, and these at addresses."""
    pool = types.SimpleNamespace()
    layout = types.SimpleNamespace(pages=4, levels=[types.SimpleNamespace(page_volumes=range(4))], pages_in=lambda volume: range(volume, volume + 1), page=lambda _, page: (page, 0))
    store = types.SimpleNamespace(settled={0, 1, 2, 3}, writer=types.SimpleNamespace(has_settled_all=lambda: True))
    pool.layout, pool.sessions = layout, sessions
    pool.workers = {1: types.SimpleNamespace(store=store, is_silent=False, is_lent=False, settled_when_lent=())}
    pool.shared = types.SimpleNamespace(index=types.SimpleNamespace(beginnings=0, open=set(), is_begun=lambda *_: True), changes=Changes())
    pool.claims, pages = types.SimpleNamespace(name=lambda number: number), AllPages(pool, {})
    pages.secret, pages.questions = lambda: KEY, []

    async def lease():
        return None

    async def run(worker, work, is_soon=False):
        return work(types.SimpleNamespace(look_at=lambda volumes: [looks(volume) for volume in volumes]))

    async def find_sessions():
        return True

    async def ask_all(key, known):
        pages.questions += [(0, known(start)) for start, *_ in far]
        return [peers.Told(*each) for each in far]

    async def ask(reach, key, session, known):
        start, *rest = told[session]
        pages.questions.append((session, known(start)))
        return peers.Told(start, *rest) if rest else None

    pool.lease, pool.run, pages.find_sessions = lease, run, find_sessions
    pages.remote = types.SimpleNamespace(ask_all=ask_all)
    peers.ask = ask
    return pages


class Where(unittest.TestCase):
    """Where a listing looks, by what others tell."""

    def setUp(self):
        self.addCleanup(setattr, peers, "ask", peers.ask)

    def look(self, pages):
        self.seen = []
        asyncio.run(pages.look())
        return self.seen

    def pages(self, told, **more):
        return pages_of(told, lambda volume: self.seen.append(volume), **more)

    def test_it(self):
        every = [0, 1, 2, 3]
        told = {2: ("a", frozenset({2, 3}), 7, None), 3: ("b", frozenset({3}), 0, frozenset())}
        pages = self.pages(told)
        self.assertEqual((self.look(pages), pages.questions, pages.known), (every, [(2, NEVER)], (0, {"a": 7})))
        told[2] = "a", frozenset({2, 3}), 9, frozenset({3, 1})
        self.assertEqual((self.look(pages), pages.questions[1:], pages.known), ([1, 3], [(2, 7)], (0, {"a": 9})))
        told[2] = "a", frozenset({2}), 9, frozenset()
        self.assertEqual((self.look(pages), pages.questions[2:], pages.known), ([], [(2, 9), (3, NEVER)], (0, {"a": 9, "b": 0})))
        pages.pool.shared.index.open = {2}  # (a page asks for a later one)
        self.assertEqual(self.look(pages), [2])
        # One that does not answer, or has no session of that number any more; then what it told counts no more.
        for gone in (("a",), ("a", frozenset({4}), 9, frozenset())):
            told[2] = gone
            self.assertEqual((self.look(pages), pages.known), (every, (0, {})))
        # The index was begun anew, and has no pages of others.
        told[2] = "a", frozenset({2, 3}), 9, frozenset()
        pages.known = 0, {"a": 9}
        pages.pool.shared.index.beginnings = 1
        self.look(pages)
        self.assertEqual((pages.questions[-1], pages.known), ((2, NEVER), (1, {"a": 9})))

    def test_gateways_at_addresses(self):
        """All of these are asked, and by names those that have what they have not. One with the same sessions may have them still, or again."""
        every, told, far = [0, 1, 2, 3], {3: ("c", frozenset({3}), 4, frozenset({3}))}, [("a", frozenset({2}), 7, frozenset({1})), ("b", frozenset({2}), 8, frozenset({2}))]
        pages = self.pages(told, far=far)
        pages.known = 0, {"a": 6}
        self.assertEqual((self.look(pages), pages.questions, pages.known), ([1, 2, 3], [(0, 6), (0, NEVER), (3, NEVER)], (0, {"a": 7, "b": 8, "c": 4})))
        far[1] = "b", frozenset({3}), 8, None
        self.assertEqual((self.look(pages), pages.questions[3:]), (every, [(0, 7), (0, 8)]))
        far[1] = "b", frozenset({3}), 8, frozenset()
        self.assertEqual(self.look(pages), [1])
        far.append((pages.pool.shared.changes.start, frozenset({1}), 0, None))  # (its own address is among these)
        self.assertEqual(self.look(pages), [1])
        far[:2] = []
        told[2] = ("d",)
        self.assertEqual((self.look(pages), pages.known), (every, (0, {})))

    def test_a_look_that_fails(self):
        """What was told before it has to be looked at still."""
        pages = self.pages({2: ("a", frozenset({2, 3}), 9, frozenset({1}))})
        pages.known, run = (0, {"a": 7}), pages.pool.run

        async def fails(*_, **__):
            raise Unanswered("silent")

        pages.pool.run = fails
        with self.assertRaises(Unanswered):
            self.look(pages)
        pages.pool.run = run
        self.assertEqual((self.look(pages), pages.questions), ([1], [(2, 7), (2, 7)]))

    def test_what_is_told(self):
        """Not before all pages are settled; and what a note says of a session that is lent."""
        pages = self.pages({})
        changes = pages.pool.shared.changes
        changes.ends(1, 3)
        told = lambda count: asyncio.run(pages.changed_since(count))
        self.assertEqual((told(0), told(1), told(NEVER)), ((1, {3}), (1, set()), (1, None)))
        changes.begins(1, 2)
        self.assertEqual(told(1), (1, {2}))

        async def noted(settled):
            return settled

        for settled, wanted in (([AllBut(), AllBut({0})], {0, 2}), ([AllBut(), {0, 1, 2}], None), ([()], None)):
            pages.settled_now = lambda settled=settled: noted(settled)
            self.assertEqual(told(1), (1, wanted))


class Several(unittest.TestCase):
    """Two gateways before one grid."""

    def setUp(self):
        self.rooms = contextlib.ExitStack()
        self.addCleanup(self.rooms.close)
        folder = self.rooms.enter_context(tempfile.TemporaryDirectory())
        with open(f"{folder}/plan", "w", encoding="ascii") as out:
            out.write(test_going_on.Lent.plan)
        self.room = self.rooms.enter_context(endpoint.stand_in(f"{folder}/plan", f"{folder}/grid"))
        self.one, self.other = (self.gateway(sessions) for sessions in ("1-4", "5-8"))

    def settings(self, sessions):
        return f"{self.room}/carol.ini"

    def gateway(self, sessions, **more):
        found = endpoint.Gateway(self.settings(sessions), self.room, sessions, **more)
        self.rooms.callback(found.kill)
        return found

    def looks(self, s3, wanted):
        """How many volumes a listing looks at, which is right, and not the first one."""
        self.assertEqual(listed(s3), wanted)
        endpoint.counts(self.room)
        self.assertEqual(listed(s3), wanted)
        return looks_in(endpoint.counts(self.room))

    def until_few(self, s3, wanted):
        until = time.monotonic() + longer(120)
        while self.looks(s3, wanted) > 1:  # (of the bucket)
            self.assertLess(time.monotonic(), until)
            time.sleep(0.3)

    def test_it(self):
        one, other, wanted = self.one.client(), self.other.client(), {}
        one.create_bucket(Bucket="bucket")
        for number in range(6):
            (one, other)[number % 2].put_object(Bucket="bucket", Key=f"{number}", Body=b"x" * number)
            wanted[f"{number}"] = number
        for s3 in (one, other):
            self.until_few(s3, wanted)
        for turn in range(12):
            s3, lister = (one, other)[:: 1 if turn % 2 else -1]
            key = f"{turn % 8}"
            if key in wanted and turn % 3 == 0:
                s3.delete_object(Bucket="bucket", Key=key)
                del wanted[key]
            else:
                s3.put_object(Bucket="bucket", Key=key, Body=b"y" * (20 + turn))
                wanted[key] = 20 + turn
            endpoint.counts(self.room)
            self.assertEqual(listed(lister), wanted)
            self.assertLessEqual(looks_in(endpoint.counts(self.room)), 2)  # (of the page that was changed, and of the bucket)
            self.assertEqual(listed(s3), wanted)
        # By a command to which one of them lends a session.
        with test_going_on.Lent.command(None, test_going_on.PUTS, self.room, "3", "bucket/lent", "new") as process:
            self.assertEqual(process.stdout.readline(), b"it has come so far\n")
            wanted["lent"] = 5
            for s3 in (one, other):
                self.assertLessEqual(self.looks(s3, wanted), 3)
        command(self.room, "put", "-", "bucket/9", given=b"y" * 9)
        wanted["9"] = 9
        for s3 in (one, other):
            self.assertEqual(listed(s3), wanted)
            self.until_few(s3, wanted)
        # One that is killed tells nothing: all volumes are looked at, until it is there again and has settled its pages.
        self.one.kill()
        self.assertGreaterEqual(self.looks(other, wanted), 4)
        self.one.start()
        one = self.one.client()
        one.put_object(Bucket="bucket", Key="again", Body=b"12345678")
        wanted["again"] = 8
        for s3 in (other, one):
            self.assertEqual(listed(s3), wanted)
            self.until_few(s3, wanted)
        # One with other keys is told nothing.
        self.one.kill()
        stranger = self.gateway("1-4", keys="carol another.secret.of.the.tests\n")
        s3 = stranger.client(secret="another.secret.of.the.tests")
        s3.put_object(Bucket="bucket", Key="stranger", Body=b"1")
        wanted["stranger"] = 1
        for _ in range(2):
            self.assertGreaterEqual(self.looks(other, wanted), 4)
            time.sleep(1)


if __name__ == "__main__":
    unittest.main()
