"""A client's chunks over nodes in this process, whose lines are lost, repeated and late."""

import os
import random
import subprocess
import sys
import unittest
from collections import Counter
from unittest import mock

from servers import MOST, Net, Server, Servers

from gridfs_client import Damaged, NoRoom, Pace, Unanswered
from gridfs_client import chunks as module
from gridfs_client.chunk_lines import content_in, escaped, parse_chunk
from gridfs_client.chunks import Chunks, Wanted
from gridfs_client.runs import Run, runs_of

PACE = Pace(again=0.5, again_at_most=4, timeout=30)


def client(net, number=1, seed=0):
    return Chunks(net, net.told, number, net.shape, lambda: PACE, random.Random(seed))


def places(runs):
    return [(run.column, run.session, number) for run in runs for number in run.numbers()]


def wanted(runs, sizes):
    return [Wanted(place, size, 0, size) for place, size in zip(places(runs), sizes, strict=True)]


def pieces_of(draw, count, size=3000):
    return [draw.randbytes(draw.randrange(1, size)) for _ in range(count)]


class Kept(unittest.TestCase):
    def setUp(self):
        self.servers, self.draw = Servers(), random.Random(1)
        self.net = Net(self.servers)
        self.chunks = client(self.net)

    def expect_kept(self, runs, pieces, servers=None):
        servers = servers or self.servers
        for (column, session, number), piece in zip(places(runs), pieces, strict=True):
            for place in servers.shape.column(column):
                self.assertEqual(servers.have((session, number), place), piece)

    def test_kept_at_all_nodes_of_the_column_and_read(self):
        pieces = pieces_of(self.draw, 20)
        runs = self.chunks.keep(iter(pieces), 1)
        self.assertEqual([(run.column, run.session, run.count) for run in runs], [(1, 1, 20)])
        self.expect_kept(runs, pieces)
        self.assertFalse(self.servers.at[0].chunks)
        self.assertEqual(list(self.chunks.get(wanted(runs, map(len, pieces)))), pieces)
        self.assertEqual(self.chunks.keep(iter([]), 1), ())
        self.assertEqual(self.chunks.unneeded, [])

    def test_parts_of_chunks(self):
        runs = self.chunks.keep(iter([b"0123456789"]), 0)
        place = places(runs)[0]
        self.assertEqual(list(self.chunks.get([Wanted(place, 10, 2, 3), Wanted(place, 10, 9, 1), Wanted(place, 10, 2, 3)])), [b"234", b"9", b"234"])

    def test_lines_lost_repeated_and_late(self):
        for seed in range(30):
            net = Net(Servers(rows=1 + seed % 3), seed, lost=0.15, repeated=0.15, late=0.1)
            chunks, pieces = client(net, seed=seed), pieces_of(self.draw, 12)
            runs = chunks.keep(iter(pieces), 1)
            self.expect_kept(runs, pieces, net.servers)
            self.assertEqual(list(chunks.get(2 * wanted(runs, map(len, pieces)))), 2 * pieces)
            self.assertEqual(chunks.forget(runs[:1], 30), [])
            found = list(chunks.get(wanted(runs, map(len, pieces))))
            for at, (piece, told) in enumerate(zip(pieces, found, strict=True)):
                self.assertIn(told, (None, piece) if at < runs[0].count else (piece,))  # (a late answer may tell it still)
            self.assertFalse(any(net.servers.have(place[1:], place[0]) for place in places(runs[:1])))

    def test_answers_of_one_p_alone_count(self):
        # Node 0 keeps it and is lost; its successor lacks it, and node 2 answers by the new plan.
        def at_line(node, body):
            if node == 2 and body.startswith(b"keep") and self.servers.at[0].number == 0:
                if not self.servers.at[0].chunks:
                    return False  # (late)
                self.servers.lose(0)
            return True

        self.net.at_line = at_line
        runs = self.chunks.keep(iter([b"content"]), 0)
        self.assertEqual(self.servers.at[0].number, 64)
        self.expect_kept(runs, [b"content"])

    def test_an_answer_of_a_plan_of_before_is_asked_again(self):
        self.servers.at[0].losses = 1

        def at_line(node, body):
            if self.net.clock > 3:
                self.servers.at[2].losses = 1
            return True

        self.net.at_line = at_line
        self.chunks.keep(iter([b"content"]), 0)
        self.assertGreater(self.net.clock, 3)

    def test_another_column_where_one_is_silent(self):
        pieces = pieces_of(self.draw, 30)

        def at_line(node, body):
            self.servers.at[2].is_up = len(self.servers.at[2].chunks) < 7
            return True

        self.net.at_line = at_line
        runs = self.chunks.keep(iter(pieces), 0)
        self.assertEqual({run.column for run in runs}, {0, 1})
        self.expect_kept(runs, pieces)
        self.assertLess(self.net.clock, 15)
        named = set(places(runs))
        for place in self.servers.shape.column(0):
            for key in self.servers.at[place].chunks:
                self.assertIn((0, *key), named | set(places(self.chunks.unneeded)))

    def test_no_column_goes_on(self):
        self.servers.at[0].is_up = self.servers.at[1].is_up = False
        with self.assertRaisesRegex(Unanswered, "node 0 of column 0 did not keep a chunk in 3"):
            self.chunks.keep(iter([b"content"]), 0)
        self.assertEqual(len(self.chunks.unneeded), 1)

    def test_a_full_column_and_all_full(self):
        self.servers.at[2].allowed = 20 << 20
        pieces = [bytes([at]) * MOST for at in range(30)]
        runs = self.chunks.keep(iter(pieces), 0)
        self.assertEqual({run.column for run in runs}, {0, 1})
        self.expect_kept(runs, pieces)
        for server in self.servers.at.values():
            server.allowed = server.used()
        with self.assertRaisesRegex(NoRoom, "node [02] has room for 0 bytes of chunks more"):
            self.chunks.keep(iter(pieces), 0)

    def test_a_disk_without_space(self):
        pieces = [bytes([at]) * MOST for at in range(6)]
        self.servers.at[2].has_space = False
        runs = self.chunks.keep(iter(pieces), 0)
        self.assertEqual({run.column for run in runs}, {1})
        self.expect_kept(runs, pieces)
        self.servers.at[3].has_space = False
        with self.assertRaisesRegex(NoRoom, "the disk of node [23] has no space for chunks"):
            self.chunks.keep(iter(pieces), 0)
        self.servers.at[2].has_space = True
        self.expect_kept(self.chunks.keep(iter([b"later"]), 0), [b"later"])

    def test_numbers_that_are_taken(self):
        self.chunks.last = 1 << 60
        first = self.chunks.keep(iter([b"first"]), 0)
        again = client(self.net)
        again.last = self.chunks.last - 1
        again.draw.randrange = lambda *_: 0  # (the clock went back, and the draw is the same)
        numbers = iter([0, 7, 9])
        again.draw.randrange = lambda *_: next(numbers)
        second = again.keep(iter([b"second"]), 0)
        self.expect_kept(first, [b"first"])
        self.expect_kept(second, [b"second"])
        self.assertEqual(again.unneeded, [])  # (the number is not its own)

    def test_numbers_below_the_floor(self):
        self.servers.at[2].floors[1] = 1 << 60
        runs = self.chunks.keep(iter([b"one", b"two"]), 0)
        self.expect_kept(runs, [b"one", b"two"])
        self.assertGreater(runs[0].first, 1 << 60)
        self.assertTrue(self.chunks.unneeded)
        self.assertTrue(self.chunks.forget_unneeded())
        self.assertEqual([len(self.servers.at[place].chunks) for place in (0, 2)], [2, 2])

    def test_no_numbers_are_left(self):
        """It is told at once why, and others go on."""
        for server in self.servers.at.values():
            server.floors[1] = (1 << 64) - 1
        begun = self.net.now()
        for _ in range(2):
            with self.assertRaisesRegex(Unanswered, "session 1: nodes keep no more chunks of it"):
                self.chunks.keep(iter([b"one"]), 0)
        self.assertLess(self.net.now() - begun, PACE.timeout / 2)
        self.expect_kept(client(self.net, 2).keep(iter([b"two"]), 0), [b"two"])

    def test_a_line_that_is_refused_as_bad(self):
        """Whoever waits is told so."""
        with mock.patch.object(Server, "take", lambda *_: b"refused bad"), self.assertRaisesRegex(Unanswered, "and told `refused bad`"):
            self.chunks.keep(iter([b"one"]), 0)

    def test_what_is_under_way_is_bounded(self):
        most, now = 0, {}

        def at_line(node, body):
            if body.startswith(b"keep"):
                now[node, body.split(b" ")[2]] = len(body)
            return True

        def at_answer(node, answer):
            nonlocal most
            most = max(most, sum(size for (each, _), size in now.items() if each == node))
            if answer.startswith(b"kept"):
                now.pop((node, answer.split(b" ")[2]), None)
            return True

        net = Net(self.servers, late=0.5)
        net.at_line, net.at_answer = at_line, at_answer
        client(net).keep(iter([bytes(MOST)] * 20), 0)
        self.assertLess(most, module.MOST_AHEAD + 2 * MOST)

    def test_a_slow_connection(self):
        for rate, most in ((500_000, 2), (120_000, 8)):
            self.net = Net(self.servers)
            self.net.rate = rate
            chunks, pieces = client(self.net), [random.Random(at).randbytes(MOST) for at in range(10)]
            runs = chunks.keep(iter(pieces), 0)
            self.expect_kept(runs, pieces)
            self.assertLessEqual(sum(body.startswith(b"keep") for _, body in self.net.sent), 20 + most)
            self.assertEqual(list(chunks.get(wanted(runs, map(len, pieces)))), pieces)
            self.assertLessEqual(sum(body.startswith(b"get") for _, body in self.net.sent), 10 + most)

    def test_no_line_is_sent_that_would_be_lost(self):
        net, waiting, lost = Net(self.servers), Counter(), []
        send, to_node = net.send, net.to_node
        net.would_lose = lambda node, size: waiting[node] + size > 2 * MOST

        def counted(node, body):
            lost.extend([node] if net.would_lose(node, len(body)) else [])
            waiting[node] += len(body)
            send(node, body)

        def left(node, body):
            waiting[node] -= len(body)
            to_node(node, body)

        net.send, net.to_node = counted, left
        pieces = [bytes([at]) * (MOST // 2) for at in range(20)]
        self.expect_kept(client(net).keep(iter(pieces), 0), pieces)
        self.assertEqual((lost, sum(body.startswith(b"keep") for _, body in net.sent)), ([], 40))

    def test_one_long_line_at_a_time_where_the_connection_bears_no_more(self):
        uplink = module.uplink_of(self.net)
        uplink.most = 1000
        waits = []
        self.net.at_line = lambda node, body: waits.append(uplink.waiting) or True
        pieces = [bytes([at]) * 700 for at in range(10)]
        self.expect_kept(self.chunks.keep(iter(pieces), 0), pieces)
        self.assertLess(max(waits), 1000)
        self.assertEqual(uplink.waiting, 0)


class Read(unittest.TestCase):
    def setUp(self):
        self.servers = Servers()
        self.net = Net(self.servers)
        self.chunks = client(self.net)
        self.pieces = [bytes([at]) * 100 for at in range(10)]
        self.runs = self.chunks.keep(iter(self.pieces), 0)
        self.keys = [place[1:] for place in places(self.runs)]

    def got(self):
        return list(self.chunks.get(wanted(self.runs, map(len, self.pieces))))

    def test_damaged_at_one(self):
        self.servers.at[0].damaged |= set(self.keys[:4])
        self.servers.at[2].damaged |= set(self.keys[6:])
        self.assertEqual(self.got(), self.pieces)

    def test_damaged_at_all(self):
        self.servers.at[0].damaged.add(self.keys[3])
        self.servers.at[2].damaged.add(self.keys[3])
        with self.assertRaisesRegex(Damaged, "no node has chunk .* damaged at 0 and 2"):
            self.got()

    def test_a_lost_node_lacks_them(self):
        self.servers.lose(0)
        self.net.told = self.servers.plan()
        self.assertEqual(self.got(), self.pieces)
        self.servers.at[2].damaged.add(self.keys[3])
        with self.assertRaisesRegex(Damaged, "no node has chunk .* damaged at 2; lacks at 64"):
            self.got()

    def test_silence_at_one(self):
        self.servers.at[2].is_up = False
        self.assertEqual(self.got(), self.pieces)
        self.assertLess(self.net.clock, 3)
        self.servers.at[0].is_up = False
        with self.assertRaisesRegex(Unanswered, "no node told chunk"):
            self.got()

    def test_none_where_it_is_gone(self):
        self.assertEqual(self.chunks.forget([Run(0, 1, self.runs[0].first + 2, 2)], 5), [])
        self.assertEqual(self.got(), [*self.pieces[:2], None, None, *self.pieces[4:]])
        self.servers.at[0].is_up = False
        self.assertEqual(self.got()[2], None)

    def test_another_size_is_not_taken(self):
        key = self.keys[1]
        self.servers.at[0].chunks[key] = b"short"
        self.assertEqual(self.got(), self.pieces)

    def test_who_takes_slowly_asks_nothing_twice(self):
        count = len(self.net.sent)
        for at, piece in enumerate(self.chunks.get(wanted(self.runs, map(len, self.pieces)))):
            self.assertEqual(piece, self.pieces[at])
            self.net.clock += 20
        self.assertEqual(len(self.net.sent) - count, 10)


class Asked(unittest.TestCase):
    def test_room(self):
        servers = Servers(allowed=10 << 20)
        net = Net(servers)
        self.assertEqual(client(net).rooms()[3].free, 10 << 20)
        self.assertEqual((len(net.sent), client(net).rooms()[3].used, len(net.sent)), (4, 0, 4))  # (for all sessions of a connection)
        self.assertLess(net.clock, 0.5)
        self.assertEqual(client(net, 2).column_for(client(net).ask_rooms(30), 2000, 2000), 1)
        servers.at[3].allowed = 1000
        self.assertEqual(client(net, 2).column_for(client(net).ask_rooms(30), 2000, 2000), 0)
        self.assertIsNone(client(net, 2).column_for(client(net).ask_rooms(30), 2000, 2000, {0, 1}))
        servers.at[2].is_up = False
        chunks = client(net)
        self.assertEqual(chunks.column_for(chunks.ask_rooms(30), 500, 500), 1)
        self.assertLess(net.clock, 3)
        servers.at[3].is_up = False
        before = net.clock
        self.assertEqual(sorted(client(net).ask_rooms(30)), [0, 1])  # (no column is up: it waited)
        self.assertGreater(net.clock, before + 29)

    def test_no_room_and_nodes_of_before(self):
        chunks = client(Net(Servers(allowed=0)))
        self.assertIsNone(chunks.allowed())
        self.assertEqual((chunks.ask_rooms(30), chunks.allowed()), ({}, 0))
        self.assertRegex(chunks.why_no_room(), "the plan gives the tenant none for chunks; once all nodes and all clients .* more NAME 16G in chunks")
        # One that is of before keeps its column from being used.
        servers = Servers()
        servers.at[1].knows_chunks = False
        chunks = client(Net(servers))
        self.assertEqual(sorted(chunks.usable(chunks.ask_rooms(30))), [0])
        for server in servers.at.values():
            server.knows_chunks = False
        net = Net(servers)
        chunks = client(net)
        self.assertEqual(chunks.ask_rooms(30), {})
        self.assertLess(net.clock, 0.5)
        self.assertRegex(chunks.why_no_room(), "nodes 0, 1, 2 and 3 keep no chunks; once all nodes and all clients .* more NAME 16G in chunks")

    def test_numbers(self):
        servers = Servers()
        net = Net(servers)
        server = servers.at[2]
        server.chunks = {(1, number): b"x" for number in range(5, 5005, 2)} | {(2, 6): b"y"}
        self.assertEqual(list(client(net).numbers_at(2, 1)), list(range(5, 5005, 2)))
        self.assertEqual(list(client(net).numbers_at(0, 1)), [])

    def test_forget_and_wait_for_nobody(self):
        """Nodes are asked at once, and what they told is taken later; what is not told by then is asked again."""
        servers = Servers()
        net = Net(servers)
        for server in servers.at.values():
            server.chunks = {(1, number): b"x" for number in range(1, 9)}
        servers.at[2].is_up = False
        chunks = client(net)
        chunks.not_needed([Run(0, 1, 1, 2), Run(1, 1, 3, 2)])
        begun = net.clock
        chunks.begin_to_forget()
        self.assertEqual((net.clock - begun, len(net.sent), [len(server.chunks) for server in servers.at.values()]), (0, 4, [8] * 4))
        chunks.not_needed([Run(1, 1, 5)])
        net.receive(net.attach_chunks({}), 0.1)  # (time goes on)
        chunks.begin_to_forget()
        self.assertEqual([len(server.chunks) for server in servers.at.values()], [6, 6, 8, 6])
        self.assertTrue(chunks.has_unneeded)
        self.assertFalse(chunks.forget_unneeded(1))
        self.assertEqual((chunks.unneeded, [len(server.chunks) for server in servers.at.values()]), ([Run(0, 1, 1, 2)], [6, 5, 8, 5]))
        servers.at[2].is_up = True
        self.assertTrue(chunks.forget_unneeded(1))
        self.assertEqual((chunks.has_unneeded, [len(server.chunks) for server in servers.at.values()]), (False, [6, 5, 6, 5]))
        self.assertEqual(len(net.asked), 1)  # (that of this test: none is kept of what has ended)

    def test_a_node_that_is_silent(self):
        """Another one of the column is asked at once, also for long contents; and where that is known, at first. Room is told without it."""
        servers = Servers()
        net = Net(servers)
        runs = client(net).keep(iter([b"x" * (1 << 20)] * 4), 0)
        for is_noticed, most in ((True, 1), (False, 8)):
            net.tells_parts, net.unheard, servers.at[0].is_up = is_noticed, {}, False
            chunks, begun = client(net), net.clock
            self.assertEqual(len(list(chunks.get(wanted(runs, [1 << 20] * 4)))), 4)
            self.assertTrue(0.4 < net.clock - begun < most or not is_noticed, net.clock - begun)
        net.tells_parts, net.unheard = True, {}
        net.note_unheard(0)
        chunks, begun = client(net), net.clock
        self.assertEqual(len(list(chunks.get(wanted(runs, [1 << 20] * 4)))), 4)
        self.assertEqual(sorted(chunks.ask_rooms(5)), [1, 2, 3])
        self.assertLess(net.clock - begun, 0.3)
        servers.at[0].is_up = True

    def test_forget_many(self):
        servers = Servers()
        net = Net(servers, lost=0.2)
        for server in servers.at.values():
            server.chunks = {(1, number): b"x" for number in range(1, 500)}
        runs = [Run(0, 1, number) for number in range(1, 500, 2)]
        self.assertEqual(client(net).forget(runs, 30), [])
        self.assertEqual([len(servers.at[place].chunks) for place in range(4)], [249, 499, 249, 499])
        servers.at[2].is_up = False
        self.assertEqual(client(net).forget([Run(0, 1, 2), Run(1, 1, 2)], 2), [Run(0, 1, 2)])
        servers.at[2].is_up = True
        self.assertEqual(client(net).raise_floors(1, 1000, (0, 1), 5), {0, 1})
        self.assertEqual((len(servers.at[0].chunks), servers.at[0].floors), (248, {1: 1000}))

    def test_runs(self):
        self.assertEqual(runs_of([(0, 1, 5), (0, 1, 6), (1, 1, 7), (1, 2, 8), (1, 2, 10)]), (Run(0, 1, 5, 2), Run(1, 1, 7), Run(1, 2, 8), Run(1, 2, 10)))
        self.assertEqual([Run(0, 1, 5, 3).text(), Run(7, 16, 9).text()], ["0.1:5+2", "7.16:9"])

    def test_contents_as_words(self):
        draw = random.Random(2)
        for it in (b"", b"\\", b"\\\\n \n\\040", b" \\s=~", draw.randbytes(100_000)):
            self.assertEqual(content_in(b"~" + escaped(it)), it)
            self.assertEqual(content_in(b"=" + it.replace(b"\\", b"\\b").replace(b"\n", b"\\n").replace(b" ", b"\\s")), it)
        for body in (b"got 1 2 3", b"kept 1 2", b"kept 1 2 x", b"chunks 1", b"chunks 1 0 0 5", b"room 1 2 3", b"refused room 1 2", b"refused full 1", b"refused full 1 2 3", b"refused nofile 1 2 3 4", b"done", b"none 1"):
            self.assertIsNone(parse_chunk(0, body), body)
        self.assertEqual(parse_chunk(3, b"refused bad").word, "bad")
        for word, content in ((b"~a\\040b\\\\", b"a b\\"), (b"~", b""), (b"=a\\sb", b"a b"), (b"~" + b"x" * 200, b"x" * 200)):
            told = parse_chunk(3, b"got 16 18446744073709551615 1048576 1048575 " + word)
            self.assertEqual((told.key, told.numbers, told.content), ((16, 18446744073709551615), (1048576, 1048575), content))
        for body in (b"got 1 2 3 4", b"got 1 2 3 4 ", b"got 1 2 3 4 x", b"got 1 2 3 x ~a", b"got 1 2 3 4 ~a b", b"got 1 2 3 4  ~a", b"got 1 2 3 ~a"):
            self.assertIsNone(parse_chunk(0, body), body)


MEMORY = """
import resource
from gridfs_client.chunk_lines import keep
from gridfs_client.memory import keep_for_chunks
keep_for_chunks()
def pages(count):
    for _ in range(count):
        keep(1, 1, bytes(1 << 20))
    return resource.getrusage(resource.RUSAGE_SELF).ru_minflt
print(-pages(4) + pages(40))
"""


class Memory(unittest.TestCase):
    def test_a_chunk_has_the_pages_of_the_one_before(self):
        words = {**os.environ, "PYTHONPATH": os.path.dirname(os.path.dirname(module.__file__))}
        told = subprocess.run([sys.executable, "-B", "-c", MEMORY], env=words, capture_output=True, check=True).stdout
        self.assertLess(int(told), 1_000)  # (of a MiB each 256, and as many of what is made of it)


if __name__ == "__main__":
    unittest.main()
