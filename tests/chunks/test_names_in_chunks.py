"""Names whose contents are in chunks, step by step: what a client leaves that dies at each of its steps, and what another one sees."""

import contextlib
import hashlib
import io
import itertools
import os
import random
import unittest
from dataclasses import replace
from types import SimpleNamespace
from unittest import mock

from memory_with_chunks import SHORT, Killed, World

from gridfs_client import BadSettings, Damaged, NamedFiles, NoRoom, NoSuchName, Replaced, Unanswered
from gridfs_client.chunk_lines import CHUNK_CHARGE
from gridfs_client.contents import InChunks, Inline, InSlots, PartList, joined, parse_part
from gridfs_client.pages import parse_line
from gridfs_client.renewing import Renewed, renew
from gridfs_client.status import usage_lines, usage_value
from gridfs_client.usage import usage_of
from in_slots import OldClient, tables
from registers import Stream

LONG, OLD, NEW = os.urandom(350), os.urandom(210), os.urandom(SHORT)


def kill_at(step):
    def at_step(now):
        if now == step:
            raise Killed

    return at_step


def content_or_none(files, name):
    try:
        return files.get(name)[0]
    except NoSuchName:
        return None


def content_of(files, name):
    return files.bucket(name).held(name).content


class Names(unittest.TestCase):
    def setUp(self):
        self.world = World()
        self.servers = self.world.servers

    def swept(self):
        """All sessions are swept: just what is named is kept, at each server."""
        files = self.world.client(1, others=(2,))
        swept = files.sweep()
        self.assertEqual(self.world.kept(), self.world.named())
        for place, server in self.servers.at.items():
            if not server.lacks:
                self.assertEqual({key for key in server.chunks}, {key for column, *key in self.world.named() if column == place % 2 for key in [tuple(key)]})
        return swept

    def test_put_get_and_remove(self):
        files = self.world.client(1)
        for content in (LONG, b"", b"short", OLD, io.BytesIO(LONG), Stream(LONG), Stream(b"x" * 2 * SHORT), b"y" * 3 * SHORT):
            entry = files.put("name", content)
            told = content if isinstance(content, bytes) else content.getvalue()
            self.assertEqual(self.world.client(2).get("name"), (told, entry))
            self.assertEqual(entry.sha256, hashlib.sha256(told).hexdigest())
            self.assertEqual(entry.pieces, 0 if len(told) <= 64 else -(-len(told) // SHORT))
            files.close()
            self.assertEqual(self.world.kept(), self.world.named())
        self.assertIsInstance(content_of(files, "name"), InChunks)
        self.assertEqual([each.size for each in self.world.client(2).names()], [3 * SHORT])
        files.remove("name")
        self.assertIsNone(content_or_none(self.world.client(2), "name"))
        self.assertTrue(self.world.kept())
        files.close()
        self.assertFalse(self.world.kept())

    def test_the_line(self):
        files = self.world.client(1)
        files.put("name", LONG)
        part = content_of(files, "name")
        self.assertRegex(part.text(), r"\A350 [\w-]{43} [01]\.1:\d+\+3\Z")
        for each in (part, PartList(9_000, "A" * 43, 77, part.runs), InChunks(3, "A" * 43, (*part.runs[:0], *parse_part(f"3 {'A' * 43} 0.1:7;1.16:9;7.2:0").runs))):
            self.assertEqual(parse_part(each.text()), each)
            self.assertEqual(parse_line(f"7 {each.text()} 1:0 a name").content, each)
            self.assertEqual(parse_line(f"7 {each.text()} 1:0 a name").name, "1:0 a name")
        for text in (f"2 {'A' * 43} 0.1:7+2", f"2 {'A' * 43} 0.1:18446744073709551615+1", f"9 {'A' * 43} 1*0.1:7+1"):
            self.assertRaises(ValueError, parse_part, text)

    def test_dies_at_each_step_of_a_put(self):
        for step in itertools.count(1):
            self.setUp()
            self.world.client(1).put("name", OLD)
            files, other = self.world.client(1, kill_at(step)), self.world.client(2)
            try:
                files.put("name", LONG)
                files.close()
                is_done = True
            except Killed:
                is_done = False
            seen = other.get("name")[0]
            self.assertIn(seen, (LONG,) if is_done else (OLD, LONG))
            files.session.carrier.die()
            self.world.surface()
            again = self.world.client(1)
            again.put("other", NEW)
            seen = other.get("name")[0]
            self.assertIn(seen, (LONG,) if is_done else (OLD, LONG))
            self.swept()
            self.world.lines_come()
            self.assertEqual(other.get("name")[0], seen)
            self.assertEqual(other.get("other")[0], NEW)
            self.swept()
            if is_done:
                break
        self.assertGreater(step, 15)

    def test_dies_at_each_step_of_a_removal_or_a_sweep(self):
        for what in ("remove", "sweep"):
            for step in itertools.count(1):
                self.setUp()
                first = self.world.client(1)
                first.put("name", OLD)
                first.put("name", LONG)
                first.put("stays", NEW)
                self.servers.at[0].chunks[1, 5] = b"orphan"
                files = self.world.client(1, kill_at(step), others=(2,))
                try:
                    files.remove("name") if what == "remove" else files.sweep()
                    files.close()
                    is_done = True
                except Killed:
                    is_done = False
                files.session.carrier.die()
                other = self.world.client(2)
                self.assertIn(content_or_none(other, "name"), (LONG, None) if what == "remove" else (LONG,))
                self.world.surface()
                self.world.client(1).put("last", OLD)
                self.swept()
                self.world.lines_come()
                self.assertIn(content_or_none(other, "name"), (LONG, None) if what == "remove" else (LONG,))
                self.assertEqual((other.get("stays")[0], other.get("last")[0]), (NEW, OLD))
                self.swept()
                if is_done:
                    break
            self.assertGreater(step, 10)

    def test_a_sweep_finds_what_is_at_one_server_alone(self):
        self.world.client(1).put("name", LONG)
        for place, server in self.servers.at.items():
            server.chunks[2, 100 + place] = b"orphan"
            server.chunks[1, 100 + place] = b"orphan"
        self.assertEqual(self.swept().chunks, 8)
        self.assertEqual(self.world.client(2).get("name")[0], LONG)

    def test_a_sweep_of_pages_that_are_settled(self):
        """Who lent the sessions has noted it of all pages but these: the sweep writes these alone, and finds what all others name, those of both levels."""
        self.world = World(pages=2, levels=(3,))
        self.servers = self.world.servers
        names = [f"name {number}" for number in range(12)]
        for number, name in enumerate(names):
            self.world.client(1 + number % 2).put(name, LONG)
        self.world.client(1).grow()
        for place, server in self.servers.at.items():
            server.chunks[1, 100 + place] = server.chunks[2, 100 + place] = b"orphan"
        for late, carried in ((None, 0), (3, 3), (0, 3)):  # (each page of whose names one has a part, or is one)
            files = self.world.client(1, others=(2,))
            noted = {} if late is None else {1: self.world.layout.journal(1, late)}
            for writer in files.every_writer():
                writer.session.note = SimpleNamespace(unsettled=lambda _, files=frozenset(filter(None, [noted.get(writer.me)])): files)
            self.world.counts.clear()
            swept, writes = files.sweep(), self.world.counts["write"]
            self.assertEqual((swept.chunks, writes), (8 if late is None else 0, 2 * carried), late)
            self.assertEqual(self.world.kept(), self.world.named())
            for name in names:
                self.assertEqual(self.world.client(2).get(name)[0], LONG)

    def test_a_note_that_ends_amid_a_sweep(self):
        """All pages are carried then, as where there was none."""
        self.world = World(pages=3, levels=(2,))
        self.servers = self.world.servers
        for number in range(12):
            self.world.client(1 + number % 2).put(f"name {number}", LONG)
        files, counts = self.world.client(1, others=(2,)), self.world.counts
        counts.clear()
        for writer in files.every_writer():
            writer.session.note = SimpleNamespace(unsettled=lambda _, file=self.world.layout.journal(writer.me, 0): None if counts["write"] else frozenset([file]))
        files.sweep()
        self.assertEqual((counts["write"], self.world.kept()), (2 * 2 * 3, self.world.named()))

    def test_a_sweep_while_a_node_is_silent(self):
        self.world.client(1).put("name", LONG)
        for server in self.servers.at.values():
            server.chunks[1, 7] = b"orphan"
        self.servers.at[3].is_up = False
        swept = self.world.client(1, others=(2,)).sweep()
        self.assertEqual((swept.chunks, swept.silent), (2, (3,)))
        self.servers.at[3].is_up = True
        self.swept()

    def test_a_sweep_that_a_node_refuses(self):
        """It is told, and what the node has stays for a later one."""
        self.world.client(1).put("name", LONG)
        self.servers.at[3].chunks[1, 7] = b"orphan"
        with mock.patch.object(self.servers.at[3], "forget", lambda *_: b"refused bad"):
            swept = self.world.client(1, others=(2,)).sweep()
        self.assertEqual((swept.silent, swept.refusing, self.servers.at[3].chunks[1, 7]), ((3,), (3,), b"orphan"))
        self.swept()

    def in_slots(self, room=None, **contents):
        """Contents that session 1 put before there were chunks, the long ones by turns in slots of session 2 too; what slot tables say."""
        self.world = World(slots=16)
        self.servers = self.world.servers
        self.give_room(room)
        old = OldClient(self.world.client(1).session, self.world.layout, [self.world.client(2).session], least=250)
        for name, content in contents.items():
            old.put(name, content, words=f"words-of-{name}")
        return self.told_by_tables()

    def give_room(self, allowed):
        for server in self.servers.at.values():
            server.allowed = server.allowed if allowed is None else allowed

    def told_by_tables(self):
        return tables(lambda *place: self.world.read(place), self.world.layout)

    def test_contents_in_slots_are_read_on(self):
        """By clients of all sessions, with room for chunks and without. What takes their place is in chunks; nobody writes a slot or a table any more."""
        told = self.in_slots(room=0, name=OLD, long=LONG, joined=NEW)
        self.assertTrue(all(told))
        self.joined_of("name", "long")
        slots = {place: copy for place, copy in self.world.registers.items() if place[0] >= self.world.layout.names_volumes}
        for allowed in (0, 64 << 20):
            self.give_room(allowed)
            for session in (1, 2):
                files = self.world.client(session)
                self.assertEqual([(each.name, each.size, each.words) for each in files.names()], [("joined", len(OLD + LONG), "joined"), ("long", len(LONG), "words-of-long"), ("name", len(OLD), "words-of-name")])
                for name, content in (("name", OLD), ("long", LONG), ("joined", OLD + LONG)):
                    self.assertEqual((files.get(name)[0], files.stat(name).pieces > 1), (content, True))
        files, other = self.world.client(1), self.world.client(2)
        files.put("name", LONG)
        other.put("long", NEW)
        files.remove("joined")
        self.assertEqual([each.content.__class__ for each in (files.bucket("name").held("name"), other.bucket("long").held("long"))], [InChunks, InChunks])
        for reader in (files, other):
            self.assertEqual([content_or_none(reader, name) for name in ("name", "long", "joined")], [LONG, NEW, None])
            reader.close()
        self.swept()
        self.assertEqual([content_or_none(self.world.client(2), name) for name in ("name", "long", "joined")], [LONG, NEW, None])
        self.assertEqual(self.told_by_tables(), told)
        self.assertEqual({place: copy for place, copy in self.world.registers.items() if place[0] >= self.world.layout.names_volumes}, slots)

    def joined_of(self, *names):
        """Gives the name `joined` what these hold, one behind the other, by session 1."""
        files = self.world.client(1)
        bucket = files.bucket("joined")
        bucket.look(own=True)
        files.commit(bucket, "joined", joined([part for name in names for part in bucket.held(name).content.parts]), "joined")

    def test_no_room_for_chunks(self):
        """A content that fits no line is refused before anything is written, and why is told; one that fits is put, and slots are read."""
        told = self.in_slots(room=0, name=OLD)
        files, before = self.world.client(2), dict(self.world.registers)
        for content in (LONG, Stream(LONG), Stream(bytes(3 << 20))):
            with self.assertRaisesRegex(NoRoom, "name: no room: the plan gives the tenant none for chunks; .*more NAME 16G in chunks"):
                files.put("name", content)
        for server in self.servers.at.values():
            server.knows_chunks = False
        with self.assertRaisesRegex(NoRoom, "name: no room: nodes 0, 1, 2 and 3 keep no chunks; .*more NAME 16G in chunks"):
            self.world.client(1).put("name", LONG)
        with self.assertRaisesRegex(BadSettings, "nodes 0, 1, 2 and 3 keep no chunks"):
            renew(self.world.client(1))
        self.assertEqual((dict(self.world.registers), self.told_by_tables(), self.world.kept()), (before, told, set()))
        self.assertEqual(files.get("name")[0], OLD)
        files.put("name", b"short")
        self.assertEqual(self.world.client(1).get("name")[0], b"short")

    def test_renew(self):
        told = self.in_slots(name=OLD, stays=NEW, long=os.urandom(1_500))
        other = self.world.client(2)
        self.world.client(1).put("short", b"in its line", lambda: "words-of-short")
        other.names()
        before = [other.bucket(name).held(name) for name in ("name", "stays", "long", "short")]
        contents = {held.name: other.get(held.name)[0] for held in before}
        other.put("name", LONG)  # by then the first session's line is no more than an older one
        files = self.world.client(1)
        self.assertEqual(renew(files), Renewed(2, SHORT + 1_500, 0))
        files.close()
        self.assertEqual(self.told_by_tables(), told)
        for reader in (other, self.world.client(1)):
            self.assertEqual(reader.get("name")[0], LONG)
            for held in before[1:]:
                told, entry = reader.get(held.name)
                self.assertEqual((told, entry.version, entry.session, entry.words), (contents[held.name], held.version.number, 1, held.words))
        self.assertEqual(renew(self.world.client(1)), Renewed())
        self.swept()

    def joined(self):
        """A session with one name, whose content is joined of two that were put before it."""
        self.in_slots(one=OLD, two=LONG)
        files = self.world.client(1)
        bucket = files.bucket("one")
        bucket.refresh()
        bucket.look()
        files.commit(bucket, "joined", joined([bucket.held(name).content for name in ("one", "two")]), besides=frozenset(["one", "two"]))
        return files

    def test_renew_joined(self):
        files = self.joined()
        self.assertEqual(renew(files), Renewed(1, len(OLD + LONG), 0))
        files.close()
        reader = self.refreshed(self.world.client(2), "joined")
        self.assertEqual([type(part) for part in content_of(reader, "joined").parts], [InChunks, InChunks])
        self.assertEqual(reader.get("joined")[0], OLD + LONG)

    def test_renew_joined_without_room_for_all(self):
        files = self.joined()
        for server in self.servers.at.values():
            server.allowed = 3 * (SHORT + CHUNK_CHARGE)
        self.assertRaises(NoRoom, renew, files)
        files.close()
        self.assertEqual(self.world.kept(), set())
        self.assertEqual(self.world.client(2).get("joined")[0], OLD + LONG)

    def test_renew_dies_at_each_step(self):
        for step in itertools.count(1):
            self.setUp()
            contents = {"name": OLD, "long": LONG, "more": os.urandom(120)}
            self.in_slots(**contents)
            files = self.world.client(1, kill_at(step))
            try:
                renew(files)
                files.close()
                is_done = True
            except Killed:
                is_done = False
            files.session.carrier.die()
            self.world.surface()
            other = self.world.client(2)
            self.assertEqual({name: other.get(name)[0] for name in contents}, contents)
            self.world.client(1).put("last", NEW)
            self.world.lines_come()
            again = self.world.client(1)
            renew(again)
            again.close()
            self.assertEqual({name: other.get(name)[0] for name in contents}, contents)
            self.assertEqual(other.get("last")[0], NEW)
            self.swept()
            if is_done:
                break
        self.assertGreater(step, 15)

    def test_renew_while_others_put(self):
        """A put of another session at each step of it counts afterwards, and a get that it overtakes tells the same bytes."""
        for at in itertools.count(1):
            self.setUp()
            self.in_slots(name=OLD, long=LONG)
            other = self.world.client(2)
            other.get("name")
            is_put = False

            def step(now):
                nonlocal is_put
                if now == at:
                    is_put = True
                    other.put("name", NEW)

            files = self.world.client(1, step)
            renew(files)
            files.close()
            for reader in (other, self.world.client(1)):
                self.assertEqual((reader.get("name")[0], reader.get("long")[0]), (NEW if is_put else OLD, LONG))
            other.close()
            self.assertEqual(self.world.kept(), self.world.named())
            self.swept()
            if not is_put:
                break
        self.assertGreater(at, 15)

    def test_renew_without_room(self):
        self.in_slots(room=0, name=OLD, long=LONG)
        self.assertRaises(BadSettings, renew, self.world.client(1))
        self.give_room(3 * (SHORT + CHUNK_CHARGE))
        files = self.world.client(1)
        self.assertRaises(NoRoom, renew, files)  # (the first content has room, and has moved)
        files.close()
        reader = self.world.client(2)
        self.assertEqual([type(content_of(self.refreshed(reader, name), name)) for name in ("name", "long")], [InChunks, InSlots])
        self.assertEqual((reader.get("name")[0], reader.get("long")[0]), (OLD, LONG))
        self.assertEqual(self.world.kept(), self.world.named())
        self.swept()

    def refreshed(self, files, name):
        files.stat(name)
        return files

    def test_renew_in_a_full_page(self):
        """Words of chunks are longer than those of slots. What its page has no room for stays, and can be put and taken away as before."""
        self.world, kept = World(slots=60), {}
        old = OldClient(self.world.client(1).session, self.world.layout)
        with contextlib.suppress(NoRoom):
            for number in range(30):
                old.put(f"name-{number}", OLD[: 65 + number])
                kept[f"name-{number}"] = OLD[: 65 + number]
        files = self.world.client(1)
        told = renew(files)
        self.assertGreater(told.left, 0)
        self.assertEqual(told.moved + told.left, len(kept))
        reader = self.world.client(2)
        self.assertEqual({name: reader.get(name)[0] for name in kept}, kept)
        files.remove("name-0")

    def test_a_node_is_silent_amid_a_put(self):
        self.servers.at[2].is_up = False  # column 0 is not wholly up
        files = self.world.client(1)
        files.put("name", LONG)
        self.assertEqual({run.column for run in content_of(files, "name").runs}, {1})
        self.servers.at[2].is_up = True
        carrier = files.session.carrier
        count = 0

        def at_line(node, body):
            nonlocal count
            count += body.startswith(b"keep")
            self.servers.at[3].is_up = count < 6
            return True

        carrier.at_line = at_line
        files.writer.contents.chunks.ahead.asked = float("-inf")
        files.writer.contents.chunks.column_for = lambda rooms, size, least, but=(): 0 if 1 in but else 1
        content = os.urandom(12 * SHORT)
        files.put("name", content)
        self.assertIn(0, {run.column for run in content_of(files, "name").runs})
        self.assertEqual(self.world.client(2).get("name")[0], content)
        carrier.at_line = lambda node, body: True
        self.servers.at[3].is_up = True
        files.close()
        self.swept()

    def test_no_column_is_up_or_has_room(self):
        files = self.world.client(1)
        self.servers.at[0].is_up = self.servers.at[1].is_up = False
        with self.assertRaisesRegex(Unanswered, "no column"):
            files.put("name", LONG)
        self.servers.at[0].is_up = self.servers.at[1].is_up = True
        for server in self.servers.at.values():
            server.allowed = 300 + 3 * CHUNK_CHARGE
        files = self.world.client(1)
        with self.assertRaisesRegex(NoRoom, f"no room: 700 bytes take {700 + 7 * CHUNK_CHARGE}, and column 0 has {300 + 3 * CHUNK_CHARGE}, column 1 has {300 + 3 * CHUNK_CHARGE} free"):
            files.put("name", bytes(700))
        files.put("name", bytes(400))  # (which takes both)
        self.assertEqual({run.column for run in content_of(files, "name").runs}, {0, 1})
        with self.assertRaisesRegex(NoRoom, "no room: 700 bytes"):
            files.put("name", Stream(bytes(700)))
        files.put("name", b"short")
        files.close()  # (from then on there is room again)
        files.put("name", bytes(400))
        self.assertEqual(self.world.client(2).get("name")[0], bytes(400))
        self.assertEqual(self.world.kept(), self.world.named())

    def test_the_page_is_full(self):
        files = self.world.client(1)
        with self.assertRaisesRegex(NoRoom, "page 0 of session 1 has no room"):
            for number in range(100):
                files.put(f"name {number}", LONG)
        files.close()
        self.assertEqual(self.world.kept(), self.world.named())

    def test_a_source_that_changes(self):
        files = self.world.client(1)

        class Shorter(io.BytesIO):
            told_size = 400

        with self.assertRaisesRegex(Exception, "shorter"):
            files.put("name", Shorter(bytes(350)))
        Shorter.told_size = 250
        with self.assertRaisesRegex(Exception, "longer"):
            files.put("name", Shorter(bytes(350)))
        files.close()
        self.assertFalse(self.world.kept())

    def test_a_get_that_a_forget_overtakes(self):
        writer = self.world.client(1)
        writer.put("name", OLD)
        reader = self.world.client(2)
        state = []

        def at_line(node, body):
            if body.startswith(b"get") and len(state) < 3:
                state.append(os.urandom(250 + len(state)))
                writer.put("name", state[-1])
                writer.close()
            return True

        reader.session.carrier.at_line = at_line
        self.assertEqual(reader.get("name")[0], state[2])
        state.clear()
        reader.session.carrier.at_line = lambda node, body: at_line(node, body) if not state.clear() else True
        with self.assertRaisesRegex(Replaced, "replaced each of 20 times"):
            reader.get("name")

    def test_other_bytes_are_never_told(self):
        files = self.world.client(1)
        files.put("name", LONG)
        place = next(iter(content_of(files, "name").runs[0].places()))
        for server in self.servers.at.values():
            if place[1:] in server.chunks:
                server.chunks[place[1:]] = b"z" * SHORT
        with self.assertRaisesRegex(Damaged, "name: its chunks don't hold it"):
            self.world.client(2).get("name")

    def test_a_named_chunk_that_nobody_has(self):
        files = self.world.client(1)
        files.put("name", LONG)
        for server in self.servers.at.values():
            server.chunks.clear()
        with self.assertRaisesRegex(Damaged, "name: its chunks don't hold it"):
            self.world.client(2).get("name")

    def test_a_lost_node(self):
        files = self.world.client(1)
        files.put("name", LONG)
        for place in (0, 1):
            self.servers.lose(place)
        other = self.world.client(2)
        self.assertEqual(other.get("name")[0], LONG)
        other.put("name", OLD)
        other.put("other", NEW)
        self.assertEqual(self.world.client(1).get("name")[0], OLD)
        other.close()
        files.close()
        self.swept()
        self.assertEqual(self.world.client(1).get("other")[0], NEW)

    def test_how_nodes_are_arranged_is_not_said(self):
        self.world.client(1).put("name", LONG)
        self.servers.shape = None
        other = self.world.client(2)
        with self.assertRaisesRegex(BadSettings, "name is in chunks: `grid` has to say"):
            other.get("name")
        with self.assertRaisesRegex(NoRoom, "other: no room: no node tells how the nodes are arranged"):
            other.put("other", OLD)
        other.put("other", b"short")

    def test_the_status_tells_room_by_column(self):
        files = self.world.client(1)
        files.put("name", LONG)
        self.servers.lose(0)
        self.servers.at[3].is_up = False
        usage = usage_of(self.world.client(2))
        lines = [line for line in usage_lines(usage, None) if line.startswith("chunks")]
        column = files.bucket("name").held("name").content.runs[0].column
        used = [0, 0]
        used[column] = len(LONG) + CHUNK_CHARGE * -(-len(LONG) // SHORT)
        end = ["; chunks are lacking at node 64", "; node 3 did not answer"]
        self.assertEqual(lines, [f"chunks in column {each}: {used[each]} bytes used of {64 << 20}{end[each]}" for each in (0, 1)])
        self.assertEqual(usage_value(usage, None)["chunks"][1], {"column": 1, "used": used[1], "allowed": 64 << 20, "silent": (3,), "lacking": ()})

    def test_what_is_replaced_can_be_read_for_a_while(self):
        files = self.world.client(1)
        files.put("name", OLD)
        files.put("name", LONG)
        files.put("other", LONG)
        self.assertGreater(len(self.world.kept()), len(self.world.named()))
        files.forget_after = 0
        files.put("last", NEW)  # (which asks nodes to forget, and waits for none)
        self.assertGreater(len(self.world.kept()), len(self.world.named()))
        files.get("last")
        self.assertEqual(self.world.kept(), self.world.named())


class Lists(unittest.TestCase):
    """A line that names a list of contents."""

    def setUp(self):
        self.world = World()
        self.files = self.world.client(1)
        self.contents = self.files.writer.contents
        self.parts = [self.put_part(os.urandom(size)) for size in (150, 10, 99, 300)]

    def put_part(self, content):
        from gridfs_client.streams import Source

        return self.contents.put(Source(content), 0, lambda *_: None), content

    def commit(self, name, parts):
        listed = self.contents.put_list(((part, f"{{{at}}}") for at, (part, _) in enumerate(parts)), 1)
        bucket = self.files.bucket(name)
        bucket.look()
        self.files.commit(bucket, name, listed)
        return listed

    def test_read_and_forgotten(self):
        listed = self.commit("name", self.parts)
        other = self.world.client(2)
        self.assertEqual(other.get("name")[0], b"".join(content for _, content in self.parts))
        self.assertEqual([word for _, word in other.writer.contents.entries(listed)], ["{0}", "{1}", "{2}", "{3}"])
        self.world.client(1, others=(2,)).sweep()
        self.assertEqual(self.world.kept(), self.world.named())
        self.assertEqual(other.get("name")[0], b"".join(content for _, content in self.parts))
        # A list of some of them takes its place: the others go, and these stay.
        self.files = self.world.client(1)
        self.contents = self.files.writer.contents
        self.commit("name", self.parts[1:3])
        self.files.close()
        self.assertEqual(self.world.kept(), self.world.named())
        self.assertEqual(self.world.client(2).get("name")[0], b"".join(content for _, content in self.parts[1:3]))
        self.files = self.world.client(1)
        self.files.remove("name")
        self.files.close()
        self.assertFalse(self.world.kept())

    def test_no_list(self):
        from gridfs_client.streams import Source

        for text in (b"x", b"3 x 0.1:7\n", b"9 " + b"A" * 43 + b" 0.1:7\n", self.parts[0][0].text().encode() + b"\n"):
            at = self.contents.put(Source(text), 0, lambda *_: None)
            with self.assertRaises(Damaged):
                self.contents.entries(PartList(10, at.digest, at.size, at.runs))

    def test_a_list_that_is_gone_lets_a_sweep_forget_nothing(self):
        listed = self.commit("name", self.parts)
        for server in self.world.servers.at.values():
            for place in listed.runs[0].places():
                server.chunks.pop(place[1:], None)
            server.chunks[1, 7] = b"orphan"
        with self.assertRaises(Damaged):
            self.world.client(1, others=(2,)).sweep()
        self.assertIn((0, 1, 7), self.world.kept())


if __name__ == "__main__":
    random.seed(1)
    unittest.main()
