"""The last way back: contents of each form, read from journals of nodes and the folders beside them, as far as a copy
of them is left.
"""

import contextlib
import filecmp
import hashlib
import io
import os
import shutil
import tempfile
import unittest
from unittest import mock

from memory_with_chunks import SHORT, World

from gridfs_client import copies, journals_command, shelves
from gridfs_client.command import told_of
from gridfs_client.contents import joined
from gridfs_client.errors import BadFile
from gridfs_client.in_chunks import ReadContents
from gridfs_client.journals import Journals
from gridfs_client.mirror import ToFolder, ToGrid
from gridfs_client.names import NamedFiles
from gridfs_client.shelves import segments_in, sum_of
from gridfs_client.streams import Source
from in_slots import OldClient

IN_JOURNAL, IN_SEGMENT = 40, 3  # bytes of a chunk that is no longer than that, and chunks of a segment
FORMS = {"a/none": b"", "a/page": b"short", "one chunk": b"x" * SHORT, "in the journal": b"\\ and\n" * 6}
LONG, PARTS = os.urandom(350), [os.urandom(130), os.urandom(SHORT), b"\\ \n" * 9]


def in_bytes(content):
    """A content as a word of a line."""
    return b"=" + content.replace(b"\\", b"\\b").replace(b" ", b"\\s").replace(b"\n", b"\\n") if content else b"-"


class Disk:
    """The journal of a node and the folder beside it."""

    def __init__(self, path, number, plan):
        self.path, self.number, self.plan, self.count, self.segment = path, number, plan, 0, 0
        os.makedirs(path + ".shelf")
        self.at = {}  # of each chunk its segment, place and bytes
        self.append(f"node {number} of 2 by 2\n{plan}".encode())

    def append(self, lines):
        self.count += 1
        with open(self.path, "ab") as out:
            out.write(lines + f"sync {self.count} {len(lines)} {'a' * 16}\n".encode())

    def segment_path(self, number):
        return os.path.join(self.path + ".shelf", f"{number:010}")

    def keep_file(self, place, copy):
        head = b"kept ann %d %d %d %d " % (*place, copy.tag.number, copy.tag.session)
        self.append(head + in_bytes(copy.content) + b"\n")

    def keep(self, key, content, sure=1):
        if len(content) <= IN_JOURNAL:
            self.append(b"chunk ann %d %d %d " % (*key, sure) + in_bytes(content) + b"\n")
            return
        if sum(segment == self.segment for segment, *_ in self.at.values()) % IN_SEGMENT == 0:
            self.segment += 1
        with open(self.segment_path(self.segment), "ab") as out:
            at = out.tell()
            out.write(content)
        self.at[key] = self.segment, at, content
        numbers = *key, sure, self.segment, at, len(content), sum_of(at, content)
        self.append(b"extent ann %d %d %d %d %d %d %d\n" % numbers)

    def move(self):
        """All chunks go to other segments, and the old ones go."""
        old, self.at = self.at, {}
        self.segment += 1
        for key, (_, _, content) in old.items():
            self.keep(key, content)
        for number in {segment for segment, *_ in old.values()}:
            os.unlink(self.segment_path(number))

    def turn_bytes(self, key):
        segment, at, content = self.at[key]
        with open(self.segment_path(segment), "r+b") as file:
            file.seek(at)
            file.write(bytes(byte ^ 1 for byte in content))


class Cases(unittest.TestCase):
    def setUp(self):
        folder = tempfile.TemporaryDirectory()
        self.addCleanup(folder.cleanup)
        self.folder = folder.name
        for patched in (mock.patch.object(ReadContents, "most", SHORT), mock.patch("os.fsync")):
            patched.start()
            self.addCleanup(patched.stop)
        self.world, self.held = World(sessions=2, slots=9, levels=(2,)), {}

    # What is there

    def put(self, session, name, content):
        self.world.client(session).put(name, content)
        self.held[name] = content

    def put_to(self, column, name, content):
        """At this column, whichever is the session's own."""
        away = [server for place, server in self.world.servers.at.items() if place % 2 != column]
        for server in away:
            server.is_up = False
        try:
            self.put(1, name, content)
        finally:
            for server in away:
                server.is_up = True

    def put_all_forms(self):
        """A content of each form: in the page, in slots, in one chunk, in several, in the journal's, in parts, and in
        parts that a list names; one put over, and a removal.
        """
        for name, content in FORMS.items():
            self.put(1, name, content)
            self.put(2, f"{name} of another", content[::-1])
        self.put(1, "several", LONG)
        self.put(1, "over", LONG)
        self.put(1, "over", LONG[::-1])
        self.put(2, "gone", LONG)
        self.world.client(2).remove("gone")
        del self.held["gone"]
        OldClient(self.world.client(1).session, self.world.layout).put("slots", LONG)
        self.held["slots"] = LONG
        self.put_parts("parts")
        self.put_parts("listed", in_lists=True)

    def put_parts(self, name, in_lists=False):
        files = self.world.client(2)
        contents = files.writer.contents
        parts = [contents.put(Source(each), at % 2, lambda *_: None) for at, each in enumerate(PARTS)]
        listed = [contents.put_list([(part, f"{{{at}}}") for at, part in enumerate(parts)], 0)] if in_lists else []
        behind = contents.put(Source(PARTS[0]), 1, lambda *_: None)
        bucket = files.bucket(name)
        bucket.look()
        files.commit(bucket, name, joined([*listed, behind] if in_lists else parts))
        self.held[name] = b"".join([*PARTS, *(PARTS[:1] if in_lists else [])])

    def plan(self):
        opened = "".join(f"ann open {volume.files} {volume.blocks}\n" for volume in self.world.layout.volumes)
        tenants = f"tenant bob 10 1 9 16\ntenant ann 900 {self.world.layout.sessions} 9 64\n"
        return f"grid 2 2\nroom 9000\n{tenants}go\nbob open 1 1\n{opened}ann chunks 100\n"

    def disks(self, sure=1):
        """The disks of four nodes: pages stand at all nodes of column 0."""
        found = [Disk(os.path.join(self.folder, f"{number}"), number, self.plan()) for number in range(4)]
        for place, copy in self.world.registers.items():
            for disk in found[::2]:
                disk.keep_file(place, copy)
        for place, server in self.world.servers.at.items():
            for key, content in server.chunks.items():
                found[place].keep(key, content, sure)
        return found

    # What is read

    def get(self, *numbers, more=()):
        out = os.path.join(self.folder, "out")
        shutil.rmtree(out, ignore_errors=True)
        status, _, why = self.command("get", *more, "ann", out, *(self.at(number) for number in numbers))
        found = {}
        for inside, _, names in os.walk(out):
            for name in names:
                with open(os.path.join(inside, name), "rb") as file:
                    found[os.path.relpath(os.path.join(inside, name), out)] = file.read()
        return status, found, why

    def at(self, name):
        return os.path.join(self.folder, str(name))

    def command(self, *words):
        told = io.TextIOWrapper(io.BytesIO())
        with contextlib.redirect_stderr(io.StringIO()) as why, contextlib.redirect_stdout(told):
            status = journals_command.main(words)
            told.flush()
        return status, told.buffer.getvalue(), why.getvalue()

    def chunks_of(self, name):
        runs = self.world.client(1).writer.contents.runs_in(self.content_of(name).parts)
        return [place for run in runs for place in run.places()]

    def content_of(self, name):
        bucket = self.world.client(1).bucket(name)
        bucket.refresh()
        return bucket.held(name).content


class Reading(Cases):
    def test_all_forms(self):
        self.put_all_forms()
        self.disks()
        for row in ((0, 1), (2, 3), (0, 1, 2, 3), (3, 2)):
            self.assertEqual(self.get(*row), (0, self.held, ""))

    def test_pages_that_split(self):
        self.put_all_forms()
        for session in (1, 2):
            self.assertGreater(self.world.client(session).grow().pages, 0)
        self.put(2, "behind", LONG)
        self.disks()
        self.assertEqual(self.get(0, 1), (0, self.held, ""))

    def test_moved_segments(self):
        self.put_all_forms()
        disks = self.disks()
        for disk in disks:
            disk.move()
        self.assertEqual(self.get(0, 1), (0, self.held, ""))

    def test_one_column_is_left(self):
        """What the other column alone had is told by its name and counted, all else is there."""
        self.put_all_forms()
        for column in (0, 1):
            self.put_to(column, f"at {column}", LONG)
        self.disks()
        is_here = lambda name: all(column == 0 for column, _, _ in self.chunks_of(name))
        whole = {name for name in self.held if name == "slots" or is_here(name)}
        lost = sorted(self.held.keys() - whole)
        self.assertTrue({"at 1", "parts", "listed"} <= set(lost) and "at 0" in whole)
        status, found, told = self.get(0, 2)
        self.assertEqual((status, found), (10, {name: self.held[name] for name in whole}))
        for name in lost:
            self.assertIn(f"/out/{name}: {name}: no copy of chunk ", told)
        self.assertIn("no journal here is of that column", told)
        counted = f": {len(lost)} skipped; of {len(lost)} of them no journal and folder here has a whole copy\n"
        self.assertIn(counted, told)

    def test_copies_without_folders(self):
        self.put_all_forms()
        for disk in self.disks():
            shutil.rmtree(disk.path + ".shelf")
        status, found, told = self.get(0, 1)
        self.assertEqual(status, 10)
        self.assertEqual({"a/page", "in the journal", "slots"} - found.keys(), set())
        self.assertRegex(told, "/out/several: several: no copy of chunk .*: without segment 1 at node [01]\n")

    def test_damage(self):
        """A copy whose digest or sum is wrong counts as none."""
        self.put(1, "name", LONG)
        self.put(1, "other", LONG)
        disks, (column, *key) = self.disks(), self.chunks_of("name")[1]
        first, second = disks[column], disks[2 + column]
        first.turn_bytes(tuple(key))
        for order in ((0, 1, 2, 3), (3, 2, 1, 0)):
            self.assertEqual(self.get(*order), (0, self.held, ""))
        second.turn_bytes(tuple(key))
        status, found, told = self.get(0, 1, 2, 3)
        self.assertEqual((status, found), (10, {"other": LONG}))
        both = f"damaged at node {column}; damaged at node {2 + column}"
        self.assertIn(f": name: no copy of chunk {key[1]} of session 1 at column {column}: {both}\n", told)

    def test_copies_that_are_alone(self):
        """Each node of a column has lost other segments: what is whole together is got."""
        self.put(1, "name", LONG)
        disks = self.disks()
        for disk, number in ((disks[0], 1), (disks[1], 1), (disks[2], 2), (disks[3], 2)):
            with contextlib.suppress(FileNotFoundError):
                os.unlink(disk.segment_path(number))
        self.assertEqual(self.get(0, 1, 2, 3), (0, self.held, ""))

    def test_a_new_node(self):
        """What a new node kept itself counts where there is no other copy."""
        self.put(1, "name", LONG)
        self.disks()
        column, session, number = self.chunks_of("name")[0]
        new = Disk(os.path.join(self.folder, "new"), 66 + column, self.plan() + f"replace {2 + column}\n")
        new.keep((session, number), b"y" * SHORT, sure=0)
        self.assertEqual(self.get("new", 0, 1), (0, self.held, ""))

    def test_what_no_node_tells(self):
        """Nodes that lack chunks kept all there is: the digests say that it is right."""
        self.put_all_forms()
        self.disks(sure=0)
        self.assertEqual(self.get(0, 1), (0, self.held, ""))

    def test_a_node_that_runs(self):
        """It moves chunks and removes segments before a journal is read, and behind it: what was opened is read."""
        self.put_all_forms()
        disks, read_facts, moved = self.disks(), shelves.NodeFiles.read_facts, []

        def and_moves(files):
            disk = disks[int(os.path.basename(files.path))]
            if len(moved) < 4:
                disk.move()
            facts = read_facts(files)
            if len(moved) < 8:
                disk.move()
            moved.append(disk.number)
            return facts

        with mock.patch.object(shelves.NodeFiles, "read_facts", and_moves):
            self.assertEqual(self.get(0, 1), (0, self.held, ""))
        self.assertGreater(len(moved), 2)

    def test_it_is_removed_meanwhile(self):
        self.put_all_forms()
        disks, get_to = self.disks(), NamedFiles.get_to

        def then_moved(files, name, target):
            for disk in disks:
                disk.move()
            return get_to(files, name, target)

        with mock.patch.object(NamedFiles, "get_to", then_moved):
            self.assertEqual(self.get(0, 1), (0, self.held, ""))

    def test_others_and_those_who_left(self):
        self.put(1, "name", LONG)
        for disk in self.disks():
            disk.append(b"extent bob 1 7 1 9 0 50 98\nchunk bob 1 8 1 =x\n")
        self.assertEqual(self.get(0, 1), (0, self.held, ""))
        for disk in (0, 1):
            later = self.plan().replace("tenant ann", "tenant eve").replace("\nann ", "\neve ") + "gone ann\n"
            Disk(self.at(f"later {disk}"), disk, later)
        status, found, told = self.get("later 0", "later 1")
        self.assertEqual((status, found), (2, {}))
        self.assertIn("the journals have no tenant ann", told)

    def test_memory_of_one_tenant_alone(self):
        self.put(1, "name", LONG)
        disks = self.disks()
        for disk in disks:
            disk.append(b"extent bob 1 7 1 9 0 50 98\n")
        with contextlib.closing(Journals([disk.path for disk in disks], "ann")) as journals:
            self.assertEqual({tenant for node in journals.nodes for tenant, _ in node.facts.sessions}, {"ann"})


class Mirrors(Cases):
    """A folder and names, also of contents that were put in parts."""

    def mirror(self, kind, **wishes):
        @contextlib.contextmanager
        def names(_):
            files = self.world.client(1)
            yield files
            files.close()

        tell = lambda *_: None
        return kind(self.at("mirror"), "", names, lambda _: 0, tell, self.fail, **wishes).run()

    def test_what_was_put_in_parts_is_not_moved_again(self):
        self.put_all_forms()
        self.assertEqual(set(self.mirror(ToFolder).moved), set(self.held))
        for kind in (ToFolder, ToGrid):
            report = self.mirror(kind)
            self.assertEqual((report.moved, report.same), ([], len(self.held)))
        for name, at in (("parts", 3), ("listed", -1), ("several", 3)):
            path = os.path.join(self.folder, "mirror", name)
            with open(path, "r+b") as file:
                file.seek(at, os.SEEK_SET if at >= 0 else os.SEEK_END)
                file.write(b"?!?"[: 3 if at >= 0 else 1])
            with open(path, "rb") as file:
                self.held[name] = file.read()
        self.assertEqual(set(self.mirror(ToGrid).moved), {"parts", "listed", "several"})
        self.assertEqual({name: self.world.client(2).get(name)[0] for name in self.held}, self.held)

    def test_what_is_told_of_parts(self):
        self.put_all_forms()
        entries = {entry.name: entry for entry in self.world.client(1).names()}
        for name, content in self.held.items():
            whole = hashlib.sha256(content).hexdigest()
            self.assertEqual(entries[name].sha256, "" if name in ("parts", "listed") else whole)
            self.assertEqual(told_of(entries[name]).get("sha256", whole), whole)
            told, begin = self.world.client(2).parts(name), 0
            for part in told:
                own = hashlib.sha256(content[begin : begin + part.size]).hexdigest()
                self.assertEqual((part.is_list, part.sha256), (False, own))
                begin += part.size
            self.assertEqual((begin, len(told)), (len(content), 3 if name == "parts" else 4 if name == "listed" else 1))
        self.assertEqual([part["size"] for part in told_of(entries["parts"])["parts"]], list(map(len, PARTS)))
        words = [sorted(part) for part in told_of(entries["listed"])["parts"]]
        self.assertEqual(words, [["list_sha256", "size"], ["sha256", "size"]])


class Copies(Cases):
    """Copies of nodes, of which names are read as of the nodes themselves."""

    def by_stream(self, number, had=True):
        """The bytes that went to a copy; what is told where it is refused."""
        target = self.at(f"copies/{number}")
        stream = self.stream_of(number, segments_in(f"{target}/journal.shelf") if had else {})
        return copies.take_stream(stream, target)

    def stream_of(self, number, had):
        stream = io.BytesIO()
        with contextlib.closing(shelves.NodeFiles(self.at(number))) as files:
            copies.write_stream(files, stream, had)
        stream.seek(0)
        return stream

    def test_streams(self):
        """A stream makes the same copy, a later one brings what is new, and one that ends early leaves a copy that
        can be gone on with.
        """
        self.put_all_forms()
        disks = self.disks()
        first = [self.by_stream(disk.number) for disk in disks]
        self.assertEqual(self.from_copies(0, 1), (0, self.held, ""))
        for disk in disks:
            disk.move()
            disk.keep((2, 90), b"z" * SHORT)
        self.assertLess(self.by_stream(0), 2 * first[0])
        whole = self.stream_of(1, segments_in(self.at("copies/1/journal.shelf"))).getvalue()
        before = self.get(*[f"copies/{number}/journal" for number in (2, 3)])
        self.assertEqual(before, (0, self.held, ""))
        base, tried = (os.path.join(self.folder, folder, "1") for folder in ("copies", "tried"))
        for length in range(0, len(whole) - 1024 * 10, 2_000):
            shutil.copytree(base, tried)
            with self.assertRaisesRegex(BadFile, "the stream "):
                copies.take_stream(io.BytesIO(whole[:length]), tried)
            copies.take_stream(self.stream_of(1, segments_in(f"{tried}/journal.shelf")), tried)
            self.assertEqual(self.get("copies/0/journal", "tried/1/journal"), (0, self.held, ""))
            shutil.rmtree(tried)

    def test_streams_that_are_refused(self):
        self.put(1, "name", LONG)
        self.disks()
        self.by_stream(0)
        with self.assertRaisesRegex(BadFile, "goes on from 0"):
            self.by_stream(0, had=False)
        os.rename(os.path.join(self.folder, "copies", "0"), os.path.join(self.folder, "copies", "1"))
        with self.assertRaisesRegex(BadFile, "it has a copy of node 0, and this is node 1"):
            self.by_stream(1)
        for text in (b"", b"no archive", b"x" * 9_000):
            with self.assertRaisesRegex(BadFile, "no copy of a node"):
                copies.take_stream(io.BytesIO(text), os.path.join(self.folder, "copies", "2"))
        for text in ("1", "a 2", "1 2 3"):
            with self.assertRaises(BadFile):
                copies.parse_had(text)
        self.assertEqual(copies.parse_had("0000000001 70\n0000000012 5\n"), {1: 70, 12: 5})

    def copy(self, number, status=0):
        seen, told, why = self.command("copy", self.at(number), self.at(f"copies/{number}"))
        self.assertEqual(seen, status, why)
        return int(told.split(b"segments; ")[1].split()[0]) if status == 0 else why

    def from_copies(self, *numbers):
        return self.get(*(f"copies/{number}/journal" for number in numbers))

    def in_copy(self, number):
        return sorted(os.listdir(os.path.join(self.folder, "copies", str(number), "journal.shelf")))

    def test_what_a_copy_has(self):
        self.put_all_forms()
        for disk in self.disks():
            self.copy(disk.number)
            found, copied = self.in_copy(disk.number), self.at(f"copies/{disk.number}/journal.shelf")
            shared = [name for name in found if os.path.samefile(f"{disk.path}.shelf/{name}", f"{copied}/{name}")]
            self.assertEqual(found, sorted(os.listdir(disk.path + ".shelf")))
            self.assertNotIn(max(found), shared)  # (it grows)
        for row in ((0, 1), (2, 3)):
            self.assertEqual(self.from_copies(*row), (0, self.held, ""))

    def test_again(self):
        """A copy gets what is new, and loses what is not named any more."""
        self.put_all_forms()
        disks = self.disks()
        for disk in disks:
            self.copy(disk.number)
            self.assertLessEqual(self.copy(disk.number), os.path.getsize(disk.path))
        before = self.in_copy(0)
        for disk in disks:
            disk.move()
            self.copy(disk.number)
        self.assertFalse(set(before) & set(self.in_copy(0)))
        self.assertEqual(self.from_copies(0, 1), (0, self.held, ""))

    def test_a_segment_that_grows(self):
        self.put(1, "name", LONG)
        disks = self.disks()
        for disk in disks:
            self.copy(disk.number)
            for number in range(IN_SEGMENT):
                disk.keep((2, 90 + number), b"z" * SHORT)
            self.copy(disk.number)
            for name in self.in_copy(disk.number):
                copied = self.at(f"copies/{disk.number}/journal.shelf/{name}")
                self.assertTrue(filecmp.cmp(f"{disk.path}.shelf/{name}", copied, shallow=False))

    def test_copies_of_different_times(self):
        """They are no state, which is why nodes are held together (holding.py): an earlier one has the page, and of the
        chunks that it names a later one has forgotten them. The name was there before the first copy, and is there in
        copies of each of both times.
        """
        self.put_to(1, "name", LONG)
        self.disks()
        for number in range(4):
            self.copy(number)
        self.assertEqual(self.from_copies(0, 1), (0, self.held, ""))
        for number in range(4):
            os.unlink(self.at(number))
            shutil.rmtree(self.at(f"{number}.shelf"))
        shutil.rmtree(self.at("copies/1"))
        shutil.rmtree(self.at("copies/3"))
        before = self.chunks_of("name")
        files = self.world.client(1)
        files.put("name", LONG[::-1])
        files.close()
        self.assertFalse(set(before) & set(self.chunks_of("name")))
        self.disks()
        for number in (1, 3):
            self.copy(number)
        status, found, told = self.from_copies(0, 1, 2, 3)
        self.assertEqual((status, found), (journals_command.LACKING, {}))
        self.assertRegex(told, "name: no copy of chunk .* at column 1: not at node 1 and 3")
        shutil.rmtree(self.at("copies"))
        for number in range(4):
            self.copy(number)
        self.assertEqual(self.from_copies(0, 1), (0, {"name": LONG[::-1]}, ""))

    def test_where_nothing_can_be_shared(self):
        self.put_all_forms()
        self.disks()
        with mock.patch("gridfs_client.copies.shares", lambda *_: False):
            for number in range(4):
                self.assertGreater(self.copy(number), 0)
        self.assertEqual(self.from_copies(0, 1), (0, self.held, ""))

    def test_a_node_that_moves_chunks_meanwhile(self):
        self.put_all_forms()
        disks, read_facts, moved = self.disks(), shelves.NodeFiles.read_facts, []

        def and_moves(files):
            disk = disks[int(os.path.basename(files.path))]
            if len(moved) % 5 < 2:
                disk.move()
            facts = read_facts(files)
            if len(moved) % 5 < 4:
                disk.move()
            moved.append(disk.number)
            return facts

        with mock.patch.object(shelves.NodeFiles, "read_facts", and_moves):
            for disk in disks:
                self.copy(disk.number)
        self.assertGreater(len(moved), 4)
        self.assertEqual(self.from_copies(2, 3), (0, self.held, ""))

    def test_killed(self):
        """What a copy left that was killed at any file is gone on with."""
        self.put_all_forms()
        self.disks()
        for step in range(1, 50):
            count = [0]

            def then_killed(*words, count=count, step=step):
                count[0] += 1
                if count[0] == step:
                    raise KeyboardInterrupt

            with mock.patch("gridfs_client.copies.like", then_killed):
                status = self.command("copy", self.at(0), self.at("copies/0"))[0]
            self.copy(0)
            self.copy(1)
            self.assertEqual(self.from_copies(0, 1), (0, self.held, ""))
            shutil.rmtree(os.path.join(self.folder, "copies"))
            if status == 0:
                break
        self.assertGreater(step, 3)

    def test_what_is_refused(self):
        self.put(1, "name", LONG)
        self.disks()
        self.copy(0)
        os.rename(os.path.join(self.folder, "copies", "0"), os.path.join(self.folder, "copies", "1"))
        self.assertIn("it has a copy of node 0, and this is node 1", self.copy(1, 9))
        os.unlink(os.path.join(self.folder, "copies", "1", "journal"))
        self.assertIn("segments are there without a journal", self.copy(1, 9))
        shutil.rmtree(os.path.join(self.folder, "2.shelf"))
        self.assertIn("segments are missing, 2 of node 2", self.copy(2, journals_command.LACKING))


class Sums(unittest.TestCase):
    def test_as_the_journal_has_them(self):
        """(The example of docs/FORMATS.md.)"""
        self.assertEqual(sum_of(3, b"began ann 1 1024\nkept ann 1 2 7 1 =a\\sb\n"), 0x9C2CEDF198B631B3)


if __name__ == "__main__":
    unittest.main()
