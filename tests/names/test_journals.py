"""Journals of nodes, read as files: which copies count, what can't be read, and what tenants have by them."""

import ast
import contextlib
import io
import os
import random
import re
import sys
import tempfile
import unittest

sys.path.insert(0, os.path.dirname(os.path.abspath(__file__)))
from memory import Memory

from gridfs_client import Damaged, Tag, journals_command
from gridfs_client.errors import BadFile, BadSettings
from gridfs_client.journals import Journals
from gridfs_client.usage import usage_of

TOP = os.path.join(os.path.dirname(os.path.abspath(__file__)), "..", "..")
SESSIONS = 3


def in_bytes(content):
    """A content as a word of a line."""
    return b"=" + content.replace(b"\\", b"\\b").replace(b" ", b"\\s").replace(b"\n", b"\\n") if content else b"-"


class Node:
    """A node's journal, without digests."""

    def __init__(self, path, number, plan):
        self.path, self.count = path, 0
        self.write(f"node {number} of 2 by 2\n{plan}".encode())

    def write(self, lines):
        self.count += 1
        with open(self.path, "ab") as out:
            out.write(lines + f"sync {self.count} {len(lines)} {'a' * 16}\n".encode())

    def keep(self, tenant, place, tag, content, word="kept"):
        self.write(f"{word} {tenant} {place[0]} {place[1]} {tag.number} {tag.session} ".encode() + in_bytes(content) + b"\n")


class Recorded(Memory):
    """What is written goes to the nodes of one column."""

    def __init__(self, folder, draw):
        super().__init__(SESSIONS, pages=2, slots=6)  # (which older clients had)
        self.draw, self.path = draw, lambda number: os.path.join(folder, f"journal.{number}")
        opened = "".join(f"ann open {volume.files} {volume.blocks}\n" for volume in self.layout.volumes)
        self.plan = f"grid 2 2\nroom 9000\ntenant bob 10 1 9 16\ntenant ann 900 {SESSIONS} 9 64\ngo\nbob open 1 1\n{opened}"
        self.nodes = [Node(self.path(number), number, self.plan) for number in range(4)]

    def take(self, write):
        tag, column = super().take(write), self.draw.choice((0, 1))
        for node in (self.nodes[column], self.nodes[2 + column]):
            node.keep("ann", write.place, tag, write.content, self.draw.choice(("kept", "had")))
        return tag


class Readers(unittest.TestCase):
    """Who adds a form of a content finds all who read contents in docs/A_LINE.md."""

    FORMS = {"Inline", "InSlots", "InChunks", "PartList", "Joined", "PartTold", "ReadContents", "ChunkContents"}

    def readers_in(self, package):
        folder = os.path.join(TOP, "clients", "python", package)
        found = {"contents.py"} & set(os.listdir(folder))
        for name in os.listdir(folder):
            if name.endswith(".py") and name != "__init__.py":
                with open(os.path.join(folder, name), encoding="utf-8") as file:
                    tree = ast.parse(file.read())
                imports = [node for node in ast.walk(tree) if isinstance(node, ast.ImportFrom)]
                imported = {each.name for node in imports for each in node.names}
                found |= {name} if imported & self.FORMS else set()
        return found

    def test_the_page_has_them_all(self):
        with open(os.path.join(TOP, "docs", "A_LINE.md"), encoding="utf-8") as file:
            (line,) = [line for line in file if line.startswith("- *A form of a content:*")]
        of_client, _, of_gateway = line.partition(";")[0].partition("of the gateway")
        for told, package in ((of_client, "gridfs_client"), (of_gateway, "gridfs_s3")):
            self.assertEqual(set(re.findall(r"`(\w+\.py)`", told)), self.readers_in(package))


class Cases(unittest.TestCase):
    def setUp(self):
        folder = tempfile.TemporaryDirectory()
        self.addCleanup(folder.cleanup)
        self.folder = folder.name
        self.memory = Recorded(self.folder, random.Random(5))

    def put(self, contents):
        for turn, (name, content) in enumerate(contents.items()):
            self.memory.client(1 + turn % SESSIONS).put(name, content)

    def read(self, *numbers):
        journals = Journals([self.memory.path(number) for number in numbers])
        self.addCleanup(journals.close)
        return journals

    def command(self, *words):
        with contextlib.redirect_stderr(io.StringIO()) as told, contextlib.redirect_stdout(io.TextIOWrapper(io.BytesIO())) as out:
            status = journals_command.main(words)
            out.flush()
        return status, out.buffer.getvalue().decode(), told.getvalue()

    def test_a_row_tells_what_the_tenant_is_told(self):
        held = {f"name {number}": bytes([number]) * 9 * number for number in range(12)}
        self.put(held)
        self.memory.client(2).remove("name 7")
        del held["name 7"]
        wanted = usage_of(self.memory.client(1))
        for row in ((0, 1), (2, 3), (1, 0), (0, 1, 2, 3)):
            journals = self.read(*row)
            self.assertTrue(journals.has_whole_row)
            self.assertEqual(usage_of(journals.files("ann")), wanted)
            files = journals.files("ann")
            self.assertEqual({name: files.get(name)[0] for name in held}, held)
        for column in ((0,), (1, 3), (0, 3)):
            self.assertFalse(self.read(*column).has_whole_row)

    def test_pages_are_enough_for_room(self):
        self.put({"a": b"x" * 200, "b": b"", "c": b"short and \\ with\nlines"})
        wanted, paths = usage_of(self.memory.client(1)), []
        for number in (0, 1):
            paths.append(os.path.join(self.folder, f"pages.{number}"))
            with open(paths[-1], "wb") as out:
                self.read(number).write_pages(out)
            self.assertLess(os.path.getsize(paths[-1]), os.path.getsize(self.memory.path(number)))
        with contextlib.closing(Journals(paths)) as journals:
            self.assertTrue(journals.has_whole_row)
            self.assertEqual(usage_of(journals.files("ann")), wanted)

    def test_what_is_being_written_does_not_count(self):
        node, ann = self.memory.nodes[0], lambda: self.read(0).files("ann").session.read(0, 1).content
        node.keep("ann", (0, 1), Tag(5, 1), b"one")
        whole = os.path.getsize(node.path)
        node.keep("ann", (0, 1), Tag(7, 1), b"two and\nthree")
        node.keep("ann", (0, 1), Tag(6, 1), b"an older one")
        self.assertEqual(ann(), b"two and\nthree")
        with open(node.path, "rb") as file:
            text = file.read()
        for length in range(whole, text.index(b"kept ann 0 1 6 1")):
            with open(node.path, "wb") as out:
                out.write(text[:length])
            self.assertEqual(ann(), b"one")

    def test_damage(self):
        self.memory.nodes[0].keep("ann", (0, 1), Tag(5, 1), b"one")
        with open(self.memory.path(0), "rb") as file:
            text = file.read()
        damaged = text.replace(b"sync 1 ", b"sync 2 ", 1)
        with open(self.memory.path(0), "wb") as out:
            out.write(damaged)
        with self.assertRaisesRegex(Damaged, "journal.0: damaged at byte 0"):
            self.read(0)
        self.assertEqual(self.command("room", self.memory.path(0))[0], 5)

    def test_what_is_no_journal_of_the_grid(self):
        for text, why in ((b"", "no journal of a node"), (b"hello\n", "no journal of a node"), (b"sync 1 0 " + b"0" * 16 + b"\n", "no journal of a node")):
            with open(self.memory.path(4), "wb") as out:
                out.write(text)
            with self.assertRaisesRegex(BadFile, why):
                self.read(4)
        with open(self.memory.path(4), "wb") as out:
            out.write(b"journal 2 more\n")
        with self.assertRaisesRegex(BadFile, "form 2, of a later program"):
            self.read(4)
        for number, plan in enumerate(("grid 2 2\ntenant eve 9 1 9\ngo\n", "grid 1 2\ntenant bob 9 1 9\ntenant ann 9 1 9\ngo\n"), 5):
            Node(self.memory.path(number), 0, plan)
            with self.assertRaisesRegex(BadFile, "of another grid"):
                self.read(0, number)
        Node(self.memory.path(7), 0, self.memory.plan).write(b"kept ann 0\n")
        with self.assertRaisesRegex(BadFile, "no fact of a node"):
            self.read(7)
        with self.assertRaisesRegex(BadSettings, "no tenant eve"):
            self.read(0).files("eve")
        self.assertEqual(self.command("room", os.path.join(self.folder, "none"))[::2], (6, f"gridfs-journals: {self.folder}/none: No such file or directory\n"))

    def test_a_later_plan_and_lost_nodes(self):
        later = self.memory.plan + "ann open 4 2\nreplace 3\n"
        self.memory.nodes[1].write(f"node 1 of 2 by 2\n{later}".encode())
        for order in ((0, 1), (1, 0)):
            told = self.read(*order).plan.tenants["ann"]
            self.assertEqual((len(told.volumes), told.new_nodes, told.home, told.sessions), (len(self.memory.layout.volumes) + 1, (67,), 1, SESSIONS))

    def test_a_journal_that_is_written_anew(self):
        """What was opened stays what it was."""
        self.put({"a": b"one" * 30})
        journals = self.read(0, 1)
        for number in (0, 1):
            os.replace(Node(os.path.join(self.folder, "new"), number, self.memory.plan).path, self.memory.path(number))
        self.assertEqual(journals.files("ann").get("a")[0], b"one" * 30)

    def test_copies_that_do_not_go_together(self):
        """A page that is older than another one asks for: a name could be told that was taken away."""
        layout, node = self.memory.layout, self.memory.nodes[0]
        for session, text in ((1, b"names 2 2\n2 @eA name\n"), (2, b"names 2 5 3\n")):
            node.keep("ann", layout.page(session, 0), Tag(9, session), text)
        with self.assertRaisesRegex(Damaged, "is older than another page"):
            self.read(0, 1).files("ann").names()
        self.assertEqual(len(self.read(0, 1).files("ann", as_they_are=True).names()), 1)
        status, _, told = self.command("get", "ann", os.path.join(self.folder, "out"), *map(self.memory.path, (0, 1)))
        self.assertEqual(status, 5)
        self.assertIn("copy what has changed once more", told)

    def test_commands(self):
        self.put({"a": b"one", "b/c": b"x" * 100})
        paths = [self.memory.path(number) for number in (0, 1)]
        status, out, told = self.command("room", *paths)
        self.assertEqual((status, told), (0, ""))
        self.assertRegex(out, r"bob +left out: ")
        self.assertRegex(out, r"ann +2 +103 ")
        self.assertIn("no whole row", self.command("room", paths[0])[1])
        metrics = os.path.join(self.folder, "room.prom")
        self.assertEqual(self.command("room", "--metrics", metrics, *paths), (0, "", ""))
        with open(metrics) as file:
            self.assertIn('gridfs_tenant_names{node="0,1",tenant="ann"} 2\n', file.read())
        folder = os.path.join(self.folder, "out")
        self.assertEqual(self.command("get", "ann", folder, *paths), (0, "got a\ngot b/c\ngot 2; 0 the same\n", ""))
        self.assertEqual(self.command("get", "ann", folder, *paths)[1], "got 0; 2 the same\n")
        with open(f"{folder}/b/c", "rb") as file:
            self.assertEqual(file.read(), b"x" * 100)
        self.assertEqual(sorted(os.listdir(folder)), ["a", "b"])

    def test_what_is_on_a_shelf(self):
        path = os.path.join(self.folder, "of-chunks")
        plan = "grid 2 2\nroom 9000\ntenant ann 900 2 9 64\ntenant bob 9 1 9 16\ngo\nann chunks 100\nbob chunks 9\n"
        node = Node(path, 66, plan)
        node.write(b"chunk ann 1 5 1 =a\\sb\nextent ann 1 7 1 1 0 300 99\n")
        node.write(b"extent ann 2 7 0 1 300 50 98\nextent bob 1 1 1 2 0 40 97\nkept ann 0 0 1 1 -\n")
        node.write(b"extent ann 2 7 0 2 40 50 98\nforgot ann 1 9 6 9\nfilled bob\n")
        os.mkdir(path + ".shelf")
        for number, length in ((1, 350), (2, 100), (4, 7)):
            with open(f"{path}.shelf/{number:010}", "wb") as out:
                out.write(b"x" * length)
        status, out, told = self.command("shelf", path)
        self.assertEqual((status, told), (0, ""))
        self.assertEqual(out.splitlines(), [
            "node 66: 3 chunks; 4 bytes of them in the journal, 90 on the shelf",
            "  the shelf has 457 bytes in 3 segments; 367 are dead, and 2 segments are sparse",
            "  chunks are lacked of ann",
        ])  # fmt: skip
        os.unlink(f"{path}.shelf/0000000002")
        self.assertIn("  1 segments are missing: their chunks are damaged", self.command("shelf", path)[1])
        metrics = os.path.join(self.folder, "shelf.prom")
        self.assertEqual(self.command("shelf", "--metrics", metrics, path), (0, "", ""))
        with open(metrics) as file:
            text = file.read()
        self.assertIn('gridfs_shelf_named_bytes{node="66"} 90\n', text)
        self.assertIn('gridfs_shelf_lacking_tenants{node="66"} 1\n', text)
        self.assertEqual(self.command("shelf", "--grid", "east", "--metrics", metrics, path), (0, "", ""))
        with open(metrics) as file:
            self.assertIn('gridfs_shelf_dead_bytes{grid="east",node="66"} 267\n', file.read())


if __name__ == "__main__":
    unittest.main()
