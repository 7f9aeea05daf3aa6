"""A folder and names with a prefix, one made like the other, over registers in memory."""

import contextlib
import os
import shutil
import sys
import tempfile
import unittest
from unittest import mock

sys.path.insert(0, os.path.dirname(os.path.abspath(__file__)))
from histories import Killed
from memory import Memory
from test_names import kill_at

from gridfs_client import BadName, NoSuchName, Unanswered
from gridfs_client.errors import BadFile
from gridfs_client.mirror import Mirror, ToFolder, ToGrid, prefix_of
from gridfs_client.opening import turn_of

FILES = {"a": b"1", "b/x": b"2" * 300, "b/c/ä b": b"", "b/c/-": b"4"}


class Mirrors(unittest.TestCase):
    def setUp(self):
        room = tempfile.TemporaryDirectory()
        self.addCleanup(room.cleanup)
        self.room, self.folder, self.other = room.name, os.path.join(room.name, "folder"), os.path.join(room.name, "other")
        os.mkdir(self.folder)
        self.memory, self.at_step, self.told, self.taken = Memory(sessions=3, pages=2), None, [], []

    # What is there

    @contextlib.contextmanager
    def names(self, name):
        number = 1 + turn_of(name, 3)
        self.taken.append(number)
        files = self.memory.client(number, self.at_step, helpers=[each for each in (1, 2, 3) if each != number])
        yield files
        files.close()

    def write(self, path, content=b"", folder=None):
        path = os.path.join(folder or self.folder, path)
        os.makedirs(os.path.dirname(path), exist_ok=True)
        with open(path, "wb") as file:
            file.write(content)

    def write_all(self):
        for path, content in FILES.items():
            self.write(path, content)

    def read_all(self, folder):
        found = {}
        for inside, _, names in os.walk(folder):
            for name in names:
                path = os.path.join(inside, name)
                with open(path, "rb") as file:
                    found[os.path.relpath(path, folder)] = file.read()
        return found

    def held(self, prefix=""):
        files = self.memory.client(1)
        return {entry.name: files.get(entry.name)[0] for entry in files.names(prefix)}

    def put(self, contents):
        for name, content in contents.items():
            self.memory.client(1).put(name, content)

    # What is done

    def mirror(self, kind: type[Mirror], folder=None, prefix="", excludes=(), **wishes):
        self.told, self.taken = [], []
        tell = lambda word, name: self.told.append(f"{word} {name}")
        made = kind(folder or self.folder, prefix, self.names, lambda name: turn_of(name, 3), tell, self.told.append, **wishes)
        made.excludes = excludes
        return made.run()

    def up(self, prefix="", **wishes):
        return self.mirror(ToGrid, prefix=prefix, **wishes)

    def down(self, prefix="", **wishes):
        return self.mirror(ToFolder, self.other, prefix, **wishes)


class BothWays(Mirrors):
    def test_there_and_back(self):
        self.write_all()
        report = self.up("back/")
        self.assertEqual((set(report.moved), report.same, report.status), ({"back/" + path for path in FILES}, 0, 0))
        self.assertEqual(self.held(), {"back/" + path: content for path, content in FILES.items()})
        self.assertEqual(sorted(self.told), sorted(f"put back/{path}" for path in FILES))
        report = self.down("back/")
        self.assertEqual((set(report.moved), report.same, report.status), ({"back/" + path for path in FILES}, 0, 0))
        self.assertEqual(self.read_all(self.other), FILES)

    def test_what_is_the_same_is_not_moved(self):
        self.write_all()
        self.up("back/")
        self.down("back/")
        self.memory.counts.clear()
        for way in (self.up, self.down):
            report = way("back/", removes=True)
            self.assertEqual((report.moved, report.removed, report.same), ([], [], len(FILES)))
        self.assertEqual(self.memory.counts["write"], 0)
        # Contents of one size differ by their digests.
        self.write("b/x", b"3" * 300)
        self.assertEqual((self.up("back/").moved, self.held()["back/b/x"]), (["back/b/x"], b"3" * 300))
        report = self.down("back/")
        self.assertEqual((report.moved, report.same, self.read_all(self.other)["b/x"]), (["back/b/x"], 3, b"3" * 300))

    def test_times(self):
        """A file that is got has the time of the put; one that is the same keeps its own."""
        self.write_all()
        self.up("back/")
        self.down("back/")
        entries = {entry.name: entry for entry in self.memory.client(1).names("back/")}
        at = lambda path: os.path.join(self.other, path)
        for path in FILES:
            self.assertAlmostEqual(os.stat(at(path)).st_mtime, entries["back/" + path].time, 3)
        os.utime(at("a"), (7, 7))
        self.write("b/x", b"other", self.other)
        os.utime(at("b/x"), (7, 7))
        self.assertEqual(self.down("back/").moved, ["back/b/x"])
        self.assertEqual((os.stat(at("a")).st_mtime, os.stat(at("b/x")).st_mtime), (7, entries["back/b/x"].time))

    def test_what_is_removed(self):
        self.write_all()
        self.put({"back/old": b"old", "back/b": b"old", "backup/x": b"other", "b": b"other"})
        report = self.up("back/")
        self.assertEqual((report.removed, "back/old" in self.held()), ([], True))
        report = self.up("back/", removes=True)
        self.assertEqual((set(report.removed), report.same), ({"back/old", "back/b"}, len(FILES)))
        others = {"backup/x": b"other", "b": b"other"}
        self.assertEqual(self.held(), others | {"back/" + path: content for path, content in FILES.items()})
        self.write("c/d/e", b"old", self.other)
        self.write("f", b"old", self.other)
        self.assertEqual(self.down("back/").removed, [])
        self.assertEqual(set(self.read_all(self.other)), {*FILES, "c/d/e", "f"})
        self.assertEqual(set(self.down("back/", removes=True).removed), {"c/d/e", "f"})
        self.assertEqual(self.read_all(self.other), FILES)
        self.assertFalse(os.path.exists(os.path.join(self.other, "c")))

    def test_dry_run(self):
        self.write_all()
        self.put({"back/old": b"old", "back/a": b"1"})
        before = dict(self.memory.registers)
        report = self.up("back/", removes=True, is_dry=True)
        self.assertEqual((len(report.moved), report.removed, report.same), (3, ["back/old"], 1))
        self.assertIn("would put back/b/x", self.told)
        self.assertIn("would remove back/old", self.told)
        self.assertEqual(self.memory.registers, before)
        report = self.down("back/", removes=True, is_dry=True)
        self.assertEqual((set(report.moved), os.path.exists(self.other)), ({"back/a", "back/old"}, False))
        self.write("c", b"", self.other)
        report = self.down("back/", removes=True, is_dry=True)
        self.assertEqual((report.removed, os.listdir(self.other)), (["c"], ["c"]))

    def test_an_empty_source_removes_nothing(self):
        self.put({"back/a": b"1"})
        with self.assertRaisesRegex(BadFile, "no file is there, so no name is removed"):
            self.up("back/", removes=True)
        self.write("x", b"kept", self.other)
        for removes in (False, True):
            with self.assertRaisesRegex(NoSuchName, "grid:bakc/: no name begins so"):
                self.down("bakc/", removes=removes)
        self.assertEqual((self.held(), self.read_all(self.other)), ({"back/a": b"1"}, {"x": b"kept"}))
        with self.assertRaises(FileNotFoundError):
            self.mirror(ToGrid, os.path.join(self.room, "nowhere"))

    def test_words(self):
        """What S3 keeps beside contents comes back with a restore, as long as the file has that content."""
        words = {"typed": "t=17&c=text/plain", "plain": "", ".s3/key/one/AAAA": "k=a/&t=18"}
        with self.names("typed") as files:
            for name, kept in words.items():
                files.put(name, name.encode(), lambda kept=kept: kept)
        self.down()
        self.assertEqual(self.down().moved, [])
        with self.names("typed") as files:
            for name in words:
                files.remove(name)
        self.folder = self.other
        self.up()
        with self.names("typed") as files:
            self.assertEqual({entry.name: entry.words for entry in files.names()}, words)
            files.put("typed", b"typed", lambda: "t=19")
        self.down()
        with self.names("typed") as files:
            files.put("typed", b"typed", lambda: "t=20")
        self.assertEqual(self.up().moved, ["typed"])
        self.write("typed", b"another")
        self.up()
        with self.names("typed") as files:
            self.assertEqual({entry.name: entry.words for entry in files.names()}, words | {"typed": ""})

    def test_a_folder_that_keeps_no_words(self):
        with self.names("typed") as files:
            files.put("typed", b"x", lambda: "t=17")
        with mock.patch("os.setxattr", side_effect=OSError(95, "Operation not supported")):
            self.assertEqual(self.down().wordless, 1)
        self.assertIn("1 files are without the words", self.told[-1])

    def test_what_is_excluded(self):
        """It is neither moved nor removed, on both sides."""
        self.write_all()
        for path in ("b/x.tmp", "cache/one", "cache/deep/two", "c/cache", "b/c/cached", "logs/a.log"):
            self.write(path, b"no")
        os.symlink("a", os.path.join(self.folder, "cache", "link"))
        excludes = ("*.tmp", "cache", "logs/*.log")
        report = self.up("back/", excludes=excludes)
        held = {f"back/{path}" for path in (*FILES, "b/c/cached")}
        self.assertEqual((set(report.moved), report.skipped), (held, {}))
        self.put({"back/cache/old": b"old", "back/new.tmp": b"old", "back/old": b"old"})
        self.assertEqual(self.up("back/", excludes=excludes, removes=True).removed, ["back/old"])
        self.assertLess(held, set(self.held()))
        self.write("cache/kept", b"kept", self.other)
        self.write("b/old", b"old", self.other)
        report = self.down("back/", excludes=excludes, removes=True)
        self.assertEqual(({name.removeprefix("back/") for name in report.moved}, report.removed), ({*FILES, "b/c/cached"}, ["b/old"]))
        self.assertEqual(set(self.read_all(self.other)), {*FILES, "b/c/cached", "cache/kept"})

    def test_empty_folders_are_told_once(self):
        self.write_all()
        for path in ("empty", "b/none", "b/none at all/none"):
            os.makedirs(os.path.join(self.folder, path))
        report = self.up()
        self.assertEqual((report.empty, report.status), (3, 0))
        self.assertEqual([line for line in self.told if "empty" in line], ["3 empty folders have no name, and are not kept"])

    def test_places(self):
        self.assertEqual([prefix_of(word) for word in ("grid:", "grid:a", "grid:a/", "grid:a/b")], ["", "a/", "a/", "a/b/"])
        self.assertEqual([prefix_of(word) for word in ("a", "./grid:a", "/grid:", "")], [None] * 4)
        for word in ("grid:/a", "grid:a\n", "grid:" + "x" * 256):
            with self.assertRaises(BadName):
                prefix_of(word)


class Skipping(Mirrors):
    def test_files_that_can_be_no_names(self):
        self.write("a", b"1")
        self.write("b\nc")
        self.write(os.fsdecode(b"\xff"))
        self.write("d" * 200 + "/" + "e" * 200)
        os.mkfifo(os.path.join(self.folder, "pipe"))
        outside = os.path.join(self.room, "outside")
        self.write("secret", b"secret", outside)
        os.symlink(outside, os.path.join(self.folder, "out"))
        os.symlink(os.path.join(outside, "secret"), os.path.join(self.folder, "link"))
        self.write(".gridfs-client.abcd1234", b"half")
        report = self.up()
        self.assertEqual(self.held(), {"a": b"1"})
        self.assertEqual({os.path.relpath(each, self.folder)[:4]: why for each, why in report.skipped.items()}, {
            "b\nc": "a name has no control characters",
            "\udcff": "a name is UTF-8",
            "dddd": "a name has 1 to 255 bytes, not 401",
            "pipe": "it is not a regular file",
            "out": "a symbolic link is not followed",
            "link": "a symbolic link is not followed",
        })  # fmt: skip
        self.assertEqual(report.status, 9)  # (of the first one: links and pipes are met before names are made)
        self.assertIn(f"skipped '{self.folder}/b\\nc': a name has no control characters", self.told)

    def test_names_of_what_is_skipped_are_kept(self):
        self.write("a", b"1")
        os.symlink("a", os.path.join(self.folder, "link"))
        self.write("locked/x", b"2")
        self.put({"link": b"", "link/x": b"", "linked": b"", "locked/x": b"", "lock": b""})
        refuse = os.scandir

        def scandir(path):
            if path.endswith("locked"):
                raise PermissionError(13, "Permission denied", path)
            return refuse(path)

        with mock.patch("os.scandir", scandir):
            report = self.up(removes=True)
        self.assertEqual((set(report.removed), set(self.held())), ({"linked", "lock"}, {"a", "link", "link/x", "locked/x"}))
        self.assertEqual((report.skipped[os.path.join(self.folder, "locked")], report.status), ("Permission denied", 9))

    def test_names_that_can_be_no_files(self):
        bad = ("../x", "a/../../x", "a//b", "./x", "x/.", "y/..", ".gridfs-client.x")
        self.put({name: b"bad" for name in (*bad, "...", "a/b", "a", "a/b/c")})
        report = self.down()
        self.assertEqual(self.read_all(self.other), {"...": b"bad", "a/b/c": b"bad"})
        self.assertEqual(set(report.skipped), {*bad, "a", "a/b"})
        self.assertEqual((report.status, sorted(os.listdir(self.room))), (2, ["folder", "other"]))
        self.assertIn("skipped a: other names begin with a/, and a file can't be a folder", self.told)

    def test_what_is_in_the_way(self):
        """A symbolic link that leads out of the folder, a file in place of a folder, and a folder in place of a file."""
        outside = os.path.join(self.room, "outside")
        self.write("x", b"kept", outside)
        self.write("file", b"kept", self.other)
        os.makedirs(os.path.join(self.other, "folder"))
        os.symlink(outside, os.path.join(self.other, "out"))
        for link in ("link", "alike"):
            os.symlink(os.path.join(outside, "x"), os.path.join(self.other, link))
        self.put({"out/x": b"new", "link": b"new", "alike": b"kept", "file/x": b"new", "folder": b"new", "good": b"new"})
        report = self.down()
        self.assertEqual({os.path.relpath(each, self.other) for each in report.skipped}, {"out/x", "link", "alike", "file/x", "folder"})
        self.assertEqual(report.skipped[os.path.join(self.other, "alike")], "a symbolic link is not followed")
        self.assertEqual((self.read_all(outside), report.moved, report.status), ({"x": b"kept"}, ["good"], 9))
        self.assertEqual(os.readlink(os.path.join(self.other, "link")), os.path.join(outside, "x"))
        with open(os.path.join(self.other, "file"), "rb") as file:
            self.assertEqual(file.read(), b"kept")

    def test_no_room(self):
        """What has no room is skipped, and the rest is put."""
        self.write("large", b"x" * 10_000)
        self.write("small", b"1")
        report = self.up()
        self.assertEqual((self.held(), report.status), ({"small": b"1"}, 3))
        self.assertIn("more NAME 16G in chunks", report.skipped[os.path.join(self.folder, "large")])

    def test_a_fault_that_ends_it(self):
        """No answer is no fault of one file: it ends the mirror."""
        self.write_all()

        def at_step(step):
            raise Unanswered("no answer")

        self.at_step = at_step
        with self.assertRaises(Unanswered):
            self.up()


class Interrupted(Mirrors):
    """A mirror that is killed at each of its steps, and run again."""

    def test_to_the_grid(self):
        self.write_all()
        old = {path: b"old" for path in FILES} | {"gone": b"old"}
        for step in range(1, 200):
            self.memory, self.at_step = Memory(sessions=3, pages=2), None
            self.put(old)
            self.at_step = kill_at(step)
            try:
                self.up(removes=True)
                break
            except Killed:
                pass
            self.at_step = None
            for path, content in self.held().items():
                self.assertIn(content, (b"old", FILES.get(path)))
            self.up(removes=True)
            self.assertEqual(self.held(), FILES)
        self.assertGreater(step, 15)

    def test_to_the_folder(self):
        self.put(FILES)
        for step in range(1, 200):
            for path in FILES:
                self.write(path, b"old", self.other)
            self.at_step = kill_at(step)
            try:
                self.down()
                break
            except Killed:
                pass
            self.at_step = None
            found = self.read_all(self.other)
            self.assertEqual(found.keys(), FILES.keys())
            self.assertTrue(all(content in (b"old", FILES[path]) for path, content in found.items()))
            self.down()
            self.assertEqual(self.read_all(self.other), FILES)
        self.assertGreater(step, 8)

    def test_a_name_that_goes_meanwhile(self):
        self.put({"a": b"1", "b": b"2"})
        entries = ToFolder.entries

        def then_removed(mirror):
            found = entries(mirror)
            self.memory.client(1).remove("a")
            return found

        with mock.patch.object(ToFolder, "entries", then_removed):
            report = self.down()
        self.assertEqual((self.read_all(self.other), report.moved, report.status), ({"b": b"2"}, ["b"], 0))


class Used(Mirrors):
    """Another client changes names at a step of a mirror, by a session that the mirror does not have then."""

    def change_at(self, step):
        def at_step(now):
            if now == step and not self.changed:
                self.changed = True
                other = self.memory.client(self.taken[-1] % 3 + 1)
                other.put("b/x", b"3" * 200)
                with contextlib.suppress(NoSuchName):
                    other.remove("a")
                other.put("new", b"new")

        self.changed, self.at_step = False, at_step

    def test_to_the_folder(self):
        for step in range(1, 60):
            self.memory, self.at_step = Memory(sessions=3, pages=2), None
            self.put(FILES)
            shutil.rmtree(self.other, ignore_errors=True)
            self.change_at(step)
            self.assertEqual(self.down().status, 0)
            found = self.read_all(self.other)
            self.assertIn(found.get("b/x"), (FILES["b/x"], b"3" * 200))
            self.assertIn(found.get("a"), (FILES["a"], None))
            self.assertEqual([found[path] for path in ("b/c/ä b", "b/c/-")], [FILES[path] for path in ("b/c/ä b", "b/c/-")])
            if not self.changed:
                break
            self.at_step = None
            self.down(removes=True)
            self.assertEqual(self.read_all(self.other), self.held())
        self.assertGreater(step, 8)

    def test_to_the_grid(self):
        self.write_all()
        for step in range(1, 60):
            self.memory = Memory(sessions=3, pages=2)
            self.change_at(step)
            self.assertEqual(self.up().status, 0)
            found = self.held()
            self.assertIn(found.get("b/x"), (FILES["b/x"], b"3" * 200))
            self.assertEqual((found.get("new"), found["b/c/-"]), (b"new" if self.changed else None, b"4"))
            if not self.changed:
                break
            self.at_step = None
            self.up(removes=True)
            self.assertEqual(self.held(), FILES)
        self.assertGreater(step, 15)


class Turns(Mirrors):
    def test_names_are_spread_over_all_sessions(self):
        """As those of single commands are: a session's pages alone have no room for a tenant's names."""
        for number in range(30):
            self.write(f"file {number}", b"1")
        self.up()
        pages = {place: copy.content for place, copy in self.memory.registers.items() if copy.content.startswith(b"names")}
        writers = {file % 3 + 1: content.count(b"file ") for (_, file), content in sorted(pages.items())}
        self.assertEqual(set(writers), {1, 2, 3})
        self.assertEqual(self.taken[1:], [1, 2, 3])  # (the first one is for the listing)



if __name__ == "__main__":
    unittest.main()
