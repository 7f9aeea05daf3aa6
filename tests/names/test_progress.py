"""What a terminal is shown of bytes that are moved."""

import io
import os
import sys
import tempfile
import unittest
from contextlib import contextmanager

sys.dont_write_bytecode = True
sys.path.insert(0, os.path.dirname(os.path.abspath(__file__)))
from histories import HERE

from gridfs_client.mirror import ToFolder, ToGrid
from gridfs_client.progress import CLEAR, Progress, bytes_in_words, seconds_in_words
from memory import Memory

assert HERE


class Shown(unittest.TestCase):
    def setUp(self):
        self.clock, self.out = 0.0, io.StringIO()
        self.progress = Progress(self.out, lambda: self.clock)

    def lines(self):
        return self.out.getvalue().split(CLEAR)[1:]

    def test_words(self):
        told = [bytes_in_words(count) for count in (0, 999, 1000, 999_949, 999_950, 12_345_678, 5 * 10**21)]
        self.assertEqual(told, ["0 B", "999 B", "1.0 kB", "999.9 kB", "1.0 MB", "12.3 MB", "5000.0 EB"])
        self.assertEqual([seconds_in_words(count) for count in (0.4, 59, 61, 3_660)], ["0 s", "59 s", "1 min 1 s", "1 h 1 min"])

    def test_one_content(self):
        """From the first second on, each tenth of a second at most; and the end."""
        for at, done in ((0.9, 10), (1.0, 20), (1.05, 30), (2.0, 50), (2.01, 100)):
            self.clock = at
            self.progress("get", done * 1000, 100_000)
        self.assertEqual(self.lines(), [
            "get [####                ] 20.0 kB of 100.0 kB, 20.0 kB/s, 4 s left",
            "get [##########          ] 50.0 kB of 100.0 kB, 25.0 kB/s, 2 s left",
            "get [####################] 100.0 kB, 49.8 kB/s, 2 s\n",
        ])  # fmt: skip

    def test_a_pipe(self):
        """Nobody knows how long it is: the line stays once it has ended."""
        self.clock = 2.0
        self.progress("put", 4_000_000, None)
        self.progress.end()
        self.progress.end()
        self.assertEqual(self.lines(), ["put 4.0 MB, 2.0 MB/s, 2 s\n"])

    def test_what_is_soon_over(self):
        self.progress("put", 5, 10)
        self.progress("put", 10, 10)
        self.progress.end()
        self.progress.clear()
        self.assertEqual(self.out.getvalue(), "")

    def test_another_line_between(self):
        self.clock = 2.0
        self.progress("put", 5, 10)
        self.progress.clear()
        self.assertTrue(self.out.getvalue().endswith(CLEAR))

    def test_mirrors(self):
        """Both ways they tell how much is moved of all that is, and of how many files."""
        memory = Memory(sessions=2)

        @contextmanager
        def names(_):
            files = memory.client(1)
            files.progress = self.progress
            yield files

        def told(*_):
            self.clock += 1

        with tempfile.TemporaryDirectory() as folder:
            os.mkdir(f"{folder}/from")
            for number, size in enumerate((10, 30)):
                with open(f"{folder}/from/{number}", "wb") as out:
                    out.write(bytes(size))
            self.clock = 1.0
            for kind, path, word in ((ToGrid, "from", "put"), (ToFolder, "to", "get")):
                self.out.truncate(0)
                made = kind(f"{folder}/{path}", "a/", names, lambda name: 1, told, self.fail)
                made.progress = self.progress
                made.run()
                self.clock += 1
                made.progress.end()
                shown = [line for line in self.lines() if "files" in line]
                self.assertIn("1 of 2 files, ", shown[0])
                self.assertIn("10 B of 40 B, ", shown[0])
                self.assertIn(f"{word} [####################] 40 B, 2 of 2 files, ", shown[-1])
            self.assertEqual(os.path.getsize(f"{folder}/to/1"), 30)


if __name__ == "__main__":
    unittest.main()
