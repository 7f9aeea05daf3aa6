"""`./grid` before it starts anything: what it remembers of a folder, which folders and ports it refuses, and what it says."""

import argparse
import contextlib
import importlib.machinery
import importlib.util
import io
import os
import signal
import socket
import subprocess
import sys
import tempfile
import unittest
from unittest import mock

sys.path.insert(0, os.path.dirname(os.path.abspath(__file__)))
import histories  # (which finds the packages)  # noqa: F401

from gridfs_grid import command
from gridfs_grid.one_machine import NotStarted, keep_way
from gridfs_grid.options import OF_GRID, OF_S3, expect_free, keep_options
from gridfs_grid.places import TOP
from gridfs_grid.planned import in_words


def asked_for(*words):
    with contextlib.redirect_stderr(io.StringIO()):
        return command.words_of(list(words))


class Options(unittest.TestCase):
    def setUp(self):
        self.folder = self.enterContext(tempfile.TemporaryDirectory())
        self.grid = os.path.join(self.folder, "store")
        os.mkdir(self.grid)

    def started(self, *words, way="links"):
        """What a start with these words leaves."""
        asked = asked_for("--over", way, *words, self.grid)
        with open(os.path.join(self.grid, "plan"), "w"):
            pass
        keep_way(self.grid, way)
        keep_options(self.grid, asked, OF_GRID)

    def test_what_the_last_start_had(self):
        self.started("--port", "21000", "--metrics", self.folder, "--grid", "east")
        for words in ((), ("--replace", "3"), ("--plan", "next")):
            asked = asked_for(*words, self.grid)
            self.assertEqual((asked.over, asked.port, asked.metrics, asked.grid, asked.tick), ("links", 21000, self.folder, "east", None))
        self.assertEqual(asked_for("--port", "22000", self.grid).port, 22000)
        self.started("--port", "22000", "--metrics", "")
        self.assertEqual((asked_for(self.grid).port, asked_for(self.grid).metrics), (22000, None))
        self.assertEqual(asked_for("--over", "pipes", self.grid).port, None)  # (which has no ports)
        self.assertEqual(asked_for("--over", "links", "try").port, None)

    def test_those_of_s3(self):
        self.started("--tick", "0.5", way="pipes")
        s3 = os.path.join(self.grid, "s3")
        os.mkdir(s3)
        keep_options(s3, argparse.Namespace(listen="127.0.0.1:9001", gateways=2), OF_S3)
        asked = asked_for(self.grid)
        self.assertEqual((asked.s3, asked.listen, asked.gateways, asked.tick), (True, "127.0.0.1:9001", 2, 0.5))
        self.assertIsNone(asked_for("--no-s3", self.grid).listen)

    def test_a_file_that_has_no_form(self):
        self.started()
        with open(os.path.join(self.grid, "options"), "w") as out:
            out.write("port many\n")
        with self.assertRaisesRegex(NotStarted, "options: a line is no option and its value"):
            asked_for(self.grid)

    def test_a_folder_that_is_for_something_else(self):
        plan = os.path.join(self.grid, "wishes.plan")
        for name in ("lost+found", "links", "log.0", "node0.journal"):  # (as of a start that failed)
            os.mkdir(os.path.join(self.grid, name))
        asked_for(self.grid)
        with open(plan, "w"):
            pass
        asked_for("--plan", plan, self.grid)
        with self.assertRaisesRegex(NotStarted, r"^.*/store has no grid, and other things in it \(wishes.plan\): name a folder that is empty, or not there$"):
            asked_for(self.grid)
        with self.assertRaisesRegex(NotStarted, "has no grid"):
            asked_for("--s3", self.grid)
        os.mkdir(os.path.join(self.grid, "grid"))
        with open(os.path.join(self.grid, "grid", "plan"), "w"):
            pass
        asked_for(self.grid)

    def test_a_node_that_is_killed(self):
        """It is found by its journal, and no other process with such words is."""
        journal, told = os.path.join(self.grid, "node2.journal"), io.StringIO()
        words = [["node", "2", "--journal", journal], ["node", "22", "--journal", journal], ["node", "2", "--journal", journal + "s"], ["-c", f"node 2 --journal {journal}"]]
        nodes = [subprocess.Popen([sys.executable, "-c", "input()", *each], executable=sys.executable, stdin=subprocess.PIPE) for each in words]
        # (the words of a node stand behind its program's)
        with mock.patch("gridfs_grid.one_machine.FIRST_WORDS", 3), contextlib.redirect_stderr(told):
            self.assertEqual((command.run(["--kill", "3", self.grid]), command.run(["--kill", "2", self.grid])), (1, 0))
        self.assertEqual(nodes[0].wait(10), -signal.SIGKILL)
        for node in nodes[1:]:
            self.assertIsNone(node.poll())
            node.communicate(b"\n")
        self.assertEqual(told.getvalue(), f"grid: {self.grid}: no node 3 runs there\ngrid: node 2 is killed\n")

    def test_a_plan_that_is_none(self):
        for fault, told in (("README.md: line 1: form", "README.md: no plan: line 1 is not `grid ROWS COLUMNS`"), ("empty: line 1: end", "empty: no plan: it is empty"), ("a: line 3: zeroshare",) * 2):
            self.assertEqual(in_words(fault), told)

    def test_ports(self):
        with socket.create_server(("127.0.0.1", 0)) as other:
            port = other.getsockname()[1]
            with self.assertRaisesRegex(NotStarted, rf"^port {port} of 127.0.0.1 is taken: another program listens there \(--port names another\)$"):
                expect_free("127.0.0.1", [port], "port")
        expect_free("127.0.0.1", [port], "port")


class Built(unittest.TestCase):
    """When `./grid` builds a program anew."""

    def test_by_digest(self):
        """Not where a checkout made a source newer that is the same; but where one is another one, or is gone."""
        sys.path.insert(0, os.path.join(TOP, "tools"))
        self.addCleanup(sys.path.remove, os.path.join(TOP, "tools"))
        loader = importlib.machinery.SourceFileLoader("quick", os.path.join(TOP, "tools", "quick"))
        quick = importlib.util.module_from_spec(importlib.util.spec_from_loader("quick", loader))
        loader.exec_module(quick)
        with tempfile.TemporaryDirectory() as top:
            quick.TOP, quick.HERE = top, os.path.join(top, ".unproved")
            source = os.path.join(top, "crates", "one", "src", "lib.rt")
            for path in (source, os.path.join(top, "crates.txt"), os.path.join(quick.HERE, "gridfs")):
                os.makedirs(os.path.dirname(path), exist_ok=True)
                with open(path, "w") as out:
                    out.write("a")
            self.assertTrue(quick.is_new("gridfs"))
            os.utime(os.path.join(quick.HERE, "gridfs"), (1, 1))
            self.assertFalse(quick.is_new("gridfs"))  # (nobody knows of which sources it was made)
            with open(os.path.join(quick.HERE, "gridfs.sources"), "w") as out:
                out.write(f"{quick.digest_of_sources()}\n")
            self.assertTrue(quick.is_new("gridfs"))
            with open(source, "w") as out:
                out.write("b")
            self.assertFalse(quick.is_new("gridfs"))
            os.unlink(source)
            self.assertFalse(quick.is_new("gridfs"))


if __name__ == "__main__":
    unittest.main()
