"""Nodes that are held for a moment, and copied as they stood in it. Nodes here are processes that hand a token on and
on: each notes a step in its journal ahead of the next one. So copies are of one moment if the steps that they have
are all up to some number.
"""

import contextlib
import glob
import io
import itertools
import os
import re
import shutil
import signal
import subprocess
import sys
import tempfile
import time
import unittest
from unittest import mock

HERE = os.path.dirname(os.path.abspath(__file__))
CLIENTS = os.path.join(HERE, "..", "..", "clients", "python")
sys.path.insert(0, CLIENTS)
from gridfs_client import holding, journals_command
from gridfs_client.copies import copy_state
from gridfs_client.errors import BadFile
from gridfs_client.holding import Hold, NotHeld, hold_together, holders

COMMAND = [sys.executable, "-B", os.path.join(CLIENTS, "gridfs-journals")]
NODES, TIMES = 4, 8
PLAN = "grid 2 2\nblocks 9\ntenant ann 9 1 1\ngo\nann open 1 1\n"
SOON = 10  # seconds
NODE = r"""
import fcntl, os, sys, time
journal, come, go = sys.argv[1], int(sys.argv[2]), int(sys.argv[3])
lock = open(journal + ".lock", "ab")
fcntl.flock(lock, fcntl.LOCK_EX | fcntl.LOCK_NB)
with open(journal, "ab", 0) as out:
    count = 1
    while token := os.read(come, 8):
        line = b"began ann 1 %d\n" % int.from_bytes(token, "big")
        count += 1
        time.sleep(0.0003)
        out.write(line + b"sync %d %d %s\n" % (count, len(line), b"0" * 16))
        os.write(go, (int.from_bytes(token, "big") + 1).to_bytes(8, "big"))
"""


def state_of(pid):
    with open(f"/proc/{pid}/stat", encoding="ascii") as file:
        return file.read().rpartition(") ")[2][0]


class Ring:
    """Nodes of one grid, which hand a token on from one to the next."""

    def __init__(self, folder):
        self.journals = [os.path.join(folder, f"{number}.journal") for number in range(NODES)]
        pipes, self.processes = [os.pipe() for _ in range(NODES)], []
        for number, journal in enumerate(self.journals):
            head = f"node {number} of 2 by 2\n{PLAN}"
            with open(journal, "w", encoding="ascii") as out:
                out.write(f"{head}sync 1 {len(head)} {'0' * 16}\n")
            handles = pipes[number][0], pipes[(number + 1) % NODES][1]
            words = [sys.executable, "-c", NODE, journal, *map(str, handles)]
            self.processes.append(subprocess.Popen(words, pass_fds=handles, stderr=subprocess.DEVNULL))
        os.write(pipes[0][1], (1).to_bytes(8, "big"))
        for handle in itertools.chain(*pipes):
            os.close(handle)
        self.wait(lambda: all(os.path.getsize(journal) > 9_000 for journal in self.journals))

    def wait(self, holds):
        until = time.monotonic() + SOON
        while not holds():
            assert time.monotonic() < until
            time.sleep(0.01)

    def goes_on(self):
        sizes = list(map(os.path.getsize, self.journals))
        self.wait(lambda: all(os.path.getsize(path) > size for path, size in zip(self.journals, sizes)))

    def end(self):
        for process in self.processes:
            process.kill()
            process.wait()


def steps_in(path):
    with open(path, "rb") as file:
        return [int(step) for step in re.findall(rb"^began ann 1 (\d+)$", file.read(), re.M)]


def are_of_one_moment(folder):
    """Whether each step has all those ahead of it, in copies of all nodes."""
    steps = sorted(itertools.chain(*(steps_in(path) for path in glob.glob(f"{folder}/*/journal"))))
    return len(steps) > NODES and steps == list(range(1, 1 + len(steps)))


class Holding(unittest.TestCase):
    def setUp(self):
        folder = tempfile.TemporaryDirectory()
        self.addCleanup(folder.cleanup)
        self.folder = folder.name
        self.ring = Ring(self.folder)
        self.addCleanup(self.ring.end)
        self.addCleanup(lambda: self.ring.goes_on())  # (whatever a test did, all nodes go on)

    def at(self, name):
        return os.path.join(self.folder, str(name))

    def command(self, *words):
        told = io.TextIOWrapper(io.BytesIO())
        with contextlib.redirect_stderr(io.StringIO()) as why, contextlib.redirect_stdout(told):
            status = journals_command.main([str(word) for word in words])
            told.flush()
        return status, told.buffer.getvalue().decode(), why.getvalue()

    def test_copies_are_of_one_moment(self):
        for time_ in range(TIMES):
            made = copy_state(self.ring.journals, self.at(f"state {time_}"))
            self.assertEqual((len(made.copied), made.missing), (NODES, []))
            self.assertTrue(are_of_one_moment(self.at(f"state {time_}")), f"{time_}")
            with open(self.at(f"state {time_}/plan"), encoding="ascii") as file:
                self.assertEqual(file.read(), PLAN)
            self.ring.goes_on()

    def test_copies_that_are_not(self):
        """One after another; or of nodes that are told to stop, and not waited for."""

        def one_after_another(folder):
            for number, journal in enumerate(self.ring.journals):
                self.assertEqual(self.command("copy", journal, f"{folder}/{number}")[0], 0)

        def not_waited_for(folder):
            with mock.patch.object(holding.os, "kill"), mock.patch.object(Hold, "is_held", lambda _: True):
                copy_state(self.ring.journals, folder)

        for make in (one_after_another, not_waited_for):
            found = []
            for time_ in range(TIMES):
                make(self.at(f"{make.__name__} {time_}"))
                found.append(are_of_one_moment(self.at(f"{make.__name__} {time_}")))
            self.assertIn(False, found, make.__name__)

    def test_the_command(self):
        status, told, why = self.command("state", self.at("state"), *self.ring.journals)
        self.assertEqual((status, why), (0, ""))
        self.assertRegex(told, r"^4 nodes were held for 0\.[0-9]{3} s\ncopied node 0: ")
        self.assertTrue(are_of_one_moment(self.at("state")))
        status, told, why = self.command("state", self.at("state"), *self.ring.journals)
        self.assertEqual((status, are_of_one_moment(self.at("state"))), (0, True), why)
        status, told, why = self.command("state", self.at("two"), *self.ring.journals[:2])
        self.assertEqual(status, journals_command.LACKING)
        self.assertIn("no journal of places 2 and 3: a start has to replace the nodes there", why)
        self.assertIn("a journal is named twice", self.command("state", self.at("x"), *self.ring.journals[1:2] * 2)[2])
        shutil.copy(self.ring.journals[1], self.at("another"))
        self.assertIn("two journals of node 1", self.command("state", self.at("x"), self.ring.journals[1], self.at("another"))[2])

    def test_one_that_does_not_run(self):
        """It is kept from a start as long as the others are held."""
        self.ring.end()
        self.ring.goes_on = lambda: None
        hold = Hold(self.ring.journals[0])
        hold.begin()
        words = [sys.executable, "-c", NODE, self.ring.journals[0], "0", "1"]
        start = lambda: subprocess.run(words, stdin=subprocess.DEVNULL, stderr=subprocess.DEVNULL).returncode
        self.assertNotEqual(start(), 0)
        self.assertTrue(hold.end())
        self.assertEqual(start(), 0)
        self.assertEqual(self.command("state", self.at("state"), *self.ring.journals)[0], 0)
        self.assertTrue(are_of_one_moment(self.at("state")))
        with mock.patch.object(holding, "holders", lambda _: []), open(f"{self.ring.journals[0]}.lock", "rb") as lock:
            holding.fcntl.flock(lock, holding.fcntl.LOCK_EX)
            with self.assertRaisesRegex(NotHeld, "its node's process is not found"):
                Hold(self.ring.journals[0]).begin()

    def test_a_kept_copy(self):
        """No node ever ran beside it, so it has no lock, and gets none."""
        self.command("state", self.at("state"), *self.ring.journals)
        hold = Hold(self.at("state/0/journal"))
        hold.begin()
        self.assertTrue(hold.end())
        self.assertNotIn("journal.lock", os.listdir(self.at("state/0")))

    # What goes wrong

    def test_whoever_holds_is_killed(self):
        words = [*COMMAND, "copy", "--hold", self.ring.journals[0], "-"]
        pid = self.ring.processes[0].pid
        for end in (signal.SIGKILL, None):
            with subprocess.Popen(words, stdin=subprocess.PIPE, stdout=subprocess.PIPE, stderr=subprocess.PIPE, bufsize=0) as holder:
                self.assertEqual(holder.stdout.readline(), holding.READY_WORD)
                holder.stdin.write(holding.HOLD)
                self.assertEqual(holder.stdout.readline(), holding.HELD)
                self.assertEqual(state_of(pid), "T")
                if end:
                    holder.send_signal(end)
                else:
                    holder.stdin.close()
                    self.assertIn(b"went on before all others were held", holder.stderr.read())
            self.ring.goes_on()

    def test_for_too_long(self):
        """A node goes on by itself, and what was copied of it counts for nothing."""
        with mock.patch.object(holding, "SECONDS", 0.2):
            hold = Hold(self.ring.journals[0])
            hold.begin()
            self.assertTrue(hold.is_held())
            self.ring.wait(lambda: not hold.is_held())
            self.assertFalse(hold.end())
        hold = Hold(self.ring.journals[0])
        hold.begin()
        os.kill(self.ring.processes[0].pid, signal.SIGCONT)  # (somebody has it go on)
        self.assertFalse(hold.end())
        with mock.patch.object(Hold, "end", lambda hold, end=Hold.end: end(hold) and "2.j" not in hold.journal):
            with self.assertRaisesRegex(NotHeld, "a node went on before all others were held"):
                copy_state(self.ring.journals, self.at("state"))
        self.assertFalse(os.path.exists(self.at("state")))

    def test_one_that_does_not_stop(self):
        with mock.patch.object(holding, "SOON", 0.1), mock.patch.object(holding, "is_stopped", lambda _: False):
            with self.assertRaisesRegex(NotHeld, "0.journal: its node is not still after 0.1 s"):
                copy_state(self.ring.journals, self.at("state"))

    def test_one_that_ended(self):
        with mock.patch.object(holding, "holders", lambda _: [(1 << 22) - 3]):
            with self.assertRaisesRegex(NotHeld, "its node ended, or is another user's: No such process"):
                copy_state(self.ring.journals, self.at("state"))
        with self.assertRaises(FileNotFoundError):
            copy_state([*self.ring.journals, self.at("none")], self.at("state"))
        self.ring.goes_on()
        self.assertEqual(holders(self.at("none")), [])

    # By commands, as on other machines

    def commands(self, also=()):
        found = {number: [*COMMAND, "copy", "--hold", journal, "-"] for number, journal in enumerate(self.ring.journals)}
        pipes = {"stdin": subprocess.PIPE, "stdout": subprocess.PIPE, "stderr": subprocess.DEVNULL, "bufsize": 0}
        started = {number: subprocess.Popen(words, **pipes) for number, words in (found | dict(also)).items()}
        for each in started.values():
            self.addCleanup(self.ended, each)
        return started

    def ended(self, command):
        command.kill()
        command.communicate()

    def take(self, commands, folder):
        for number, command in commands.items():
            with subprocess.Popen([*COMMAND, "copy", "-", self.at(f"{folder}/{number}")], stdin=command.stdout, stdout=subprocess.DEVNULL) as taker:
                self.assertEqual(taker.wait(), 0)

    def test_commands(self):
        for time_ in range(3):
            started = self.commands()
            held, seconds = hold_together(started, dict.fromkeys(started, b""))
            self.assertEqual((held, seconds < holding.SOON), (list(range(NODES)), True))
            self.take(started, "state")
            self.assertTrue(are_of_one_moment(self.at("state")), f"{time_}")

    def test_commands_that_fail(self):
        """What can't be held is left out, whatever it says, and the others are of one moment all the same."""
        wrong = {1: ["true"], 2: ["sh", "-c", "echo ready; read x; echo no; exec sleep 100"], 5: ["sh", "-c", "exec sleep 100"]}
        with mock.patch.object(holding, "READY", 5), mock.patch.object(holding, "SOON", 3):
            started = self.commands(wrong.items())
            held, _ = hold_together(started, dict.fromkeys(started, b""))
        self.assertEqual(held, [0, 3])
        late = {3: ["sh", "-c", f"echo ready; read x; echo held; read x; exec sleep 100"]}
        with mock.patch.object(holding, "SOON", 3):
            started = self.commands(late.items())
            held, _ = hold_together(started, dict.fromkeys(started, b""))
        self.assertEqual(held, [0, 1, 2])

    def test_what_is_told_badly(self):
        for words in (b"", b"1 2\n", b"hold"):
            with self.assertRaisesRegex(BadFile, "whoever holds all nodes has gone"):
                holding.open_when_told(self.ring.journals[0], io.BytesIO(words), io.BytesIO())
        with self.assertRaisesRegex(BadFile, "went on before all others"):
            holding.open_when_told(self.ring.journals[0], io.BytesIO(b"hold\nstop\n"), io.BytesIO())
        files, had = holding.open_when_told(self.ring.journals[0], io.BytesIO(b"7 9\nhold\ngo\n"), io.BytesIO())
        files.close()
        self.assertEqual(had, b"7 9\n")


if __name__ == "__main__":
    unittest.main()
