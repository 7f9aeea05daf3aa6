"""Listings by several processes, over a stand-in for a grid."""

import contextlib
import os
import signal
import subprocess
import sys
import tempfile
import time
import unittest
from pathlib import Path
from unittest import mock

from histories import HERE

from gridfs_client import side_by_side
from gridfs_client.asking import ask_plan
from gridfs_client.ends import End, read_end, write_end
from gridfs_client.layout import layout_of
from gridfs_client.names import NamedFiles
from gridfs_client.opening import OpenSessions
from gridfs_client.settings import Settings

TOP = Path(HERE).parent.parent
SESSIONS, VOLUMES = 4, 32
NAMES = sorted([*(f"a/{number}" for number in range(150)), "ä b", "line\u2028end", "b"])
PLAN = f"grid 1 1\nroom 9000000\ntenant carol 9000000 {SESSIONS} 100 16384 1000\ngo\ncarol open {2 * SESSIONS} 16 times {2 * VOLUMES}\ncarol open 1 1\n"
LATER = f"carol open {4 * SESSIONS} 16 times {2 * VOLUMES}\ncarol open 1 1\n"


class SideBySide(unittest.TestCase):
    def setUp(self):
        folder = tempfile.TemporaryDirectory()
        self.addCleanup(folder.cleanup)
        self.folder = Path(folder.name)
        (self.folder / "plan").write_text(PLAN)
        self.grid = subprocess.Popen([sys.executable, "-B", TOP / "tests/s3/stand_in.py", self.folder / "plan", self.folder])
        self.addCleanup(self.grid.wait)
        self.addCleanup(self.grid.kill)
        until = time.monotonic() + 20
        while not (self.folder / "carol.ini").exists() and time.monotonic() < until:
            time.sleep(0.02)
        self.settings = Settings.gather({"config": str(self.folder / "carol.ini"), "locks": str(self.folder / "locks")}, {})
        self.environment = {**os.environ, "GRIDFS_CONFIG": str(self.folder / "carol.ini"), "GRIDFS_LOCKS": str(self.folder / "locks"), "PYTHONPATH": str(TOP / "clients/python")}
        with self.opened() as (files, _):
            for name in NAMES:
                files.put(name, b"x")

    @contextlib.contextmanager
    def opened(self):
        with contextlib.closing(self.settings.carrier()) as carrier:
            told = ask_plan(carrier)
            with contextlib.closing(OpenSessions(self.settings, told, carrier)) as sessions:
                yield NamedFiles(sessions.first(), layout_of(told), helpers=sessions.helpers), sessions

    def listed(self, prefix="", process=side_by_side.Process):
        """What a listing tells, and how many processes it had besides."""
        begun = []

        def begin(*words):
            begun.append(process(*words))
            return begun[-1]

        with self.opened() as (files, sessions), mock.patch.object(side_by_side, "Process", begin):
            found = side_by_side.skimmed(files, self.settings, sessions, prefix)
        self.assertTrue(all(each.process is None or each.process.returncode is not None for each in begun))
        return [line.partition("\0")[0] for line in sorted(found)], len(begun)

    def ended_well(self, *words):
        told = subprocess.run([sys.executable, "-B", TOP / "clients/python/gridfs-client", *words], env=self.environment, capture_output=True)
        self.assertEqual((told.returncode, told.stderr), (0, b""))
        return told.stdout.decode().split("\n")[:-1]

    def test_all_are_told(self):
        self.assertEqual(self.listed(), (NAMES, 3))
        self.assertEqual(self.listed("a/1"), ([name for name in NAMES if name.startswith("a/1")], 3))
        lines = self.ended_well("ls")
        self.assertEqual(len(lines), len(NAMES))
        self.assertEqual(lines, self.ended_well("--session", "2", "ls"))

    def test_pages_that_have_split(self):
        with open(self.folder / "plan", "a") as plan:
            plan.write(LATER)
        self.grid.send_signal(signal.SIGHUP)
        time.sleep(0.5)
        self.assertEqual(self.listed(), (NAMES, 3))
        with self.opened() as (files, sessions):
            files.writer.split(files.writer.bucket(files.layout.page_of("b")))
        self.assertEqual(self.listed(), (NAMES, 3))
        self.ended_well("grow")
        self.assertEqual(self.listed(), (NAMES, 3))

    def test_a_process_that_dies(self):
        """Its share is told by the first session. So it is where none can be begun, and where a node tells it another plan."""

        class Dies(side_by_side.Process):
            def __init__(self, *words):
                super().__init__(*words)
                self.process.kill()

        self.assertEqual(self.listed(process=Dies), (NAMES, 3))
        with mock.patch.object(side_by_side, "Popen", side_effect=OSError):
            self.assertEqual(self.listed(), (NAMES, 3))

        begin = side_by_side.Process

        def with_other_plan(settings, sessions, session, names, *rest):
            process = begin(settings, sessions, session, mock.Mock(layout=mock.Mock(volumes=names.layout.volumes[:-1])), *rest)
            self.assertIsNone(process.told())
            return process

        self.assertEqual(self.listed(process=with_other_plan), (NAMES, 3))

    def test_notes_go_on(self):
        """Each session's note is kept by the process that goes on with it: so who has the session next knows that nothing was written."""
        with self.opened() as (_, sessions):
            noted = {session.number: session for session in [sessions.first(), *sessions.helpers()]}
        for number, session in noted.items():
            write_end(self.settings.end_path(number), End(session.home, session.last))
        self.assertEqual(self.listed(), (NAMES, 3))
        with self.opened() as (_, sessions):
            for session in [sessions.first(), *sessions.helpers()]:
                end = read_end(self.settings.end_path(session.number))
                self.assertGreater(end.last, noted[session.number].last + 5)
                self.assertTrue(end.is_of(session))

    def test_they_end_with_who_began_them(self):
        words = "import time\nfrom gridfs_client import command, names\nnames.NamedFiles.skimmed = lambda *_: (print('goes on', flush=True), time.sleep(60))\ncommand.main(['ls'])\n"
        with subprocess.Popen([sys.executable, "-B", "-c", words], env=self.environment, stdout=subprocess.PIPE) as command:
            try:
                self.assertEqual(command.stdout.readline(), b"goes on\n")
                self.grid.send_signal(signal.SIGSTOP)
                time.sleep(1)
                self.assertEqual(self.free(), set())
            finally:
                command.kill()
        self.wait_until(lambda: len(self.free()) == SESSIONS)

    def free(self):
        """The sessions that no command has."""
        locks = {number: self.settings.lock(number) for number in range(1, SESSIONS + 1)}
        found = {number for number, lock in locks.items() if lock}
        for lock in filter(None, locks.values()):
            lock.close()
        return found

    def wait_until(self, is_so):
        until = time.monotonic() + 20
        while not is_so():
            self.assertLess(time.monotonic(), until)
            time.sleep(0.02)


if __name__ == "__main__":
    unittest.main()
