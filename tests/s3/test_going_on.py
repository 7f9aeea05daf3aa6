"""A gateway that goes on with the index of an earlier one: it ended in order, or was killed, or others had its sessions since, or the index is another grid's."""

import asyncio
import contextlib
import io
import os
import pathlib
import signal
import subprocess
import sys
import tempfile
import threading
import time
import types
import unittest
from unittest import mock

sys.path.insert(0, os.path.dirname(os.path.abspath(__file__)))
from busy import longer
import code_of_s3
import endpoint
import over_grids
from gridfs_client.answers import Tag
from gridfs_client.ends import End, Note, parse_end, read_end, write_end
from gridfs_client.errors import Unanswered
from gridfs_client.fleet_map import read_map
from gridfs_client.layout import Layout, Volume
from gridfs_client.sessions import Pace, Session
from gridfs_s3 import going_on
from gridfs_s3.all_pages import SURE_FOR, AllPages
from gridfs_s3.notes import Begun, Notes
from gridfs_s3.sessions import Pool
from gridfs_s3.store import Store
from gridfs_s3.sweeping import Sweeps
from gridfs_s3.workers import Lending, Worker

COUNT, SESSIONS = 40, 8
pwrite, opened = os.pwrite, os.open


def looks_in(counts):
    return counts.get("look", 0) + counts.get("list", 0)


def listed(s3, bucket="bucket"):
    """Keys with their sizes."""
    found = s3.list_objects_v2(Bucket=bucket)
    return {each["Key"]: each["Size"] for each in found.get("Contents", [])}


COMMAND = [sys.executable, "-B", os.path.join(code_of_s3.CLIENT, "gridfs-client")]


HAS_ONE = """\
import sys
from gridfs_client.asking import ask_plan
from gridfs_client.opening import OpenSessions
from gridfs_client.settings import Settings

found = Settings.gather({"config": sys.argv[1], "locks": sys.argv[2]}, {})
carrier = found.carrier()
sessions = OpenSessions(found, ask_plan(carrier), carrier)  # (as long as which it has the lock)
sessions.first().read(0, 0)
print("it has one", flush=True)
sys.stdin.read()
"""


HELPED = """\
import sys
from gridfs_client.asking import ask_plan
from gridfs_client.opening import OpenSessions
from gridfs_client.settings import Settings

found = Settings.gather({"config": sys.argv[1], "locks": sys.argv[2], "helpers": "7"}, {})
carrier = found.carrier()
sessions = OpenSessions(found, ask_plan(carrier), carrier)
first = sessions.first()
print(len(sessions.helpers()), "helpers", flush=True)
sys.stdin.read()
"""


PUTS = """\
import sys
from gridfs_client import NamedFiles, opening
from gridfs_client.asking import ask_plan
from gridfs_client.layout import layout_of
from gridfs_client.settings import Settings

class NoNote:  # as an older client
    def __init__(self, *_): pass
    def close(self): pass

def stop(*words):
    global left
    left -= 1
    if not left:
        print("it has come so far", flush=True)
        sys.stdin.read()
    return write(*words)

config, locks, left, name, is_old = *sys.argv[1:3], int(sys.argv[3]), *sys.argv[4:]
opening.Note = NoNote if is_old == "old" else opening.Note
found = Settings.gather({"config": config, "locks": locks}, {})
carrier = found.carrier()
told = ask_plan(carrier)
sessions = opening.OpenSessions(found, told, carrier)  # (as long as which it has the lock)
session = sessions.first()
write, session.write = session.write, stop
NamedFiles(session, layout_of(told)).put(name, b"12345")
stop()
"""


def settings_of(room):
    return ["--config", f"{room}/carol.ini", "--locks", f"{room}/locks"]


def command(room, *words, given=None):
    subprocess.run([*COMMAND, *settings_of(room), *words], input=given, capture_output=True, timeout=longer(60), check=True)


class GoingOn(unittest.TestCase):
    def setUp(self):
        self.rooms = contextlib.ExitStack()
        self.addCleanup(self.rooms.close)
        self.room = self.rooms.enter_context(endpoint.stand_in())

    def gateway(self, room=None, index=None):
        return self.rooms.enter_context(contextlib.closing(Ending(room or self.room, index or f"{self.room}/index")))

    def filled(self):
        """A gateway with objects, which it has settled."""
        it = self.gateway()
        s3 = it.client()
        s3.create_bucket(Bucket="bucket")
        for number in range(COUNT):
            s3.put_object(Bucket="bucket", Key=f"{number:03}/" if number % 3 else f"{number:03}", Body=b"x" * number)
        self.quiet(s3)
        self.assertEqual(len(listed(s3)), COUNT)
        return it, {f"{number:03}/" if number % 3 else f"{number:03}": number for number in range(COUNT)}

    def quiet(self, s3):
        """Waits until listings ask for nothing but the bucket: then all pages are settled, and a while for what comes after that."""
        until = time.monotonic() + longer(60)
        while True:
            listed(s3)  # (which finds that all sessions are the gateway's still, for two seconds)
            endpoint.counts(self.room)
            listed(s3)
            if looks_in(endpoint.counts(self.room)) <= 1:
                break
            self.assertLess(time.monotonic(), until)
            time.sleep(0.5)
        while sum(endpoint.counts(self.room).values()):
            self.assertLess(time.monotonic(), until)
            time.sleep(1)

    def test_ended_in_order(self):
        it, wanted = self.filled()
        self.assertEqual(it.end(), 0)
        for _ in range(2):
            endpoint.counts(self.room)
            it.start()
            s3 = it.client()
            self.assertEqual(listed(s3), wanted)
            told = endpoint.counts(self.room)
            self.assertEqual((looks_in(told), told.get("write")), (2, None), told)  # (for the index' word, and the bucket)
            s3.put_object(Bucket="bucket", Key="new", Body=b"12345")
            s3.delete_object(Bucket="bucket", Key="003")
            wanted = {key: size for key, size in wanted.items() if key != "003"} | {"new": 5}
            self.assertEqual(listed(s3), wanted)
            self.assertEqual(s3.get_object(Bucket="bucket", Key="006")["Body"].read(), b"x" * 6)
            self.assertEqual(it.end(), 0)

    def test_others_had_its_sessions(self):
        it, wanted = self.filled()
        self.assertEqual(it.end(), 0)
        for number in range(6):
            command(self.room, "put", "-", f"bucket/{number:03}", given=b"y" * 99)
            command(self.room, "rm", "bucket/009") if number == 3 else None
            wanted[f"{number:03}"] = 99
        del wanted["009"]
        it.start()
        self.assertEqual(listed(it.client()), wanted)

    def test_killed(self):
        it, wanted = self.filled()
        for number in range(5):
            it.client().put_object(Bucket="bucket", Key=f"late {number}", Body=b"x")
            wanted[f"late {number}"] = 1
        it.kill()
        it.start()
        self.assertEqual(listed(it.client()), wanted)
        self.quiet(it.client())
        self.assertEqual(listed(it.client()), wanted)

    def test_another_grid(self):
        """Its pages have tags as those of the index, and other contents."""
        it, _ = self.filled()
        self.assertEqual(it.end(), 0)
        other = self.rooms.enter_context(endpoint.stand_in())
        another = self.gateway(other, f"{other}/index")
        another.client().create_bucket(Bucket="bucket")
        for number in range(COUNT):
            another.client().put_object(Bucket="bucket", Key=f"{number}", Body=b"z" * 7)
        self.assertEqual(another.end(), 0)
        os.replace(f"{self.room}/index", f"{other}/index")
        another.start()
        self.assertEqual(listed(another.client()), {f"{number}": 7 for number in range(COUNT)})


    def test_a_gateway_that_was_stopped(self):
        """A command by locks of its own, as on another machine, had one of its sessions meanwhile. What that changed is told once two seconds have gone."""
        it, wanted = self.filled()
        it.process.send_signal(signal.SIGSTOP)
        locks = self.rooms.enter_context(tempfile.TemporaryDirectory())
        words = ["--config", f"{self.room}/carol.ini", "--locks", locks, "put", "-", "bucket/meanwhile"]
        subprocess.run([*COMMAND, *words], input=b"1234567", capture_output=True, timeout=longer(60), check=True)
        time.sleep(SURE_FOR)
        it.process.send_signal(signal.SIGCONT)
        self.assertEqual(listed(it.client()), wanted | {"meanwhile": 7})


class Lent(unittest.TestCase):
    """A session that was lent to a command."""

    plan = "grid 2 2\nroom 3000000\ntenant carol 2900000 8 1000 16384\ngo\n" + "carol open 64 64\n" * 8 + "carol open 64 256\n" * 2
    pages = 31

    def test_it(self):
        with contextlib.ExitStack() as rooms:
            folder = rooms.enter_context(tempfile.TemporaryDirectory())
            with open(f"{folder}/plan", "w", encoding="ascii") as out:
                out.write(self.plan)
            room = rooms.enter_context(endpoint.stand_in(f"{folder}/plan", f"{folder}/grid"))
            it = rooms.enter_context(contextlib.closing(Ending(room)))
            s3, wanted = it.client(), {}
            s3.create_bucket(Bucket="bucket")
            for number in range(COUNT):
                s3.put_object(Bucket="bucket", Key=f"{number:03}", Body=b"x" * number)
                wanted[f"{number:03}"] = number
            self.writes(room)
            for number in range(3):
                # In order, once or several times: the pages that were changed are settled anew, and no others.
                for each in range(1 + number % 3):
                    command(room, "put", "-", f"bucket/{number:03}", given=b"y" * (90 + each))
                    wanted[f"{number:03}"] = 90 + each
                self.assertEqual(listed(s3), wanted)
                self.assertLess(self.writes(room), self.pages)
                self.assertEqual(listed(s3), wanted)
            # A sweep carries no page that is settled.
            command(room, "sweep")
            self.assertLess(self.writes(room), self.pages)
            self.assertEqual(listed(s3), wanted)
            # Killed once it had the session, and had written nothing: none is.
            with self.command(HAS_ONE, room) as process:
                self.assertEqual(process.stdout.readline(), b"it has one\n")
                self.assertLessEqual(self.looks(room, s3, wanted), 1)  # (of the bucket)
                process.kill()
            self.assertEqual(self.writes(room), 0)
            # Before it writes the journal, the page, and after it: that page is, and meanwhile a listing looks at its volume.
            for left in (1, 2, 3):
                with self.command(PUTS, room, str(left), f"bucket/amid {left}", "new") as process:
                    self.assertEqual(process.stdout.readline(), b"it has come so far\n")
                    if left == 3:
                        wanted["amid 3"] = 5
                    looks = self.looks(room, s3, wanted)
                    self.assertTrue(looks <= 2 if left < 3 else 1 <= looks <= 2, looks)
                    process.kill()
                self.assertLessEqual(self.writes(room), 2)
                if left == 2 and "amid 2" in listed(s3):  # (it was announced, and the next client of the session has carried it)
                    wanted["amid 2"] = 5
                self.assertEqual(listed(s3), wanted)
            # An older client says nothing beforehand: all volumes are looked at while it has the session, and all pages are settled anew once it is killed.
            with self.command(PUTS, room, "3", "bucket/old", "old") as process:
                self.assertEqual(process.stdout.readline(), b"it has come so far\n")
                wanted["old"] = 5
                self.assertGreaterEqual(self.looks(room, s3, wanted), 4)
                process.kill()
            self.assertGreaterEqual(self.writes(room), 2 * self.pages)
            self.assertEqual(listed(s3), wanted)

    def test_several(self):
        """A command that wants more sessions is lent up to half of them, and the gateway goes on by the others."""
        with endpoint.stand_in() as room, contextlib.closing(Ending(room)) as it:
            s3 = it.client()
            s3.create_bucket(Bucket="bucket")
            with self.command(HELPED, room) as process:
                self.assertEqual(process.stdout.readline(), b"3 helpers\n")
                for number in range(3):
                    s3.put_object(Bucket="bucket", Key=f"{number}", Body=b"x" * number)
                    self.assertEqual(len(listed(s3)), number + 1)
            self.assertEqual(listed(s3), {"0": 0, "1": 1, "2": 2})

    @contextlib.contextmanager
    def command(self, text, room, *words):
        """A command of this text, which waits for its end once it has told a line."""
        words = [sys.executable, "-B", "-c", text, f"{room}/carol.ini", f"{room}/locks", *words]
        with subprocess.Popen(words, env={**os.environ, "PYTHONPATH": code_of_s3.CLIENT}, stdin=subprocess.PIPE, stdout=subprocess.PIPE) as process:
            try:
                yield process
            finally:
                process.kill()

    def looks(self, room, s3, wanted):
        """How many volumes a listing looks at, which is right."""
        listed(s3)
        endpoint.counts(room)
        self.assertEqual(listed(s3), wanted)
        return looks_in(endpoint.counts(room))

    def writes(self, room):
        """How many there were until nothing more is written."""
        found, last = 0, time.monotonic()
        while time.monotonic() < last + 3:
            if count := endpoint.counts(room).get("write", 0):
                found, last = found + count, time.monotonic()
            time.sleep(0.2)
        return found


class Killed(unittest.TestCase):
    """A gateway that is killed once it has settled all pages: what was under way is settled anew, and no more, unless somebody had a session since."""

    pages = Lent.pages

    def setUp(self):
        self.rooms = contextlib.ExitStack()
        self.addCleanup(self.rooms.close)
        self.room = self.rooms.enter_context(endpoint.stand_in(*self.plan(self.rooms.enter_context(tempfile.TemporaryDirectory()))))
        self.it = self.rooms.enter_context(contextlib.closing(Ending(self.room, f"{self.room}/index")))
        s3, self.wanted = self.it.client(), {}
        s3.create_bucket(Bucket="bucket")
        for number in range(COUNT):
            s3.put_object(Bucket="bucket", Key=f"{number:03}", Body=b"x" * number)
            self.wanted[f"{number:03}"] = number
        self.assertGreater(self.writes(), self.pages)

    def plan(self, folder):
        with open(f"{folder}/plan", "w", encoding="ascii") as out:
            out.write(Lent.plan)
        return f"{folder}/plan", f"{folder}/grid"

    def writes(self):
        return Lent.writes(None, self.room)

    def kill_amid_puts(self, turn):
        """Keys whose puts may have been done, others in each turn; and those of them that got no answer."""
        s3, tried, unanswered = [self.it.client() for _ in range(4)], [], set()

        def put(number):
            for each in range(50):
                key = f"late {turn}-{number}-{each}"
                tried.append(key)
                try:
                    s3[number].put_object(Bucket="bucket", Key=key, Body=b"late")
                except Exception:
                    unanswered.add(key)
                    return

        threads = [threading.Thread(target=put, args=(number,)) for number in range(4)]
        for thread in threads:
            thread.start()
        time.sleep(0.5)
        self.it.kill()
        for thread in threads:
            thread.join()
        return tried, unanswered

    def test_amid_puts(self):
        for turn in range(2):
            tried, unanswered = self.kill_amid_puts(turn)
            endpoint.counts(self.room)
            self.it.start()
            told = listed(self.it.client())
            self.assertLessEqual(endpoint.counts(self.room).get("write", 0), 4 * SESSIONS)
            self.assertEqual({key: size for key, size in told.items() if key not in tried}, self.wanted)
            self.assertLessEqual(self.writes(), 6 * SESSIONS)
            s3 = self.it.client()
            before, told = told, listed(s3)  # (what was announced, and got no answer, may come as its page is settled, after the first listing)
            self.assertEqual({key: size for key, size in told.items() if key in before or key not in unanswered}, before)
            for key in tried:
                self.assertEqual(key in told, there(s3, key), key)
            self.wanted = told

    def test_who_had_a_session_since(self):
        """It may have left something under way into any page of its session."""
        self.it.kill()
        words = [sys.executable, "-B", "-c", HAS_ONE, f"{self.room}/carol.ini", f"{self.room}/other"]
        with subprocess.Popen(words, env={**os.environ, "PYTHONPATH": code_of_s3.CLIENT}, stdin=subprocess.PIPE, stdout=subprocess.PIPE) as process:
            self.assertEqual(process.stdout.readline(), b"it has one\n")
            process.kill()
        endpoint.counts(self.room)
        self.it.start()
        self.assertEqual(listed(self.it.client()), self.wanted)
        self.assertGreaterEqual(self.writes(), 2 * self.pages)
        self.assertEqual(listed(self.it.client()), self.wanted)


def there(s3, key):
    from botocore.exceptions import ClientError

    try:
        s3.head_object(Bucket="bucket", Key=key)
        return True
    except ClientError:
        return False


class SeveralGrids(unittest.TestCase):
    def test_listings_between_moves(self):
        """Listings ask nobody once all pages are settled, and are right while slices move, and after that."""
        with contextlib.ExitStack() as rooms:
            room = rooms.enter_context(tempfile.TemporaryDirectory())
            for label in ("east", "west"):
                rooms.enter_context(endpoint.stand_in(folder=os.path.join(room, label)))
            fleet = over_grids.Fleet(room, ["east", "west"])
            it = rooms.enter_context(contextlib.closing(Ending(room)))
            s3, wanted = it.client(), {}
            s3.create_bucket(Bucket="bucket")
            for number in range(COUNT):
                key = f"{number:03}/" if number % 3 else f"{number:03}"
                s3.put_object(Bucket="bucket", Key=key, Body=b"x" * number)
                wanted[key] = number
            for slices, label in (("0-40000", "west"), ("20000-30000", "east"), ("20000-30000", "west")):
                done = threading.Thread(target=fleet.tell, args=("move", slices, label))
                done.start()
                while done.is_alive():
                    self.assertEqual(listed(s3), wanted, slices)
                done.join()
                self.assertFalse(read_map(fleet.map).moves)
                self.assertEqual(listed(s3), wanted, slices)
                until = time.monotonic() + longer(90)
                while self.looks_of(lambda: self.assertEqual(listed(s3), wanted, slices), room) > 2:  # (of the bucket alone)
                    self.assertLess(time.monotonic(), until)
                    time.sleep(0.5)
                gone = next(iter(wanted))
                s3.delete_object(Bucket="bucket", Key=gone)
                del wanted[gone]
                s3.put_object(Bucket="bucket", Key=f"after {slices}", Body=b"12345")
                wanted[f"after {slices}"] = 5
                self.assertEqual(listed(s3), wanted, slices)

    def looks_of(self, work, room):
        """How many volumes are looked at meanwhile."""
        work()  # (which finds that all sessions are the gateway's still, for two seconds)
        for label in ("east", "west"):
            endpoint.counts(os.path.join(room, label))
        work()
        return sum(looks_in(endpoint.counts(os.path.join(room, label))) for label in ("east", "west"))


class Ending(endpoint.Gateway):
    def __init__(self, room, index=None):
        super().__init__(os.path.join(room, "carol.ini"), room, words=("--index", index) if index else ())

    def close(self):
        if self.process.poll() is None:
            self.kill()


class HowFar(unittest.TestCase):
    """What a session's last number has to be."""

    def gone_on(self, said, last, home=2):
        store = self.store(last, home)
        store.go_on(parse_end(f"{said}\n"))
        return store.writer.carried

    def store(self, last, home=2):
        class Began(Session):
            def __init__(self):
                self.home, self.last, self.number, self.written = home, None, 1, set()

            def start(self):
                self.last = last
                return last

        store = Store.__new__(Store)
        store.session, store.me = Began(), 1
        store.layout = types.SimpleNamespace(page_numbers=range(3), page_at=Layout(2, (Volume(4, 1), Volume(4, 1), Volume(4, 1), Volume(4, 1), Volume(4, 2))).page_at)
        store.writer = types.SimpleNamespace(carried={})
        store.shared = types.SimpleNamespace(index=types.SimpleNamespace(tag=lambda page, _: Tag(page + 5, 1)))
        return store

    def test_all_pages_are_looked_at_first(self):
        """After a kill: a session goes on only once the index has all pages as they are; and not where no look ends well."""
        for faults, wanted in ((2, ["look", "look", "look", "went on"]), (99, ["look"] * 5)):
            done, left = [], [Unanswered("silent")] * faults

            async def look():
                done.append("look")
                if left:
                    raise left.pop()

            async def go_on(*_):
                done.append("went on")

            found = going_on.GoingOn(types.SimpleNamespace(all_pages=types.SimpleNamespace(look=look)))
            found.go_on_by_after = go_on
            with mock.patch.multiple(going_on, RETRY=0, TRIES=5):
                asyncio.run(found.go_on_after([(None, None, None)]))
            self.assertEqual(done, wanted)

    def test_what_a_command_notes(self):
        """It is there before it is asked for, as long as one operation follows another; else there is none."""
        with tempfile.TemporaryDirectory() as folder:
            path = pathlib.Path(folder) / "carol-1.end"

            def began(last, end=End(2, 7, frozenset({(0, 9)}))):
                write_end(path, end)
                session = types.SimpleNamespace(home=2, last=last, note=None)
                return Note(path, session), session

            for last, is_noted in ((7, True), (8, True), (9, False), (6, False)):
                note, session = began(last)
                self.assertEqual((read_end(path), session.note is not None), (End(2, last, frozenset({(0, 9)})) if is_noted else None, is_noted), last)
                note.close()
            for settled in (0, 3):
                note, session = began(8, End(2, 7, frozenset({(0, 9)}), settled))
                session.note.begins(9, (5, 6))
                self.assertEqual(read_end(path), End(2, 9, frozenset({(0, 9), (5, 6)}), settled))
                self.assertEqual([note.unsettled(pages) for pages in (3, 6)], [{(0, 9), (5, 6)} if settled else None, None])  # (a later plan has more pages)
                note.close()
            note, session = began(8)
            for number, place, written in ((9, None, {(0, 9)}), (10, (5, 6), {(0, 9), (5, 6)}), (10, (5, 6), {(0, 9), (5, 6)}), (11, (4, 1), {(0, 9), (5, 6), (4, 1)})):
                session.note.begins(number, place)
                self.assertEqual(read_end(path), End(2, number, frozenset(written)))
            self.assertTrue(read_end(path).covers(2, 12) and not read_end(path).covers(2, 13) and not read_end(path).covers(66, 11))
            note.close()
            self.assertEqual((read_end(path).last, session.note), (11, None))
            for number, home, count in ((10, 2, 0), (9, 66, 0), (9, 2, 4_096)):  # (the home was started again, another stands in its place, or the note is full)
                note, session = began(8, End(2, 7, frozenset((0, each) for each in range(count))))
                session.home = home
                session.note.begins(number, (7, 7))
                self.assertEqual((read_end(path), session.note), (None, None))
            with mock.patch.object(os, "open", lambda path, flags, *mode: opened(path, flags, *mode) if flags & os.O_CREAT else opened("/nowhere", flags)):
                note, session = began(8)
            self.assertEqual((read_end(path), session.note), (None, None))
            note, session = began(8)
            with mock.patch.object(os, "pwrite", side_effect=OSError):  # (a disk that is full)
                session.note.begins(9, (7, 7))
            self.assertEqual((read_end(path), session.note), (None, None))
            note, session = began(8)
            with mock.patch.object(os, "pwrite", lambda out, words, at: pwrite(out, words[:1], at)):
                session.note.begins(9, (7, 7))
            self.assertEqual((read_end(path), session.note), (None, None))

    def test_what_is_noted_of_a_session_that_is_lent(self):
        """Whether all its pages are settled."""
        for carried in ({0: Tag(5, 1), 1: Tag(6, 1)}, {0: Tag(5, 1)}):
            with tempfile.TemporaryDirectory() as folder:
                path = pathlib.Path(folder) / "carol-1.end"
                pool = Pool.__new__(Pool)
                pool.settings = types.SimpleNamespace(end_path=lambda _: path, is_wanted=lambda _: True)
                pool.shared = types.SimpleNamespace(index=types.SimpleNamespace(beginnings=0))
                pool.lending, pool.sweeps, pool.lends, pool.renew = Lending(), Sweeps(pool), {1}, lambda _: None
                worker = Worker(types.SimpleNamespace(number=1, home=2, last=8), io.BytesIO())
                worker.store = types.SimpleNamespace(writer=types.SimpleNamespace(carried=carried, has_settled_all=lambda: len(carried) == 2))

                async def leased(_):
                    return worker

                async def lent():
                    pool.lease = leased
                    with contextlib.suppress(asyncio.TimeoutError):
                        await asyncio.wait_for(pool.lend(worker), 0.3)

                asyncio.run(lent())
                self.assertEqual(read_end(path), End(2, 8, settled=2 if len(carried) == 2 else 0))

    def test_what_a_note_leaves(self):
        """Of a session that is lent, once its home told how far it came: the note is read after that."""
        with tempfile.TemporaryDirectory() as folder:
            path = pathlib.Path(folder) / "carol-1.end"

            def told():  # (the command goes on meanwhile)
                write_end(path, note)
                return last

            pool = Pool.__new__(Pool)
            pool.settings, pool.layout = types.SimpleNamespace(end_path=lambda _: path), self.store(8).layout
            pool.shared = types.SimpleNamespace(index=types.SimpleNamespace(beginnings=0))
            worker, pages = Worker(types.SimpleNamespace(number=1, home=2, last_at_home=told, pace=Pace()), None), AllPages(pool, {})
            worker.settled_when_lent = {0: Tag(5, 1), 1: Tag(6, 1), 2: Tag(7, 1)}
            for last, note, left in (
                (8, End(2, 8), {0, 1, 2}), (9, End(2, 8), {0, 1, 2}), (9, End(2, 9, frozenset({(0, 2)})), {1, 2}), (9, End(2, 12, frozenset({(0, 2), (3, 3)})), {1}),
                (10, End(2, 8), set()), (8, End(66, 8), set()), (8, None, set()), (None, End(2, 8), set()),
            ):  # fmt: skip
                write_end(path, End(2, 8))
                found = pages.settled_in_note(worker)
                self.assertEqual({page for page in range(3) if page in found}, left, (last, note))
                worker.settled_when_lent.pop(2)
                found = pages.settled_in_note(worker)
                self.assertEqual({page for page in range(3) if page in found}, left - {2}, (last, note))
                worker.settled_when_lent[2] = Tag(7, 1)
            write_end(path, End(2, 8))
            last, note, pool.shared.index.beginnings = 8, End(2, 8), 1  # (the index was begun anew, and has them no more)
            self.assertEqual(pages.settled_in_note(worker), ())
            pool.shared.index.beginnings, settled = 0, {1: Tag(6, 1)}
            worker.store = types.SimpleNamespace(settled={}, writer=types.SimpleNamespace(has_settled_all=lambda: False))
            worker.store.take_back = lambda *_: (self.assertTrue(worker.settled_when_lent), vars(worker.store).update(settled=settled))
            pool.take_back(worker, settled)
            self.assertEqual((worker.settled_when_lent, pages.settled_in_note(worker), path.exists()), ((), settled, False))

    def test_notes(self):
        """What is noted of a session, and is believed where its home tells that number, or the one before."""
        with tempfile.TemporaryDirectory() as folder:
            one = Notes(f"{folder}/notes")
            every = {1: Begun(2, 7, (4, 5), True), 16: Begun(66, 1 << 31, None, False)}
            self.assertEqual([one.read(number) for number in range(1, 17)], [None] * 16)
            for number, begun in every.items():
                one.write(number, begun)
            later = Notes(f"{folder}/notes")
            self.assertEqual({number: begun for number in range(1, 17) if (begun := later.read(number))}, every)
            later.memory[64 + 8] ^= 1  # (a part of a record)
            self.assertEqual([one.read(1), one.read(16)], [None, every[16]])
            with self.assertRaises(OSError):
                Notes(f"{folder}/nowhere/notes")
        told = [(home, last) for home in (2, 66) for last in range(5, 11) if every[1].is_last(home, last)]
        self.assertEqual(told, [(2, 7), (2, 8)])

    def test_it(self):
        carried = {0: Tag(5, 1), 1: Tag(6, 1), 2: Tag(7, 1)}
        self.assertEqual(self.gone_on("2 7", 8), carried)
        for said, last, home in (("2 7", 6, 2), ("2 7", 9, 2), ("2 7", 8, 66), ("2 0", 8, 2)):
            self.assertEqual(self.gone_on(said, last, home), {})
        # Where the gateway was killed, the page or journal that was under way is.
        for place, left in (((0, 2), {1, 2}), ((2, 0), {0, 1, 2}), ((3, 3), {0, 1}), ((4, 0), {0, 1, 2}), (None, {0, 1, 2})):
            store = self.store(8)
            store.go_on_after(Begun(2, 7, place, True))
            self.assertEqual(store.writer.carried.keys(), left, place)
        # What this gateway wrote since is as it left it: settled, or not.
        store = self.store(8)
        store.session.written, store.writer.carried = {(0, 2), (3, 1)}, {0: Tag(99, 1)}
        store.go_on_after(Begun(2, 7, None, True))
        self.assertEqual(store.writer.carried, {0: Tag(99, 1), 2: Tag(7, 1)})
        # Pages that were written meanwhile, or their journals, are settled anew; slots and tables are none.
        for places, left in (("0.2", {1, 2}), ("2.2 0.0", {1, 2}), ("1.1 3.3", {0}), ("4.0 0.1", {0, 1, 2})):
            self.assertEqual(self.gone_on(f"2 7 {places}", 8).keys(), left, places)


if __name__ == "__main__":
    unittest.main()
