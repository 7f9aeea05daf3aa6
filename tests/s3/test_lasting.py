"""A gateway that runs for long: it takes the room of a plan that has grown, and that of all pages; and it ends where it can't serve any more, instead of going on with errors alone."""

import asyncio
import gc
import os
import signal
import subprocess
import sys
import tempfile
import time
import types
import unittest
from unittest import mock

sys.path.insert(0, os.path.dirname(os.path.abspath(__file__)))
from busy import longer
import endpoint
from gridfs_client import CarrierFault, Pace, SessionTaken, Unanswered
from gridfs_client.opening import SOON, turn_of
from gridfs_s3 import gateway, sessions
from gridfs_s3.all_pages import AllPages
from gridfs_s3.sessions import Pool

SPOILT = """
import sys
from gridfs_s3 import gateway, program, store
gateway.WATCH, look = 0.3, store.Store.look
def spoilt(self, name):
    raise BufferError("as of a connection that broke")
store.Store.look = spoilt
program.main(sys.argv[1:])
"""


class Lasting(unittest.TestCase):
    def test_more_room(self):
        """A tenant without room gets some: the gateway that runs has it soon."""
        with endpoint.stand_in() as room:  # (whose folder the plan may stand in)
            plan, folder, processes = os.path.join(room, "plan"), os.path.join(room, "grid"), {}
            with open(plan, "w") as out:
                out.write("grid 2 2\nroom 3000000\ntenant carol 2900000 4 1000 16384\ngo\n" + "carol open 16 256\n" * 4 + "carol open 1 1\n")
            with endpoint.stand_in(plan, folder, processes), endpoint.gateways(folder) as (found,):
                s3 = found.client()
                s3.create_bucket(Bucket="one")
                s3.put_object(Bucket="one", Key="first", Body=b"x" * 500)
                for size in (5_000, 900_000):  # (of which one comes into memory before it is refused)
                    with self.assertRaises(s3.exceptions.ClientError) as fault:
                        s3.put_object(Bucket="one", Key="second", Body=b"y" * size)
                    error = fault.exception.response["Error"]
                    self.assertEqual((error["Code"], fault.exception.response["ResponseMetadata"]["HTTPStatusCode"]), ("InsufficientStorage", 507))
                    self.assertIn("more NAME 16G in chunks", error["Message"])
                with open(plan, "a") as out:
                    out.write("carol chunks 4096\ncarol open 1 1\n")
                processes[folder].send_signal(signal.SIGHUP)
                until = time.monotonic() + longer(60)
                while "the plan has 6 volumes now, 1 more than before" not in found.told():
                    self.assertLess(time.monotonic(), until, found.told())
                    time.sleep(0.2)
                while True:
                    try:
                        s3.put_object(Bucket="one", Key="second", Body=b"y" * 900_000)
                        break
                    except s3.exceptions.ClientError:
                        self.assertLess(time.monotonic(), until, found.told())
                        time.sleep(0.2)
                for key, content in (("first", b"x" * 500), ("second", b"y" * 900_000)):
                    self.assertEqual(s3.get_object(Bucket="one", Key=key)["Body"].read(), content)
                self.assertNotIn("Traceback", found.told())

    def test_full_pages(self):
        """Whoever fills the page in which one session has many names takes no room of the others' pages, and hinders no put of other names. Each session here has a
        page of 8 KiB, of which lines take at most seven eighths."""
        with tempfile.TemporaryDirectory() as folder:
            plan = os.path.join(folder, "plan")
            with open(plan, "w") as out:
                out.write("grid 1 1\nroom 100000\ntenant carol 20000 4 1000 1024\ngo\n" + "carol open 8 128\n" * 2 + "carol open 1 1\ncarol chunks 100000\n")
            with endpoint.stand_in(plan) as room, endpoint.gateways(room) as (found,):
                s3, held = found.client(), {}
                s3.create_bucket(Bucket="one")
                ours = [f"key-{number}" for number in range(400) if turn_of(f"one/key-{number}", 4) == 1]
                long = "x" * 1_500
                for key in ours[:12]:  # (four lines in each page)
                    s3.put_object(Bucket="one", Key=key, Body=key.encode(), Metadata={"a": long})
                    held[key] = key.encode()
                s3.put_object(Bucket="one", Key=ours[0], Body=b"b" * 200_000, Metadata={"a": "y"})
                s3.copy_object(Bucket="one", Key=ours[-1], CopySource=f"one/{ours[0]}")
                s3.copy_object(Bucket="one", Key=ours[-1], CopySource=f"one/{ours[-1]}", MetadataDirective="REPLACE", Metadata={"a": long})
                held |= {ours[0]: b"b" * 200_000, ours[-1]: b"b" * 200_000}
                with self.assertRaises(s3.exceptions.ClientError) as fault:
                    for key in ours[12:]:
                        s3.put_object(Bucket="one", Key=key, Body=key.encode(), Metadata={"a": long})
                        held[key] = key.encode()
                self.assertEqual(fault.exception.response["Error"]["Code"], "InsufficientStorage")
                self.assertGreater(len(held), 13)
                self.assertEqual({key: s3.get_object(Bucket="one", Key=key)["Body"].read() for key in held}, held)
                for key in held:
                    s3.delete_object(Bucket="one", Key=key)
                s3.put_object(Bucket="one", Key=ours[3], Body=b"x", Metadata={"a": long})
                self.assertNotIn("Traceback", found.told())

    def test_uploads_that_come_and_go(self):
        """So many that their removals fill pages again and again."""
        with tempfile.TemporaryDirectory() as folder:
            plan = os.path.join(folder, "plan")
            with open(plan, "w") as out:
                out.write("grid 1 1\nroom 100000\ntenant carol 20000 2 1000 1024\ngo\n" + "carol open 4 128\n" * 2 + "carol open 1 1\ncarol chunks 100000\n")
            with endpoint.stand_in(plan) as room, endpoint.gateways(room) as (found,):
                s3 = found.client()
                s3.create_bucket(Bucket="one")
                for _ in range(200):
                    upload = {"Bucket": "one", "Key": "key", "UploadId": s3.create_multipart_upload(Bucket="one", Key="key")["UploadId"]}
                    s3.upload_part(**upload, PartNumber=1, Body=b"part")
                    s3.abort_multipart_upload(**upload)

    def test_two_gateways_of_a_machine(self):
        """With the same sessions, and locks in folders of their own, as units have them: the second one is refused, or goes on without these sessions. Once the
        first one is killed the second one can have them."""
        with endpoint.stand_in() as room:
            folders = [os.path.join(room, name) for name in ("a", "b", "c")]
            for folder in folders:
                os.mkdir(folder)
            settings = os.path.join(room, "carol.ini")
            one = endpoint.Gateway(settings, folders[0], "1-4")
            try:
                with self.assertRaisesRegex(endpoint.NotStarted, f"other clients use all sessions that the settings name: process {one.process.pid}, a gateway too, has sessions 1, 2, 3, 4"):
                    endpoint.Gateway(settings, folders[1], "1-4")
                rest = endpoint.Gateway(settings, folders[2], "all")
                try:
                    self.assertIn(f"not all sessions can be had: process {one.process.pid}, a gateway too, has sessions 1, 2, 3, 4", rest.told())
                    self.assertIn("sessions 5, 6, 7, 8 (not all of the tenant", rest.told())
                    with self.assertRaisesRegex(endpoint.NotStarted, f"process {one.process.pid}, a gateway too, has session 4; process {rest.process.pid}, a gateway too, has sessions 5, 6"
                                                f"|process {rest.process.pid}, a gateway too, has sessions 5, 6; process {one.process.pid}, a gateway too, has session 4"):  # fmt: skip
                        endpoint.Gateway(settings, folders[1], "4-6")
                finally:
                    rest.kill()
                one.kill()
                again = endpoint.Gateway(settings, folders[1], "1-4")
                again.client().create_bucket(Bucket="one")
                self.assertEqual(again.end(), 0)
            finally:
                one.kill()

    def test_it_ends(self):
        """With status 1, by which a unit starts it again."""
        with endpoint.stand_in() as room:
            keys = os.path.join(room, "keys")
            with open(os.open(keys, os.O_WRONLY | os.O_CREAT, 0o600), "w") as out:
                out.write(f"carol {endpoint.SECRET}\n")
            words = [sys.executable, "-B", "-c", SPOILT, "--config", os.path.join(room, "carol.ini"), "--keys", keys, "--listen", f"127.0.0.1:{endpoint.free_port()}"]
            environment = {**os.environ, "PYTHONPATH": os.pathsep.join([endpoint.os.path.dirname(endpoint.GATEWAY), os.environ.get("PYTHONPATH", "")]), "GRIDFS_LOCKS": os.path.join(room, "locks")}
            done = subprocess.run(words, env=environment, capture_output=True, text=True, timeout=endpoint.PATIENCE)
            self.assertEqual(done.returncode, 1, done.stderr)
            self.assertIn("it ends, so that it is started again: each look at a name fails: BufferError", done.stderr)

    def test_what_it_cannot_read(self):
        """Settings, keys, a file of hosts, a certificate: status 2, which a unit does not start again. A grid that is not there may come: status 1."""
        with tempfile.TemporaryDirectory() as room:
            for name, text in (
                ("keys", f"carol {endpoint.SECRET}\n"), ("open", f"carol {endpoint.SECRET}\n"), ("none", "nothing\n"), ("hosts", "0 h:1 h:2\n"), ("away.ini", "[gridfs]\ntenant = carol\nsocket = away\n"),
                ("ca.ini", f"[gridfs]\ntenant = carol\nhosts = {room}/hosts\nca-file = {room}/none\ncertificate = {room}/none\nkey = {room}/none\n"),
                ("hosts.ini", f"[gridfs]\ntenant = carol\nhosts = {room}/none\nca-file = {room}/none\ncertificate = {room}/none\nkey = {room}/none\n"),
            ):  # fmt: skip
                with open(os.open(os.path.join(room, name), os.O_WRONLY | os.O_CREAT, 0o644 if name == "open" else 0o600), "w") as out:
                    out.write(text)
            environment = {**os.environ, "GRIDFS_LOCKS": os.path.join(room, "locks")}
            for settings, keys, status, why in (
                ("nowhere.ini", "keys", 2, "no such file"), ("away.ini", "nowhere", 2, "No such file"), ("away.ini", "none", 2, "none"), ("ca.ini", "keys", 2, "NO_CERTIFICATE_OR_CRL_FOUND"),
                ("hosts.ini", "keys", 2, "none: line 1: NUMBER HOST:PORT HOST:PORT is wanted"), ("away.ini", "keys", 1, "no grid runs there"),
            ):  # fmt: skip
                words = [sys.executable, "-B", endpoint.GATEWAY, "--config", os.path.join(room, settings), "--keys", os.path.join(room, keys), "--listen", f"unix:{room}/socket"]
                done = subprocess.run(words, env=environment, cwd=room, capture_output=True, text=True, timeout=endpoint.PATIENCE)
                self.assertEqual((done.returncode, done.stderr.count("\n") == 1 or status == 1, why in done.stderr), (status, True, True), (settings, keys, done.stderr))

    def watched(self, looks, lasting=()):
        """What a watch tells that meets these faults, one after another; None where it goes on."""

        async def watch():
            pool = types.SimpleNamespace(lasting=[asyncio.create_task(each) for each in lasting], named=lambda: "", all_pages=types.SimpleNamespace())
            found = gateway.Gateway(types.SimpleNamespace(map=None, pools={"": pool}, clocks=dict), "carol", {}, "", None)
            left = list(looks)

            async def look(*_):
                fault = left.pop(0) if left else None
                if fault:
                    raise fault

            with mock.patch.object(found, "look", look):
                async with asyncio.timeout(0.5):
                    return await found.watch()

        try:
            with mock.patch.object(gateway, "WATCH", 0.01):
                return asyncio.run(watch())
        except TimeoutError:
            return None

    def test_what_ends_it(self):
        odd = BufferError("odd")
        self.assertIn("odd", self.watched([odd, odd, odd]))
        self.assertIsNone(self.watched([odd, odd, None, odd, odd]))
        self.assertIsNone(self.watched([Unanswered("silent")] * 9))

        async def falls():
            raise ValueError("fallen")

        async def lasts():
            await asyncio.sleep(9)

        self.assertIn("fallen", self.watched([], [falls()]))
        self.assertIsNone(self.watched([], [lasts()]))


class Silent(unittest.TestCase):
    def test_homes_of_others(self):
        """Where one home is silent those of idle sessions are asked, each once and for a short time; it is left out until it answers, or all are where the carrier has ended."""
        pace, faults = Pace(timeout=20), [None, Unanswered("none"), SessionTaken("taken"), CarrierFault("ended")]
        done = {fault: self.asked(pace, fault) for fault in faults}
        for fault, wanted in zip(faults, (["released"], ["left out", "released"], ["left out", "released"], ["ended", "released"])):
            self.assertEqual(done[fault], ["asked 0 0", SOON, *wanted, pace], fault)

    def asked(self, pace, fault):
        """What is done with a worker whose home tells this fault, or answers; the pace of its session at the end."""
        done, pool = [], Pool.__new__(Pool)

        def read(*place):
            done.extend((f"asked {place[0]} {place[1]}", worker.session.pace.timeout))
            if fault:
                raise fault

        worker = types.SimpleNamespace(session=types.SimpleNamespace(pace=pace, read=read))
        pool.probe, pool.reopen, pool.release = (lambda _, word=word: done.append(word) for word in ("left out", "ended", "released"))

        async def work():
            pool.loop, pool.threads = asyncio.get_running_loop(), None
            await pool.ask_whether_silent(worker)

        asyncio.run(work())
        return [*done, worker.session.pace]


class Collected(unittest.TestCase):
    def test_once_all_is_settled(self):
        """Collections of what nobody holds don't go through what is known of pages by then: while they do, nobody else has a turn."""
        self.addCleanup(gc.set_threshold, *gc.get_threshold())
        pool, done = Pool.__new__(Pool), []
        pool.sessions, pool.going_on, pool.workers = 1, types.SimpleNamespace(task=None), {1: None}

        async def tidy_session(_):
            await asyncio.sleep(0)
            done.append("settled")

        pool.tidy_session = tidy_session
        words = {word: mock.patch.object(sessions.gc, word, lambda word=word: done.append(word)) for word in ("collect", "freeze")}
        with words["collect"], words["freeze"], self.assertRaises(TimeoutError):
            asyncio.run(asyncio.wait_for(pool.tidy(), 0.1))
        self.assertEqual(done, ["settled", "collect", "freeze"])
        self.assertEqual(gc.get_threshold(), sessions.COLLECTIONS)


class LentMeanwhile(unittest.TestCase):
    def test_nobody_waits_for_it(self):
        """Who looks whether sessions are there, or settles a page, waits for none that is given to a command right then."""
        for work, others in ((lambda pool: AllPages(pool, {}).find_sessions(), True), (lambda pool: pool.settle(0), None)):
            self.assertEqual(asyncio.run(asyncio.wait_for(self.lent_amid(work), 10)), (others, [2]))

    async def lent_amid(self, work):
        """What comes of it, and by which sessions, while the first one is lent before it is waited for."""
        pool, done = Pool.__new__(Pool), []
        pool.has_settled = lambda *_: False
        session = types.SimpleNamespace(expect_own=lambda: None)
        pool.workers = {number: types.SimpleNamespace(number=number, is_lent=False, is_silent=False, session=session) for number in (1, 2)}

        async def lease(number):
            if pool.workers[number].is_lent:
                await asyncio.Event().wait()
            return pool.workers[number]

        async def run(worker, *_, **__):
            done.append(worker.number)

        pool.lease, pool.run = lease, run
        asyncio.get_running_loop().call_soon(lambda: vars(pool.workers[1]).update(is_lent=True))
        return await work(pool), done


if __name__ == "__main__":
    unittest.main()
