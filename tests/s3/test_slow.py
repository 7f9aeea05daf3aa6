"""Slow clients, those who leave, and those who want much at a time: what others wait for them, and what memory they take. The gateway is by itself here, with no nginx
before it that takes slow clients off."""

import asyncio
import contextlib
import json
import os
import shutil
import signal
import socket
import sys
import threading
import time
import unittest
from concurrent.futures import ThreadPoolExecutor
from unittest import mock
from urllib.parse import urlsplit

sys.path.insert(0, os.path.dirname(os.path.abspath(__file__)))
import endpoint
import test_malformed
from busy import longer
from code_of_s3 import CODE
from gridfs_s3 import bounds

KEYS = f"carol {endpoint.SECRET}\ncarol.one {endpoint.SECRET} bucket=one\n"
POLICY = json.dumps({"Statement": {"Effect": "Allow", "Principal": "*", "Action": "s3:GetObject", "Resource": "arn:aws:s3:::open/*"}})
MIB = 1 << 20
PATIENCE = 60  # seconds until all of it has come
AT_ONCE, LATE, AT_MOST = 16, 0.04, 2  # puts; seconds for which a node takes its time; seconds that each put may wait
LONG_PLAN = os.path.join(endpoint.HERE, "..", "..", "deploy", "s3", "plan")  # with many pages
SOON = 20  # seconds that a small request may take


def setUpModule():
    global GATEWAY, GRID, S3
    processes = {}
    room = unittest.enterModuleContext(endpoint.stand_in(processes=processes))
    (GRID,) = processes.values()
    (GATEWAY,) = unittest.enterModuleContext(endpoint.gateways(room, keys=KEYS))
    test_malformed.GATEWAY, S3 = GATEWAY, GATEWAY.client()
    for name in ("one", "two"):
        S3.create_bucket(Bucket=name)
    S3.put_object(Bucket="two", Key="small", Body=b"small")
    S3.put_object(Bucket="one", Key="piece", Body=b"x" * 1_000_000)
    S3.put_object(Bucket="one", Key="long", Body=b"x" * 6_000_000)
    S3.create_bucket(Bucket="open")
    S3.put_bucket_policy(Bucket="open", Policy=POLICY)
    S3.put_object(Bucket="open", Key="long", Body=b"x" * (24 * MIB))


def put(path, length, access="carol.one"):
    return test_malformed.signed("PUT", path, access=access) + f"Content-Length: {length}\r\n\r\n".encode()


class Slow(unittest.TestCase):
    def setUp(self):
        self.open = self.enterContext(contextlib.ExitStack())

    def come(self, data, taken=None):
        """A connection by which this is said, and then nothing is read."""
        made = socket.socket()
        if taken:
            made.setsockopt(socket.SOL_SOCKET, socket.SO_RCVBUF, taken)
        made.connect(("127.0.0.1", GATEWAY.port))
        self.open.callback(made.close)
        made.sendall(data)
        return made

    def served(self):
        """Small requests, each of which has to be answered soon."""
        for call, words in (("get_object", {"Key": "small"}), ("put_object", {"Key": "other", "Body": b"x" * 500_000}), ("list_objects_v2", {}), ("get_object", {"Key": "other"})):
            begun = time.monotonic()
            told = getattr(S3, call)(Bucket="two", **words)
            if "Body" in told:
                told["Body"].read()
            self.assertLess(time.monotonic() - begun, longer(SOON), call)
        return told

    def grown(self):
        with open(f"/proc/{GATEWAY.process.pid}/status") as file:
            return next(int(line.split()[1]) for line in file if line.startswith("VmHWM")) / 1024

    def url(self, method, key):
        """A signed URL, as a path."""
        url = urlsplit(GATEWAY.client("carol.one").generate_presigned_url(method, {"Bucket": "one", "Key": key}, ExpiresIn=600))
        return f"{url.path}?{url.query}"

    def test_long_uploads(self):
        """More than there are sessions, and one that wants the room of all."""
        for size in (3_000_000, 5_000_000, 70_000_000):
            for number in range(9):
                self.come(put(f"/one/slow-{number}", size) + b"x" * (size // 4 if size < 10_000_000 else 1_000))
        time.sleep(0.5)
        self.served()

    def test_small_uploads(self):
        for number in range(80):
            self.come(put(f"/one/slow-{number}", 1_000_000) + b"x")
        time.sleep(0.5)
        self.served()

    def test_one_url(self):
        for _ in range(12):
            self.come(f"PUT {self.url('put_object', 'slow')} HTTP/1.1\r\nHost: 127.0.0.1:{GATEWAY.port}\r\nContent-Length: 3000000\r\n\r\n".encode() + b"x" * 100)
        time.sleep(0.5)
        self.served()

    def test_readers(self):
        before = self.grown()
        for key, count in (("piece", 200), ("long", 40)):
            for _ in range(count):
                self.come(f"GET {self.url('get_object', key)} HTTP/1.1\r\nHost: 127.0.0.1:{GATEWAY.port}\r\n\r\n".encode(), taken=4_096)
        for _ in range(20):
            self.come(test_malformed.signed("GET", "/one/long", access="carol.one") + b"\r\n", taken=4_096)
        time.sleep(1)
        self.served()
        self.assertLess(self.grown(), before + 150)

    def test_strangers_who_read(self):
        """Of what anybody may read little more is on disk than is taken."""
        for _ in range(12):
            self.come(f"GET /open/long HTTP/1.1\r\nHost: 127.0.0.1:{GATEWAY.port}\r\n\r\n".encode(), taken=4_096)
        until = time.monotonic() + longer(PATIENCE)
        while (held := endpoint.held_in_files(GATEWAY.process.pid)) < 12 * MIB and time.monotonic() < until:
            time.sleep(0.2)
        for _ in range(2):  # (in which as much could be read for strangers)
            S3.get_object(Bucket="open", Key="long")["Body"].read()
        self.assertGreaterEqual(held, 12 * MIB)
        self.assertLessEqual(endpoint.held_in_files(GATEWAY.process.pid), 24 * MIB)
        self.served()

    def test_who_leaves(self):
        """What nobody waits for any more is not done, where it was not begun: the grid stands still while they ask and leave."""
        S3.put_object(Bucket="one", Key="left", Body=b"left")
        GRID.send_signal(signal.SIGSTOP)
        try:
            for number in range(200):
                with socket.create_connection(("127.0.0.1", GATEWAY.port)) as made:
                    made.sendall(test_malformed.signed("PUT", f"/one/left-{number}", {"x-amz-copy-source": "one/left"}, access="carol.one") + b"Content-Length: 0\r\n\r\n")
            time.sleep(0.5)
        finally:
            GRID.send_signal(signal.SIGCONT)
        self.served()
        time.sleep(1)
        self.assertLess(S3.list_objects_v2(Bucket="one", Prefix="left-")["KeyCount"], 50)

    def test_copies(self):
        """Many at once of contents that are copied in memory: of these few are there at a time."""
        before = self.grown()
        asking = [self.come(test_malformed.signed("PUT", f"/one/copy-{number % 7}", {"x-amz-copy-source": "one/piece"}, access="carol.one") + b"Content-Length: 0\r\n\r\n") for number in range(150)]
        for made in asking:
            made.settimeout(100)
            self.assertTrue(made.recv(100).startswith(b"HTTP/1.1 200"))
        self.assertLess(self.grown(), before + 52)

    def test_documents(self):
        before = self.grown()
        for _ in range(60):
            head = test_malformed.signed("POST", "/one?delete", access="carol.one") + b"Content-Length: 4000000\r\n\r\n<Delete>"
            self.come(head + b" " * 3_000_000)
        time.sleep(0.5)
        self.served()
        self.assertLess(self.grown(), before + 100)

    def test_a_bucket_that_is_removed_meanwhile(self):
        """Before the content is all there: the put is told so, and is not done."""
        S3.create_bucket(Bucket="gone")
        made = self.come(put("/gone/a", 2_000_000, "carol") + b"x" * 1_000_000)
        time.sleep(0.5)
        S3.delete_bucket(Bucket="gone")
        made.sendall(b"x" * 1_000_000)
        self.assertEqual(test_malformed.code_of(made.recv(4_096))[0], 404)

    def test_a_slow_one_ends_well(self):
        """Both ways, with others besides."""
        content = os.urandom(2_000_000)
        made = self.come(put("/one/steady", len(content), "carol"))
        for at in range(0, len(content), 200_000):
            made.sendall(content[at : at + 200_000])
            time.sleep(0.05)
        self.assertTrue(made.recv(100).startswith(b"HTTP/1.1 200"))
        made = self.come(test_malformed.signed("GET", "/one/steady") + b"Connection: close\r\n\r\n", taken=4_096)
        told = bytearray()
        while part := made.recv(50_000):
            told += part
            time.sleep(0.002)
        self.assertTrue(told.endswith(content))

    def test_who_is_too_slow(self):
        self.assertFalse(bounds.is_too_slow(bounds.GRACE, 0) or bounds.is_too_slow(1_000, 5_000_000))
        self.assertTrue(bounds.is_too_slow(bounds.GRACE + 1, 0) and bounds.is_too_slow(1_000, 3_000_000))


FEW = """
import sys
from gridfs_s3 import connections, program
connections.MOST_CONNECTIONS = 20
program.main(sys.argv[1:])
"""


class Strangers(unittest.TestCase):
    """Who sends half a form, and has shown nothing yet."""

    def test_half_forms(self):
        """The oldest ones end, and others are served; a gateway from a shell takes as many descriptors as it may."""
        head = b"POST /one HTTP/1.1\r\nHost: a\r\nContent-Type: multipart/form-data; boundary=B\r\nContent-Length: 5000\r\n\r\n--B\r\n"
        with endpoint.stand_in() as room, contextlib.ExitStack() as stack, mock.patch.dict(os.environ, {"PYTHONPATH": CODE}):
            few = (shutil.which("prlimit"), "--nofile=512:4096", sys.executable, "-B", "-c", FEW)
            (found,) = stack.enter_context(endpoint.gateways(room, program=few))
            with open(f"/proc/{found.process.pid}/limits") as file:
                self.assertRegex(file.read(), r"Max open files +4096 +4096")
            forms = []
            for _ in range(40):
                forms.append(stack.enter_context(socket.create_connection(("127.0.0.1", found.port), timeout=longer(60))))
                forms[-1].sendall(head)
                time.sleep(0.1)  # (so that each has begun its form when the next one comes)
            begun = time.monotonic()
            found.client(read_timeout=SOON).list_buckets()
            self.assertLess(time.monotonic() - begun, longer(SOON))
            with contextlib.suppress(ConnectionResetError):
                forms[0].settimeout(0.2)  # (it ended when others came, and not since it is slow)
                self.assertEqual(forms[0].recv(100), b"")
            with self.assertRaises(TimeoutError):
                forms[-1].settimeout(0.2)
                forms[-1].recv(100)


class ManyPages(unittest.TestCase):
    """Nodes that take their time, and a gateway that knows none of its pages yet."""

    def test_puts_at_once(self):
        """None waits for long while the pages of others are settled, by all sessions each: beyond what such puts take on this machine now, once that is over."""
        room = self.enterContext(endpoint.stand_in(LONG_PLAN))
        (gateway,) = self.enterContext(endpoint.gateways(room))
        gateway.client().create_bucket(Bucket="one")
        with open(os.path.join(room, "slow"), "w") as out:
            out.write(str(LATE))
        gateway.end()
        gateway.start()
        clients = [gateway.client() for _ in range(AT_ONCE)]

        def put_by(number):
            begun = time.monotonic()
            clients[number].put_object(Bucket="one", Key=f"key {number}", Body=b"x" * 1_024)
            return time.monotonic() - begun

        with ThreadPoolExecutor(AT_ONCE) as pool:
            took, *later = [sorted(pool.map(put_by, range(AT_ONCE))) for _ in range(4)]
        by_itself = min(each[-1] for each in later)
        self.assertLess(took[-1] - by_itself, longer(AT_MOST), (took, by_itself))


class Places(unittest.IsolatedAsyncioTestCase):
    async def test_shares(self):
        """Of all places a key has a part, and a URL less."""
        places, held = bounds.Places(), []

        def asked(access, signature=None):
            found = mock.Mock()
            found.signed.key.access, found.by_anybody = access, signature or ""
            return found

        async def taken(*words):
            """Whether a place is had at once, which is then kept."""
            stack = contextlib.AsyncExitStack()
            try:
                await asyncio.wait_for(stack.enter_async_context(places.one(asked(*words))), 0.05)
            except TimeoutError:
                return False
            held.append(stack)
            return True

        self.assertEqual([await taken("ann", "url") for _ in range(bounds.OF_A_URL + 1)], [True] * bounds.OF_A_URL + [False])
        self.assertTrue(await taken("ann", "other"))
        left = bounds.OF_A_KEY - bounds.OF_A_URL - 1
        self.assertEqual([await taken("ann") for _ in range(left + 1)], [True] * left + [False])
        self.assertEqual([await taken("bob") for _ in range(bounds.OF_A_KEY)], [True] * (bounds.PLACES - bounds.OF_A_KEY))
        self.assertFalse(await taken("zed"))
        for stack in held:
            await stack.aclose()
        async with contextlib.AsyncExitStack() as stack:
            for _ in range(bounds.OF_ANYBODY):
                await stack.enter_async_context(places.some_of_anybody())
            with self.assertRaises(TimeoutError):
                await asyncio.wait_for(stack.enter_async_context(places.some_of_anybody()), 0.05)
        self.assertFalse(places.taken)
        self.assertTrue(await taken("zed"))


if __name__ == "__main__":
    unittest.main()
