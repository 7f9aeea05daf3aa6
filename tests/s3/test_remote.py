"""Gateways of one tenant on several machines, which ask one another at addresses: what settings say, whom they answer and believe, and faults of the network."""

import asyncio
import contextlib
import os
import socket
import ssl
import sys
import tempfile
import time
import types
import unittest
from collections import Counter
from unittest import mock

sys.path.insert(0, os.path.dirname(os.path.abspath(__file__)))
import code_of_s3  # noqa: F401  (which says where the code is)
import apart
import endpoint
import test_beside
from busy import longer
from gridfs_client.errors import BadSettings
from gridfs_client.settings import Settings
from gridfs_s3 import peers, remote
from gridfs_s3.all_pages import AllPages
from gridfs_s3.claims import answer
from gridfs_s3.grids import Grids
from gridfs_s3.peers import MOST_ASKING, NEVER, Told
from gridfs_s3.remote import Remote
from gridfs_s3.sessions import Pool
from test_going_on import listed

KEY, OTHER = b"a secret of the tenant", b"a secret of another tenant"
TOLD = Told("start", frozenset({5, 6}), 9, frozenset({7}))
PATIENCE = longer(peers.PATIENCE)  # seconds for an answer, of all that is in this process


def setUpModule():
    global SECRET, BEFORE
    for module in (peers, remote):
        unittest.enterModuleContext(mock.patch.object(module, "PATIENCE", PATIENCE))
    folder = unittest.enterModuleContext(tempfile.TemporaryDirectory(prefix="gridfs-certificates-"))
    for name in ("before", "now"):
        os.mkdir(f"{folder}/{name}")
    BEFORE, SECRET = (apart.certificates(f"{folder}/{name}") for name in ("before", "now"))


class Said(unittest.TestCase):
    """What settings say."""

    def test_form(self):
        found = Remote(apart.settings_of(SECRET, listen="[::1]:9100", peers=["one.example:9100", "[::1]:9100", "10.0.0.2:1", "one.example:9100"]))
        self.assertEqual(([*map(str, found.listens)], [*map(str, found.others)]), (["[::1]:9100"], ["one.example:9100", "10.0.0.2:1"]))  # (not itself, and each once)
        for wrong in ("9100", ":9100", "one.example", "one.example:0", "one.example:65536", "::1:9100", "a:1,b:2", "[one]:1"):
            for key in ("peers-listen", "peers"):
                with self.assertRaisesRegex(BadSettings, f"{key}: .* is no ADDRESS:PORT"):
                    Remote(apart.settings_of(SECRET) | {key: wrong})
        with self.assertRaisesRegex(BadSettings, "one ADDRESS:PORT is wanted"):
            Remote({"peers-listen": "127.0.0.1:1 127.0.0.1:2"})

    def test_without_a_certificate(self):
        """Nothing leaves the machine."""
        for key in ("peers-listen", "peers"):
            for address in ("127.0.0.1:9100", "127.9.9.9:9100", "[::1]:9100", "localhost:9100"):
                Remote({key: address})
            for address in ("0.0.0.0:9100", "[::]:9100", "10.0.0.1:9100", "one.example:9100", "127.0.0.1.example:9100"):
                with self.assertRaisesRegex(BadSettings, "want the tenant's certificate"):
                    Remote({key: address, "certificate": f"{SECRET}/carol.crt"})
                Remote(apart.settings_of(SECRET) | {key: address})

    def test_files(self):
        Remote({"certificate": "/none", "key": "/none"})  # (nobody is asked)
        with tempfile.TemporaryDirectory() as folder:
            with open(f"{folder}/open.key", "w"):
                os.chmod(f"{folder}/open.key", 0o644)
            for paths, why in (((f"{SECRET}/carol.crt", f"{folder}/open.key"), "others may read"), ((f"{folder}/none", f"{SECRET}/carol.key"), "No such file"), ((f"{SECRET}/carol.crt", f"{SECRET}/dave.key"), "crt: ")):
                with self.assertRaisesRegex(BadSettings, why):
                    Remote({"peers": "127.0.0.1:1", "certificate": paths[0], "key": paths[1]})

    def test_over_several_grids(self):
        with mock.patch("gridfs_s3.grids.read_map"), self.assertRaisesRegex(BadSettings, "over several grids"):
            Grids(Settings({"map": "map", "peers": "127.0.0.1:1"}))

    def test_where_they_come_from(self):
        """From a file that the command has too, and from the environment."""
        with tempfile.TemporaryDirectory() as folder:
            with open(f"{folder}/carol.ini", "w") as out:
                out.write("[gridfs]\ntenant = carol\npeers-listen = 10.0.0.1:1\npeers = 10.0.0.2:1 10.0.0.3:1\n")
            found = Settings.gather({"config": f"{folder}/carol.ini"}, {"GRIDFS_PEERS": "10.0.0.4:1"}).values
            self.assertEqual((found["peers-listen"], found["peers"]), ("10.0.0.1:1", "10.0.0.4:1"))

    def test_a_port_that_is_taken(self):
        with socket.create_server(("127.0.0.1", 0)) as taken:
            with self.assertRaisesRegex(BadSettings, "peers-listen: .*in use"):
                Remote({"peers-listen": f"127.0.0.1:{taken.getsockname()[1]}"}).listener()
        self.assertIsNone(Remote({}).listener())


class Between(unittest.TestCase):
    """A gateway that answers, and one that asks."""

    def setUp(self):
        self.port, self.asked, self.lines = endpoint.free_port(), [], []
        self.addCleanup(setattr, remote, "tell", remote.tell)
        remote.tell = self.lines.append

    def remote(self, secret, name="carol", **more):
        return Remote(apart.settings_of(secret, name, **more))

    def asker(self, secret=None, name="carol"):
        return self.remote(secret or SECRET, name, peers=[f"127.0.0.1:{self.port}"])

    def beside(self, work, secret=None, key=KEY, answers=None):
        """What comes of this work beside a gateway that answers so."""
        answers = answers or self.remote(secret or SECRET, listen=f"127.0.0.1:{self.port}")

        async def answer(count):
            self.asked.append(count)
            return 9, {7}

        async def both():
            tasks, loop = set(), asyncio.get_running_loop()
            with answers.listener() as listener:

                def met():
                    connection = listener.accept()[0]
                    connection.setblocking(False)
                    tasks.add(loop.create_task(peers.tell(answers.accept(connection), key, "start", [5, 6], answer)))

                loop.add_reader(listener, met)
                try:
                    return await work()
                finally:
                    loop.remove_reader(listener)
                    if tasks:
                        await asyncio.wait(tasks, timeout=3)

        return asyncio.run(both())

    def ask(self, asker, key=KEY, count=4):
        async def asked():
            try:
                return await asker.ask_all(key, lambda start: count if start == "start" else NEVER)
            finally:
                while asker.lines:  # (of this loop)
                    asker.lines.popitem()[1].close()

        return asked

    def test_who_is_answered(self):
        self.assertEqual(self.beside(self.ask(self.asker())), [TOLD])
        self.assertEqual((self.asked, self.lines), ([4], []))
        for asker, key, why in ((self.asker(), OTHER, "other keys"), (self.asker(name="dave"), KEY, "another certificate"), (self.asker(BEFORE), KEY, "another certificate")):
            self.assertEqual(self.beside(self.ask(asker, key)), [])
            self.assertIn(why, self.lines.pop())
        self.assertEqual(self.asked, [4])

    def test_one_connection(self):
        """Is asked again and again, for a while; then keys and certificates are looked at anew, and nobody sees that."""
        self.addCleanup(setattr, peers, "LASTS", peers.LASTS)
        asker, known, made = self.asker(), {"start": 4}, []

        async def work():
            for peers.LASTS in (0.5, 60, 60):
                for turn in range(10):
                    self.assertEqual(await asker.ask_all(KEY, lambda start: known[start]), [TOLD])
                    known["start"] += 1
                await asyncio.sleep(0.6)
                made.append(sum(asker.made.values()))
            asker.lines.popitem()[1].close()

        connect, asker.made = asker.connect, Counter()
        asker.connect = lambda address: (asker.made.update([address]), connect(address))[1]
        self.beside(work)
        self.assertEqual((made, self.asked, self.lines), ([1, 2, 2], list(range(4, 34)), []))

    def test_without_certificates(self):
        """On one machine."""
        asker, answers = Remote({"peers": f"127.0.0.1:{self.port}"}), Remote({"peers-listen": f"127.0.0.1:{self.port}"})
        self.assertEqual(self.beside(self.ask(asker), answers=answers), [TOLD])
        self.assertEqual(self.beside(self.ask(asker, OTHER), answers=answers), [])
        self.assertEqual(self.beside(self.ask(self.asker()), answers=answers), [])  # (it wants TLS)

    def test_a_stranger_hears_nothing(self):
        """Neither a word of the gateway's start, nor a challenge: with no certificate, with one of another tenant, and without TLS."""

        async def heard(context):
            with contextlib.suppress(OSError):
                reader, writer = await asyncio.open_connection("127.0.0.1", self.port, ssl=context)
                with contextlib.suppress(ConnectionError):
                    return await reader.read()
            return b""

        for paths in ((), ("dave",), None):
            context = ssl.SSLContext(ssl.PROTOCOL_TLS_CLIENT) if paths is not None else None
            if context:
                context.check_hostname, context.verify_mode = False, ssl.CERT_NONE
            for name in paths or ():
                context.load_cert_chain(f"{SECRET}/{name}.crt", f"{SECRET}/{name}.key")
            self.assertEqual(self.beside(lambda context=context: heard(context)), b"", paths)
        self.assertEqual(self.asked, [])

    def test_who_is_asked(self):
        """A stranger in a gateway's place hears no question, even if he has a certificate of the same authority."""
        for name in ("carol", "dave"):
            context, came = ssl.SSLContext(ssl.PROTOCOL_TLS_SERVER), []
            context.load_cert_chain(f"{SECRET}/{name}.crt", f"{SECRET}/{name}.key")

            async def serve(reader, writer, came=came):
                with contextlib.suppress(ConnectionError):
                    writer.write(b"start challenge\n")
                    came.append(await reader.read(1 << 10))
                writer.close()

            async def work(context=context, serve=serve):
                async with await asyncio.start_server(serve, "127.0.0.1", self.port, ssl=context):
                    found = await self.ask(self.asker())()
                    await asyncio.sleep(0.1)
                    return found

            self.assertEqual(asyncio.run(work()), [])
            self.assertEqual(any(came), name == "carol")
        self.assertIn("it shows another certificate", self.lines[-1])

    def test_a_new_certificate(self):
        """Is taken while they run: once both have it, they answer again."""
        with tempfile.TemporaryDirectory() as folder:
            made = [f"{folder}/one", f"{folder}/other"]

            def bring(where, secret):
                os.makedirs(where, exist_ok=True)
                for what in ("crt", "key"):
                    with open(f"{secret}/carol.{what}", "rb") as file, open(os.open(f"{where}/new", os.O_WRONLY | os.O_CREAT, 0o600), "wb") as out:
                        out.write(file.read())
                    os.rename(f"{where}/new", f"{where}/carol.{what}")

            for where in made:
                bring(where, BEFORE)
            asker, answers = self.asker(made[0]), self.remote(made[1], listen=f"127.0.0.1:{self.port}")
            for where, secret, wanted in ((made[0], BEFORE, [TOLD]), (made[0], SECRET, []), (made[1], SECRET, [TOLD])):
                bring(where, secret)
                asker.silent.clear()
                self.assertEqual(self.beside(self.ask(asker), answers=answers), wanted)
            os.rename(f"{made[0]}/carol.key", f"{made[0]}/gone")  # (amid the making of others)
            asker.silent.clear()
            self.assertEqual(self.beside(self.ask(asker), answers=answers), [TOLD])

    def test_silence(self):
        """A machine that is down has one listing wait, once in a while; the others are asked meanwhile."""
        listener = self.enterContext(socket.create_server(("127.0.0.1", 0)))  # (which takes connections, and says nothing)
        silent = f"127.0.0.1:{listener.getsockname()[1]}"
        asker = self.remote(SECRET, peers=[silent, f"127.0.0.1:{self.port}", "127.0.0.1:1"])

        async def work():
            seconds = []
            for _ in range(3):
                begin = time.monotonic()
                self.assertEqual(await self.ask(asker)(), [TOLD])
                seconds.append(time.monotonic() - begin)
            self.assertEqual({*map(str, asker.silent)}, {silent, "127.0.0.1:1"})
            asker.silent = dict.fromkeys(asker.silent, time.monotonic())
            begin = time.monotonic()
            await self.ask(asker)()
            return [*seconds, time.monotonic() - begin]

        first, second, third, later = self.beside(work)
        self.assertTrue(PATIENCE <= first < 5 * PATIENCE and second + third < PATIENCE <= later < 5 * PATIENCE, (first, second, third, later))
        self.assertEqual(len(self.lines), 2)  # (told once)
        self.assertIn("127.0.0.1:1 tells nothing: Connect call failed", "".join(self.lines))

    def test_it_answers_again(self):
        asker = self.asker()
        self.assertEqual(asyncio.run(self.ask(asker)()), [])
        asker.silent = dict.fromkeys(asker.silent, 0.0)
        self.assertEqual(self.beside(self.ask(asker)), [TOLD])
        self.assertEqual((asker.silent, self.lines[1:]), ({}, [f"the gateway at 127.0.0.1:{self.port} answers"]))

    def test_lines(self):
        """Without an end, too long, of another form: from who has the certificate, and in the place of whom is asked."""
        for line in (b"x" * 400_000, b"x", b"\n", b"start 1 2\n", b"\xff 1\n", b"start 1\n{}\nx\n"):

            async def serve(reader, writer, line=line):
                with contextlib.suppress(ConnectionError):
                    writer.write(line)
                    await reader.read()
                writer.close()

            async def asked(serve=serve):
                begin = time.monotonic()
                async with await asyncio.start_server(serve, "127.0.0.1", self.port, ssl=self.remote(SECRET, peers=["127.0.0.1:1"]).certificate.answers):
                    return await self.ask(self.asker())(), time.monotonic() - begin < 2 * PATIENCE

            self.assertEqual(asyncio.run(asked()), ([], True), line[:20])

            async def asks(line=line):
                begin = time.monotonic()
                reader, writer = await self.asker().connect(remote.Address("127.0.0.1", self.port))
                writer.write(line)
                head = await reader.readline()
                with contextlib.suppress(ConnectionError):
                    self.assertEqual(await reader.read(), b"")
                writer.transport.abort()
                return head[:6], time.monotonic() - begin < 2 * PATIENCE

            self.assertEqual(self.beside(asks), (b"start ", True), line[:20])
        self.assertEqual(self.asked, [])


class Bounds(unittest.TestCase):
    """What a stranger can take of a gateway."""

    def met(self, answers, strangers):
        """How many of those who connect at once are spoken with at a time; by a gateway whose certificate they don't have."""
        pool = Pool.__new__(Pool)
        pool.sessions, pool.tasks, pool.workers, handshakes = 1, set(), {}, []
        pool.shared, pages = types.SimpleNamespace(changes=peers.Changes()), AllPages(pool, {})
        pages.secret, pages.remote = lambda: KEY, answers

        async def work():
            pool.loop = asyncio.get_running_loop()
            taken, connect = pool.loop.connect_accepted_socket, pages.meet
            pool.loop.connect_accepted_socket = lambda *words, **more: (handshakes.append(1), taken(*words, **more))[1]
            with answers.listener() as listener:
                pool.loop.add_reader(listener, answer, listener, lambda connection: connect(connection, how=answers.accept))
                begin, most = time.monotonic(), 0
                while time.monotonic() < begin + 2.5 * PATIENCE:
                    await asyncio.gather(*(self.stranger(answers.listens[0]) for _ in range(strangers)))
                    most = max(most, *pages.meeting.values())
                    await asyncio.sleep(0.05)
                pool.loop.remove_reader(listener)
                await asyncio.gather(*pool.tasks)
            return most, len(handshakes), pages.meeting.total()

        return asyncio.run(work())

    async def stranger(self, address):
        context = ssl.SSLContext(ssl.PROTOCOL_TLS_CLIENT)
        context.check_hostname, context.verify_mode = False, ssl.CERT_NONE
        with contextlib.suppress(OSError):
            reader, writer = await asyncio.open_connection(address.host, address.port, ssl=context)
            with contextlib.suppress(OSError):
                await reader.read()
            writer.transport.abort()

    def test_strangers(self):
        """So many at a time, and so many certificates a second; all places are free again."""
        most, handshakes, left = self.met(Remote(apart.settings_of(SECRET, listen=f"127.0.0.1:{endpoint.free_port()}")), 2 * MOST_ASKING)
        self.assertEqual((most, left), (MOST_ASKING, 0))
        self.assertLessEqual(handshakes, 4 * MOST_ASKING)


class Several(test_beside.Several):
    """Two gateways before one grid, that know no names of each other: all that is asked of those of one machine holds of these."""

    def settings(self, number):
        self.machines = getattr(self, "machines", None) or apart.machines(self.room, self.rooms, ["1-4", "5-8"])
        return self.machines[number].path

    def test_faults_of_the_network(self):
        one, other, wanted = self.one.client(), self.other.client(), {}
        one.create_bucket(Bucket="bucket")
        for turn, how in enumerate(["up", "slow", "down", "up", "stuck", "slow"]):
            for machine in self.machines.values():
                machine.wire.how = how
            for s3 in (one, other):
                s3.put_object(Bucket="bucket", Key=f"{turn % 4}", Body=b"x" * turn)
                wanted[f"{turn % 4}"] = turn
                for lister in (other, one):
                    self.assertEqual(listed(lister), wanted)
            if how in ("up", "slow"):
                self.until_few(one, wanted)
            else:
                self.assertGreaterEqual(self.looks(other, wanted), 4)
                begin = time.monotonic()
                self.looks(other, wanted)
                self.assertLess(time.monotonic() - begin, 2 * PATIENCE)
        self.assertIn("tells nothing", self.one.told())
        self.assertIn("answers", self.one.told())
        self.assertNotIn("Traceback", self.one.told() + self.other.told())


if __name__ == "__main__":
    unittest.main()
