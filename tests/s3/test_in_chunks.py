"""Objects in chunks: the gateway's objects over registers and nodes in memory, which die at each step; uploads of many parts; and through a gateway what a range
reads, what a part and a completion keep, and what a gateway that is killed leaves."""

import hashlib
import itertools
import os
import random
import subprocess
import sys
import time
import unittest
from dataclasses import replace
from unittest import mock

HERE = os.path.dirname(os.path.abspath(__file__))
sys.path[:0] = [HERE, os.path.join(HERE, "..", "chunks"), os.path.join(HERE, "..", "names")]
from busy import longer
import code_of_s3
import endpoint
from bodies_in_memory import Body
from in_slots import OldClient
from memory_with_chunks import Killed, World

from gridfs_client import OneByOne, Session, SocketCarrier, ask_plan, layout_of
from gridfs_client.contents import InChunks, Inline, Joined, PartList, to_base64
from gridfs_client.core import Line, Page, Signpost
from gridfs_client.errors import Damaged, Replaced
from gridfs_client.in_chunks import ChunkContents
from gridfs_client.pages import text_of
from gridfs_client.runs import Run
from gridfs_s3 import sweeping
from gridfs_s3.errors import S3Error
from gridfs_s3.part_lists import Uploaded
from gridfs_s3.places import to_words, upload_name
from gridfs_s3.reading import Stretch
from gridfs_s3.shared import Shared
from gridfs_s3.store import NoLine, Store
from gridfs_s3.versions import Target

NAME, BUCKET, MIB = "bucket/key", "bucket", 1 << 20
OLD, PARTS = os.urandom(330), [os.urandom(250), os.urandom(10), os.urandom(400)]


SHORT_FILES = """
import sys
from gridfs_s3 import objects, program
class Spool(objects.Spool):
    def close(self):
        print("a file of", self.size, file=sys.stderr, flush=True)
        super().close()
objects.Spool, objects.ahead_of = Spool, lambda is_anybodys: 2_000_000
program.main(sys.argv[1:])
"""


def new_world():
    return World(sessions=2, pages=1, page_blocks=64)


def store(world, number=1, at_step=None):
    def kind(session, layout, helpers=tuple, team=None):
        found = Store(session, layout, Shared())
        found.team, found.forget_after = OneByOne(), 0
        return found

    return world.client(number, at_step, kind)


def put(objects, name, content):
    return objects.put_object(name, Body(content), lambda: {"m": "x"})


def content_of(objects, name=NAME, first=0, end=None):
    held = objects.look(name)
    return held and b"".join(objects.content(held, first, held.content.size if end is None else end))


def put_part(objects, upload, number, content):
    return objects.put_part(upload_name(BUCKET, upload, NAME), number, Body(content), 5)


def complete(objects, upload, wanted=None):
    name = upload_name(BUCKET, upload, NAME)
    found = {part.number: where for part, where in objects.uploaded(objects.upload(name))}
    return objects.complete(name, Target(NAME), lambda: {"m": "joined", "n": "3"}, [found[number] for number in wanted or sorted(found)], None)


def sweep(objects):
    found = sweeping.begin(objects)
    for _ in found.parts():
        pass
    found.forget()


def kill_at(step):
    def at_step(now):
        if now == step:
            raise Killed

    return at_step


class Steps(unittest.TestCase):
    def expect_rest(self, world):
        """Once a gateway begins anew, nodes have what lines name and nothing else."""
        for number in (1, 2):
            objects = store(world, number)
            objects.settle(0)
            sweep(objects)
        self.assertEqual(world.kept(), world.named())

    def each_step(self, prepare, change, least):
        for step in itertools.count(1):
            world = new_world()
            words = prepare(store(world))
            objects, done = store(world, 1, kill_at(step)), False
            try:
                change(objects, words)
                objects.forget_gone()
                done = True
            except Killed:
                objects.session.carrier.die()
            yield world, words, done
            world.surface()
            self.expect_rest(world)
            seen = content_of(store(world, 2))
            world.lines_come()
            self.assertEqual(content_of(store(world, 2)), seen)
            self.expect_rest(world)
            if done:
                break
        self.assertGreater(step, least)

    def test_put(self):
        new = os.urandom(450)
        for world, _, done in self.each_step(lambda objects: put(objects, NAME, OLD), lambda objects, _: put(objects, NAME, new), 15):
            self.assertIn(content_of(store(world, 2)), (new,) if done else (OLD, new))

    def test_a_sweep_amid_puts(self):
        """What is put, or put over, while a sweep goes on stays; what nobody named when it began goes, also where a clock was ahead."""
        for turn in range(40):
            draw, world = random.Random(turn), World(sessions=2, pages=3, page_blocks=64, slots=4)
            objects, names = store(world), [f"bucket/{number}" for number in range(8)]
            for page in range(world.layout.pages):
                objects.settle(page)
            for name in names[:5]:
                put(objects, name, draw.randbytes(250))
            ahead = objects.writer.contents.chunks.last + (1 << 40) * (turn % 2)
            for server in world.servers.at.values():
                server.keep(1, ahead + 5, [b"~left"])
            found = sweeping.begin(objects)
            with mock.patch.object(sweeping, "SOME", 1):
                for _ in found.parts():
                    put(objects, draw.choice(names), draw.randbytes(draw.choice((30, 150, 330))))
                    objects.delete(draw.choice(names))
            put(objects, names[0], OLD)
            found.forget()
            self.assertLessEqual(world.named(), world.kept())
            self.assertNotIn(ahead + 5, {number for _, _, number in world.kept()})
            self.assertEqual(content_of(objects, names[0]), OLD)

    def test_a_sweep_amid_a_put(self):
        """Chunks that are kept, and that no line names yet, stay too."""
        world = World(sessions=2, pages=3, page_blocks=64, slots=4)
        objects, new = store(world), os.urandom(330)
        for page in range(world.layout.pages):
            objects.settle(page)
        put(objects, NAME, OLD)
        found, kept = sweeping.begin(objects), []

        class Slow(Body):
            def read(self, length):
                if len(world.kept()) > 5 and not kept:  # (the old content has four)
                    kept.extend(world.kept())
                    list(found.parts())
                return super().read(length)

        objects.put_object(NAME, Slow(new), lambda: {"m": "x"})
        self.assertTrue(kept)
        found.forget()
        self.assertEqual(content_of(objects), new)
        self.assertLessEqual(world.named(), world.kept())

    def test_a_sweep_of_pages_that_are_not_settled(self):
        """A journal may name what the index has on no page."""
        world = new_world()
        put(store(world), NAME, OLD)
        objects = store(world)
        with self.assertRaises(sweeping.NotWhole):
            sweeping.begin(objects)
        objects.settle(0)
        found = sweeping.begin(objects)
        objects.shared.index.beginnings += 1  # (it was begun anew, in memory)
        with self.assertRaises(sweeping.NotWhole):
            list(found.parts())

    def test_what_pages_name(self):
        """It is read as pages are."""
        digest, draw = "A" * 43, random.Random(3)
        parts = [InChunks(9, digest, (Run(0, 1, 7),)), InChunks(9, digest, (Run(0, 1, 7, 2), Run(1, 1, 9))), PartList(20, digest, 5, (Run(1, 2, 3),))]
        contents = [None, Inline(b""), Inline(b"x" * 9), *parts, Joined(tuple(parts))]
        for turn in range(200):
            lines = tuple(Line(f"x {number} 0.1:{number}", 5 + number, draw.choice(contents), draw.choice(("", "t=5&k=y"))) for number in range(draw.randrange(6)))
            page = Page(lines, (), 99, (Signpost(1, 0, 9, "west"),) if turn % 10 == 0 else ())
            self.assertEqual(set(sweeping.named_in(text_of(page))), set(page.in_chunks()))
        self.assertEqual(list(sweeping.named_in(b"")), [])

    def begun(self, objects):
        put(objects, NAME, OLD)
        upload = objects.begin_upload(BUCKET, NAME, {})
        for number, part in enumerate(PARTS, 1):
            put_part(objects, upload, number, part)
        return upload

    def test_a_part(self):
        new = os.urandom(333)
        for world, upload, done in self.each_step(self.begun, lambda objects, upload: put_part(objects, upload, 2, new), 12):
            self.assertEqual(content_of(store(world, 2)), OLD)
            if done:
                complete(store(world), upload)
                self.assertEqual(content_of(store(world, 2)), PARTS[0] + new + PARTS[2])

    def test_a_completion(self):
        whole = b"".join(PARTS)
        for world, upload, done in self.each_step(self.begun, complete, 4):
            seen = content_of(store(world, 2))
            self.assertIn(seen, (whole,) if done else (OLD, whole))
            # The upload is there as long as the object is the old one, and goes with the change.
            self.assertEqual(any(held.name.startswith(".s3/up/") for held in store(world, 2).all()), seen == OLD)
            if done:
                self.assertIsInstance(store(world, 2).look(NAME).content, Joined)
                self.assertRaises(S3Error, store(world, 2).upload, upload_name(BUCKET, upload, NAME))

    def test_an_abort(self):
        for world, upload, done in self.each_step(self.begun, lambda objects, upload: objects.delete(upload_name(BUCKET, upload, NAME)), 4):
            self.assertEqual(content_of(store(world, 2)), OLD)


class NoRoomForALine(unittest.TestCase):
    def test_others_may_have_it(self):
        """Where a page has room for a shorter line, and none for that of a content in chunks, pages of other sessions may have it: so it is told."""
        for size in range(0, 90, 3):
            objects = store(new_world())
            objects.shared.swept[0] = float("inf")  # (it was swept just now)
            put(objects, "bucket/first", b"x" * size)
            with self.assertRaises(NoLine):
                for number in range(99):
                    put(objects, f"bucket/{number:02}", OLD)


class Many(unittest.TestCase):
    """An upload of so many parts that lists name them."""

    COUNT = 400

    def setUp(self):
        self.enterContext(mock.patch.object(ChunkContents, "most", 10_000))
        self.world = World(sessions=2, pages=1, page_blocks=256, slots=4)
        self.objects = store(self.world)
        self.upload = self.objects.begin_upload(BUCKET, NAME, {})
        self.parts = {number: os.urandom(random.Random(number).choice((1, 60, 100, 130))) for number in range(1, self.COUNT + 1)}
        draw = random.Random(5)
        for number in sorted(self.parts, key=lambda number: number + draw.randrange(20)):  # (as by several at once)
            put_part(self.objects, self.upload, number, self.parts[number])

    def test_completed_and_read(self):
        name, parts = upload_name(BUCKET, self.upload, NAME), self.parts
        listed = store(self.world, 2)
        self.assertEqual([part.number for part, _ in listed.uploaded(listed.upload(name))], list(parts))
        self.assertLess(len(self.objects.upload(name).content.text()), 8_000)
        parts[300] = os.urandom(90)  # (which counts in place of that of its list)
        with mock.patch.object(Uploaded, "keep_short"):
            put_part(self.objects, self.upload, 300, parts[300])
        lists = set(self.objects.upload(name).content.parts)
        sent = len(self.objects.session.carrier.sent)
        complete(self.objects, self.upload)
        keeps = [body for _, body in self.objects.session.carrier.sent[sent:] if body.startswith(b"keep")]
        self.assertLess(len(keeps), 2 * 8)  # (of one list anew, and of what is left)
        self.assertEqual(sum(isinstance(each, PartList) and each in lists for each in self.objects.look(NAME).content.parts), 1)
        held, whole = self.objects.look(NAME), b"".join(parts.values())
        self.assertTrue(any(isinstance(each, PartList) for each in held.content.parts))
        self.assertEqual(held.content.size, len(whole))
        other = store(self.world, 2)
        self.assertEqual(content_of(other), whole)
        for first, end in ((0, 1), (5, 6), (len(whole) - 1, len(whole)), (10_000, 10_450), (0, len(whole) - 1), (9_990, 25_010)):
            self.assertEqual(content_of(other, NAME, first, end), whole[first:end])
        self.objects.forget_gone()
        self.assertEqual(self.world.kept(), self.world.named())
        self.assertEqual(content_of(store(self.world, 2)), whole)
        self.objects.delete(NAME)
        self.objects.forget_gone()
        self.assertFalse(self.world.kept())

    def test_a_range_reads_the_list_and_the_chunks_that_it_touches(self):
        complete(self.objects, self.upload)
        other = store(self.world, 2)
        whole = content_of(other)
        sent = len(other.session.carrier.sent)
        self.assertEqual(content_of(other, NAME, 20_000, 20_100), whole[20_000:20_100])
        gets = [body for _, body in other.session.carrier.sent[sent:] if body.startswith(b"get")]
        self.assertLess(len(gets), 102)  # (so many parts may have that many bytes)
        self.assertEqual(sum(int(body.split()[4]) for body in gets), 100)

    def test_read_some_parts_at_a_time(self):
        """What is told at a time ends behind a part. Once the object is replaced, and its chunks are forgotten, there is no more of it."""
        complete(self.objects, self.upload)
        other, whole, most = store(self.world, 2), b"".join(self.parts.values()), 1_000
        held, ends = other.look(NAME), set(itertools.accumulate(map(len, self.parts.values())))
        for first, end in ((0, len(whole)), (77, 9_000)):
            at = first
            while at < end:
                told = b"".join(other.content(held, at, end, Stretch(most)))
                self.assertEqual(told, whole[at : at + len(told)])
                at += len(told)
                self.assertTrue(at == end or at in ends and most <= len(told) < most + 130, (at, len(told)))
            self.assertEqual(at, end)
        put(self.objects, NAME, b"new" * 500)
        self.objects.forget_gone()
        with self.assertRaises(Replaced):
            list(store(self.world, 2).content(held, most, len(whole), Stretch(most)))

    def test_read_some_chunks_at_a_time(self):
        """It ends behind a chunk. What is read whole is judged at its end, by however many stretches; a range is not."""
        content = os.urandom(50_000)
        put(self.objects, NAME, content)
        held = self.objects.look(NAME)
        for first, end, lengths in ((0, 50_000, [20_000, 20_000, 10_000]), (5_000, 41_000, [15_000, 20_000, 1_000])):
            stretch, told, at = Stretch(12_000), list[bytes](), first
            while at < end:
                told.append(b"".join(self.objects.content(held, at, end, stretch)))
                at += len(told[-1])
            self.assertEqual((b"".join(told), [len(each) for each in told]), (content[first:end], lengths))
        wrong = replace(held, content=replace(held.content, digest=to_base64(bytes(32))))
        stretch = Stretch(12_000)
        for at in (0, 20_000):
            self.assertEqual(b"".join(self.objects.content(wrong, at, 50_000, stretch)), content[at : at + 20_000])
        self.assertRaises(Damaged, list, self.objects.content(wrong, 40_000, 50_000, stretch))
        self.assertEqual(b"".join(self.objects.content(wrong, 40_000, 50_000, Stretch(12_000))), content[40_000:])

    def test_some_of_them_are_chosen(self):
        wanted = [number for number in self.parts if number % 3]
        complete(self.objects, self.upload, wanted)
        self.objects.forget_gone()
        self.assertEqual(content_of(store(self.world, 2)), b"".join(self.parts[number] for number in wanted))
        self.assertEqual(self.world.kept(), self.world.named())

    def test_few_of_them_are_chosen(self):
        complete(self.objects, self.upload, [5, 390])
        self.objects.forget_gone()
        self.assertEqual(content_of(store(self.world, 2)), self.parts[5] + self.parts[390])
        self.assertEqual(self.world.kept(), self.world.named())

    def test_given_up(self):
        self.objects.delete(upload_name(BUCKET, self.upload, NAME))
        self.objects.forget_gone()
        self.assertFalse(self.world.kept())

    def test_a_part_without_bytes(self):
        put_part(self.objects, self.upload, self.COUNT + 1, b"")
        put_part(self.objects, self.upload, 1, b"")
        complete(self.objects, self.upload)
        self.assertEqual(content_of(store(self.world, 2)), b"".join(list(self.parts.values())[1:]))


class Through(unittest.TestCase):
    """A gateway over a stand-in with room for chunks."""

    def setUp(self):
        self.room = self.enterContext(endpoint.stand_in())
        (self.gateway,) = self.enterContext(endpoint.gateways(self.room))
        self.client = self.gateway.client()
        self.client.create_bucket(Bucket="bucket")

    def counts(self):
        return endpoint.counts(self.room)

    def get(self, key, **words):
        return self.client.get_object(Bucket="bucket", Key=key, **words)["Body"].read()

    def test_an_object_in_slots(self):
        """One that a gateway from before chunks put is got, by ranges too, copied, given tags, moved into chunks while the gateway serves, and put over."""
        self.gateway.end()
        contents = {key: os.urandom(9_000) for key in ("kept", "put over")}
        carrier = SocketCarrier("carol", f"{self.room}/socket")
        told = ask_plan(carrier)
        old = OldClient(Session(carrier, 3, told.home_of(3)), layout_of(told))
        for key, content in contents.items():
            old.put(f"bucket/{key}", content, words=to_words({"t": "1", "m": hashlib.md5(content).hexdigest()}))
        carrier.close()
        self.gateway.start()

        def expect(key, content):
            self.assertEqual((self.get(key), self.get(key, Range="bytes=4000-8100")), (content, content[4000:8101]))
            self.assertEqual(self.client.head_object(Bucket="bucket", Key=key)["ETag"], f'"{hashlib.md5(content).hexdigest()}"')

        for key, content in contents.items():
            expect(key, content)
        self.counts()
        self.client.copy_object(Bucket="bucket", Key="copy", CopySource="bucket/kept")
        self.assertEqual(self.counts()["keep"], 1)
        self.client.put_object_tagging(Bucket="bucket", Key="kept", Tagging={"TagSet": [{"Key": "a", "Value": "b"}]})
        contents |= {"copy": contents["kept"], "put over": os.urandom(8_500)}
        self.client.put_object(Bucket="bucket", Key="put over", Body=contents["put over"])
        for key, content in contents.items():
            expect(key, content)
        words = [os.path.join(code_of_s3.CLIENT, "gridfs-client"), "--config", f"{self.room}/carol.ini", "--locks", f"{self.room}/locks", "renew"]
        done = subprocess.run([sys.executable, "-B", *words], capture_output=True, text=True, timeout=longer(120))
        self.assertEqual((done.stdout, done.stderr), ("contents: 1 moved to chunks, 9000 bytes; 0 left in slots, since their pages are too full\n", ""))
        for key, content in contents.items():
            expect(key, content)
        self.assertEqual(self.client.get_object_tagging(Bucket="bucket", Key="kept")["TagSet"], [{"Key": "a", "Value": "b"}])
        self.assertNotIn("Traceback", self.gateway.told())

    def test_ranges(self):
        content = os.urandom(9 * MIB + 5)
        self.counts()
        self.client.put_object(Bucket="bucket", Key="key", Body=content)
        self.assertEqual(self.counts()["keep"], 10)
        self.assertEqual(self.get("key"), content)
        self.assertEqual(self.counts()["get"], 10)
        for first, last, count in ((0, 0, 1), (MIB - 1, MIB, 2), (5 * MIB, 6 * MIB - 1, 1), (9 * MIB, 9 * MIB + 4, 1)):
            self.assertEqual(self.get("key", Range=f"bytes={first}-{last}"), content[first : last + 1])
            self.assertEqual(self.counts()["get"], count)

    def test_parts_and_their_completion(self):
        upload, parts = self.client.create_multipart_upload(Bucket="bucket", Key="key")["UploadId"], [os.urandom(2 * MIB + 7) for _ in range(3)]
        self.counts()
        told = [self.client.upload_part(Bucket="bucket", Key="key", UploadId=upload, PartNumber=number, Body=part) for number, part in enumerate(parts, 1)]
        self.assertEqual(self.counts()["keep"], 9)
        chosen = [{"PartNumber": number, "ETag": each["ETag"]} for number, each in enumerate(told, 1)]
        self.client.complete_multipart_upload(Bucket="bucket", Key="key", UploadId=upload, MultipartUpload={"Parts": chosen})
        self.assertNotIn("keep", self.counts())
        self.assertEqual(self.get("key"), b"".join(parts))
        self.assertEqual(self.get("key", Range=f"bytes={2 * MIB}-{4 * MIB + 20}"), b"".join(parts)[2 * MIB : 4 * MIB + 21])

    def test_many_parts(self):
        upload, count = self.client.create_multipart_upload(Bucket="bucket", Key="key")["UploadId"], 150
        told = [self.client.upload_part(Bucket="bucket", Key="key", UploadId=upload, PartNumber=number, Body=b"%d " % number * 20)["ETag"] for number in range(1, count + 1)]
        listed = self.client.list_parts(Bucket="bucket", Key="key", UploadId=upload, MaxParts=100)
        self.assertEqual(([each["ETag"] for each in listed["Parts"]], listed["IsTruncated"]), (told[:100], True))
        chosen = [{"PartNumber": number, "ETag": each} for number, each in enumerate(told, 1)]
        self.client.complete_multipart_upload(Bucket="bucket", Key="key", UploadId=upload, MultipartUpload={"Parts": chosen})
        self.assertEqual(self.get("key"), b"".join(b"%d " % number * 20 for number in range(1, count + 1)))

    def test_a_long_get_fills_no_disk(self):
        """Its bytes come by files of some chunks each, two at a time, by whichever sessions; and not on once nobody takes them."""
        self.gateway.end()
        self.enterContext(mock.patch.dict(os.environ, {"PYTHONPATH": code_of_s3.CODE}))
        (found,) = self.enterContext(endpoint.gateways(self.room, program=(sys.executable, "-B", "-c", SHORT_FILES)))
        client, parts = found.client(), [os.urandom(MIB + 300_000) for _ in range(8)]
        upload = {"Bucket": "bucket", "Key": "key"}
        upload["UploadId"] = client.create_multipart_upload(**upload)["UploadId"]
        chosen = [{"PartNumber": number, "ETag": client.upload_part(**upload, PartNumber=number, Body=part)["ETag"]} for number, part in enumerate(parts, 1)]
        client.complete_multipart_upload(**upload, MultipartUpload={"Parts": chosen})
        whole = b"".join(parts)

        def get(**words):
            before = len(found.told())
            content = client.get_object(Bucket="bucket", Key="key", **words)["Body"].read()
            time.sleep(0.2)
            return content, [int(words.split()[3]) for words in found.told(before).splitlines() if words.startswith("a file of ")]

        content, files = get()
        self.assertEqual(content, whole)
        self.assertEqual((sum(files), max(files), len(files)), (len(whole), 2 * len(parts[0]), 5))
        content, files = get(Range=f"bytes=1000000-{len(whole) - 5}")
        self.assertEqual(content, whole[1_000_000 : len(whole) - 4])
        self.assertLessEqual(max(files), 2_000_000 + MIB)
        body = client.get_object(Bucket="bucket", Key="key")["Body"]
        begun = body.read(100)
        time.sleep(1)
        self.assertLessEqual(endpoint.held_in_files(found.process.pid), 2 * (2_000_000 + MIB))
        self.assertEqual(begun + body.read(), whole)
        body = client.get_object(Bucket="bucket", Key="key")["Body"]
        body.read(100)
        body.close()
        self.assertEqual(client.get_object(Bucket="bucket", Key="key", Range="bytes=0-9")["Body"].read(), whole[:10])
        self.assertNotIn("Traceback", found.told())

    def test_what_a_killed_gateway_leaves(self):
        self.client.put_object(Bucket="bucket", Key="key", Body=os.urandom(3 * MIB))
        content = os.urandom(2 * MIB)
        self.client.put_object(Bucket="bucket", Key="key", Body=content)  # (the old one is to be forgotten after a minute)
        self.gateway.kill()
        self.counts()
        self.gateway.start()
        until, forgotten = time.monotonic() + longer(60), 0
        while forgotten < 9 and time.monotonic() < until:  # (a floor for each session, and a run)
            time.sleep(0.2)
            forgotten += self.counts().get("forget", 0)
        self.assertGreaterEqual(forgotten, 9)
        self.assertEqual(self.get("key"), content)


if __name__ == "__main__":
    unittest.main()
