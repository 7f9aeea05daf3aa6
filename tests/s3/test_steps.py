"""What stands at each step of a change of an object: the gateway's objects over registers in memory, with clients that die at each step, and writes
of theirs that take effect late. And the forms of what is beside a content."""

import contextlib
import functools
import hashlib
import io
import os
import random
import sys
import types
import unittest
from unittest import mock

HERE = os.path.dirname(os.path.abspath(__file__))
sys.path[:0] = [HERE, os.path.join(HERE, "..", "chunks"), os.path.join(HERE, "..", "names")]
import code_of_s3  # noqa: F401  (which says where the code is)
from bodies_in_memory import Body
from histories import Killed
from in_slots import OldClient, tables
from memory_with_chunks import World
from test_in_chunks import sweep

from gridfs_client import BadSettings, Layout, NoRoom, OneByOne, Tag, Unanswered
from gridfs_client.buckets import Held
from gridfs_client.contents import InChunks, Inline, Joined, joined
from gridfs_client.core import Known, Line, Page, Version
from gridfs_client.errors import Damaged, Replaced
from gridfs_client.streams import Source
from gridfs_s3.errors import S3Error, error_of
from gridfs_s3.places import Part, of_words, upload_name, words_of
from gridfs_s3.reading import Reader
from gridfs_s3.shared import Shared
from gridfs_s3.store import Store
from gridfs_s3.versions import Target

NAME, BUCKET = "bucket/key", "bucket"
OLD, PARTS = b"old" * 100, [b"a" * 500, b"b" * 10, b"c" * 700]


def client(memory, number=1, at_step=None, shared=None):
    def kind(session, layout, helpers=tuple, team=None):
        found = Store(session, layout, shared or Shared())
        found.team = OneByOne()
        return found

    return memory.client(number, at_step, kind)


class Replacing(unittest.TestCase):
    def test_amid_a_get(self):
        """What can't be read any more is looked for anew where its page shows something else by now, whoever has read that since. Where it stands there still it is damaged."""
        old, new = (Line(NAME, version, Inline(content)) for version, content in ((1, OLD), (2, b"another")))
        for shown, told in ((new, b"another"), (old, None)):
            held = [Held(NAME, Version(line.version, 1), line.content) for line in (shown, old)]
            page = Known(Tag(2, 1), Page((shown,), (), 2))
            bucket = types.SimpleNamespace(reread=lambda session: False, client=types.SimpleNamespace(seen=[page]))

            def content(found, first, end, most):
                if found.version.number == 1:
                    raise Replaced("gone")
                yield found.content.content

            reader = types.SimpleNamespace(look=lambda name, looked: held.pop(), grid="", content=content, bucket=lambda name: bucket)
            reader.stands = functools.partial(Reader.stands, reader)
            if told is None:
                self.assertRaises(Damaged, Reader.read, reader, NAME, lambda _: (0, 9))
            else:
                self.assertEqual(Reader.read(reader, NAME, lambda _: (0, 9))[2], told)


class MorePages(unittest.TestCase):
    def test_a_page_that_has_split(self):
        """A gateway that knows an earlier plan follows no names to the pages of a later one: it tells so, whatever it knew before, and nothing else; and nothing is changed."""
        memory = World(sessions=3, page_blocks=256, levels=(2,))
        whole, memory.layout = memory.layout, Layout(3, memory.layout.volumes[:3])
        shared = Shared()
        one, two = client(memory, 1, shared=shared), client(memory, 2, shared=shared)
        put(one, NAME, OLD)
        two.look_at(range(two.layout.pages_volumes))
        self.assertEqual(content_of(two, NAME), OLD)
        memory.layout = whole
        memory.client(3).grow()
        memory.layout = Layout(3, whole.volumes[:3])
        before = dict(memory.registers)
        for store in (one, two, client(memory, 1), client(memory, 2)):
            for call in (store.look, store.latest, lambda name, store=store: put(store, name, b"new"), lambda _, store=store: store.look_at(range(store.layout.pages_volumes)),
                         lambda _, store=store: list(store.all()), store.remove):  # fmt: skip
                with self.assertRaises(BadSettings) as told, contextlib.redirect_stderr(io.StringIO()):
                    call(NAME)
                with contextlib.redirect_stderr(io.StringIO()):
                    error = error_of(told.exception)
                self.assertEqual((error.code, error.status), ("InternalError", 500))
        self.assertEqual(memory.registers, before)


def fresh(slots=0):
    return World(sessions=2, pages=1, page_blocks=256, slots=slots)


def put(objects, name, content, word="x"):
    return objects.put_object(name, Body(content), lambda: {"m": word})


def content_of(objects, name):
    held = objects.look(name)
    return held and b"".join(objects.content(held, 0, held.content.size))


def part(objects, upload, number, content):
    return objects.put_part(upload_name(BUCKET, upload, NAME), number, Body(content), 5)


def complete(objects, upload):
    name = upload_name(BUCKET, upload, NAME)
    held = objects.upload(name)
    chosen = [where for _, where in objects.uploaded(held)]
    return objects.complete(name, Target(NAME), lambda: {"m": "joined", "n": "3"}, chosen, None)


def kill_at(step):
    def at_step(now):
        if now == step:
            raise Killed

    return at_step


def begun_upload(memory, in_slots):
    """An upload of session 1 with three parts, of which those of these numbers are in slots, as a gateway from before chunks put them."""
    old, files = OldClient(client(memory).session, memory.layout), client(memory)
    upload, placed = files.begin_upload(BUCKET, NAME, {}), {}
    bucket = files.bucket(NAME)
    for number, content in enumerate(PARTS, 1):
        placed[number] = old.part(content) if number in in_slots else files.in_place(bucket, NAME, Source(content))
    words = words_of((Part(number, hashlib.md5(PARTS[number - 1]).hexdigest(), placed[number].size, 5) for number in placed), {})
    files.change(upload_name(BUCKET, upload, NAME), lambda *_: joined([*placed.values()]), lambda: {"p": words})
    return upload


def uploads(objects):
    return [held for held in objects.all() if held.name.startswith(".s3/up/")]


class NotSettled(unittest.TestCase):
    def test_what_a_look_does_not_settle(self):
        """It is read, whatever the index has."""
        memory = fresh()
        one, two = client(memory, 1), client(memory, 2)
        for content in (b"old", b"new", b"later"):
            put(one, NAME, content)
            two.session.look = lambda volume, wanted=None: (None,) * memory.layout.volumes[volume].files
            self.assertEqual(content_of(two, NAME), content)
            two.look_at(range(two.layout.pages_volumes))
            self.assertEqual(two.shared.index.tag(0, 1), memory.read(two.layout.page(1, 0)).tag)


class Steps(unittest.TestCase):
    def judge(self, memory, old, new, name=NAME):
        """Looks by new clients of both sessions at what a dead client left. What the session's own one has seen, or changed, stays."""
        for number in (2, 1):
            self.assertIn(content_of(client(memory, number), name), (old, new))
        mine = client(memory, 1)
        for page in range(mine.layout.pages):
            mine.settle(page)
        sweep(mine)
        seen = content_of(mine, name)
        self.assertIn(seen, (old, new))
        memory.surface()
        other = client(memory, 2)
        self.assertEqual(content_of(other, name), seen)
        again = client(memory, 1)
        again.settle(0)
        self.assertEqual(content_of(again, name), seen)
        return seen, len(uploads(again))

    def each_step(self, prepare, change, judge):
        """Has a client die at each step of a change, with its last write lost for good, or late."""
        step, seen = 0, set()
        while True:
            step += 1
            done = False
            for is_late in (False, True):
                memory = fresh()
                words = prepare(client(memory))
                try:
                    change(client(memory, 1, kill_at(step)), words)
                    done = True
                except Killed:
                    pass
                if not is_late:
                    memory.surface()
                seen.add(judge(memory))
            if done:
                self.assertGreater(step, 3)
                return step, seen

    def test_store(self):
        new = b"new" * 200
        steps, seen = self.each_step(lambda files: put(files, NAME, OLD), lambda files, _: put(files, NAME, new), lambda memory: self.judge(memory, OLD, new))
        self.assertEqual({each[0] for each in seen}, {OLD, new})

    def uploaded(self, files):
        put(files, NAME, OLD)
        upload = files.begin_upload(BUCKET, NAME, {"k": "key"})
        for number in (2, 1, 3):
            part(files, upload, number, PARTS[number - 1])
        return upload

    def test_touch(self):
        def change(files, _):
            self.assertTrue(files.touch(NAME, files.look(NAME), lambda: {"m": "y"}))

        _, seen = self.each_step(lambda files: put(files, NAME, OLD), change, lambda memory: (*self.judge(memory, OLD, OLD), of_words(client(memory).look(NAME).words)["m"]))
        self.assertEqual({each[2] for each in seen}, {"x", "y"})

    def test_complete_beside_another_writer(self):
        """The other session puts the object between any two steps of a completion: one of both is the last."""
        step, seen = 0, set()
        while True:
            step += 1
            memory, other = fresh(), b"other" * 60
            upload = self.uploaded(client(memory))

            def at_step(now, step=step, memory=memory):
                if now == step:
                    put(client(memory, 2), NAME, other)

            files = client(memory, 1, at_step)
            complete(files, upload)
            if files.session.steps < step:
                break
            seen.add(self.judge(memory, b"".join(PARTS), other))
        self.assertEqual({each[0] for each in seen}, {b"".join(PARTS), other})
        self.assertEqual({each[1] for each in seen}, {0})

    def test_condition(self):
        memory, files = fresh(), None
        put(client(memory), NAME, OLD)
        files = client(memory)

        def refuse(held):
            raise S3Error("PreconditionFailed")

        with self.assertRaises(S3Error):
            files.put_object(NAME, Body(b"new" * 200), dict, refuse)
        calls = []

        def refuse_late(held):
            calls.append(held)
            if len(calls) == 2:
                raise S3Error("PreconditionFailed")

        with self.assertRaises(S3Error):
            files.put_object(NAME, Body(b"new" * 400), dict, refuse_late)
        self.assertEqual(content_of(files, NAME), OLD)
        files.close()
        self.assertEqual(memory.kept(), set())

    def after_a_dead_writer(self, step, is_late, is_settled):
        """A client of session 2 dies at a step of a put. New clients of both sessions come; that of session 1 puts where it sees nothing. What the name
        holds once all is settled, and whether the put was done; None where the client did not die."""
        memory = fresh()
        try:
            put(client(memory, 2, kill_at(step)), NAME, b"dead" * 200)
            return None
        except Killed:
            pass
        if not is_late:
            memory.surface()
        one, two = client(memory, 1), client(memory, 2)
        if is_settled:
            one.settle(0)
            two.settle(0)
        is_done = True

        def condition(held):
            if held:
                raise S3Error("PreconditionFailed")

        try:
            one.put_object(NAME, Body(b"new" * 200), dict, condition)
        except S3Error:
            is_done = False
        memory.surface()
        put(two, "bucket/other", b"x")
        return content_of(client(memory, 1), NAME), is_done

    def test_settled(self):
        """A put where nothing was stays, whatever a dead writer of another session left, once the page is settled; else it may not."""
        told = {True: set(), False: set()}
        for is_settled in told:
            for is_late in (False, True):
                step = 1
                while found := self.after_a_dead_writer(step, is_late, is_settled):
                    told[is_settled].add((found[0][:3], found[1]))
                    step += 1
                self.assertGreater(step, 4)
        self.assertEqual(told[True], {(b"new", True), (b"dea", False)})
        self.assertIn((b"dea", True), told[False])

    def test_settled_while_it_is_changed(self):
        """A page that is settled is so at each step of a change, too, and no more once a write of it got no answer."""
        for failing in range(1, 12):
            memory, seen = fresh(), []

            def at_step(step):
                if mine:
                    seen.append(list(mine[0].settled))
                    if len(seen) == failing:
                        raise Unanswered

            mine = []
            objects = client(memory, 1, at_step)
            objects.settle(0)
            mine.append(objects)
            before = len(memory.pending)
            try:
                put(objects, NAME, b"new")
            except Unanswered:
                pass
            self.assertEqual(seen, [[0]] * len(seen))
            is_lost = any(write.place[0] in (0, 1) and write.place[1] >= 2 for write in memory.pending[before:])
            self.assertEqual(list(objects.settled), [] if is_lost else [0], failing)

    def test_completion_that_is_refused(self):
        """The parts stay where they are, and are not forgotten."""
        memory = fresh()
        files = client(memory)
        upload = self.uploaded(files)

        def refuse(held):
            raise S3Error("PreconditionFailed")

        name = upload_name(BUCKET, upload, NAME)
        chosen = [where for _, where in files.uploaded(files.upload(name))]
        with self.assertRaises(S3Error):
            files.complete(name, Target(NAME), lambda: {"m": "joined"}, chosen, refuse)
        for number in range(6):
            put(files, "bucket/other", b"%d" % number * 1100)
        files.forget_after = 0
        files.forget_gone()
        complete(files, upload)
        self.assertEqual(content_of(files, NAME), b"".join(PARTS))

    def test_touch_after_a_change(self):
        memory = fresh()
        files = client(memory)
        put(files, NAME, OLD)
        seen = files.look(NAME)
        put(files, NAME, b"new" * 200, "new")
        self.assertIsNone(files.touch(NAME, seen, lambda: {"m": "y"}))
        self.assertEqual((content_of(files, NAME), of_words(files.look(NAME).words)["m"]), (b"new" * 200, "new"))

    def test_put_that_looked_before(self):
        """Another session of the gateway gives what is there other words, or puts by a condition, while a put is under way: that has its turn afterwards, and so
        is what comes last."""
        new, held = b"new" * 100, []
        for change in (
            lambda other: other.touch(NAME, other.look(NAME), lambda: {"m": "y"}), lambda other: other.put_object(NAME, Body(OLD), lambda: {"m": "y"}, held.append),
        ):  # fmt: skip
            memory, shared = fresh(), Shared()
            mine, other = client(memory, 1, shared=shared), client(memory, 2, shared=shared)

            class Between(Body):
                def read(self, length):
                    self.read = super().read
                    self.changed = change(other)
                    return self.read(length)

            with mock.patch("gridfs_client.buckets.moment", lambda: 0):
                put(other, NAME, OLD)
                body = Between(new)
                mine.put_object(NAME, body, lambda: {"m": "new"})
            self.assertTrue(body.changed)
            found = client(memory).look(NAME)
            self.assertEqual((content_of(client(memory), NAME), of_words(found.words)["m"]), (new, "new"))
        self.assertEqual([of_words(each.words)["m"] for each in held], ["x", "x"])


class Contents(unittest.TestCase):
    def test_ranges(self):
        """All ranges of a content of parts, over pieces: in chunks, in slots, and in both."""
        for in_slots in ((), (1, 2, 3), (1, 3), (2,)):
            memory = fresh(slots=40)
            files, upload = client(memory), begun_upload(memory, in_slots)
            complete(files, upload)
            held, whole = files.look(NAME), b"".join(PARTS)
            self.assertIsInstance(held.content, Joined)
            draw = random.Random(1)
            for first in {*range(0, len(whole), 183), 0, 499, 500, 509, 510, len(whole) - 1}:
                for end in {first + 1, draw.randrange(first, len(whole)) + 1, len(whole)}:
                    self.assertEqual(b"".join(files.content(held, first, end)), whole[first:end])
            # The client for files by name tells the same.
            self.assertEqual(files.get(NAME)[0], whole)

    def test_an_upload_of_before(self):
        """One that a gateway from before chunks began, whose parts are in slots: a part more comes in chunks, one is put anew, and it is completed, or given up."""
        for is_completed in (True, False):
            memory = fresh(slots=40)
            upload = begun_upload(memory, (1, 2, 3))
            told, files, name = tables(lambda *place: memory.read(place), memory.layout), client(memory), upload_name(BUCKET, upload, NAME)
            part(files, upload, 4, b"d" * 30)
            part(files, upload, 2, b"e" * 40)
            wheres = [where for _, where in files.uploaded(files.upload(name))]
            self.assertEqual([isinstance(where, InChunks) for where in wheres], [False, True, False, True])
            if is_completed:
                complete(files, upload)
                self.assertEqual(content_of(client(memory, 2), NAME), PARTS[0] + b"e" * 40 + PARTS[2] + b"d" * 30)
                put(files, NAME, b"f" * 1200)
                self.assertEqual(content_of(client(memory, 2), NAME), b"f" * 1200)
            else:
                files.delete(name)
            self.assertEqual(uploads(client(memory, 2)), [])
            files.close()
            self.assertEqual(memory.kept(), memory.named())
            self.assertEqual(tables(lambda *place: memory.read(place), memory.layout), told)  # (which nobody writes)

    def test_no_room_for_chunks(self):
        """What fits no line is told 507, with the reason, and nothing is changed; what fits one is put."""
        memory = fresh()
        for server in memory.servers.at.values():
            server.allowed = 0
        files = client(memory)
        put(files, NAME, OLD)
        upload, before = files.begin_upload(BUCKET, NAME, {}), dict(memory.registers)
        for call in (lambda: put(files, NAME, bytes(1025)), lambda: part(files, upload, 1, b"x")):
            with self.assertRaises(NoRoom) as told:
                call()
            error = error_of(told.exception)
            self.assertEqual((error.code, error.status), ("InsufficientStorage", 507))
            self.assertRegex(error.message, "the plan gives the tenant none for chunks; .*more NAME 16G in chunks")
        self.assertEqual((dict(memory.registers), content_of(files, NAME)), (before, OLD))

    def test_replaced_while_it_is_read(self):
        """By a client from before chunks, which uses its slots anew."""
        memory = fresh(slots=24)
        old = OldClient(client(memory, 1).session, memory.layout)
        old.put(NAME, OLD * 5)
        reader = client(memory, 2)
        held = reader.look(NAME)
        found = reader.content(held, 0, held.content.size)
        next(found)
        for number in (18, 19):
            old.put_anew(NAME, b"%d" % number * 450)
        with self.assertRaises(Exception) as fault:
            b"".join(found)
        self.assertEqual(type(fault.exception).__name__, "Replaced")
        self.assertEqual(reader.read(NAME, lambda held: (0, held.content.size))[2][:2], b"19")

    def test_spoilt(self):
        memory = fresh(slots=24)
        OldClient(client(memory, 1).session, memory.layout).put(NAME, b"x" * 600)
        place = next(place for place, copy in memory.registers.items() if copy.content.endswith(b"xxx"))
        copy = memory.registers[place]
        memory.registers[place] = type(copy)(copy.tag, copy.content[:-1] + b"y")
        files = client(memory)
        held = files.look(NAME)
        with self.assertRaises(Exception) as fault:
            b"".join(files.content(held, 0, held.content.size))
        self.assertEqual(type(fault.exception).__name__, "Damaged")


class Times(unittest.TestCase):
    def test_times_never_go_back(self):
        """Of one key, though the machine's clock does, within a gateway and after its start."""
        memory, seen, now = fresh(), [], 2_000_000_000_000
        for turn, clock in enumerate((now, now - 5_000, now - 9_000, now + 10)):
            with mock.patch("time.time_ns", lambda clock=clock: clock * 1_000_000):
                files = client(memory, 1 + turn % 2)
                for _ in range(2):
                    put(files, NAME, b"%d" % turn)
                    seen.append(int(of_words(files.look(NAME).words)["t"]))
        self.assertEqual(seen, sorted(set(seen)))

    def test_no_answer(self):
        """What got no answer takes no effect after a later change of the same gateway that did."""
        for step in range(1, 12):
            memory, shared = fresh(), Shared()

            is_over = []

            def at_step(now, step=step, is_over=is_over):
                if now == step and not is_over:
                    raise Unanswered("no answer")

            stores = [memory.client(number, at, lambda session, layout, **_: with_team(Store(session, layout, shared))) for number, at in ((2, at_step), (1, None))]
            try:
                put(stores[0], NAME, b"first" * 30)
            except Unanswered:
                pass
            is_over.append(True)
            put(stores[1], NAME, b"second")
            memory.surface()
            put(stores[0], "bucket/other", b"x")  # (by which the first session carries what it announced)
            self.assertEqual(content_of(client(memory), NAME), b"second", step)


def with_team(found):
    found.team = OneByOne()
    return found


if __name__ == "__main__":
    unittest.main()
