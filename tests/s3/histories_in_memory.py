#!/usr/bin/python3
"""Random histories of objects over perfect registers, by gateways that are killed and writes that take effect late: each key has to be one register.

    histories_in_memory.py FIRST COUNT              so many from a seed on; the status is 1 where one has no order
    histories_in_memory.py --splitting FIRST COUNT  the same with pages that split meanwhile

A client of these histories is a gateway with some sessions, of which it takes any for each operation. What they share, and what they keep, is shared.
"""

import contextlib
import hashlib
import os
import random
import sys
import types
from typing import NamedTuple

sys.path.insert(0, os.path.dirname(os.path.abspath(__file__)))
import code_of_s3  # noqa: F401  (which says where the code is)
import registers
from bodies_in_memory import Body
from memory_with_chunks import with_chunks
from gridfs_client import ClientError, NoSuchName, Replaced, Unanswered
from gridfs_s3 import index
from gridfs_s3.errors import S3Error
from gridfs_s3.places import of_words, upload_name
from gridfs_s3.shared import Shared, SharedWriter
from gridfs_s3.store import PageFull, Store
from gridfs_s3.versions import Target

SHAPES = [
    registers.Shape(names=(1, 2), sessions=(2, 3, 4), pages=(1,), kills=(0, 0.002, 0.01), gone=(0,), late=(0.1, 0.02, 0.005), many_sessions=(0.5, 0.9)),
    registers.Shape(names=(1, 2), sessions=(3, 4), pages=(1,), kills=(0, 0.005), gone=(0,), many_sessions=(0.7,), unanswered=(0.01, 0.03)),
    registers.Shape(names=(1,), sessions=(2, 3), pages=(1,), kills=(0.01,), gone=(0,), late=(0.02, 0.005), many_sessions=(1,), unanswered=(0, 0.02)),
    registers.Shape(names=(2, 3), sessions=(2, 3), pages=(1, 2), kills=(0, 0.01), gone=(0,), late=(0.1, 0.005), many_sessions=(0.5, 1), unanswered=(0, 0.01)),
]
SPLITTING = [
    registers.Shape(
        names=(2, 3), sessions=(2, 3), sizes=(3, 45, 150), kills=(0, 0.005, 0.02), gone=(0,), late=(0.1, 0.02, 0.005), many_sessions=(0, 0.6, 0.9), unanswered=(0, 0, 0.01),
        weights=((4, 5, 3, 3), (4, 5, 1, 4)), levels=((2,), (3,), (2, 2)), splits=0.15,
    ),
    registers.Shape(
        names=(1, 2), sessions=(2,), pages=(1,), sizes=(3,), kills=(0.02, 0.05), gone=(0,), late=(0.01, 0.05), many_sessions=(0, 1), weights=((4, 6, 4, 2),), levels=((2,),), splits=0.25,
    ),
    registers.Shape(
        names=(2, 3), sessions=(2, 3), pages=(1, 2), sizes=(3, 45), kills=(0, 0.01), gone=(0,), late=(0.1, 0.005), many_sessions=(1,), weights=((4, 4, 3, 6),), levels=((2,), (2, 2)), splits=0.2,
    ),
]  # fmt: skip
ALONE = 2  # in the last shape there is one gateway at a time, which has all sessions: it settles a page before its first change


SharedWriter.most_buckets, index.RECENT = 1, 0  # (what a gateway forgets of its pages, where there are many)


class WentBack(Exception):
    """A time of a key went back."""


class Objects:
    """Puts, gets, removals and listings by any session of a gateway, as histories ask for them."""

    times, digests = {}, {}  # (digests: of contents, by what their ETags show of them)

    def __init__(self, session, layout, helpers, team):
        shared = Shared()
        self.draw, self.is_settled = random.Random(session.number), False
        self.stores = [Store(with_chunks(each, each.client.world.memory), layout, shared) for each in (session, *helpers())]
        self.times = {}
        shared.may_grow, self.layout = True, layout

    def store(self):
        return self.draw.choice(self.stores)

    def settle(self):
        """Before the first change, where the gateway has all sessions, as a gateway does."""
        if not self.is_settled and len(self.stores) == self.stores[0].layout.sessions:
            self.is_settled = True
            for store in self.stores:
                for page in store.layout.page_numbers:
                    with contextlib.suppress(Unanswered):
                        store.settle(page)

    def changed(self, work):
        self.settle()
        for _ in range(2):
            store = self.store()
            try:
                return work(store)
            except PageFull as full:
                for _ in range(2):
                    for each in self.stores:
                        each.sweep_own(full.page)
                store.shared.swept[full.page] = float("inf")
        raise AssertionError

    def put(self, name, content):
        content = content if isinstance(content, bytes) else content.read()
        digest = hashlib.sha256(content).hexdigest()
        values = {"s": digest, "m": digest[:32]}
        Objects.digests[digest[:32]] = digest
        kind = self.draw.choice(("whole", "whole", "whole", "in parts", "other words"))
        if kind == "in parts":
            self.changed(lambda store: self.put_in_parts(store, name, content, values))
        else:
            self.changed(lambda store: store.put_object(name, Body(content), lambda: values))
        if kind == "other words":
            self.change_words(name, values)

    def put_in_parts(self, store, name, content, values):
        """By an upload of one session, with a part that is put twice and one that is left out."""
        upload, half = upload_name("bucket", store.begin_upload("bucket", name, {}), name), len(content) // 2
        for number, part in ((1, b"x" * 50), (3, content[half:]), (2, b"left out"), (1, content[:half])):
            store.put_part(upload, number, Body(part), 5)
        found = {part.number: where for part, where in store.uploaded(store.upload(upload))}
        store.complete(upload, Target(name), lambda: values, [found[1], found[3]], None)

    def change_words(self, name, values):
        """Gives a content other words where it stands, if it is there still: that changes nothing of it. (Beside another gateway it would be one
        more put of that content, of which the history knows nothing.)"""
        held = self.store().look(name)
        for store in self.stores if len(self.stores) == self.stores[0].layout.sessions else ():
            if held and held.version.session == store.me and of_words(held.words)["s"] == values["s"]:
                store.touch(name, held, lambda: {**values, "again": "1"})

    def remove(self, name):
        if not self.changed(lambda store: store.delete(name)):
            absent(name)

    def get(self, name):
        """As who asks again where an answer is cut, since the content was replaced amid it."""
        while True:
            with contextlib.suppress(Replaced):
                return self.get_once(name)

    def get_once(self, name):
        held, parts, data = self.store().read(name, lambda held: (0, held.content.size) if held else absent(name))
        content = data + b"".join(parts)
        if hashlib.sha256(content).hexdigest() != of_words(held.words)["s"]:
            raise S3Error("InternalError", f"{name}: a content with the words of another one")
        self.look_at_time(held)
        return content, held

    def look_at_time(self, held):
        """Of one key no later version has an earlier time, where there is one gateway at a time."""
        time, before = int(of_words(held.words)["t"]), Objects.times.get(held.name)
        if before and before[0] < held.version and before[1] >= time:
            raise WentBack(f"{held.name}: its time goes back")
        if not before or before[0] < held.version:
            Objects.times[held.name] = held.version, time

    def names(self):
        """By the index, as a gateway's listings: after a look at all pages, but where this has all sessions, and nothing that others wrote comes into a page."""
        store = self.store()
        if not all(each.writer.has_settled_all() for each in self.stores) or len(self.stores) < store.layout.sessions:
            store.look_at(store.layout.all_pages_volumes)
        rows = store.shared.index.names("")
        if self.draw.random() < 0.5:
            return [Entry(row.key, Objects.digests[row.etag]) for row in rows if row.etag in Objects.digests]
        return [Entry(held.name, of_words(held.words).get("s")) for held in self.store().all()]

    @property
    def writer(self):
        """For one call: that of one session."""
        writer = self.store().writer
        return types.SimpleNamespace(bucket=lambda page: page, split=lambda page: writer.split(writer.bucket(page)))

    def grow(self):
        """As a gateway splits pages wholly that have begun to."""
        store = self.store()
        for page, sessions in store.shared.index.to_split(self.layout).items():
            if store.me in sessions:
                store.split(page)

    def sweep(self):
        pass

    def close(self):
        for store in self.stores:
            store.close()


class Entry(NamedTuple):
    name: str
    sha256: str | None


def absent(name):
    raise NoSuchName(name)


def wrong_in(seed, shapes=SHAPES):
    """Why a history is wrong; None where it is right."""
    shape = shapes[seed % len(shapes)]
    Objects.times = {}
    try:
        history, _ = registers.try_registers(seed, Objects, 50, shape)
    except WentBack as fault:
        if shapes is SHAPES and seed % len(SHAPES) == ALONE:
            return str(fault)
        return None  # (of several gateways the times of changes side by side need not be in the order of these)
    except (ClientError, S3Error, AssertionError) as fault:
        return f"{type(fault).__name__}: {fault}"
    wrong, _ = history.wrong()
    return f"no order of {wrong}" if wrong else None


def main(first, count, shapes=SHAPES):
    wrong = 0
    for seed in range(first, first + count):
        if told := wrong_in(seed, shapes):
            wrong += 1
            print(f"history {seed}: {told}", flush=True)
    print(f"{count} histories, {wrong} wrong")
    return min(1, wrong)


if __name__ == "__main__":
    is_splitting = sys.argv[1] == "--splitting"
    sys.exit(main(*map(int, sys.argv[1 + is_splitting :]), SPLITTING if is_splitting else SHAPES))
