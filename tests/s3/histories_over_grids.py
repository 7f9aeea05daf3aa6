#!/usr/bin/python3
"""Random histories of objects over grids in memory (tests/fleet/fleets.py), by gateways' code and a mover that die, and writes that take effect late: each key
has to be one register.

    histories_over_grids.py FIRST COUNT              so many from a seed on; the status is 1 where one is wrong
    histories_over_grids.py --splitting FIRST COUNT  the same with pages that split meanwhile
    histories_over_grids.py --bugs                   each planted bug, by a history that finds it
"""

import hashlib
import os
import sys
import time
from dataclasses import replace
from unittest import mock

HERE = os.path.dirname(os.path.abspath(__file__))
sys.path[:0] = [HERE, os.path.join(HERE, "..", "fleet")]
import code_of_s3  # noqa: F401  (which says where the code is)
import fleets
from bodies_in_memory import Body
from gridfs_client import ClientError, NoSuchName, Replaced
from gridfs_client.buckets import held_of
from gridfs_client.ways import slice_of
from gridfs_s3.errors import S3Error
from gridfs_s3.places import of_words, upload_name
from gridfs_s3.shared import Shared, Turns
from gridfs_s3.store import PageFull, Store
from gridfs_s3.versions import Target
from gridfs_s3.trips import Elsewhere, Trip

MOST = 60  # histories in which a bug has to be found


class Open(Trip):
    """A trip that has a session at whichever grid its way leads to."""

    def __init__(self, fleet_map, open_store):
        super().__init__(fleet_map, {})
        self.open_store = open_store

    def grid(self, grid):
        if grid not in self.grids:
            self.grids[grid] = self.open_store(grid)
        return self.grids[grid]


class Objects:
    """Puts, gets, removals and listings by one session of each grid, as histories ask for them."""

    def __init__(self, fleet_map, actor, draw):
        self.map, self.draw, turns = fleet_map, draw, Turns()

        def open_store(grid):
            def kind(session, layout, team, ground):
                found = Store(session, layout, Shared(turns), ground)
                found.team = team
                return found

            return actor.files(grid, actor.fleet.all(), self.trip.ground(grid), kind)

        self.trip = Open(fleet_map, open_store)

    def grid(self, grid):
        return self.trip.grid(grid)

    def do(self, name, work):
        """What a gateway does where the way leads on."""
        grid = self.map.stop(slice_of(name)).grid
        for _ in range(20):
            store = self.trip.grid(grid)
            store.trip = self.trip
            try:
                return work(store)
            except Elsewhere as fault:
                if fault.session not in (None, store.me) and fault.grid == grid:
                    raise
                grid = fault.grid
            except PageFull as full:
                store.sweep_own(full.page)
                store.shared.swept[full.page] = float("inf")
        raise AssertionError(f"{name}: goes on and on")

    def put(self, name, content):
        values = {"s": hashlib.sha256(content).hexdigest()}
        if self.draw.random() < 0.3:
            try:
                upload = self.uploaded(name, content)
                self.do(upload, lambda store: self.complete(store, upload, name, values))
            except (Elsewhere, S3Error):
                pass  # (another session has the upload by now: nothing was changed)
            else:
                self.do(upload, lambda store: store.delete(upload))
                return
        self.do(name, lambda store: store.put_object(name, Body(content), lambda: values))

    def uploaded(self, name, content):
        upload, half = upload_name("bucket", self.do(name, lambda store: store.begin_upload("bucket", name, {})), name), len(content) // 2
        for number, part in ((1, b"x" * 50), (2, content[half:]), (1, content[:half])):
            self.do(upload, lambda store, number=number, part=part: store.put_part(upload, number, Body(part), 5))
        return upload

    def complete(self, store, upload, name, values):
        held = store.own_upload(upload)
        store.complete(upload, Target(name), lambda: values, [where for _, where in store.uploaded(held)], None)

    def remove(self, name):
        if not self.do(name, lambda store: store.delete(name)):
            raise NoSuchName(name)

    def get(self, name):
        for is_last in (False, False, True):
            try:
                return self.do(name, lambda store: self.get_once(store, name))
            except Replaced:
                if is_last:
                    raise
        raise AssertionError

    def get_once(self, store, name):
        def choose(held):
            if not held:
                raise NoSuchName(name)
            return 0, held.content.size

        held, parts, data = store.read(name, choose)
        content = data + b"".join(parts)
        if hashlib.sha256(content).hexdigest() != of_words(held.words)["s"]:
            raise S3Error("InternalError", f"{name}: a content with the words of another one")
        return content, held

    def names(self):
        return [Entry(each) for each in self.trip.names() if not each.name.startswith(".s3/")]


class Entry:
    def __init__(self, listed):
        self.name, self.sha256 = listed.name, of_words(listed.words).get("s")


def first_alone(self, name):
    bucket = self.bucket(self.map.stop(slice_of(name)).grid, name)
    bucket.refresh()
    return held_of(bucket.greatest(name))


def here_alone(self, name):
    """A get reads what a name holds by the session that it has, at whichever grid that is."""
    held = held_of(fleets.ways.greatest(self.walk(name)))
    return held and replace(held, version=replace(held.version, grid=self.map.stop(slice_of(name)).grid))


BUGS = {
    "a look ends at the first grid": (Trip, "look", first_alone),
    "a get reads at the first grid": (Trip, "look", here_alone),
}


def wrong_in(seed, splits=0.0):
    """Why a history is wrong; None where it is right."""
    try:
        history, fleet = fleets.try_fleet(seed, 50, Objects, (80,), splits)
    except (ClientError, S3Error, AssertionError, Elsewhere) as fault:
        return f"{type(fault).__name__}: {fault}", {}, 0
    wrong, _ = history.wrong()
    return f"no order of {wrong}" if wrong else None, history.counts, fleet.counts["moves ended"]


def find(bug):
    with mock.patch.object(*BUGS[bug]):
        return next((seed for seed in range(MOST) if wrong_in(seed)[0]), None)


def main(words):
    if words == ["--bugs"]:
        seeds = {bug: find(bug) for bug in BUGS}
        print("\n".join(f"{bug}: {'NOT FOUND' if seed is None else seed}" for bug, seed in seeds.items()))
        return None in seeds.values()
    splits = fleets.SPLITS if words[0] == "--splitting" else 0.0
    words = words[splits > 0 :]
    first, count, wrong, operations, moves, begun = int(words[0]), int(words[1]), 0, 0, 0, time.monotonic()
    for seed in range(first, first + count):
        told, counts, ended = wrong_in(seed, splits)
        operations, moves = operations + sum(counts.values()), moves + ended
        if told:
            wrong += 1
            print(f"history {seed}: {told}", flush=True)
    print(f"{count} histories, {operations} operations, {moves} moves, {wrong} wrong, {time.monotonic() - begun:.0f} seconds")
    return min(1, wrong)


if __name__ == "__main__":
    sys.exit(main(sys.argv[1:]))
