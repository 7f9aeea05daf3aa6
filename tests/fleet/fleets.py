"""Random histories over grids in memory, whose files are perfect registers: clients by any map that there ever was, and movers, with kills.

    fleets.py FIRST COUNT [--operations N] [--splitting] [--bug NAME]      so many histories from a seed on, or such in which pages split besides
    fleets.py --bugs [--splitting]                                         each planted bug, by the history that finds it

Whoever is killed leaves its write pending: it takes effect at some later moment, or never, and not once a later write of its session to the file has. Which
one goes on is drawn at each step. A session has one client at a time; a client has its sessions for a few operations. Some moves find no room, and are taken back.
"""

import argparse
import collections
import contextlib
import functools
import itertools
import os
import random
import sys
import threading
import time
from unittest import mock

sys.dont_write_bytecode = True
HERE = os.path.dirname(os.path.abspath(__file__))
sys.path[:0] = [HERE, *(os.path.join(HERE, "..", name) for name in ("names", "chunks"))]
from histories import History, Killed
from maps import Maps
from memory import Memory, MemorySession
from memory_with_chunks import with_chunks

from gridfs_client import ClientError, NamedFiles, NoRoom, OneByOne, core, splits, ways
from gridfs_client.buckets import Bucket
from gridfs_client.core import Page
from gridfs_client.fleet import FleetFiles, sign
from gridfs_client.moving import Mover, moves_to_end
from gridfs_client.ways import SLICES, slice_of

LABELS = ("east", "west", "south")
SPLITS = 0.25  # of the operations, where pages split


class Actor:
    """A client or a mover, in a thread that goes on a step at a time."""

    def __init__(self, fleet, work):
        self.fleet, self.held = fleet, set()
        self.turn, self.back = threading.Semaphore(0), threading.Semaphore(0)
        self.is_killed, self.has_ended, self.fault = False, False, None
        threading.Thread(target=self.run, args=(work,), daemon=True).start()

    def run(self, work):
        self.turn.acquire()
        try:
            if not self.is_killed:
                work(self)
        except Killed:
            pass
        except BaseException as fault:
            self.fault = fault
        self.fleet.held -= self.held
        self.has_ended = True
        self.back.release()

    def step(self, _=None):
        self.back.release()
        self.turn.acquire()
        if self.is_killed:
            raise Killed

    def go(self):
        self.turn.release()
        self.back.acquire()
        if self.fault:
            raise self.fault

    def take(self, grid, numbers):
        """One of these sessions of a grid, once it is free."""
        while not (free := [each for each in numbers if (grid, each) not in self.fleet.held]):
            self.step()
        taken = (grid, self.fleet.draw.choice(free))
        self.fleet.held.add(taken)
        self.held.add(taken)
        return taken[1]

    def leave(self, grid, number):
        self.fleet.held.discard((grid, number))
        self.held.discard((grid, number))

    def files(self, grid, numbers, ground, kind=NamedFiles):
        memory = self.fleet.memories[grid]
        return kind(with_chunks(MemorySession(memory, self.take(grid, numbers), self.step), memory), memory.layout, team=OneByOne(), ground=ground)


class Fleet(Maps):
    def __init__(self, draw, labels, sessions, pages, page_blocks, levels=itertools.repeat(())):
        super().__init__(labels)
        self.draw, self.sessions, self.held = draw, sessions, set()
        self.memories = {label: Memory(sessions, pages, page_blocks, levels=more) for label, more in zip(labels, levels)}
        self.counts = collections.Counter()

    def all(self):
        return range(1, self.sessions + 1)

    def late(self):
        """A pending write takes effect."""
        memory = self.draw.choice([each for each in self.memories.values() if each.pending] or [None])
        if memory:
            memory.take(memory.pending.pop(self.draw.randrange(len(memory.pending))))

    def run(self, works, kills, late):
        """`works` makes by a number what an actor does. Movers have the numbers from 0 downwards, and are begun anew."""
        actors = {number: Actor(self, work()) for number, work in works.items()}
        weights = dict.fromkeys(actors, 1.0)
        while max(actors) > 0:
            if self.draw.random() < 0.02:
                weights = {number: self.draw.choice((0.01, 0.1, 1, 1)) for number in actors}
            if self.draw.random() < late:
                self.late()
            number = self.draw.choices(list(actors), [weights[each] * (1 if each > 0 else 4) for each in actors])[0]  # (a move has many steps)
            actor = actors[number]
            if self.draw.random() < kills:
                actor.is_killed = True
                self.counts["clients killed" if number > 0 else "movers killed"] += 1
            actor.go()
            self.counts["steps"] += 1
            if actor.has_ended:
                del actors[number]
                if actor.is_killed or number <= 0:
                    actors[number] = Actor(self, works[number]())
        for actor in actors.values():
            actor.is_killed = True
            actor.go()


def plain(fleet_map, actor, _):
    return FleetFiles(fleet_map, lambda grid, ground: actor.files(grid, actor.fleet.all(), ground))


def split(files, draw):
    """A page of a session at some grid splits, or all of them."""
    some = files.grid(draw.choice(list(files.map.grids)))
    if (levels := some.layout.levels)[1:]:
        with contextlib.suppress(NoRoom):
            some.grow() if draw.random() < 0.3 else some.writer.split(some.writer.bucket(draw.randrange(levels[-1].first)))


def try_fleet(seed, operations=60, client_of=plain, page_blocks=(40, 48), splits=0.0):
    """A history of clients that `client_of` makes, of a map, an actor and what is drawn. `splits` of the operations are that a page splits."""
    draw, splitting = random.Random(seed), random.Random(f"splits {seed}")
    labels = LABELS[: draw.choice((2, 2, 3))]
    clients = draw.choice((2, 3))
    levels = [splitting.choice(((2,), (3,), (2, 2), ())) if splits else () for _ in labels]
    fleet = Fleet(draw, labels, clients + draw.choice((1, 2)), draw.choice((1, 1, 2)), draw.choice(page_blocks), levels)
    names = ["a", "b b", "ç"][: draw.choice((1, 2, 3))]
    history = History(names, (3, 45, 150), weights=draw.choice(((4, 5, 2, 1), (4, 4, 4, 0), (2, 6, 1, 0))))
    returns = random.Random(-seed)
    back = returns.choice((0, 0.5, 0.8))  # how often a move finds no room, and is taken back
    kills, late, left = draw.choice((0, 0.001, 0.004, 0.01)), draw.choice((0.1, 0.02, 0.005)), [operations]

    def client():
        def work(actor):
            while left[0] > 0:
                fleet_map = draw.choice(fleet.maps) if draw.random() < 0.5 else fleet.map
                files = client_of(fleet_map, actor, draw)
                for _ in range(draw.choice((1, 2, 5))):
                    left[0] -= 1
                    if splits and splitting.random() < splits:
                        split(files, splitting)
                        fleet.counts["splits"] += 1
                    history.do(actor, files, draw)
                for grid, number in list(actor.held):
                    actor.leave(grid, number)

        return work

    def mover(turn, count):
        """Moves whose numbers have this rest, side by side with another mover's."""

        def work(actor):
            while not (mine := [move for move in moves_to_end(fleet.map) if move.number % count == turn]):
                first, last = 0, SLICES - 1
                if draw.random() < 0.4:
                    first = last = slice_of(draw.choice(names))
                try:
                    begun = fleet.map.begun(first, last, draw.choice(labels))
                    if begun.last_move % count == turn and not begun.taken_back(begun.moves[-1]):
                        fleet.save(begun)
                        continue
                except ClientError:
                    pass
                actor.step()
            move = mine[0]
            left_to_use = returns.randrange(10, 18) if not move.is_there and returns.random() < back else SLICES

            @contextlib.contextmanager
            def session(grid, numbers, ground):
                nonlocal left_to_use
                left_to_use -= 1
                if left_to_use <= 0:
                    raise NoRoom
                files = actor.files(grid, numbers or fleet.all(), ground)
                yield files
                actor.leave(grid, files.me)

            try:
                Mover(fleet.map, move, session, lambda grid: fleet.memories[grid].layout, fleet.change_map).run()
                fleet.counts["moves ended"] += 1
            except NoRoom:
                for _ in range(returns.randrange(80)):  # (until somebody sees to it)
                    actor.step()
                if move in fleet.map.moves and not fleet.map.taken_back(move):
                    fleet.save(fleet.map.begun(move.first, move.last, move.source))
                    fleet.counts["moves taken back"] += 1

        return work

    movers = 1 + (seed % 3 == 0)
    fleet.run({-turn: functools.partial(mover, turn, movers) for turn in range(movers)} | {number: client for number in range(1, 1 + clients)}, kills, late)
    return history, fleet


def stays(walk, client):
    return ways.at_end(walk)


def new_alone(walk):
    return 1 + max(page.number for page in core.for_change(walk.client(walk.last.grid)).values())


def unsigned(self):
    """Names are copied before all pages have signposts."""
    lacking = self.lacking()[:1]
    for session, page in lacking:
        with self.files(self.move.source, [session]) as files:
            sign(files, files.writer.bucket(page), self.move.signpost)


def uncopied(self):
    pass


def any_line(self, walk, found):
    """A move is taken back, and what was changed at its new grid is not brought back."""
    return any(each.grid == self.move.target for each in ways.lines(walk))


BUGS = {
    "stays": (ways, "looked", stays),
    "new-alone": (ways, "number_above", new_alone),
    "unsigned": (Mover, "sign_all", unsigned),
    "uncopied": (Mover, "copy_all", uncopied),
    "any-line": (Mover, "is_there", any_line),
}
def without_signposts(page, is_here):
    """A new page begins without the signposts of the old one."""
    return Page(tuple(line for line in page.lines if is_here(line.name)), page.after, page.number)


def never(self):
    return False


SPLITTING = {
    "without-signposts": (splits, "part_of", without_signposts),
    "never-split": (Bucket, "has_split", never),
}
SPLIT_SEEDS = {"without-signposts": 16, "never-split": 0}
SEEDS = {"stays": 6, "new-alone": 0, "unsigned": 3, "uncopied": 91, "any-line": 210}  # of the history that finds each


def is_found(seed, operations=60, splits=0.0):
    try:
        return bool(try_fleet(seed, operations, splits=splits)[0].wrong()[0])
    except (ClientError, AssertionError):
        return True


def planted(bug):
    where, what, how = (BUGS | SPLITTING)[bug]
    return mock.patch.object(where, what, how)


def main():
    parser = argparse.ArgumentParser(description=__doc__, formatter_class=argparse.RawDescriptionHelpFormatter)
    parser.add_argument("first", type=int, nargs="?", default=0)
    parser.add_argument("count", type=int, nargs="?", default=20)
    parser.add_argument("--operations", type=int, default=60)
    parser.add_argument("--bug", choices=[*BUGS, *SPLITTING])
    parser.add_argument("--bugs", action="store_true")
    parser.add_argument("--splitting", action="store_const", const=SPLITS, default=0.0)
    args = parser.parse_args()
    if args.bugs:
        for bug in SPLITTING if args.splitting else BUGS:
            with planted(bug):
                seed = next((seed for seed in range(args.first, args.first + args.count) if is_found(seed, splits=args.splitting)), None)
            print(bug, "NOT FOUND" if seed is None else seed, flush=True)
        return
    total, start = collections.Counter(), time.monotonic()
    with planted(args.bug) if args.bug else contextlib.nullcontext():
        for seed in range(args.first, args.first + args.count):
            history, fleet = try_fleet(seed, args.operations, splits=args.splitting)
            total.update(history.counts)
            total.update(fleet.counts)
            wrong, unknown = history.wrong()
            if wrong or unknown:
                print(seed, "WRONG" if wrong else "unknown", wrong, unknown, flush=True)
            total.update(wrong=len(wrong), unknown=len(unknown))
    print(dict(total), f"{time.monotonic() - start:.1f} s")


if __name__ == "__main__":
    main()
