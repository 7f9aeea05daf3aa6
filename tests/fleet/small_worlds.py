"""Small worlds of a name that goes from one grid to another, searched whole: every step of clients and movers is one of `gridfs_client.core` and
`gridfs_client.ways`, the code of the client itself.

    small_worlds.py [--old N] [--new N] [--changes N] [--removals N] [--gets N] [--clients N] [--pending N] [--anew N] [--begun N] [--variant NAME]
              [--random N] [--seed N] [--most N]
    small_worlds.py --variants

Sessions of the old grid are numbered first, behind them those of the new one. A session has two files, its journal and its page. Each write may be
answered, or not: then it is pending, takes effect at any later moment or never, and not once a later write to the same file has. A client may ask again, or
die at any step: the next one knows only the journal. So a mover is nothing by itself. What it does are changes of sessions (signposts, copies, a number,
lines that go), and two looks, behind which the map says the new grid, and then that the old one is clear. Clients begin by any map that there was.

In each world that can come about the search looks at what was seen:

- a page never goes back, and keeps its signposts;
- the operations are *tagged*, as gq_laws has the word, and have an order that is one of a register (tests/names/worlds.py).

With --begun 1 a put has ended at the first old session, whose page has the signpost. With --begun 2 it was removed, and that was forgotten. With --begun 3 a put
has ended, and the move up to its copy. With --random N it goes N random ways instead. It ends with status 1 at the first world that is wrong, and with 2
where there were more worlds than --most.
"""

import argparse
import contextlib
import os
import random
import sys
from dataclasses import replace
from typing import NamedTuple
from unittest import mock

sys.dont_write_bytecode = True
HERE = os.path.dirname(os.path.abspath(__file__))
sys.path[:0] = [os.path.join(HERE, "..", "names"), os.path.join(HERE, "..", "..", "clients", "python")]
from searching import Wrong, searched
from worlds import Op, at, judge_ops, tag_of

from gridfs_client import core, ways
from gridfs_client.core import Copied, Known, Line, ListPages, Page, ReadJournal, ReadPage, Signpost, WriteJournal, WritePage
from gridfs_client.ways import Opens, Stop

N, M = "n", "m"
OLD, NEW = "a", "b"
SIGNPOST = Signpost(1, 0, ways.SLICES - 1, NEW)
SLICE = ways.slice_of(N)


class Bounds(NamedTuple):
    old: int = 1
    new: int = 1
    changes: int = 1
    removals: int = 0
    gets: int = 1
    clients: int = 0
    pending: int = 0
    anew: int = 0
    others: int = 0
    begun: int = 0


def with_known_hash(kind):
    """Values of it are hashed once: a world has many, and most are those of the world before."""
    plain = kind.__hash__

    def known(self):
        if "known_hash" not in self.__dict__:
            self.__dict__["known_hash"] = plain(self)
        return self.__dict__["known_hash"]

    kind.__hash__ = known


for each_kind in (core.Page, core.Known, core.Knows, core.Line, core.Looks, core.Announces, core.Carries, core.Enters, ways.Walk, Signpost, Copied):
    with_known_hash(each_kind)


class Session(NamedTuple):
    grid: str = ""
    journal: Page = Page()
    page: Page = Page()
    journal_pending: tuple = ()
    page_pending: tuple = ()
    client: object = None  # what it knows, of its own grid
    walk: object = None
    write: object = None  # a state of the core, behind the walk
    task: tuple = ()  # a word, the number of the operation or None, the content, the map by which it began
    tags: tuple = None  # of a listing that is under way
    clients: int = 0


class World(NamedTuple):
    sessions: tuple
    now: int = 0
    ops: tuple = ()
    map: int = 0  # 1: the new grid; 2: and the old one is clear
    anew: int = 0
    others: int = 0


def client_of(number, session, bounds):
    """A new client of a session, which has read its journal; or a reader of a grid."""
    return core.new_client(number, bounds.old if session.grid == OLD else bounds.new, session.grid)


class Steps:
    def __init__(self, world, bounds):
        self.world, self.bounds, self.found = world, bounds, []
        self.places = {(OLD, each): each - 1 for each in range(1, bounds.old + 1)} | {(NEW, each): bounds.old + each - 1 for each in range(1, bounds.new + 1)}
        self.writers = len(self.places)

    def number(self, place):
        return place + 1 if place < self.bounds.old else place + 1 - self.bounds.old

    def to(self, words, place, session, **changes):
        who = f"session {session.grid}{self.number(place)}" if session.grid else f"reader {place - self.writers}"
        self.found.append((f"{who} {words}", self.world._replace(sessions=at(self.world.sessions, place, session), **changes)))

    def all(self):
        for place, session in enumerate(self.world.sessions):
            for index, write in enumerate(session.journal_pending):
                self.to("journal takes effect late", place, session._replace(journal=write, journal_pending=session.journal_pending[index + 1 :]))
            for index, write in enumerate(session.page_pending):
                self.to("page takes effect late", place, session._replace(page=write, page_pending=session.page_pending[index + 1 :]))
            if place < self.writers and session.clients < self.bounds.clients:
                new = session._replace(client=self.entered(place, session), walk=None, write=None, task=(), tags=None, clients=session.clients + 1)
                self.to("has a new client", place, new)
            if session.write is not None:
                self.writes(place, session)
            elif session.walk is not None:
                self.walks(place, session)
            else:
                self.begins(place, session)
        return self.found

    def entered(self, place, session):
        client = core.new_client(self.number(place), self.bounds.old if session.grid == OLD else self.bounds.new, session.grid)
        return core.told(core.enter(client), Known(tag_of(session.journal), session.journal))

    def opened(self, walk, session):
        """Grids at which it has no client yet get one: its own, or a reader."""
        while (request := ways.request_of(walk)) and isinstance(request[1], Opens):
            grid = request[0]
            count = self.bounds.old if grid == OLD else self.bounds.new
            walk = ways.told(walk, session.client if grid == session.grid and session.client else core.new_client(0, count, grid))
        return walk

    # Beginnings

    def begins(self, place, session):
        world, bounds = self.world, self.bounds
        if place >= self.writers:
            if place == self.writers:  # the mover's looks
                if world.map < 2:
                    self.starts("look to change the map", place, session, ("map", None, None, 0), is_change=False)
            elif sum(not op.is_change for op in world.ops) < bounds.gets:
                for known in self.maps():
                    self.starts(f"get by map {known}", place, session, ("get", len(world.ops), None, known), is_change=False)
            return
        if session.client is None:
            return
        written = [op for op in world.ops[begun_ops(bounds) :] if op.is_change]
        maps = [known for known in self.maps() if session.grid == NEW or not known]
        if len(written) < bounds.changes:
            for known in maps:
                self.starts(f"put by map {known}", place, session, ("put", len(world.ops), len(world.ops) + 1, known), with_own=False)
                if sum(op.value is None for op in written) < bounds.removals:
                    self.starts(f"remove by map {known}", place, session, ("remove", len(world.ops), None, known))
        if world.others < bounds.others:
            task = ("other", None, world.others + 1, 0)
            self.looks("put another name", place, session, task, others=world.others + 1)
        if world.anew < bounds.anew:
            for known in maps:
                self.looks(f"change no name by map {known}", place, session, ("anew", None, None, known), anew=world.anew + 1)
        signs = any(SIGNPOST in each.page.signposts for each in world.sessions)
        if session.grid == OLD and SIGNPOST not in session.page.signposts:
            self.looks("sign", place, session, ("sign", None, None, 0))
        if session.grid == NEW and signs and not world.map:
            self.starts("copy", place, session, ("copy", None, None, 0))
        if session.grid == OLD and session.page.shown(N) and world.map == 1:
            self.looks("clear", place, session, ("clear", None, None, 0))

    def maps(self):
        return range(self.world.map + 1)

    def starts(self, words, place, session, task, is_change=True, with_own=True):
        world = self.world
        stop = Stop(NEW, 1) if task[3] else Stop(OLD, 0)
        walk = self.opened(ways.walk(N, stop, is_change, with_own), session)
        changes = {}
        if task[1] is not None:
            op = Op(is_change, task[2], self.number(place), world.now, is_change=is_change)
            changes = dict(ops=(*world.ops, op), now=world.now + 1)
        self.to(f"begins to {words}", place, session._replace(walk=walk, task=task), **changes)

    def looks(self, words, place, session, task, **changes):
        """A look at the pages of its own grid alone."""
        client = session.client
        walk = ways.Walk(N, SLICE, (Stop(session.grid, 99),), True, False, (), None)
        self.to(f"begins to {words}", place, session._replace(walk=self.opened(walk, session), task=task), **changes)

    # Steps of a look

    def walks(self, place, session):
        asked = ways.request_of(session.walk)
        if asked is None:
            self.end_look(place, session)
            return
        grid, request = asked
        sessions = self.world.sessions
        match request:
            case ListPages():
                whose, tags = sorted(session.walk.state.whose), session.tags or ()
                if len(tags) < len(whose):
                    tags = (*tags, tag_of(sessions[self.places[grid, whose[len(tags)]]].page))
                if len(tags) < len(whose):
                    self.to(f"lists a page of {grid}", place, session._replace(tags=tags))
                    return
                every = [known.tag for known in ways.client_of(session.walk.state).seen]
                for each, tag in zip(whose, tags):
                    every[each - 1] = tag
                self.goes_on(f"lists a page of {grid}, the last one", place, session._replace(tags=None), tuple(every))
            case ReadPage(other):
                page = sessions[self.places[grid, other]].page
                self.goes_on(f"looks at page {grid}{other}", place, session, Known(tag_of(page), page))
            case ReadJournal():
                self.goes_on("reads its journal", place, session, Known(tag_of(session.journal), session.journal))
            case WritePage(page):
                done = session._replace(page=page, page_pending=())
                self.goes_on(f"carries first {page}", place, done, tag_of(page))
                if len(session.page_pending) < self.bounds.pending:
                    self.to("gets no answer for its page", place, session._replace(page_pending=(*session.page_pending, page)))

    def goes_on(self, words, place, session, answer):
        self.to(words, place, session._replace(walk=self.opened(ways.told(session.walk, answer), session)))

    def ended(self, task, **changes):
        op = task[1]
        if op is None:
            return {}
        return dict(ops=at(self.world.ops, op, self.world.ops[op]._replace(end=self.world.now, **changes)), now=self.world.now + 1)

    def end_look(self, place, session):
        kind, op, value, known = session.task
        walk, world = session.walk, self.world
        found = ways.greatest(walk)
        idle = session._replace(walk=None, task=())
        if session.grid and session.grid in walk.grids():
            idle = idle._replace(client=walk.client(session.grid))
        holds = found.line.content if found else None
        if kind == "map":
            if not world.map and ways.has_come(walk):
                self.to("changes the map", place, idle, map=1)
            elif world.map == 1 and ways.is_clear(walk, OLD):
                self.to("says that the old grid is clear", place, idle, map=2)
            else:
                self.to("ends", place, idle)
            return
        if kind == "get" or kind == "remove" and holds is None:
            version = replace(found.version, move=0) if found else None
            self.to(f"tells {holds}", place, idle, **self.ended(session.task, is_write=False, value=holds, tag=version))
            return
        grid, journal = session.grid, None
        if grid in walk.grids():
            client, is_last = walk.client(grid), walk.last.grid == grid
            arrived = {(OLD, 0): 0, (NEW, 2): 1}.get((grid, known))

            def keeps(name):
                return ways.keeps(client, ways.slice_of(name), arrived)

            if kind in ("put", "remove") and is_last:
                line = Line(N, ways.number_above(walk), value, str(op))
                journal = core.changed(client, line, keeps=keeps)
            elif kind == "other":
                journal = core.changed(client, Line(M, core.new_version(client).number, value), keeps=keeps)
            elif kind == "anew":
                journal = core.changed(client, None, keeps=keeps)
            elif kind == "sign":
                journal = ways.signed(client, SIGNPOST, keeps)
            elif kind == "copy" and is_last:
                journal = ways.copied(walk, holds, keeps) or ways.raised(walk, keeps)
            elif kind == "clear":
                journal = ways.cleared(client, SIGNPOST, {N}, keeps)
        if journal is None:
            self.to("has nothing to do", place, idle)
        else:
            self.to(f"chooses {journal}", place, idle._replace(write=core.announce(idle.client, journal), task=session.task))

    # Writes

    def writes(self, place, session):
        world = self.world
        match core.request_of(session.write):
            case WriteJournal(journal):
                done = session._replace(write=core.told(session.write, tag_of(journal)), journal=journal, journal_pending=())
                line, ops = journal.shown(N), world.ops
                if line and line.words and not line.copied:
                    version = core.version_of(line, self.number(place), session.grid)
                    ops = at(ops, int(line.words), ops[int(line.words)]._replace(tag=version))
                self.to(f"announces {journal}", place, done, ops=ops)
                if len(session.journal_pending) < self.bounds.pending:
                    self.to("gets no answer for its journal", place, session._replace(journal_pending=(*session.journal_pending, journal)))
            case WritePage(page):
                client = core.told(session.write, tag_of(page))
                done = session._replace(write=None, client=client, page=page, page_pending=(), task=())
                self.to(f"carries {page}", place, done, **self.ended(session.task))
                if len(session.page_pending) < self.bounds.pending:
                    self.to("gets no answer for its page", place, session._replace(page_pending=(*session.page_pending, page)))


def judge(before, after, bounds):
    for place, (old, new) in enumerate(zip(before.sessions, after.sessions)):
        if old.page == new.page:
            continue
        if not old.page.number < new.page.number or not set(old.page.signposts) <= set(new.page.signposts):
            raise Wrong("a page goes back")
        number = place + 1 if place < bounds.old else place + 1 - bounds.old
        for line in old.page.lines:
            following = new.page.shown(line.name)
            if following and following != line and not core.version_of(line, number, old.grid) < core.version_of(following, number, old.grid):
                raise Wrong("a line goes back")
    if before.ops != after.ops:
        judge_ops(after.ops)


def begun_ops(bounds):
    return (0, 1, 2, 1)[bounds.begun]


def first_world(bounds):
    sessions = [Session(OLD)] * bounds.old + [Session(NEW)] * bounds.new
    ops = ()
    if bounds.begun:
        removed = bounds.begun == 2
        page = Page((), (), 3, (SIGNPOST,)) if removed else Page((Line(N, 2, 1, "0"),), (), 3, (SIGNPOST,))
        sessions[0] = Session(OLD, page, page)
        ops = (Op(True, 1, 1, 0, 1, core.Version(2, 1, OLD)),)
        if removed:
            page = Page((), (), 3, (SIGNPOST,))
            ops = (*ops, Op(True, None, 1, 2, 3, core.Version(3, 1, OLD)))
        sessions[0] = Session(OLD, page, page)
        if bounds.begun == 3:
            copy = Page((Line(N, 2, 1, "0", Copied(1, OLD, 1, 4)),), (), 4)
            sessions[bounds.old] = Session(NEW, copy, copy)
    world = World((*sessions, *[Session()] * (1 + min(bounds.gets, 2))), 2 * len(ops), ops)
    steps = Steps(world, bounds)
    entered = [session._replace(client=steps.entered(place, session)) if session.grid else session for place, session in enumerate(world.sessions)]
    return world._replace(sessions=tuple(entered))


def search(bounds, most):
    return searched(first_world(bounds), lambda world: Steps(world, bounds).all(), lambda world, following: judge(world, following, bounds), most)


def wander(bounds, ways_to_go, seed=1):
    chance, count, moves = random.Random(seed), 0, [0, 0, 0]
    for _ in range(ways_to_go):
        world, told, lazy = first_world(bounds), [], chance.random()
        while len(told) < 500 and (following := Steps(world, bounds).all()):
            words, then = chance.choice(following)
            if " has a new client" in words and len(following) > 1 and chance.random() < lazy:
                continue
            if any(word in words for word in ("begins to look to change", "begins to sign", "begins to copy")) and chance.random() < lazy:
                continue
            told.append(words)
            count += 1
            try:
                judge(world, then, bounds)
            except Wrong as wrong:
                raise Wrong(str(wrong), *told) from None
            if then.map == 2 and not world.map == 2:
                told.append("(the old grid is clear)")
            world = then
            done = world.map == 2 and all(each.walk is None and each.write is None for each in world.sessions)
            if done and sum(op.is_change for op in world.ops) >= bounds.changes + begun_ops(bounds) and sum(not op.is_change for op in world.ops) >= bounds.gets:
                break
        moves[world.map] += 1
    return count, moves


def go(bounds, patterns):
    """Goes a way of steps, each behind as many as a look takes; Wrong at the first world that is wrong, LookupError where there is no such step."""
    world, told = first_world(bounds), []
    for pattern in patterns:
        who = pattern.split(":")[0]
        while True:
            following = [(words, then) for words, then in Steps(world, bounds).all() if words.startswith(who)]
            words, then = next((each for each in following if pattern.split(":")[1] in each[0]), (None, None))
            is_there = words is not None
            if not is_there:
                words, then = next((each for each in following if "lists a page" in each[0] or "looks at page" in each[0]), (None, None))
            if words is None:
                raise LookupError(pattern, [words for words, _ in following])
            told.append(words)
            try:
                judge(world, then, bounds)
            except Wrong as wrong:
                raise Wrong(str(wrong), *told) from None
            world = then
            if is_there:
                break


# Wrong variants of the client's code, each with bounds within which the search refuses it.

LOOKED, HAS_COME, KEEPS, COPIED, AT_END = ways.looked, ways.has_come, ways.keeps, ways.copied, ways.at_end


def stays(walk, client):
    """Gets end at the old grid."""
    return LOOKED(walk, client) if walk.is_change else ways.at_end(walk)


def goes_on(walk, client):
    found = ways.signpost_of([known.page for known in client.seen], walk)
    return ways.onward(walk, Stop(found.grid, found.move)) if found else ways.at_end(walk)


def new_alone(walk):
    return 1 + max(page.number for page in core.for_change(walk.client(walk.last.grid)).values())


def from_page(client, signpost, keeps):
    page = client.seen[client.session - 1].page
    return None if signpost in page.signposts else replace(page, number=core.new_version(client).number, signposts=(signpost,))


def come_by(is_any=False, line=True, number=True):
    def come(walk):
        if len(walk.stops) < 2:
            return False
        old, new, found = walk.stops[-2].grid, walk.last, ways.greatest(walk)
        signed = [SIGNPOST in known.page.signposts for known in walk.client(old).seen]
        return (
            (any if is_any else all)(signed)
            and (not line or found is None or found.grid == new.grid)
            and (not number or ways.highest(walk, new.grid) >= ways.highest(walk, old))
        )

    return come


def anew(walk, content, keeps):
    found = COPIED(walk, content, keeps)
    if found is None:
        return None
    *rest, line = found.lines
    return replace(found, lines=(*rest, replace(line, version=found.number, copied=None, words="")))


def as_known(walk, content, keeps):
    """A copy is forgotten as if it had come with the number of its version."""
    found = COPIED(walk, content, keeps)
    if found is None:
        return None
    *rest, line = found.lines
    return replace(found, lines=(*rest, replace(line, copied=replace(line.copied, since=line.version))))


def unconfirmed(walk):
    return replace(walk, state=None, has_ended=True)


CHANGE = ("chooses", "announces", "carries")
LATE_READER = ["reader 1:begins to get by map 0", "reader 1:looks at page a1"]
THERE = ["reader 0:begins to look", "reader 0:changes the map"]
CLEAR = ["session a1:begins to clear", *(f"session a1:{word}" for word in CHANGE)]
IS_CLEAR = ["reader 0:begins to look", "reader 0:says that the old grid is clear"]
REMOVED = ["session b1:begins to remove by map 2", *(f"session b1:{word}" for word in CHANGE)]
TAKEN_AWAY = ["session b1:begins to remove by map 0", *(f"session b1:{word}" for word in CHANGE)]
FORGOTTEN = ["session b1:begins to change no name by map 2", *(f"session b1:{word}" for word in CHANGE)]
PUT = ["session a1:begins to put by map 0", *(f"session a1:{word}" for word in CHANGE)]
SIGNS = ["session a1:begins to sign", *(f"session a1:{word}" for word in CHANGE)]
COPIES = ["session b1:begins to copy", *(f"session b1:{word}" for word in CHANGE)]
ENOUGH = Bounds(begun=3, changes=1, removals=1, anew=1)
VARIANTS = {
    "stays": ("looked", stays, Bounds(begun=1)),
    "goes-on": ("looked", goes_on, (Bounds(begun=1, clients=1), [
        "session a1:has a new client", *COPIES, *THERE, *PUT, "reader 1:begins to get by map 1", "reader 1:tells"])),
    "new-alone": ("number_above", new_alone, Bounds(begun=1)),
    "from-page": ("signed", from_page, (Bounds(clients=1, pending=1, gets=2), [
        *PUT[:-1], "session a1:gets no answer for its page", "session a1:has a new client", *SIGNS[:2], "session a1:page takes effect late",
        "reader 1:begins to get", "reader 1:tells", *SIGNS[2:], "reader 1:begins to get", "reader 1:tells"])),
    "one-signpost": ("has_come", come_by(is_any=True), (Bounds(old=2, changes=2), [
        *PUT, "session a2:begins to put by map 0", "session a2:chooses", *SIGNS, *COPIES, *THERE, "session a2:announces", "session a2:carries",
        "reader 1:begins to get by map 1", "reader 1:tells"])),
    "uncarried": ("has_come", come_by(line=False, number=False), Bounds(begun=1)),
    "left-behind": ("has_come", come_by(number=False), Bounds(begun=2)),
    "anew": ("copied", anew, Bounds(begun=1, changes=1)),
    "unconfirmed": ("at_end", unconfirmed, (ENOUGH, [*TAKEN_AWAY, *THERE, *LATE_READER, *CLEAR, *IS_CLEAR, *FORGOTTEN, "reader 1:tells"])),
    "unclear": ("is_clear", lambda walk, grid: True, (ENOUGH, [*THERE, *IS_CLEAR, *REMOVED, *FORGOTTEN, "reader 1:begins to get by map 0", "reader 1:tells"])),
}  # fmt: skip


def refuses(name, most=400_000):
    what, bug, bounds = VARIANTS[name]
    judge_ops.cache_clear()
    with mock.patch.object(ways, what, bug):
        try:
            search(bounds, most) if isinstance(bounds, Bounds) else go(*bounds)
        except Wrong as wrong:
            return wrong
    return None


def main(words):
    parser = argparse.ArgumentParser(description=__doc__, formatter_class=argparse.RawDescriptionHelpFormatter)
    for name, default in Bounds()._asdict().items():
        parser.add_argument(f"--{name}", type=int, default=default, metavar="N")
    parser.add_argument("--most", type=int, default=3_000_000, metavar="N")
    parser.add_argument("--random", type=int, default=0, metavar="N")
    parser.add_argument("--seed", type=int, default=1, metavar="N")
    parser.add_argument("--variant", choices=VARIANTS)
    parser.add_argument("--variants", action="store_true")
    args = vars(parser.parse_args(words))
    if args["variants"]:
        found = {name: refuses(name) for name in VARIANTS}
        print("\n".join(f"{name}: {wrong.args[0] if wrong else 'NOT FOUND'}" for name, wrong in found.items()))
        return 0 if all(found.values()) else 1
    bounds = Bounds(**{name: args[name] for name in Bounds._fields})
    what, bug, _ = VARIANTS.get(args["variant"], (None, None, None))
    with mock.patch.object(ways, what, bug) if what else contextlib.nullcontext():
        try:
            if args["random"]:
                print("{} steps, moves {}: none is wrong".format(*wander(bounds, args["random"], args["seed"])))
                return 0
            count, steps, is_whole = search(bounds, args["most"])
            print(f"{count} worlds, {steps} steps from them{'' if is_whole else ', NOT ALL'}: none is wrong")
            return 0 if is_whole else 2
        except Wrong as wrong:
            print("\n    ".join(wrong.args))
            return 1


if __name__ == "__main__":
    sys.exit(main(sys.argv[1:]))
