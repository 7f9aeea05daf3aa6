"""Small worlds of names, searched whole: every step of clients is one of `gridfs_client.core`, the code of the client itself.

    worlds.py [--sessions N] [--readers N] [--changes N] [--removals N] [--others N] [--gets N] [--clients N] [--pending N] [--anew N] [--behind 1]
              [--random N] [--seed N] [--variant NAME]
    worlds.py --ways

A session has two files, its journal and its page. Each write may be answered, or not: then it is pending, takes effect at any later moment
or never, and not once a later write to the same file has. A client may ask again, so that a write is pending twice, or die. Gets are those of readers,
or where there are none those of the sessions' clients between their changes. In each world that can come about the search looks at what was seen
of one name:

- a page never goes back: it is written over only by one with a greater number, which of no name has a smaller version;
- the pages as they stand ask for no more than there is;
- the operations are *tagged*, as gq_laws has the word: an order by version is then one in which one register gives the same answers. Gets that are shown
  nothing have no version, so besides it is looked whether there is an order of all (linearizability.py).

All worlds with at most so many changes of the name (so many of which may be removals), of another one and of none, gets, clients of a session, and
pending writes of a file are looked at. With --behind 1 they begin where session 1 has put the name and session 2 has taken it away. `now` counts
beginnings and ends alone, since nothing else of it is compared. With --random N it goes N random ways instead, each to its end. With --ways it goes
the ways to wrong worlds that are known for some variants. It ends with status 1 at the first world that is wrong, and writes the steps that led there.
"""

import argparse
import contextlib
import functools
import re
import sys
from dataclasses import replace
from typing import NamedTuple
from unittest import mock

sys.dont_write_bytecode = True
from histories import HERE  # (and where the client is found)
from linearizability import Operation, is_linearizable
from searching import Wrong, searched, wandered

from gridfs_client import Tag, core
from gridfs_client.core import Carries, Known, Line, ListPages, Page, ReadPage, Version, WriteJournal, WritePage

assert HERE
N, M = "n", "m"  # the name that is watched, and another
INFINITE = float("inf")


class Bounds(NamedTuple):
    sessions: int = 1
    readers: int = 0
    changes: int = 3
    removals: int = 0
    others: int = 0
    gets: int = 0
    clients: int = 4
    pending: int = 2
    anew: int = 0
    behind: int = 0


class Session(NamedTuple):
    journal: Page = Page()
    page: Page = Page()
    journal_pending: tuple = ()
    page_pending: tuple = ()
    client: object = None  # a state of the core, or none
    task: tuple = ()  # what it is to do: ("put" or "remove" or "get", the number of the operation or None, the name, the content)
    tags: tuple = None  # of a listing that is under way
    clients: int = 0


class Op(NamedTuple):
    is_write: bool
    value: object
    session: int
    begin: int
    end: object = None
    tag: object = None
    is_change: bool = True  # a removal too of a name that holds nothing, which then is a get


class World(NamedTuple):
    sessions: tuple
    now: int = 0
    ops: tuple = ()
    others: int = 0
    anew: int = 0


def at(items, place, item):
    return items[:place] + (item,) + items[place + 1 :]


def tag_of(page):
    """Pages that differ have different tags; a file that was never written has none."""
    return Tag(0, 0) if page == Page() else Tag(page.number, page)


def with_tags(ops, session, journal):
    """A journal was written and answered: the operation whose line of the watched name it has has its version from then on."""
    line = journal.shown(N)
    if line is None or not line.words:
        return ops
    op = int(line.words)
    return at(ops, op, ops[op]._replace(tag=Version(line.version, session)))


class Steps:
    """What may happen next in a world."""

    def __init__(self, world, bounds):
        self.world, self.bounds, self.found = world, bounds, []

    def to(self, words, number, session, **changes):
        sessions = at(self.world.sessions, number - 1, session)
        self.found.append((f"session {number} {words}", self.world._replace(sessions=sessions, **changes)))

    def all(self):
        for number, session in enumerate(self.world.sessions, 1):
            self.late(number, session)
            if number <= self.bounds.sessions:
                self.enters(number, session)
            self.client(number, session)
        return self.found

    def late(self, number, session):
        for place, write in enumerate(session.journal_pending):
            self.to("journal takes effect late", number, session._replace(journal=write, journal_pending=session.journal_pending[place + 1 :]))
        for place, write in enumerate(session.page_pending):
            self.to("page takes effect late", number, session._replace(page=write, page_pending=session.page_pending[place + 1 :]))

    def entered(self, number, session):
        client = core.told(core.enter(core.new_client(number, self.bounds.sessions)), Known(tag_of(session.journal), session.journal))
        return session._replace(client=client, task=(), tags=None)

    def enters(self, number, session):
        if session.clients < self.bounds.clients:
            new = self.entered(number, session)._replace(clients=session.clients + 1)
            ops = self.world.ops
            if isinstance(new.client, Carries):  # (of a variant)
                ops = with_tags(ops, number, session.journal)
            self.to("has a new client, which reads the journal", number, new, ops=ops)

    def client(self, number, session):
        state, world = session.client, self.world
        if state is None:
            return
        match core.request_of(state):
            case None:
                if session.task:
                    self.end_look(number, session)
                else:
                    self.begins(number, session)
            case ListPages():
                # One tag after another; those that the client doesn't look at are no matter.
                whose, tags = sorted(state.whose), session.tags or ()
                if len(tags) < len(whose):
                    tags = (*tags, tag_of(world.sessions[whose[len(tags)] - 1].page))
                if len(tags) == len(whose):
                    every = [known.tag for known in state.client.seen]
                    for each, tag in zip(whose, tags):
                        every[each - 1] = tag
                    self.to("lists a page, the last one", number, session._replace(client=core.told(state, tuple(every)), tags=None))
                else:
                    self.to("lists a page", number, session._replace(tags=tags))
            case ReadPage(other):
                page = world.sessions[other - 1].page
                self.to(f"looks at page {other}", number, session._replace(client=core.told(state, Known(tag_of(page), page))))
            case WriteJournal(journal):
                done = session._replace(client=core.told(state, tag_of(journal)), journal=journal, journal_pending=())
                self.to(f"announces {journal}", number, done, ops=with_tags(world.ops, number, journal))
                if len(session.journal_pending) < self.bounds.pending:
                    self.to("gets no answer for its journal", number, session._replace(journal_pending=(*session.journal_pending, journal)))
            case WritePage(page):
                done = session._replace(client=core.told(state, tag_of(page)), page=page, page_pending=(), task=())
                ops, now = self.ended(session.task)
                self.to(f"carries {page}", number, done, ops=ops, now=now)
                if len(session.page_pending) < self.bounds.pending:
                    self.to("gets no answer for its page", number, session._replace(page_pending=(*session.page_pending, page)))

    def ended(self, task, **changes):
        op = task[1] if task else None
        if op is None:
            return self.world.ops, self.world.now
        return at(self.world.ops, op, self.world.ops[op]._replace(end=self.world.now, **changes)), self.world.now + 1

    def begins(self, number, session):
        """A client that has nothing to do begins something."""
        world, op = self.world, len(self.world.ops)
        written, is_reader = [each for each in world.ops if each.is_change], number > self.bounds.sessions
        if len(written) < self.bounds.changes and not is_reader:
            for value in (op + 1, None):
                if value is None and sum(each.value is None for each in written) == self.bounds.removals:
                    continue
                kind = "put" if value else "remove"
                client = core.look_for_change(session.client) if value else core.look(session.client)
                new = session._replace(client=client, task=(kind, op, N, value))
                self.to(f"begins to {kind} {value}", number, new, now=world.now + 1, ops=(*world.ops, Op(True, value, number, world.now)))
        if sum(not each.is_change for each in world.ops) < self.bounds.gets and is_reader == (self.bounds.readers > 0):
            new = session._replace(client=core.look(session.client), task=("get", op, N, None))
            self.to("begins to get", number, new, now=world.now + 1, ops=(*world.ops, Op(False, None, number, world.now, is_change=False)))
        if world.others < self.bounds.others and not is_reader:
            new = session._replace(client=core.look_for_change(session.client), task=("put", None, M, world.others + 1))
            self.to("begins to put another name", number, new, others=world.others + 1)
        if world.anew < self.bounds.anew and not is_reader:
            new = session._replace(client=core.look_for_change(session.client), task=("change", None, None, None))
            self.to("begins a change of no name", number, new, anew=world.anew + 1)

    def end_look(self, number, session):
        """The look of an operation has ended: it chooses, or tells."""
        kind, op, name, value = session.task
        pages = core.view(session.client, range(1, self.bounds.sessions + 1))
        found = core.greatest_shown(core.lines_of(pages, N))
        holds = found[1].content if found else None
        if kind == "get" or kind == "remove" and holds is None:
            version = found[0] if found else None
            ops, now = self.ended(session.task, is_write=False, value=holds, tag=version)
            self.to(f"tells {holds}", number, session._replace(task=()), ops=ops, now=now)
            return
        line = Line(name, core.new_version(session.client).number, value, "" if op is None else str(op)) if name else None
        journal = core.changed(session.client, line)
        self.to(f"chooses {journal}", number, session._replace(client=core.announce(session.client, journal)))


def judge(before, after):
    for old, new in zip(before.sessions, after.sessions):
        if old.page != new.page and not old.page.number < new.page.number:
            raise Wrong("a page goes back")
        for line in old.page.lines:
            following = new.page.shown(line.name)
            if following and following != line and not line.version < following.version:
                raise Wrong("a line goes back")
    for session in after.sessions:
        if any(after.sessions[each - 1].page.number < number for each, number in session.page.asks()):
            raise Wrong("a page asks for what there is not")
    if before.ops != after.ops:
        judge_ops(after.ops)


@functools.cache
def judge_ops(ops):
    """*Tagged* of gq_laws/specs/Operations, of those that have versions; and whether there is an order of all."""
    writes = [op for op in ops if op.is_write and op.tag]
    if len({op.tag for op in writes}) < len(writes):
        raise Wrong("two puts have the same version")
    for a in ops:
        if a.end is None:
            continue
        if a.tag is None and (a.is_write or a.value is not None):
            raise Wrong("an operation that has ended has no version")
        if not a.is_write and a.tag:
            if a.value not in [op.value for op in writes if op.tag == a.tag and op.begin < a.end]:
                raise Wrong(f"a get tells {a.value}, which nobody put with that version")
        for b in ops if a.tag else ():
            if b.tag and a.end < b.begin and not (a.tag < b.tag or a.tag == b.tag and not b.is_write):
                raise Wrong(f"{a} ended before {b} began")
    every = [Operation(op.is_write, op.value, op.begin, INFINITE if op.end is None else op.end) for op in ops if op.is_write or op.end is not None]
    if not is_linearizable(every):
        raise Wrong(f"no order of {ops}")


def first_world(bounds):
    reader = Session(client=core.new_client(0, bounds.sessions))
    world = World((Session(),) * bounds.sessions + (reader,) * bounds.readers)
    for words in [*client(1), *change(1, "put 1"), *client(2), *change(2, "remove")] if bounds.behind else []:
        _, world = step(world, bounds, words)
    return world


def search(bounds):
    """All worlds: how many there are, and how many steps from them. Wrong at the first that is wrong."""
    return searched(first_world(bounds), lambda world: Steps(world, bounds).all(), judge)[:2]


def wander(bounds, ways, seed=1):
    """Random ways, each until nothing can happen any more."""
    return wandered(first_world(bounds), lambda world: Steps(world, bounds).all(), judge, ways, seed)


# Ways: patterns of steps, one after another. A look goes on to its end.


def client(number):
    return [f"session {number} has a new client"]


def change(number, what, until="carries"):
    """A change of a session up to one of its steps."""
    every = [f"session {number} {words}" for words in (f"begins (to )?{what}", "chooses", "announces", "carries")]
    return every[: next(place for place, words in enumerate(every) if words.endswith(f" {until}")) + 1]


def step(world, bounds, pattern):
    """The first step that has these words, behind as many steps as its session's look takes; LookupError where there is none."""
    look = re.compile(re.match(r"session \d+ ", pattern)[0] + "(lists a page|looks at page)")
    while True:
        following = Steps(world, bounds).all()
        for words, then in following:
            if re.match(pattern, words):
                return words, then
        words, world = next((each for each in following if look.match(each[0])), (None, None))
        if words is None:
            raise LookupError(pattern)


def go(sessions, patterns):
    """Goes a way to its end, if that can be gone; Wrong at the first world that is wrong."""
    bounds = Bounds(sessions, 1, 5, removals=1, others=5, gets=2, clients=3, pending=0)
    world = first_world(bounds)
    for pattern in patterns:
        try:
            _, then = step(world, bounds, pattern)
        except LookupError:
            return False
        judge(world, then)
        world = then
    return True


# Wrong variants of the core, each with bounds within which the search refuses it, or a way to a world in which it is wrong.


def vanishing(client, but=None, _=None):
    own = core.for_change(client)[client.session]
    return core.Going({line.name for line in own.lines} - {but}, set())


def unasked(client, line, *others):
    page = CHANGED(client, line, *others)
    return Page(page.lines, client.journal.after, page.number)


def unminded(client, line, *others):
    """The page that forgets a removal doesn't ask for the others."""
    page, own = CHANGED(client, line, *others), client.journal
    is_forgotten = any(not page.shown(each.name) for each in own.removals())
    return Page(page.lines, own.after, page.number) if is_forgotten else page


def unknowing(line, session, others):
    return True


def half_swept(line, session, others):
    return any(page.after_of(session) >= line.version for page in others.values())


def eager(state, answer):
    found = TOLD(state, answer)
    return Carries(found, found.journal) if isinstance(state, core.Enters) else found


def forgetful(client):
    numbers = [page.number for each, page in core.for_change(client).items() if each != client.session]
    return Version(1 + max(numbers, default=0), client.session)


def restarting(client, line, *others):
    """A version above the lines of the name alone; the page's number is as it was to be."""
    page = CHANGED(client, line, *others)
    if line is None:
        return page
    found = core.greatest_shown(core.lines_of(core.for_change(client), line.name))
    lower = replace(line, version=1 + (found[0].number if found else 0))
    return Page((*page.lines[:-1], lower), page.after, page.number)


def half_seen(client, whose=None):
    return core.Looks(client, frozenset([client.session]))


TOLD, CHANGED = core.told, core.changed
ALONE = Bounds()
TWO = Bounds(2, 0, 2, gets=2, clients=1, pending=1)
BESIDE = Bounds(2, 1, 2, others=1, gets=1, clients=1, pending=0)
TAKEN_AWAY = [*client(1), *change(1, "put 1"), *client(2), *change(2, "remove")]
GOES_BESIDE = (2, [
    *client(2), *change(2, "put 1"), *client(1), "session 3 begins to get", "session 3 lists a page$", *change(1, "put 3"), *change(2, "put another name"),
    "session 3 lists a page, the last one", "session 3 looks at page 2", "session 3 tells"])  # fmt: skip
READS_ONE = [f"session 3 {words}" for words in ("begins to get", "lists a page$", "lists a page, the last one", "looks at page 1")]
VARIANTS = {
    "eager": ("told", eager, ALONE),
    "forgetful": ("new_version", forgetful, ALONE),
    "own-page": ("look_for_change", half_seen, TWO),
    "half-seen": ("look", half_seen, TWO),
    "open": ("asked", lambda client, whose: (), GOES_BESIDE),
    "unasked": ("changed", unasked, GOES_BESIDE),
    "vanishing": ("going", vanishing, BESIDE),
    "unminded": ("changed", unminded, (2, [
        *TAKEN_AWAY, *READS_ONE, *change(1, "put another name"), *change(2, "put another name"), "session 3 tells"])),
    "unknowing": ("is_known_to", unknowing, (2, [
        *client(1), *change(1, "put 1", "chooses"), *client(2), *change(2, "put 2"), *change(2, "remove"), *change(2, "put another name"),
        "session 1 announces", "session 1 carries", "session 3 begins to get", "session 3 tells"])),
    "half-swept": ("is_known_to", half_swept, (3, [
        *client(1), *change(1, "put 1", "chooses"), *client(2), *change(2, "put 2"), *change(2, "remove"), *client(3), *change(3, "put another name"),
        *change(2, "put another name"), "session 1 announces", "session 1 carries", "session 4 begins to get", "session 4 tells"])),
    "restarting": ("changed", restarting, (2, [
        *TAKEN_AWAY, *change(1, "put another name"), *change(2, "put another name"), *change(1, "put 3")])),
}  # fmt: skip


def planted(name):
    what, bug, _ = VARIANTS[name]
    return mock.patch.object(core, what, bug)


def refuses(name):
    """Whether the search, or the way, ends in a wrong world with this variant, and the way without it in none."""
    *_, where = VARIANTS[name]
    with planted(name), contextlib.suppress(Wrong):
        judge_ops.cache_clear()
        search(where) if isinstance(where, Bounds) else go(*where)
        return False
    if not isinstance(where, Bounds):
        go(*where)
    return True


def main(words):
    parser = argparse.ArgumentParser(description=__doc__, formatter_class=argparse.RawDescriptionHelpFormatter)
    for name, default in Bounds()._asdict().items():
        parser.add_argument(f"--{name}", type=int, default=default, metavar="N")
    parser.add_argument("--random", type=int, default=0, metavar="N")
    parser.add_argument("--seed", type=int, default=1, metavar="N")
    parser.add_argument("--variant", choices=VARIANTS)
    parser.add_argument("--ways", action="store_true")
    args = vars(parser.parse_args(words))
    if args["ways"]:
        found = {name: refuses(name) for name, (*_, where) in VARIANTS.items() if not isinstance(where, Bounds)}
        print("\n".join(f"{name}: {'wrong' if is_refused else 'not found'}" for name, is_refused in found.items()))
        return 0 if all(found.values()) else 1
    bounds = Bounds(**{name: args[name] for name in Bounds._fields})
    with planted(args["variant"]) if args["variant"] else contextlib.nullcontext():
        try:
            if args["random"]:
                print("{} ways, {} steps: none is wrong".format(*wander(bounds, args["random"], args["seed"])))
            else:
                print("{} worlds, {} steps from them: none is wrong".format(*search(bounds)))
        except Wrong as wrong:
            print("\n    ".join(wrong.args))
            return 1
    return 0


if __name__ == "__main__":
    sys.exit(main(sys.argv[1:]))
