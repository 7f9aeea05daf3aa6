"""Small worlds of pages that split, searched whole: every step of clients is one of `gridfs_client.core` and `gridfs_client.splits`, the code of the client itself.

    splitting.py [--sessions N] [--readers N] [--changes N] [--removals N] [--others N] [--gets N] [--clients N] [--pending N] [--anew N] [--splits N]
                 [--random N] [--seed N] [--variant NAME]

A session has four files: journal and page of an old bucket, and of a new one that takes its place. What may become of writes, and what is looked for, is as in
worlds.py, of the page that counts: the new one once it was written, else the old one. At most so many times a session begins to split its page; all other changes
of it go to the new bucket once they meet a signpost. A client looks at one file in a step.
"""

import argparse
import contextlib
import functools
import sys
from dataclasses import replace
from typing import NamedTuple
from unittest import mock

sys.dont_write_bytecode = True
import worlds
from searching import Wrong, searched, wandered
from worlds import M, N, Op, at, judge_ops, tag_of, with_tags

from gridfs_client import core, splits
from gridfs_client.core import Carries, Known, Line, ListPages, Page, ReadJournal, ReadPage, WriteJournal, WritePage
from gridfs_client.splits import NEW, OLD

LEVEL = 1


class Bounds(NamedTuple):
    sessions: int = 2
    readers: int = 0
    changes: int = 2
    removals: int = 0
    others: int = 0
    gets: int = 0
    clients: int = 1
    pending: int = 0
    anew: int = 0
    splits: int = 1


class File(NamedTuple):
    page: Page = Page()
    pending: tuple = ()

    def written(self, page):
        return File(page)

    def unanswered(self, page):
        return File(self.page, (*self.pending, page))


class Client(NamedTuple):
    old: core.Knows
    new: core.Knows
    where: str = ""  # the bucket at which something is under way
    state: object = None  # of the core there
    told: tuple = ()  # what was answered of one request of the new bucket
    tags: tuple = None  # of a listing that is under way
    is_fresh: bool = False
    is_new: bool = False  # the own new journal was written
    is_in_place: bool = False  # the own new page was listed as written
    stage: str = ""
    task: tuple = ()


class Session(NamedTuple):
    files: tuple = (File(), File(), File(), File())  # journal and page of the old bucket, and of the new one
    client: Client = None
    clients: int = 0

    def file(self, which, is_page):
        return self.files[2 * (which == NEW) + is_page]

    def with_file(self, which, is_page, file):
        return self._replace(files=at(self.files, 2 * (which == NEW) + is_page, file))


class World(NamedTuple):
    sessions: tuple
    now: int = 0
    ops: tuple = ()
    others: int = 0
    anew: int = 0
    splits: int = 0


def everything(_):
    return True


def counts(session):
    """The page of a session that counts."""
    return counting(session.file(OLD, True).page, session.file(NEW, True).page)


@functools.lru_cache(100_000)
def counting(old, new):
    return new if splits.is_written(new) else replace(old, signposts=())


def has_split(client):
    pages = [known.page for known in client.old.seen] + ([client.old.journal] if client.old.journal else [])
    return any(splits.is_split(page, LEVEL) for page in pages)


def split_of(client):
    return splits.Split(client.old.session, LEVEL, everything, client.old.seen, client.old.journal, client.is_fresh, client.is_new)


def asked(client):
    """At which bucket it asks for what."""
    request = core.request_of(client.state)
    if client.where == OLD:
        return OLD, request
    work = splits.answering(request, split_of(client))
    told = next(work)
    for answer in client.told:
        told = work.send(answer)
    return told


def answered(client, *answers):
    """The client once that was answered; or where nothing has to be asked."""
    if client.where == OLD:
        return client._replace(state=core.told(client.state, *answers)) if answers else client
    work = splits.answering(core.request_of(client.state), split_of(client))
    try:
        next(work)
        for each in (*client.told, *answers):
            work.send(each)
    except StopIteration as end:
        told, split = end.value
        old = replace(client.old, seen=split.old, journal=split.journal)
        if isinstance(told, tuple) and old.session:
            tag = told[old.session - 1]
            client = client._replace(is_in_place=tag is not None and tag.number >= splits.LATER)
        return client._replace(old=old, is_fresh=split.is_fresh, is_new=split.is_new, told=(), state=core.told(client.state, told))
    return client._replace(told=(*client.told, *answers))


def settled(client):
    """The client where what it did at a bucket has ended."""
    if client.state is not None and not isinstance(client.state, core.Knows):
        client = answered(client)
    if client.state is None or not isinstance(client.state, core.Knows):
        return client
    return client._replace(state=None, where="", **{client.where: client.state})


def entering(client, where):
    return client._replace(where=where, state=core.enter(getattr(client, where)))


def looking(client, where, own):
    knows = getattr(client, where)
    is_whole = own or client.task[0] == "get" or knows.journal.number == 0
    return client._replace(where=where, state=core.look(knows) if is_whole else core.look_for_change(knows))


def wants_journal(client):
    """Whether it has to enter at the new bucket."""
    own = client.old.seen[client.old.session - 1].page
    return client.new.journal is None or not client.is_new and not splits.is_split(own, LEVEL)


def onward(client):
    """What it does next for its task: it enters and looks at the old bucket, and where that has split at the new one. `ready` once it has looked."""
    is_get, own = client.task[0] == "get", client.task[0] in ("remove", "split")
    while True:
        match client.stage:
            case "begins" if has_split(client) and client.task[0] != "split":
                client = client._replace(stage="at the new bucket")
            case "begins":
                client = client._replace(stage="has entered")
                if not is_get and client.old.journal is None:
                    return entering(client, OLD)
            case "has entered":
                return looking(client._replace(stage="has looked"), OLD, own)
            case "has looked" if has_split(client) or client.task[0] == "split":
                client = client._replace(stage="at the new bucket", is_fresh=True)
            case "has looked":
                return client._replace(stage="ready")
            case "at the new bucket":
                client = client._replace(stage="has entered the new bucket")
                if not is_get and wants_journal(client):
                    return entering(client, NEW)
            case "has entered the new bucket":
                return looking(client._replace(stage="ready at the new bucket"), NEW, own and client.task[0] != "split")
            case _:
                return client


def going(client):
    """Where it comes to without asking anything."""
    before = None
    while client != before:
        before, client = client, settled(client)
        if client.state is None and client.stage != "changes":
            client = onward(client)
    return client


def announcing(client, where, journal):
    return client._replace(where=where, state=core.announce(getattr(client, where), journal), stage="changes")


def splitting(client):
    """What is left to do for a page to split."""
    own = client.old.seen[client.old.session - 1].page
    if not splits.is_split(own, LEVEL):
        return announcing(client, OLD, splits.signed(client.old.journal, LEVEL))
    if client.old.journal and client.old.journal.lines:
        return announcing(client, OLD, splits.cleared(client.old.journal))
    return None


def going_on(client):
    """A client that has looked, before it puts its own lines into the new page, if they aren't there."""
    if client.old.journal.lines and not client.is_in_place:
        return announcing(client, NEW, core.changed(client.new, None))
    return splitting(client)


class Steps:
    """What may happen next in a world."""

    def __init__(self, world, bounds):
        self.world, self.bounds, self.found = world, bounds, []

    def to(self, words, number, session, **changes):
        sessions = at(self.world.sessions, number - 1, session)
        self.found.append((f"session {number} {words}", self.world._replace(sessions=sessions, **changes)))

    def all(self):
        for number, session in enumerate(self.world.sessions, 1):
            for place, file in enumerate(session.files):
                for index, write in enumerate(file.pending):
                    late = session._replace(files=at(session.files, place, File(write, file.pending[index + 1 :])))
                    self.to(f"file {place} takes effect late", number, late)
            if number <= self.bounds.sessions and session.clients < self.bounds.clients:
                knows = core.new_client(number, self.bounds.sessions)
                self.to("has a new client", number, session._replace(client=Client(knows, knows), clients=session.clients + 1))
            if session.client is not None:
                self.client(number, session, session.client)
        return self.found

    def client(self, number, session, client):
        if client.state is not None:
            self.asks(number, session, client)
        elif not client.task:
            self.begins(number, session, client)
        else:
            self.end_look(number, session, client)

    def asks(self, number, session, client):
        (which, request), world = asked(client), self.world
        match request:
            case ReadJournal():
                page = session.file(which, False).page
                self.told("reads a journal", number, session, client, Known(tag_of(page), page), world.ops)
            case ListPages():
                tags = (*(client.tags or ()), tag_of(world.sessions[len(client.tags or ())].file(which, True).page))
                if len(tags) == self.bounds.sessions:
                    self.told(f"has listed the {which} pages", number, session, client._replace(tags=None), tags, world.ops)
                else:
                    self.to(f"lists {which} page {len(tags)}", number, session._replace(client=client._replace(tags=tags)))
            case ReadPage(other):
                page = world.sessions[other - 1].file(which, True).page
                self.told(f"looks at {which} page {other}", number, session, client, Known(tag_of(page), page), world.ops)
            case WriteJournal(page) | WritePage(page):
                is_page, file = isinstance(request, WritePage), session.file(which, isinstance(request, WritePage))
                done, what = session.with_file(which, is_page, file.written(page)), "carries" if is_page else "announces"
                ops = world.ops if is_page else with_tags(world.ops, number, page)
                self.told(f"{what} {page} at the {which} bucket", number, done, client, tag_of(page), ops)
                if len(file.pending) < self.bounds.pending:
                    self.to(f"gets no answer for {what}", number, session.with_file(which, is_page, file.unanswered(page)))

    def told(self, words, number, session, client, answer, ops):
        """The client was answered: it goes on as far as it has to ask for nothing."""
        was_carried = isinstance(client.state, Carries)
        client, now = settled(answered(client, answer)), self.world.now
        if client.state is None and client.stage == "changes":
            if client.task[0] == "split":
                client = splitting(client) or client._replace(task=(), stage="")
            elif was_carried:
                if client.task[1] is not None:
                    ops, now = at(ops, client.task[1], ops[client.task[1]]._replace(end=now)), now + 1
                client = client._replace(task=(), stage="")
        else:
            client = going(client)
        self.to(words, number, session._replace(client=client), ops=ops, now=now)

    def begins(self, number, session, client):
        world, op, is_reader = self.world, len(self.world.ops), number > self.bounds.sessions
        written = [each for each in world.ops if each.is_change]

        def to(words, task, **changes):
            begun = going(client._replace(task=task, stage="begins", is_fresh=False))
            self.to(words, number, session._replace(client=begun), **changes)

        if len(written) < self.bounds.changes and not is_reader:
            for value in (op + 1, None):
                if value is None and sum(each.value is None for each in written) == self.bounds.removals:
                    continue
                kind = "put" if value else "remove"
                to(f"begins to {kind} {value}", (kind, op, N, value), now=world.now + 1, ops=(*world.ops, Op(True, value, number, world.now)))
        if sum(not each.is_change for each in world.ops) < self.bounds.gets and is_reader == (self.bounds.readers > 0):
            to("begins to get", ("get", op, N, None), now=world.now + 1, ops=(*world.ops, Op(False, None, number, world.now, is_change=False)))
        if world.others < self.bounds.others and not is_reader:
            to("begins to put another name", ("put", None, M, world.others + 1), others=world.others + 1)
        if world.anew < self.bounds.anew and not is_reader:
            to("begins a change of no name", ("change", None, None, None), anew=world.anew + 1)
        if world.splits < self.bounds.splits and not is_reader:
            to("begins to split", ("split", None, None, None), splits=world.splits + 1)

    def end_look(self, number, session, client):
        """The look of an operation has ended: it chooses, or tells."""
        kind, op, name, value = client.task
        where = NEW if client.stage == "ready at the new bucket" else OLD
        knows, world = getattr(client, where), self.world
        if kind == "split":
            following = going_on(client)
            if following is None:
                following = client._replace(task=(), stage="")
            self.to("goes on to split", number, session._replace(client=following))
            return
        found = core.greatest_shown(core.lines_of(core.view(knows, range(1, self.bounds.sessions + 1)), N))
        holds = found[1].content if found else None
        if kind == "get" or kind == "remove" and holds is None:
            version = found[0] if found else None
            ops = at(world.ops, op, world.ops[op]._replace(end=world.now, is_write=False, value=holds, tag=version))
            self.to(f"tells {holds}", number, session._replace(client=client._replace(task=(), stage="")), ops=ops, now=world.now + 1)
            return
        line = Line(name, core.new_version(knows).number, value, "" if op is None else str(op)) if name else None
        journal = core.changed(knows, line)
        self.to(f"chooses {journal} at the {where} bucket", number, session._replace(client=announcing(client, where, journal)))


def judge(before, after):
    for old, new in zip(before.sessions, after.sessions):
        if old.files is new.files:
            continue
        page, following = counts(old), counts(new)
        if page != following and not page.number < following.number:
            raise Wrong("a page goes back")
        for line in page.lines:
            then = following.shown(line.name)
            if then and then != line and not line.version < then.version:
                raise Wrong("a line goes back")
    pages = [counts(session) for session in after.sessions]
    for page in pages:
        if any(pages[each - 1].number < number for each, number in page.asks()):
            raise Wrong("a page asks for what there is not")
    if before.ops != after.ops:
        judge_ops(after.ops)


def first_world(bounds):
    knows = core.new_client(0, bounds.sessions)
    return World((Session(),) * bounds.sessions + (Session(client=Client(knows, knows)),) * bounds.readers)


def search(bounds, most=None):
    """All worlds: how many there are, and how many steps from them. Wrong at the first that is wrong."""
    return searched(first_world(bounds), lambda world: Steps(world, bounds).all(), judge, most)


def wander(bounds, ways, seed=1):
    """Random ways, each until nothing can happen any more."""
    return wandered(first_world(bounds), lambda world: Steps(world, bounds).all(), judge, ways, seed)


# Wrong variants, each with bounds within which the search refuses it, or with so many random ways.


def cleared_first(client):
    """Old lines go before the new page has them."""
    return splitting(client)


def leaving_out(*kinds):
    """A client that enters, and leaves out these writes of its old files."""

    def entering(split, right=splits.reading_journal):
        work = right(split)
        which, asked = next(work)
        while True:
            answer = tag_of(asked.page) if which == OLD and isinstance(asked, kinds) else (yield which, asked)
            try:
                which, asked = work.send(answer)
            except StopIteration as end:
                return end.value

    return entering


unsigned = leaving_out(WriteJournal, WritePage)  # the new page is written though the old one has no signpost
not_carried = leaving_out(WritePage)  # the signpost is announced and not carried
not_announced = leaving_out(WriteJournal)  # the old page gets the signpost without its journal


def read_late(session, split):
    """The old page is read behind the new one."""
    new = yield NEW, ReadPage(session)
    if splits.is_written(new.page):
        return Known(split.later(new.tag), new.page), split
    split = split.saw(session, (yield OLD, ReadPage(session)))
    return split.old_part(session), split


def closed_by_one(split):
    return any(map(split.has_signpost, range(1, len(split.old) + 1)))


def old_counts(session, split):
    """The old page counts as long as it has lines."""
    known = yield OLD, ReadPage(session)
    split = split.saw(session, known)
    if split.has_signpost(session) and not known.page.lines:
        new = yield NEW, ReadPage(session)
        if splits.is_written(new.page):
            return Known(split.later(new.tag), new.page), split
    return split.old_part(session), split


def never_split(client):
    """A signpost in the own journal, or the own page, is passed over: the change goes to the old page."""
    return any(splits.is_split(known.page, LEVEL) for each, known in enumerate(client.old.seen, 1) if each != client.old.session)


def empty(page, is_here):
    return Page(number=page.number, after=page.after)


def numbered_anew(page, is_here):
    return replace(page, number=0, signposts=())


def journal_of_before(split, right=splits.reading_journal):
    """The old journal counts though the new one was written."""
    _, split = yield from right(split)
    return Known(tag_of(split.journal), splits.part_of(split.journal, split.is_here)), split


HERE = sys.modules[__name__]
ONE, AGAIN, BESIDE = Bounds(1, 1, 1, gets=1), Bounds(1, 1, 2, gets=1, clients=2), Bounds(2, 1, 1, gets=2)
VARIANTS = {
    "old lines go before they are in a new page": (HERE, "going_on", cleared_first, ONE),
    "a new page before the signpost": (splits, "reading_journal", unsigned, AGAIN),
    "a signpost that is not carried": (splits, "reading_journal", not_carried, AGAIN),
    "a signpost that is not announced": (splits, "reading_journal", not_announced, AGAIN._replace(splits=2)),
    "an old page is read behind the new one": (splits, "reading", read_late, ONE),
    "closed by one signpost": (splits.Split, "is_closed", closed_by_one, BESIDE),
    "an old page counts as long as it has lines": (splits, "reading", old_counts, AGAIN),
    "a put behind the signpost": (HERE, "has_split", never_split, ONE._replace(changes=2)),
    "a new page begins without the old lines": (splits, "part_of", empty, ONE),
    "numbers begin anew": (splits, "part_of", numbered_anew, ONE._replace(others=1)),
    "a new client goes on from the old journal": (splits, "reading_journal", journal_of_before, AGAIN),
}


def planted(name):
    where, what, bug, _ = VARIANTS[name]
    return mock.patch.object(where, what, bug)


def refuses(name):
    """Whether the search ends in a wrong world with this variant."""
    with planted(name), contextlib.suppress(Wrong):
        judge_ops.cache_clear()
        search(VARIANTS[name][3])
        return False
    return True


def main(words):
    parser = argparse.ArgumentParser(description=__doc__, formatter_class=argparse.RawDescriptionHelpFormatter)
    for name, default in Bounds()._asdict().items():
        parser.add_argument(f"--{name}", type=int, default=default, metavar="N")
    parser.add_argument("--random", type=int, default=0, metavar="N")
    parser.add_argument("--seed", type=int, default=1, metavar="N")
    parser.add_argument("--variant", choices=VARIANTS)
    args = vars(parser.parse_args(words))
    bounds = Bounds(**{name: args[name] for name in Bounds._fields})
    with planted(args["variant"]) if args["variant"] else contextlib.nullcontext():
        try:
            if args["random"]:
                print("{} ways, {} steps: none is wrong".format(*wander(bounds, args["random"], args["seed"])))
            else:
                print("{} worlds, {} steps from them: none is wrong".format(*search(bounds)))
        except Wrong as wrong:
            print("\n    ".join(wrong.args))
            return 1
    return 0


assert worlds
if __name__ == "__main__":
    sys.exit(main(sys.argv[1:]))
