"""Random histories of names in chunks: clients side by side over registers and nodes in memory, which are killed, lost, damaged and filled, while lines come late.

    histories_in_chunks.py FIRST COUNT [--bug NAME]     so many histories from a seed on

Each history has to be that of one register for each name. At the end all is swept: then each node has just what is named, and what was late changes nothing of
that. A client that says that a content is damaged is wrong too."""

import argparse
import collections
import contextlib
import dataclasses
import random
import sys
import time

from memory_with_chunks import SHORT, World
from servers import PLACES, Net, Servers

import registers
from histories import History, Killed
from gridfs_client import ClientError, NamedFiles, Pace, Replaced, SessionTaken, Unanswered, chunks, pieces
from gridfs_client.chunks import Chunks, Keeping, Question
from gridfs_client.in_chunks import ChunkContents
from gridfs_client.pages import text_of
from gridfs_client.renewing import Renewal
from gridfs_client.writers import Writer



PACE = Pace(again=0.5, again_at_most=2, timeout=60)
SIZES = (3, 90, 150, 330)
KILLS, LATE = (0, 0.002, 0.01, 0.02), (0.1, 0.02, 0.005)
LEVELS, SPLITS = ((), (), (2,)), 0.1  # of more pages: into how many parts a page splits; and how often one does


class Contents(History):
    """Contents of which no two have a chunk in common."""

    def content(self, size):
        return (f"{self.serial} ".encode() * size)[:size]


class LateLine:
    """A line of a client that is gone, which comes at some moment or never; among writes that are pending."""

    place, session, serial = None, None, 0

    def __init__(self, node, body):
        self.node, self.body, self.place = node, body, object()


class Lines(Net):
    """The lines of one session. At each others may go on, and the client may be killed."""

    def __init__(self, world, session, seed):
        super().__init__(world.servers, seed, lost=world.lost, repeated=world.repeated, late=0.02)
        self.world, self.session = world, session
        world.carriers.append(self)

    def send(self, node, body):
        self.session.client.step()
        super().send(node, body)

    def receive(self, box, seconds):
        self.session.client.step()
        return super().receive(box, seconds)

    def die(self):
        self.at_line = lambda node, body: self.world.pending.append(LateLine(node, body)) or False
        while self.coming:
            self.coming.pop()[2]()


class Chunked(World):
    """What happens to nodes meanwhile. Of each column one node lacks nothing, and has sound what others have damaged."""

    def __init__(self, draw, sessions, **more):
        super().__init__(sessions, 1, Servers(draw.choice((2, 2, 3)), draw.choice((1, 2)), sessions=sessions), **more)
        self.draw, self.carriers, self.count = draw, [], collections.Counter()
        self.lost, self.repeated = draw.choice((0, 0.05)), draw.choice((0, 0.1))

    def take(self, write):
        if isinstance(write, LateLine):
            self.servers.take(write.node, write.body)
            return None
        return super().take(write)

    def column_of(self, place):
        return [self.servers.at[each] for each in self.servers.shape.column(place % self.servers.shape.columns)]

    def happen(self):
        place = self.draw.choice(list(self.servers.at))
        server, what = self.servers.at[place], self.draw.random()
        others = [each for each in self.column_of(place) if each is not server and not each.lacks and each.is_up]
        if what < 0.35:
            server.is_up = not server.is_up
            self.count["nodes killed"] += not server.is_up
        elif what < 0.45 and others and self.is_sound(server, others):
            self.servers.lose(place, told=False)
            self.count["disks lost"] += 1
        elif what < 0.65:
            self.servers.tell_losses(place)
        elif what < 0.85 and server.lacks and server.is_up:
            self.fill(server, [each for each in others if each.losses >= server.losses])
        elif what < 0.95:
            keys = [key for key in server.chunks if any(key in other.chunks and key not in other.damaged for other in others)]
            if keys:
                server.damaged.add(self.draw.choice(keys))
                self.count["chunks damaged"] += 1
        else:
            server.damaged.clear()

    def is_sound(self, lost, others):
        return all(any(key in each.chunks and key not in each.damaged for each in others) for other in others for key in other.damaged)

    def fill(self, server, others):
        """All that one peer has, which wins over what was kept; but what was forgotten meanwhile. A peer gives nothing that it has damaged: then it goes on later."""
        if not others:
            return
        peer = self.draw.choice(others)
        if peer.damaged & peer.chunks.keys():
            return
        for key, content in peer.chunks.items():
            if key not in server.tombs:
                server.chunks[key] = content
        for session, floor in peer.floors.items():
            server.floors[session] = max(floor, server.floors.get(session, 0))
        server.lacks = False
        self.count["nodes filled"] += 1

    def come_to_rest(self):
        for server in self.servers.at.values():
            server.is_up = True
        for place, server in self.servers.at.items():
            server.damaged.clear()
            self.servers.tell_losses(place)
        for place, server in self.servers.at.items():
            if server.lacks:
                self.fill(server, [each for each in self.column_of(place) if not each.lacks])


def has_carriers(world, kind):
    """Gives the sessions of a client their lines."""

    def new_files(first, layout, helpers, team):
        def given(session):
            if not hasattr(session, "carrier"):
                world.give_carrier(session, Lines)
                session.pace = PACE
            return session

        given(first)
        files = kind(first, layout, helpers=lambda: [given(each) for each in helpers()], team=team)
        files.forget_after = 0
        return files

    return new_files


class Clients(registers.Registers):
    """Registers, and what happens to nodes between the steps of clients."""

    def start(self, free, work):
        self.memory.draw = self.draw
        if self.draw.random() < 0.3:
            self.memory.happen()
        return super().start(free, work)


def try_chunks(seed, kind=NamedFiles, operations=50):
    draw = random.Random(seed)
    sessions = draw.choice((2, 3))
    levels = draw.choice(LEVELS)
    memory = Chunked(draw, sessions, levels=levels)
    world = Clients(draw, memory, has_carriers(memory, kind), draw.choice(KILLS), draw.choice((0, 0, 0.1)), draw.choice(LATE), draw.choice((0, 0.5)))
    history = Contents(["a", "b b"][: draw.choice((1, 2))], SIZES, registers.Stream, (5, 5, 2, 1))
    left, faults = [operations], []

    def work(client, files):
        try:
            while left[0] > 0:
                left[0] -= 1
                if draw.random() < 0.4:
                    memory.happen()
                if levels and draw.random() < SPLITS:
                    registers.split(files, draw, history)
                if len(client.numbers) == sessions and draw.random() < 0.2:
                    files.sweep()
                    history.counts["sweeps"] = history.counts.get("sweeps", 0) + 1
                history.do(client, files, draw)
            if draw.random() < 0.5:
                files.close()
        except Killed:
            for carrier in [each for each in memory.carriers if each.session.client is client]:
                carrier.die()
            raise
        except (Unanswered, Replaced, SessionTaken):
            pass  # (nodes are down, or the name is put all the time)

    with small_clock(memory):
        world.run(work)
        memory.come_to_rest()
        for late in (False, True):
            while late and memory.pending:
                memory.take(memory.pending.pop(draw.randrange(len(memory.pending))))
            files = memory.client(1, others=range(2, sessions + 1))
            files.sweep()
            faults += at_rest(memory, files, history)
    return history, world, memory, faults


def at_rest(memory, files, history):
    """What is wrong once all sessions were swept."""
    named, wrong = memory.named(), []
    for place, server in memory.servers.at.items():
        keys = {(place % memory.servers.shape.columns, *key) for key in server.chunks}
        here = {each for each in named if each[0] == place % memory.servers.shape.columns}
        if not here <= keys:
            wrong.append(f"node {server.number} has not {len(here - keys)} that are named")
        if not keys <= here:
            wrong.append(f"node {server.number} has {len(keys - here)} that nothing names")
    for entry in files.names():
        files.get(entry.name)  # (else it is damaged)
    return wrong


@contextlib.contextmanager
def small_clock(memory):
    """A clock of few moments, which goes back at times."""
    before = Chunks.moment, Chunks.new_draw
    Chunks.new_draw = staticmethod(lambda: random.Random(memory.draw.random()))
    moments = iter(range(1, 1 << 30))
    Chunks.moment = lambda self: max(0, next(moments) - memory.draw.choice((0, 0, 0, 20)))
    in_a_moment, chunks.IN_A_MOMENT = chunks.IN_A_MOMENT, 2  # (so that nothing is drawn)
    try:
        yield
    finally:
        Chunks.moment, Chunks.new_draw = before
        chunks.IN_A_MOMENT = in_a_moment


def is_found(kind, seed):
    try:
        history, _, _, faults = try_chunks(seed, kind)
        return bool(history.wrong()[0] or faults)
    except (ClientError, RuntimeError):
        return True


# Clients with a bug.


class patched:
    """Files of a client in which something is another one, as long as a history goes on."""

    def __init__(self, owner, **members):
        self.owner, self.members = owner, members

    def __call__(self, *words, **more):
        return NamedFiles(*words, **more)

    @contextlib.contextmanager
    def planted(self):
        before = {name: getattr(self.owner, name) for name in self.members}
        for name, member in self.members.items():
            setattr(self.owner, name, member)
        try:
            yield self
        finally:
            for name, member in before.items():
                setattr(self.owner, name, member)


def one_short(self):
    return any(len(places) >= len(self.lines) - 1 for places in self.told.values())


def any_p(self):
    return len(set().union(*self.told.values())) == len(self.lines)


def forgets_all_below(self, runs, seconds, floor=0):
    questions = [
        Question(place, b"forget %d %d 1 %d" % (run.session, max(floor, run.last), max(floor, run.last)), "forgot", (run.session, 1))
        for run in runs
        for place in self.shape.column(run.column)
    ]
    self.ask(questions, seconds)
    return []


def forgets_first(self, bucket, journal, before=Writer.change):
    self.contents.not_needed(bucket.journal.in_chunks() - journal.in_chunks(), ())
    self.contents.forget()
    before(self, bucket, journal)


def sweeps_one(self, place, session, before=Chunks.numbers_at):
    return before(self, place, session) if place < self.shape.columns else iter(())


def sweeps_pages(self):
    """A sweep goes by the pages, as they were seen last, and not by the journals."""
    return [self.bucket(page).client.seen[self.me - 1].page for page in range(self.layout.pages)]


def sweeps_old_pages(self, first=None, is_known=False):
    """A sweep goes by the pages of level 0 alone."""
    return (self.bucket(page) for page in range(self.layout.pages))


def takes_any_number(self, told, before=chunks.Keeper.take):
    """A number that somebody else has is taken for the own."""
    if told.word == "refused differs" and told.key in self.by_key:
        at = self.by_key[told.key]
        told = chunks.ChunkTold(told.node, "kept", told.key, (0,))
        assert at in self.under_way
    before(self, told)


def no_digest(self, cuts):
    for piece in self.chunks.get(wanted for cut in cuts for wanted in self.wanted(cut.part, cut.first, cut.end)):
        yield piece or b""


def any_piece(session, put, place, piece):
    """What a slot holds is taken for the piece, whatever its head says."""
    return piece.partition(b"\n")[2]


def writes_first(self, bucket, name, source, words=None, before=NamedFiles.in_place):
    """Something is written before it is known whether there is room."""
    self.session.write(*self.layout.journal(self.me, bucket.number), text_of(bucket.journal))
    return before(self, bucket, name, source)


def renews_anew(self, bucket, line, before=Renewal.moved):
    """A content that goes to chunks gets a new version."""
    return dataclasses.replace(before(self, bucket, line), version=bucket.new_version().number)


BUGS = {
    "any_piece": patched(pieces, without_head=any_piece),
    "waits_for_forgets": patched(Chunks, begin_to_forget=lambda self: self.forget_unneeded()),
    "writes_first": patched(NamedFiles, in_place=writes_first),
    "renews_anew": patched(Renewal, moved=renews_anew),
    "one_short": patched(Keeping, is_kept=one_short),
    "any_p": patched(Keeping, is_kept=any_p),
    "forgets_all_below": patched(Chunks, forget=forgets_all_below),
    "forgets_first": patched(Writer, change=forgets_first),
    "sweeps_one": patched(Chunks, numbers_at=sweeps_one),
    "sweeps_pages": patched(Writer, journals=sweeps_pages, carry_all=lambda self: None),
    "sweeps_old_pages": patched(Writer, all_buckets=sweeps_old_pages),
    "takes_any_number": patched(chunks.Keeper, take=takes_any_number),
    "no_digest": patched(ChunkContents, read_cuts=no_digest),
}


def finds(bug, seed):
    with BUGS[bug].planted() as kind:
        return is_found(kind, seed)


def main(first, count, bug):
    total, begun = collections.Counter(), time.monotonic()
    for seed in range(first, first + count):
        if bug:
            if finds(bug, seed):
                print(f"{bug}: found in history {seed}", flush=True)
                return
            continue
        try:
            history, world, memory, faults = try_chunks(seed)
        except (ClientError, RuntimeError) as fault:
            print(seed, f"{type(fault).__name__}: {fault}", flush=True)
            total["faults"] += 1
            continue
        total.update(history.counts)
        total.update(memory.count)
        total.update(clients_killed=world.killed, late=len(memory.pending))
        wrong, unknown = history.wrong()
        if wrong or unknown or faults:
            print(seed, wrong, unknown, faults, flush=True)
            total["wrong"] += 1
    print(dict(total), f"{time.monotonic() - begun:.1f} s")


if __name__ == "__main__":
    words = argparse.ArgumentParser(description=__doc__, formatter_class=argparse.RawDescriptionHelpFormatter)
    words.add_argument("first", type=int)
    words.add_argument("count", type=int)
    words.add_argument("--bug", choices=BUGS)
    given = words.parse_args()
    sys.exit(main(given.first, given.count, given.bug))
