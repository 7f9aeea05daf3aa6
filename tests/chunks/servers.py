"""Nodes that keep chunks, as docs/CHUNKS.md says what each answers, in this process; and a carrier to them whose time goes on where nothing comes."""

import heapq
import itertools
import os
import queue
import random
import sys

HERE = os.path.dirname(os.path.abspath(__file__))
sys.path.insert(0, os.path.join(HERE, "..", "..", "clients", "python"))
from gridfs_client import PlanTold
from gridfs_client.carriers import Carrier
from gridfs_client.chunk_lines import CHUNK_CHARGE, content_in, escaped
from gridfs_client.grid import Shape

MOST, MOST_LISTED, PLACES = 1 << 20, 1000, 64
VERBS = {b"keep": "keep", b"get": "get", b"forget": "forget", b"chunks": "listing"}


class Server:
    """A node of a column. It lacks chunks where it stands in the place of one that was lost."""

    def __init__(self, number, allowed, losses=0):
        self.number, self.allowed, self.losses, self.lacks = number, allowed, losses, number >= PLACES
        self.chunks, self.floors, self.damaged, self.is_up, self.knows_chunks, self.has_space = {}, {}, set(), True, True, True
        self.tombs = set()  # what was forgotten while it lacks chunks

    def used(self):
        return sum(len(it) + CHUNK_CHARGE for it in self.chunks.values())

    def take(self, body):
        """The answer to a line, if it is one of chunks."""
        verb, *words = body.split(b" ")
        if body == b"plan":
            return None
        if not self.knows_chunks:
            return b"refused bad"
        if verb == b"room":
            return b"room %d %d %d %d" % (self.used(), self.allowed, self.losses, self.lacks)
        session, number = map(int, words[:2])
        return getattr(self, VERBS[verb])(session, number, words[2:])

    def keep(self, session, number, words):
        key, content = (session, number), content_in(words[0])
        if not 0 < len(content) <= MOST:
            return b"refused toolong %d %d %d" % (*key, len(content))
        if key in self.damaged:
            return b"damaged %d %d" % key
        if key in self.chunks:
            return b"kept %d %d %d" % (*key, self.losses) if self.chunks[key] == content else b"refused differs %d %d" % key
        if number <= self.floors.get(session, 0):
            return b"refused below %d %d %d" % (*key, self.floors[session])
        if self.used() + len(content) + CHUNK_CHARGE > self.allowed:
            return b"refused room %d %d %d" % (*key, max(0, self.allowed - self.used()))
        if not self.has_space:
            return b"refused full %d %d" % key
        self.chunks[key] = content
        return b"kept %d %d %d" % (*key, self.losses)

    def get(self, session, number, words):
        key, (first, length) = (session, number), map(int, words)
        if key in self.damaged:
            return b"damaged %d %d" % key
        if key not in self.chunks or self.lacks:
            return (b"lacks %d %d" if self.lacks else b"none %d %d") % key
        it = self.chunks[key]
        return b"got %d %d %d %d ~%b" % (*key, len(it), first, escaped(it[first : first + length]))

    def forget(self, session, floor, words):
        first, last = map(int, words)
        if last > floor or max(1 << 63, self.floors.get(session, 0)) < floor and not any(key >= (session, floor) for key in self.chunks if key[0] == session):
            return b"refused bad"
        self.floors[session] = max(floor, self.floors.get(session, 0))
        if self.lacks:
            self.tombs |= {(session, each) for each in range(first, last + 1)}
        for key in [key for key in self.chunks if key[0] == session and first <= key[1] <= last]:
            del self.chunks[key]
            self.damaged.discard(key)
        return b"forgot %d %d %d %d" % (session, self.floors[session], first, last)

    def listing(self, session, after, _=None):
        rows = sorted((number, len(it)) for (each, number), it in self.chunks.items() if each == session and number > after)
        words = [f"{number}.{size}" for number, size in rows[:MOST_LISTED]] + ["end"] * (len(rows) <= MOST_LISTED)
        return " ".join(["chunks", str(session), str(after), str(self.floors.get(session, 0)), *words]).encode()


class Servers:
    """All nodes of a grid, which a tenant may use so many bytes of each."""

    def __init__(self, rows=2, columns=2, allowed=64 << 20, sessions=4):
        self.shape, self.allowed, self.tells_plan = Shape(rows, columns), allowed, True
        self.at = {place: Server(place, allowed) for place in range(rows * columns)}
        self.told = PlanTold(rows * columns, 0, sessions, 100, 16, ())

    def take(self, node, body):
        """The answer of a node, None where it says nothing."""
        server = self.at.get(node % PLACES)
        if server is None or server.number != node or not server.is_up:
            return None
        if body == b"plan" and self.tells_plan:
            plan = self.plan()
            return " ".join(["plan", *map(str, (plan.nodes, plan.home, plan.sessions, 100, 16)), *map(str, plan.new_nodes)]).encode()
        return server.take(body)

    def lose(self, place, told=True):
        """The disk of a node is lost, and a new one stands in its place. The nodes of its column are started with the new plan, if it is told."""
        self.at[place] = Server(self.at[place].number + PLACES, self.allowed, self.at[place].losses + 1)
        if told:
            self.tell_losses(place)

    def tell_losses(self, place):
        for each in self.shape.column(place % self.shape.columns):
            self.at[each].losses = max(self.at[other].losses for other in self.shape.column(place % self.shape.columns))

    def plan(self):
        """What nodes tell the tenant now."""
        return PlanTold(**{**self.told.__dict__, "new_nodes": tuple(sorted(each.number for each in self.at.values() if each.number >= PLACES))})

    def have(self, key, place):
        return self.at[place].chunks.get(key)


class Net(Carrier):
    """Lines to servers and back, some of them lost, repeated or late. `at_line` is called before a server takes a line."""

    def __init__(self, servers, seed=0, lost=0.0, repeated=0.0, late=0.0):
        super().__init__()
        self.servers, self.draw, self.clock = servers, random.Random(seed), 0.0
        self.lost, self.repeated, self.late = lost, repeated, late
        self.shape, self.told = servers.shape, servers.told
        self.coming, self.count, self.sent = [], itertools.count(), []
        self.at_line = self.at_answer = lambda node, body: True
        self.rate, self.free = None, {"to": 0.0, "from": 0.0}  # bytes a second each way, where they are few; when the way is free

    def now(self):
        return self.clock

    def send(self, node, body):
        self.sent.append((node, body))
        self.carry(lambda: self.to_node(node, body), "to", len(body))

    def carry(self, work, way, size):
        if self.rate:
            self.free[way] = max(self.clock, self.free[way]) + size / self.rate
            heapq.heappush(self.coming, (self.free[way] + 0.01, next(self.count), work))
            return
        if self.draw.random() < self.lost:
            return
        for _ in range(1 + (self.draw.random() < self.repeated)):
            delay = self.draw.choice((0.3, 1, 5)) if self.draw.random() < self.late else self.draw.uniform(0.001, 0.01)
            heapq.heappush(self.coming, (self.clock + delay, next(self.count), work))

    def to_node(self, node, body):
        if self.at_line(node, body) and (answer := self.servers.take(node, body)) is not None and self.at_answer(node, answer):
            self.carry(lambda: self.deliver_line(str(node), answer), "from", len(answer))

    def receive(self, session, seconds):
        until, box = self.clock + seconds, self.boxes[session]
        while box.empty() and self.coming and self.coming[0][0] <= until:
            moment, _, work = heapq.heappop(self.coming)
            self.clock = max(self.clock, moment)
            work()
        try:
            return box.get_nowait()
        except queue.Empty:
            self.clock = until
            return None

    def close(self):
        pass
