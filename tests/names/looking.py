#!/usr/bin/python3
"""Looks at nodes that are played message by message, beside writes and reads as docs/FORMATS.md has them: each file has to be one register.

    looking.py FIRST COUNT [--shape NAME] [--bug NAME]     so many histories from a seed on

A node has a copy of each file, which outlives its end. Messages come in any order, some twice, some late, some never. Nodes end and start again, so that what their sessions
asked is gone, and letters of it may come later. A node may be lost with its disk: then a new one stands in its place, which lacks all files. The others are started with the plan that has
it, one after another, and once all are it is given each file by a node of its column. The looks are those of the client (gridfs_client/looks.py); what they leave is read by an operation."""

import argparse
import collections
import dataclasses
import queue
import random
import sys
from unittest import mock

sys.dont_write_bytecode = True
from histories import HERE  # (and where the client is found)
from linearizability import Operation, is_linearizable

from gridfs_client import looks
from gridfs_client.answers import PlanTold, Row, Tag
from gridfs_client.carriers import Carrier
from gridfs_client.grid import Shape

assert HERE
PLACES, NOBODY = 64, Tag(0, 0)
STEP = 0.004  # seconds of the carrier's clock
MOST_STEPS = 20_000  # until an operation has ended


class Server:
    """A node. Of a file that it lacks it has None."""

    def __init__(self, number, files, losses, lacks=False):
        self.number, self.losses, self.is_up = number, losses, True
        self.copies = [None if lacks else NOBODY] * files

    def look(self, words):
        number, volume = words
        told = " ".join("-" if tag is None else f"{tag.number}:{tag.number}.{tag.session}" for tag in self.copies)
        return f"looked {number} {volume} {self.losses} {told}" if volume == "0" else f"refused novolume {number} {volume}"


class Op:
    """A write or a read on its way, by a session of the node at a place."""

    def __init__(self, world, home, session, file, value=None):
        self.world, self.home, self.session, self.file, self.value = world, world.at[home], session, file, value
        self.losses, self.begin, self.end, self.tag = self.home.losses, world.moment(), None, None
        self.told, self.stored, self.is_gone = {}, set(), False
        self.nodes = world.nodes_by(self.losses)  # by place

    def send(self, places):
        for place in places:
            self.world.post(self.nodes[place], "store" if self.tag else "ask", self, self.tag)

    def go_on(self):
        """Its letters, at first or once more."""
        shape, draw = self.world.shape, self.world.draw
        every = range(shape.nodes)
        some = shape.column(draw.randrange(shape.columns)) if self.tag else shape.row(draw.randrange(shape.rows))
        self.send(every if draw.random() < 0.2 else some)

    def hear(self, place, tag):
        if self.is_gone or self.end is not None:
            return
        shape = self.world.shape
        if self.tag is None and tag is not None:
            self.told[place] = tag
            if any(all(each in self.told for each in shape.row(number)) for number in range(shape.rows)):
                greatest = max(self.told.values())
                if self.value is not None:
                    numbers = self.world.numbers
                    numbers[self.session] = 1 + max(greatest.number, numbers[self.session])
                    greatest = Tag(numbers[self.session], self.session)
                    self.world.values[self.file, greatest] = self.value
                self.tag = greatest
                self.go_on()
        elif self.tag is not None and tag is None:
            self.stored.add(place)
            if any(all(each in self.stored for each in shape.column(number)) for number in range(shape.columns)):
                self.end = self.world.moment()


@dataclasses.dataclass
class Kind:
    """What the histories of a run are like; each draws one of each."""

    shapes: tuple = (Shape(2, 2), Shape(2, 2), Shape(2, 3), Shape(3, 2), Shape(3, 3), Shape(1, 2), Shape(2, 1))
    files: tuple = (1, 2)
    writers: tuple = (1, 2, 3)
    lost: tuple = (0, 0.02, 0.1)  # of the messages
    twice: tuple = (0, 0.05)
    late: tuple = (0, 0.05, 0.3)  # of the messages are put off
    ends: tuple = (0, 0.002, 0.01)  # steps in which a node ends
    losses: tuple = (0, 0, 0.002, 0.01)  # steps in which one is lost
    whole: float = 0.05  # steps in which something is done for one that was


MIXED = Kind()
LOSING = Kind(shapes=(Shape(2, 2), Shape(3, 2)), late=(0.1, 0.3), ends=(0,), losses=(0.01, 0.02), whole=0.2)


class World(Carrier):
    """The nodes, the messages between them and the client, and the sessions of others. Something happens only while somebody waits."""

    def __init__(self, draw, kind):
        super().__init__()
        self.draw, self.files = draw, draw.choice(kind.files)
        self.shape = draw.choice(kind.shapes)
        self.lost, self.twice, self.late, self.ends, self.may_lose = (draw.choice(getattr(kind, name)) for name in ("lost", "twice", "late", "ends", "losses"))
        self.whole = kind.whole
        self.at = [Server(place, self.files, 0) for place in range(self.shape.nodes)]
        self.plans = [[each.number for each in self.at]]  # by how many were lost
        self.told = self.plan()
        self.forms = {each.number: looks.LOOK_FORM for each in self.at}
        self.clock, self.time, self.steps = 0.0, 0, 0
        self.messages, self.later = [], []
        self.numbers, self.values = collections.Counter(), {}
        self.sessions = {session: None for session in range(1, 1 + draw.choice(kind.writers))}  # what each does
        self.history = [[] for _ in range(self.files)]
        self.pending, self.serial, self.counts = [], 0, collections.Counter()

    # What a carrier does

    def now(self):
        return self.clock

    def send(self, node, body):
        self.counts["lines"] += 1
        self.post(node, "body", body.decode())

    def receive(self, session, seconds):
        until, box = self.clock + seconds, self.boxes[session]
        while box.empty() and self.clock < until:
            self.step()
        try:
            return box.get_nowait()
        except queue.Empty:
            return None

    def close(self):
        pass

    # What happens

    def moment(self):
        self.time += 1
        return self.time

    def plan(self):
        new = tuple(sorted(number for number in self.plans[-1] if number >= PLACES))
        return PlanTold(self.shape.nodes, 0, 4, 9, 9, ((self.files, 1),), new, looks.LOOK_FORM, self.shape.rows, self.shape.columns)

    def nodes_by(self, losses):
        return self.plans[losses]

    def post(self, *message):
        if self.draw.random() >= self.lost:
            (self.later if self.draw.random() < self.late else self.messages).append(message)

    def step(self):
        self.steps += 1
        self.clock += STEP
        draw = self.draw
        if draw.random() < self.ends:
            self.end_of(draw.randrange(self.shape.nodes))
        if draw.random() < self.may_lose and self.is_whole():
            self.lose(draw.randrange(self.shape.nodes))
        if draw.random() < self.whole and not self.is_whole():
            self.make_whole()
        if self.later and draw.random() < 0.02:
            self.messages.append(self.later.pop(draw.randrange(len(self.later))))
        for session, op in list(self.sessions.items()):
            if session and (op is None or op.is_gone or op.end is not None) and draw.random() < 0.02:
                self.begin_write(session)
            elif op and draw.random() < 0.02:
                op.go_on()
        for _ in range(1 + len(self.messages) // 8):
            if self.messages:
                place = draw.randrange(len(self.messages))
                message = self.messages[place] if draw.random() < self.twice else self.messages.pop(place)
                self.bring(*message)

    def bring(self, to, what, *words):
        if what == "answer":
            self.deliver_line(str(to), words[0].encode())
        elif what == "heard":
            words[0].hear(to % PLACES, words[1])
        else:
            server = self.at[to % PLACES]
            if server.number == to and server.is_up:
                self.take(server, what, *words)

    def take(self, server, what, *words):
        if what == "body":
            verb, *rest = words[0].split(" ")
            if verb == "look":
                self.post(server.number, "answer", server.look(rest))
            elif verb == "plan":
                new = "".join(f" {number}" for number in self.plans[server.losses] if number >= PLACES)
                told = f"plan {self.shape.nodes} 0 4 9 9 {self.files}.1{new} lines={looks.LOOK_FORM} rows={self.shape.rows} columns={self.shape.columns}"
                self.post(server.number, "answer", told)
            return
        op, tag = words
        copy = server.copies[op.file]
        if copy is None:
            return
        if what == "store":
            server.copies[op.file] = max(copy, tag)
        self.post(server.number, "heard", op, None if what == "store" else copy)

    def begin_write(self, session):
        file, self.serial = self.draw.randrange(self.files), self.serial + 1
        old = self.sessions[session]
        if old and old.end is not None:
            self.history[old.file].append(Operation(True, old.value, old.begin, old.end))
        elif old:
            self.pending.append(old)
        home = self.home()
        self.sessions[session] = Op(self, home, session, file, self.serial) if home is not None else None
        if home is not None:
            self.sessions[session].go_on()

    def home(self):
        """A place for a session: that of a node that is up and has all files."""
        return self.draw.choice([place for place, server in enumerate(self.at) if server.is_up and None not in server.copies] or [None])

    def end_of(self, place):
        """A node ends, and starts again sooner or later: what its sessions asked is gone."""
        server = self.at[place]
        server.is_up = not server.is_up
        self.forget(server)
        for each in self.at:
            if sum(not each.is_up for each in self.at) > 1:
                each.is_up = True

    def forget(self, server):
        for op in self.sessions.values():
            if op and op.home is server and op.end is None:
                op.is_gone = True

    def is_whole(self):
        return all(server.losses == len(self.plans) - 1 and None not in server.copies for server in self.at)

    def lose(self, place):
        """A node is lost, where another one of its column can give a new one its files."""
        if self.shape.rows == 1 or len(self.plans) > 12:
            return
        self.forget(self.at[place])
        self.counts["lost"] += 1
        new = self.at[place].number + PLACES
        self.plans.append([new if at == place else number for at, number in enumerate(self.plans[-1])])
        self.at[place] = Server(new, self.files, len(self.plans) - 1, lacks=True)

    def make_whole(self):
        """A node is started with the plan that has the new one; or that is given a file, once all are."""
        latest = len(self.plans) - 1
        behind = [server for server in self.at if server.losses < latest]
        if behind:
            server = self.draw.choice(behind)
            server.losses, server.is_up = latest, True
            self.forget(server)
            self.post(server.number, "answer", f"plan {self.shape.nodes} 0 4 9 9 {self.files}.1{''.join(f' {number}' for number in self.plans[-1] if number >= PLACES)} lines={looks.LOOK_FORM} rows={self.shape.rows} columns={self.shape.columns}")
            return
        place = next(place for place, server in enumerate(self.at) if None in server.copies)
        server = self.at[place]
        file = self.draw.choice([file for file, copy in enumerate(server.copies) if copy is None])
        others = [each for each in self.shape.column(place % self.shape.columns) if each != place and self.at[each].is_up]
        if others:
            server.copies[file] = self.at[self.draw.choice(others)].copies[file]

    # What is asked of it

    def look(self):
        """A look, and reads of what it leaves."""
        begin = self.moment()
        look = looks.looked(self, 0, None, 1e6)
        assert look or not self.shape.goes_on(set())
        rows, end = look.rows if look else [None] * self.files, self.moment()
        for file, row in enumerate(rows):
            if isinstance(row, Row):
                self.counts["settled"] += 1
                self.tells(file, row.tag, begin, end)
            else:
                self.read(file)

    def read(self, file):
        self.counts["read"] += 1
        for _ in range(MOST_STEPS):
            home = self.home()
            self.sessions[0] = op = Op(self, home, 0, file) if home is not None else None
            if op:
                op.go_on()
            while op and op.end is None and not op.is_gone and (op.losses == len(self.plans) - 1 or self.draw.random() < 0.9):
                self.step()
            self.sessions.pop(0)
            if op and op.end is not None:
                return self.tells(file, op.tag, op.begin, op.end)
            self.step()
        raise AssertionError("a read does not end")

    def tells(self, file, tag, begin, end):
        value = None if tag == NOBODY else self.values.get((file, tag), ("nobody wrote", tag))
        self.history[file].append(Operation(False, value, begin, end))

    def wrong(self):
        """The files of which the operations have no order."""
        found = []
        for file, done in enumerate(self.history):
            open_ops = [op for op in [*self.pending, *self.sessions.values()] if op and op.file == file and op.tag]
            every = [*done, *(Operation(True, op.value, op.begin, *([op.end] if op.end is not None else [])) for op in open_ops)]
            if is_linearizable(every) is False:
                found.append(file)
        return found


def tried(seed, kind=MIXED, count=25):
    """A world in which it was looked so often, now and then after a while."""
    draw = random.Random(seed)
    world = World(draw, kind)
    with mock.patch.object(looks.secrets, "randbits", draw.getrandbits):
        for _ in range(count):
            for _ in range(draw.choice((0, 0, 10, 60))):
                world.step()
            world.look()
    return world


# Wrong variants, each with a history that shows it.


def row_alone(words, shape):
    rows = {place: looks.row_in(word) for place, word in words.items() if looks.row_in(word)}
    found = [max((rows[place] for place in shape.row(number)), key=lambda row: row.tag) for number in range(shape.rows) if all(place in rows for place in shape.row(number))]
    return max(found, key=lambda row: row.tag) if found else None


def lesser_column(words, shape):
    """A whole column has answered, whatever it told."""
    rows = {place for place, word in words.items() if looks.row_in(word)}
    return row_alone(words, shape) if any(rows >= set(shape.column(number)) for number in range(shape.columns)) else None


def column_alone(words, shape):
    """What a whole column has, whatever a row told."""
    rows = {place: looks.row_in(word) for place, word in words.items() if looks.row_in(word)}
    found = [min((rows[place] for place in shape.column(number)), key=lambda row: row.tag) for number in range(shape.columns) if all(place in rows for place in shape.column(number))]
    return max(found, key=lambda row: row.tag) if found else None


def counts_lacking(word):
    return Row(0, NOBODY) if word == looks.LACKS else ROW_IN(word)


def of_any_node(look, told, begun):
    """A node is taken for the one that stands at its place."""
    TAKE(look, dataclasses.replace(told, losses=0, node=look.nodes()[told.node % PLACES]), begun)


def by_the_first(look):
    """The first node of each column stands for all of them."""
    words = [look.told[min(column & look.told.keys())].words for column in looks.lines_of(look.shape)[0]]
    for file in list(look.left):
        rows = [looks.row_in(each[file]) for each in words]
        if all(rows):
            look.rows[file] = max(rows, key=looks.TAG)
            look.left.discard(file)


ROW_IN, TAKE = looks.row_in, looks.Look.take
BUGS = {
    "a row alone": (looks, "settled", row_alone),
    "a column with lesser tags": (looks, "settled", lesser_column),
    "a column alone": (looks, "settled", column_alone),
    "a node that lacks the file counts": (looks, "row_in", counts_lacking),
    "answers by different plans": (looks.Look, "take", of_any_node),
    "one node for its column": (looks.Look, "settle_alike", by_the_first),
    "answers to an older look": (looks.Look, "draw", staticmethod(lambda: 7)),
}
# Each with the seed of a history that shows it; None where one way does, which is rare.
FOUND = {
    "a row alone": 31,
    "a column with lesser tags": 30,
    "a column alone": 1,
    "a node that lacks the file counts": 23,
    "answers by different plans": None,
    "one node for its column": 6,
    "answers to an older look": 6,
}


class Way(Carrier):
    """Nodes that answer looks with these words, one look after another: of each node its number, how many losses its plan tells, and what it has."""

    def __init__(self, *told):
        super().__init__()
        self.left, self.clock, self.shape = list(told), 0.0, Shape(2, 2)
        self.told = PlanTold(4, 0, 4, 9, 9, ((1, 1),), (), looks.LOOK_FORM, 2, 2)
        self.forms = dict.fromkeys((0, 1, 2, 3, 65), looks.LOOK_FORM)
        self.answers = []

    def now(self):
        return self.clock

    def send(self, node, body):
        if not self.answers:
            self.answers = [(number, f"looked {body.decode().split()[1]} 0 {losses} {word}") for number, losses, word in self.left.pop(0)]

    def receive(self, session, seconds):
        if self.boxes[session].empty() and not self.answers:
            self.clock += seconds
            return None
        if self.boxes[session].empty():
            number, body = self.answers.pop(0)
            self.deliver_line(str(number), body.encode())
        return self.boxes[session].get()

    def close(self):
        pass


def lost_amid():
    """Node 1 has told a write that nobody else has yet. It is lost, and node 65 is given the file by node 3, before the write comes to that. Whether both looks, and the write that
    never ended, have an order."""
    written, told = Tag(7, 1), []
    way = Way([(0, 0, "0:0.0"), (1, 0, "1:7.1"), (3, 1, "1:7.1"), (2, 1, "0:0.0")], [(0, 1, "0:0.0"), (65, 1, "0:0.0"), (2, 1, "0:0.0")])
    for number in range(2):
        row = looks.looked(way, 0, None, 1e6).rows[0]
        told += [Operation(False, "written" if row.tag == written else None, 2 * number + 1, 2 * number + 2)] if row else []
        way.told = dataclasses.replace(way.told, new_nodes=(65,))
        way.answers.clear()
    return is_linearizable([Operation(True, "written", 0), *told])


def is_found(bug, seed, kind=MIXED):
    """Whether a history shows a bug, and none of them is wrong without it."""
    what, name, wrong = BUGS[bug]
    with mock.patch.object(what, name, wrong):
        return not lost_amid() if seed is None else bool(tried(seed, kind).wrong())


def main(first, count, kind, bug):
    total, wrong = collections.Counter(), []
    for seed in range(first, first + count):
        if bug:
            if is_found(bug, seed, kind):
                print(f"{bug}: seed {seed}", flush=True)
                return 0
            continue
        world = tried(seed, kind)
        total.update(world.counts, steps=world.steps, writes=world.serial)
        wrong += [f"seed {seed}: no order of file {file} was found" for file in world.wrong()]
    print("\n".join([*wrong, f"{count} histories, {len(wrong)} wrong: {dict(total)}"]))
    return min(1, len(wrong) + bool(bug))


if __name__ == "__main__":
    parser = argparse.ArgumentParser(description=__doc__, formatter_class=argparse.RawDescriptionHelpFormatter)
    parser.add_argument("first", type=int)
    parser.add_argument("count", type=int)
    parser.add_argument("--shape", default="MIXED")
    parser.add_argument("--bug", choices=BUGS)
    asked = parser.parse_args()
    sys.exit(main(asked.first, asked.count, globals()[asked.shape], asked.bug))
