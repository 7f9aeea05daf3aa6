"""Grids of nodes in a storm: a carrier that loses, repeats, delays and reorders lines, ticks at any time, nodes that die and start again,
clients that begin anew, nonsense, and a plan that gets a tenant more; all drawn from a seed. What each session was told of a
file is kept as a history, and what each node was given and wrote, life by life.

Which numbers nodes use, and which were reserved, is looked at in each line (reserved.Numbers).

Nodes are led step by step (processes.Stepped), one after another, so that a seed makes the same storm again.
"""

import os
import random
import re
import sys

HERE = os.path.dirname(os.path.abspath(__file__))
sys.path.insert(0, os.path.join(HERE, "..", "linearizable"))
sys.path.insert(0, os.path.join(HERE, "..", "..", "clients", "python"))
from checker import is_linearizable
from contents import in_digits
from looks import Looks
from plans import homes
from processes import MARKER, Stepped, Wrong, disk, get, lose_power, put, words_of
from reserved import Numbers
from spoiling import written
from gridfs_grid.tenant import Session

BOUND = 100_000
NAMES, LATER = ["ann", "bob", "cid", "dan"], "eve"
TURN = 0.04  # seconds of the clients' clock
MOST = 400  # lines on their way to a node: what is more is lost
BATCH = 32  # lines of one step, at most
SILENCE = 6_000  # turns in which all has to be answered once nothing is lost any more
LONGEST_BATCH = 60_000
CALLS = 60  # of the disk, behind which a node stops, in the mean
MOST_SECONDS = 0.001  # that a node has for lines amid which it is killed


class Weather:
    """How bad it is: what a node's life ends by, and how often."""

    def __init__(self, kills=0.004, amid=0, stops=False, powers=False, lies=False, lost=0.04, repeated=0.15, nonsense=0.1):
        self.kills, self.amid, self.stops, self.powers, self.lies = kills, amid, stops, powers, lies
        self.lost, self.repeated, self.nonsense = lost, repeated, nonsense


# Nodes are killed when they have done with their lines; in the midst of them, by the clock, which no seed repeats; at a call of the disk, by
# which most power is lost too; and on a disk that does not sync.
KILLS = Weather()
AMID = Weather(amid=0.05)
STOPS = Weather(kills=0.002, stops=True, powers=True)
LIES = Weather(kills=0.002, stops=True, powers=True, lies=True)
CALM = Weather(kills=0, lost=0, repeated=0, nonsense=0)


def shares_of(tenants):
    """The blocks of all shares: servers get as many, so that a tenant more wants larger servers."""
    return sum(map(int, re.findall(r"(?m)^tenant [a-z]+ ([0-9]+) ", tenants)))


def a_plan(draw):
    """A plan of one to nine servers and one to four tenants, with their volumes."""
    rows, cols = draw.choice([(1, 1), (1, 2), (2, 1), (2, 2), (2, 2), (2, 2), (2, 3), (3, 2), (3, 3)])
    tenants, opened, volumes = "", [], {}
    for name in NAMES[: draw.randint(1, len(NAMES))]:
        volumes[name] = [(draw.choice([1, 1, 2, 3]), draw.randint(1, 2)) for _ in range(draw.randint(1, 2))]
        tenants += f"tenant {name} {sum(files * most for files, most in volumes[name])} {draw.randint(1, 5)} 1\n"
        opened += [f"{name} open {files} {most}\n" for files, most in volumes[name]]
    return f"grid {rows} {cols}\nblocks {shares_of(tenants + MARKER)}\n{tenants}{MARKER}go\n{''.join(opened)}", volumes


def a_plan_behind(draw, plan):
    """A plan that goes on from this one: there is a tenant more, and servers have more blocks. Its volumes."""
    rows, _, opened = plan.partition("go\n")
    sessions, files = draw.randint(1, 5), draw.randint(1, 4)
    kind, blocks = re.search(r"(?m)^(blocks|room) ([0-9]+)$", rows).groups()
    grown = rows.replace(f"{kind} {blocks}\n", f"{kind} {int(blocks) + files}\n")
    return f"{grown}tenant {LATER} {files} {sessions} 1\ngo\n{opened}{LATER} open {files} 1\n", [(files, 1)]


class Client:
    """A session's client: one request after another, each drawn, and what was told of them."""

    lengths = [0, 2, 3, 3, 64]  # of contents, in bytes

    def __init__(self, storm, name, session, home):
        self.storm, self.name, self.session, self.home = storm, name, session, home
        self.going, self.is_done = None, False
        self.begin_anew()

    def begin_anew(self):
        """Another client in the place of this one. What it asked for last may still take effect."""
        self.end_history("info")
        self.sender = Session(self.name, self.session, self.home, self.storm.draw)

    def ask(self):
        """Asks for something, if nothing is under way; the beginning is noted on each file that it is of."""
        if self.sender.going or self.sender.waiting or self.is_done:
            return
        draw, volumes = self.storm.draw, self.storm.volumes[self.name]
        volume = draw.randrange(len(volumes))
        file, kind = draw.randrange(volumes[volume][0]), draw.choice(["write", "write", "read", "read", "read", "list"])
        content = b""
        if kind == "write":
            content = draw.randbytes(draw.choice(self.lengths_of(volume))).hex().encode() or b"-"
        self.begin(kind, volume, range(volumes[volume][0]) if kind == "list" else [file], content)

    def begin(self, kind, volume, files, content=b""):
        words = [b"%d" % volume] + [b"%d" % files[0]] * (kind != "list") + [content] * (kind == "write")
        self.storm.processes += 1
        self.going = kind, volume, files, content, self.storm.processes
        self.note("invoke", [content] * len(files) if kind == "write" else None)
        self.sender.ask(kind.encode(), words, self.told)

    def note(self, stage, values):
        kind, volume, files, _, process = self.going
        function = "length" if kind == "list" else kind
        for file, value in zip(files, values or [None] * len(files)):
            shown = value if value is None else self.length(value) if kind == "list" else b'"%s"' % self.content(value.replace(b"-", b""))
            self.storm.events.setdefault((self.name, volume, file), []).append((0, stage, process, function, shown.decode() if shown is not None else "nil"))

    def lengths_of(self, _):
        return self.lengths

    def content(self, content):
        """A content as histories have it."""
        return content

    def length(self, length):
        return length

    def end_history(self, stage, values=None):
        if self.going:
            if stage == "ok":
                self.note(stage, values)
            self.going = None

    def told(self, body):
        words = body.split(b" ")
        kind = self.going[0].encode()
        if words[0] == b"gone":
            self.storm.gone += 1
            return self.end_history("info")
        if words[:2] != [b"done", kind]:
            raise Wrong(f"{self.name} asks for {str(self.going)[:200]} and is told {body[:200]!r}")
        self.storm.done += 1
        if kind == b"list":
            values = [row.partition(b":")[0] for row in words[4:]]
        else:
            content = words[7] if kind == b"read" else self.going[3]
            self.storm.see_tag(self.name.encode(), b"%d" % self.going[1], b"%d" % self.going[2][0], *words[5:7], content)
            values = [content]
        return self.end_history("ok", values)


class Life:
    """One life of a node: its plan, what it was given, and what it wrote."""

    def __init__(self, stepped, plan):
        self.stepped, self.plan, self.given, self.wrote = stepped, plan, [], []


class Storm:
    """A grid in a storm, from its first start on."""

    client, process, most, lines_of_a_step, longest_batch, calls = Client, Stepped, MOST, BATCH, LONGEST_BATCH, CALLS
    silence = SILENCE

    def __init__(self, program, folder, seed, weather, library=None):
        self.program, self.folder, self.weather, self.library = program, folder, weather, library
        self.draw = random.Random(seed)
        self.plan, self.volumes = self.a_plan()
        self.later = self.a_plan_behind()
        self.write_plan()
        self.count, _ = homes(self.plan)
        self.has_one_row = self.plan.startswith("grid 1 ")
        self.turn = self.given = self.done = self.gone = self.deaths = self.processes = self.looked = 0
        self.events, self.tags, self.numbers = {}, {}, Numbers()
        self.lives = [[] for _ in range(self.count)]
        self.ways = [[] for _ in range(self.count)]
        self.stale, self.clients, self.by_name, self.looks = [], {}, {}, {}
        self.add_clients()

    def a_plan(self):
        return a_plan(self.draw)

    def a_plan_behind(self):
        return a_plan_behind(self.draw, self.plan)

    def write_plan(self):
        """Writes the plan to a file of its own: a node that was started may not have read the one before yet."""
        self.plan_file = "plan" if self.later else "plan.later"
        put(os.path.join(self.folder, self.plan_file), self.plan.encode())

    def add_clients(self):
        """Each session of the plan that has no client gets one."""
        for (name, session), home in homes(self.plan)[1].items():
            if name in self.volumes and (name, session) not in self.clients:
                client = self.clients[name, session] = self.client(self, name, session, home)
                self.by_name.setdefault(name.encode(), []).append(client)
                if name not in self.looks:
                    self.looks[name] = Looks(self, name)

    # ---- nodes

    def standing(self):
        """The numbers of the nodes that there are."""
        return range(self.count)

    def grow(self):
        """From now on each node that starts has the later plan."""
        self.plan, volumes = self.later
        self.later = None
        self.write_plan()
        self.volumes[LATER] = volumes

    def restart_one(self):
        """One node that has the earlier plan is killed; when there is none, the new tenant begins."""
        earlier = [number for number in range(self.count) if self.lives[number] and self.lives[number][-1].plan != self.plan]
        for number in earlier[:1]:
            if self.alive(number):
                self.kill(number)
        if not earlier:
            self.add_clients()

    def journal(self, number):
        return os.path.join(self.folder, f"journal{number}")

    def start(self, number):
        """Starts a node."""
        self.numbers.start(number, self.journal(number))
        words = words_of(self.program, number, self.plan_file, self.journal(number), not os.path.exists(self.journal(number)))
        self.lives[number].append(Life(self.process(words, number, self.folder, self.environment()), self.plan))

    def environment(self):
        """That of a node, whose disk may stop at some call."""
        if not self.library:
            return None
        how = {}
        if self.weather.stops and self.draw.random() < 0.7:
            how["STOP"] = f"{1 + int(self.draw.expovariate(1 / self.calls))}{self.draw.choice(['', '/', '+', '+'])}"
        if self.weather.lies:
            how["LIES"] = 1
        return disk(self.library, **how)

    def alive(self, number):
        lives = self.lives[number]
        return lives[-1] if lives and lives[-1].stepped else None

    def kill(self, number):
        """Ends the node, and with some weather its machine."""
        life = self.lives[number][-1]
        status = life.stepped.kill()
        life.stepped = None
        self.deaths += 1
        if status != -9:
            raise Wrong(f"node {number} has ended with status {status}: {get(os.path.join(self.folder, f'told{number}'))[-200:]!r}")
        if self.weather.powers and self.draw.random() < 0.7:
            lose_power(self.journal(number), self.draw)

    # ---- lines

    def send(self, line):
        """Takes a line on its way, if it is not lost."""
        to = line.partition(b" ")[0]
        way = self.ways[int(to)]
        if len(way) < self.most and self.draw.random() >= self.weather.lost:
            way.append(line)

    def nonsense(self):
        """A line of a tenant that is almost a request. It is none of a session that has a client: a session has one."""
        draw = self.draw
        name, to = draw.choice(list(self.by_name)), draw.randrange(self.count)
        numbers = [draw.choice([b"0", b"1", b"2", b"7", b"255", b"4294967295", b"4294967296", b"01", b""]) for _ in range(4)]
        kind = draw.choice([b"write", b"read", b"list", b"abandon", b"plan", b"done", b"%d ask" % to, b"?", name + b" 1 1 1 0 0 ask", name + b" 1 1 1 0 0 ask 1 1"])
        words = [kind, *numbers[: draw.randint(0, 4)]] + [draw.choice([b"aa", b"-", b"a", b"AB", b"aa" * 200])] * draw.randint(0, 1)
        if kind in (b"write", b"read", b"list", b"abandon") and words[1:2] in ([b"1"], [b"2"], [b"7"]):
            words[2:3] = [b"0"]  # (this number is old)
        return b"%d %s %s" % (to, name, b" ".join(words))

    def batch(self, number):
        """The lines of the next step of a node: some of those on their way to it, in some order, some of which may come again; ticks and greetings; nonsense."""
        draw, way, lines = self.draw, self.ways[number], []
        for _ in range(min(len(way), draw.randint(1, self.lines_of_a_step))):
            place = int(draw.random() * min(len(way), 3 * self.lines_of_a_step))
            lines.append(way[place] if draw.random() < self.weather.repeated else way.pop(place))
        chance = draw.random()
        if chance < 0.15:
            lines.append(b"%d %d tick" % (number, number))
        elif chance > 0.97:
            lines.append(b"%d %d greet" % (number, number))
        if draw.random() < self.weather.nonsense:
            lines.append(draw.choice([b"", b"x", b"%d" % number, b"%d 0" % number, b"9 9 tick", b"%d 99 tick" % number, b"\x00\xff"]))
        given = b"\n".join(lines) + b"\n" if lines else b""
        return given if len(given) < self.longest_batch else b""

    def step(self, numbers):
        """A step of each of these nodes, side by side; one that is down starts, now and then."""
        stepped = [number for number in numbers if self.alive(number)]
        for number in numbers:
            if number not in stepped and (self.draw.random() < 0.05 or not self.weather.kills):
                self.start(number)
        amid = {number for number in stepped if self.draw.random() < self.weather.amid}
        for number in stepped:
            life, given = self.alive(number), self.batch(number)
            self.given += given.count(b"\n")
            life.given.append(given)
            self.numbers.given(number, given)
            if number not in amid:
                life.stepped.give(given)
        for number in stepped:
            life = self.alive(number)
            if number in amid:
                self.take(number, self.killed_amid(life.stepped, life.given[-1]), False)
            else:
                self.take(number, *life.stepped.take())

    def killed_amid(self, stepped, lines):
        return stepped.step_and_kill(lines, self.draw.random() * MOST_SECONDS)

    def take(self, number, wrote, lives):
        """Takes on what a node wrote; its machine may fail now."""
        self.alive(number).wrote.append(wrote)
        lines = wrote.split(b"\n")[:-1]  # (the last one is torn, or empty)
        for line in lines:
            self.numbers.see(number, line)
            # (a listing of several files may, where the node is the only server; and a store, where its column has others)
            if self.count > 1 and line.startswith(b"%d %d " % (number, number)) and (self.has_one_row or not (b" store " in line or b" confirm " in line)):
                raise Wrong(f"node {number} writes a line to itself: {line!r}")
            if line[:1].isdigit():
                if b" store " in line or b" copy " in line:
                    words = line.split(b" ")
                    self.see_tag(*words[2:3], *words[6:8], *words[9:11], in_digits(words[11]))
                self.send(line)
            elif line[:1] != b" ":
                self.hear(line)
        if not lives or self.draw.random() < self.weather.kills:
            self.kill(number)

    def hear(self, line):
        """A line to a tenant, which may be lost, or come again later."""
        draw = self.draw.random()
        if draw < self.weather.lost:
            return
        if draw < 2 * self.weather.lost + self.weather.repeated:
            self.stale.append(line)
        self.told(line)

    def told(self, line):
        """A line comes to a tenant: to each of its clients."""
        name, number, body = line.split(b" ", 2)
        if body.startswith(b"looked "):
            return self.looks[name.decode()].hear(int(number), body)
        for client in self.by_name.get(name, []):
            client.sender.hear(body)

    def blow(self, lines):
        """Goes on until the nodes were given so many lines more."""
        until, draw = self.given + lines, self.draw
        while self.given < until:
            self.turn += 1
            if self.later and self.given > until - lines / 2:
                self.grow()
            if not self.later and draw.random() < 0.02:
                self.restart_one()
            if self.turn > 40 * (until + 1000):
                raise Wrong(f"after {self.turn} turns nodes were given {self.given} lines alone")
            for client in self.clients.values():
                client.ask()
                if draw.random() < 0.001 and self.weather.lost:
                    client.begin_anew()
                if draw.random() < 0.006:
                    client.sender.give_up()
            for looks in self.looks.values():
                looks.turn()
            self.deliver()
            if self.weather.nonsense and draw.random() < self.weather.nonsense:
                self.send(self.nonsense())
            self.step([number for number in self.standing() if draw.random() < 0.6])

    def deliver(self):
        """What clients send now, and a line to a tenant that was late."""
        for client in self.clients.values():
            for line in self.due(client):
                self.send(line)
        if self.stale and self.draw.random() < 0.05:
            self.told(self.stale.pop(self.draw.randrange(len(self.stale))))

    def due(self, client):
        return client.sender.due(self.turn * TURN)

    # ---- the end

    def settle(self):
        """Kills all nodes and starts them again; then nothing is lost any more, and each session is answered. Then each file is read."""
        for number in self.standing():
            if self.alive(number):
                self.kill(number)
        self.weather = CALM
        self.add_clients()
        self.answer_all()
        self.read_all()

    def read_all(self):
        for name, volumes in self.volumes.items():
            clients = self.by_name[name.encode()]
            for volume, (files, _) in enumerate(volumes):
                for file in range(files):
                    self.answer_all()
                    self.draw.choice(clients).begin("read", volume, [file])
        self.answer_all()

    def end(self):
        """Kills each node that is still there."""
        for number in self.standing():
            if self.alive(number):
                self.alive(number).stepped.kill()
                self.alive(number).stepped = None

    def answer_all(self):
        until = self.turn + self.silence
        while any(client.sender.going or client.sender.waiting for client in self.clients.values()):
            self.turn += 1
            if self.turn > until:
                raise Wrong(f"not answered in {self.silence} turns: {[key for key, client in self.clients.items() if client.sender.going]}")
            self.deliver()
            self.step(self.standing())

    def see_tag(self, name, volume, file, number, session, content):
        """A tag of a file has one content, whoever tells it: no session uses a number twice."""
        tag = name, volume, file, number, session
        if self.tags.setdefault(tag, b"-" if number == b"0" else content) != content:
            raise Wrong(f"the tag {tag} has two contents: {self.tags[tag]!r} and {content!r}")

    def histories(self):
        """The history of each file, as tests/linearizable judges it."""
        return {place: written(events) for place, events in self.events.items()}

    def judge(self):
        """How many histories were judged, and how many were given up."""
        given_up, histories = 0, self.histories()
        for place, history in histories.items():
            verdict = is_linearizable(history, BOUND)
            given_up += verdict is None
            if verdict is False:
                raise Wrong(f"the history of {place} is not linearizable: {history}")
        return len(histories), given_up


def stormed(program, folder, seed, lines, weather, library=None, kind=Storm):
    """A whole storm, which is judged. What it had."""
    storm = kind(program, folder, seed, weather, library)
    try:
        storm.blow(lines)
        storm.settle()
    finally:
        storm.end()
    return storm
