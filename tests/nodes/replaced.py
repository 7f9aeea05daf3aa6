"""Grids in a storm whose nodes are lost for good and replaced: journals are removed at any moment, of new nodes too, several at once, also of one
column; a node that was given up may be alive, with its journal and old plan. Nodes start again with any plan that fits, so that old
plans and new ones are together for long. Of each column one node that has all files keeps its journal.

Beside what each storm shows (the history of each file, each number once) it is looked at whether nodes keep to what docs/FORMATS.md says of new
ones, line by line; and, at losses and at the end, whether what was ever told of a file stands in the journals of some whole column.
"""

import collections
import functools
import os
import re

from contents import in_digits
from journals import batches
from large import MARKER as LARGE_MARKER
from large import MOST_BLOCKS, LargeClient, LargeStorm
from plans import nodes_of as nodes_of_text
from processes import Wrong, get, put, words_of
from storm import CALM, LATER, MARKER, NAMES, TURN, Client, Life, Storm, a_plan_behind, shares_of
from gridfs_grid.tenant import PLACES, SESSIONS, Nodes, Session

MOST_LOST = 5  # nodes of one storm
LEAST_BETWEEN, MEAN_BETWEEN = 100, 250  # lines from one loss to the next
OF_A_LOSS = 1_099_511_627_776  # numbers of tags that are left for what is written between two losses
WITH_ITS_JOURNAL = 0.3  # of the nodes that are given up, those that live on
NEWEST = 0.6  # of the starts, those with the newest plan
TURNS_TO_FETCH = 2_000  # in which new nodes get all files once nothing is lost any more
TOLD = re.compile(rb"gridfs: node (\d+)(?:: has all files| of \d by \d: \d+ facts(?:, lacks (\d+) files)?)|gridfs: \S+: cut at byte \d+")


@functools.cache
def nodes_of(plan):
    return nodes_of_text(plan)


def a_plan(draw):
    """A plan of a grid of more than one row."""
    rows, cols = draw.choice([(2, 2), (2, 2), (3, 2), (3, 2), (2, 3), (3, 3), (2, 1), (3, 1)])
    tenants, opened, volumes = "", [], {}
    for name in NAMES[: draw.randint(1, 3)]:
        volumes[name] = [(draw.choice([1, 2, 3, 4]), draw.randint(1, 2)) for _ in range(draw.randint(1, 2))]
        tenants += f"tenant {name} {sum(files * most for files, most in volumes[name])} {draw.randint(2, 8)} 1\n"
        opened += [f"{name} open {files} {most}\n" for files, most in volumes[name]]
    return f"grid {rows} {cols}\nblocks {shares_of(tenants + MARKER)}\n{tenants}{MARKER}go\n{''.join(opened)}", volumes


def cols_of(plan):
    return int(plan.split("\n", 1)[0].split()[2])


def losses_of(plan):
    return plan.count("\nreplace ")


class Journal:
    """What a node's journal has, as docs/FORMATS.md tells it: the files that the node has, and the tags of its copies. A file that it lacks is given
    once, and nothing else is kept of it before; and tags of a file never fall."""

    def __init__(self, number, path):
        self.number, self.had, self.tags = number, set(), {}
        found, _ = batches(get(path)) if os.path.exists(path) else ([], [])
        opened = [line.split(b" ") for line in found[0].split(b"\n")] if found else []
        self.files = [words for words in opened if words[1:2] == [b"open"]]
        self.volumes = collections.Counter(words[0] for words in self.files)
        self.is_there = bool(found)
        for line in b"".join(found).split(b"\n"):
            words = line.split(b" ")
            if words[0] in (b"kept", b"had"):
                self.read(words[0], tuple(words[1:4]), (int(words[4]), int(words[5])))

    def read(self, word, file, tag):
        if self.has(*file) == (word == b"had") or tag < self.tags.get(file, (0, 0)):
            raise Wrong(f"node {self.number} has in its journal {word!r} of {file} with the tag {tag}, behind {self.tags.get(file)}")
        self.tags[file] = tag
        if word == b"had":
            self.had.add(file)

    def has(self, name, volume, file):
        """Whether the node has the file: one of the volumes of its first plan was lost with the node before it."""
        return self.is_there and (self.number < PLACES or int(volume) >= self.volumes[name] or (name, volume, file) in self.had)

    def lane_before(self, name, volume, file):
        """The files of the same lane that a new node is given before this one."""
        blocks = [int(words[3]) for words in self.files if words[0] == name]
        lanes = [at % max(min(1_024 // most, 64), 1) for at, most in enumerate(blocks)]
        counts = [int(words[2]) for words in self.files if words[0] == name]
        its = [(at, place) for at, count in enumerate(counts) if lanes[at] == lanes[int(volume)] for place in range(count)]
        return [(b"%d" % at, b"%d" % place) for at, place in its if (at, place) < (int(volume), int(file))]

    def lacked(self):
        """The files that it lacks."""
        volumes = collections.Counter()
        for name, _, files, _ in self.files:
            volume = b"%d" % volumes[name]
            volumes[name] += 1
            yield from ((name, volume, b"%d" % file) for file in range(int(files)) if not self.has(name, volume, b"%d" % file))


class Watch:
    """What nodes may write where some are new: which plan each has, and whose word that they have joined it was given."""

    def __init__(self, journal):
        self.journal = journal  # where a node has it
        self.plan, self.joined, self.ready, self.read = {}, {}, set(), {}

    def start(self, number, plan):
        self.plan[number], self.joined[number] = plan, set()

    def given(self, number, lines):
        """A node that is new is given lines: it is ready once it heard of all others, in one life, that they have its plan's losses."""
        plan = self.plan[number]
        nodes = nodes_of(plan)
        for line in lines.split(b"\n") if number >= PLACES else []:
            words = line.split(b" ")
            if words[0] == b"%d" % number and words[2:] == [b"joined", b"%d" % losses_of(plan)] and words[1].isdigit() and int(words[1]) in nodes:
                self.joined[number].add(int(words[1]))
        if self.joined[number] >= {node for node in nodes if node != number}:
            self.ready.add(number)

    def has(self, number, name, volume, file):
        """Whether a node has a file. (Journals grow alone.)"""
        if number < PLACES:
            return True
        return self.journal_now(number).has(name, volume, file)

    def journal_now(self, number):
        size = os.path.getsize(self.journal(number))
        if self.read.get(number, (0, None))[0] != size:
            self.read[number] = size, Journal(number, self.journal(number))
        return self.read[number][1]

    def wrote(self, number, line):
        """A whole line that a node wrote."""
        words = line.split(b" ")
        if len(words) < 3 or words[1] != b"%d" % number:
            raise Wrong(f"node {number} writes {line!r}")
        if not words[0].isdigit():
            wrong = self.told_of(number, words)
        elif int(words[0]) not in nodes_of(self.plan[number]):
            wrong = "to a node that its plan does not have"
        elif words[2] == b"joins":
            wrong = None if number >= PLACES and int(words[3]) == losses_of(self.plan[number]) else "and is not new, or has other losses"
        elif words[2] == b"joined":
            wrong = self.joined_of(number, int(words[0]), int(words[3]))
        elif words[2] == b"speaks":
            wrong = None if words[3:] == [b"3"] and int(words[0]) != number else "and tells another form, or itself"
        elif words[3] in (b"fetch", b"fetched"):
            wrong = self.fetch_of(number, int(words[0]), *words[2:6])
        elif words[8] in (b"copy", b"stored", b"tag", b"want"):
            wrong = None if self.has(number, words[2], *words[6:8]) else "of a file that it lacks"
        else:
            wrong = self.session_of(number, words[3])
        if wrong:
            raise Wrong(f"node {number} writes {line!r}, {wrong}; its plan has {nodes_of(self.plan[number])}")

    def told_of(self, number, words):
        at = {b"done": 4, b"gone": 3}.get(words[2])
        return self.session_of(number, words[at]) if at else None

    def session_of(self, number, session):
        """The home of a session has the number that fits it."""
        return None if (int(session) - 1) // SESSIONS == number // PLACES else "of a session that is not its own"

    def joined_of(self, number, to, losses):
        plan = self.plan[number]
        return None if to in nodes_of(plan) and losses <= losses_of(plan) else "which its plan does not say"

    def fetch_of(self, number, to, name, what, volume, file):
        cols = cols_of(self.plan[number])
        if to % PLACES % cols != number % PLACES % cols or to % PLACES == number % PLACES:
            return "which is not of its column"
        if what == b"fetch":
            return self.asked_of(number, name, volume, file)
        return None if self.has(number, name, volume, file) else "which it lacks"

    def asked_of(self, number, name, volume, file):
        if number not in self.ready:
            return "before all others told it that they have joined"
        journal = self.journal_now(number)
        is_next = all(journal.has(name, *one) for one in journal.lane_before(name, volume, file))
        return None if is_next else "before others of its lane"


class Wanderer(Client):
    """A client whose session goes on at another node where its home was lost."""

    def begin_anew(self):
        super().begin_anew()
        home = self.storm.nodes[self.name].standing[self.home % PLACES]
        self.sender = Session(self.name, self.session, home, self.storm.draw)

    def is_asked(self, kind, session, number):
        """Whether this is what the client asks for now, and not what a session that begins anew reads."""
        request = self.sender.going
        is_ours = self.going is not None and request is not None and request.tell is not None
        return is_ours and (request.kind, self.sender.session, request.number) == (kind, session, number)


class Losses(Storm):
    """A storm in which nodes are lost and replaced. `chain` has the plans, each of which goes on from the one before."""

    client, silence = Wanderer, 2_000

    def __init__(self, program, folder, seed, weather, library=None):
        self.nodes = collections.defaultdict(lambda: Nodes(nodes_of(self.plan)))  # as each tenant knows them
        super().__init__(program, folder, seed, weather, library)
        self.lives, self.ways = collections.defaultdict(list), collections.defaultdict(list)
        self.chain, self.version, self.begun = [self.plan], {}, set()
        self.dead, self.given_up = set(), set()  # nodes whose journal is gone; nodes that live on though a plan says that they are replaced
        self.unsaid = []  # places of nodes that are lost, which no plan says yet
        self.next_loss, self.losses, self.files_given = LEAST_BETWEEN, collections.Counter(), 0
        self.watch, self.settled, self.told_at = Watch(self.journal), {}, {}

    def a_plan(self):
        return a_plan(self.draw)

    def a_plan_behind(self):
        return self.behind(self.plan)

    def behind(self, plan):
        return a_plan_behind(self.draw, plan)

    def write_plan(self):
        pass  # (each start writes its own)

    # ---- plans

    def standing(self):
        nodes = [number for number in nodes_of(self.plan) if number not in self.dead]
        return [*nodes, *sorted(self.given_up)]

    def grow(self):
        plan, volumes = self.later
        self.later, self.volumes[LATER] = None, volumes
        self.say(plan)
        self.add_clients()

    def restart_one(self):
        """A node that has an older plan than the newest starts again, maybe with a newer one."""
        older = [number for number in self.standing() if self.alive(number) and self.version[number] < len(self.chain) - 1]
        if older:
            self.kill(self.draw.choice(older))

    def say(self, plan):
        """A plan goes on from the last one."""
        self.chain.append(plan)
        self.plan = plan
        if self.later:
            self.later = self.behind(plan)

    def say_losses(self):
        """From now on there is a plan that says what was lost."""
        if self.unsaid:
            self.say(self.plan + "".join(f"replace {place}\n" for place in self.unsaid))
            self.unsaid = []

    def starts_with(self, number):
        """The place in the chain of a plan with which the node may start: no older one than before, and one that has the node."""
        fit = [at for at, plan in enumerate(self.chain) if at >= self.version.get(number, 0) and number in nodes_of(plan)]
        return fit[-1] if self.draw.random() < NEWEST or self.weather is CALM else self.draw.choice(fit)

    # ---- nodes

    def start(self, number):
        self.numbers.start(number, self.journal(number))
        self.version[number] = self.starts_with(number)
        plan = f"plan{self.version[number]}"
        text = self.chain[self.version[number]]
        if not os.path.exists(os.path.join(self.folder, plan)):  # (another node may be reading it)
            put(os.path.join(self.folder, plan), text.encode())
        if number >= PLACES and number not in self.begun:
            self.numbers.least[number] = losses_of(text) * OF_A_LOSS
        self.begun.add(number)
        journal = self.journal_of(number)
        lacked = len(list(journal.lacked())) if journal.is_there else self.files_of(text) * (number >= PLACES)
        self.told_at[number] = self.size_of_told(number), lacked
        words = words_of(self.program, number, plan, self.journal(number), not os.path.exists(self.journal(number)))
        self.lives[number].append(Life(self.process(words, number, self.folder, self.environment()), text))
        self.watch.start(number, text)

    def journal_of(self, number):
        return Journal(number, self.journal(number))

    def files_of(self, plan):
        return sum(int(files) for files in re.findall(r"(?m)^[a-z]+ open (\d+) \d+$", plan))

    def size_of_told(self, number):
        path = os.path.join(self.folder, f"told{number}")
        return os.path.getsize(path) if os.path.exists(path) else 0

    def kill(self, number):
        super().kill(number)
        self.check_told(number)

    def check_told(self, number):
        """What a node told on standard error in its last life, if it came to that: how many files it lacked, and that it has all."""
        at, lacked = self.told_at[number]
        told = get(os.path.join(self.folder, f"told{number}"))[at:]
        lines = [TOLD.fullmatch(line) for line in told.split(b"\n")[:-1]]
        if not all(lines):
            raise Wrong(f"node {number} says {told!r}")
        ready = [line for line in lines if b" of " in line[0]]
        if ready and int(ready[0][2] or 0) != lacked:
            raise Wrong(f"node {number} lacks {lacked} files by its journal, and says {ready[0][0]!r}")
        whole = [line for line in lines if line[0].endswith(b"has all files")]
        is_right = ready and lacked if whole else self.weather is not CALM or not lacked or not self.has_all(number)
        if not is_right:
            raise Wrong(f"node {number} lacked {lacked} files and says {told!r}")

    def lose_one(self):
        """The disk of a node is lost, or it is given up with its journal. Of its column another one has all files."""
        nodes = nodes_of(self.plan)
        whole = {number for number in nodes if number not in self.dead and self.has_all(number)}
        found = [number for number in nodes if number not in self.dead and whole.intersection(self.peers(number))]
        if not found:
            return
        number = self.draw.choice(found)
        self.losses["nodes lost"] += 1
        self.losses["of them new"] += number >= PLACES
        self.losses["that lacked files"] += number not in whole
        self.losses["beside another of the column"] += any(peer not in whole for peer in self.peers(number))
        self.unsaid.append(number % PLACES)
        if number in self.begun and os.path.exists(self.journal(number)) and self.draw.random() < WITH_ITS_JOURNAL:
            self.losses["that live on"] += 1
            self.given_up.add(number)
            self.say_losses()
            return
        self.dead.add(number)
        if self.alive(number):
            self.kill(number)
        for name in os.listdir(self.folder):
            if name.startswith(f"journal{number}.") and not name.endswith(".lock") or name == f"journal{number}":
                os.unlink(os.path.join(self.folder, name))

    def peers(self, number):
        """The other nodes of its column."""
        cols = cols_of(self.plan)
        return [node for node in nodes_of(self.plan) if node % PLACES % cols == number % PLACES % cols and node != number]

    def has_all(self, number):
        journal = self.journal_of(number)
        return journal.is_there and not any(journal.lacked())

    # ---- lines

    def batch(self, number):
        given = super().batch(number)
        self.watch.given(number, given)
        return given

    def take(self, number, wrote, lives):
        for line in wrote.split(b"\n")[:-1]:
            if line != b" ?" and not line.startswith(b"mark "):
                self.watch.wrote(number, line)
                self.note(line.split(b" "))
        super().take(number, wrote, lives)

    def note(self, words):
        """Keeps the greatest tag that was told of a file, and sees that a tag that is brought has one content."""
        if words[2] == b"done" and words[3] in (b"read", b"write"):
            client = self.clients.get((words[0].decode(), (int(words[4]) - 1) % SESSIONS + 1))
            if client and client.is_asked(words[3], words[4], int(words[5])):
                volume, files = client.going[1:3]
                place = words[0], b"%d" % volume, b"%d" % files[0]
                self.settled[place] = max(self.settled.get(place, (0, 0)), (int(words[7]), int(words[8])))
        elif words[3:4] == [b"fetched"]:
            self.files_given += 1
            self.see_tag(words[2], *words[4:8], in_digits(words[8]))

    def hear(self, line):
        self.nodes[line.split(b" ", 1)[0].decode()].hear(line.split(b" ", 2)[2])
        super().hear(line)

    def due(self, client):
        return self.nodes[client.name].due(client.sender, self.turn * TURN)

    def deliver(self):
        """At some moment a node is lost; and at another there is a plan that says so."""
        if self.given > self.next_loss and self.losses["nodes lost"] < MOST_LOST and self.weather is not CALM:
            self.next_loss = self.given + (0 if self.draw.random() < 0.2 else LEAST_BETWEEN + int(self.draw.expovariate(1 / MEAN_BETWEEN)))
            self.check_column()
            self.lose_one()
        if self.draw.random() < 0.05:
            self.say_losses()
        super().deliver()

    def nonsense(self):
        draw = self.draw
        if draw.random() < 0.7:
            return super().nonsense()
        to, name = draw.choice(nodes_of(self.plan)), draw.choice(list(self.by_name))
        body = draw.choice([b"joins 1", b"joined 1", b"%s fetch 0 0" % name, b"%s fetched 0 0 9 1 aa" % name, b"joins", b"joined x", b"joins 999", b"speaks 0"])
        return b"%d %s %s" % (to, draw.choice([name, b"999", b"zed", b"%d" % (to + PLACES)]), body)

    # ---- the end

    def check_column(self):
        """What was told of a file is held by some column: one node of it has the file, and all that have it have a copy no older."""
        cols = cols_of(self.plan)
        journals = [self.journal_of(number) if number not in self.dead else None for number in nodes_of(self.plan)]
        for place, tag in self.settled.items():
            columns = [[it for it in journals[col::cols] if it and it.has(*place)] for col in range(cols)]
            if not any(column and all(it.tags.get(place, (0, 0)) >= tag for it in column) for column in columns):
                held = [(it.number, it.tags.get(place)) for column in columns for it in column]
                raise Wrong(f"of {place} the tag {tag} was told, and no column holds it: {held}")

    def settle(self):
        self.say_losses()
        for number in self.standing():
            if self.alive(number):
                self.kill(number)
        self.given_up = set()
        super().settle()
        until = self.turn + TURNS_TO_FETCH
        while lacking := [number for number in self.standing() if not self.has_all(number)]:
            self.turn += 20
            for _ in range(20):
                self.step(self.standing())
            if self.turn > until:
                raise Wrong(f"nodes {lacking} lack files, {TURNS_TO_FETCH} turns behind the last loss")
        self.check_column()
        self.read_all()
        for number in self.standing():
            self.kill(number)


class LargeWanderer(Wanderer, LargeClient):
    """The same of a storm of large contents."""


class LargeLosses(Losses, LargeStorm):
    """Losses in a storm of large contents: a node may be killed when it was given a part of a file alone, or while it writes one to its journal."""

    client = LargeWanderer

    def a_plan(self):
        rows, cols = self.draw.choice([(2, 1), (2, 2), (2, 2), (3, 1)])
        tenants = f"tenant ann {2 * MOST_BLOCKS} {self.draw.randint(2, 4)} 1 {MOST_BLOCKS}\ntenant bob 6144 2 1 4096\n"
        opened = f"ann open 1 {MOST_BLOCKS}\nbob open 1 4096\nann open 2 1024\n"
        return f"grid {rows} {cols}\nroom 50000\n{tenants}{LARGE_MARKER}go\n{opened}", {"ann": [(1, MOST_BLOCKS), (2, 1024)], "bob": [(1, 4096)]}

    def behind(self, plan):
        rows, _, opened = plan.partition("go\n")
        return f"{rows}tenant {LATER} 3125 2 1 3125\ngo\n{opened}{LATER} open 1 3125\n", [(1, 3125)]
