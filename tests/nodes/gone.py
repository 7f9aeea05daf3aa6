"""A tenant who leaves: four nodes of 2 by 2 get a plan by which one of four tenants is gone, one node after another, under load. The three others
are told what they are told where nobody leaves, byte for byte. Nothing of who left stands in any journal, and who takes the place reads nothing of it.
The start that leaves out is killed at each call of its disk. Plans that take a name back are refused. Nodes are lost before a tenant leaves, and
behind it."""

import os
import random
import shutil
import sys

sys.path.insert(0, os.path.join(os.path.dirname(os.path.abspath(__file__)), "..", "..", "clients", "python"))
from contents import in_bytes
from journals import sealed
from plans import homes, nodes_of
from processes import MARKER, Stepped, Streamed, check, disk, ended, get, lose_power, put, room, words_of
from replaced import Journal
from storm import TURN
from gridfs_grid.tenant import PLACES, Session

STAY, LEAVES, COMES = ["ann", "bob", "cid"], "dan", "eve"
VOLUMES = {"ann": [(3, 2), (1, 4)], "bob": [(2, 2)], "cid": [(4, 1), (1, 2)], "dan": [(2, 3), (3, 1)], "eve": [(4, 2), (1, 1)], "fay": [(2, 3)]}
SESSIONS = {"ann": 5, "bob": 2, "cid": 3, "dan": 4, "eve": 4, "fay": 4}
KIB = 2_048  # of chunks, for each tenant
TURNS_BEFORE, TURNS_DOWN, TURNS_BETWEEN, TURNS_LATE, TURNS_BEHIND = 120, 4, 12, 3, 250
TICKS = 9  # turns from one tick of a node to the next
MOST_TO_FETCH = 400  # turns in which a new node gets all files
TOO_HIGH = 4_000_000_000
LEAST_TOLD = 100  # lines that each tenant is told, so that it is no vain comparison


def plan_of(names, behind="", chunks=False):
    """A plan of these tenants, each with as many sessions and volumes as stand above."""
    blocks = {name: sum(files * most for files, most in volumes) for name, volumes in VOLUMES.items()}
    rows = "".join(f"tenant {name} {blocks[name]} {SESSIONS[name]} 1\n" for name in names)
    opens = "".join(f"{name} open {files} {most}\n" for name in names for files, most in VOLUMES[name])
    rooms = "".join(f"{name} chunks {KIB}\n" for name in names) if chunks else ""
    return f"grid 2 2\nblocks {sum(blocks[name] for name in [*STAY, LEAVES]) + 1}\n{rows}{MARKER}go\n{opens}{rooms}{behind}"


BEFORE = plan_of([*STAY, LEAVES])
BEHIND = plan_of([*STAY, COMES], f"gone {LEAVES}\n")
TWICE = plan_of([*STAY, "fay"], f"gone {LEAVES}\ngone {COMES}\n")  # who came leaves too
LOST, LOST_BEHIND = BEFORE + "replace 3\n", plan_of([*STAY, COMES], f"replace 3\ngone {LEAVES}\n")
# Plans that don't go on from the one behind, and what is told.
NOT_BEHIND = {
    "the name comes back": (BEFORE, f"the line `gone` number 1 was `gone {LEAVES}`"),
    "the line is left out": (BEHIND.replace(f"gone {LEAVES}\n", ""), f"the line `gone` number 1 was `gone {LEAVES}`"),
    "another is gone in its place": (BEHIND.replace(f"gone {LEAVES}", "gone zed"), f"the line `gone` number 1 was `gone {LEAVES}`"),
    "who came has another name": (BEHIND.replace(COMES, "fay"), "line 6: another tenant stood here"),
}
# Those that tell no plan.
FAULTS = {"a tenant is there and gone": (BEFORE + f"gone {LEAVES}\n", BEFORE.count("\n") + 1), "gone twice": (BEHIND + f"gone {LEAVES}\n", BEHIND.count("\n") + 1)}


def names_in(text, name=LEAVES):
    """Whether the text of a journal names the tenant, but by the line of a plan that says who is gone."""
    return name.encode() in text.replace(f"\ngone {name}\n".encode(), b"\n")


class Client:
    """A session's client, one request after another, which draws what it asks for from a seed of its own. Its contents have its name."""

    def __init__(self, name, session, home, seed):
        self.name, self.session, self.draw, self.asked = name, session, random.Random(f"{seed} {name} {session}"), 0
        self.sender = Session(name, session, home, self.draw)
        self.told = []

    def ask(self):
        if self.sender.going or self.sender.waiting:
            return
        self.asked += 1
        volume = self.draw.randrange(len(VOLUMES[self.name]))
        kind, file = self.draw.choice(["write", "write", "read", "list"]), self.draw.randrange(VOLUMES[self.name][volume][0])
        words = [volume] + [file] * (kind != "list") + [f"{self.name}-{self.session}-{self.asked}".encode().hex()] * (kind == "write")
        self.sender.ask(kind.encode(), [str(word).encode() for word in words], self.told.append)


class Grid:
    """Nodes whose lines are brought at once, in order, and of which each takes a step at each turn. So what a tenant is told hangs on nothing but
    its own lines and the nodes' lives."""

    def __init__(self, program, folder, seed):
        self.program, self.folder, self.seed = program, folder, seed
        self.turn = self.restarted = 0  # the turn now, and that in which the last node had started again
        self.nodes, self.ways, self.clients, self.told, self.wrote = {}, {}, [], [], []

    def path(self, number):
        return os.path.join(self.folder, f"journal{number}")

    def start(self, number, plan):
        name = f"plan{number}.{self.turn}"
        put(os.path.join(self.folder, name), plan.encode())
        words = words_of(self.program, number, name, self.path(number), not os.path.exists(self.path(number)))
        self.nodes[number], self.ways[number] = Stepped(words, number, self.folder), [b"%d %d greet" % (number, number)]

    def kill(self, number):
        status = self.nodes.pop(number).kill()
        told = get(os.path.join(self.folder, f"told{number}"))
        check(status == -9, f"node {number} has ended with status {status}: {told[-200:]!r}")
        del self.ways[number]

    def come(self, name, plan):
        """A tenant's clients begin."""
        self.clients += [Client(name, session, home, self.seed) for (whose, session), home in homes(plan)[1].items() if whose == name]

    def go(self, turns):
        for _ in range(turns):
            self.step()

    def step(self):
        self.turn += 1
        for client in self.clients:
            client.ask()
            for line in client.sender.due(self.turn * TURN):
                self.send(line)
        for number, node in self.nodes.items():
            lines, self.ways[number] = self.ways[number], []
            lines += [b"%d %d tick" % (number, number)] * (self.turn % TICKS == number % TICKS)
            node.give(b"".join(line + b"\n" for line in lines))
        for number, node in list(self.nodes.items()):
            wrote, lives = node.take()
            check(lives, f"node {number} has ended: {get(os.path.join(self.folder, f'told{number}'))[-200:]!r}")
            for line in wrote.split(b"\n")[:-1]:
                self.take(number, line)

    def send(self, line):
        """Brings a line to a node; to one that is down it is lost."""
        to = line.partition(b" ")[0]
        if int(to) in self.ways:
            self.ways[int(to)].append(line)

    def take(self, number, line):
        if line[:1] == b" ":
            return
        self.wrote.append((self.turn, number, line))
        if line[:1].isdigit():
            self.send(line)
            return
        name, _, body = line.split(b" ", 2)
        self.told.append((self.turn, number, line))
        for client in self.clients:
            if client.name.encode() == name:
                client.sender.hear(body)

    def told_to(self, name):
        return [it for it in self.told if it[2].startswith(name.encode() + b" ")]

    def restart_all(self, plan):
        """Each node in turn is killed and starts with this plan."""
        for number in nodes_of(BEFORE):
            self.kill(number)
            self.go(TURNS_DOWN)
            self.start(number, plan)
            self.go(TURNS_BETWEEN)

    def end(self):
        for number in list(self.nodes):
            self.nodes.pop(number).kill()


def first_turns(grid, plan=BEFORE):
    """All nodes begin with a plan of four tenants, and go on for some turns."""
    for number in nodes_of(plan):
        grid.start(number, plan)
    for name in [*STAY, LEAVES]:
        grid.come(name, plan)
    grid.go(TURNS_BEFORE)


def under_load(program, folder, seed, later):
    """The grid behind a restart of all its nodes, one after another, with a later plan."""
    grid = Grid(program, folder, seed)
    try:
        first_turns(grid)
        if later is not BEFORE:
            for number in nodes_of(BEFORE):
                check(names_in(get(grid.path(number))), f"journal {number} never had a content of {LEAVES}")
        grid.restart_all(later)
        grid.restarted = grid.turn
        if later is not BEFORE:
            check_left(grid)
            late_lines(grid)
        grid.go(TURNS_LATE)
        if later is not BEFORE:
            grid.come(COMES, later)
        grid.go(TURNS_BEHIND)
        if later is not BEFORE:
            check_left(grid)
        return grid
    finally:
        grid.end()


def check_left(grid):
    """No journal names who left, and no node has written a line of him since it knows."""
    for number in nodes_of(BEFORE):
        text = get(grid.path(number))
        check(not names_in(text), f"journal {number} names {LEAVES}: {[line for line in text.split(bytes([10])) if LEAVES.encode() in line][:3]}")
        check(not os.path.exists(grid.path(number) + ".new"), f"journal {number}.new is left")
    late = [it for it in grid.wrote if it[0] > grid.restarted and LEAVES.encode() in it[2]]
    check(not late, f"lines of {LEAVES} behind the last start: {late[:3]}")


def late_lines(grid):
    """What was under way of who left changes nothing, whoever has the place now: requests, letters, and stores of a great tag."""
    body = in_bytes(b"store 99999 1 " + b"dan late".hex().encode())
    for number in nodes_of(BEFORE):
        for line in b"%s 1 9 1 0 0 ask", b"%s 1 9 2 0 0 " + body, b"%s 1 9 1 0 0 copy 99999 1 -", b"%s 1 9 2 0 0 stored", b"%s fetch 0 0":
            grid.send(b"%d %d " % (number, (number + 1) % 4) + line % LEAVES.encode())
        for line in b"plan", b"write 1 4000 0 0 6c", b"read 1 4000 0 0", b"abandon 1 4000", b"room":
            grid.send(b"%d %s " % (number, LEAVES.encode()) + line)


def check_comes(grid):
    """Who takes the place finds nothing: its sessions have no numbers, each file is empty until he writes it himself, and what he is told is his own."""
    told = [line.split(b" ") for _, _, line in grid.told_to(COMES)]
    firsts = {words[4]: int(words[6]) for words in told if words[2:4] == [b"refused", b"early"]}
    check(len(firsts) == SESSIONS[COMES] and not any(firsts.values()), f"the last numbers of {COMES}'s sessions are {firsts}")
    writes = [int(words[7]) for words in told if words[2:4] == [b"done", b"write"]]
    check(writes and max(writes) <= len(writes) + SESSIONS[COMES], f"{len(writes)} writes of {COMES} have tags up to {max(writes, default=0)}")
    reads = [words[9] for words in told if words[2:4] == [b"done", b"read"]]
    own = [content for content in reads if content != b"-"]
    check(len(own) > 5 and len(own) < len(reads), f"{COMES} read {len(reads)} contents, of which {len(own)} are not empty")
    check(all(bytes.fromhex(content.decode()).startswith(COMES.encode()) for content in own), f"{COMES} reads {own[:3]}")


def load(program, folder, seed):
    """The two runs, of which one has nobody leave; how many lines were compared."""
    os.mkdir(f"{folder}/stays")
    os.mkdir(f"{folder}/leaves")
    stays, leaves = under_load(program, f"{folder}/stays", seed, BEFORE), under_load(program, f"{folder}/leaves", seed, BEHIND)
    check_comes(leaves)
    compared = 0
    for name in STAY:
        one, other = stays.told_to(name), leaves.told_to(name)
        # (who leaves was told something, until then)
        at = next((at for at, pair in enumerate(zip(one, other)) if pair[0] != pair[1]), min(len(one), len(other)))
        check(one == other, f"{name} is told {other[at : at + 1]} where {LEAVES} leaves, and {one[at : at + 1]} where not")
        check(len(one) > LEAST_TOLD, f"{name} was told {len(one)} lines only")
        compared += len(one)
    before = [it for it in leaves.told_to(LEAVES)]
    check(len(before) > LEAST_TOLD / 4 and stays.told_to(LEAVES)[-1][0] > leaves.restarted >= before[-1][0], f"{LEAVES} was told {len(before)} lines, the last at turn {before[-1:]}")
    return compared


# ---- one node's start


class Start:
    """Starts of node 3 from the journal that it has where four tenants wrote, and one of them leaves."""

    def __init__(self, program, folder, journal, library=None):
        self.program, self.folder, self.library = program, folder, library
        self.path = os.path.join(folder, "journal")
        put(self.path, journal)
        put(self.path + ".synced", b"%d" % len(journal))

    def words(self, plan):
        put(os.path.join(self.folder, "plan"), plan.encode())
        return words_of(self.program, 3, "plan", "journal")

    def ends(self, plan, **how):
        """A start with no line behind it."""
        return ended(self.words(plan), cwd=self.folder, env=disk(self.library, **how) if how else None)

    def journal(self):
        return get(self.path)

    def tells(self, plan, names):
        """What it tells, once it has started, of all files of these tenants, and of their sessions whose home it is."""
        all_homes = homes(plan)[1]
        node = Stepped(self.words(plan), 3, self.folder)
        try:
            node.step(b"")
            return {name: node.step(b"".join(self.questions(name, all_homes)))[0] for name in names}
        finally:
            node.kill()

    def questions(self, name, all_homes):
        session, home = next((session, home) for (whose, session), home in all_homes.items() if whose == name and home != 3)
        for volume, (files, _) in enumerate(VOLUMES[name]):
            for file in range(files):
                yield b"3 %d %s %d %d 1 %d %d ask\n" % (home, name.encode(), session, TOO_HIGH, volume, file)
        for (whose, session), home in all_homes.items():
            if whose == name and home == 3:
                yield b"3 %s abandon %d %d\n" % (name.encode(), session, TOO_HIGH)


class Seen:
    """What a start that leaves out is to leave: the journal, and what the node tells."""

    def __init__(self, program, folder, seed):
        grid = Grid(program, folder, seed)
        try:
            first_turns(grid)
        finally:
            grid.end()
        self.before = get(grid.path(3))
        with room() as own:
            stays = Start(program, own, self.before).tells(BEFORE, STAY)
        with room() as own:
            start = Start(program, own, self.before)
            status, told, _ = start.ends(BEHIND)
            check(status == 0, f"a start behind which {LEAVES} is gone: {status}, {told!r}")
            self.behind = start.journal()
            check(names_in(self.before) and not names_in(self.behind), f"the journal behind it: {self.behind!r}")
            self.tells = start.tells(BEHIND, [*STAY, COMES])
        for name in STAY:
            check(stays[name].count(b" copy ") > 1 and b" copy 0 0 -" not in stays[name].replace(b"copy 0 0 -", b"", 1), f"{name} has few contents: {stays[name]!r}")
            check(self.tells[name] == stays[name], f"of {name} the node tells {self.tells[name]!r}, and {stays[name]!r} where nobody leaves")
        copies = [line for line in self.tells[COMES].split(b"\n") if b" copy " in line]
        check(len(copies) == 5 and all(line.endswith(b" copy 0 0 -") for line in copies), f"of {COMES} the node has {copies}")
        check(b" refused early " in self.tells[COMES] and self.tells[COMES].endswith(b" 0\n"), f"of {COMES}'s sessions it tells {self.tells[COMES]!r}")

    def check(self, start, what):
        """The journal is the old one or the new one; and then a start with the plan is as one that was never stopped."""
        text = start.journal()
        check(text in (self.before, self.behind), f"{what}: the journal is neither of the two: {text[:300]!r}")
        tells = start.tells(BEHIND, [*STAY, COMES])
        check(tells == self.tells, f"{what}: the node tells {tells}, not {self.tells}")
        check(start.journal() == self.behind, f"{what}: the journal is {start.journal()!r}")
        return text == self.behind


def stopped(folder, program, library, seen, how, loses, again):
    """A start that is killed at a call of its disk, once more amid the next one, and then goes on. Whether it had left out already."""
    start, what = Start(program, folder, seen.before, library), f"stop {how}, power {'is lost' if loses else 'stays'}, then {again}"
    draw = random.Random(what)
    for stop in [how] + [again] * bool(again):
        status, told, _ = start.ends(BEHIND, STOP=stop)
        check(status == -9 or stop is again and status == 0, f"{what}: status {status}, {told!r}")
        if loses:
            lose_power(start.path, draw)
    return seen.check(start, what)


def failed(folder, program, library, seen, how):
    """A call of the disk fails: the node says so, and the next start goes on."""
    start = Start(program, folder, seen.before, library)
    status, told, _ = start.ends(BEHIND, FAIL=how)
    check(status == 1 and told.endswith(b"gridfs: journal: write fault\n"), f"failure {how}: status {status}, {told!r}")
    return seen.check(start, f"failure {how}")


def calls_of(program, library, seen):
    """The calls of the disk in such a start."""
    with room() as folder:
        start = Start(program, folder, seen.before, library)
        status, told, _ = start.ends(BEHIND, CALLS="calls")
        check(status == 0, f"a start that is counted: {status}, {told!r}")
        return get(os.path.join(folder, "calls")).decode()


def refused(program, folder, seen):
    """Plans by which a name comes back, or that tell none. How many were tried."""
    start = Start(program, folder, seen.behind)
    faults = [(name, plan, f"plan: does not go on from the plan in journal: {told}") for name, (plan, told) in NOT_BEHIND.items()]
    faults += [(name, plan, f"plan: line {line}: gone") for name, (plan, line) in FAULTS.items()]
    for name, plan, told in faults:
        status, said, out = start.ends(plan)
        check((status, said, out) == (1, f"gridfs: {told}\n".encode(), b""), f"{name}: {status}, {said!r}, {out!r}")
        check(start.journal() == seen.behind, f"{name}: the journal has changed")
    return len(faults)


def twice(program, folder, seen):
    """Who came leaves too: by a plan behind, and by one plan for both."""
    one = Start(program, folder, seen.behind)
    node = Stepped(one.words(BEHIND), 3, folder)
    try:
        node.step(in_bytes(b"3 0 eve 3 1 2 0 0 store 7 3 %s\n" % b"eve".hex().encode()))
    finally:
        node.kill()
    check(b"kept eve 0 0 7 3 =eve\n" in one.journal(), "a store of who came is not kept")
    check(one.ends(TWICE)[0] == 0, "the second one can't leave")
    check(not names_in(one.journal()) and not names_in(one.journal(), COMES), f"the journal behind both: {one.journal()!r}")
    with room() as own:
        both = Start(program, own, seen.before)
        check(both.ends(TWICE)[0] == 0 and both.journal() == one.journal(), f"both at once: {both.journal()!r}")
    return 2


def new_ones(program, folder, seen):
    """First starts with a plan that tells who is gone, and starts that have nothing to leave out: the journal stays as it is."""
    put(os.path.join(folder, "plan"), BEHIND.encode())
    status, _, _ = ended(words_of(program, 3, "plan", "first", True), cwd=folder)
    check((status, get(os.path.join(folder, "first"))) == (0, sealed(1, b"node 3 of 2 by 2\n" + BEHIND.encode())), "a first start")
    start = Start(program, folder, seen.behind)
    check(start.ends(BEHIND)[0] == 0 and start.journal() == seen.behind, "the same plan again changes the journal")
    return 2


def with_chunks(program, folder, seen):
    """Chunks of who leaves are in no journal, who takes the place has none, and those of others are as before, short ones and long."""
    before, behind = plan_of([*STAY, LEAVES], chunks=True), plan_of([*STAY, COMES], f"gone {LEAVES}\n", chunks=True)
    text = {(name, number): f"{name} has a chunk. ".encode() * times for name in ("ann", LEAVES) for number, times in ((5, 3), (6, 2_000), (7, 30_000))}
    path = os.path.join(folder, "journal3")
    grid = Grid(program, folder, 0)
    asks = lambda name: b"".join(b"3 %s get 1 %d 0 1048576\n" % (name.encode(), number) for number in (5, 6, 7)) + b"3 %s room\n3 %s chunks 1 0\n" % (name.encode(), name.encode())
    try:
        put(os.path.join(folder, "plan"), before.encode())
        node = Streamed(words_of(program, 3, "plan", "journal3", True), 3, folder)
        grid.nodes[3] = node
        for (name, number), content in text.items():
            wrote, _ = node.step(b"3 %s keep 1 %d =%s\n" % (name.encode(), number, content.replace(b" ", b"\\s")))
            check(b" kept 1 %d 0\n" % number in wrote, f"a chunk of {name}: {wrote!r}")
        told = {name: node.step(asks(name))[0] for name in ("ann", LEAVES)}
        check(told["ann"].count(b"got 1 ") == 3 and names_in(get(path)), f"chunks before: {told['ann'][:200]!r}")
        node.kill()
        put(os.path.join(folder, "plan.behind"), behind.encode())
        node = grid.nodes[3] = Streamed(words_of(program, 3, "plan.behind", "journal3"), 3, folder)
        check(node.step(asks("ann"))[0].endswith(told["ann"]), "the chunks of another have changed")
        wrote = node.step(asks(COMES))[0]
        check(wrote == b"".join(b"eve 3 none 1 %d\n" % number for number in (5, 6, 7)) + b"eve 3 room 0 %d 0 0\neve 3 chunks 1 0 0 end\n" % (KIB << 10), f"who takes the place: {wrote!r}")
        check(not names_in(get(path)), "the journal names who left")
        wrote, _ = node.step(b"3 eve keep 1 5 =eve\n3 eve get 1 5 0 9\n")
        check(b"eve 3 kept 1 5 0\neve 3 got 1 5 3 0 " in wrote, f"who takes the place keeps a chunk: {wrote!r}")
    finally:
        grid.end()
    return 7


def last_with_chunks(program, folder, seen):
    """He alone had room for chunks: the node goes on without, and takes a plan with room again once his folder was removed."""
    path, own = os.path.join(folder, "journal"), BEFORE + f"{LEAVES} chunks {KIB}\n"
    lines = b"".join(b"3 %s keep 1 %d =%s\n" % (LEAVES.encode(), number, b"dan" * times) for number, times in ((5, 1), (6, 20_000)))
    for name, text in ("own", own), ("behind", BEHIND), ("again", BEHIND + f"ann chunks {KIB}\n"):
        put(os.path.join(folder, name), text.encode())
    status, told, out = ended(words_of(program, 3, "own", "journal", True), lines, cwd=folder)
    check(status == 0 and out.count(b" kept 1 ") == 2 and names_in(get(path)), f"chunks of one: {status}, {told!r}, {out!r}")
    status, told, out = ended(words_of(program, 3, "behind", "journal"), b"3 eve room\n3 dan room\n", cwd=folder)
    check(status == 0 and out == b" ?\neve 3 refused bad\n" and not names_in(get(path)), f"no room behind it: {status}, {told!r}, {out!r}")
    status, told, _ = ended(words_of(program, 3, "again", "journal"), cwd=folder)
    check((status, told) == (1, b"gridfs: journal.shelf: a shelf\n"), f"room again beside what is nobody's: {status}, {told!r}")
    shutil.rmtree(path + ".shelf")
    status, told, out = ended(words_of(program, 3, "again", "journal"), b"3 ann room\n", cwd=folder)
    check((status, out) == (0, b" ?\nann 3 room 0 %d 0 0\n" % (KIB << 10)), f"room again: {status}, {told!r}, {out!r}")
    return 4


# ---- nodes that are lost


def lose(grid, number, later, turns):
    """The node's disk is lost; the others start again with the later plan, and a new node begins with it."""
    grid.kill(number)
    for name in os.listdir(grid.folder):
        if name.startswith(f"journal{number}"):
            os.unlink(os.path.join(grid.folder, name))
    for other in list(grid.nodes):
        grid.kill(other)
        grid.go(1)
        grid.start(other, later)
        grid.go(turns)
    grid.start(number + PLACES, later)


def fills(grid, number):
    """The new node gets all files that it lacks."""
    for _ in range(MOST_TO_FETCH):
        if Journal(number, grid.path(number)).is_there and not list(Journal(number, grid.path(number)).lacked()):
            return
        grid.step()
    check(False, f"node {number} lacks {list(Journal(number, grid.path(number)).lacked())} after {MOST_TO_FETCH} turns")


def check_filled(grid, number, since):
    check(not names_in(get(grid.path(number))), f"journal {number} names {LEAVES}")
    late = [it for it in grid.wrote if it[0] > since and LEAVES.encode() in it[2]]
    check(not late, f"lines of {LEAVES}: {late[:3]}")
    told = {name: len(grid.told_to(name)) for name in STAY}
    grid.go(TURNS_BEFORE)
    check(all(len(grid.told_to(name)) > told[name] for name in STAY), "not all are served once a node was replaced")


def lost_behind(program, folder, seed):
    """A node is lost once somebody left: the new one begins with a plan that tells so, and asks for no file of who left."""
    grid = Grid(program, folder, seed)
    try:
        first_turns(grid)
        grid.restart_all(BEHIND)
        grid.come(COMES, BEHIND)
        grid.go(TURNS_BEFORE)
        since = grid.turn
        lose(grid, 3, LOST_BEHIND, TURNS_BETWEEN)
        fills(grid, 67)
        check_filled(grid, 67, since)
    finally:
        grid.end()
    return 4


def lost_before(program, folder, seed):
    """A node is lost before somebody leaves: the new one begins with a plan that has him, was given some of his files, and lacks others as he leaves."""
    grid = Grid(program, folder, seed)
    try:
        first_turns(grid)
        lose(grid, 3, LOST, TURNS_BETWEEN)
        given = lambda: [line for _, _, line in grid.wrote if line.startswith(b"67 1 %s fetched " % LEAVES.encode())]
        for _ in range(MOST_TO_FETCH):
            if given():
                break
            grid.step()
        grid.step()
        lacked = [file for file in Journal(67, grid.path(67)).lacked() if file[0] == LEAVES.encode()]
        others = len(list(Journal(67, grid.path(67)).lacked())) - len(lacked)
        check(given() and lacked and names_in(get(grid.path(67))), f"the new node was given {given()} and lacks {lacked} of {LEAVES}")
        for number in [1, 67, 0, 2]:
            grid.kill(number)
            grid.start(number, LOST_BEHIND)
        since = grid.turn
        grid.come(COMES, LOST_BEHIND)
        fills(grid, 67)
        ready = get(os.path.join(folder, "told67")).split(b"gridfs: node 67 of 2 by 2: ")[-1].split(b"\n")[0]
        check(ready.endswith(b", lacks %d files" % others) if others else b"lacks" not in ready, f"a new node that lacks {others} files of who stays says {ready!r}")
        asked = [line for turn, number, line in grid.wrote if number == 67 and turn > since and b" %s fetch " % COMES.encode() in line]
        check(not asked, f"a new node asks for files that nobody had as its disk was lost: {asked}")
        check_filled(grid, 67, since)
    finally:
        grid.end()
    return 4


# ---- all of it

LOADS = 4


def of_load(folder, program, seed):
    return {"lines compared": load(program, folder, seed)}


def of_stop(folder, program, library, seen, how, loses, again):
    return {"stops": 1, "of them behind the rename": stopped(folder, program, library, seen, how, loses, again)}


def of_failure(folder, program, library, seen, how):
    return {"failures": 1, "of them behind the rename": failed(folder, program, library, seen, how)}


def of_other(folder, program, call, what):
    return {"comparisons": call(program, folder, what)}


def jobs_of_gone(program, library, seed):
    """Jobs of a pool, the longest first; each counts what it did."""
    with room() as folder:
        seen = Seen(program, folder, f"{seed} start")
    for at in range(LOADS):
        yield f"load {seed} {at}", of_load, (program, f"{seed} {at}")
        for call in lost_before, lost_behind:
            yield f"{call.__name__} {seed} {at}", of_other, (program, call, f"{seed} {at}")
    for call in refused, twice, new_ones, with_chunks, last_with_chunks:
        yield call.__name__, of_other, (program, call, seen)
    calls = calls_of(program, library, seen)
    for at, call in enumerate(calls, 1):
        for how in ["", "+"] + ["/"] * (call in "wo"):
            for loses, again in (False, None), (True, None), (False, f"{at % len(calls) + 1}{how}"), (True, f"{at % 4 + 1}{how}"):
                yield f"stop {at}{how} at {call}", of_stop, (program, library, seen, f"{at}{how}", loses, again)
        if call != "o":
            yield f"failure {at} at {call}", of_failure, (program, library, seen, f"{at}")
