"""A load of a grid of nodes over pipes, and what it took: operations a second, how long one takes, processor time, memory, syncs."""

import os
import random
import subprocess
import sys
import tempfile
import time

HERE = os.path.dirname(os.path.abspath(__file__))
sys.path.insert(0, os.path.join(HERE, "..", "clients", "python"))
sys.path.insert(0, os.path.join(HERE, "..", "tests", "nodes"))
from gridfs_grid.carrier import Carrier, Node, journal_of
from processes import built_disk, disk
from gridfs_grid.planned import planned

TENANTS = ["ann", "bob", "cid", "dan"]
FILES, CONTENT = 64, b"61" * 64
TICK = 1.0  # seconds, which is longer than any round
SECONDS_TO_END = 10
SIDES, SESSIONS, SECONDS = [2, 3], [1, 16, 64], 3
SYNCS, FEW = 200, 2_000
COUNTS, MOST_SECONDS = [10_000, 100_000, 500_000, 900_000, 1_000_000], 300


def plan_of(rows, cols):
    """Four tenants with sixteen sessions and 64 files each."""
    tenants = "".join(f"tenant {name} 128 16 1\n" for name in TENANTS)
    return f"grid {rows} {cols}\nblocks 512\n{tenants}go\n" + "".join(f"{name} open {FILES} 2\n" for name in TENANTS)


def processor_seconds(pid):
    """What a process took of the processors until now."""
    with open(f"/proc/{pid}/schedstat") as file:
        return int(file.read().split()[0]) / 1e9


def resident(pid):
    """The bytes of a process that are in memory now."""
    with open(f"/proc/{pid}/statm") as file:
        return int(file.read().split()[1]) * os.sysconf("SC_PAGE_SIZE")


class Load:
    """Sessions that each ask for the next operation once the last is done: half are writes, half reads, of any file."""

    writes = 0.5

    def __init__(self, program, folder, rows, cols, text=None, told=None, **more):
        self.folder, plan, text = folder, os.path.join(folder, "plan"), text or plan_of(rows, cols)
        with open(plan, "w", encoding="ascii") as out:
            out.write(text)
        told = told or planned(program, text)
        self.homes = told.homes
        nodes = [Node(program, number, plan, journal_of(folder, number)) for number in told.nodes]
        self.carrier = Carrier(nodes, self.hear, self.fall, TICK)
        self.draw, self.numbers, self.begun, self.taken = random.Random(1), {}, {}, {}
        self.is_on, self.done = True, 0
        for node in nodes:
            node.start(True, stderr=subprocess.DEVNULL, **more)
        while not all(node.is_ready for node in nodes):
            self.carrier.turn(0.1)

    def fall(self, node, status):
        sys.exit(f"bench: node {node.number} has ended with status {status}")

    def begin(self, session):
        name, number = session
        home, file = self.homes[name.decode(), number], self.draw.randrange(FILES)
        operation = self.numbers[session] = self.numbers.get(session, 0) + 1
        kind, behind = (b"write", b" " + CONTENT) if self.draw.random() < self.writes else (b"read", b"")
        self.begun[session] = time.perf_counter()
        self.carrier.send(b"%d %s %s %d %d 0 %d%s" % (home, name, kind, number, operation, file, behind))

    def hear(self, line):
        words = line.split(b" ", 6)
        if words[2] != b"done":
            sys.exit(f"bench: a node says {line[:80]!r}")
        session = words[0], int(words[4])
        self.taken[words[3]].append(time.perf_counter() - self.begun.pop(session))
        self.done += 1
        if self.is_on:
            self.begin(session)

    def sessions(self):
        return [(name.encode(), number) for number in range(1, 17) for name in TENANTS]

    def run(self, count, seconds, most=None):
        """So many sessions for so long, or for so many operations. What it took, in a Measure."""
        sessions = self.sessions()[:count]
        self.taken, self.is_on, self.done = {b"read": [], b"write": []}, True, 0
        measure = Measure(self)
        until = time.perf_counter() + seconds
        for session in sessions:
            self.begin(session)
        while self.begun:
            self.carrier.turn(0.1)
            self.is_on = self.is_on and time.perf_counter() < until and (most is None or self.done < most)
        return measure.ended(self)

    def memory(self):
        return [resident(node.child.pid) for node in self.carrier.nodes]

    def journals(self):
        return [os.path.getsize(node.journal) for node in self.carrier.nodes]

    def end(self):
        for node in self.carrier.nodes:
            if node.child:
                node.gone()


class Measure:
    """What a load took from one moment to another."""

    def __init__(self, load):
        self.begun, self.spent, self.own = time.perf_counter(), self.nodes(load), time.process_time()
        self.lines = load.carrier.carried

    @staticmethod
    def nodes(load):
        return sum(processor_seconds(node.child.pid) for node in load.carrier.nodes)

    def ended(self, load):
        self.seconds = time.perf_counter() - self.begun
        self.spent, self.own = self.nodes(load) - self.spent, time.process_time() - self.own
        self.lines, self.done = load.carrier.carried - self.lines, load.done
        self.rate, self.taken = self.done / self.seconds, load.taken
        return self

    def told(self):
        """How long a read and a write took, in ms: the median, and the longest but one in a hundred."""
        return "; ".join(f"{kind.decode()} {1000 * place(taken, 0.5):.1f} and {1000 * place(taken, 0.99):.1f}" for kind, taken in self.taken.items())

    def letter(self):
        """The nodes' processor time for a line that came to one, in microseconds."""
        return self.spent / self.lines * 1e6


def place(taken, part):
    return sorted(taken)[min(len(taken) - 1, int(len(taken) * part))]


def lone_sync(folder):
    """The median time of an append of 4 KiB and its sync, with nothing beside it."""
    taken = []
    with open(os.path.join(folder, "sync"), "ab", buffering=0) as file:
        for _ in range(SYNCS):
            begun = time.perf_counter()
            file.write(bytes(4096))
            os.fsync(file.fileno())
            taken.append(time.perf_counter() - begun)
    return place(taken, 0.5)


def measured(program, where, side, count, seconds):
    """A load of a new grid whose journals are below this folder."""
    with tempfile.TemporaryDirectory(prefix="gridfs-bench-", dir=where) as folder:
        load = Load(program, folder, side, side)
        try:
            return load.run(count, seconds)
        finally:
            load.end()


def compare(program, synced, unsynced, turns):
    """Prints what loads took with journals on a disk and in memory, in turn; the best turn counts."""
    with tempfile.TemporaryDirectory(prefix="gridfs-bench-", dir=synced) as folder:
        print(f"a lone append and sync takes {1000 * lone_sync(folder):.2f} ms (median)")
    for side in SIDES:
        for count in SESSIONS:
            pairs = [[measured(program, where, side, count, SECONDS) for where in (synced, unsynced)] for _ in range(turns)]
            ours, free = (max(each, key=lambda it: it.rate) for each in zip(*pairs))
            print(f"{side} by {side}, {count} sessions, {turns} turns of {SECONDS} seconds with and without syncs")
            for what, it in ("journals on a disk", ours), ("journals in memory", free):
                print(f"    {what:<20}{it.rate:8.0f} operations/s; median and 99th of 100 in ms: {it.told()}")
                each = f"{it.letter():.1f} us of the processors a line, {it.lines / it.done:.1f} lines an operation"
                print(f"    {'':<20}{each}; the carrier took {it.own / it.done * 1e6:.0f} us an operation")
            print(f"    {'ratio of the rates':<20}{ours.rate / free.rate:8.2f}", flush=True)


def tell_memory(program, unsynced):
    """Prints what nodes hold, and what a line takes, after few operations and after many."""
    with tempfile.TemporaryDirectory(prefix="gridfs-bench-", dir=unsynced) as folder:
        load, done, begun, told = Load(program, folder, 2, 2), 0, time.perf_counter(), []
        try:
            for most in COUNTS:
                left = MOST_SECONDS - (time.perf_counter() - begun)
                if left > 0:
                    measure = load.run(SESSIONS[-1], left, most - done)
                    done += measure.done
                    told.append((done, max(load.memory()), max(load.journals()), measure.letter()))
        finally:
            load.end()
    for done, memory, journal, letter in told:
        print(f"after {done:8d} operations: at most {memory / 1024:.0f} KiB of memory a node, {journal} bytes a journal; {letter:.1f} us a line since")
    print(f"    {'ratio of the memory':<20}{told[-1][1] / told[0][1]:8.2f}", flush=True)


def tell_syncs(program):
    """Prints how many syncs a batch of facts takes."""
    measure, batches, syncs, writes, facts = syncs_of(program, FEW)
    # (each of the four nodes has written and synced the plan first)
    print(f"{measure.done} operations of 16 sessions: {facts} facts in {batches - 4} batches, {syncs - 4} syncs, {writes} writes of lines")
    print(f"    {'syncs a batch':<20}{(syncs - 4) / (batches - 4):8.2f}")


def report(program, turns, synced, unsynced):
    """Prints all of it: so many turns, with journals below the one folder and the other."""
    tell_syncs(program)
    compare(program, synced, unsynced, turns)
    tell_memory(program, unsynced)


def syncs_of(program, operations):
    """The calls of the disk in a load of 16 sessions on 2 by 2: writes of batches, syncs, writes of lines; and how many facts there are."""
    with tempfile.TemporaryDirectory(prefix="gridfs-bench-") as folder:
        calls = os.path.join(folder, "calls")
        load = Load(program, folder, 2, 2, env=disk(built_disk(folder), CALLS=calls))
        try:
            measure = load.run(16, SECONDS_TO_END, operations)
        finally:
            # (each leaves its calls as it ends, so they are read one by one)
            made = []
            for node in load.carrier.nodes:
                node.gone()
                with open(calls) as file:
                    made.append(file.read())
        facts = 0
        for node in load.carrier.nodes:
            with open(node.journal, "rb") as file:
                facts += sum(line.startswith((b"began ", b"numbered ", b"kept ")) and b" open " not in line for line in file)
    made = "".join(made)
    return measure, made.count("w"), made.count("s"), made.count("o"), facts
