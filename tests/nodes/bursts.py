"""One tenant's burst at a grid whose nodes have carriers: a read of the longest file, asked for thousands of times at once, by a client that reads
what it is told and by one that reads nothing; and, where all are tried, other requests, and all sessions at all their homes. Meanwhile another
tenant asks at the same node, whose memory is looked at. What it waits for is compared with how long one read of the longest file takes alone,
so that a slow machine does not count."""

import contextlib
import json
import os
import statistics
import subprocess
import sys
import threading
import time

HERE = os.path.dirname(os.path.abspath(__file__))
sys.path.insert(0, os.path.join(HERE, "..", "..", "clients", "python"))
from gridfs_client.errors import CarrierFault
from gridfs_client.settings import Settings
from gridfs_grid import links, mqtt
from processes import Wrong, check

PYTHON = "/usr/bin/python3", "-B"

LENGTH = 1 << 20  # bytes of ann's file, the longest
PLAN = "grid 2 2\nroom 20000\ntenant ann 16448 4 1 16384\ntenant bob 64 4 1 16\ngo\nann open 1 16384\nann open 64 1\nbob open 1 16\n"
READ, LIST, QUESTION = b"read 1 %d 0 0", b"list 1 %d 1", b"plan"
# What ann asks for, again and again; at how many of her sessions; and whether her client reads what it is told.
BURSTS = {"a client that reads": (READ, 1, True), "one that reads nothing": (READ, 1, False)}
LONG_BURSTS = {
    "a list of a full volume": (LIST, 1, False),
    "a question that has no number": (QUESTION, 1, False),
    "all sessions at all their homes": (READ, 4, False),
    "all sessions, by clients that read": (READ, 4, True),
}
MANY, ASKED = 3300, 100  # reads of a burst; requests of bob
READS_OF_BOB, READS_AT_ONCE = 5, 25  # so many of ann's reads may take as long as bob waits, by his median, and for any of his requests
MOST_MEMORY = 64 << 20  # of the node


class Client:
    """A session of a tenant, at its home."""

    def __init__(self, grid, name, session=1):
        self.carrier = Settings({"tenant": name, "timeout": "60", **grid.settings(name)}).carrier()
        self.carrier.attach(session)
        self.session, self.home, self.operation = session, session - 1, 0

    def ask(self, body, seconds=60):
        """Has one operation done; the seconds that it took."""
        self.operation += 1
        begun, until = time.monotonic(), time.monotonic() + seconds
        while time.monotonic() < until:
            self.carrier.send(self.home, self.line(body))
            again = time.monotonic() + 2
            while (left := again - time.monotonic()) > 0:
                answer = self.carrier.receive(self.session, left)
                if getattr(answer, "operation", None) == self.operation:
                    return time.monotonic() - begun
        raise Wrong(f"{body} was not answered in {seconds} s")

    def line(self, body):
        """The request of this session, with the number of its operation."""
        return body % self.operation if b"%d" in body else body

    def burst(self, body, is_read):
        """Asks for the last operation again, many times at once; reads what comes in a thread, or nothing."""
        self.carrier.send(self.home, b"\n".join([self.line(body)] * MANY))
        if is_read:
            threading.Thread(target=self.read_all, daemon=True).start()

    def read_all(self):
        with contextlib.suppress(CarrierFault):
            while True:
                self.carrier.receive(self.session, 1)


def most_memory(pid):
    """The most bytes of memory that a process had at one time."""
    with open(f"/proc/{pid}/status") as file:
        return next(int(line.split()[1]) << 10 for line in file if line.startswith("VmHWM:"))


def burst(program, carry, way, kind):
    """What `seen` says of a grid in this folder; by the system's Python, for which the client's packages are."""
    done = subprocess.run([*PYTHON, os.path.abspath(__file__), program, carry, way, kind], stdout=subprocess.PIPE, stderr=subprocess.PIPE, text=True)
    check(done.returncode == 0, done.stderr)
    return json.loads(done.stdout)


def of_session(body, client):
    """A request of session 1 as one of the client's."""
    return body.replace(b" 1 %d", b" %d %%d" % client.session)


def seen(grid, body, sessions, is_read):
    """What was seen of what bob waits for beside a burst of ann's, and what is wrong with it."""
    with open(grid.plan, "w", encoding="ascii") as out:
        out.write(PLAN)
    grid.set_up()
    clients = []
    try:
        grid.start()
        clients = ann, bob, *others = Client(grid, "ann"), Client(grid, "bob"), *(Client(grid, "ann", 1 + at) for at in range(1, sessions))
        ann.ask(b"write 1 %d 0 0 =" + b"x" * LENGTH)
        one = statistics.median(ann.ask(b"read 1 %d 0 0") for _ in range(5))
        bob.ask(b"write 1 %d 0 0 6869")
        alone = statistics.median(bob.ask(b"read 1 %d 0 0") for _ in range(ASKED))
        for client in (ann, *others):
            client.ask(of_session(body, client) if b"%d" in body else of_session(READ, client))
            client.burst(of_session(body, client), is_read)
        waited = []
        for _ in range(ASKED):
            waited.append(bob.ask(b"read 1 %d 0 0"))
            time.sleep(0.02)
        memory = most_memory(grid.node(0))
    finally:
        grid.end()
        for client in clients:
            client.carrier.close()
    median, most = statistics.median(waited), max(waited)
    told = f"of bob's {ASKED} beside {MANY} of ann's the median {1000 * median:.1f} ms, the most {1000 * most:.0f} (alone {1000 * alone:.1f}; one of ann's {1000 * one:.0f}); the node {memory >> 20} MiB"
    faults = []
    if median > alone + sessions * READS_OF_BOB * one or most > alone + sessions * READS_AT_ONCE * one:
        faults.append(f"bob waits too long: {told}")
    if memory > MOST_MEMORY:
        faults.append(f"the node takes too much memory: {told}")
    return told, faults


if __name__ == "__main__":
    program, carry, way, kind = sys.argv[1:]
    grid = links.Grid(os.getcwd(), program, carry) if way == "links" else mqtt.Grid(os.getcwd(), program, carry, "none")
    print(json.dumps(seen(grid, *{**BURSTS, **LONG_BURSTS}[kind])))
