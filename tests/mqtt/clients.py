"""gridfs-client and bench/load over a broker: what they say, take and refuse while nodes are stopped, killed, lost and added. (What the client says of
words, settings and faults over a broker, tests/names tries.)"""

import base64
import json
import os
import signal
import subprocess
import time

from carried_storms import BOUND, LOAD, histories_of, is_linearizable
from isolation import context_of, password, write_plan
from gridfs_grid.mqtt import Grid
from peers import CLIENT, Speaker, wait_for

DONE, REFUSED, SILENT, USAGE, WRONG = 0, 3, 4, 2, 1


def shown(value):
    """(A large content is told by its beginning.)"""
    text = repr(value)
    return text if len(text) < 2_000 else f"{text[:500]}.. of {len(text)} letters"


class Clients:
    """Runs of the client, each compared with what it has to do."""

    def __init__(self, program, carry, tls="broker", plan=None):
        self.grid, self.tried, self.wrong = Grid(os.getcwd(), program, carry, tls), 0, []
        if plan:
            with open(self.grid.plan, "w", encoding="ascii") as out:
                out.write(plan)
        else:
            write_plan(self.grid.plan)
        self.grid.set_up()

    def held(self, name, seen, wanted):
        self.tried += 1
        if seen != wanted:
            self.wrong.append(f"{name}: {shown(seen)}, not {shown(wanted)}")

    def words(self, *words, name="ann"):
        return [CLIENT, "--config", self.grid.write_settings(name), "--locks", f"locks.{name}", *words]

    def run(self, *words, given=b"", **more):
        done = subprocess.run(self.words(*words, **more), input=given, stdout=subprocess.PIPE, stderr=subprocess.PIPE, timeout=60)
        return done.returncode, done.stdout, done.stderr.decode()

    def wrote(self, *words, **more):
        """The status of a write, and what was told of it beside its tag."""
        status, told, said = self.run("write", *words, **more)
        return status, told[:4], said

    def load(self, *words, name="ann", **more):
        return subprocess.run([LOAD, *words, self.grid.write_settings(name)], stdout=subprocess.PIPE, stderr=subprocess.PIPE, text=True, timeout=60, **more)

    def asks(self):
        content = bytes(range(128, 256))
        self.held("write", self.wrote("0", "3", "-", given=content), (DONE, b"tag ", ""))
        self.held("read", self.run("read", "0", "3"), (DONE, content, ""))
        self.held("write of nothing", self.wrote("0", "4", "-"), (DONE, b"tag ", ""))
        self.held("read of nothing", self.run("read", "0", "4"), (DONE, b"", ""))
        status, told, _ = self.run("--session", "2", "write", "0", "5", "-", "--json", given=b"hi")
        self.held("--json", (status, json.loads(told)), (DONE, {"tag": [1, 2]}))
        status, told, _ = self.run("--session", "2", "read", "0", "5", "--json")
        self.held("a content in --json", (status, json.loads(told)), (DONE, {"tag": [1, 2], "content": base64.b64encode(b"hi").decode()}))
        status, told, _ = self.run("list", "0")
        self.held("list", (status, [line.split()[:2] for line in told.splitlines()[3:6]]), (DONE, [[b"3", b"128"], [b"4", b"0"], [b"5", b"2"]]))
        status, told, _ = self.run("plan", "--json", name="bob")
        has = {"nodes": 4, "home": 0, "sessions": 16, "share": 256, "most": 16, "new_nodes": [], "volumes": [{"files": 64, "blocks": 2}]}
        self.held("plan", (status, json.loads(told)), (DONE, has))
        self.held("a volume that is not there", self.run("read", "7", "0")[::2], (REFUSED, "gridfs-client: there is no volume 7\n"))
        self.held("a content that is too long", self.run("write", "0", "0", "-", given=bytes(129))[0], REFUSED)

    def starts(self):
        """A node that does not start: it tells why, and its carrier ends with its status."""
        carry = [self.grid.carry, *self.grid.words_for(0)]
        node = [self.grid.program, "node", "9", "--plan", self.grid.plan, "--journal", "journal9", "--new"]
        for name, words, status, told in (
            ("a number that is not the plan's", [*carry, "9", "--", *node], 1, "gridfs: node 9: of 4"),
            ("a journal that is not there", [*carry, "9", "--", *node[:2], "3", *node[3:6], "none"], 1, "gridfs: none: no journal"),
            ("words that are no request", [*carry, "9", "--", *node[:2]], 2, f"Usage: {os.path.basename(self.grid.program)} node"),
        ):
            done = subprocess.run(words, stdin=subprocess.DEVNULL, stdout=subprocess.PIPE, stderr=subprocess.PIPE, text=True, timeout=30)
            self.held(name, (done.returncode, told in done.stderr, done.stdout), (status, True, ""))

    def passes_a_silent_home(self):
        """A session's home stands still: another session is taken, unless it is the one that was named."""
        os.kill(self.grid.node(1), signal.SIGSTOP)
        try:
            seen = self.run("--session", "2", "--timeout", "3", "read", "0", "7")
            self.held("a home that stands still", (seen[0], "node 1 is silent" in seen[2] or seen[2]), (SILENT, True))
            self.held("a session whose home does not", self.run("--session", "2-3", "read", "0", "7"), (DONE, b"", ""))
        finally:
            os.kill(self.grid.node(1), signal.SIGCONT)

    def gone(self):
        """All nodes but a session's home stand still, so that its write can't end; then the home is killed, and starts again: the client asks again."""
        for number in (1, 2, 3):
            os.kill(self.grid.node(number), signal.SIGSTOP)
        client = subprocess.Popen(self.words("--session", "1", "write", "0", "8", "-"), stdin=subprocess.PIPE, stdout=subprocess.PIPE, stderr=subprocess.PIPE)
        client.stdin.write(b"bb")
        client.stdin.close()
        client.stdin = None
        time.sleep(1)  # (that it has begun shows nowhere: its number was reserved)
        self.grid.kill_node(0)
        self.grid.start_node(0)
        for number in (1, 2, 3):
            os.kill(self.grid.node(number), signal.SIGCONT)
        out, said = client.communicate(timeout=60)
        self.held("a write that is gone is asked again", (client.returncode, out[:4], said), (DONE, b"tag ", b""))
        self.held("and is read", self.run("--session", "3", "read", "0", "8"), (DONE, b"bb", ""))

    def loads(self):
        done = self.load("--sessions", "4", "--seconds", "1", "--json", "--history", "history.bob.1", name="bob")
        told = json.loads(done.stdout or "{}")
        self.held("a load", (done.returncode, told.get("done", 0) > 10, told.get("unanswered")), (DONE, True, 0))
        verdicts = {is_linearizable(history, BOUND) for history in histories_of(".").values()}
        self.held("its histories", verdicts, {True})
        self.held("a volume that is not there", self.load("--volume", "3", name="bob").returncode, WRONG)
        with open("few.ini", "w", encoding="utf-8") as out, open(self.grid.write_settings("bob"), encoding="utf-8") as file:
            out.write(file.read().replace("tenant = bob", "tenant = nobody"))
        done = subprocess.run([LOAD, "few.ini"], stdout=subprocess.PIPE, stderr=subprocess.PIPE, text=True, timeout=60)
        self.held("a tenant whom the broker refuses", (done.returncode, "load: " in done.stderr), (WRONG, True))
        self.held("no settings", subprocess.run([LOAD], stderr=subprocess.DEVNULL).returncode, USAGE)


LARGE_PLAN = "grid 2 2\nroom 40000\ntenant ann 32768 16 1 16384\ntenant bob 64 2 1 16\ngo\nann open 2 16384\nbob open 4 16\n"


def large(program, carry, tls):
    """Contents of 1 MiB, in one message each, beside short ones: a node is killed meanwhile, then all are."""
    clients = Clients(program, carry, tls, LARGE_PLAN)
    grid, content = clients.grid, os.urandom(1 << 20)
    longest = str(128 * 16384 + 255 + 1024)
    with open("broker/mosquitto.conf", encoding="ascii") as file:
        clients.held("the broker's longest packet", [line.split()[1] for line in file if line.startswith("max_packet_size ")], [longest])
    try:
        grid.start()
        clients.held("a content of 1 MiB", clients.wrote("0", "1", "-", given=content), (DONE, b"tag ", ""))
        clients.held("is read by another session", clients.run("--session", "2", "read", "0", "1"), (DONE, content, ""))
        seen = clients.run("write", "0", "1", "-", given=content + b"x")
        clients.held("a content of one byte more", (seen[0], "more than 1048576 bytes" in seen[2]), (REFUSED, True))
        seen = clients.run("write", "0", "1", "-", given=bytes(1_025), name="bob")
        clients.held("one that is too long for its tenant", (seen[0], "more than 1024 bytes" in seen[2]), (REFUSED, True))
        clients.held("a short content", clients.wrote("0", "1", "-", given=b"hi", name="bob"), (DONE, b"tag ", ""))
        for number in range(grid.count):
            grid.kill_node(number)
            grid.start_node(number)
        grid.wait_until_ready(range(grid.count))
        clients.held("it is there when all nodes were killed", clients.run("--session", "3", "read", "0", "1"), (DONE, content, ""))
        for number in range(grid.count):
            grid.processes[number].terminate()
            grid.processes[number].wait()
            counts = grid.told(number).split("carry: in ")[-1].split()
            clients.held(f"carrier {number} drops no line as too long", counts[counts.index("long") + 1], "0")
    finally:
        grid.end()
    return clients.tried, clients.wrong


def tried(program, carry):
    clients = Clients(program, carry)
    try:
        clients.grid.start()
        for part in (clients.asks, clients.starts, clients.passes_a_silent_home, clients.gone, clients.loads):
            part()
    finally:
        clients.grid.end()
    return clients.tried, clients.wrong


def lost(program, carry):
    """A node is lost with its journal while a load runs, and a new one takes its place: what was acknowledged is there, also where the other
    node of its column is down then; and the broker takes the one that was lost for nobody."""
    clients = Clients(program, carry)
    grid = clients.grid
    try:
        grid.start()
        words = [LOAD, "--sessions", "8", "--seconds", "8", "--history", "history.ann.1", grid.write_settings("ann")]
        load = subprocess.Popen(words, stdout=subprocess.DEVNULL, stderr=subprocess.PIPE)
        clients.held("bob writes", clients.wrote("0", "5", "-", given=b"mine", name="bob"), (DONE, b"tag ", ""))
        time.sleep(1)
        grid.lose(3)
        new = grid.replace(3)
        clients.held("the new node has all files", wait_for(lambda: f"gridfs: node {new}: has all files" in grid.told(new), 20), True)
        _, told = load.communicate(timeout=60)
        clients.held("the load goes on at the new node", (load.returncode, told), (DONE, b""))
        seen = clients.run("--session", "4", "read", "0", "5", name="bob")
        clients.held("bob's session, whose home was lost, is at another", seen, (DONE, b"mine", ""))
        status, told, _ = clients.run("plan", "--json", name="bob")
        clients.held("its number", json.loads(told)["new_nodes"], [new])
        clients.held("old node 3 is let in", is_let_in(grid, 3), False)
        grid.kill_node(1)
        done = clients.load("--sessions", "1", "--seconds", "3", "--writes", "0", "--history", "history.ann.2")  # (session 1, whose home is up)
        clients.held("all is read while its peer is down", done.returncode, DONE)
        for file, history in histories_of(".").items():
            clients.held(f"the history of {file}", is_linearizable(history, BOUND), True)
    finally:
        grid.end()
    return clients.tried, clients.wrong


def is_let_in(grid, number):
    """Whether the broker lets a node in."""
    node = Speaker(grid.port, str(number), password(grid, number), context=context_of(grid))
    node.end()
    return node.is_let_in


def grown(program, carry):
    """A tenant and a volume are added while a load runs: the new plan, the broker's folder made again, SIGHUP, and nodes one after another."""
    clients = Clients(program, carry)
    grid = clients.grid
    try:
        grid.start()
        load = subprocess.Popen([LOAD, "--sessions", "8", "--seconds", "8", grid.write_settings("ann")], stdout=subprocess.DEVNULL, stderr=subprocess.PIPE)
        time.sleep(1)
        with open(grid.plan, encoding="ascii") as file:
            text = file.read()
        with open(grid.plan, "w", encoding="ascii") as out:
            out.write(text.replace("go\n", "tenant eve 64 2 1\ngo\n") + "eve open 8 2\nbob open 4 4\n")
        grid.set_up()
        grid.processes["broker"].send_signal(signal.SIGHUP)
        time.sleep(0.5)
        clients.held("no connection ends where the broker reads its files anew", grid.told("broker").count("disconnected"), 0)
        for number in range(grid.count):
            grid.processes[number].terminate()
            clients.held(f"node {number} ends by itself", grid.processes[number].wait(), 0)
            grid.start_node(number)
            grid.wait_until_ready([number])
        clients.held("the new tenant writes", clients.wrote("0", "7", "-", given=b"new", name="eve"), (DONE, b"tag ", ""))
        clients.held("and reads", clients.run("read", "0", "7", name="eve"), (DONE, b"new", ""))
        clients.held("the new volume is there", clients.run("read", "1", "3", name="bob"), (DONE, b"", ""))
        _, told = load.communicate(timeout=60)
        clients.held("the old tenant goes on all the time", (load.returncode, told), (DONE, b""))
    finally:
        grid.end()
    return clients.tried, clients.wrong
