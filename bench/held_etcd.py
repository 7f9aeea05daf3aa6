"""Three members of etcd whose syncs are held up, and nodes whose syncs are held up in the same way: by strace, since etcd makes its calls
without the C library. Clients of etcd are threads of Python, which ask by its gateway of JSON."""

import base64
import contextlib
import http.client
import json
import os
import random
import shutil
import signal
import socket
import subprocess
import tempfile
import threading
import time

from node_loads import CONTENT, FILES, Load, place

MEMBERS, READY, CALL = 3, 60, 20  # seconds
HELD = ["strace", "-f", "--seccomp-bpf", "-qq", "-o", "/dev/null", "-e", "trace=fsync,fdatasync", "-e", "inject=fsync,fdatasync:delay_exit=%d000"]
FIRST = {"key": "MA=="}


def missing():
    return [name for name, program in (("etcd-server", "etcd"), ("strace", "strace")) if not shutil.which(program)]


def held(wait):
    """The words in front of a program whose syncs take so many ms more."""
    return [word % wait if "%d" in word else word for word in HELD] if wait else []


def free_ports(count):
    with contextlib.ExitStack() as open_ones:
        return [open_ones.enter_context(socket.create_server(("127.0.0.1", 0))).getsockname()[1] for _ in range(count)]


class Etcd:
    """Members whose files lie in the folder."""

    def __init__(self, folder, wait):
        self.members, self.ports, peers = [], free_ports(MEMBERS), free_ports(MEMBERS)
        every = ",".join(f"m{place}=http://127.0.0.1:{port}" for place, port in enumerate(peers))
        for number, (port, peer) in enumerate(zip(self.ports, peers)):
            own, others = f"http://127.0.0.1:{port}", f"http://127.0.0.1:{peer}"
            words = [*held(wait), "etcd", "--name", f"m{number}", "--data-dir", os.path.join(folder, f"m{number}")]
            words += ["--listen-client-urls", own, "--advertise-client-urls", own, "--listen-peer-urls", others, "--initial-advertise-peer-urls", others]
            words += ["--initial-cluster", every, "--initial-cluster-state", "new"]
            self.members.append(subprocess.Popen(words, stdin=subprocess.DEVNULL, stdout=subprocess.DEVNULL, stderr=subprocess.DEVNULL))

    def wait_until_ready(self):
        until = time.monotonic() + READY
        while True:
            try:
                return self.ask(self.connected(0), "range", FIRST)
            except OSError:
                if time.monotonic() > until:
                    raise
                time.sleep(0.5)

    def connected(self, number):
        connection = http.client.HTTPConnection("127.0.0.1", self.ports[number % MEMBERS], timeout=CALL)
        connection.connect()
        connection.sock.setsockopt(socket.IPPROTO_TCP, socket.TCP_NODELAY, 1)
        return connection

    @staticmethod
    def ask(connection, what, words):
        connection.request("POST", f"/v3/kv/{what}", json.dumps(words))
        answer = connection.getresponse()
        told = answer.read()
        if answer.status != http.client.OK:
            raise OSError(told)

    def client(self, number, writes, seconds, start, taken):
        """Puts and linearizable gets, one after another."""
        draw, connection, value = random.Random(number), self.connected(number), base64.b64encode(CONTENT[:64]).decode()
        self.ask(connection, "range", FIRST)
        start.wait()
        until = time.perf_counter() + seconds
        while time.perf_counter() < until:
            key, begun = base64.b64encode(b"%d" % draw.randrange(FILES)).decode(), time.perf_counter()
            kind = "write" if draw.random() < writes else "read"
            self.ask(connection, *(("put", {"key": key, "value": value}) if kind == "write" else ("range", {"key": key})))
            taken.setdefault(kind, []).append(time.perf_counter() - begun)

    def run(self, count, writes, seconds):
        """What so many clients get done: operations a second, and how long each took, by its kind."""
        start, takens = threading.Barrier(count), [{} for _ in range(count)]
        threads = [threading.Thread(target=self.client, args=(number, writes, seconds, start, taken)) for number, taken in enumerate(takens)]
        for thread in threads:
            thread.start()
        for thread in threads:
            thread.join()
        all_of = {kind: sum((it.get(kind, []) for it in takens), []) for kind in ("read", "write")}
        return sum(map(len, all_of.values())) / seconds, all_of

    def end(self):
        for member in self.members:
            with open(f"/proc/{member.pid}/task/{member.pid}/children", encoding="ascii") as file:
                for child in file.read().split() if member.args[0] == HELD[0] else [member.pid]:
                    os.kill(int(child), signal.SIGTERM)
        for member in self.members:
            member.wait(READY)


def at_nodes(program, wait, load, where, seconds):
    """The same of four nodes."""
    _, sessions, writes = load
    with tempfile.TemporaryDirectory(prefix="gridfs-syncs-", dir=where) as folder:
        words = os.path.join(folder, "held")
        with open(words, "w", encoding="utf-8") as out:
            out.write("#!/bin/sh\nexec " + " ".join(f"'{word}'" for word in [*held(wait), program]) + ' "$@"\n')
        os.chmod(words, 0o755)
        grid = Load(words, folder, 2, 2)
        try:
            grid.writes = 1
            grid.run(sessions, READY, FILES * sessions)
            grid.writes = writes
            measure = grid.run(sessions, seconds)
        finally:
            grid.end()
    return measure.rate, {kind.decode(): taken for kind, taken in measure.taken.items()}


def best(turns):
    """The most operations a second, and the least medians in ms."""
    kinds = sorted(kind for kind, taken in turns[0][1].items() if taken)
    return max(rate for rate, _ in turns), {kind: min(1000 * place(taken[kind], 0.5) for _, taken in turns) for kind in kinds}


def compare(program, loads, waits, asked):
    """Prints what nodes and members took of each load, with each wait, in turn."""
    for wait in waits:
        with tempfile.TemporaryDirectory(prefix="gridfs-syncs-", dir=asked.folder) as folder:
            etcd = Etcd(folder, wait)
            try:
                etcd.wait_until_ready()
                for load in loads:
                    turns = [(at_nodes(program, wait, load, asked.folder, asked.seconds), etcd.run(*load[1:], asked.seconds)) for _ in range(asked.turns)]
                    sides = [best(side) for side in zip(*turns)]
                    print(f"{load[0]}, {asked.turns} turns of {asked.seconds:g} seconds")
                    for what, (rate, medians) in zip(("nodes", "etcd"), sides):
                        print(f"    {wait} ms, {what:<6} {rate:8.0f} operations/s; median " + ", ".join(f"{kind} {it:.2f} ms" for kind, it in medians.items()))
                    print(f"    {wait} ms, ratio  {sides[0][0] / sides[1][0]:8.2f}", flush=True)
            finally:
                etcd.end()
