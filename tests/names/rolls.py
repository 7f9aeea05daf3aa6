"""Nodes that are restarted one after another (`./grid --roll`), with a plan that has one more tenant, while a client goes on; and the page of it (`--http`)."""

import os
import subprocess
import sys
import threading
import time
import urllib.request

from commands import SECONDS, TOP
from with_room import PLAN, Seen

import gridfs_client
from gridfs_client.watching import AGAIN
from gridfs_grid.carried import free_ports

GRID = os.path.join(TOP, "grid")
MORE = ["tenant dave 2049 2 1000 1024\n", "dave open 4 256\ndave open 4 256\ndave open 1 1\ndave chunks 1024\n"]


def with_dave(text):
    """The plan with one more tenant, who comes last."""
    head, _, rest = text.partition("go\n")
    return f"{head.replace('room 95000', 'room 98000')}{MORE[0]}go\n{rest}{MORE[1]}"


class Client(threading.Thread):
    """Puts and gets a name again and again."""

    def __init__(self):
        super().__init__()
        self.faults, self.done, self.is_over = [], 0, False

    def run(self):
        try:
            with gridfs_client.open("grid/carol.ini", locks="locks") as files:
                while not self.is_over:
                    files.put("name", str(self.done))
                    if (got := files.get("name")) != str(self.done).encode():
                        raise AssertionError(f"{got} in place of {self.done}")
                    self.done += 1
        except Exception as fault:
            self.faults.append(repr(fault))


def page_at(port, name=""):
    with urllib.request.urlopen(f"http://127.0.0.1:{port}/{name}", timeout=SECONDS) as told:
        return told.read().decode()


def put_and_got(settings):
    with gridfs_client.open(settings, locks="locks") as files:
        files.put("name", "dave's")
        return files.get("name")


def roll(program, *words):
    done = subprocess.run([sys.executable, "-B", os.path.join(TOP, "clients", "python", "gridfs-grid"), "--program", program, "--roll", *words, "grid"], capture_output=True, text=True, timeout=4 * SECONDS)
    return done.returncode, done.stderr.splitlines()


def rolls(program):
    seen, client = Seen(), Client()
    with open(PLAN, encoding="ascii") as plan, open("next", "w", encoding="ascii") as out:
        out.write(with_dave(plan.read()))
    with open("other", "w", encoding="ascii") as out:
        out.write("grid 1 1\nblocks 64\ntenant ann 16 4 1\ngo\nann open 4 2\n")
    port = free_ports(1)
    with open("told", "wb") as told:
        grid = subprocess.Popen([GRID, "--program", program, "--plan", PLAN, "--http", f"127.0.0.1:{port}", "grid"], stdin=subprocess.DEVNULL, stdout=told, stderr=told)
    try:
        until = time.monotonic() + SECONDS
        while not os.path.exists("grid/dave.ini") and not os.path.exists("grid/carol.ini"):
            if time.monotonic() > until:
                raise OSError("./grid did not start")
            time.sleep(0.1)
        client.start()
        before = pids(grid.pid)
        seen.held("a plan that does not go on", roll(program, "--plan", "other")[0], 1)
        seen.held("no node is touched by it", pids(grid.pid), before)
        up = [f"grid: node {node} is up again" for node in range(4)]
        seen.held("a roll", roll(program, "--plan", "next"), (0, ["grid: nodes are restarted, one after another", *up, "grid: all nodes are up again"]))
        seen.held("other processes", before & pids(grid.pid), set())
        seen.held("the new tenant", os.path.exists("grid/dave.ini") and put_and_got("grid/dave.ini"), b"dave's")
        client.is_over = True
        client.join(SECONDS)
        seen.held("the client", (client.faults, client.done > 3), ([], True))
        seen.held("the page", "<h1>All 4 nodes answer</h1>" in page_at(port) and "<td>dave</td>" in page_at(port), True)
        subprocess.run([GRID, "--kill", "3", "grid"], check=True, capture_output=True)
        time.sleep(AGAIN)
        seen.held("the page without a node", ("<h1>Node 3 is silent</h1>" in page_at(port), 'gridfs_watch_node_answers{node="3"} 0' in page_at(port, "metrics")), (True, True))
    finally:
        client.is_over = True
        grid.terminate()
        grid.wait(SECONDS)
    seen.held("no grid", roll(program), (1, ["grid: grid: no grid runs there; `./grid --plan FILE grid` starts it with another plan"]))
    return f"{seen.count} compared: nodes that are restarted one after another, beside {client.done} puts and gets", seen.wrong


def pids(of):
    """The processes of nodes below a grid."""
    with open(f"/proc/{of}/task/{of}/children", encoding="ascii") as file:
        return {pid for pid in file.read().split() if is_node(pid)}


def is_node(pid):
    with open(f"/proc/{pid}/cmdline", "rb") as file:
        return file.read().split(b"\0")[1:2] == [b"node"]
