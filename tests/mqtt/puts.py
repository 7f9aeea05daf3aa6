"""A put of a long content with nginx in front: how many bytes the client sends for it, to both nodes of a column, counted on their way."""

import os
import socket
import subprocess
import threading

from gridfs_grid.mqtt import Grid
from peers import CLIENT

PLAN = "grid 2 2\nroom 300000\ntenant ann 280000 4 1 16384\ngo\nann open 8 1024\nann open 8 1024\nann open 1 1\nann chunks 65536\n"
SIZE = 10_000_000
# Half of what `setup` gives: four chunks at once, at two nodes each, then take eight seconds, longer than a client waits that reckons with
# its whole rate for each of them.
RATE = "1m"
MOST = 1.25  # times the content at both nodes


class Relay:
    """Takes connections on to another port of this machine, and counts the bytes to it."""

    def __init__(self, port):
        self.port_behind, self.count = port, 0
        self.listener = socket.create_server(("127.0.0.1", 0))
        self.port = self.listener.getsockname()[1]
        threading.Thread(target=self.run, daemon=True).start()

    def run(self):
        while True:
            try:
                near, _ = self.listener.accept()
                far = socket.create_connection(("127.0.0.1", self.port_behind))
            except OSError:
                return
            threading.Thread(target=self.carry, args=(near, far, True), daemon=True).start()
            threading.Thread(target=self.carry, args=(far, near, False), daemon=True).start()

    def carry(self, source, target, counts):
        try:
            while read := source.recv(65_536):
                self.count += len(read) if counts else 0
                target.sendall(read)
            target.shutdown(socket.SHUT_WR)
        except OSError:
            source.close()
            target.close()

    def end(self):
        self.listener.close()


def content_of(path):
    with open(path, "rb") as file:
        return file.read()


def put(program, carry):
    """How many bytes were sent for each of a content's, and what is wrong."""
    grid, wrong = Grid(os.getcwd(), program, carry, "front"), []
    with open(grid.plan, "w", encoding="ascii") as out:
        out.write(PLAN)
    content = os.urandom(SIZE)
    with open("content", "wb") as out:
        out.write(content)
    grid.set_up("--connections", "many", "--rate", RATE)
    relay = Relay(grid.port + 1)
    try:
        grid.start()
        words = ["--broker", f"localhost:{relay.port}", *grid.words_for("ann")[2:], "--tenant", "ann", "--locks", "locks"]
        for asked in (["put", "content", "name"], ["get", "name", "copy"]):
            done = subprocess.run([CLIENT, *words, *asked], stdout=subprocess.PIPE, stderr=subprocess.PIPE, timeout=120)
            if done.returncode or done.stdout or done.stderr:
                wrong.append(f"{asked}: status {done.returncode}, {done.stderr!r}")
            if asked[0] == "put":
                sent = relay.count
        wrong += ["another content was got than was put"] * (not wrong and content_of("copy") != content)
    finally:
        relay.end()
        grid.end()
    if not 2 * SIZE <= sent <= MOST * 2 * SIZE:
        wrong.append(f"a put of {SIZE} bytes has sent {sent}")
    return f"{sent / 2 / SIZE:.3f} of what two nodes take were sent", wrong
