"""Who may say and read what at the broker, and what a flood of one tenant does to another."""

import base64
import json
import os
import re
import ssl
import subprocess
import threading
import time

from grid_commands import NAMES, wait_for, write_plan
from carried_storms import LOAD
from peers import CLIENT, Speaker, message

HEARD = 0.7  # seconds in which what was said would have come
SESSIONS, SECONDS = 4, 2  # of ann's, amid a flood, and its seconds
MOST_TIMES = 4  # that ann's median may be of the one without a flood
RECORD = 200_000  # bytes that bob gives to TLS at once, so that messages lie across its records


def password(grid, name):
    with open(os.path.join(grid.broker_folder, "secret", str(name)), encoding="ascii") as file:
        return file.readline().strip()


def context_of(grid):
    return ssl.create_default_context(cafile=os.path.join(grid.broker_folder, "ca.crt")) if grid.tls != "none" else None


def speaker(grid, user, name=None):
    return Speaker(grid.port + (not str(user).isdecimal()), str(user), password(grid, user), name or f"gridfs-{user}", context_of(grid))


def asked(grid, *words):
    """What the client answers ann, as JSON."""
    command = [CLIENT, "--config", grid.write_settings("ann"), "--locks", os.path.join(grid.folder, "locks"), *words, "--json"]
    done = subprocess.run(command, input="secret", stdout=subprocess.PIPE, stderr=subprocess.PIPE, text=True, timeout=40)
    if done.returncode:
        raise OSError(f"the client says {done.stderr!r}, status {done.returncode}")
    return json.loads(done.stdout)


def told_apart(grid):
    """What was wrong of who may say and read what. It is the same list for a broker that refuses nothing, which has to be long."""
    wrong, bob = [], speaker(grid, "bob")
    bob.listen_to("#", "gridfs/#", "gridfs/ann/+", "gridfs/+/+", "gridfs/0/+", "gridfs/+/0", "$SYS/#")
    asked(grid, "write", "0", "0", "-")
    if base64.b64decode(asked(grid, "read", "0", "0")["content"]) != b"secret":
        wrong.append("ann does not read what she wrote")
    time.sleep(HEARD)
    wrong += [f"bob reads {topic}" for topic in {topic for topic, _ in bob.heard}]

    # (a user has one connection, so the carriers of two nodes make room for ours)
    for number in (2, 3):
        grid.processes[number].terminate()
        grid.processes[number].wait()
    ann, node = speaker(grid, "ann", "gridfs-spare"), speaker(grid, 3, "gridfs-spare3")
    node.listen_to("gridfs/3/+")
    ann.listen_to("gridfs/ann/+")
    time.sleep(HEARD)
    said = {
        ("gridfs/3/ann", b"write 1 77 0 0 66"): "bob speaks for ann",
        ("gridfs/3/0", b"ann 1 77 2 0 0 store 9 1 66"): "bob speaks for a node",
        ("gridfs/ann/0", b"done write 1 77 tag 9 1"): "bob tells ann what a node might",
        ("gridfs/ann/bob", b"do read this"): "bob writes to ann",
    }
    for topic, body in said:
        bob.say(topic, body)
    other = speaker(grid, 2, "gridfs-spare2")
    other.say("gridfs/3/0", b"ann 1 78 2 0 0 store 9 1 66")
    other.say("gridfs/3/2", b"this is right")
    if not wait_for(lambda: ("gridfs/3/2", b"this is right") in node.heard):
        wrong.append("a node does not hear another")
    time.sleep(HEARD)
    heard = node.heard + ann.heard
    wrong += [what for (topic, body), what in said.items() if (topic, body) in heard]
    if ("gridfs/3/0", b"ann 1 78 2 0 0 store 9 1 66") in heard:
        wrong.append("a node speaks for another")
    for each in (ann, node, other):
        each.end()

    before = grid.told(0).count("disconnected")
    for name in ("0", "gridfs-0"):
        thief = speaker(grid, "bob", name)
        time.sleep(HEARD)
        thief.end()
    if grid.told(0).count("disconnected") != before:
        wrong.append("bob throws node 0 out by taking its name")
    nobody = Speaker(grid.port + 1, context=context_of(grid))
    if nobody.is_let_in:
        wrong.append("nobody is let in without a password")
    liar = Speaker(grid.port + 1, "ann", "not her word", context=context_of(grid))
    if liar.is_let_in:
        wrong.append("somebody is let in with a wrong password")
    guest = Speaker(grid.port, "bob", password(grid, "bob"), context=context_of(grid))
    if guest.is_let_in:
        wrong.append("a tenant is let in at the port of the nodes, which has no bound")
    for each in (bob, nobody, liar, guest):
        each.end()
    return wrong


def open_broker(grid):
    """Has the broker refuse nothing."""
    path = os.path.join(grid.broker_folder, "mosquitto.conf")
    with open(path) as file:
        text = file.read()
    text = re.sub(r"acl_file.*|password_file.*|use_username_as_clientid true", "", text).replace("allow_anonymous false", "allow_anonymous true")
    with open(path, "w") as out:
        out.write(text)


# What bob floods the nodes with: lines that a node has to look at, many in a message, the longest, and such as have no form.
SHORT = [b"read 1 1 0 0", b"abandon 3 4294967295", b"write 2 1 0 0 " + b"ab" * 20]
FLOODS = {
    "a line a message": SHORT * 10,
    "blocks of lines": [b"\n".join(SHORT * 600)],
    "long lines": [b"write 1 1 0 0 " + b"ab" * 2_030] * 3,
    "no form": [b"\0\xff\r" * 30, b"write", b"0 0 tick", b"ann 1 1 1 0 0 ask", b"x" * 5_000, b"\n\n\n", b""],
}


class Flood:
    """Bob says as much as his connection takes, to each node in turn, until it is told to end."""

    def __init__(self, grid, bodies, fills_records=True):
        self.speaker = speaker(grid, "bob")
        self.blocks = [message(b"gridfs/%d/bob" % node, body) for body in bodies for node in range(4)]
        if fills_records:
            whole = b"".join(self.blocks)
            self.blocks = [whole * max(1, RECORD // len(whole))]
        self.is_on, self.bytes = True, 0
        self.thread = threading.Thread(target=self.run, daemon=True)
        self.thread.start()

    def run(self):
        try:
            while self.is_on:
                for block in self.blocks:
                    self.speaker.peer.sendall(block)
                    self.bytes += len(block)
        except OSError:
            pass

    def end(self):
        self.is_on = False
        self.thread.join(2)
        self.speaker.end()


def load(grid, seconds=SECONDS, timeout=30):
    """Ann's operations a second and their median and 99th of 100 in ms; None where the client did not end by itself."""
    words = ["--sessions", str(SESSIONS), "--seconds", str(seconds), "--timeout", str(timeout), "--json", grid.write_settings("ann")]
    done = subprocess.run([LOAD, *words], stdout=subprocess.PIPE, stderr=subprocess.PIPE, text=True)
    if done.returncode:
        return None
    told = json.loads(done.stdout)
    taken = sorted(told["took_ms"]["read"] + told["took_ms"]["write"])
    return told["a_second"], taken[len(taken) // 2], taken[len(taken) * 99 // 100]


def load_beside(grid, bodies):
    """The same, beside a flood of bob's."""
    flood = Flood(grid, bodies)
    try:
        return load(grid)
    finally:
        flood.end()


def dropped(grid):
    """Whose lines the carriers dropped for want of room, as they tell at SIGUSR1 and at their end."""
    return {name for number in range(grid.count) for name in re.findall(r"lines from (\w+) were more than the bound", grid.told(number))}
