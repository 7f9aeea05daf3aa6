"""Gateways of a tenant as on several machines: each with certificate and addresses of its own, over wires that fail."""

import contextlib
import os
import re
import select
import socket
import stat
import subprocess
import threading
import time

from code_of_s3 import TOP
from endpoint import free_port

SETUP = os.path.join(TOP, "deploy", "links", "setup")


def certificates(folder, *words, tenants=("carol", "dave")):
    """Certificates of these tenants in FOLDER/secret, as deploy/links/setup makes them from a plan."""
    plan = os.path.join(folder, "gridfs")
    with open(plan, "w") as out:
        out.write("#!/bin/sh\n" + "".join(f"echo tenant={name}\n" for name in tenants))
    os.chmod(plan, stat.S_IRWXU)
    subprocess.run([SETUP, *words, folder, plan], env={**os.environ, "GRIDFS": plan}, check=True, capture_output=True)
    return os.path.join(folder, "secret")


def settings_of(secret, name="carol", listen=None, peers=()):
    found = {"certificate": f"{secret}/{name}.crt", "key": f"{secret}/{name}.key"} if secret else {}
    return found | ({"peers-listen": listen} if listen else {}) | ({"peers": " ".join(peers)} if peers else {})


class Machine:
    """The settings of a gateway that reaches others by addresses alone, and the wire by which they reach it. It has another name for the socket of the grid, so the names of its sessions are others."""

    def __init__(self, room, name):
        self.path, self.name = os.path.join(room, f"{name}.ini"), name
        port = free_port()
        self.listen, self.wire = f"127.0.0.1:{port}", Wire(port)

    def write(self, room, peers, secret):
        os.link(os.path.join(room, "socket"), os.path.join(room, f"socket.{self.name}"))
        with open(os.path.join(room, "carol.ini")) as file, open(self.path, "w") as out:
            out.write(re.sub("^socket = .*", f"socket = {room}/socket.{self.name}", file.read(), flags=re.MULTILINE))
            out.writelines(f"{key} = {value}\n" for key, value in settings_of(secret, "carol", self.listen, peers).items())


def machines(room, stack, names):
    """Machines beside the socket of a grid, each of which asks all: itself too, which it can't know."""
    found = {name: Machine(room, name) for name in names}
    secret = certificates(room)
    for machine in found.values():
        stack.callback(machine.wire.close)
        machine.write(room, [each.wire.address for each in found.values()], secret)
    return found


class Wire:
    """An address at which another one is reached. What goes on there is by `how`: `up`, `down` (connections end at once), `stuck` (nothing comes), `slow` (each thing said, by so many seconds)."""

    def __init__(self, port, slow=0.1):
        self.port, self.slow, self.how, self.count = port, slow, "up", 0
        self.listener = socket.create_server(("127.0.0.1", 0))
        self.address = f"127.0.0.1:{self.listener.getsockname()[1]}"
        threading.Thread(target=self.serve, daemon=True).start()

    def serve(self):
        with contextlib.suppress(OSError):
            while True:
                threading.Thread(target=self.carry, args=(self.listener.accept()[0],), daemon=True).start()

    def carry(self, near):
        self.count += 1
        with near, contextlib.suppress(OSError):
            if self.how == "stuck":
                time.sleep(3)
            if self.how in ("up", "slow"):
                with socket.create_connection(("127.0.0.1", self.port)) as far:
                    while ready := select.select([near, far], [], [], 90)[0]:
                        for each in ready:
                            if not (came := each.recv(1 << 16)) or self.how not in ("up", "slow"):
                                return
                            time.sleep(self.slow if self.how == "slow" else 0)
                            (far if each is near else near).sendall(came)

    def close(self):
        self.listener.close()
