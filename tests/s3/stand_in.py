#!/usr/bin/python3
"""A stand-in for a grid, for tests of what stands before it: one process, whose files are perfect registers in memory.

    stand_in.py PLAN FOLDER

It opens FOLDER/socket and writes NAME.ini for each tenant, as `./grid` does. Nothing is kept, and nothing is lost. At SIGHUP it reads the plan again, and tenants have the
volumes of that, and chunks if they had none. Where FOLDER/clock has a number, answers tell a clock that is so many seconds ahead; where FOLDER/slow has
one, each comes so many seconds later. A line `0 counts` is told how many requests of each kind came since the last one. Tenants with a line `chunks` in the plan have chunks too.
"""

import asyncio
import collections
import json
import os
import re
import signal
import sys
import time

sys.path.insert(0, os.path.join(os.path.dirname(os.path.abspath(__file__)), "..", "chunks"))
from servers import VERBS, Server


class Tenant:
    def __init__(self, sessions, share, most):
        self.sessions, self.share, self.most = sessions, share, most
        self.volumes, self.files, self.last, self.told = [], {}, {}, {}
        self.counts = collections.Counter()
        self.chunks = None  # a node that keeps some

    def plan(self):
        return f"plan 1 0 {self.sessions} {self.share} {self.most} {' '.join(f'{files}.{blocks}' for files, blocks in self.volumes)} lines=3 rows=1 columns=1"

    def rows(self, volume):
        """The words for the files of a volume."""
        found = (self.files.get((volume, file), (0, 0, "-")) for file in range(self.volumes[volume][0]))
        return " ".join(f"{0 if content == '-' else len(content) // 2}:{number}.{writer}" for number, writer, content in found)


def tenants_of(text):
    found = {}
    for words in (line.split() for line in text.splitlines()):
        if words[0] == "tenant":
            found[words[1]] = Tenant(int(words[3]), int(words[2]), int(words[5]))
        elif words[1:2] == ["open"]:
            times = int(words[5]) if words[4:5] == ["times"] else 1
            found[words[0]].volumes += [(int(words[2]), int(words[3]))] * times
        elif words[1:2] == ["chunks"]:
            found[words[0]].chunks = Server(0, 1024 * int(words[2]))
    return found


def about_chunks(tenant, body):
    """What the node tells of chunks; None where it was asked for something else."""
    verb = body.split(b" ", 1)[0]
    if verb not in (*VERBS, b"room"):
        return None
    tenant.counts[verb.decode()] += 1
    return tenant.chunks.take(body) if tenant.chunks else b"refused bad"


def answer(tenant, body):
    """What the node tells, or None."""
    words = body.split(" ")
    if words == ["plan"]:
        return tenant.plan()
    if words[0] == "look":
        tenant.counts["look"] += 1
        number, volume = map(int, words[1:])
        return f"looked {number} {volume} 0 {tenant.rows(volume)}" if volume < len(tenant.volumes) else f"refused novolume {number} {volume}"
    kind, session, operation, *rest = words
    session, operation = int(session), int(operation)
    tenant.counts[kind] += 1
    last = tenant.last.get(session, 0)
    if not 1 <= session <= tenant.sessions:
        return f"refused nosession {session} {operation}"
    if operation == last and last:
        return tenant.told[session]
    if operation <= last:
        return f"refused old {session} {operation} {last}"
    if operation > last + 1 or kind == "abandon":
        return f"refused early {session} {operation} {last}"
    volume = int(rest[0])
    if volume >= len(tenant.volumes):
        return f"refused novolume {session} {operation} {volume}"
    files, blocks = tenant.volumes[volume]
    if kind == "list":
        told = f"done list {session} {operation} {tenant.rows(volume)}"
    else:
        file = int(rest[1])
        if file >= files:
            return f"refused nofile {session} {operation} {volume} {file}"
        number, writer, content = tenant.files.get((volume, file), (0, 0, "-"))
        if kind == "write":
            if len(rest[2]) > 128 * blocks:
                return f"refused toolong {session} {operation} {volume} {file} {len(rest[2]) // 2}"
            number, writer = number + 1, session
            tenant.files[volume, file] = number, writer, rest[2]
            told = f"done write {session} {operation} tag {number} {writer}"
        else:
            told = f"done read {session} {operation} tag {number} {writer} {content}"
    tenant.last[session], tenant.told[session] = operation, told
    return told


async def main(plan, folder):
    with open(plan) as text:
        tenants = tenants_of(text.read())
    os.makedirs(folder, exist_ok=True)
    path = os.path.abspath(os.path.join(folder, "socket"))
    if os.path.exists(path):
        os.unlink(path)

    def number_in(name):
        """The number in a file; None where there is none."""
        try:
            with open(os.path.join(folder, name)) as file:
                return float(file.read())
        except FileNotFoundError:
            return None

    def clock_word():
        """What a carrier tells besides."""
        ahead = number_in("clock")
        return b"" if ahead is None else b" clock=%d" % (time.time() + ahead)

    async def serve(reader, writer):
        while line := await reader.readline():
            if line == b"0 counts\n":
                writer.write(json.dumps({name: dict(tenant.counts) for name, tenant in tenants.items()}).encode() + b"\n")
                for tenant in tenants.values():
                    tenant.counts.clear()
                continue
            to, name, body = line.rstrip(b"\n").split(b" ", 2)
            name = name.decode()
            if to == b"0" and name in tenants and re.match(b"[a-z]", body):
                told = about_chunks(tenants[name], body) or (answer(tenants[name], body.decode()) or "").encode()
                told += clock_word() * (body == b"plan")
                line = b"%b 0 %b\n" % (name.encode(), told) if told else b""
                if late := number_in("slow"):
                    asyncio.get_running_loop().call_later(late, writer.write, line)
                else:
                    writer.write(line)

    def read_again():
        with open(plan) as text:
            for name, found in tenants_of(text.read()).items():
                tenants[name].volumes, tenants[name].chunks = found.volumes, tenants[name].chunks or found.chunks

    asyncio.get_running_loop().add_signal_handler(signal.SIGHUP, read_again)
    await asyncio.start_unix_server(serve, path, limit=1 << 23)
    for name in tenants:
        with open(os.path.join(folder, f"{name}.ini"), "w") as out:
            out.write(f"[gridfs]\ntenant = {name}\nsocket = {path}\n" + "grid = 1x1\n" * bool(tenants[name].chunks))
    print("up", flush=True)
    await asyncio.Event().wait()


if __name__ == "__main__":
    asyncio.run(main(*sys.argv[1:]))
