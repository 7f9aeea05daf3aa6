#!/usr/bin/python3
"""A stand-in for a grid that has a million names from its start: one process, whose files are perfect registers in memory.

    filled.py CHECKOUT FOLDER NAMES SIZES

It opens FOLDER/socket and writes FOLDER/carol.ini. The pages and journals of FOLDER/plan are as a client from before chunks would have written them, with so many
objects in the bucket `bench`, of sizes of this list by turns (`1000,20000`; up to 40 bytes stand in lines, others in slots). Pieces are made when they are read. What is
put is kept in chunks. A line
`0 bench counts` is told how many requests of each kind came since the last one, and their bytes.
"""

import asyncio
import collections
import hashlib
import itertools
import json
import os
import re
import sys

sys.dont_write_bytecode = True
if __name__ == "__main__":
    CHECKOUT, FOLDER = sys.argv[1:3]
    sys.path.insert(0, os.path.join(CHECKOUT, "clients", "python"))
sys.path.append(os.path.join(os.path.dirname(os.path.abspath(__file__)), "..", "..", "tests", "s3"))
from gridfs_client.contents import digest_of, to_base64
from gridfs_client.layout import Layout, Volume
from gridfs_client.opening import turn_of
from stand_in import Server, about_chunks

FOLDERS, STAMP = 1_000, 1_790_000_000_000


def name_of(number):
    return f"bench/{number % FOLDERS:03}/{number:07}"


def tenant_of(text):
    """Sessions, share, most and volumes of carol."""
    for words in (line.split() for line in text.splitlines()):
        if words[:2] == ["tenant", "carol"]:
            sessions, share, most, volumes = int(words[3]), int(words[2]), int(words[5]), []
        elif words[:2] == ["carol", "open"]:
            volumes += [(int(words[2]), int(words[3]))] * (int(words[5]) if words[4:5] == ["times"] else 1)
    return sessions, share, most, volumes


class Classes:
    """The slots of a session by their room, as they are taken one after another."""

    def __init__(self, layout, session):
        self.next, number = {}, 0
        most = len(layout.slots(session))
        for volume in layout.volumes[layout.names_volumes :]:
            count = sum(file % layout.sessions + 1 == session for file in range(volume.files)) if volume.files < layout.sessions else (volume.files - session) // layout.sessions + 1
            count = max(0, min(count, most - number))
            if volume.room not in self.next:
                self.next[volume.room] = []
            self.next[volume.room].append(iter(range(number, number + count)))
            number += count

    def take(self, size):
        for room in sorted(self.next):
            while room >= size and self.next[room]:
                found = next(self.next[room][0], None)
                if found is not None:
                    return found
                self.next[room].pop(0)
        raise SystemExit(f"no slot for {size} bytes")


class Filled:
    def __init__(self, plan, names, sizes):
        self.sessions, self.share, self.most, self.volumes = tenant_of(plan)
        self.layout = Layout(self.sessions, tuple(Volume(*each) for each in self.volumes))
        self.last, self.told, self.files, self.pieces, self.slot_of = {}, {}, {}, {}, {}
        self.counts, self.bytes, self.chunks = collections.Counter(), 0, Server(0, 1 << 40)
        told = [f"{files}.{blocks}" for files, blocks in self.volumes]
        if len(told) > 64:
            told = [f"{word}.{len(list(alike))}" for word, alike in itertools.groupby(told)]
        self.plan = f"plan 1 0 {self.sessions} {self.share} {self.most} {' '.join(told)} lines=3 rows=1 columns=1"
        self.sizes = [(size, digest_of(b"x" * size), hashlib.md5(b"x" * size).hexdigest()) for size in sizes]
        self.fill(names)

    def fill(self, names):
        layout = self.layout
        pages, puts = collections.defaultdict(list), collections.Counter()
        classes = {session: Classes(layout, session) for session in range(1, self.sessions + 1)}
        pages[layout.page_of(".s3/bucket/bench"), 1].append(f"1 {{t={STAMP}}} @ .s3/bucket/bench\n")
        for number in range(names):
            name = name_of(number)
            session, page = 1 + turn_of(name, self.sessions), layout.page_of(name)
            which = number % len(self.sizes)
            size, digest, md5 = self.sizes[which]
            words = f"{number + 2} {{t={STAMP}&m={md5}}}"
            if size <= 40:
                pages[page, session].append(f"{words} @{to_base64(b'x' * size)} {name}\n")
                continue
            slot = classes[session].take(size + 30)
            puts[session] += 1
            put = puts[session] - 1
            place = layout.slots(session)[slot]
            self.pieces[place.volume, place.file] = session, put, which
            if names <= 200_000:
                self.slot_of[name] = place.volume, place.file
            pages[page, session].append(f"{words} {size} {digest} {put} {session}:{slot} {name}\n")
        for (page, session), lines in pages.items():
            number = max(int(line.split(" ", 1)[0]) for line in lines)
            content = f"names 2 {number}\n{''.join(lines)}".encode()
            self.files[layout.page(session, page)] = self.files[layout.journal(session, page)] = number, session, content
        lengths = [len(content) for _, _, content in self.files.values()]
        self.fullest = max(lengths, default=0)

    def file(self, volume, file):
        found = self.files.get((volume, file))
        if found is None and (piece := self.pieces.get((volume, file))):
            session, put, which = piece
            return 1, session, f"{session}.{put} 0\n".encode() + b"x" * self.sizes[which][0]
        return found or (0, 0, b"")

    def length(self, volume, file):
        number, session, content = self.file(volume, file)
        return f"{len(content)}:{number}.{session}"

    def rows(self, volume):
        return " ".join(self.length(volume, file) for file in range(self.volumes[volume][0]))

    def answer(self, body):
        words = body.split(" ")
        if words == ["plan"]:
            return self.plan
        if words[0] == "look":
            self.counts["look"] += 1
            return f"looked {words[1]} {words[2]} 0 {self.rows(int(words[2]))}"
        if words[0] not in ("read", "write", "list", "abandon"):  # (it keeps no chunks)
            return "refused bad"
        kind, session, operation, *rest = words
        session, operation = int(session), int(operation)
        last = self.last.get(session, 0)
        self.counts[kind] += 1
        if not 1 <= session <= self.sessions:
            return f"refused nosession {session} {operation}"
        if operation == last and last:
            return self.told[session]
        if operation <= last:
            return f"refused old {session} {operation} {last}"
        if operation > last + 1 or kind == "abandon":
            return f"refused early {session} {operation} {last}"
        volume = int(rest[0])
        if kind == "list":
            told = f"done list {session} {operation} {self.rows(volume)}"
        else:
            file = int(rest[1])
            number, writer, content = self.file(volume, file)
            if kind == "write":
                content = b"" if rest[2] == "-" else bytes.fromhex(rest[2])
                assert len(content) <= 64 * self.volumes[volume][1]
                number, writer = number + 1, session
                self.files[volume, file] = number, writer, content
                told = f"done write {session} {operation} tag {number} {writer}"
            else:
                told = f"done read {session} {operation} tag {number} {writer} {content.hex() or '-'}"
            self.bytes += len(content)
        self.last[session], self.told[session] = operation, told
        return told

    def count(self):
        told = json.dumps({**self.counts, "bytes": self.bytes})
        self.counts.clear()
        self.bytes = 0
        return told


async def main(names, sizes):
    with open(os.path.join(FOLDER, "plan"), encoding="ascii") as text:
        tenant = Filled(text.read(), int(names), [int(size) for size in sizes.split(",")])
    path = os.path.abspath(os.path.join(FOLDER, "socket"))

    async def serve(reader, writer):
        while line := await reader.readline():
            to, name, body = line.rstrip(b"\n").split(b" ", 2)
            if name == b"bench":
                writer.write(tenant.count().encode() + b"\n")
            elif to == b"0" and name == b"carol" and re.match(b"[a-z]", body):
                told = about_chunks(tenant, body) or (tenant.answer(body.decode()) or "").encode()
                writer.write(b"carol 0 %b\n" % told if told else b"")

    await asyncio.start_unix_server(serve, path, limit=1 << 23)
    with open(os.path.join(FOLDER, "carol.ini"), "w", encoding="ascii") as out:
        out.write(f"[gridfs]\ntenant = carol\nsocket = {path}\n")
    print(f"up {tenant.layout.pages} {tenant.fullest}", flush=True)
    await asyncio.Event().wait()


if __name__ == "__main__":
    asyncio.run(main(*sys.argv[3:]))
