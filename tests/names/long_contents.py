"""A content that is longer than the memory that a client may take for it.

    long_contents.py MIB    puts so many MiB from a file and from a pipe, gets them again, and tells the most memory of the process, in KiB

All nodes are one object here, which answers each line at once and keeps contents compressed; they have room for chunks.
"""

import os
import sys
import tempfile
import threading
import zlib

import histories as _  # which sets the path of the client

from gridfs_client import NamedFiles, PlanTold, Session, layout_of
from gridfs_client.carriers import Carrier
from gridfs_client.chunk_lines import content_in, escaped
from gridfs_client.grid import Shape

MIB = 1 << 20
PLAN = PlanTold(4, 0, 4, 4_000_000, 16_384, ((8, 1024), (8, 1024), (1, 1)))


class AllNodes(Carrier):
    """Registers and chunks behind the lines of nodes: each operation is done as soon as it begins."""

    def __init__(self):
        super().__init__()
        self.files, self.last, self.chunks, self.guard = {}, {}, {}, threading.Lock()
        self.told, self.shape = PLAN, Shape(2, 2)

    def send(self, node, body):
        if body == b"plan":  # (which tells of no looks, so volumes are listed)
            volumes = " ".join(f"{files}.{blocks}" for files, blocks in PLAN.volumes)
            self.deliver(str(node), f"plan {PLAN.nodes} {PLAN.home} {PLAN.sessions} {PLAN.share} {PLAN.most} {volumes}")
            return
        kind, *rest = body.split(b" ", 4 if body.startswith((b"get", b"keep")) else 5)
        with self.guard:
            answer = self.of_chunks(kind, rest) if kind in (b"room", b"keep", b"get", b"forget") else self.answer(kind, rest[0], int(rest[1]), rest[2:])
        self.deliver_line(str(node), answer)

    def of_chunks(self, kind, words):
        if kind == b"room":
            return b"room 0 %d 0 0" % (1 << 40)
        key = tuple(words[:2])
        if kind == b"keep":
            if key not in self.chunks:
                self.chunks[key] = zlib.compress(content_in(words[2]), 1)
            return b"kept %b %b 0" % key
        if kind == b"forget":
            return b"forgot %b %b %b %b" % tuple(words)
        content, first, length = zlib.decompress(self.chunks[key]), int(words[2]), int(words[3])
        return b"got %b %b %d %d ~%b" % (*key, len(content), first, escaped(content[first : first + length]))

    def answer(self, kind, session, operation, rest):
        last = self.last.get(session, 0)
        if kind == b"abandon":
            return b"refused early %b %d %d" % (session, operation, last)
        self.last[session] = operation
        told = b"done %b %b %d" % (kind, session, operation)
        if kind == b"list":
            number = PLAN.volumes[int(rest[0])][0]
            tags = (self.files.get((rest[0], b"%d" % file), (0, 0))[:2] for file in range(number))
            return told + b"".join(b" 0:%d.%d" % (tag, tag and int(by)) for tag, by in tags)
        place = rest[0], rest[1]
        if kind == b"write":
            self.files[place] = self.files.get(place, (0, 0))[0] + 1, session, zlib.compress(rest[2], 1)
            return told + b" tag %d %b" % self.files[place][:2]
        tag, by, content = self.files.get(place, (0, b"0", zlib.compress(b"-")))
        return told + b" tag %d %b %b" % (tag, by, zlib.decompress(content))

    def close(self):
        pass


def write_content(out, count):
    """So many MiB, which compress well and of which no two are alike."""
    for number in range(count):
        out.write(b"%7d\n" % number * (MIB // 8))


def is_content(file, count):
    return all(file.read(MIB) == b"%7d\n" % number * (MIB // 8) for number in range(count)) and not file.read(1)


def most_memory():
    """The most memory of this process so far, in KiB. (What `getrusage` tells counts also that of whoever began it.)"""
    with open("/proc/self/status", encoding="ascii") as file:
        return next(int(line.split()[1]) for line in file if line.startswith("VmHWM:"))


def main(count):
    carrier = AllNodes()
    files = NamedFiles(Session(carrier, 1, PLAN.home_of(1)), layout_of(PLAN))
    with tempfile.TemporaryFile() as content, tempfile.TemporaryFile() as copy:
        write_content(content, count)
        content.seek(0)
        files.put("from a file", content)
        read, write = os.pipe()
        with os.fdopen(read, "rb") as source, os.fdopen(write, "wb") as target:
            threading.Thread(target=lambda: (write_content(target, count), target.close())).start()
            files.put("from a pipe", source)
        for name in ("from a file", "from a pipe"):
            copy.seek(0)
            files.get_to(name, copy)
            copy.seek(0)
            if not is_content(copy, count):
                sys.exit(f"{name}: another content was got")
    print(most_memory())


if __name__ == "__main__":
    main(int(sys.argv[1]))
