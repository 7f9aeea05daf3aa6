"""The way back over real nodes: contents of each form in a grid that runs, copies of its nodes while it does, and
what is got of them, byte for byte.
"""

import hashlib
import json
import os
import shutil
import signal
import subprocess
import time

import with_room
from commands import PYTHON, SECONDS, TOP
from growing import planned
from with_room import Lasting, Seen, run

from gridfs_client.contents import joined
from gridfs_client.grid import Shape
from gridfs_client.streams import Source

JOURNALS = os.path.join(TOP, "clients", "python", "gridfs-journals")
TENANT, OTHER, WISH = with_room.TENANT, "dora", "400M 12 names 3 commands"
NODES, ROWS, COLUMNS = range(4), ((0, 1), (2, 3)), ((0, 2), (1, 3))
SHORT = 16 << 10  # bytes of a chunk that is kept in the journal
SIZES = {
    "in the page": 40, "in the journal": 4 << 10, "at the bound": SHORT, "behind the bound": SHORT + 1,
    "one chunk": 1 << 20, "long": 64 << 20,
}  # fmt: skip
PARTS, PART_BYTES, IN_A_LIST = 300, 20_000, 256  # of an upload
DEAD = 20 << 20  # bytes that are forgotten, so that what is beside them has to be moved
OFTEN = "--tick", "0.1"  # so that segments go soon
LACKING = 10  # status
BESIDE = "beside"  # what is put meanwhile


def journals(*words):
    done = subprocess.run([PYTHON, "-B", JOURNALS, *words], capture_output=True, text=True, timeout=8 * SECONDS)
    return done.returncode, done.stdout, done.stderr


def journal_of(node):
    return f"grid/node{node}.journal"


def shelf_told(node):
    return json.loads(journals("shelf", "--json", journal_of(node))[1])[0]


def files_in(folder):
    found = {}
    for inside, _, names in os.walk(folder):
        for name in names:
            path = os.path.join(inside, name)
            with open(path, "rb") as file:
                found[os.path.relpath(path, folder)] = hashlib.file_digest(file, "sha256").hexdigest()
    return found


class Contents:
    """What is put, by its digest; and all that was ever put."""

    def __init__(self, seen):
        self.seen, self.held, self.ever = seen, {}, {}

    def put(self, name, content):
        self.seen.held(f"put {name}", run("put", "-", name, given=content), (0, b""))
        self.note(name, content)

    def note(self, name, content):
        self.held[name] = hashlib.sha256(content).hexdigest()
        self.ever.setdefault(name, set()).add(self.held[name])

    def put_all(self):
        for name, size in SIZES.items():
            self.put(name, os.urandom(size))
        self.put("over", os.urandom(70_000))
        self.put("over", os.urandom(70_000))
        self.put("gone", b"x" * 70_000)
        self.seen.held("rm", run("rm", "gone"), (0, b""))
        del self.held["gone"]
        self.put_parts("upload")

    def put_parts(self, name):
        """Parts that lists name, as a long upload to S3 leaves them."""
        client = Lasting()
        client.carrier.shape = Shape(2, 2)
        client.files = [type(files)(files.session, client.layout) for files in client.files]
        files = client.files[0]
        contents, parts = files.writer.contents, [os.urandom(PART_BYTES + number) for number in range(PARTS)]
        put = [contents.put(Source(part), number % 2, lambda *_: None) for number, part in enumerate(parts)]
        numbered = [(part, f"{{{number}}}") for number, part in enumerate(put)]
        listed = [contents.put_list(numbered[at : at + IN_A_LIST], 1) for at in range(0, PARTS, IN_A_LIST)]
        bucket = files.bucket(name)
        bucket.look()
        files.commit(bucket, name, joined(listed))
        client.carrier.close()
        self.note(name, b"".join(parts))

    def move_segments(self, nodes):
        """What lies beside much that is forgotten is moved, and its segment goes."""
        before = [set(os.listdir(f"{journal_of(node)}.shelf")) for node in NODES]
        self.seen.held("rm of what is dead", run("rm", *(f"dead {number}" for number in range(4)))[0], 0)
        self.seen.held("sweep", run("sweep")[0], 0)  # (where nodes were slow to forget)
        for node in NODES:  # (a node looks for such segments as it starts)
            nodes.ask(f"kill {node}")
            nodes.ask(f"start {node}")
        there = lambda: [min(before[node]) in os.listdir(f"{journal_of(node)}.shelf") for node in NODES]
        until = time.monotonic() + 10 * SECONDS
        while any(there()) and time.monotonic() < until:
            time.sleep(0.2)
        for number in range(4):
            del self.held[f"dead {number}"]
        self.seen.held("segments that went", there(), [False] * 4)

    def got(self, what, paths):
        """What `get` makes of the journals of a whole row is what was put."""
        status, found, why = gets(paths)
        self.seen.held(f"{what}: {why[-300:]}", (status, found), (0, self.held))
        return why


def gets(paths, *more):
    """Status, digests of what is got, and what is told besides; all but for what is put meanwhile, of which no whole
    copy may be there.
    """
    shutil.rmtree("out", ignore_errors=True)
    status, _, why = journals("get", *more, TENANT, "out", *paths)
    lacking = [line for line in why.splitlines() if "no copy of chunk" in line]
    if status == LACKING and lacking and all(f": {BESIDE}: no copy of chunk" in line for line in lacking):
        status = 0
    return status, {name: digest for name, digest in files_in("out").items() if name != BESIDE}, why


def filled(program, seen):
    """A grid in whose folder contents of all forms are: it ended twice, and a tenant left."""
    contents = Contents(seen)
    first, later = f"{TENANT} {WISH}\n{OTHER} 20M 5 names 1 commands\n", f"grow {TENANT} 100 names\ngone {OTHER}\n"
    seen.held("a plan", planned(program, "first", first), 0)
    seen.held("a later plan", planned(program, "later", later, "--from", "first"), 0)
    with with_room.grid_of(program, "first", *OFTEN):
        contents.put("moved", os.urandom(100_000))
        for number in range(4):
            contents.put(f"dead {number}", os.urandom(DEAD))
        other = {**os.environ, "GRIDFS_CONFIG": f"grid/{OTHER}.ini", "GRIDFS_LOCKS": "locks"}
        with open("given", "wb") as out:
            out.write(b"hers" * 9_000)
        words = [PYTHON, "-B", with_room.CLIENT, "put", "given", "hers"]
        seen.held("put by another tenant", subprocess.run(words, env=other, timeout=SECONDS).returncode, 0)
        status = journals("get", OTHER, "hers", *map(journal_of, ROWS[1]))[0]
        hers = hashlib.sha256(b"hers" * 9_000).hexdigest()
        seen.held("of another tenant", (status, files_in("hers")), (0, {"hers": hers}))
    return contents


def way_back(program):
    seen = Seen()
    contents = filled(program, seen)
    with with_room.grid_of(program, "later", *OFTEN) as nodes:
        contents.put_all()
        contents.move_segments(nodes)
        for _ in range(3):  # (each session that is free splits its pages)
            seen.held("grow", run("grow")[0], 0)
        contents.put("once it has grown", os.urandom(70_000))
        beside = Beside()
        for row in ROWS:
            contents.got(f"of running nodes, row {row}", map(journal_of, row))
        for node in NODES:
            seen.held(f"copy of node {node}", journals("copy", journal_of(node), f"copies/{node}")[0], 0)
        seen.held("a state", journals("state", "state", *map(journal_of, NODES))[0], 0)
        for folder in ("copies", "state"):
            for row in ROWS:
                why = contents.got(f"of {folder}, row {row}", [f"{folder}/{node}/journal" for node in row])
        seen.held("what a state lacks", why, "")
        seen.wrong += beside.end()
        seen.held("puts beside", beside.count > 1, True)
        of_one_who_left(seen)
        of_one_column(contents)
    in_another_shape(program, contents)
    for node in NODES:  # (which have ended)
        seen.held(f"the last copy of node {node}", journals("copy", journal_of(node), f"copies/{node}")[0], 0)
    starts_from("state", "state/plan", program, contents)
    starts_from("copies", "later", program, contents)
    counted = f"{seen.count} compared, {len(contents.held)} contents of all forms, {beside.count} puts beside"
    return f"the way back: {counted}", seen.wrong


class Beside:
    """Puts one name again and again, of contents that lie on the shelf, in a process of its own."""

    def __init__(self):
        put = f'head -c 3000000 /dev/urandom | {PYTHON} -B "{with_room.CLIENT}" put - {BESIDE}'
        words = ["sh", "-c", f"n=0; while {put}; do n=$((n + 1)); echo $n; done"]
        settings = {"GRIDFS_CONFIG": f"grid/{TENANT}.ini", "GRIDFS_LOCKS": "locks"}
        pipes = {"stdout": subprocess.PIPE, "stderr": subprocess.PIPE}
        self.process = subprocess.Popen(words, **pipes, env={**os.environ, **settings}, process_group=0)
        self.count = 0

    def end(self):
        is_going = self.process.poll() is None
        os.killpg(self.process.pid, signal.SIGTERM)
        told, why = self.process.communicate(timeout=SECONDS)
        self.count = told.count(b"\n")
        return [] if is_going else [f"puts beside ended: {why[-300:]!r}"]


def of_one_who_left(seen):
    status, _, told = journals("get", OTHER, "left", *map(journal_of, ROWS[0]))
    seen.held("of one who left", (status, f"no tenant {OTHER}" in told), (2, True))
    for node in NODES:
        with open(journal_of(node), "rb") as file:
            facts = file.read().partition(b"\nsync 1 ")[2]
        seen.held(f"facts of one who left at node {node}", f" {OTHER} ".encode() in facts, False)


def of_one_column(contents):
    """The grid is lost but for the disks of one column. What these have is got, maybe as it was before its last
    change; what they name and lack is told and counted.
    """
    known, statuses = set(), []
    for column in COLUMNS:
        status, found, why = gets([f"copies/{node}/journal" for node in column], "--as-they-are")
        skipped = {name for name in contents.ever if f"/{name}: {name}: no copy of chunk " in why}
        known |= found.keys() | skipped
        statuses.append(status)
        wrong = {name for name, digest in found.items() if digest not in contents.ever[name]}
        contents.seen.held(f"contents of column {column}", wrong, set())
        contents.seen.held(f"got and told of column {column}", found.keys() & skipped, set())
        contents.seen.held(f"of column {column}: {why[-300:]}", status == LACKING, bool(skipped))
    contents.seen.held("names of one column or the other", contents.held.keys() - known, set())
    contents.seen.held(f"what lies in both columns: {statuses}", LACKING in statuses, True)


def in_another_shape(program, contents):
    """What is got of a state goes into a new grid of three rows and one column, by its names."""
    seen = contents.seen
    status, found, _ = gets([f"state/{node}/journal" for node in ROWS[0]])
    seen.held("what is brought elsewhere", (status, found), (0, contents.held))
    os.mkdir("other")
    os.chdir("other")
    seen.held("a plan of another shape", planned(program, "plan", f"grid 3 1\n{TENANT} {WISH}\n"), 0)
    with with_room.grid_of(program, "plan", *OFTEN):
        seen.held("mirror to another shape", run("mirror", "--quiet", "../out", "grid:"), (0, b""))
        seen.held("mirror from there", run("mirror", "--quiet", "grid:", "back"), (0, b""))
    there = {name: digest for name, digest in files_in("back").items() if name != BESIDE}
    os.chdir("..")
    seen.held("what another shape has", there, contents.held)


def starts_from(folder, plan, program, contents):
    """A grid of new nodes, from the copies in this folder, is as it was, and goes on."""
    seen, held = contents.seen, dict(contents.held)
    shutil.rmtree("grid")
    os.mkdir("grid")
    shutil.copy(plan, "grid/plan")
    for node in NODES:
        for ending in ("", ".shelf"):
            os.rename(f"{folder}/{node}/journal{ending}", journal_of(node) + ending)
    shutil.rmtree("back", ignore_errors=True)
    with with_room.grid_of(program, "grid/plan", *OFTEN):
        seen.held("mirror", run("mirror", "--quiet", "grid:", "back")[0], 0)
        found = files_in("back")
        found.pop(BESIDE, None)
        seen.held(f"what the grid has that started from {folder}", found, held)
        contents.put("put there", os.urandom(70_000))
        contents.got(f"of the nodes that started from {folder}", map(journal_of, ROWS[0]))
    contents.held = held


if __name__ == "__main__":
    import sys

    print(*way_back(sys.argv[1]), sep="\n")
