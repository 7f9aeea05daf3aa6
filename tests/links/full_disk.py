"""The disk of one of four nodes is full, and the node is started again each second, as by its unit: what a client does meanwhile, and afterwards."""

import os
import resource
import subprocess
import threading
import time

from gridfs_client.opening import turn_of
from gridfs_grid.carrier import journal_of
from gridfs_grid.links import Command, Grid
from gridfs_grid.places import CLIENT
from processes import check

FULL, ROOM = 3, 10_000  # the node, and the bytes that its journal may grow still: a short line has room there, and a long one has none
SESSIONS, OF_FULL = 6, "4"  # of the tenant, and the first one whose home it is
FEW = 6  # files of a folder
TIMEOUT = 12  # seconds
PLAN = "grid 2 2\nroom 10000\ntenant ann 10000 6 1000000 16\ngo\n" + 12 * "ann open 6 16\n" + "ann open 1 1\nann chunks 65536\n"
SIZE = 16_000  # bytes of a content, which stands in journals as short chunks do, and has no room there


class FullGrid(Grid):
    """A grid of which one node's files can't grow behind a length."""

    def __init__(self, *words):
        super().__init__(*words)
        self.most = resource.RLIM_INFINITY

    def run(self, name, words):
        def limit():
            os.setpgrp()
            resource.setrlimit(resource.RLIMIT_FSIZE, (self.most, resource.RLIM_INFINITY))

        with self.log(name) as log:
            self.told_before[name] = os.fstat(log.fileno()).st_size
            # (signals as they are here, where a file that gets too long is a fault, as on a full disk)
            self.processes[name] = subprocess.Popen(words, stdin=subprocess.DEVNULL, stdout=log, stderr=log, preexec_fn=limit, restore_signals=False)

    def fill(self):
        self.most = os.path.getsize(journal_of(self.folder, FULL)) + ROOM
        resource.prlimit(self.node(FULL), resource.RLIMIT_FSIZE, (self.most, resource.RLIM_INFINITY))

    def write_faults(self):
        return self.told(FULL).count("write fault")


def asked(settings, *words, given=None):
    """A command: its status, how long it took, and what it said."""
    begun = time.monotonic()
    try:
        done = subprocess.run([CLIENT, "--config", settings, "--timeout", str(TIMEOUT), *words], input=given, capture_output=True, timeout=8 * TIMEOUT)
    except subprocess.TimeoutExpired:
        return None, time.monotonic() - begun, "it did not end"
    return done.returncode, time.monotonic() - begun, done.stderr.decode()


def succeeds(settings, *words, given=None):
    """A command that has to succeed, in good time."""
    status, seconds, why = asked(settings, *words, given=given)
    check(status == 0 and seconds < 2 * TIMEOUT, f"{' '.join(words)}: {status} after {seconds:.0f} s: {why}")


class Ended:
    """A grid whose node 3 has ended, for a command that looks after it."""

    SERVERS, nodes, folder = (), [FULL], "grid"

    def __init__(self, is_ready):
        self.said, self.processes = f"gridfs: node {FULL} of 2 by 2: 0 facts" if is_ready else "gridfs: plan: read fault", {FULL: None}

    def told_since_start(self, _):
        return self.said

    def has_journal(self, _):
        return True


def waits(_, __):
    """`./grid` starts a node again that was ready and ended with status 1, but waits; one that is killed at once. One that is never ready stays down."""
    grid, command = Ended(True), Command()
    for status, seconds in ((1, 15), (1, 15), (1, 15), (1, 15), (137, 1)):
        due = {}
        command.falls(grid, FULL, status, {FULL: 0}, due)
        left = due[FULL] - time.monotonic()
        check(seconds - 1 < left <= seconds, f"it starts again in {left} s behind status {status}")
    grid, fails = Ended(False), {FULL: 0}
    for is_last in (False, False, True):
        due = {}
        command.falls(grid, FULL, 1, fails, due)
        check((FULL not in due) == is_last and (FULL not in grid.processes) == is_last, f"a node that is never ready: {due}, {grid.processes}")
    return "6 ends", []


def told(program, carry):
    grid = FullGrid(os.getcwd(), program, carry)
    with open(grid.plan, "w", encoding="ascii") as out:
        out.write(PLAN)
    grid.set_up()
    settings, contents, has_ended = grid.write_settings("ann"), {}, threading.Event()

    def look_after():
        while not has_ended.wait(1):
            if grid.processes[FULL].poll() is not None:
                grid.start_node(FULL)

    unit = threading.Thread(target=look_after)
    try:
        grid.start()
        unit.start()
        check(asked(settings, "--session", OF_FULL, "put", "-", "first", given=b"x" * SIZE)[0] == 0, "a put before")
        contents["first"] = b"x" * SIZE
        grid.fill()
        status, seconds, why = asked(settings, "--session", OF_FULL, "put", "-", "by its session", given=b"y" * SIZE)
        check(grid.write_faults() > 1, f"the disk was not full: {grid.told(FULL)}")
        check(status == 0 and seconds < 2 * TIMEOUT, f"a put by a session whose home has a full disk: {status} after {seconds:.0f} s: {why}")
        contents["by its session"] = b"y" * SIZE  # (at another column)
        # So does a command that knows nothing of it, and one that has several names to put.
        name = next(name for name in map("name {}".format, range(1000)) if turn_of(name, SESSIONS) == int(OF_FULL) - 1)
        contents[name] = b"z" * SIZE
        faults = grid.write_faults()
        succeeds(settings, "--locks", "others", "put", "-", name, given=contents[name])
        check(grid.write_faults() > faults, "the full disk was not met")
        os.mkdir("tree")
        for number in range(FEW):
            contents[f"tree/{number}"] = b"%d" % number * SIZE
            with open(f"tree/{number}", "wb") as out:
                out.write(contents[f"tree/{number}"])
        status, seconds, why = asked(settings, "--locks", "third", "mirror", "tree", "grid:tree")
        check(status == 0, f"a mirror: {status} after {seconds:.0f} s: {why}")
        grid.most = resource.RLIM_INFINITY
        grid.kill_node(FULL)
        check(any(asked(settings, "--session", OF_FULL, "put", "-", "with room", given=b"")[0] == 0 for _ in range(3)), "no put once there is room")
        for name, content in contents.items():
            found = subprocess.run([CLIENT, "--config", settings, "get", name], capture_output=True, timeout=60).stdout
            check(found == content, f"{name} has {len(found)} other bytes")
    finally:
        has_ended.set()
        unit.join()
        grid.end()
    return f"{grid.write_faults()} write faults", []
