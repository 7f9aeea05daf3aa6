"""Recipes of docs/FAULTS.md (What a copy of a node is good for), step by step: a node that is moved by hand, and a later plan
that is tried on copies of all nodes before the grid gets it.
"""

import hashlib
import os
import shutil

import with_room
from commands import SECONDS
from growing import planned
from outages import kill
from way_back import NODES, ROWS, WISH, files_in, gets, journal_of, journals
from with_room import Seen, run

TENANT, NEW = with_room.TENANT, "erin"
MOVED = 3  # the node that moves; its row is read from while the other row is not whole
NAMES, BYTES = 3, 30_000  # of each step


class Names:
    """What was put, by its digest."""

    def __init__(self, seen):
        self.seen, self.held = seen, {}

    def put(self, step):
        for number in range(NAMES):
            content = os.urandom(BYTES)
            self.seen.held(f"put {step}", run("put", "-", f"{step} {number}", given=content), (0, b""))
            self.held[f"{step} {number}"] = hashlib.sha256(content).hexdigest()

    def mirrored(self, what):
        shutil.rmtree("back", ignore_errors=True)
        status, told = run("mirror", "--quiet", "grid:", "back")
        self.seen.held(f"{what}: {told}", (status, files_in("back")), (0, self.held))


def put_in_place(folder, node, place):
    """A node's copy where it is to stand: its journal and the folder beside it, and nothing of what was there."""
    for ending in ("", ".shelf"):
        there = f"{place}/node{node}.journal{ending}"
        if os.path.isdir(there):
            shutil.rmtree(there)
        elif os.path.exists(there):
            os.unlink(there)
        os.rename(f"{folder}/journal{ending}", there)


def until_all_answer(seen, what):
    for _ in range(SECONDS):
        status, told = run("status", "--nodes")
        if status == 0 and b"all 4 nodes answer" in told:
            return
    seen.held(what, told, "all 4 nodes answer")


def by_hand(program):
    """Copied while it runs, ended, copied once more, started from the copy. What was put in between is there, also where its row alone is whole."""
    seen = Seen()
    names = Names(seen)
    seen.held("a plan", planned(program, "first", f"{TENANT} {WISH}\n"), 0)
    with with_room.grid_of(program, "first") as nodes:
        names.put("before")
        seen.held("a copy while it runs", journals("copy", journal_of(MOVED), "moved")[0], 0)
        names.put("since")
        status, found, _ = gets([journal_of(2), "moved/journal"])
        seen.held("the first copy lacks what was put since", (status == 0, found == names.held), (True, False))
        kill(nodes, MOVED)
        names.put("without it")
        seen.held("once more, what is new", journals("copy", journal_of(MOVED), "moved")[0], 0)
        put_in_place("moved", MOVED, "grid")
        nodes.ask(f"start {MOVED}")
        until_all_answer(seen, "once it was moved")
        names.mirrored("once it was moved")
        kill(nodes, 0)
        names.mirrored("by its row alone")
        names.put("by its column alone")
        seen.held("what its row has", gets(map(journal_of, ROWS[1]))[:2], (0, names.held))
    return f"{seen.count} compared: a node that is moved by hand", seen.wrong


def a_later_plan(program):
    """Copies of all nodes start with the later plan, and have all names; the grid itself goes on by its own plan, and knows nothing of it."""
    seen = Seen()
    names = Names(seen)
    seen.held("a plan", planned(program, "first", f"{TENANT} {WISH}\n"), 0)
    seen.held("a later plan", planned(program, "later", f"grow {TENANT} 100 names\n{NEW} 20M 5 names 1 commands\n", "--from", "first"), 0)
    with with_room.grid_of(program, "first"):
        names.put("before")
        seen.held("a state", journals("state", "state", *map(journal_of, NODES))[0], 0)
    os.rename("grid", "own")
    plan, known = of("own/plan"), states_of("own")
    os.mkdir("grid")
    for node in NODES:
        put_in_place(f"state/{node}", node, "grid")
    with with_room.grid_of(program, "later"):
        names.mirrored("copies with the later plan")
        seen.held("grow", run("grow")[0], 0)
        seen.held("put by the new tenant", run("put", "-", "hers", given=b"hello", tenant=NEW), (0, b""))
    seen.held("the grid itself", (of("own/plan"), states_of("own")), (plan, known))
    shutil.rmtree("grid")
    os.rename("own", "grid")
    with with_room.grid_of(program, "first"):
        names.mirrored("the grid itself, by its own plan")
        names.put("since")
        seen.held("settings of a tenant that it has not", os.path.exists(f"grid/{NEW}.ini"), False)
    return f"{seen.count} compared: a later plan that is tried on copies", seen.wrong


def of(path):
    with open(path, "rb") as file:
        return file.read()


def states_of(folder):
    """Size and time of each node's journal."""
    return [(found.st_size, found.st_mtime_ns) for node in NODES if (found := os.stat(f"{folder}/node{node}.journal"))]
