"""Two grids at one broker, whose nodes have the same numbers: who may say and read what."""

import os
import subprocess
import time

from grid_commands import wait_for
from isolation import HEARD, open_broker, password
from gridfs_grid.mqtt import Grid
from peers import CLIENT, Speaker

TENANTS = {"east": ["ann", "bob"], "west": ["ann", "carol"]}
LEAST_FOUND = 5  # that has to be wrong of a broker that refuses nothing


def write_plan(path, tenants):
    rows = "".join(f"tenant {name} 64 4 1\n" for name in tenants)
    with open(path, "w", encoding="ascii") as out:
        out.write(f"grid 2 2\nblocks 4096\n{rows}go\n" + "".join(f"{name} open 4 2\n" for name in tenants))


def started(program, carry, is_open):
    """Both grids, of which the first has the broker."""
    grids = []
    for name, tenants in TENANTS.items():
        folder = os.path.abspath(f"{name}{is_open}")
        os.mkdir(folder)
        grids.append(Grid(folder, program, carry, "none"))
        grids[-1].name = name
        write_plan(grids[-1].plan, tenants)
    grids[1].use_broker_of(grids[0])
    try:
        grids[0].set_up("--connections", "many")
        if is_open:
            open_broker(grids[0])
        for grid in grids:
            grid.start()
    except BaseException:
        end(grids)
        raise
    return grids


def end(grids):
    for grid in reversed(grids):
        grid.end()


def asked(grid, *words, given=""):
    """What the client answers ann at a grid."""
    words = [CLIENT, "--config", grid.write_settings("ann"), "--locks", os.path.join(grid.folder, "locks"), *words]
    done = subprocess.run(words, input=given, stdout=subprocess.PIPE, stderr=subprocess.PIPE, text=True, timeout=60)
    if done.returncode:
        raise OSError(f"the client says {done.stderr!r}, status {done.returncode}")
    return done.stdout


def told_apart(east, west):
    """What was wrong of who may say and read what. It is the same list for a broker that refuses nothing, which has to be long."""

    def speaker(user):
        return Speaker(east.port + user.isalpha(), user, password(east, user), f"gridfs-spare-{user}")

    bob = speaker("bob")
    bob.listen_to("#", "gridfs/#", "gridfs/+/+", "gridfs/+/+/+", "gridfs/west/#", "gridfs/west/bob/+", "gridfs/east/ann/+")
    for grid in (east, west):
        asked(grid, "write", "0", "0", "-", given=grid.name)
    wrong = [f"ann reads another content at {grid.name}" for grid in (east, west) if asked(grid, "read", "0", "0") != grid.name]
    time.sleep(HEARD)
    wrong += [f"bob reads {topic}" for topic in {topic for topic, _ in bob.heard}]

    # (a user has one connection, so the carriers of these nodes make room for ours)
    for grid, number in ((east, 2), (east, 3), (west, 3)):
        grid.processes[number].terminate()
        grid.processes[number].wait()
    of_east, of_west, other = speaker("east-3"), speaker("west-3"), speaker("east-2")
    of_east.listen_to("gridfs/east/3/+")
    of_west.listen_to("gridfs/west/3/+")
    time.sleep(HEARD)
    said = {
        ("gridfs/west/3/bob", b"read 1 1 0 0"): (bob, "bob speaks at a grid that does not have him"),
        ("gridfs/west/3/ann", b"write 1 77 0 0 66"): (bob, "bob speaks for ann at another grid"),
        ("gridfs/west/3/2", b"ann 1 77 2 0 0 store 9 1 66"): (other, "a node speaks for one with its number at another grid"),
        ("gridfs/west/3/0", b"ann 1 78 2 0 0 store 9 1 66"): (other, "a node speaks for another one at another grid"),
    }
    for (topic, body), (who, _) in said.items():
        who.say(topic, body)
    other.say("gridfs/east/3/2", b"this is right")
    if not wait_for(lambda: ("gridfs/east/3/2", b"this is right") in of_east.heard):
        wrong.append("a node does not hear another one of its grid")
    time.sleep(HEARD)
    wrong += [what for line, (_, what) in said.items() if line in of_west.heard]
    thief = Speaker(east.port, "west-2", password(east, "east-2"), "gridfs-thief")
    if thief.is_let_in:
        wrong.append("a node's password is good for one with its number at another grid")
    for each in (bob, of_east, of_west, other, thief):
        each.end()
    return wrong


def checked(program, carry):
    faults = []
    for is_open in (False, True):
        grids = started(program, carry, is_open)
        try:
            found = told_apart(*grids)
        finally:
            end(grids)
        faults += [] if is_open else found
        if is_open and len(found) < LEAST_FOUND:
            faults.append(f"a broker that refuses nothing is not found, but for: {found}")
    return 16, faults
