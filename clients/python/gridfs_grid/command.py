"""A grid of nodes on this machine: it serves clients until it is interrupted.

    ./grid [OPTION..] FOLDER    starts the grid whose files are in the folder; where the folder is not there, a new grid
    ./grid [OPTION..] try       shows in some seconds that a node that is killed keeps what it acknowledged

    --over WAY        how lines go between nodes and clients
                        pipes   through this program alone (a first start without --over; nothing more is wanted)
                        links   TLS from node to node, as on many machines (Debian: libssl-dev openssl gcc make)
                        mqtt    a broker, mosquitto, with nginx before it (docs/MACHINES.md has its packages)
    --s3              with an endpoint of S3: a gateway for each tenant with names, and nginx before them (docs/S3.md). A later
                      start has it too, unless it is told --no-s3
    --plan FILE       the plan of a first start: who may store how much. Without it tenants ann, bob and carol keep names: carol has
                      10 GiB on disk, the others one. Later a plan that goes on from the last one (docs/OPERATING.md, Grow)
    --replace N       node N was lost with its journal: a new node, N + 64, takes its place (docs/FAULTS.md)
    --http ADDRESS:PORT  a page for a browser and metrics of the grid, as long as it runs: which nodes are silent, the room of each tenant,
                      what to do (clients/python/gridfs-watch, which shows other grids too)
    --roll            restarts the nodes of the grid that runs in the folder, one after another, so that clients go on: with another plan
                      of --plan, or a program that was replaced
    --kill N          kills node N of the grid that runs in the folder (kill -9), to see what comes of it
    --program FILE    the program `gridfs` ($GRIDFS, or else the one of this checkout, which is built at first, in two to four minutes)

    over pipes        --lines takes requests from standard input too (the line `help` tells their forms); --serve takes none, as without it
                      --tick SECONDS between two ticks of a node (0.2, and one more for each MiB of the plan's longest line)
    over links, mqtt  --port N, the first port (8870; over mqtt 8883); `try` takes what is free
                      --metrics FOLDER, for which each carrier writes metrics for Prometheus, gridfs-N.prom
                      --grid GRID, a name for the grid where there are several: a label of metrics; over mqtt in topics and users too
    over mqtt         --tls WHERE it ends: front (nginx), broker or none; --rate BYTES that a connection may send a second (2m)
    with --s3         --listen ADDRESS:PORT of the endpoint (127.0.0.1:9000); --gateways N for each tenant (1)

FOLDER remembers these options, but for --plan, --replace, --roll, --kill, --program and --lines: a later start without one takes what the last one had.

FOLDER gets NAME.ini for each tenant: the settings of clients/python/gridfs-client. With --s3 these are in FOLDER/grid, unless the grid was there
before, and FOLDER/s3 has the access keys, and settings of s3cmd and rclone. One grid at a time runs in a folder. Over links and mqtt, and with S3,
what ends is started again, but for a node whose status asks for a person; certificates are made anew before they end. Status 0: it was interrupted,
or all was shown or answered; 1: something did not start, was not answered, or all nodes have ended (one line says what); 2: the words are no request.
"""

import argparse
import os
import re
import signal
import sys

from gridfs_grid import links, mqtt, pipes, rolling
from gridfs_grid.one_machine import NotStarted, begin, kept_way, processes_of, tell
from gridfs_grid.options import OF_GRID, OF_S3, expect_own_folder, take_kept
from gridfs_grid.places import PROGRAM, folder_of_grid

WAYS = {"pipes": pipes.Command, "links": links.Command, "mqtt": mqtt.Command}
USAGE = "./grid [--over pipes|links|mqtt] [--s3] [--plan FILE] [--replace N] [OPTION..] (FOLDER | try)"
GRID = r"[a-z][a-z0-9]{0,15}"
# Options that only some ways have.
ONLY = {"http": list(WAYS), "tick": ["pipes"], "port": ["links", "mqtt"], "metrics": ["links", "mqtt"], "grid": ["links", "mqtt"], "tls": ["mqtt"], "rate": ["mqtt"]}


def parser():
    it = argparse.ArgumentParser(prog="grid", usage=USAGE, add_help=False)
    it.add_argument("-h", "--help", action="store_true")
    it.add_argument("--over", choices=list(WAYS))
    for way in ("links", "mqtt"):  # (as they were called before)
        it.add_argument(f"--{way}", dest="over", action="store_const", const=way)
    it.add_argument("--s3", action=argparse.BooleanOptionalAction)
    it.add_argument("--plan")
    it.add_argument("--program", default=os.environ.get("GRIDFS") or PROGRAM)
    it.add_argument("--replace", type=int)
    it.add_argument("--kill", type=int)
    it.add_argument("--roll", action="store_true")
    it.add_argument("--lines", action="store_true")
    it.add_argument("--serve", dest="lines", action="store_false")
    it.add_argument("--tick", type=float)
    it.add_argument("--port", type=int)
    it.add_argument("--metrics")
    it.add_argument("--http")
    it.add_argument("--grid")
    it.add_argument("--tls", choices=("front", "broker", "none"))
    it.add_argument("--rate")
    it.add_argument("--listen")
    it.add_argument("--gateways", type=int)
    it.add_argument("folder", nargs="?")
    return it


def words_of(words):
    """What is asked for, with the way of the folder where none is named."""
    it = parser()
    asked = it.parse_args(words)
    if asked.help:
        print(__doc__.strip())
        sys.exit(0)
    if not asked.folder:
        it.error("a folder is wanted, or the word try")
    asked.is_try = asked.folder == "try"
    if asked.s3 is None:
        asked.s3 = not asked.is_try and os.path.isdir(os.path.join(asked.folder, "s3"))
    try:
        if not asked.is_try:
            expect_own_folder(asked.folder, asked.plan)
        kept = None if asked.is_try else kept_way(folder_of_grid(asked.folder, asked.s3))
    except OSError as error:
        raise NotStarted(f"{error.filename}: {error.strerror}") from error
    asked.over = asked.over or kept or "pipes"
    if not asked.is_try:
        take_all_kept(asked)
    # (examples/grid says --lines, also where --links or --mqtt follows)
    asked.lines = asked.lines and asked.over == "pipes" and not asked.s3
    for option, ways in ONLY.items():
        if getattr(asked, option) and asked.over not in ways:
            it.error(f"--{option} is for --over {' and '.join(ways)}")
    if asked.tick is not None and not 0.01 <= asked.tick <= 60:
        it.error("--tick is from 0.01 to 60 seconds")
    if asked.grid and not re.fullmatch(GRID, asked.grid):
        it.error(f"--grid {asked.grid}: a letter a to z, and up to 15 more letters or digits")
    if not asked.s3 and (asked.listen or asked.gateways is not None):
        it.error(f"--{'listen' if asked.listen else 'gateways'} is for --s3")
    if asked.s3 and not 1 <= (asked.gateways or 1) <= 16 or asked.gateways == 0:
        it.error("--gateways is from 1 to 16")
    return asked


def take_all_kept(asked):
    """What the folder remembers, as far as the way has it."""
    take_kept(asked, folder_of_grid(asked.folder, asked.s3), {name: kind for name, kind in OF_GRID.items() if asked.over in ONLY[name]})
    if asked.s3:
        take_kept(asked, os.path.join(asked.folder, "s3"), OF_S3)


def kill_node(folder, number):
    """Kills a node of the grid that runs in a folder, as a crash does; the status."""
    pids = processes_of(folder, number)
    for pid in pids:
        os.kill(pid, signal.SIGKILL)
    tell(f"node {number} is killed" if pids else f"{folder}: no node {number} runs there")
    return 0 if pids else 1


def run(words):
    try:
        asked = words_of(words)
    except NotStarted as fault:
        tell(fault)
        return 1
    if asked.kill is not None:
        return kill_node(folder_of_grid(asked.folder, asked.s3), asked.kill)
    if asked.roll:
        try:
            return rolling.ask(folder_of_grid(asked.folder, asked.s3), os.path.abspath(asked.program), asked.plan)
        except NotStarted as fault:
            tell(fault)
            return 1
    if asked.s3:
        from gridfs_grid import s3  # (whose gateway wants more packages)

        return s3.run(asked)
    return WAYS[asked.over]().run(asked)


def main():
    begin()
    sys.exit(run(sys.argv[1:]))
