"""Two grids of real nodes become four while clients put and get the same names; nodes, clients and movers are killed (kill -9), and histories judged.

    fleet_trial.py GRIDFS [SECONDS] [--grids N] [--kills N] [--bug NAME]

Each grid is one of ./grid. Clients begin by the map as it is, or by one from before, and have their sessions for a few operations. `gridfs-fleet spread`
is begun anew where it was killed; once all slices are spread, some are moved elsewhere. What is started here is ended, each by its process. Then all slices
have to be spread, each name's history has to have an order, and no mover may have met anything but silence or sessions that others use.
"""

import argparse
import collections
import json
import os
import random
import shutil
import signal
import subprocess
import sys
import tempfile
import time

sys.dont_write_bytecode = True
HERE = os.path.dirname(os.path.abspath(__file__))
TOP = os.path.join(HERE, "..", "..")
sys.path[:0] = [HERE, os.path.join(HERE, "..", "names")]
import trial as names_trial

from gridfs_client.errors import SessionTaken, Unanswered
from gridfs_client.fleet_map import read_map

LABELS = ["north", "east", "south", "west"]
CLIENTS, SESSIONS = 3, 8
STARTED, PATIENCE = 60, 90  # seconds
TENANT = "ann"
MAY_END = {0, Unanswered.status, SessionTaken.status}  # a mover, beside clients and while nodes are away


class Trial:
    def __init__(self, folder, program, bug):
        self.folder, self.program, self.bug, self.draw = folder, program, bug, random.Random()
        self.map, self.log = f"{folder}/map", open(f"{folder}/log", "ab")
        self.grids, self.clients, self.mover = {}, {}, None
        self.count, self.statuses = collections.Counter(), set()  # the latter those of movers

    def start_grid(self, label, **plan):
        names_trial.write_plan(f"{self.folder}/{label}.plan", tenant=TENANT, **{"sessions": SESSIONS, "each": 2, **plan})
        words = [os.path.join(TOP, "grid"), "--lines", "--plan", f"{self.folder}/{label}.plan", "--program", self.program, "--tick", "0.1", f"{self.folder}/{label}"]
        self.grids[label] = subprocess.Popen(words, stdin=subprocess.PIPE, stdout=self.log, stderr=self.log, text=True, bufsize=1)
        until = time.monotonic() + STARTED
        while not os.path.exists(f"{self.folder}/{label}/socket"):
            if time.monotonic() > until or self.grids[label].poll() is not None:
                raise TimeoutError(f"{label} has not started")
            time.sleep(0.1)
        with open(f"{self.folder}/{label}.ini", "w", encoding="ascii") as out:
            out.write(f"[gridfs]\ntenant = {TENANT}\nsocket = {self.folder}/{label}/socket\nlocks = {self.folder}/locks.{label}\n")

    def fleet(self, *words):
        return [sys.executable, "-B", f"{HERE}/fleet_mover.py", "--map", self.map, *words]

    def tell(self, *words):
        subprocess.run(self.fleet(*words), check=True, stdout=self.log, stderr=self.log)

    def start_client(self, number, until):
        settings = dict(folder=self.folder, map=self.map, number=number, until=until, names=names_trial.NAMES, sizes=names_trial.SIZES, bug=self.bug)
        words = [sys.executable, "-B", f"{HERE}/fleet_client.py", json.dumps(settings)]
        self.clients[number] = subprocess.Popen(words, stdin=subprocess.DEVNULL, stdout=self.log, stderr=self.log)

    def see_to_mover(self, is_over=False):
        """The mover goes on, or is begun again: where all slices are spread, some go elsewhere, until it is over."""
        if self.mover and self.mover.poll() is not None:
            self.count["movers ended"] += 1
            if self.mover.returncode:
                self.count[f"movers with status {self.mover.returncode}"] += 1
            self.statuses.add(self.mover.returncode)
            self.mover = None
        now, words = read_map(self.map), ["spread"]
        if self.mover is None and not now.moves and not now.next_part() and not is_over:
            each = self.draw.choice(now.ranges)
            words = ["move", f"{self.draw.randint(each.first, each.last)}-{each.last}", self.draw.choice([grid for grid in now.grids if grid != each.grid])]
        if self.mover is None and (now.moves or now.next_part() or words[0] == "move"):
            self.mover = subprocess.Popen(self.fleet(*words), stdin=subprocess.DEVNULL, stdout=self.log, stderr=self.log)

    def kill(self, what, until):
        if what == "mover":
            if not self.mover:
                return
            self.mover.kill()
            self.mover.wait()
            self.mover = None
        elif what == "client":
            number = self.draw.choice(list(self.clients))
            self.clients[number].kill()
            self.clients[number].wait()
            self.start_client(number, until)
        else:
            node, grid = self.draw.randrange(4), self.draw.choice(list(self.grids.values()))
            grid.stdin.write(f"kill {node}\n")
            time.sleep(self.draw.random())
            grid.stdin.write(f"start {node}\n")
        self.count[f"{what}s killed"] += 1

    def end(self):
        for process in [*self.clients.values(), *([self.mover] if self.mover else [])]:
            process.kill()
            process.wait()
        for grid in self.grids.values():
            grid.send_signal(signal.SIGINT)
        for grid in self.grids.values():
            try:
                grid.wait(20)
            except subprocess.TimeoutExpired:
                grid.kill()


def run(folder, program, seconds, grids, kills, bug=None):
    """What was counted, and what is wrong."""
    trial, wrong, labels = Trial(folder, program, bug), [], LABELS[:grids]
    try:
        for label in labels:
            trial.start_grid(label)
        trial.tell("begin", labels[0], f"{labels[0]}.ini")
        half = max(1, grids // 2)
        for label in labels[1:half]:
            trial.tell("add", label, f"{label}.ini")
        trial.tell("spread")
        begun = time.monotonic()
        until = begun + seconds
        for number in range(1, CLIENTS + 1):
            trial.start_client(number, until)
        time.sleep(1)
        for label in labels[half:]:
            trial.tell("add", label, f"{label}.ini")
        moments = sorted((trial.draw.uniform(1, seconds), what) for what in ("client", "node", "mover") for _ in range(kills))
        while time.monotonic() < until:
            trial.see_to_mover()
            if moments and time.monotonic() > begun + moments[0][0]:
                trial.kill(moments.pop(0)[1], until)
            time.sleep(0.1)
        for number, client in trial.clients.items():
            try:
                if client.wait(PATIENCE):
                    wrong.append(f"client {number} has ended with status {client.returncode}")
            except subprocess.TimeoutExpired:
                wrong.append(f"client {number} does not end")
        end = time.monotonic() + PATIENCE
        now = read_map(trial.map)
        while trial.mover or now.moves or now.next_part():
            trial.see_to_mover(is_over=True)
            if time.monotonic() > end:
                wrong.append(f"not all slices are spread: {now.shares()}")
                break
            time.sleep(0.1)
            now = read_map(trial.map)
        trial.count["moves"] = now.last_move
        if not bug:
            wrong += [f"a mover has ended with status {status}" for status in sorted(trial.statuses - MAY_END)]
            told = subprocess.run(trial.fleet("status"), capture_output=True, text=True, check=False)
            trial.log.write(told.stdout.encode())
            if told.returncode or len(set(now.shares().values())) > 1:
                wrong.append(f"{told.stdout}{told.stderr}")
    finally:
        trial.end()
    counted, faults = names_trial.judge(folder)
    return {**trial.count, **counted}, wrong + faults


def main():
    parser = argparse.ArgumentParser(description=__doc__, formatter_class=argparse.RawDescriptionHelpFormatter)
    parser.add_argument("program")
    parser.add_argument("seconds", type=float, nargs="?", default=30)
    parser.add_argument("--grids", type=int, default=4, choices=range(2, 5))
    parser.add_argument("--kills", type=int, default=4, help="of each kind")
    parser.add_argument("--bug")
    args = parser.parse_args()
    folder = tempfile.mkdtemp(prefix="fleet")
    count, wrong = run(folder, os.path.abspath(args.program), args.seconds, args.grids, args.kills, args.bug)
    print(dict(count))
    print("\n".join(wrong) or "none is wrong")
    if wrong and not args.bug:
        print(f"kept: {folder}")
    else:
        shutil.rmtree(folder)
    return 1 if wrong else 0


if __name__ == "__main__":
    sys.exit(main())
