"""Loads of all tenants at a grid whose nodes have carriers. Meanwhile nodes, carriers and clients are killed (kill -9) or stopped for a while, a node is
lost with its journal and a new one takes its place, and lines of no shape come. Each history is judged, and what was acknowledged last is read. A class
for an engine says what else may happen there."""

import os
import random
import re
import signal
import subprocess
import sys
import time

HERE = os.path.dirname(os.path.abspath(__file__))
sys.path[:0] = [os.path.join(HERE, "..", "linearizable"), os.path.join(HERE, "..", "..", "clients", "python")]
from checker import is_linearizable
from gridfs_grid.carrier import journal_of
from grid_commands import wait_for

LOAD = os.path.join(HERE, "..", "..", "bench", "load")
BOUND = 100_000
NAMES, FILES, SESSIONS, SIZE = ["ann", "bob", "cid", "dan"], 64, 4, 16
IDLE = "eve"  # a tenant who has nothing to do but to talk nonsense
FEW = 4  # seconds of a storm over nodes that forget
NODES = 4
WORDS = ["read", "write", "list", "abandon", "0", "1", "4294967296", "\0", "done", "ask", "-", "ab" * 700, "plan", "0 ann"]
# What no node and no carrier may say.
FAULTS = ["damaged", "Sanitizer", "runtime error", "another node"]
FETCHED = 15  # seconds in which a new node has all files
FAR = 1_000_000  # more than a load has operations
PATIENCE = 60  # seconds in which each operation is answered, also behind the storm


class Storm:
    """A grid of 2 by 2, and what happens to it. If it `forgets`, a node that starts again begins a new journal."""

    # What a storm does, as often as it is named. `still`: a process is stopped for a while; `disk`: a node's journal is lost, if all others have
    # all files; `client`: a load is killed, and another one begins.
    DEEDS = ["node"] * 6 + ["carrier"] * 3 + ["client"] * 3 + ["disk"] + ["still"] * 3
    FIRST = ["node", "carrier", "client", "disk"]  # that each storm has; one over nodes that forget has no lost disk
    STILL = [0.3, 1, 3]  # seconds for which something is stopped

    def __init__(self, grid, seed, seconds, forgets=False):
        self.grid, self.draw, self.kills = grid, random.Random(seed), {}
        self.forgets, self.seconds, self.until = forgets, FEW if forgets else seconds, 0
        rows = "".join(f"tenant {name} 128 16 1\n" for name in [*NAMES, IDLE])
        with open(grid.plan, "w", encoding="ascii") as out:
            out.write(f"grid 2 2\nblocks 1024\n{rows}go\n" + "".join(f"{name} open {FILES} 2\n" for name in NAMES))
        grid.set_up()
        self.settings = {name: grid.write_settings(name) for name in NAMES}
        self.loads, self.parts, self.ended = {}, dict.fromkeys(NAMES, 0), []

    # What an engine has

    def processes(self, number):
        """Those that may be stopped, where something happens to this node."""
        return [self.grid.processes[number].pid, self.grid.node(number)]

    def strike_engine(self, deed):
        """Does what only this engine has."""
        raise ValueError(deed)

    def talk_nonsense(self):
        """Has the idle tenant say lines of no shape."""
        raise NotImplementedError

    # What happens

    def nonsense(self):
        return " ".join(self.draw.choice(WORDS) for _ in range(self.draw.randrange(7)))

    def load(self, name, sessions=SESSIONS, writes=0.4, seconds=None):
        """Begins the next load of a tenant."""
        left = self.until - time.monotonic() if seconds is None else seconds
        self.parts[name] += 1
        asked = {"sessions": sessions, "seconds": max(0.5, left), "files": FILES, "size": SIZE, "writes": writes, "timeout": PATIENCE}
        asked |= {"seed": self.draw.random(), "history": f"history.{name}.{self.parts[name]:03}"}
        words = [LOAD, *(word for option, value in asked.items() for word in (f"--{option}", str(value))), self.settings[name]]
        with open(f"told.{name}", "ab") as told:
            self.loads[name] = subprocess.Popen(words, stdin=subprocess.DEVNULL, stdout=told, stderr=told)

    def begin_again(self, number):
        """Starts a node whose carrier has ended; the node may still be at its last lines, and then its journal is in use."""
        if self.grid.processes[number].poll() is None:
            self.grid.processes[number].kill()
        self.grid.processes[number].wait()
        journal = journal_of(self.grid.folder, number)
        if self.forgets and os.path.exists(journal):
            os.unlink(journal)
        self.grid.start_node(number, self.forgets)

    def look_after(self):
        """Starts again what has ended by itself, as a unit of systemd would."""
        for number in self.grid.nodes:
            if self.grid.processes[number].poll() is not None:
                self.begin_again(number)

    def lose_disk(self, number):
        if all(wait_for(lambda new=new: f"node {new}: has all files" in self.grid.told(new), FETCHED) for new in self.grid.nodes if new >= NODES):
            self.grid.lose(number)
            self.grid.replace(number)

    def stop_for_a_while(self, number):
        victim = self.draw.choice(self.processes(number))
        if victim:
            os.kill(victim, signal.SIGSTOP)
            time.sleep(self.draw.choice(self.STILL))
            os.kill(victim, signal.SIGCONT)

    def strike(self):
        deed, number = self.draw.choice(self.DEEDS), self.draw.choice(self.grid.nodes)
        deed = next((each for each in self.FIRST if each not in self.kills), deed)
        if deed == "disk" and self.forgets:
            deed = "node"
        self.kills[deed] = self.kills.get(deed, 0) + 1
        if deed == "client":
            name = self.draw.choice(NAMES)
            self.loads[name].kill()
            self.loads[name].wait()
            self.load(name)
        elif deed == "still":
            self.stop_for_a_while(number)
        elif deed == "disk":
            self.lose_disk(number)
        elif deed in ("node", "carrier"):
            self.grid.kill_node(number) if deed == "node" else self.grid.kill(number)
            time.sleep(self.draw.random() / 2)
            self.begin_again(number)
        else:
            self.strike_engine(deed)

    def rage(self):
        self.until = time.monotonic() + self.seconds
        for name in NAMES:
            self.load(name)
        time.sleep(1.5)
        while time.monotonic() < self.until:
            self.look_after()
            time.sleep(self.draw.uniform(0.2, 1))
            self.talk_nonsense()
            self.strike()
        self.wait_for_loads()

    def wait_for_loads(self):
        until = time.monotonic() + 2 * PATIENCE
        while any(load.poll() is None for load in self.loads.values()) and time.monotonic() < until:
            self.look_after()
            time.sleep(0.1)
        self.ended += [(name, load.poll()) for name, load in self.loads.items()]

    def read_at_the_end(self):
        """All nodes are killed and start again, and each file is read."""
        for number in self.grid.nodes:
            self.grid.kill_node(number)
        for number in self.grid.nodes:
            self.begin_again(number)
        for name in NAMES:
            self.load(name, 16, 0, 4)
        self.wait_for_loads()

    # What is judged

    def judge(self):
        """How many operations there were, and what was wrong."""
        wrong, done, given_up, refused = [], 0, 0, 0
        for name, status in self.ended:
            if status != 0:
                with open(f"told.{name}", encoding="utf-8") as told:
                    wrong.append(f"a load of {name} has ended with {status}: {told.read().strip()[-600:]}")
        histories = histories_of(".")
        for file, history in sorted(histories.items()):
            done += sum(":type :ok" in line for line in history)
            verdict = is_linearizable(history, BOUND)
            given_up += verdict is None
            if verdict is False:
                # (no seed repeats a storm, so the first wrong history is told, and of others that they are wrong)
                wrong.append(f"{file} is not linearizable" + ("" if refused else f": {history}"))
                refused += 1
        if done < 200 or not self.kills:
            wrong.append(f"{done} operations and {self.kills} are too few to show anything")
        for number in {*range(NODES), *self.grid.nodes}:
            lines = self.grid.told(number).splitlines() if os.path.exists(f"log.{number}") else []
            wrong += [f"node {number} says: {line}" for line in lines if any(fault in line for fault in FAULTS)]
        told = f"{done} operations, {len(histories)} histories, {given_up} given up, " + ", ".join(f"{deed} {count}" for deed, count in sorted(self.kills.items()))
        return told, wrong

    def end(self):
        for load in self.loads.values():
            if load.poll() is None:
                load.kill()
            load.wait()
        self.grid.end()

    def run(self):
        """The whole storm; what was counted and what was wrong."""
        try:
            self.grid.start()
            self.rage()
            self.read_at_the_end()
            return self.judge()
        finally:
            self.end()


def histories_of(folder):
    """The history of each file, of the loads whose histories are in `history.NAME.NUMBER`, one load behind the other."""
    found = {}
    for part in sorted(name for name in os.listdir(folder) if name.startswith("history.")):
        more = FAR * int(part.rpartition(".")[2])
        for file in os.listdir(os.path.join(folder, part)):
            with open(os.path.join(folder, part, file), encoding="ascii") as lines:
                text = lines.read()
            whole = text[: text.rfind("\n") + 1].splitlines()  # (a kill may have torn the last line)
            found.setdefault(file, []).extend(re.sub(r":process (\d+)", lambda it: f":process {more + int(it[1])}", line) for line in whole)
    return {file: [re.sub(r":index \d+, :time \d+", f":index {at}, :time {at}", line) for at, line in enumerate(lines)] for file, lines in found.items()}


def found_of(storm):
    """Of a storm over nodes that forget, which has to be found wrong: what was counted, and what is wrong if it is not found."""
    counted, wrong = storm.run()
    found = [fault for fault in wrong if "not linearizable" in fault]
    return f"{len(found)} of its histories are wrong: {counted}", [] if found else ["nodes that forget are not found"]
