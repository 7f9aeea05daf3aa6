"""`./grid` over links and over a broker: what it tells and refuses, what it leaves when it ends, and that it makes certificates anew before they end."""

import contextlib
import os
import re
import shutil
import signal
import subprocess
import sys
import time

HERE = os.path.dirname(os.path.abspath(__file__))
sys.path.insert(0, os.path.join(HERE, "..", "..", "clients", "python"))
import metrics
from gridfs_grid.carried import children_of, end_of, free_ports
from gridfs_grid.carrier import GREET
from gridfs_grid.one_machine import InUse, lock

CLIENT = os.path.join(HERE, "..", "..", "clients", "python", "gridfs-client")
NAMES = ["ann", "bob"]
SECONDS = 25  # that something may take until it is told to be wrong
LINE_FORM = 3  # of lines between nodes: that of this program
DAY = 86_400
UP = "nodes are up"
FILES = {"plan", "begun"}  # what others may read, as far as the folder lets them


def write_plan(path):
    rows = "".join(f"tenant {name} 256 16 1\n" for name in NAMES)
    with open(path, "w", encoding="ascii") as out:
        out.write(f"grid 2 2\nblocks 4096\n{rows}go\n" + "".join(f"{name} open 64 2\n" for name in NAMES))


def wait_for(test, seconds=SECONDS):
    """Whether the test holds at last. A file that is not there yet is one of which it does not."""
    until = time.monotonic() + seconds
    while True:
        try:
            is_so = bool(test())
        except FileNotFoundError:
            is_so = False
        if is_so or time.monotonic() > until:
            return is_so
        time.sleep(0.01)


def state_of(folder):
    """All files, each with its bytes and the time of its last change."""
    state = {}
    for at, _, names in os.walk(folder):
        for name in names:
            with open(os.path.join(at, name), "rb") as file:
                state[os.path.join(at, name)] = file.read(), os.fstat(file.fileno()).st_mtime_ns
    return state


def ignore_interrupt():
    signal.signal(signal.SIGINT, signal.SIG_IGN)


def end_all(pids):
    """Ends what a grid left that was killed, if it is there still. (By SIGTERM: nginx would leave its worker.)"""
    for pid in pids:
        with contextlib.suppress(ProcessLookupError):
            os.kill(pid, signal.SIGTERM)


class Command:
    """A run of the command, as a script's background job is started: with SIGINT ignored."""

    def __init__(self, machine, *words):
        words = [machine.COMMAND, "--program", machine.program, *machine.words(), *words, "grid"]
        self.told_to = f"told.{machine.runs}"
        machine.runs += 1
        with open(self.told_to, "wb") as told:
            self.process = subprocess.Popen(words, stdin=subprocess.DEVNULL, stdout=told, stderr=told, preexec_fn=ignore_interrupt)
        machine.commands.append(self)

    def told(self):
        with open(self.told_to, encoding="utf-8") as file:
            return file.read()

    def says(self, text):
        return wait_for(lambda: text in self.told() or self.process.poll() is not None) and text in self.told()

    def end(self, number):
        """The status with which it ends by this signal, and whether it tells a traceback."""
        self.process.send_signal(number)
        return self.status(), "Traceback" in self.told()

    def status(self):
        """The status with which it ends by itself. One that runs on is ended, with all that it started."""
        try:
            return self.process.wait(SECONDS)
        except subprocess.TimeoutExpired:
            started = children_of(self.process.pid)
            self.process.kill()
            self.process.wait()
            end_all(started)
            return "it runs on"


class Machine:
    """A folder with a grid, and runs of the command there. A class for an engine says what differs."""

    COMMAND = os.path.join(HERE, "..", "..", "grid")
    WAY = ENGINE = ""  # the way, as a first start names it, and the engine's folder in that of the grid
    CARRIER = ""  # the name of the carrier's program
    CERTIFICATES = ""  # what the command tells that ends
    PORTS = 2

    def __init__(self, program):
        self.program, self.port, self.runs = program, free_ports(self.PORTS), 0
        self.tried, self.wrong, self.commands = 0, [], []
        write_plan("first")

    def words(self):
        """What each start is told. (A later one takes the way that the folder had last.)"""
        return "--port", str(self.port), *(() if os.path.exists("grid/over") else ("--over", self.WAY))

    def is_secret(self, name):
        """Whether a file in the engine's folder of secrets is to be read by nobody else."""
        return True

    def renew(self):
        """Puts a certificate that ends in five days in the place of one; its path."""
        raise NotImplementedError

    def old_words(self):
        """Words of a client that uses the files from before."""
        raise NotImplementedError

    def held(self, name, seen, wanted):
        self.tried += 1
        if seen != wanted:
            self.wrong.append(f"{name}: {seen!r}, not {wanted!r}")

    def client(self, *words, given=""):
        done = subprocess.run([CLIENT, "--config", "grid/ann.ini", "--locks", "locks", *words], input=given, stdout=subprocess.PIPE, stderr=subprocess.PIPE, text=True, timeout=60)
        return done.returncode, done.stdout or done.stderr

    def is_free(self):
        """Whether nothing that the command started still runs: it would have the lock."""
        try:
            os.close(lock("grid"))
        except InUse as fault:
            return str(fault)
        return True

    def starts(self):
        self.held("a folder of metrics that is not there", (Command(self, "--plan", "first", "--metrics", "metrics").status(), os.path.exists("grid")), (1, False))
        os.mkdir("metrics")
        grid = Command(self, "--plan", "first", "--metrics", "metrics")
        self.held("a first start", (grid.says(UP), "grid: 4 nodes are up, in " in grid.told()), (True, True))
        open_to_others = {name for name in os.listdir("grid") if os.stat(f"grid/{name}").st_mode & 0o077} - FILES
        folder = f"grid/{self.ENGINE}/secret"
        secrets = {name for name in os.listdir(folder) if self.is_secret(name) and os.stat(f"{folder}/{name}").st_mode & 0o077}
        self.held("what others may read", (open_to_others - {self.ENGINE}, secrets, os.stat("grid").st_mode & 0o077), (set(), set(), 0))
        # (journals of more than one batch, so that a wrong byte in the first is no torn end)
        writes = [self.client("--session", str(session), "write", "0", "1", "-", given="hi")[0] for session in range(1, 5)]
        self.held("writes", writes, [0] * 4)
        before = state_of("grid")
        self.held("a second start", self.is_refused(), (1, True))
        self.held("what it has changed", {path for path, seen in state_of("grid").items() if before.get(path) != seen}, set())
        self.held("the first one goes on", self.client("read", "0", "1"), (0, "hi"))
        told = lambda: [metrics.read(f"metrics/gridfs-{number}.prom", number) for number in range(4)]
        forms = lambda: [sorted((labels, value) for (name, labels), value in it.items() if name.endswith("_line_form")) for it in told()]
        wanted = [[("", LINE_FORM), *((f'peer="{peer}"', LINE_FORM) for peer in range(4) if peer != number)] for number in range(4)]
        wait_for(lambda: forms() == wanted, GREET + SECONDS)  # (a greeting that no link took is told again)
        self.held("forms of lines", forms(), wanted)
        self.held("SIGINT to a background job", (grid.end(signal.SIGINT), self.is_free()), ((0, False), True))
        self.held("metrics", [(it.of("node_ready"), it.of("node_journal_bytes") > 0, it.of("carrier_lines_in_total") > 0) for it in told()], [(0, True, True)] * 4)

    def goes_on(self):
        """With a journal that is gone, one that is damaged, and a certificate that ends in five days."""
        certificate = self.renew()
        os.unlink("grid/node3.journal")
        with open("grid/node2.journal", "r+b") as file:
            file.seek(20)
            byte = file.read(1)[0]
            file.seek(20)
            file.write(bytes([byte ^ 1]))
        self.refuses_plan()
        refused = Command(self, "--replace", "1")
        self.held("a whole node that is to be replaced", (refused.status(), "node 1 is whole; to give it up all the same, move " in refused.told()), (1, True))
        grid = Command(self)
        self.held("a start that lacks two nodes", (grid.says(UP), "grid: 2 of 4 nodes are up, in " in grid.told()), (True, True))
        told = grid.told().splitlines()
        replacing = [f"`./grid --replace {number} grid` puts a new node in its place" for number in (2, 3)]
        gone = f"grid: node 3 is down: its journal is gone ({replacing[1]})"
        self.held("a journal that is gone", gone in told or told, True)
        damaged = "grid: node 2 is down: its journal is damaged: a person has to look (docs/FAULTS.md, Faults); where it is lost, " + replacing[0]
        self.held("a journal that is damaged", damaged in told or told, True)
        days = [line for line in told if line.startswith(f"grid: {self.CERTIFICATES} on ")]
        self.held("a certificate that was about to end", (len(days), end_of(certificate) > time.time() + 20 * DAY), (1, True))
        self.held("a client with the old files", self.client(*self.old_words(), "plan")[0], 0)
        # a node whose journal is gone, and one that does not start, once each has ended
        os.unlink("grid/node1.journal")
        self.kill(1)
        self.held("a journal that goes meanwhile", grid.says(f"grid: node 1 has ended with status 137 (killed, maybe for lack of memory), and stays down: its journal is gone (`./grid --replace 1 "), True)
        shutil.copy("first", "grid/plan")
        with open("grid/plan", "a", encoding="ascii") as out:
            out.write("ann open 1 65\n")
        self.kill(0)
        self.held("a node that can't start", grid.says("grid: node 0 has ended with status 1, and stays down: a person has to look"), True)
        status = grid.status()
        self.held("a grid without nodes", (status, grid.told().splitlines()[-1], self.is_free()), (1, "grid: all nodes are down", True))

    def is_refused(self):
        """The status of one more start, and whether it tells why it is refused."""
        start = Command(self)
        status, why = start.status(), r"grid: \S+/grid: a grid runs there \(processes [\d, ]+\)\n"
        return status, re.fullmatch(why, start.told()) is not None

    def starts_behind_a_killed_one(self):
        """A grid that is killed itself, whose processes run on."""
        grid = Command(self)
        self.held("a start again", grid.says(UP), True)
        started = children_of(grid.process.pid)
        grid.end(signal.SIGKILL)
        self.held("a start on what a killed grid left", self.is_refused(), (1, True))
        end_all(started)
        self.held("once that has ended", wait_for(lambda: self.is_free() is True), True)

    def refuses_plan(self):
        """A plan that nodes refuse is not kept."""
        with open("first", encoding="ascii") as file, open("wrong", "w", encoding="ascii") as out:
            out.write(file.read().replace("tenant bob 256", "tenant bob 128"))
        refused = Command(self, "--plan", "wrong")
        status, told = refused.status(), refused.told()
        self.held("a plan that does not go on", (status, ": does not go on from the plan in " in told or told), (1, True))
        with open("first", "rb") as first, open("grid/plan", "rb") as kept:
            self.held("the plan that is kept", kept.read() == first.read(), True)

    def kill(self, number):
        """Ends the process of a node, below its carrier (kill -9)."""
        for carrier in children_of(self.commands[-1].process.pid):
            with open(f"/proc/{carrier}/cmdline", encoding="utf-8") as file:
                words = file.read().split("\0")
            if os.path.basename(words[0]) == self.CARRIER and words[words.index("--") - 1] == str(number):
                for node in children_of(carrier):
                    os.kill(node, signal.SIGKILL)

    def end(self):
        for command in self.commands:
            if command.process.poll() is None:
                command.end(signal.SIGTERM)


def signed(folder, request, names, out):
    """Signs a request by the authority in a folder, for five days."""
    with open("names", "w", encoding="ascii") as file:
        file.write(f"subjectAltName=DNS:{names}\n")
    words = ["-CA", f"{folder}/ca.crt", "-CAkey", f"{folder}/ca.key", "-set_serial", "7", "-days", "5", "-extfile", "names"]
    subprocess.run(["openssl", "x509", "-req", "-in", request, *words, "-out", out], check=True, stderr=subprocess.DEVNULL)


def told(machine):
    """Tries all; how much that was, and what is wrong."""
    try:
        machine.starts()
        machine.starts_behind_a_killed_one()
        machine.goes_on()
    finally:
        machine.end()
    return machine.tried, machine.wrong
