"""Nodes of two grids on one machine by the words of an engine's unit of systemd, put in order as that does; and a fleet over both grids."""

import contextlib
import json
import os
import re
import shlex
import signal
import subprocess
import sys
import time

HERE = os.path.dirname(os.path.abspath(__file__))
TOP = os.path.join(HERE, "..", "..")
CLIENT = os.path.join(TOP, "clients", "python")
sys.path.insert(0, HERE)
import metrics
from processes import check

PLAN = "grid 2 2\nblocks 4096\ntenant ann 2000 4 1000\ngo\n" + "ann open 16 16\n" * 4 + "ann open 64 4\n"
GRIDS, NODES, SECONDS = ("east", "west"), 4, 60


class Machine:
    """Folders in place of /etc/gridfs, /var/lib/gridfs and /run/gridfs, and the processes of its units. A class for an engine says the rest."""

    UNIT = CARRIER = ""  # the unit's file, and the carrier's name in it

    def __init__(self, folder, program, carry):
        self.folder, self.program = folder, program
        self.places = {f"/usr/local/bin/{self.CARRIER} ": f"{carry} ", "/usr/local/bin/gridfs-node ": f"{program} ", "/etc/gridfs": f"{folder}/etc",
                       "/var/lib/gridfs": f"{folder}/lib", "/run/gridfs": f"{folder}/run"}  # fmt: skip
        self.processes = {}
        os.makedirs(f"{folder}/run")
        for grid in GRIDS:
            os.makedirs(self.folder_of(grid))
            with open(f"{self.folder_of(grid)}/plan", "w", encoding="ascii") as out:
                out.write(PLAN)
        self.set_up()
        for grid in GRIDS:
            self.begin(grid)

    # What an engine has

    def set_up(self):
        """Makes what the engine needs from the plans of all grids."""
        raise NotImplementedError

    def settings(self, grid):
        """By which ann's client finds a grid, and is known there: a line each."""
        raise NotImplementedError

    # Files

    def folder_of(self, grid):
        return f"{self.folder}/etc/{grid}"

    def begin(self, grid):
        """Writes the files of the unit, begins the journals, and writes ann's settings."""
        for node in range(NODES):
            with open(f"{self.folder}/etc/{grid}-{node}.node", "w", encoding="ascii") as out:
                out.write(f"GRID_FOLDER=/etc/gridfs/{grid}\nNODE={node}\nGRID={grid}\n")
            os.makedirs(f"{self.folder}/lib/{grid}-{node}")
            words = ["--plan", f"{self.folder_of(grid)}/plan", "--journal", f"{self.folder}/lib/{grid}-{node}/journal", "--new"]
            subprocess.run([self.program, "node", str(node), *words], check=True, stdin=subprocess.DEVNULL, capture_output=True)
        with open(f"{self.folder}/{grid}.ini", "w", encoding="ascii") as out:
            out.write(f"[gridfs]\ntenant = ann\nlocks = {self.folder}/locks.{grid}\n{self.settings(grid)}")

    # Units

    def placed(self, text):
        for old, new in self.places.items():
            text = text.replace(old, new)
        return text

    def words_of(self, instance):
        """The words of ExecStart= for an instance, with the variables of Environment= and, over these, of EnvironmentFile=. (One that is empty is a word.)"""
        with open(self.UNIT, encoding="utf-8") as unit:
            settings = re.findall(r"^(\w+)=(.*)$", unit.read().replace("\\\n", " ").replace("%i", instance), re.MULTILINE)
        words = {key: [value for each, value in settings if each == key] for key in ("Environment", "EnvironmentFile", "ExecStart")}
        variables = dict(word.split("=", 1) for value in words["Environment"] for word in value.split())
        for path in words["EnvironmentFile"]:
            with contextlib.suppress(FileNotFoundError), open(self.placed(path.removeprefix("-")), encoding="ascii") as file:
                variables |= dict(line.split("=", 1) for line in file.read().splitlines())
        return [self.placed(re.sub(r"\$\{(\w+)\}", lambda found: variables[found[1]], f"{word} ")).removesuffix(" ") for word in words["ExecStart"][0].split()]

    def waits_behind(self, status):
        """Whether the unit waits before it starts again what has ended with this status."""
        with open(self.UNIT, encoding="utf-8") as unit:
            words = shlex.split(re.search(r"^ExecStopPost=(.*)$", unit.read(), re.MULTILINE)[1].replace("$$", "$"))
        waiting = subprocess.Popen(words, env={**os.environ, "EXIT_STATUS": str(status)}, start_new_session=True)
        try:
            return waiting.wait(2)
        except subprocess.TimeoutExpired:
            os.killpg(waiting.pid, signal.SIGKILL)
            return True
        finally:
            waiting.wait()

    def run_unit(self, name, words):
        with open(f"{self.folder}/log.{name}", "ab") as log:
            self.processes[name] = subprocess.Popen(words, stdin=subprocess.DEVNULL, stdout=log, stderr=log)

    def stop(self, name):
        self.processes[name].terminate()
        self.processes[name].wait(20)

    def end(self):
        for process in reversed(self.processes.values()):
            process.send_signal(signal.SIGTERM)
        for process in self.processes.values():
            try:
                process.wait(20)
            except subprocess.TimeoutExpired:
                process.kill()

    # Clients

    def run(self, command, *words, given=None):
        done = subprocess.run([os.path.join(CLIENT, command), "--map", f"{self.folder}/map", *words], input=given, capture_output=True, timeout=SECONDS)
        return done.returncode, done.stdout, done.stderr.decode()

    def succeeds(self, command, *words, given=None):
        """What a command tells that has to succeed."""
        status, told, why = self.run(command, *words, given=given)
        check(status == 0, f"{command} {' '.join(words)}: status {status}: {why}")
        return told


def told(machine):
    """All nodes of both grids run, and their metrics can be collected together; names are spread over both; `status` has a node of one grid that was
    stopped, whose names are got."""
    single = machine.words_of("3")
    check(single[-3].endswith("lib/3/journal") and single[-2:] == ["--scrub", "14"] and single[single.index("--grid") + 1] == "", f"the words of a node of one grid: {single}")
    waits = {status: machine.waits_behind(status) for status in (0, 1, 3, 137)}
    check(waits == {0: 0, 1: True, 3: 0, 137: 0}, f"a unit waits behind a fault of a file alone: {waits}")
    try:
        for grid in GRIDS:
            for node in range(NODES):
                machine.run_unit(f"{grid}-{node}", machine.words_of(f"{grid}-{node}"))
        machine.succeeds("gridfs-fleet", "begin", "east", "east.ini")
        machine.succeeds("gridfs-fleet", "add", "west", "west.ini")
        until = time.monotonic() + SECONDS
        while (told := machine.run("gridfs-fleet", "status"))[1].count(b"all 4 nodes answer") < 2:
            check(time.monotonic() < until, f"not all nodes answer: {told}")
        contents = {f"name {number}": b"%d" % number * 9 for number in range(8)}
        for name, content in contents.items():
            machine.succeeds("gridfs-client", "put", "-", name, given=content)
        machine.succeeds("gridfs-fleet", "spread")
        machine.stop("west-1")
        status, told, why = machine.run("gridfs-fleet", "status")
        is_told = re.fullmatch(rb"east: 32768 slices, all 4 nodes .*\nwest: 32768 slices, node 1 is silent, .*\n", told)
        check((status, why) == (0, "") and is_told, f"with a node that was stopped: {status} {told} {why}")
        for name, content in contents.items():
            check(machine.succeeds("gridfs-client", "get", name) == content, f"{name} has another content")
        listed = json.loads(machine.succeeds("gridfs-client", "ls", "--json"))
        check([each["name"] for each in listed] == sorted(contents), f"listed are {listed}")
    finally:
        machine.end()
    collected = [(node, *sample) for node in range(NODES) for grid in GRIDS for sample in metrics.read(f"{machine.folder}/run/{grid}-{node}.prom", node)]
    check(collected and len(collected) == len(set(collected)), "two samples with the same labels: a collector drops one")
    return f"{len(contents)} names over {len(GRIDS)} grids of {NODES} nodes", []
