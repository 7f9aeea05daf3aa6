"""A grid on this machine whose nodes have carriers. `./grid`, tests and benchmarks start it."""

import contextlib
import os
import signal
import socket
import ssl
import subprocess
import time

from gridfs_grid.carrier import journal_of
from gridfs_grid.one_machine import DAMAGED, NotStarted, how_ended, is_ready, keep, lock, remove_journal, seconds_to_start, with_loss, write_settings
from gridfs_grid.planned import planned
from gridfs_grid.tenant import PLACES

PATIENCE = 15  # seconds that a process has to end


def free_ports(many=2):
    """The first of so many ports that follow each other and are free."""
    while True:
        with socket.create_server(("127.0.0.1", 0)) as listener:
            first = listener.getsockname()[1]
        try:
            for port in range(first, first + many):
                socket.create_server(("127.0.0.1", port)).close()
            return first
        except (OSError, OverflowError):
            pass


def spent(pid):
    """What a process, with all its threads, took of the processors until now, in seconds; 0 where it is gone."""
    try:
        with open(f"/proc/{pid}/stat") as file:
            return sum(map(int, file.read().rsplit(") ", 1)[1].split()[11:13])) / os.sysconf("SC_CLK_TCK")
    except (FileNotFoundError, ProcessLookupError):
        return 0


def children_of(pid):
    try:
        with open(f"/proc/{pid}/task/{pid}/children") as file:
            return [int(word) for word in file.read().split()]
    except (FileNotFoundError, ProcessLookupError):
        return []


def end_of(certificate):
    """The second of the clock at which a certificate ends."""
    done = subprocess.run(["openssl", "x509", "-noout", "-enddate", "-in", certificate], stdout=subprocess.PIPE, stderr=subprocess.DEVNULL, text=True)
    if done.returncode:
        raise NotStarted(f"{certificate}: no certificate")
    return ssl.cert_time_to_seconds(done.stdout.strip().partition("=")[2])


def why(told):
    """What a node said itself of what it and its carrier told; else all."""
    return "\n".join(line for line in told.splitlines() if line.startswith("gridfs: ")) or told.strip()


def words_of(settings):
    return [word for key, value in settings.items() for word in (f"--{key}", value)]


class CarriedGrid:
    """The processes of a grid whose files are in a folder: `plan`, the journals, and what they tell, in `log.NAME`. A class for an engine adds its own
    folder, the words of its carrier, and the processes that nodes need beside them, its servers."""

    SERVERS = ()  # names of such processes

    def __init__(self, folder, program, carry):
        self.folder, self.program, self.carry = folder, program, carry
        self.plan = os.path.join(folder, "plan")
        self.processes, self.nodes, self.shape, self.count, self.words = {}, [], "", 0, ()
        self.told_before = {}  # of each process, how long its log was when it was started
        self.lock = None  # the handle of the folder's lock, where it was taken
        self.metrics = None  # the folder of the carriers' metrics, if they are wanted
        self.name = ""  # the grid's, where several are on this machine, or at one broker

    # What an engine has

    def set_up(self, *words):
        """Makes what the engine needs from the plan, or makes it again."""
        raise NotImplementedError

    def settings(self, name):
        """By which a tenant's client, or a node's carrier, finds the grid and is known there."""
        raise NotImplementedError

    def words_for(self, name):
        """These settings as words."""
        return words_of(self.settings(name))

    def carrier_words(self, number):
        return self.words_for(number)

    def ports(self):
        """Those at which its processes listen."""
        raise NotImplementedError

    def is_connected(self, number, told):
        """Whether the node's carrier is connected, by what it told since its start."""
        raise NotImplementedError

    def start_server(self, name):
        raise NotImplementedError

    def reload(self):
        """Has what runs read the engine's files again."""

    def certificates(self):
        """Those that are made for this grid, and end."""
        return []

    # Files

    def write_settings(self, name):
        """Writes what a tenant's client has to know into the folder; the path."""
        return write_settings(self.folder, name, self.shape, self.settings(name))

    def log(self, name):
        return open(os.path.join(self.folder, f"log.{name}"), "ab")

    def told(self, name):
        with open(os.path.join(self.folder, f"log.{name}"), encoding="latin1") as file:
            return file.read()

    def told_since_start(self, name):
        with open(os.path.join(self.folder, f"log.{name}"), "rb") as file:
            file.seek(self.told_before[name])
            return file.read().decode("latin1")

    def take(self):
        """Takes the folder, which one grid has at a time: as long as a process of it runs, also where the grid itself was killed. NotStarted where
        another one runs there."""
        self.lock = lock(self.folder)

    def read_plan(self):
        with open(self.plan, encoding="latin1") as file:
            text = file.read()
        told = planned(self.program, text, self.plan)
        self.nodes, self.shape = told.nodes, told.shape
        self.count = len(self.nodes)

    def in_words(self, number):
        """How a node is told from those of other grids."""
        return f"{self.name}-{number}" if self.name else str(number)

    def metrics_of(self, number):
        return os.path.join(self.metrics, f"gridfs-{self.in_words(number)}.prom")

    def has_journal(self, number):
        return os.path.exists(journal_of(self.folder, number))

    def is_whole(self, number):
        """Whether the node has a journal with which it would start."""
        words = [self.program, "node", str(number), "--plan", self.plan, "--journal", journal_of(self.folder, number)]
        quiet = {"stdin": subprocess.DEVNULL, "stdout": subprocess.DEVNULL, "stderr": subprocess.DEVNULL}
        return self.has_journal(number) and subprocess.run(words, **quiet).returncode == 0

    def certificates_end(self):
        """The second of the clock at which the first certificate ends; None where there is none."""
        return min(map(end_of, self.certificates()), default=None)

    def renew(self):
        """Makes certificates anew that are about to end, and has them used. Whether there was one."""
        before = self.certificates_end()
        self.set_up(*self.words)
        is_new = self.certificates_end() != before
        if is_new:
            self.reload()
        return is_new

    # Processes

    def run(self, name, words):
        """Starts a process. A signal from the terminal does not reach it; a session of its own would be a group of the scheduler's too,
        and each would wait for the others' turns."""
        handles = [] if self.lock is None else [self.lock]
        with self.log(name) as log:
            self.told_before[name] = os.fstat(log.fileno()).st_size
            self.processes[name] = subprocess.Popen(words, stdin=subprocess.DEVNULL, stdout=log, stderr=log, preexec_fn=os.setpgrp, pass_fds=handles)

    def start_node(self, number, is_new=False):
        """Starts a node with its carrier. A journal is begun at the grid's first start alone: a node whose journal is lost must not start."""
        journal = journal_of(self.folder, number)
        node = [self.program, "node", str(number), "--plan", self.plan, "--journal", journal]
        words = ["--metrics", self.metrics_of(number)] if self.metrics else []
        words += ["--grid", self.name] if self.name else []
        self.run(number, [self.carry, *self.carrier_words(number), "--plan", self.plan, *words, str(number), "--", *node] + ["--new"] * is_new)

    def start(self, new=None):
        """Starts all nodes, of which one may begin in the place of one that was lost, and waits until each takes lines. Those whose
        journal is gone or damaged stay down: they are given, each with the status with which it ended, if it was started."""
        begun = os.path.join(self.folder, "begun")
        is_first = not os.path.exists(begun)
        there = [number for number in self.nodes if is_first or number == new or self.has_journal(number)]
        if not there:
            raise NotStarted(f"{self.folder} has no journal")
        for name in self.SERVERS:
            self.start_server(name)
        for number in there:
            self.start_node(number, (is_first or number == new) and not self.has_journal(number))
        damaged = self.wait_until_ready(there)
        if len(damaged) == len(there):
            raise NotStarted(f"{self.folder} has no journal that is whole: {why(self.told_since_start(there[0]))}")
        with open(begun, "w", encoding="ascii"):
            pass
        return {number: None for number in self.nodes if number not in there} | dict.fromkeys(damaged, DAMAGED)

    def wait_until_ready(self, numbers):
        """Waits until each of these nodes, since it was started, has read its journal and its carrier is connected. Those whose journal is damaged,
        which end. NotStarted where another one ends, or is not ready in time."""
        until = time.monotonic() + sum(seconds_to_start(journal_of(self.folder, number)) for number in numbers)
        return [number for number in numbers if not self.wait_for_node(number, until)]

    def wait_for_node(self, number, until):
        """Whether the node is ready, and not ended since its journal is damaged."""
        while True:
            status, told = self.processes[number].poll(), self.told_since_start(number)
            if status is None and is_ready(number, told) and self.is_connected(number, told):
                return True
            if status == DAMAGED:
                del self.processes[number]
                return False
            if status is not None:
                raise NotStarted(f"node {number} has ended {how_ended(status)}: {why(told)}")
            for name in self.processes.keys() & set(self.SERVERS):
                if (ended := self.processes[name].poll()) is not None:
                    raise NotStarted(f"the {name} has ended {how_ended(ended)}: {self.told_since_start(name).strip()}")
            if time.monotonic() > until:
                raise NotStarted(f"node {number} is not ready: {told.strip() or self.told_by_servers()}")
            time.sleep(0.02)

    def told_by_servers(self):
        return "\n".join(self.told_since_start(name).strip() for name in self.SERVERS)

    def note_loss(self, number):
        """Writes into the plan, and into the engine's files, that a node was lost. The one that stands in its place."""
        with open(self.plan, encoding="latin1") as file:
            keep(self.plan, with_loss(file.read(), number % PLACES))
        self.set_up(*self.words)
        if self.metrics:
            with contextlib.suppress(FileNotFoundError):
                os.unlink(self.metrics_of(number))
        return number + PLACES

    def lose(self, number):
        """Ends a node, and removes its journal, and its shelf."""
        self.kill_node(number)
        remove_journal(self.folder, number)
        del self.processes[number]

    def replace(self, number):
        """Puts a new node in the place of one that was lost: the others start again, one after another. Its number."""
        new = self.note_loss(number)
        self.reload()
        for other in self.nodes:
            if other != new:
                self.kill_node(other)
                self.start_node(other)
                self.wait_until_ready([other])
        self.start_node(new, True)
        self.wait_until_ready([new])
        return new

    def roll(self, text, say):
        """Restarts all nodes with this plan, one after another, each once the one before is linked again."""
        if down := [number for number in self.nodes if number not in self.processes or self.processes[number].poll() is not None]:
            raise NotStarted(f"node {down[0]} is down, so none is restarted: see to that first")
        with open(self.plan, encoding="latin1") as file:
            before = file.read()
        keep(self.plan, text)
        try:
            self.set_up(*self.words)
        except NotStarted:
            keep(self.plan, before)
            raise
        self.reload()
        for number in self.nodes:
            self.end_node(number)
            self.start_node(number)
            self.wait_until_ready([number])
            say(f"node {number} is up again")

    def end_node(self, number):
        """Ends a node as a unit does: its carrier ends the node's input."""
        self.processes[number].terminate()
        try:
            self.processes[number].wait(PATIENCE)
        except subprocess.TimeoutExpired:
            self.kill_node(number)

    def node(self, number):
        """The process of the node itself, below its carrier; None where it is gone."""
        return next(iter(children_of(self.processes[number].pid)), None)

    def kill(self, name):
        """Ends a process now (kill -9); of a node its carrier, and the node itself is left to end by itself."""
        self.processes[name].kill()
        self.processes[name].wait()

    def kill_node(self, number):
        """Ends the node's process (kill -9), and waits for its carrier, which ends with it. Its status."""
        child = self.node(number)
        if child:
            os.kill(child, signal.SIGKILL)
        try:
            return self.processes[number].wait(PATIENCE)
        except subprocess.TimeoutExpired:
            self.kill(number)
            return None

    def spent(self):
        """What carriers and nodes took of the processors until now, in seconds."""
        carriers = [process.pid for name, process in self.processes.items() if isinstance(name, int)]
        nodes = [child for pid in carriers for child in children_of(pid)]
        return {"carriers": sum(map(spent, carriers)), "nodes": sum(map(spent, nodes))}

    def end(self):
        """Ends all that was started here, one by one, nodes first."""
        for name in sorted(self.processes, key=lambda it: isinstance(it, str)):
            process = self.processes[name]
            if process.poll() is None:
                process.send_signal(signal.SIGCONT)
                process.terminate()
        for process in self.processes.values():
            try:
                process.wait(PATIENCE)
            except subprocess.TimeoutExpired:
                process.kill()
                process.wait()
