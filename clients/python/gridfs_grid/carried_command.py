"""`./grid` over links and over a broker: nodes that have carriers."""

import math
import os
import shutil
import subprocess
import tempfile
import time

from gridfs_grid import rolling
from gridfs_grid.carrier import journal_of
from gridfs_grid.one_machine import STAY_DOWN, NotStarted, end, how_ended, how_many_are_up, is_ready, keep_way, look_at, tell, watched, way_out
from gridfs_grid.options import OF_GRID, expect_free, keep_options
from gridfs_grid.places import CARRIERS, CLIENT, PLAN, folder_to_start
from gridfs_grid.planned import planned

TRIES = 3  # starts of a node that ends with status 1 before it is ready: its journal may be in use by a process that is about to end
DAY = 86_400  # seconds
SOON, FULL = 1, 15  # seconds until what has ended starts again, and a node that was ready and ended with status 1: its disk may be full


def text_of(path):
    """What a file has; None where there is none."""
    if not os.path.exists(path):
        return None
    with open(path, "rb") as file:
        return file.read()


def put_back(grid, before):
    """Puts the plan back that was there before, where no node has taken the new one. (From then on it can't be taken back.)"""
    if before is not None and not any(number in grid.told_before and is_ready(number, grid.told_since_start(number)) for number in grid.nodes):
        with open(grid.plan, "wb") as out:
            out.write(before)


class CarriedCommand:
    """What the command does with any engine. A class for an engine says the rest."""

    WAY = ""  # as `--over` names it
    PORT = 0  # the first port, where no other is named
    WANTS = ()  # commands that have to be on the path
    PACKAGES = ""  # of Debian, that are wanted
    CARRIER = ""  # the carrier's program
    CERTIFICATES = "its certificates end"
    UP = ""  # what is up, as `try` tells it

    # What an engine has

    def new_grid(self, asked, folder, carry, port):
        raise NotImplementedError

    def setup_words(self, asked):
        """Words for the engine's `setup`."""
        return ()

    def tenants(self, grid):
        raise NotImplementedError

    def tenant_of_names(self, grid):
        """One who has room for chunks, and so most likely names; else the last one."""
        with open(grid.plan, encoding="latin1") as file:
            found = [line.split()[0] for line in file if line.split()[1:2] == ["chunks"]]
        return found[0] if found else self.tenants(grid)[-1]

    # The start

    def built(self):
        """The carrier, which is built where its source is newer."""
        done = subprocess.run(["make", "-s", "-C", CARRIERS, self.CARRIER], stdout=subprocess.PIPE, stderr=subprocess.STDOUT, text=True)
        if done.returncode:
            raise NotStarted(f"the carrier can't be built; what is wanted are the packages {self.PACKAGES}\n{done.stdout.strip()}")
        return os.path.join(CARRIERS, self.CARRIER)

    def started(self, asked, folder, port):
        """A grid whose nodes are all connected."""
        for command in self.WANTS:
            if not shutil.which(command):
                raise NotStarted(f"there is no {command}; what is wanted are the packages {self.PACKAGES}")
        if asked.metrics and not os.path.isdir(asked.metrics):
            raise NotStarted(f"{asked.metrics}: no folder")
        look_at(asked.program)
        try:
            grid = self.new_grid(asked, os.path.abspath(folder), self.built(), port)
            grid.metrics, grid.name = asked.metrics and os.path.abspath(asked.metrics), asked.grid or ""
            os.makedirs(grid.folder, exist_ok=True)
            grid.take()
            before = text_of(grid.plan)
            if asked.plan:
                with open(asked.plan, encoding="latin1") as file:
                    planned(grid.program, file.read(), asked.plan)
            if asked.plan or before is None:
                shutil.copy(asked.plan or PLAN, grid.plan)
        except OSError as error:
            raise NotStarted(f"{error.filename}: {error.strerror}") from error
        try:
            self.start(grid, asked)
        except BaseException:
            end()
            grid.end()
            put_back(grid, before)
            raise
        keep_way(grid.folder, self.WAY)
        keep_options(grid.folder, asked, OF_GRID)
        return grid

    def start(self, grid, asked):
        """Makes the engine's folder and the settings of tenants, and starts all. Which nodes are down is told, and what to do about them."""
        grid.set_up(*self.setup_words(asked))
        if asked.replace is not None and asked.replace not in grid.nodes:
            raise NotStarted(f"there are the nodes {', '.join(map(str, grid.nodes))}")
        if asked.replace is not None and grid.is_whole(asked.replace):
            raise NotStarted(f"node {asked.replace} is whole; to give it up all the same, move {journal_of(grid.folder, asked.replace)} away first")
        expect_free("127.0.0.1", grid.ports(), "port")
        new = None if asked.replace is None else grid.note_loss(asked.replace)
        for name in self.tenants(grid):
            grid.write_settings(name)
        for number, status in grid.start(new).items():
            tell(f"node {number} is down: {self.way_out_of(grid, number, status)}")

    def way_out_of(self, grid, number, status):
        return way_out(status, grid.has_journal(number), f"`./grid --replace {number} {folder_to_start(grid.folder)}`")

    def tell_end_of_certificates(self, grid):
        """Tells the day on which the certificates end."""
        ends = grid.certificates_end()
        if ends is not None:
            tell(f"{self.CERTIFICATES} on {time.strftime('%Y-%m-%d', time.gmtime(ends))}, and are made anew before, as long as the grid runs or is started")

    # The show

    def ask(self, grid, name, *words, given=""):
        """Has the client ask, and tells both; its status and what it told."""
        command = [CLIENT, "--config", os.path.join(grid.folder, f"{name}.ini"), *words]
        told = subprocess.run(command, input=given, stdout=subprocess.PIPE, text=True)
        print(f"    gridfs-client of {name}: {' '.join(words):<24} {given:<10} status {told.returncode}{': ' if told.stdout else ''}{told.stdout.strip()}", flush=True)
        return told.returncode, told.stdout

    def show(self, grid):
        """The status: 0 where all that was acknowledged is read."""
        print(f"{self.UP.format(grid.count)} are up. carol puts a content under a name and gets it, bob reads his own file 0:", flush=True)
        seen = [self.ask(grid, "carol", "put", "-", "greeting", given="hello"), self.ask(grid, "carol", "get", "greeting"), self.ask(grid, "bob", "read", "0", "0")]
        print("Node 1 is killed (kill -9). The others go on, and it starts again:", flush=True)
        grid.kill_node(1)
        seen.append(self.ask(grid, "carol", "put", "-", "greeting", given="once more"))
        grid.start_node(1)
        grid.wait_until_ready([1])
        print(f"{'The broker and all' if 'broker' in grid.SERVERS else 'All'} nodes are killed, and start again:", flush=True)
        for name in [*({"broker"} & set(grid.SERVERS)), *grid.nodes]:
            grid.kill(name) if name == "broker" else grid.kill_node(name)
        for name in {"broker"} & set(grid.SERVERS):
            grid.start_server(name)
        for number in grid.nodes:
            grid.start_node(number)
        seen.append(self.ask(grid, "carol", "get", "greeting"))
        is_right = seen == [(0, ""), (0, "hello"), (0, ""), (0, ""), (0, "once more")]
        print("All that was acknowledged is there." if is_right else "Something is not as it was acknowledged.")
        return 0 if is_right else 1

    # From then on

    def look_after(self, grid):
        """Starts again what has ended, as a unit of systemd does, and makes certificates anew; until it is interrupted, or all nodes are down."""
        fails, due, next_day = dict.fromkeys(grid.nodes, 0), {}, time.time() + DAY
        while any(number in grid.processes for number in grid.nodes):
            for name, process in list(grid.processes.items()):
                if process.poll() is not None and name not in due:
                    self.falls(grid, name, process.returncode, fails, due)
                if due.get(name, math.inf) <= time.monotonic():
                    del due[name]
                    grid.start_server(name) if name in grid.SERVERS else grid.start_node(name)
            rolling.take(grid.folder, lambda text, say: self.roll(grid, text, say))
            if time.time() > next_day:
                next_day = time.time() + DAY
                self.renew(grid)
            time.sleep(0.2)
        raise NotStarted("all nodes are down")

    def roll(self, grid, text, say):
        """Restarts all nodes; new tenants get their settings."""
        grid.roll(text, say)
        for name in self.tenants(grid):
            grid.write_settings(name)

    def renew(self, grid):
        try:
            if grid.renew():
                self.tell_end_of_certificates(grid)
        except NotStarted as fault:
            tell(f"certificates can't be made anew: {fault}")

    def falls(self, grid, name, status, fails, due):
        """Notes when what has ended is due to start again; a node stays down that would end again and again, before it is ready."""
        seconds = SOON
        ended = f"{f'node {name}' if name in grid.nodes else f'the {name}'} has ended {how_ended(status)}"
        if name in grid.nodes:
            was_ready = is_ready(name, grid.told_since_start(name))
            fails[name] = 0 if was_ready else fails[name] + 1
            may_mend = status == 1 and fails[name] < TRIES
            seconds = FULL if status == 1 and was_ready else SOON
            if not grid.has_journal(name) or (status in STAY_DOWN and not may_mend):
                tell(f"{ended}, and stays down: {self.way_out_of(grid, name, status)}; log.{name} has what it said")
                del grid.processes[name]
                return
        tell(f"{ended}; log.{name} says why. It starts again{f' in {seconds} seconds' if seconds > SOON else ''}")
        due[name] = time.monotonic() + seconds

    def run(self, asked):
        """Does what is asked for; the status."""
        with tempfile.TemporaryDirectory(prefix="gridfs-grid-") as room:
            grid = None
            try:
                grid = self.started(asked, room if asked.is_try else asked.folder, None if asked.is_try else asked.port or self.PORT)
                if asked.is_try:
                    return self.show(grid)
                self.tell_end_of_certificates(grid)
                up = sum(number in grid.processes for number in grid.nodes)
                tell(f"{how_many_are_up(up, grid.count)}, in {grid.folder}. Now for instance:")
                print(f"{os.path.relpath(CLIENT)} --config {os.path.join(grid.folder, f'{self.tenant_of_names(grid)}.ini')} status", flush=True)
                with watched(asked, grid.folder):
                    self.look_after(grid)
            except NotStarted as fault:
                tell(fault)
                return 1
            except OSError as error:
                tell(f"{error.filename}: {error.strerror}" if error.filename else error)
                return 1
            except KeyboardInterrupt:
                return 0
            finally:
                end()
                if grid:
                    grid.end()
