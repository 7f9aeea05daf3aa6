"""A grid on this machine in pipes: each node is a process with a journal of its own, and this program carries their lines."""

import os
import random
import re
import subprocess
import tempfile
import time

from gridfs_grid import rolling
from gridfs_grid.callers import Callers
from gridfs_grid.carrier import Carrier, Node, journal_of
from gridfs_grid.one_machine import DAMAGED, STAY_DOWN, NotStarted, end, how_ended, how_many_are_up, keep, keep_way, lock, look_at, remove_journal, seconds_to_start, tell, watched, way_out, with_loss, write_settings
from gridfs_grid.options import OF_GRID, keep_options
from gridfs_grid.places import PLAN, folder_to_start
from gridfs_grid.planned import planned
from gridfs_grid.talk import Talk
from gridfs_grid.tenant import AGAIN, PLACES, Nodes, Session, tick_of
from gridfs_grid.trial import show

LACKS = re.compile(r"gridfs: node (\d+)(?:: has all files| of \d by \d: \d+ facts(?:, lacks (\d+) files?)?)\n")
LACKS_CHUNKS = re.compile(r"gridfs: node (\d+): (?:has all chunks|lacks chunks of (\d+) tenants; \d+ contents came)\n")
MORE = 95  # bytes that a line of ours may be shorter than a node's, which has the number of the operation
SILENCE = 20  # seconds in which something has to be answered, where something is to be
TICK = 0.2


class Fault(NotStarted):
    """What ends this program."""


class NodeEnded(Fault):
    """A node has ended before it was ready."""

    def __init__(self, node, status, way):
        super().__init__(f"node {node.number} did not start: {way}")
        self.ended = status


class Grid:
    """The nodes of a folder, their carrier, and the sessions of the plan's tenants."""

    def __init__(self, program, folder, plan, tick, told):
        self.folder, self.kept = folder, os.path.join(folder, "plan")
        self.is_new = not os.path.exists(self.kept)
        self.plan = plan or (PLAN if self.is_new else self.kept)
        self.program, self.told = program, told
        self.tick, self.carrier = tick, Carrier([], self.hear, self.fall, tick or TICK)
        self.sessions, self.homes, self.longest = {}, {}, 0
        self.text, self.nodes, self.shape = "", Nodes([]), ""
        self.lacks = {}  # of new nodes that told it, how many files they lacked when they started; 0 where they have all
        self.lacks_chunks = {}  # the same of tenants whose chunks they lack
        self.plans = {}  # tenants that asked what they have, each with the time at which a node is asked again
        self.ended = {}  # of nodes that ended by themselves, the status
        self.starting = "the line `start {}` starts it again"  # how a node that has ended is started
        self.replacing = "`replace {}`"  # how a new node is put in the place of one that was lost
        # (what nodes tell goes through a pipe: so ./gridfs does not tell each time, as to a terminal, that it is not proved)
        self.errors, self.nodes_error = os.pipe()
        os.set_blocking(self.errors, False)

    def start(self):
        """Starts all nodes. The plan is kept once they are ready: from then on no node may begin a journal any more. One whose journal is gone was
        lost, and stays down."""
        try:
            with open(self.plan, encoding="latin1") as lines:
                text = lines.read()
        except OSError as error:
            raise Fault(f"{self.plan}: {error.strerror}") from error
        told = self.take_plan(text)
        self.use_lines_of(told)
        for number in told.nodes:
            self.add_node(number)
        if not any(node.child for node in self.carrier.nodes):
            raise Fault(f"{self.folder} has no journal that is whole")
        keep(self.kept, text)
        self.is_new = False
        for node in self.carrier.nodes:
            node.plan = self.kept

    def use_lines_of(self, told):
        """Lines may be as long as a plan has them."""
        self.longest = told.longest - MORE
        self.carrier.carry_lines_of(told.longest, self.tick or tick_of(told.longest, TICK), self.tick or tick_of(told.longest_letter, TICK))

    def take_plan(self, text):
        """What the program tells of the plan. Fault with what it says where it is none."""
        told = planned(self.program, text, self.plan)
        self.text, self.nodes, self.homes, self.shape = text, Nodes(told.nodes), told.homes, told.shape
        return told

    def open_door(self):
        """Lets clients come by a socket in the folder, and writes what they have to know, for each tenant."""
        path = os.path.abspath(os.path.join(self.folder, "socket"))
        try:
            self.carrier.callers = Callers(path, self.carrier.send)
            self.write_all_settings()
        except OSError as error:
            raise Fault(f"{path}: {error.strerror or error}") from error

    def write_all_settings(self):
        for name in {name for name, _ in self.homes}:
            write_settings(self.folder, name, self.shape, {"socket": os.path.abspath(os.path.join(self.folder, "socket"))})

    def add_node(self, number):
        """Starts a node. One whose journal is gone or damaged stays down, and the others go on without it."""
        node = Node(self.program, number, self.plan, journal_of(self.folder, number))
        self.carrier.nodes.append(node)
        if not self.is_new and not os.path.exists(node.journal):
            return tell(f"node {number} is down: {self.way_out(node, None)}")
        try:
            return self.start_node(node, self.is_new and not os.path.exists(node.journal))
        except NodeEnded as fault:
            if fault.ended != DAMAGED:
                raise
            return tell(f"node {number} is down: {self.way_out(node, DAMAGED)}")

    def way_out(self, node, status):
        # (where the grid begins, a node that does not start has no journal yet)
        return way_out(status, self.is_new or os.path.exists(node.journal), self.replacing.format(node.number))

    def start_node(self, node, is_new=False):
        node.start(is_new, stderr=self.nodes_error)
        seconds = seconds_to_start(node.journal)
        until = time.monotonic() + seconds
        while node.child and not node.is_ready:
            self.turn(0.1)
            if time.monotonic() > until:
                raise Fault(f"node {node.number} is not ready after {seconds:.0f} seconds")
        if not node.child:
            status = self.ended[node.number]
            raise NodeEnded(node, status, self.way_out(node, status))

    def end(self):
        """Ends all nodes, by the end of their input."""
        if self.carrier.callers:
            self.carrier.callers.end()
        for node in self.carrier.nodes:
            if node.child:
                node.gone()
        self.tell_errors()

    def tell_errors(self):
        """What nodes told on standard error until now."""
        try:
            told = os.read(self.errors, 65_536)
        except BlockingIOError:
            return
        os.write(2, told)
        for lacks, form in ((self.lacks, LACKS), (self.lacks_chunks, LACKS_CHUNKS)):
            lacks.update((int(number), int(many or 0)) for number, many in form.findall(told.decode("latin1")))

    def fall(self, node, status):
        self.tell_errors()
        self.ended[node.number] = status
        way = self.way_out(node, status) if status in STAY_DOWN or not os.path.exists(node.journal) else self.starting.format(node.number)
        tell(f"node {node.number} has ended {how_ended(status)}" + f": {way}" * node.is_ready)

    def how_many_are_up(self):
        """Those are up that said in this start that they are ready."""
        nodes = self.carrier.nodes
        return how_many_are_up(sum(node.child is not None and node.is_ready for node in nodes), len(nodes))

    def session(self, name, number):
        """The session, which is made when it is first asked for; None where the plan has none."""
        if (name, number) not in self.sessions and (name, number) in self.homes:
            self.sessions[name, number] = Session(name, number, self.homes[name, number], random)
        return self.sessions.get((name, number))

    def ask(self, name, kind, number, words, tell=None):
        """Has a session of the plan ask; whether there is one. The answer is told."""
        session = self.session(name, number)
        if session is None:
            return False
        if kind == "abandon":
            session.give_up()
        else:
            session.ask(kind.encode(), words.encode().split(), lambda body: (tell or self.told)(f"{name} {body.decode()}"))
        return True

    def ask_plan(self, name):
        """Has a tenant ask what it has, whichever node answers; whether there is such a tenant."""
        is_there = (name, 1) in self.homes
        if is_there:
            self.plans[name.encode()] = 0
        return is_there

    def hear(self, line):
        name, _, body = line.split(b" ", 2)
        self.nodes.hear(body)
        if body.startswith(b"plan ") and self.plans.pop(name, None) is not None:
            self.told(f"{name.decode()} {body.decode()}")
        for session in self.sessions.values():
            if session.name == name:
                session.hear(body)
        if self.carrier.callers:
            self.carrier.callers.tell(line)

    def turn(self, seconds, more=None):
        now = time.monotonic()
        for session in self.sessions.values():
            for line in self.nodes.due(session, now):
                self.carrier.send(line)
        up = [node.number for node in self.carrier.nodes if node.child]
        for name, due in self.plans.items():
            if up and now >= due:
                self.plans[name] = now + AGAIN
                self.carrier.send(b"%d %s plan" % (random.choice(up), name))
        is_there = self.carrier.turn(min(seconds, 0.1), more)
        self.tell_errors()
        return is_there

    def unanswered(self):
        return len(self.plans) + sum(session.unanswered() for session in self.sessions.values())

    def wait(self):
        """Waits until all requests are answered, and as long as answers come."""
        left, until = self.unanswered(), time.monotonic() + SILENCE
        while left:
            if time.monotonic() > until:
                raise Fault(f"not answered for {SILENCE} seconds: {', '.join(self.waited_for())}")
            self.turn(0.1)
            if left != self.unanswered():
                left, until = self.unanswered(), time.monotonic() + SILENCE

    def waited_for(self):
        yield from (f"plan of {name.decode()}" for name in self.plans)
        for (name, number), session in self.sessions.items():
            if session.unanswered():
                home = self.carrier.nodes[session.place]
                yield f"session {number} of {name}, whose home is node {home.number}" + ("" if home.child else ", which is down")

    def kill(self, number):
        node = self.carrier.node(number)
        if node.child:
            self.carrier.kill(node)

    def lose(self, number):
        """Ends the node, if it is up, and removes its journal, and its shelf."""
        self.kill(number)
        remove_journal(self.folder, number)

    def replace(self, number):
        """Puts a new node in the place of one that was lost: all others start again with a plan that says so, one after another, and then the
        new one begins. (A session whose home was lost goes on there by itself, as it would anywhere.) The new node."""
        place = number % PLACES
        text = with_loss(self.text, place)
        self.try_plan(text, number + PLACES)
        keep(self.kept, text)
        self.text = text
        for node in self.carrier.nodes:
            if node.child and node.number != number:
                self.carrier.kill(node)
                self.start_node(node)
        node = self.carrier.nodes[place] = Node(self.program, number + PLACES, self.kept, journal_of(self.folder, number + PLACES))
        self.start_node(node, not os.path.exists(node.journal))
        self.take_plan(text)
        return node

    def roll(self, text, say):
        """Restarts all nodes with this plan, one after another."""
        if down := [node.number for node in self.carrier.nodes if not node.child]:
            raise Fault(f"node {down[0]} is down, so none is restarted: see to that first")
        keep(self.kept, text)
        told = self.take_plan(text)
        self.use_lines_of(told)
        for node in self.carrier.nodes:
            node.gone()
            self.start_node(node)
            say(f"node {node.number} is up again")
        self.write_all_settings()

    def replace_lost(self, number):
        """The same at a start, of a node that is down."""
        node = self.carrier.node(number)
        if not node:
            raise Fault(f"there are the nodes {', '.join(str(it.number) for it in self.carrier.nodes)}")
        if node.child:
            raise Fault(f"node {number} is up")
        self.replace(number)

    def try_plan(self, text, number):
        """Whether a node of this number takes the plan is tried in a folder of its own, before the grid's nodes are given it."""
        with tempfile.TemporaryDirectory(prefix="gridfs-grid-") as room:
            plan = os.path.join(room, "plan")
            with open(plan, "w", encoding="latin1") as out:
                out.write(text)
            words = [self.program, "node", str(number), "--plan", plan, "--journal", journal_of(room, number), "--new"]
            done = subprocess.run(words, stdin=subprocess.DEVNULL, stdout=subprocess.DEVNULL, stderr=subprocess.PIPE, text=True)
            if done.returncode:
                told = done.stderr.strip().replace(plan, "the plan")
                raise Fault(f"no node {number} may be put in the place of node {number - PLACES}: {told}")

    def givers(self, number):
        """The other nodes of its column that have all files, and all chunks."""
        nodes, cols = self.carrier.nodes, int(self.shape.partition("x")[2])
        peers = [node for node in nodes if node.number % PLACES % cols == number % PLACES % cols and node.number != number]
        return [node for node in peers if os.path.exists(node.journal) and not self.lacks.get(node.number) and not self.lacks_chunks.get(node.number)]

    def wait_for_files(self, number):
        """Waits until a new node has all files, and all chunks, which may take long. It may have to wait for nodes that are down."""
        node, until = self.carrier.node(number), time.monotonic() + SILENCE
        while self.lacks.get(number) or self.lacks_chunks.get(number):
            down = "".join(f", node {it.number} is down" for it in self.carrier.nodes if not it.child)
            if time.monotonic() > until and (down or self.lacks.get(number)):
                raise Fault(f"node {number} lacks {'files' if self.lacks.get(number) else 'chunks'} after {SILENCE} seconds{down}")
            if not node.child:
                raise Fault(f"node {number} is down")
            self.turn(0.1)


def serve(grid):
    """Goes on until it is interrupted, or all nodes have ended."""
    tell(f"{grid.how_many_are_up()}, for clients at {grid.carrier.callers.path}")
    while any(node.child for node in grid.carrier.nodes):
        grid.turn(0.1)
        rolling.take(grid.folder, grid.roll)
    raise Fault("all nodes are down")


class Command:
    """What `./grid` does over pipes."""

    def run(self, asked):
        """Does what is asked for; the status."""
        try:
            return self.started(asked)
        except NotStarted as fault:
            tell(fault)
            return 1
        except KeyboardInterrupt:
            return 130 if asked.is_try or asked.lines else 0
        except BrokenPipeError:  # whoever read the answers has gone
            os.dup2(os.open(os.devnull, os.O_WRONLY), 1)
            return 1
        except OSError as error:
            tell(f"{error.filename}: {error.strerror}" if error.filename else error)
            return 1

    def started(self, asked):
        look_at(asked.program)
        with tempfile.TemporaryDirectory(prefix="gridfs-grid-") as room:
            folder = room if asked.is_try else asked.folder
            try:
                os.makedirs(folder, exist_ok=True)
                lock(folder)
            except OSError as error:
                raise Fault(f"{folder}: {error.strerror}") from error
            grid = Grid(os.path.abspath(asked.program), folder, asked.plan, asked.tick, None)
            if not asked.lines:
                grid.starting, grid.replacing = "it starts again with the grid", f"`./grid --replace {{}} {folder_to_start(folder)}`"
            try:
                grid.start()
                if asked.is_try:
                    return show(grid)
                if asked.replace is not None:
                    grid.replace_lost(asked.replace)
                grid.open_door()
                keep_way(folder, "pipes")
                keep_options(folder, asked, OF_GRID)
                if not asked.lines:
                    with watched(asked, folder):
                        return serve(grid)
                talk = Talk(grid)
                grid.told = talk.tell
                return talk.talk()
            finally:
                end()
                grid.end()
