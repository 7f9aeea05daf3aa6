"""Nodes of a grid as processes on this machine, and a carrier that takes their lines from one to another over pipes.

What a carrier owes to nodes stands in docs/FORMATS.md (Lines of nodes). This one keeps it so: a line is taken whole or not at all; each
line comes from the process whose number it names; what waits for a node that does not read is dropped from some length on, so that
no node waits for another; and a node is given a tick only once nothing else waits for it.
"""

import os
import select
import subprocess
import time

from gridfs_grid.tenant import PLACES

READ = 65_536  # bytes of one read; a line may take several
MOST_WAITING = 1 << 22  # bytes that may wait for one node, or some of the longest lines
GREET_FIRST, GREET = 3, 60  # seconds from a node's first line, when links are up, until it is to tell the others which forms of lines it speaks, and to the next time
PATIENCE = 5  # seconds that a node has to end by itself
LETTERS = {b"ask", b"store", b"confirm"}  # between nodes, that are answered at once: TO FROM TENANT SESSION OPERATION ROUND VOLUME FILE ask ..
SEARCHES = {b"seeks", b"wants"}  # by which a node asks for chunks that it lacks: TO FROM TENANT seeks ..
LACKS = 10  # seconds from such a line until it has all, or nobody gives them
# For a node's C library, as deploy/carrier/node.c has it: what a large content took is kept for the next one.
KEEP_MEMORY = {"GLIBC_TUNABLES": "glibc.malloc.mmap_threshold=8388608:glibc.malloc.trim_threshold=67108864"}


def with_clock(line):
    """A line to a tenant; an answer `plan` with what this machine's clock says."""
    return line + b" clock=%d" % time.time() if line[:100].split(b" ", 3)[2:3] == [b"plan"] else line


def journal_of(folder, number):
    return os.path.join(folder, f"node{number}.journal")


class Lines:
    """Lines of what is read part by part. A part is looked at once, however long its line is."""

    def __init__(self):
        self.parts, self.length = [], 0  # of the line that has begun

    def take(self, read):
        """The lines that end in this part, without their LF."""
        first, *more = read.split(b"\n")
        self.parts.append(first)
        self.length += len(first)
        if not more:
            return []
        lines, self.parts, self.length = [b"".join(self.parts), *more[:-1]], [more[-1]], len(more[-1])
        return lines

    def rest(self):
        """The line that has begun."""
        return b"".join(self.parts)


class Node:
    """The process of a node, what waits to be written to it, and the beginning of a line that was read of it."""

    def __init__(self, program, number, plan, journal):
        self.program, self.number, self.plan, self.journal = program, number, plan, journal
        self.child, self.is_ready = None, False
        self.greet_due = 0  # once it is ready
        self.waiting, self.begun = bytearray(), Lines()

    def start(self, is_new=False, env=None, **more):
        """Starts the process, whose standard error is ours. A signal from the terminal does not reach it."""
        words = [self.program, "node", str(self.number), "--plan", self.plan, "--journal", self.journal] + ["--new"] * is_new
        self.child = subprocess.Popen(words, stdin=subprocess.PIPE, stdout=subprocess.PIPE, bufsize=0, start_new_session=True, env={**KEEP_MEMORY, **(env or os.environ)}, **more)
        for pipe in (self.child.stdin, self.child.stdout):
            os.set_blocking(pipe.fileno(), False)
        self.waiting, self.begun, self.is_ready = bytearray(), Lines(), False

    def lines(self):
        """The whole lines that can be read now, without their LF. None at the end of its output."""
        try:
            read = os.read(self.child.stdout.fileno(), READ)
        except BlockingIOError:
            return []
        return self.begun.take(read) if read else None

    def give(self):
        """Writes of what waits as much as goes into the pipe."""
        try:
            del self.waiting[: os.write(self.child.stdin.fileno(), self.waiting)]
        except BlockingIOError:
            pass
        except BrokenPipeError:
            self.waiting.clear()  # (the end of its output is near)

    def pass_output(self):
        """Reads what the process writes until it ends, and drops it: with more than a pipe holds it would wait for us."""
        pipe, until = self.child.stdout.fileno(), time.monotonic() + PATIENCE
        while select.select([pipe], [], [], max(0, until - time.monotonic()))[0] and os.read(pipe, READ):
            pass

    def gone(self):
        """Waits for the end of the process, which is near, and gives its status."""
        self.child.stdin.close()
        self.pass_output()
        try:
            status = self.child.wait(PATIENCE)
        except subprocess.TimeoutExpired:
            self.child.kill()
            status = self.child.wait()
        self.child.stdout.close()
        self.child = None
        return status


class Carrier:
    """Carries lines between tenants and nodes, of which one stands at each place. `hear` is called with each line to a tenant, `fall` with a
    node that has ended, and its status."""

    def __init__(self, nodes, hear, fall, tick):
        self.nodes, self.hear, self.fall = nodes, hear, fall
        self.most_waiting = MOST_WAITING
        self.tick = self.quick = tick
        self.next_tick, self.given_tick = time.monotonic() + tick, 0
        self.asked, self.lacks_until = {}, 0  # nodes' places, and when each was first asked since it wrote something
        self.carried = 0  # lines that were given to nodes
        self.callers = None  # clients at a socket (callers.py), where there is one

    def carry_lines_of(self, longest, tick, quick=None):
        """Some lines of so many bytes may wait for a node, and ticks come this often, or the other while a node is silent."""
        self.most_waiting, self.tick, self.quick = max(MOST_WAITING, 16 * longest), tick, quick or tick

    def node(self, number):
        """The node of this number; None where another stands in its place, or there is none."""
        place = number % PLACES
        node = self.nodes[place] if place < len(self.nodes) else None
        return node if node and node.number == number else None

    def kill(self, node):
        """Ends the node's process by the signal that none can delay (kill -9). What it wrote and was not read is lost."""
        node.child.kill()
        node.gone()

    def send(self, line):
        """Takes a line, without LF, to the node that it names, if that is up and reads."""
        to = line.split(b" ", 1)[0]
        node = self.node(int(to)) if to.isdigit() else None
        if node and node.child and len(node.waiting) + len(line) < self.most_waiting:
            node.waiting += line + b"\n"
            self.carried += 1

    def take_from(self, node):
        """Takes on what the node wrote; at the end of its output, its process ends."""
        lines = node.lines()
        if lines is None:
            self.fall(node, node.gone())
            return
        if lines:
            self.asked.pop(node.number % PLACES, None)
        for line in lines:
            if line == b" ?":  # a node's first line, to nobody
                node.is_ready, node.greet_due = True, time.monotonic() + GREET_FIRST
            elif line[:1].isdigit():
                self.note_asked(line)
                self.send(line)
            else:
                self.hear(with_clock(line))

    def note_asked(self, line):
        """A node writes to another one."""
        words = line[:200].split(b" ", 9)
        if len(words) > 8 and words[8] in LETTERS:
            self.asked.setdefault(int(words[0]) % PLACES, time.monotonic())
        elif len(words) > 3 and words[3] in SEARCHES:
            self.lacks_until = time.monotonic() + LACKS

    def tick_due(self, now):
        """When the next tick is. Only a tick has a session ask round a node that is silent, so they come quickly then; but not while a node asks for chunks that it lacks, since a tick has it
        ask again, and those lines are long."""
        if now < self.lacks_until:
            return self.next_tick
        return min([self.next_tick, *(max(since if self.is_up(place) else 0, self.given_tick) + self.quick for place, since in self.asked.items())])

    def is_up(self, place):
        return place >= len(self.nodes) or self.nodes[place].child is not None

    def give_ticks(self):
        now = time.monotonic()
        if now >= self.tick_due(now):
            self.next_tick, self.given_tick = now + self.tick, now
            for node in self.nodes:
                if node.child and node.is_ready and not node.waiting:
                    self.send(b"%d %d tick" % (node.number, node.number))

    def give_greets(self):
        """Has nodes tell the others which forms of lines they speak: again and again, since lines are lost, and nodes are started again."""
        now = time.monotonic()
        for node in self.nodes:
            if node.child and node.is_ready and now >= node.greet_due:
                self.send(b"%d %d greet" % (node.number, node.number))
                node.greet_due = now + GREET

    def turn(self, seconds, more=None):
        """Carries what can be read and written now, or waits for it so long. Whether there is something to read of one file more."""
        self.give_ticks()
        self.give_greets()
        up = [node for node in self.nodes if node.child]
        wanted = {node.child.stdout: node for node in up}
        waited = {node.child.stdin: node for node in up if node.waiting}
        calls, answers = (self.callers.read_from(), self.callers.written_to()) if self.callers else ({}, {})
        now = time.monotonic()
        seconds = max(0, min(seconds, self.tick_due(now) - now))
        read, written, _ = select.select([*wanted, *calls, *([] if more is None else [more])], [*waited, *answers], [], seconds)
        for pipe in written:
            answers[pipe]() if pipe in answers else waited[pipe].give()
        for pipe in read:
            if pipe in wanted:
                self.take_from(wanted[pipe])
            elif pipe in calls:
                calls[pipe]()
        return more in read
