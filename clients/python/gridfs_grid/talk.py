"""Lines that a person, or a script, gives to a grid in pipes (`./grid --lines`).

The requests of one session go one after another, those of several side by side. Answers are told as they come:
`ann done write 1 2 tag 1 1`, the session's operation 2, is done; `ann gone 1 2` says that the node was started again since the session's
last answer, and does not know how the operation ended; or that the session's home was lost: it goes on at the new node there, which knows it by
a number that is greater by 16.
"""

import os
import re
import sys

from gridfs_grid.carrier import Lines
from gridfs_grid.one_machine import NotStarted, tell
from gridfs_grid.tenant import PLACES

REQUEST = re.compile(r"([a-z]{1,16}) (?:(write) (\d+) (\d+ \d+ (?:-|[0-9a-fA-F]+))|(read) (\d+) (\d+ \d+)|(list) (\d+) (\d+)|(abandon) (\d+))")
PLAN = re.compile(r"([a-z]{1,16}) plan")
NODE = re.compile(r"(kill|start|lose|replace|wait) (\d{1,3})")
FORMS = """\
    NAME write SESSION VOLUME FILE HEX    write the content, two hexadecimal digits a byte
    NAME read SESSION VOLUME FILE         read the file
    NAME list SESSION VOLUME              list the files of a volume
    NAME abandon SESSION                  give up what the session does now
    NAME plan                             tell what the tenant has: nodes, home of its session 1, sessions, share, blocks, volumes
    kill N, start N                       kill -9 the process of node N; start it again
    lose N                                kill -9 the process of node N, and remove its journal: it can't start again
    replace N                             put a new node, N + 64, in the place of node N, which was lost: all others start again, one after another
    nodes                                 tell which nodes are up
    wait                                  read no further line before all requests are answered
    wait N                                read no further line before node N, which is new, has all files and all chunks
    help, end                             tell these forms; end (as the end of the input does, once all is answered)"""


class Talk:
    """Takes lines from standard input: at a prompt, where that is a terminal."""

    def __init__(self, grid):
        self.grid, self.is_asked = grid, os.isatty(0)
        self.lines, self.begun, self.number, self.wrong, self.is_ended = [], Lines(), 0, 0, False

    def prompt(self):
        if self.is_asked:
            print("grid> ", end="", flush=True)

    def tell(self, text):
        print(f"\r\x1b[K{text}" if self.is_asked else text, flush=True)
        self.prompt()

    def refuse(self, why):
        self.wrong = 1
        print(f"grid: line {self.number}: {why}", file=sys.stderr, flush=True)

    def read(self):
        read = os.read(0, 65_536)
        self.lines += self.begun.take(read)
        self.is_ended = not read
        if self.is_ended and self.begun.length:
            self.lines.append(self.begun.rest())

    def take(self, line):
        """Does what one line asks for."""
        self.number += 1
        request, plan, node = REQUEST.fullmatch(line), PLAN.fullmatch(line), NODE.fullmatch(line)
        if len(line) > self.grid.longest:
            self.refuse(f"longer than {self.grid.longest} bytes")
        elif request and not (request[4] and request[4][-1] != "-" and len(request[4].rpartition(" ")[2]) % 2):
            name, kind, number, words = [it for it in request.groups() if it is not None] + [""] * (request[11] is not None)
            if not self.grid.ask(name, kind, int(number), words):
                self.refuse(f"the plan has no session {number} of {name}")
        elif plan:
            if not self.grid.ask_plan(plan[1]):
                self.refuse(f"the plan has no tenant {plan[1]}")
        elif node:
            self.change(node[1], int(node[2]))
        elif line == "nodes":
            for it in self.grid.carrier.nodes:
                lacks = ", and lacks files" if it.child and self.grid.lacks.get(it.number) else ""
                print(f"node {it.number} is {'up, process %d' % it.child.pid if it.child else 'down'}{lacks}", flush=True)
        elif line == "wait":
            self.grid.wait()
        elif line == "help":
            print(FORMS, flush=True)
        elif line == "end":
            self.is_ended, self.lines = True, []
        elif line:
            self.refuse("no request (the line `help` tells the forms)")

    def change(self, how, number):
        node = self.grid.carrier.node(number)
        if not node:
            return self.refuse(f"there are nodes {self.numbers()}")
        if how != "wait" and how != "lose" and (node.child is None) == (how == "kill"):
            return self.refuse(f"node {number} is {'down' if how == 'kill' else 'up'}")
        try:
            return getattr(self, how)(node)
        except NotStarted as fault:
            return self.refuse(fault)

    def numbers(self):
        numbers = [node.number for node in self.grid.carrier.nodes]
        is_first = numbers == list(range(len(numbers)))
        return f"0 to {len(numbers) - 1}" if is_first else ", ".join(map(str, numbers))

    def kill(self, node):
        self.grid.kill(node.number)

    def start(self, node):
        self.grid.start_node(node)

    def lose(self, node):
        self.grid.lose(node.number)
        self.tell(f"node {node.number} is lost: it is down, and its journal is gone")

    def replace(self, node):
        new = self.grid.replace(node.number)
        self.tell(f"node {new.number} stands in the place of node {node.number}")
        for it in self.grid.carrier.nodes:
            if not it.child:
                self.tell(f"node {new.number} gets its files once node {it.number} has started too, or is replaced")
        if not self.grid.givers(new.number):
            self.tell(f"no other node of its column has all files and chunks: what they lack is lost, and node {new.number} waits for it in vain")

    def wait(self, node):
        if node.number < PLACES:
            return self.refuse(f"node {node.number} is not new")
        return self.grid.wait_for_files(node.number)

    def talk(self):
        """Takes lines until there are none, or one says so; the status."""
        tell(f"{self.grid.how_many_are_up()}, their journals in {self.grid.folder}; `help` tells what can be asked")
        self.prompt()
        while not self.is_ended or self.lines:
            if self.lines:
                self.take(self.lines.pop(0).decode("latin1").rstrip("\r"))
                self.prompt()
            if self.grid.turn(0 if self.lines else 0.1, None if self.is_ended else 0):
                self.read()
        self.grid.wait()
        return self.wrong
