"""What the carrier of ./grid takes of a node that ends amid a line, and what it gives to its next life: no line is joined of two
lives, torn, or made of a tail. The nodes are small programs of our own."""

import os
import sys
import time
from unittest import mock

from processes import SECONDS

sys.path.insert(0, os.path.join(os.path.dirname(os.path.abspath(__file__)), "..", "..", "clients", "python"))
from gridfs_grid import carrier
from gridfs_grid.carrier import Carrier, Node

LONG = 100_000  # bytes of a line that no pipe takes whole
PROGRAM = "#!/usr/bin/env python3\nimport os, time\n"
HALF = "os.write(1, b' ?\\nann 0 one\\nann 0 ha')\n"
LASTS = "time.sleep(60)\n"
READS = "os.write(1, b' ?\\n')\nos.write(1, b'ann 0 took %d\\n' % len(os.read(0, 1 << 20)))\n" + LASTS
TELLS = "os.write(1, b' ?\\n')\nwhile True: os.write(1, b'ann 0 took ' + os.read(0, 1 << 20))\n"


class Lives:
    """One node's lives under a carrier, whose ticks are too far apart to come."""

    def __init__(self, folder):
        self.program = os.path.join(folder, "life")
        self.heard, self.fallen = [], []
        self.carrier = Carrier([], self.heard.append, lambda node, status: self.fallen.append(status), 3600)
        self.node = Node(self.program, 0, "plan", os.path.join(folder, "journal"))
        self.carrier.nodes.append(self.node)

    def start(self, text):
        with open(self.program, "w", encoding="ascii") as out:
            out.write(PROGRAM + text)
        os.chmod(self.program, 0o755)
        self.node.start()

    def goes_until(self, is_so):
        """Whether it comes about."""
        until = time.monotonic() + SECONDS
        while not is_so() and time.monotonic() < until:
            self.carrier.turn(0.05)
        return is_so()

    def killed_amid_a_line(self):
        """The half line of a life that was killed is no part of the next one's first line."""
        self.start(HALF + LASTS)
        began = self.goes_until(lambda: self.heard and self.node.begun.length)
        self.carrier.kill(self.node)
        self.start("os.write(1, b' ?\\nann 0 two\\n')\n" + LASTS)
        ready = self.goes_until(lambda: self.node.is_ready and len(self.heard) > 1)
        self.carrier.kill(self.node)
        return began and ready and self.heard == [b"ann 0 one", b"ann 0 two"]

    def ends_amid_a_line(self):
        """The half line of a life that ended is no line."""
        self.start(HALF)
        return self.goes_until(lambda: self.fallen) and (self.heard, self.fallen) == ([b"ann 0 one"], [0])

    def reads_late(self):
        """The tail of a line that a life took in part is not given to the next one, which is sent another line."""
        self.start("os.write(1, b' ?\\n')\n" + LASTS)
        ready = self.goes_until(lambda: self.node.is_ready)
        self.carrier.send(b"0 ann " + b"x" * LONG)
        given = self.goes_until(lambda: len(self.node.waiting) < LONG)
        self.carrier.kill(self.node)
        self.start(READS)
        ready = ready and self.goes_until(lambda: self.node.is_ready)
        self.carrier.send(b"0 ann a")
        took = self.goes_until(lambda: self.heard)
        self.carrier.kill(self.node)
        return ready and given and took and self.heard == [b"ann 0 took 8"]

    def greets(self):
        """In each life it is to greet: soon once it is ready, and then again and again."""
        held = []
        with mock.patch.multiple(carrier, GREET_FIRST=0.3, GREET=0.5):
            for _ in range(2):
                self.heard.clear()
                self.start(TELLS)
                ready = self.goes_until(lambda: self.node.is_ready)
                begun = time.monotonic()
                came = self.goes_until(lambda: len(self.heard) == 3)
                held.append(ready and came and time.monotonic() - begun > 1.2 and self.heard == 3 * [b"ann 0 took 0 0 greet"])
                self.carrier.kill(self.node)
        return all(held)


def tell_lives(folder):
    """How many were tried, and what is wrong."""
    tried = ["killed_amid_a_line", "ends_amid_a_line", "reads_late", "greets"]
    wrong = []
    for name in tried:
        lives = Lives(folder)
        if not getattr(lives, name)():
            wrong.append(f"lives: {name}: {lives.heard!r}, {lives.fallen}")
    return len(tried), wrong
