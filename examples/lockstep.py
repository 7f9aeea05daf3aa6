#!/usr/bin/env python3
"""Talks with `gridfs step`: sends a line, reads its answer, and chooses the next line by it. Two sessions write and one reads, and
the messages are delivered in an order drawn at random until each operation is done; a seed draws the same order again.

    examples/lockstep.py ./gridfs [SEED]
"""

import random
import subprocess
import sys

PLAN = "grid 2 2\nblocks 16\ntenant ann 16 3 1000000\ngo\n"
REQUESTS = ["ann write 1 0 0 6869", "ann write 2 0 0 686f", "ann read 3 0 0"]


class Talk:
    """A program that is asked one line at a time."""

    def __init__(self, program, plan):
        self.child = subprocess.Popen([program, "step"], stdin=subprocess.PIPE, stdout=subprocess.PIPE, text=True)
        self.child.stdin.write(plan)

    def ask(self, line):
        self.child.stdin.write(line + "\n")
        self.child.stdin.flush()
        return self.child.stdout.readline().rstrip("\n")


def complete(ask, draw, requests):
    """Asks the requests, each of a session of its own, and delivers messages until all are done. Gives each line with its answer."""
    lines, going = list(requests), len(requests)
    while going:
        line = lines.pop(draw.randrange(len(lines)))
        answer = ask(line)
        yield line, answer
        words = answer.split()
        if "sent" in words:
            lines += [f"ann deliver {n}" for n in range(int(words[-3]), int(words[-1]) + 1)]
        if words[1] == "reply":
            lines.append(f"ann deliver {words[2]}")
        going -= words[1] == "done"


if __name__ == "__main__":
    talk = Talk(sys.argv[1], PLAN)
    print(talk.ask("ann open 1 1"))
    for line, answer in complete(talk.ask, random.Random(*map(int, sys.argv[2:])), REQUESTS):
        print(f"{line:24}{answer}")
