"""Storms amid which the program of the nodes is changed, one node after another: to a later one, and back to the one of before, again and again.
They are judged as all storms are. In the end each file is read at nodes of which some may have either program."""

import os
import re

from processes import get, put
from storm import CALM, Storm

CHANGE = 0.06  # of the steps have a node with another program before them
SEALED = re.compile(rb"(?m)^sync [0-9]+ [0-9]+ [0-9a-z]+\n")


class Changed(Storm):
    """The programs are that of before and the later one."""

    def __init__(self, programs, *words):
        super().__init__(programs, *words)
        self.programs, self.changes = programs, 0
        self.runs = [0] * self.count  # which of them each node has

    def start(self, number):
        self.program = self.programs[self.runs[number]]
        super().start(number)

    def change_one(self):
        """The next node gets the other program. As they come in turn, all have the later one before the first goes back."""
        number = self.changes % self.count
        self.runs[number] = 1 - self.runs[number]
        self.changes += 1
        if self.alive(number):
            self.kill(number)

    def step(self, numbers):
        if self.weather is not CALM and self.draw.random() < CHANGE:
            self.change_one()
        super().step(numbers)


class Cutting(Changed):
    """The program of before takes the last batch of a journal for a torn end, as if it could not read it."""

    def start(self, number):
        path = self.journal(number)
        if not self.runs[number] and os.path.exists(path):
            text = get(path)
            ends = [it.end() for it in SEALED.finditer(text)]
            if len(ends) > 2:
                put(path, text[: ends[-2]])
        super().start(number)
