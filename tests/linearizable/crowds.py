"""Scripts in which many sessions are at one file, drawn from a seed."""

import os
import sys

HERE = os.path.dirname(os.path.abspath(__file__))
sys.path.insert(0, os.path.join(HERE, "..", "..", "bench"))
from writes import Lines


class Crowd(Lines):
    """Sessions that read as often as they write, mostly short contents, and give more up."""

    def begin(self, session):
        file = self.draw.randrange(self.files)
        kind = self.draw.choice(["write", "write", "read", "read", "read", "list"])
        if self.grid.quorum(self.up, 1):
            session.op += 1
            session.writes, session.file = kind == "write", 0 if kind == "list" else file
            session.last_collect = 2 * self.files - 1 if kind == "list" else 1
            self.begin_round(session, 1)
        if kind == "write":
            return f"write {session.number} 0 {file} {self.draw.randbytes(self.draw.choice([0, 1, 2, 3, 3, 3, 65])).hex() or '-'}"
        return f"read {session.number} 0 {file}" if kind == "read" else f"list {session.number} 0"

    def ask(self, session):
        if session.round and self.draw.random() < 0.01:
            return self.abandon(session)
        return super().ask(session)


def a_crowd(draw):
    """A script of one or two tenants, each with one volume of one or two files."""
    names = ["ann", "bob"][: draw.choice([1, 1, 2])]
    sessions, files = draw.choice([2, 3, 4, 8, 16]), draw.choice([1, 1, 2])
    rows, cols = draw.randint(1, 3), draw.randint(1, 3)
    lines = Crowd(draw, names, sessions, lost=0.02, changed=0.01, broken=draw.choice([0, 0.01]), rows=rows, cols=cols, files=files, blocks=2)
    plan = [f"grid {rows} {cols}", f"blocks {4 * len(names)}", *(f"tenant {name} 4 {sessions} 1000000" for name in names), "go"]
    return "\n".join(plan) + "\n" + "".join(next(lines) for _ in range(draw.choice([60, 200, 600, 1200])))
