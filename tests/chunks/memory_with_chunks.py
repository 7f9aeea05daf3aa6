"""Registers in memory beside nodes that keep chunks: clients of names over both, which die at any step, and whose lines come late."""

import os
import random
import sys

sys.path[:0] = [os.path.join(os.path.dirname(os.path.abspath(__file__)), "..", "names")]
from histories import Killed
from memory import Memory, MemorySession
from servers import Net, Servers

from gridfs_client import NamedFiles, OneByOne, Pace
from gridfs_client.in_chunks import ChunkContents

SHORT = 100  # bytes of a chunk here
ChunkContents.most = SHORT
PACE = Pace(again=0.5, again_at_most=2, timeout=20)


class Stepped(Net):
    """A carrier of one session. Each line that is sent is a step; where the client dies at it, it comes late or never."""

    def __init__(self, world, session, seed):
        super().__init__(world.servers, seed)
        self.world, self.session = world, session

    def send(self, node, body):
        try:
            self.session.step()
        except Killed:
            self.world.late.append((node, body))
            raise
        super().send(node, body)

    def die(self):
        """What is under way comes later, if at all."""
        self.at_line = lambda node, body: self.world.late.append((node, body)) or False
        while self.coming:
            self.coming.pop()[2]()


def with_chunks(session, memory):
    """Gives a session over these registers chunks, at nodes that are always up: its client dies at none of their lines."""
    memory.servers = getattr(memory, "servers", None) or Servers(sessions=memory.layout.sessions)
    session.carrier, session.pace = Net(memory.servers), PACE
    session.carrier.told = memory.servers.plan()
    return session


class World(Memory):
    """Pages and journals in registers, and chunks at servers."""

    def __init__(self, sessions=2, pages=1, servers=None, seed=0, **more):
        super().__init__(sessions, pages, **{"page_blocks": 16, **more})
        self.servers, self.late, self.draw = servers or Servers(sessions=sessions), [], random.Random(seed)

    def client(self, number, at_step=None, kind=NamedFiles, helpers=(), others=()):
        sessions = [MemorySession(self, each, at_step) for each in (number, *helpers, *others)]
        for session in sessions[1:]:
            session.step = sessions[0].step
        for session in sessions:
            self.give_carrier(session)
        last = 1 + len(helpers)
        return kind(sessions[0], self.layout, helpers=lambda: sessions[1:last], team=OneByOne(), **({"others": lambda: sessions[last:]} if others else {}))

    def give_carrier(self, session, kind=Stepped):
        session.carrier, session.pace = kind(self, session, self.draw.random()), PACE
        session.carrier.told = self.servers.plan()
        return session

    def lines_come(self):
        """What was late comes now."""
        late, self.late = self.late, []
        for node, body in late:
            self.servers.take(node, body)

    def named(self):
        """The chunks that pages and journals name which count: column, session and number."""
        writers, parts = [self.client(session).writer for session in range(1, self.layout.sessions + 1)], set()
        for writer in writers:
            for bucket in writer.all_buckets():
                bucket.look()
                parts |= bucket.journal.in_chunks() | bucket.page_of(writer.me).in_chunks()
        return {place for run in writers[0].contents.runs_in(parts) for place in run.places()}

    def kept(self):
        return {(place % self.servers.shape.columns, *key) for place, server in self.servers.at.items() for key in server.chunks}
