#!/usr/bin/python3
"""Random histories of objects by several gateways that tell one another which pages they changed: listings, which look at these alone, have to be right.

    histories_beside.py FIRST COUNT      so many from a seed on; the status is 1 where one has no order

They are those of histories_in_memory.py, with gateways that are killed and writes that take effect late. Who lists asks the others as all_pages.py does, between two steps of these.
"""

import contextlib
import os
import sys

sys.path.insert(0, os.path.dirname(os.path.abspath(__file__)))
import histories_in_memory
import registers
from gridfs_client import ClientError, Unanswered
from gridfs_s3.errors import S3Error
from gridfs_s3.peers import NEVER
from histories_in_memory import Objects

SHAPES = [
    registers.Shape(names=(1, 2), sessions=(2, 3), pages=(1, 2), sizes=(3, 45), kills=(0, 0.002), gone=(0,), late=(0.1, 0.02), many_sessions=(0.3, 0.6), weights=((4, 0, 1, 7),)),
    registers.Shape(names=(1, 2), sessions=(2, 3), pages=(1, 2), sizes=(3, 45), kills=(0, 0.004), gone=(0,), late=(0.05, 0.01), many_sessions=(0.4,), weights=((4, 0, 1, 7),), unanswered=(0.005, 0.02)),
]
told_alone = 0  # listings that looked at what others told


class Beside(Objects):
    live = {}  # of each session the gateway that has it, or had it last

    def __init__(self, session, layout, helpers, team):
        super().__init__(session, layout, helpers, team)
        self.shared, self.client, self.known = self.stores[0].shared, session.client, {}
        Beside.live.update({store.me: self for store in self.stores})

    def settle(self):
        """Before the first operation, pages of all its sessions: a gateway does so by and by."""
        for store in self.stores:
            for page in range(store.layout.pages):
                if page not in store.settled:
                    with contextlib.suppress(Unanswered):
                        store.settle(page)

    def has_settled(self):
        return all(store.writer.has_settled_all() for store in self.stores)

    def tells(self, known):
        """What other gateways are told; None of one that answers nothing."""
        if self.client.is_killed or self.client.has_ended:
            return None
        changes = self.shared.changes
        count, pages = changes.since(known.get(changes.start, NEVER))
        return changes.start, count, pages if self.has_settled() else None

    def names(self):
        global told_alone
        store, layout = self.store(), self.stores[0].layout
        self.settle()
        others = {Beside.live.get(number) for number in range(1, layout.sessions + 1)} - {self}
        told = [each and each.tells(self.known) for each in others]
        if self.has_settled() and all(each and each[2] is not None for each in told):
            volumes = {layout.page(1, page)[0] for page in set().union(*(pages for _, _, pages in told)) | self.shared.index.open}
            told_alone += bool(told)
        else:
            volumes = range(layout.pages_volumes)
        store.look_at(sorted(volumes))
        self.known = {each[0]: each[1] for each in told if each}
        rows = self.shared.index.names("")
        return [histories_in_memory.Entry(row.key, Objects.digests[row.etag]) for row in rows if row.etag in Objects.digests]


def wrong_in(seed, _=None):
    """Why a history is wrong; None where it is right."""
    Objects.times, Beside.live = {}, {}
    try:
        history, _ = registers.try_registers(seed, Beside, 50, SHAPES[seed % len(SHAPES)])
    except histories_in_memory.WentBack:
        return None  # (of several gateways the times of changes side by side need not be in the order of these)
    except Unanswered:
        return None
    except (ClientError, S3Error, AssertionError) as fault:
        return f"{type(fault).__name__}: {fault}"
    wrong, _ = history.wrong()
    return f"no order of {wrong}" if wrong else None


def main(first, count):
    histories_in_memory.wrong_in = wrong_in
    status = histories_in_memory.main(first, count)
    print(f"{told_alone} listings looked at what others told alone")
    return status


if __name__ == "__main__":
    sys.exit(main(*map(int, sys.argv[1:])))
