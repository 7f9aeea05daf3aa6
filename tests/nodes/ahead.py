"""Numbers that are reserved ahead: how many syncs operations take, where a start goes on, what clients do then."""

import os
import random
import sys

from contents import in_bytes
from journals import batches, sealed
from processes import MARKER, SECONDS, Stepped, disk, ended, get, put, words_of
from reserved import RUN

sys.path.insert(0, os.path.join(os.path.dirname(os.path.abspath(__file__)), "..", "..", "clients", "python"))
from gridfs_grid.tenant import Session

NODES, FILES = 4, 4
WRITES, READS = 30, 70  # of a session
PLAN = f"grid 2 2\nblocks 64\ntenant ann 16 4 1\n{MARKER}go\nann open {FILES} 2\n".encode()
HEAD = b"node 0 of 2 by 2\n" + PLAN
TOO_HIGH = 4_294_967_295
LAST_OPERATION, LAST_NUMBER = (1 << 32) - 1, (1 << 64) - 1  # the greatest numbers that there are


class Counted:
    """Four nodes whose carrier loses nothing, with their calls of the disk."""

    def __init__(self, program, library, folder):
        self.folder = folder
        put(os.path.join(folder, "plan"), PLAN)
        self.nodes = [
            Stepped(words_of(program, number, "plan", f"journal{number}", True), number, folder, disk(library, CALLS=f"calls{number}")) for number in range(NODES)
        ]

    def ask(self, home, body):
        """What ann is told. Lines go from node to node, as long as there are some."""
        ways, told = [[] for _ in self.nodes], []
        ways[home].append(b"%d ann %s" % (home, body))
        while any(ways):
            for number, node in enumerate(self.nodes):
                given, ways[number] = ways[number], []
                for line in node.step(b"".join(line + b"\n" for line in given))[0].split(b"\n")[:-1]:
                    if line[:1].isdigit():
                        ways[int(line.split(b" ", 1)[0])].append(line)
                    elif line[:1] != b" ":
                        told.append(line)
        return told

    def end(self):
        """Ends the nodes; how many syncs of its journal each has made since it was ready."""
        for node in self.nodes:
            node.child.stdin.close()
            node.child.wait(SECONDS)
            node.kill()
        calls = [get(os.path.join(self.folder, f"calls{number}")) for number in range(NODES)]
        return [it.partition(b"o")[2].count(b"s") for it in calls]


class Ahead:
    """Each comparison by its name."""

    def __init__(self, program, library, folder):
        self.program, self.library, self.folder, self.tried, self.wrong = program, library, folder, 0, []

    def held(self, name, seen, wanted):
        self.tried += 1
        if seen != wanted:
            self.wrong.append(f"{name}: {seen!r}, not {wanted!r}")

    # ---- syncs

    def syncs(self):
        """Each session writes and reads a file of its own. Its home syncs once for its operations' numbers and once for those of its tags; each
        write is synced by the servers of its column, which are its home and one more; and a read by nobody."""
        draw, grid, wrong = random.Random(1), Counted(self.program, self.library, self.folder), []
        try:
            for session in range(1, NODES + 1):
                kinds = [b"write"] * WRITES + [b"read"] * READS
                draw.shuffle(kinds)
                for number, kind in enumerate(kinds, 1):
                    line = b"%s %d %d 0 %d" % (kind, session, number, session - 1) + b" %02x" % number * (kind == b"write")
                    told = grid.ask(session - 1, line)
                    if len(told) != 1 or not told[0].startswith(b"ann %d done %s %d %d " % (session - 1, kind, session, number)):
                        wrong.append((line, told))
        finally:
            syncs = grid.end()
        self.held("operations without losses", wrong, [])
        self.held(f"syncs of each node, of {WRITES} writes in each column by two sessions", syncs, [2 + 2 * WRITES] * NODES)

    # ---- starts

    def start(self, facts, lines):
        """What a node tells that has these facts, and what it is asked; and the facts that it has then."""
        put(os.path.join(self.folder, "plan"), PLAN)
        put(os.path.join(self.folder, "journal"), sealed(1, HEAD) + b"".join(sealed(at, fact) for at, fact in enumerate(facts, 2)))
        return self.again(lines, len(facts) + 1)

    def again(self, lines, known):
        status, told, wrote = ended(words_of(self.program, 0, "plan", "journal"), b"".join(line + b"\n" for line in lines), cwd=self.folder)
        found = batches(get(os.path.join(self.folder, "journal")))[0]
        return status, b" cut " in told, wrote.split(b"\n")[1:-1], b"".join(found[known:]).split(b"\n")[:-1]

    def asked(self, number, file, tag):
        """A write of session 1, whose row tells that it has nothing: its lines, what is written, and the number of its tag."""
        head = b"0 ann 1 %d 1 0 %d " % (number, file)
        letter = b"0 ann 1 %d %%d 0 %d " % (number, file)
        ask = b"1 " + letter % 1 + b"ask 18446744073709551615 255"
        stores = [b"0 " + letter % 2 + b"confirm %d 1" % tag, b"2 " + letter % 2 + in_bytes(b"store %d 1 aa" % tag)]
        return [b"0 ann write 1 %d 0 %d aa" % (number, file), b"0 " + head + b"copy 0 0 -", b"0 " + head.replace(b"0", b"1", 1) + b"copy 0 0 -"], [ask, *stores]

    def older(self):
        """A journal in which each number stands by itself: a start goes on behind the last ones, and reserves from there."""
        facts = [b"began ann 1 %d\n" % at for at in (1, 2, 3, 4, 5)] + [b"numbered ann 1 %d\nkept ann 0 0 %d 1 0%d\n" % (at, at, at) for at in (1, 2, 3)]
        lines, letters = self.asked(6, 1, 4)
        last, gone = b"0 ann abandon 1 %d" % TOO_HIGH, [b"0 ann read 1 5 0 0", b"0 ann read 1 4 0 0"]
        told = [b"ann 0 refused early 1 %d 5" % TOO_HIGH, b"ann 0 gone 1 5", b"ann 0 refused old 1 4 5"]
        seen = self.start(facts, [last, *gone, *lines])
        self.held("a start behind numbers one by one", seen, (0, False, told + letters, [b"began ann 1 %d" % (5 + RUN), b"numbered ann 1 %d" % (3 + RUN)]))
        lines, letters = self.asked(6 + RUN, 2, 4 + RUN)
        told = [b"ann 0 refused early 1 %d %d" % (TOO_HIGH, 5 + RUN), b"ann 0 refused old 1 6 %d" % (5 + RUN)]
        seen = self.again([last, b"0 ann read 1 6 0 0", *lines], len(facts) + 2)
        self.held("a start behind it", seen, (0, False, told + letters, [b"began ann 1 %d" % (5 + 2 * RUN), b"numbered ann 1 %d" % (3 + 2 * RUN)]))

    def first_run(self):
        """The last number of a run gives no fact, the one behind it does."""
        abandoned = [line for at in range(1, RUN + 2) for line in (b"0 ann read 1 %d 0 0" % at, b"0 ann abandon 1 %d" % at)]
        seen = self.start([], abandoned[: 2 * RUN])
        self.held("a whole run", (seen[0], seen[3]), (0, [b"began ann 1 %d" % RUN]))
        seen = self.start([], abandoned)
        self.held("one more", (seen[0], seen[3]), (0, [b"began ann 1 %d" % RUN, b"began ann 1 %d" % (2 * RUN)]))

    def limits(self):
        """A run ends at the greatest number. Behind it no operation begins."""
        for reserved in (LAST_OPERATION - 1, LAST_OPERATION - RUN + 5):
            seen = self.start([b"began ann 1 %d\n" % reserved], [b"0 ann read 1 %d 0 0" % (reserved + 1)])
            self.held(f"the run behind {reserved}", (seen[0], seen[3]), (0, [b"began ann 1 %d" % LAST_OPERATION]))
        last, answer = b"0 ann read 1 %d 0 0" % LAST_OPERATION, b"ann 0 gone 1 %d" % LAST_OPERATION
        self.held("behind the last operation", self.again([last, b"0 ann read 1 5 0 0"], 3), (0, False, [answer, b"ann 0 refused old 1 5 %d" % LAST_OPERATION], []))
        number = LAST_NUMBER - RUN + 5
        lines, letters = self.asked(1, 1, number + 1)
        seen = self.start([b"numbered ann 1 %d\n" % number], lines)
        self.held("the run of the last tags", seen, (0, False, letters, [b"began ann 1 %d" % RUN, b"numbered ann 1 %d" % LAST_NUMBER]))
        lines, letters = self.asked(RUN + 1, 2, 0)
        seen = self.again([*lines, b"0 ann abandon 1 %d" % (RUN + 1), b"0 ann read 1 %d 0 0" % (RUN + 2)], 4)
        self.held("a write behind the last tag", (seen[0], seen[2][:1]), (0, letters[:1]))
        self.held("goes on for ever, and can be given up", b"ann 0 gone 1 %d" % (RUN + 1) in seen[2] and not any(b" store " in it for it in seen[2]), True)

    # ---- clients

    def heard(self, kind, words, answers, gives_up=False):
        """What a session of the client in gridfs_grid/tenant.py has sent and was told, where its request is answered so."""
        session, told, sent = Session("ann", 1, 0, random.Random(1), 6), [], []
        session.ask(kind, words, told.append)
        for answer in answers:
            sent += session.due(1e9)
            if gives_up:
                session.give_up()
            session.hear(answer)
        return [*sent, *session.due(2e9)], told, session.last

    def clients(self):
        read, write = b"0 ann read 1 %d 0 3", b"0 ann write 1 %d 0 3 aa"
        done = b"done read 1 2049 tag 4 1 aa"
        seen = self.heard(b"read", [b"0", b"3"], [b"refused old 1 7 1030", b"refused old 1 1031 2048", b"refused old 1 7 1030", done])
        self.held("a read is asked again behind a start", seen, ([read % 7, read % 1031, read % 2049], [done], 2049))
        seen = self.heard(b"write", [b"0", b"3", b"aa"], [b"refused old 1 6 1030", b"refused early 1 7 5", b"refused old 2 7 1030", b"refused old 1 7 1030"])
        self.held("a write is gone behind a start", (seen[0][0], seen[1:]), (write % 7, ([b"gone 1 7"], 1030)))
        seen = self.heard(b"read", [b"0", b"3"], [b"refused old 1 7 1030"], True)
        self.held("a read that was given up is gone", seen, ([read % 7], [b"gone 1 7"], 1030))
        begun = Session("ann", 1, 0, random.Random(1))
        for answer in (b"refused early 1 %d 6" % begun.going.number, b"refused old 1 7 1030", b"done read 1 1031 tag 0 0 -"):
            begun.due(1e9)
            begun.hear(answer)
        self.held("a client that begins while its home is started again", (begun.last, begun.going, len(begun.waiting)), (1031, None, 0))


def tell_ahead(program, library, folder):
    """How many things were compared, and what is wrong."""
    ahead = Ahead(program, library, folder)
    ahead.syncs()
    ahead.older()
    ahead.first_run()
    ahead.limits()
    ahead.clients()
    return ahead.tried, ahead.wrong
