"""A node that stands in the place of one that was lost: the plan that says so, its faults and those of a start, journals with files that were
given, and lines by which a new node joins and gets files, each with what is written for it; where the tags of its sessions begin; and what a client
does whose session's home was lost."""

import os
import random
import sys

sys.path.insert(0, os.path.join(os.path.dirname(os.path.abspath(__file__)), "..", "..", "clients", "python"))
from contents import in_bytes
from faults import PLAN, STRANGE, Faults, not_kept, of_node
from journals import batches, sealed
from plans import homes
from processes import WRONG, Stepped, get, put, words_of
from gridfs_grid.planned import planned
from gridfs_grid.tenant import PLACES, SESSIONS, Nodes, Session

LOST = PLAN + b"replace 3\n"
FILES = 6  # of the plan, all of which node 67 lacks at first
LACKS = b"gridfs: node 67 of 2 by 2: %d facts, lacks %d files\n"
WHOLE = b"gridfs: node 67 of 2 by 2: %d facts\n"
ALL = b"gridfs: node 67: has all files\n"
FIRST = b" ?\n"
GREATEST = 18_446_744_073_709_551_615
OF_A_LOSS = 1_099_511_627_776  # numbers of tags that are left for what is written between two losses
# Plans with a loss that is at fault, and the line that is told.
AT_FAULT = {
    "a place that is not there": (PLAN + b"replace 4\n", 10),
    "a number above 32 bits": (PLAN + b"replace 4294967296\n", 10),
    "a place with no form": (PLAN + b"replace 03\n", 10),
    "no number": (PLAN + b"replace three\n", 10),
    "one row": (PLAN.replace(b"grid 2 2", b"grid 1 4") + b"replace 3\n", 10),
    "the 15th node of one place": (PLAN + b"replace 3\n" * 15, 24),
    "the second loss": (LOST + b"replace 9\n", 11),
}
OPENED = b"ann open 4 2\nbob open 1 1\nann open 1 1\n"
# The same losses written otherwise, of which the canonical text is the first one.
ALIKE = {
    "a loss before the openings": PLAN.replace(OPENED, b"replace 3\n" + OPENED),
    "a loss amid the openings": PLAN.replace(b"bob open", b"replace 3\nbob open"),
    "no newline at the end": LOST[:-1],
}
# What goes on from the plan with the loss of node 3, with the place of its second loss; and what does not.
BEHIND = {
    "another loss": (LOST + b"replace 1\n", 1),
    "the new node is lost too": (LOST + b"replace 3\n", 3),
    "a loss and a tenant more": (LOST.replace(b"go\n", b"tenant cat 8 3 1\ngo\n") + b"cat open 2 1\nreplace 2\nreplace 3\n", 2),
}
NOT_BEHIND = {"no loss": PLAN, "another loss in its place": PLAN + b"replace 2\n", "another loss before it": PLAN + b"replace 2\nreplace 3\n"}
LOSS = "the line `replace` number %d was `replace %d`"
JOINS = b"0 67 joins 1\n1 67 joins 1\n2 67 joins 1\n"
JOINED = b"67 0 joined 1\n67 1 joined 1\n67 2 joined 1\n"
TICK = b"67 67 tick\n"
LANE = b"1 67 ann fetch 1 0\n"  # of volume 1, beside those of volume 0
FETCHES = b"1 67 ann fetch 0 0\n" + LANE + b"1 67 bob fetch 0 0\n"
ASK = b"67 0 ann 1 1 1 0 0 ask\n"
STORE = b"67 0 ann 1 1 2 0 0 store 9 1 ff\n"
GIVEN = b"67 1 ann fetched 0 0 5 1 Aa\n"
COPY = b"0 67 ann 1 1 1 0 0 copy 5 1 aa\n"
NEXT = b"1 67 ann fetch 0 1\n"
READ = b"67 ann read 20 1 0 0\n"
ASKS = b"2 67 ann 20 1 1 0 0 ask\n"
TAGS = ASKS[:-1] + b" 18446744073709551615 255\n"  # a write uses tags alone
ANN, BOB = [b"0 0", b"0 1", b"0 2", b"0 3", b"1 0"], [b"0 0"]
ALL_GIVEN = b"".join(b"67 1 ann fetched %s 0 0 -\n" % file for file in ANN) + b"67 1 bob fetched 0 0 0 0 -\n"
# Lines that a new node is given at its first start, and what it writes behind its first line.
LINES = {
    "what a tenant has": (b"67 ann plan\n", b"ann 67 plan 4 0 4 16 16 4.2 1.1 67 lines=3 rows=2 columns=2\n"),
    "a tick": (TICK, JOINS),
    "some have joined": (b"67 1 joined 1\n" + TICK, b"0 67 joins 1\n2 67 joins 1\n"),
    "all have joined": (JOINED + TICK, FETCHES),
    "a word of fewer losses, and of more": (JOINED.replace(b"67 1 joined 1", b"67 1 joined 0") + b"67 1 joined 2\n" + TICK, b"1 67 joins 1\n"),
    "a word of a node that is lost": (JOINED.replace(b"67 1 joined 1", b"67 3 joined 1") + TICK, b"1 67 joins 1\n"),
    "a word of a tenant": (b"67 ann joined 1\n67 ann joins 1\n67 ann fetch 0 0\n67 ann fetched 0 0 5 1 aa\n", 4 * b"ann 67 refused bad\n"),
    "words without a form": (JOINED.replace(b"67 1 joined 1", b"67 1 joined 01\n67 1 joined\n67 1 joined 1 \n67 1 joined -1") + TICK, b"1 67 joins 1\n"),
    "it is asked whether it has joined": (b"67 0 joins 1\n67 0 joins 2\n67 0 joins 0\n67 3 joins 1\n67 131 joins 1\n", b"0 67 joined 1\n0 67 joined 0\n"),
    "a file that it lacks": (ASK + STORE + b"67 1 ann fetch 0 0\n", b""),
    "tags of a file that it lacks": (ASK[:-1] + b" 1 1\n67 0 ann 1 1 2 0 0 confirm 0 0\n67 0 ann 1 1 2 0 0 confirm 9 1\n", b""),
    "a file that it was given": (GIVEN + ASK, NEXT + COPY),
    "what its server has of a volume": (b"67 ann look 7 0\n" + GIVEN + b"67 ann look 8 0\n", b"ann 67 looked 7 0 1 - - - -\n" + NEXT + b"ann 67 looked 8 0 1 1:5.1 - - -\n"),
    "a file that it was given, asked for by its peer": (GIVEN + b"67 1 ann fetch 0 0\n67 0 ann fetch 0 0\n67 2 ann fetch 0 0\n", NEXT + b"1 67 ann fetched 0 0 5 1 aa\n"),
    "a file that it was given twice": (GIVEN + b"67 1 ann fetched 0 0 6 1 bb\n" + ASK, NEXT + COPY),
    "a file that another column gives": (b"67 0 ann fetched 0 0 5 1 aa\n67 2 ann fetched 0 0 5 1 aa\n67 3 ann fetched 0 0 5 1 aa\n" + ASK, b""),
    "a file that is not there": (b"67 1 ann fetched 0 4 5 1 aa\n67 1 ann fetched 2 0 5 1 aa\n67 1 zed fetched 0 0 5 1 aa\n", b""),
    "a content that is too long": (b"67 1 ann fetched 0 0 5 1 %s\n" % (b"aa" * 129) + ASK, b""),
    "the longest content": (b"67 1 ann fetched 0 0 5 1 %s\n" % (b"aa" * 128), NEXT),
    "the greatest number": (b"67 1 ann fetched 0 0 %d 1 aa\n" % GREATEST + ASK, b""),
    "the number below it": (b"67 1 ann fetched 0 0 %d 1 aa\n" % (GREATEST - 1), NEXT),
    "files without a form": (b"67 1 ann fetched 0 0 5 1\n67 1 ann fetched 0 0 5 1 a\n67 1 ann fetched 0 0 5 256 aa\n67 1 ann fetch 0\n" + ASK, b""),
    "the last file of a tenant": (b"67 1 bob fetched 0 0 5 1 aa\n", b""),
    "all files": (ALL_GIVEN + TICK, b"".join(b"1 67 ann fetch %s\n" % file for file in ANN[1:4])),
    "a session that goes on there": (READ, ASKS),
    "one of the node that was lost": (b"67 ann read 4 1 0 0\n67 ann read 36 1 0 0\n", b"ann 67 refused nosession 4 1\nann 67 refused nosession 36 1\n"),
    "one whose home was not lost": (b"67 ann read 1 1 0 0\n67 ann read 17 1 0 0\n", b"ann 67 refused home 0 1 1\nann 67 refused nosession 17 1\n"),
    "a letter of the node that was lost": (GIVEN + b"67 3 ann 4 1 1 0 0 ask\n67 0 ann 4 1 1 0 0 ask\n67 67 ann 4 1 1 0 0 ask\n", NEXT),
    "a letter of its own, brought by a line": (READ + GIVEN + b"67 67 ann 20 1 1 0 0 ask\n67 2 ann 20 1 1 0 0 copy 0 0 -\n", ASKS + NEXT + b"1 67 ann 20 1 2 0 0 confirm 5 1\n67 67 ann 20 1 2 0 0 confirm 5 1\n"),
    "a late store": (GIVEN + STORE + b"67 0 ann 1 1 2 0 0 store 4 1 bb\n" + ASK, NEXT + 2 * b"0 67 ann 1 1 2 0 0 stored\n" + COPY.replace(b"5 1 aa", b"9 1 ff")),
    "lines for the node that was lost": (b"3 ann plan\n3 0 joins 1\n3 3 tick\n", b""),
}
# The same of an old node, 0, which is started with the plan that says that 3 was lost; and with the one that does not.
OF_AN_OLD_ONE = {
    "what a tenant has": (b"0 ann plan\n", b"ann 0 plan 4 0 4 16 16 4.2 1.1 67 lines=3 rows=2 columns=2\n"),
    "what its server has of a volume": (b"0 ann look 7 1\n", b"ann 0 looked 7 1 1 0:0.0\n"),
    "a new node asks whether it has joined": (b"0 67 joins 1\n0 67 joins 0\n0 67 joins 2\n0 3 joins 1\n0 2 joins 1\n", b"67 0 joined 1\n67 0 joined 0\n2 0 joined 1\n"),
    "a tick": (b"0 0 tick\n", b""),
    "a node of another column wants a file": (b"0 67 ann fetch 0 0\n0 1 ann fetch 0 0\n0 2 ann fetch 0 0\n", b"2 0 ann fetched 0 0 0 0 -\n"),
    "a file that it has is given": (b"0 2 ann fetched 0 0 5 1 aa\n0 1 ann 2 1 1 0 0 ask\n", b"1 0 ann 2 1 1 0 0 copy 0 0 -\n"),
    "a session whose home was lost": (b"0 ann read 4 1 0 0\n0 ann read 20 1 0 0\n", b"ann 0 refused nosession 4 1\nann 0 refused home 67 20 1\n"),
    "whom a session asks": (b"0 ann read 1 1 0 0\n0 0 tick\n0 0 tick\n", b"1 0 ann 1 1 1 0 0 ask\n2 0 ann 1 1 1 0 0 ask\n67 0 ann 1 1 1 0 0 ask\n"),
    "a letter of a session that was lost": (b"0 3 ann 4 1 1 0 0 ask\n0 67 ann 4 1 1 0 0 ask\n0 67 ann 20 1 1 0 0 ask\n", b"67 0 ann 20 1 1 0 0 copy 0 0 -\n"),
}
WITH_THE_OLD_PLAN = {
    "a new node asks whether it has joined": (b"0 67 joins 1\n0 67 joins 0\n", b""),
    "a letter of a new node": (b"0 67 ann 20 1 1 0 0 ask\n", b""),
    "a session of a new node": (b"0 ann read 20 1 0 0\n", b"ann 0 refused nosession 20 1\n"),
    "a peer wants a file": (b"0 2 ann fetch 0 0\n0 66 ann fetch 0 0\n", b"2 0 ann fetched 0 0 0 0 -\n"),
}


# A plan whose files have up to 40 blocks, so that a line has up to 128 * 40 + 255 bytes; and copies of the most bytes.
ROOM = b"grid 2 2\nroom 5000\ntenant ann 80 1 1 40\ngo\nann open 2 40\nreplace 3\n"
LONG = b"ab" * 2560
LONG_LINES = {
    "a copy of the most bytes": (b"67 1 ann fetched 0 0 %d 240 %s\n67 1 ann fetch 0 0\n" % (GREATEST - 1, LONG), b"%d 240 %s" % (GREATEST - 1, LONG)),
    "a copy of one byte more": (b"67 1 ann fetched 0 0 5 1 %sab\n67 1 ann fetch 0 0\n" % LONG, None),
}
# A new node of three rows. Its volumes of small files are in 64 lanes, those of large files in four.
WIDE = b"grid 3 2\nroom 4678\ntenant ann 70 1 1 1 70\ntenant bob 4608 1 1 256 9\ngo\nann open 1 1 times 70\nbob open 2 256 times 9\nreplace 5\n"
IN_WIDE = 70 + 18  # files
LANES = [b"ann fetch %d 0" % lane for lane in range(64)] + [b"bob fetch %d 0" % lane for lane in range(4)]
# Enough facts for a journal that is written anew: stores of two files, of which one was given, and one is of a later plan.
LATER = LOST.replace(b"go\n", b"tenant cat 8 3 1\ngo\n") + b"cat open 2 2\n"
MANY = b"".join(b"kept ann 0 0 %d 1 %s\nkept cat 0 0 %d 2 %s\n" % (at, b"ab" * 100, at, b"cd" * 100) for at in range(10, 2_600))
NEEDED = [
    b"had ann 0 0 2599 1 " + b"ab" * 100,
    b"had cat 0 0 2599 2 " + b"cd" * 100,
    b"had cat 0 1 0 0 -",
    b"numbered ann 20 1024",
    b"numbered cat 17 %d" % OF_A_LOSS,
]
# A write at the new node, whose row has told their copies, and what comes of it.
WRITE = b"67 ann write 20 1 0 0 aa\n"
COPIES = b"67 2 ann 20 1 1 0 0 copy 0 0 -\n67 67 ann 20 1 1 0 0 copy 0 0 -\n"
STORES = b"1 67 ann 20 1 2 0 0 store %d 20 aa\n67 67 ann 20 1 2 0 0 confirm %d 20\n"


def numbered(plan, number, losses):
    """The facts that reserve for each session of the new node what may be used before a plan of so many losses."""
    own = [who for who, home in homes(plan.decode())[1].items() if home == number]
    return b"".join(b"numbered %s %d %d\n" % (name.encode(), session + number // PLACES * SESSIONS, losses * OF_A_LOSS) for name, session in own)


BASE = numbered(LOST, 67, 1)


class NewNodes(Faults):
    """Starts in one folder, of node 67 where no other is named."""

    def node(self, given=b"", number=67, **more):
        return super().node(given, number, **more)

    def begin(self, text=LOST, **more):
        """A first start: what it gives."""
        if os.path.exists(self.at("journal")):
            os.unlink(self.at("journal"))
        put(self.at("plan"), text)
        return self.node(is_new=True, **more)

    def lines(self):
        for name, (given, wanted) in LINES.items():
            told = LACKS % (0, FILES) + ALL * (name == "all files")
            self.held(name, self.begin(given=given), (0, told, FIRST + in_bytes(wanted)))
        for lines, text, what in (OF_AN_OLD_ONE, LOST, "of the new plan"), (WITH_THE_OLD_PLAN, PLAN, "of the old plan"):
            for name, (given, wanted) in lines.items():
                told = b"gridfs: node 0 of 2 by 2: 0 facts\n"
                self.held(f"a node {what}: {name}", self.begin(text, number=0, given=given), (0, told, FIRST + in_bytes(wanted)))

    def journals(self):
        """What is kept of files that were given, and what a start behind it knows."""
        self.held("a first start", self.begin(), (0, LACKS % (0, FILES), FIRST))
        first = b"node 67 of 2 by 2\n" + LOST
        self.held("its journal", get(self.at("journal")), sealed(1, first) + sealed(2, BASE))
        self.node(GIVEN)
        fact = in_bytes(b"had ann 0 0 5 1 aa\n")
        self.held("a file that was given", get(self.at("journal")), sealed(1, first) + sealed(2, BASE) + sealed(3, fact))
        seen = self.node(ASK + JOINED + TICK)
        self.held("a start behind it", seen, (0, LACKS % (2, FILES - 1), FIRST + in_bytes(COPY) + NEXT + LANE + b"1 67 bob fetch 0 0\n"))
        self.held("nobody has joined behind a start", self.node(TICK), (0, LACKS % (2, FILES - 1), FIRST + JOINS))
        late = self.node(b"67 1 ann fetched 0 1 0 0 -\n")
        self.held("a copy that comes late", late, (0, LACKS % (2, FILES - 1), FIRST + b"1 67 ann fetch 0 2\n"))
        self.node(STORE)
        facts = [BASE, fact, b"had ann 0 1 0 0 -\n", in_bytes(b"kept ann 0 0 9 1 ff\n")]
        self.held("the journal behind a store", batches(get(self.at("journal")))[0][1:], facts)
        status, told, _ = self.node(ALL_GIVEN)
        self.held("the others are given", (status, told), (0, LACKS % (4, FILES - 2) + ALL))
        self.held("a start with all files", self.node(ASK + TICK), (0, WHOLE % 8, FIRST + in_bytes(COPY.replace(b"5 1 aa", b"9 1 ff"))))
        put(self.at("plan"), LOST.replace(b"go\n", b"tenant cat 8 3 1\ngo\n") + b"cat open 2 1\nreplace 2\n")
        seen = self.node(b"67 0 cat 2 1 1 0 0 ask\n67 66 joins 2\n")
        self.held("a file of a later plan", seen, (0, WHOLE % 8, FIRST + b"0 67 cat 2 1 1 0 0 copy 0 0 -\n66 67 joined 2\n"))
        put(self.at("journal"), sealed(1, first) + sealed(2, b"had ann 0 4 5 1 aa\n"))
        put(self.at("plan"), LOST)
        self.refused("a file that is not there was given", 1, STRANGE)

    def long_lines(self):
        for name, (given, copy) in LONG_LINES.items():
            wrote = FIRST + (in_bytes(b"1 67 ann fetch 0 1\n1 67 ann fetched 0 0 %s\n" % copy) if copy else b"")
            self.held(name, self.begin(ROOM, given=given), (0, LACKS % (0, 2), wrote))

    def lanes(self):
        """One file of each lane is asked for at a tick, of the next node of the column, and behind a file that is given the next one of its lane."""
        joined = b"".join(b"69 %d joined 1\n" % number for number in range(5))
        given = [b"ann fetched 5 0 0 0 -", b"ann fetched 69 0 0 0 -", b"bob fetched 2 0 0 0 -", b"bob fetched 2 1 0 0 -", b"ann fetched 5 0 0 0 -", b"bob fetched 7 1 0 0 -"]
        next_ones = [b"ann fetch 69 0", None, b"bob fetch 2 1", b"bob fetch 6 0", None, b"bob fetch 3 0"]
        later = [{b"ann fetch 5 0": None, b"bob fetch 2 0": b"bob fetch 6 0"}.get(ask, ask) for ask in LANES]
        lines = joined + b"69 69 tick\n" + b"".join(b"69 3 %s\n" % one for one in given) + 2 * b"69 69 tick\n"
        wanted = [(1, ask) for ask in LANES] + [(3, ask) for ask in next_ones] + [(1, ask) for ask in later] + [(3, ask) for ask in later]
        told = b"gridfs: node 69 of 3 by 2: 0 facts, lacks %d files\n" % IN_WIDE
        seen = self.begin(WIDE, number=69, given=lines)
        self.held("lanes", seen, (0, told, FIRST + b"".join(b"%d 69 %s\n" % (to, ask) for to, ask in wanted if ask)))

    def written_anew(self):
        """A journal that is written anew has each file that the node has as one that was given, since the last plan is its first one then."""
        head = b"node 67 of 2 by 2\n"
        facts = b"had ann 0 0 5 1 aa\nnumbered ann 20 1024\n" + MANY
        put(self.at("journal"), sealed(1, head + LOST) + sealed(2, head + LATER) + sealed(3, facts))
        put(self.at("plan"), LATER)
        status, told, wrote = self.node(b"67 0 ann 1 1 2 0 0 store 9 1 aa\n" + READ)
        self.held("a long journal", (status, told, wrote), (0, LACKS % (2 + 2 * 2_590, FILES - 1), FIRST + b"0 67 ann 1 1 2 0 0 stored\n" + ASKS[:-1] + b" 2599 1\n"))
        found, _ = batches(get(self.at("journal")))
        self.held("it is written anew", len(get(self.at("journal"))) < 10_000, True)
        self.held("its plan, with the losses behind", found[0], head + LATER.replace(b"replace 3\n", b"") + b"replace 3\n")
        self.held("its facts", sorted(b"".join(found[1:]).split(b"\n")[:-1]), sorted([*map(in_bytes, NEEDED), b"began ann 20 1024"]))
        status, told, wrote = self.node(ASK + b"67 0 cat 2 1 1 0 1 ask\n" + TICK)
        copies = b"0 67 ann 1 1 1 0 0 copy 2599 1 %s\n0 67 cat 2 1 1 0 1 copy 0 0 -\n" % (b"ab" * 100)
        self.held("a start behind it", (status, told, wrote), (0, LACKS % (6, FILES - 1), FIRST + in_bytes(copies) + JOINS))

    def numbers(self):
        """The tags of a new node's sessions begin above all that a lost node wrote, by the plan with which the node began."""
        stores = STORES % (OF_A_LOSS + 1, OF_A_LOSS + 1)
        self.held("a write of a new node", self.begin(given=WRITE + COPIES), (0, LACKS % (0, FILES), FIRST + TAGS + in_bytes(stores)))
        facts = BASE + b"began ann 20 1024\nnumbered ann 20 %d\n" % (OF_A_LOSS + 1_024)
        self.held("its journal", b"".join(batches(get(self.at("journal")))[0][1:]), facts)
        put(self.at("plan"), LOST + b"replace 0\n")
        again = (WRITE + COPIES).replace(b" 20 1 ", b" 20 1025 ")
        status, told, wrote = self.node(again)
        stores = (STORES % (OF_A_LOSS + 1_025, OF_A_LOSS + 1_025)).replace(b" 20 1 ", b" 20 1025 ")
        self.held("a later plan changes none of it", (status, told, in_bytes(stores) in wrote), (0, LACKS % (3, FILES), True))
        put(self.at("journal"), sealed(1, b"node 67 of 2 by 2\n" + LOST) + sealed(2, b"numbered ann 20 7\n"))
        put(self.at("plan"), LOST)
        status, told, wrote = self.node(WRITE + COPIES)
        self.held("a journal from before, with numbers", (status, told, wrote), (0, LACKS % (1, FILES), FIRST + TAGS + in_bytes(STORES % (8, 8))))
        put(self.at("journal"), sealed(1, b"node 67 of 2 by 2\n" + LOST))
        seen = self.node(WRITE + COPIES)
        self.held("and with none", seen, (0, LACKS % (0, FILES), FIRST + TAGS + in_bytes(STORES % (OF_A_LOSS + 1, OF_A_LOSS + 1))))
        for number, plan, losses in (131, LOST + b"replace 0\nreplace 3\n", 3), (64, LOST + b"replace 0\n", 2), (0, LOST, 0):
            self.begin(plan, number=number)
            facts = b"".join(batches(get(self.at("journal")))[0][1:])
            self.held(f"what node {number} begins with", facts, numbered(plan, number, losses) if losses else b"")

    def late_store(self):
        """A store of a lost home that reached one server does not come back over what its successor has written since."""
        put(self.at("plan"), PLAN)
        for number in range(4):
            self.node(b"0 3 ann 4 9 2 0 0 store 9 4 01\n" * (number == 0), number, journal=f"late{number}", is_new=True)
        put(self.at("plan"), LOST)
        running = [0, 1, 2, 67]
        nodes = {number: Stepped(words_of(self.program, number, "plan", f"late{number}", number == 67), number, self.folder) for number in running}
        try:
            told = [self.carried(nodes, lines) for lines in ([b"67 67 tick"], [b"67 67 tick"], [b"67 ann write 20 1 0 0 02"], [b"0 ann read 1 1 0 0"])]
        finally:
            for node in nodes.values():
                node.kill()
        first, second = [line.split(b" ") for line in told[2] + told[3]]
        self.held("a write at the new node is done", (first[2:4], int(first[7]) > OF_A_LOSS), ([b"done", b"write"], True))
        self.held("and is read where a store of the lost node has come", (second[2:4], second[9:]), ([b"done", b"read"], [b"02"]))

    def carried(self, nodes, lines):
        """What tenants are told until no line is on its way any more."""
        told = []
        while lines:
            line = lines.pop(0)
            to = line.partition(b" ")[0]
            if not to.isdigit():
                told.append(line)
            elif int(to) in nodes:
                wrote, _ = nodes[int(to)].step(line + b"\n")
                lines += [more for more in wrote.split(b"\n") if more and more != b" ?" and not more.startswith(b"mark ")]
        return told

    def plans(self):
        for name, (text, line) in AT_FAULT.items():
            put(self.at("wrong"), text)
            told = b"gridfs: wrong: line %d: replace\n" % line
            self.held(f"a plan with {name}", self.node(plan="wrong", journal="none", is_new=True), (1, told, b""))
        put(self.at("most"), PLAN + b"replace 3\n" * 14)
        told = b"gridfs: node 899 of 2 by 2: 0 facts, lacks 6 files\n"
        self.held("the 14th node of one place is lost", self.node(number=899, plan="most", journal="most.journal", is_new=True), (0, told, FIRST))
        named = PLAN.replace(b"tenant bob", b"tenant replace").replace(b"bob open", b"replace open") + b"replace 3\n"
        put(self.at("named"), named)
        told = LACKS % (0, FILES)
        seen = self.node(b"67 replace plan\n", plan="named", journal="named.journal", is_new=True)
        self.held("a tenant with that name", seen, (0, told, FIRST + b"replace 67 plan 4 0 2 16 16 1.1 67 lines=3 rows=2 columns=2\n"))
        for name, text in ALIKE.items():
            self.begin(text)
            self.held(name, get(self.at("journal")), sealed(1, b"node 67 of 2 by 2\n" + LOST) + sealed(2, BASE))
        wide = PLAN.replace(b"grid 2 2", b"grid 8 8").replace(b"blocks 64", b"blocks 640")
        put(self.at("wide"), wide + b"".join(b"replace %d\n" % (at % 64) for at in range(255)))
        told = b"gridfs: node 255 of 8 by 8: 0 facts, lacks 6 files\n"
        self.held("255 nodes are lost", self.node(number=255, plan="wide", journal="wide.journal", is_new=True), (0, told, FIRST))
        put(self.at("wide"), get(self.at("wide")) + b"replace 63\n")
        told = b"gridfs: wide: line 265: replace\n"
        self.held("256 nodes are lost", self.node(number=255, plan="wide", journal="wide.new", is_new=True), (1, told, b""))

    def starts(self):
        """Which numbers a plan has, and whose journal a start takes."""
        for number in (3, 131, 66, 4, 68, 64):
            told = b"gridfs: node %d: of 4\n" % number
            self.held(f"node {number}", self.node(number=number, journal="none", is_new=True), (1, told, b""))
        self.held("no journal of a new node", self.node(journal="none"), (1, b"gridfs: none: no journal\n", b""))
        for number, text, told in (3, PLAN, of_node(3)), (0, LOST, of_node(0)), (131, LOST + b"replace 3\n", not_kept("plan", LOSS % (2, 3))):
            self.begin(text, number=number)
            put(self.at("plan"), LOST)
            self.refused(f"the journal of node {number}", 1, told)
        self.begin()
        put(self.at("plan"), PLAN)
        self.refused("the journal of the new node", 1, not_kept("plan", LOSS % (1, 3)), number=3)
        put(self.at("plan"), LOST)
        self.refused("a journal that is there", 1, b"gridfs: journal: a journal\n", is_new=True)

    def plans_that_go_on(self):
        self.begin(PLAN, number=0)
        put(self.at("plan"), LOST)
        told = b"gridfs: node 0 of 2 by 2: 0 facts\n"
        self.held("a plan with a loss", self.node(number=0), (0, told, FIRST))
        text = get(self.at("journal"))
        self.held("the journal behind it", text, sealed(1, b"node 0 of 2 by 2\n" + PLAN) + sealed(2, b"node 0 of 2 by 2\n" + LOST))
        for name, plan in NOT_BEHIND.items():
            put(self.at("next"), plan)
            self.refused(f"behind a loss, {name}", 1, not_kept("next", LOSS % (1, 3)), number=0, plan="next")
        for name, (plan, place) in BEHIND.items():
            put(self.at("journal"), text)
            put(self.at("next"), plan)
            self.held(f"behind a loss, {name}", self.node(number=0, plan="next"), (0, told, FIRST))
            self.refused(f"and not the plan before {name}", 1, not_kept("plan", LOSS % (2, place)), number=0)


    # ---- clients

    def clients(self):
        """A session whose home was lost begins anew at the node that stands there: what was under way is gone, and a read is asked again."""
        plan = LOST.decode() + "replace 3\nreplace 0\n"
        told = planned(self.program, plan)
        self.held("the nodes of a plan", (told.nodes, told.homes["ann", 4], told.homes["bob", 1]), ([64, 1, 2, 131], 131, 64))
        for kind, words in (b"read", [b"0", b"3"]), (b"write", [b"0", b"3", b"aa"]):
            nodes, session, told, sent = Nodes(range(4)), Session("ann", 4, 3, random.Random(1), 6), [], []
            session.ask(kind, words, told.append)
            line = b"3 ann %s 4 7 %s" % (kind, b" ".join(words))
            sent += nodes.due(session, 1)
            self.held(f"{kind} is asked for", (sent, nodes.due(session, 1.1)), ([line], []))
            asked = [b"%d ann plan" % (node + more) for node in range(4) for more in (0, 128)]
            self.held("who stands there is asked where no answer comes", nodes.due(session, 3), [line, *asked])
            for plan in (b"plan 4 0 4 16 16 4.2 1.1 67 64", b"plan 4 0 4 16 16 4.2 1.1", b"plan 4 0 4 16 16 4.2 1.1 65", b"plan of nobody"):
                nodes.hear(plan)
            self.held("what nodes tell", nodes.standing, [64, 65, 2, 67])
            first = nodes.due(session, 4)
            number = first[0].split(b" ")[-1]
            self.held("the session begins anew there", first[0].rpartition(b" ")[0], b"67 ann abandon 20")
            session.hear(b"done %s 4 7 tag 1 1 aa" % kind)
            session.hear(b"refused early 20 %s 0" % number)
            self.held("by a read", nodes.due(session, 5), [b"67 ann read 20 1 0 0"])
            session.hear(b"done read 20 1 tag 1 1 aa")
            again = nodes.due(session, 6)
            if kind == b"read":
                session.hear(b"done read 20 2 tag 1 1 aa")
                self.held("a read is asked for again", (again, told), ([b"67 ann read 20 2 0 3"], [b"done read 20 2 tag 1 1 aa"]))
            else:
                self.held("a write is gone", (again, told), ([], [b"gone 4 7"]))
        refused = Session("ann", 4, 3, random.Random(1), 6)
        refused.ask(b"read", [b"0", b"3"], told.append)
        refused.due(1)
        refused.hear(b"refused nosession 4 7")
        self.held("who stands there is asked where there is no such session", (refused.is_sought(), refused.unanswered()), (True, 1))


def tell_new_nodes(program, folder):
    """How many things were compared, and what is wrong."""
    new = NewNodes(program, folder)
    for part in (new.lines, new.long_lines, new.lanes, new.journals, new.written_anew, new.numbers, new.late_store, new.plans, new.starts, new.plans_that_go_on, new.clients):
        try:
            part()
        except WRONG as fault:  # (a node that does not start leaves no journal)
            new.wrong.append(f"{part.__name__}: {fault!r}")
    return new.tried, new.wrong
