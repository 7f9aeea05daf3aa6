"""Which forms of lines between nodes a node speaks: what it tells others when it is to greet, and what it says on standard error of what others tell."""

import os

from faults import PLAN
from processes import Stepped, ended, get, put, words_of

FIRST, BAD = b" ?\n", b"ann 0 refused bad\n"
READY = b"gridfs: node %d of 2 by 2: 0 facts\n"
LACKS = b"gridfs: node 67 of 2 by 2: 0 facts, lacks 6 files\n"
SAYS = b"gridfs: node 0: node %d speaks form %d of lines, this one form 3\n"
GREET = b"0 0 greet\n"
LOST = PLAN + b"replace 3\n"
# The node and its plan; then what it is given, what it writes, and what it says behind its ready line.
LINES = {
    "it greets": (0, PLAN, GREET, b"1 0 speaks 3\n2 0 speaks 3\n3 0 speaks 3\n", b""),
    "another node greets": (2, PLAN, b"2 2 greet\n", b"0 2 speaks 3\n1 2 speaks 3\n3 2 speaks 3\n", b""),
    "one greets twice": (0, PLAN, 2 * GREET, 2 * b"1 0 speaks 3\n2 0 speaks 3\n3 0 speaks 3\n", b""),
    "it greets the node that stands in another's place": (0, LOST, GREET, b"1 0 speaks 3\n2 0 speaks 3\n67 0 speaks 3\n", b""),
    "a new node greets": (67, LOST, b"67 67 greet\n", b"0 67 speaks 3\n1 67 speaks 3\n2 67 speaks 3\n", b""),
    "alone it greets nobody": (0, b"grid 1 1\nblocks 8\ntenant ann 8 1 100\ngo\n", GREET, b"", b""),
    "greetings of others": (0, PLAN, b"0 1 greet\n0 ann greet\n0 0 greet 1\n0 0 greets\n0 0  greet\n1 1 greet\n", BAD, b""),
    "a node of the same form": (0, PLAN, b"0 3 speaks 3\n", b"", b""),
    "a node of before": (0, PLAN, b"0 3 speaks 0\n", b"", SAYS % (3, 0)),
    "a later node": (0, PLAN, b"0 1 speaks 4294967295\n", b"", SAYS % (1, 4294967295)),
    "two of them": (0, PLAN, b"0 3 speaks 5\n0 1 speaks 0\n", b"", SAYS % (1, 0) + SAYS % (3, 5)),
    "a node in the place of another": (0, LOST, b"0 67 speaks 5\n", b"", SAYS % (67, 5)),
    "one that is lost, and those of no plan": (0, LOST, b"0 3 speaks 5\n0 131 speaks 5\n0 4 speaks 5\n0 66 speaks 5\n0 960 speaks 5\n", b"", b""),
    "the node itself": (0, PLAN, b"0 0 speaks 5\n", b"", b""),
    "a tenant": (0, PLAN, b"0 ann speaks 5\n", BAD, b""),
    "words with no form": (0, PLAN, b"0 3 speaks\n0 3 speaks 05\n0 3 speaks 4294967296\n0 3 speaks -1\n0 3 speaks 5 1\n0 3 speaks 5 ?\n0 3 Speaks 5\n", b"", b""),
    "a line for another node": (0, PLAN, b"1 3 speaks 5\n", b"", b""),
}
# What comes in one read after another, and what is said until then.
TURNS = [
    (b"0 3 speaks 5\n", SAYS % (3, 5)),
    (b"0 3 speaks 5\n", b""),
    (b"0 1 speaks 5\n0 3 speaks 5\n", SAYS % (1, 5)),
    (b"0 3 speaks 4\n", SAYS % (3, 4)),
    (b"0 3 speaks 3\n", b""),
    (b"0 3 speaks 4\n", SAYS % (3, 4)),
]
# With a tenant of that name a word alone is no form of a line, and its letters go on.
NAMED = b"grid 2 2\nblocks 24\ntenant ann 8 2 10\ntenant speaks 8 2 10\ntenant greet 8 2 10\ngo\nspeaks open 2 1\n"
NAMED_LINES = b"0 speaks plan\n0 3 speaks 2 1 1 0 0 ask\n0 greet plan\n0 greet greet\n" + GREET
NAMED_TOLD = b"speaks 0 plan 4 2 2 8 16 2.1 lines=3 rows=2 columns=2\n3 0 speaks 2 1 1 0 0 copy 0 0 -\ngreet 0 plan 4 0 2 8 16 lines=3 rows=2 columns=2\ngreet 0 refused bad\n1 0 speaks 3\n2 0 speaks 3\n3 0 speaks 3\n"


def tell_speaking(program, folder):
    """How many were tried, and what is wrong."""
    wrong, at = [], lambda name: os.path.join(folder, name)

    def held(what, seen, wanted):
        if seen != wanted:
            wrong.append(f"{what}: {seen}, not {wanted}")

    for place, (what, (node, plan, given, wrote, said)) in enumerate(LINES.items()):
        put(at("spoken"), plan)
        ready = b"gridfs: node 0 of 1 by 1: 0 facts\n" if plan.startswith(b"grid 1 1") else LACKS if node == 67 else READY % node
        held(what, ended(words_of(program, node, "spoken", f"spoken{place}", True), given, cwd=folder), (0, ready + said, FIRST + wrote))
    put(at("spoken"), NAMED)
    held("tenants of these names", ended(words_of(program, 0, "spoken", "spoken-named", True), NAMED_LINES, cwd=folder), (0, READY % 0, FIRST + NAMED_TOLD))
    put(at("spoken"), PLAN)
    stepped, told = Stepped(words_of(program, 0, "spoken", "turned", True), 0, folder), READY % 0
    for given, said in TURNS:
        stepped.step(given)
        stepped.step(b"")  # (what is said of lines is said before more are read)
        told += said
        held(f"behind {given}", get(at("told0")), told)
    stepped.kill()
    return len(LINES) + 1 + len(TURNS), wrong
