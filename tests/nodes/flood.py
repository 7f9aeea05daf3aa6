"""A node at which one tenant, and nobody of the plan, write whatever they like: the other tenant is told the same as without that, byte for
byte, and the node keeps no more facts than the plan has room for."""

import itertools
import os
import random

from alone import owner
from contents import in_bytes
from journals import batches
from processes import MARKER, ended, get, put, words_of

PLAN = f"grid 2 2\nblocks 64\ntenant ann 8 8 1\ntenant bob 8 4 1\n{MARKER}go\nann open 2 1\nbob open 2 1\n".encode()
GREATEST = (1 << 64) - 1
# How lines of the flood begin: they are from ann, from nobody of the plan, to another node, or letters of ann.
HEADS = [b"0 ann", b"0 ann", b"0 0 ann", b"0 1 ann", b"0 2 ann", b"0 3 ann", b"0 eve", b"0 4 bob", b"1 bob"]
KINDS = b"write read list abandon plan ask store copy stored tag confirm want tick done joins joined fetch fetched".split()
NUMBERS = [0, 0, 0, 1, 1, 1, 2, 3, 5, 255, 256, (1 << 32) - 1, 1 << 32, GREATEST - 1, GREATEST, GREATEST + 1]
WORDS = KINDS + [b"%d" % number for number in NUMBERS] + [b"bob", b"-", b"aabb", b"?", b""]
# Lines with a form, as ann or a node would write them, with numbers at their limits.
SHARP = [
    b"0 ann write 1 4294967295 0 0 aabb",
    b"0 ann write 1 1 0 0 aabb",
    b"0 ann write 1 2 0 0 aabb",
    b"0 ann read 5 1 0 1",
    b"0 ann list 5 2 0",
    b"0 ann abandon 5 2147483648",
    b"0 ann abandon 1 1",
    b"0 ann read 4294967295 1 0 0",
    b"0 ann bob 1 1 1 0 1 copy 9 2 0c",
    b"0 0 ann 1 1 1 0 0 copy %d 255 -" % (GREATEST - 1),
    b"0 1 ann 1 1 1 0 0 copy %d 255 -" % GREATEST,
    b"0 1 ann 1 1 1 0 0 copy %d 255 -" % (GREATEST - 1),
    b"0 0 ann 1 1 2 0 0 store %d 255 aabb" % GREATEST,
    b"0 0 ann 1 4294967295 4294967294 0 0 store %d 255 aabb" % (GREATEST - 1),
    b"0 0 ann 255 4294967295 4294967295 4294967295 4294967295 ask",
    b"0 0 ann 1 1 2 0 0 stored",
    b"0 2 ann fetch 0 0",
    b"0 2 ann fetched 0 0 %d 255 aabb" % (GREATEST - 1),
    b"0 66 ann fetch 0 0",
    b"0 1 joined 0",
]
# What bob and the nodes write for him, and ticks, each with what the node writes (but for the form of copies): a write that is done, asked for again, and read; a store and
# an ask of session 2, whose home is node 1; a listing that goes on; and a question of a node of the column for a copy.
LINES = [
    (b"0 bob plan", b"bob 0 plan 4 0 4 8 16 2.1 lines=3 rows=2 columns=2\n"),
    (b"0 1 joins 0", b"1 0 joined 0\n"),
    (b"0 bob write 1 1 0 1 aabb", b"1 0 bob 1 1 1 0 1 ask 18446744073709551615 255\n"),
    (b"0 bob write 1 1 0 1 aabb", b""),
    (b"0 0 tick", b""),
    (b"0 0 bob 1 1 1 0 1 copy 0 0 -", b""),
    (b"0 1 bob 1 1 1 0 1 copy 3 2 0c", b"0 0 bob 1 1 2 0 1 confirm 4 1\n2 0 bob 1 1 2 0 1 store 4 1 aabb\n"),
    (b"0 0 bob 1 1 2 0 1 store 4 1 aabb", b""),
    (b"0 0 bob 1 1 2 0 1 stored", b""),
    (b"0 0 tick", b""),
    (b"0 2 bob 1 1 2 0 1 stored", b"bob 0 done write 1 1 tag 4 1\n"),
    (b"0 bob read 1 1 0 1", b"bob 0 done write 1 1 tag 4 1\n"),
    (b"0 bob read 1 2 0 1", b"1 0 bob 1 2 1 0 1 ask 4 1\n"),
    (b"0 1 bob 2 9 2 0 0 store 7 2 0d0e", b"1 0 bob 2 9 2 0 0 stored\n"),
    (b"0 1 bob 2 10 1 0 0 ask", b"1 0 bob 2 10 1 0 0 copy 7 2 0d0e\n"),
    (b"0 0 bob 1 2 1 0 1 copy 4 1 aabb", b""),
    (b"0 1 bob 1 2 1 0 1 copy 4 1 aabb", b"0 0 bob 1 2 2 0 1 confirm 4 1\n2 0 bob 1 2 2 0 1 confirm 4 1\n"),
    (b"0 bob list 1 3 0", b"bob 0 refused busy 1 3 2\n"),
    (b"0 0 tick", b""),
    (b"0 0 tick", b"1 0 bob 1 2 2 0 1 store 4 1 aabb\n3 0 bob 1 2 2 0 1 store 4 1 aabb\n"),
    (b"0 bob write 1 4 9 9 00", b"bob 0 refused early 1 4 2\n"),
    (b"0 bob nonsense", b"bob 0 refused bad\n"),
    (b"0 2 bob fetch 0 1", b"2 0 bob fetched 0 1 4 1 aabb\n"),
    (b"0 bob plan", b"bob 0 plan 4 0 4 8 16 2.1 lines=3 rows=2 columns=2\n"),
]
# Two facts of each session that has its home here, 1 and 5 of ann and 1 of bob, and one of each file.
MOST_FACTS = 2 * 3 + 4
BETWEEN = 20  # pairs of lines of the flood, before each line for bob


def flood(draw):
    """Words that have a form now and then, and lines that have one."""
    lines = []
    for _ in range(BETWEEN):
        lines += [b" ".join([draw.choice(HEADS), *draw.choices(WORDS, k=draw.randrange(9))]), draw.choice(SHARP)]
    return lines


def of_others(wrote):
    """What a node writes that is not of ann."""
    return [line for line in wrote.splitlines(keepends=True) if owner(line[:-1], [b"ann"]) is None]


def facts_of(journal):
    """What the facts of a journal, behind its first batch, are of."""
    facts = [fact.split(b" ") for batch in batches(get(journal))[0][1:] for fact in batch.splitlines()]
    return {tuple(words[: 4 if words[0] == b"kept" else 3]) for words in facts}


def flooded(program, folder, seed):
    """How many lines of a flood came to a node, and how many it wrote for the tenant who floods; what is wrong, if anything."""
    draw = random.Random(f"flood {seed}")
    given = [line for ours, _ in LINES for line in [*flood(draw), ours]]
    put(os.path.join(folder, "plan"), PLAN)
    status, told, wrote = ended(words_of(program, 0, "plan", "journal", True), b"".join(line + b"\n" for line in given), cwd=folder)
    seen, wanted = of_others(wrote), in_bytes(b" ?\n" + b"".join(want for _, want in LINES)).splitlines(keepends=True)
    wrong = []
    if (status, told) != (0, b"gridfs: node 0 of 2 by 2: 0 facts\n"):
        wrong.append(f"seed {seed}: status {status}, {told!r}")
    for place, (line, want) in enumerate(itertools.zip_longest(seen, wanted)):
        if line != want:
            wrong.append(f"seed {seed}: line {place} that is not of ann is {line}, not {want}")
            break
    facts = facts_of(os.path.join(folder, "journal"))
    if len(facts) > MOST_FACTS:
        wrong.append(f"seed {seed}: {len(facts)} facts: {sorted(facts)}")
    return len(given) - len(LINES), len(wrote.splitlines()) - len(wanted), wrong
