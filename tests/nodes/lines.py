"""Lines that a node is given at its first start, and what it writes: refusals, limits, and lines without a form."""

import os

from contents import in_bytes
from faults import PLAN
from processes import ended, put, words_of

READ, WRITE = b"0 ann read 1 1 0 0\n", b"0 ann write 1 1 0 0 "
ASK = b"1 0 ann 1 1 1 0 0 ask\n"  # (that to the node itself is taken within, and is no line)
ASK_TAG = b"1 0 ann 1 1 1 0 0 ask 18446744073709551615 255\n"  # a write uses tags alone
CONFIRM = b"%d 0 ann 1 1 2 0 0 confirm %d %d\n"
BAD = b"ann 0 refused bad\n"
STORE, OWN = b"0 1 ann 2 1 2 0 0 store ", b"0 0 ann 1 1 2 0 0 store "  # of a session of node 1, and of one of this node
STORED = b"1 0 ann 2 1 2 0 0 stored\n"
GREATEST = 18_446_744_073_709_551_614


def filled(length):
    """A write with so many bytes, of an odd number of digits."""
    return WRITE + b"a" * (length - len(WRITE)) + b"\n"


# Lines and what is written for them, after the first line; there copies are in digits.
LINES = {
    "a read": (READ, ASK),
    "what stands behind the last newline": (READ[:-1], b""),
    "a carriage return": (READ[:-1] + b"\r\n", BAD),
    "a NUL": (READ[:-1] + b"\0\n" + READ, BAD + ASK),
    "a line of 4,095 bytes": (filled(4095) + READ, BAD + ASK),
    "a line of 4,096 bytes": (filled(4096) + READ, ASK),
    "a line of 65,535 bytes": (filled(65_535) + READ, ASK),
    "a line of 65,536 bytes": (filled(65_536) + READ, ASK),
    "a line of 300,000 bytes": (filled(300_000) + READ, ASK),
    "a long line whose end is a line": (filled(65_536 - len(READ))[:-1] + READ + READ, ASK),
    "two spaces": (b"0  ann read 1 1 0 0\n0 ann  read 1 1 0 0\n0 ann read 1 1 0 0 \n", BAD + BAD),
    "a line for another node": (b"1 ann read 1 1 0 0\n1 1 tick\n", b""),
    "a line of nobody": (b"0 zed read 1 1 0 0\n0 4 ann 1 1 1 0 0 ask\n0 9 tick\n0\n\n0 \n", b""),
    "a line with no body": (b"0 ann\n0 bob \n", BAD + b"bob 0 refused bad\n"),
    "numbers with no form": (b"0 ann read 01 1 0 0\n0 ann read 1 1 0 4294967296\n0 ann read -1 1 0 0\n", 3 * BAD),
    "contents with no form": (WRITE + b"a\n" + WRITE + b"\n" + WRITE + b"ag\n" + WRITE + b"--\n", 4 * BAD),
    "contents in bytes with no form": (WRITE + b"=\\\n" + WRITE + b"=\\x\n" + WRITE + b"=a b\n" + WRITE + b"-=\n", 4 * BAD),
    "a content in bytes": (STORE + b"3 2 =a\\sb\\n\\bn\xff=\n0 1 ann 2 1 1 0 0 ask\n", STORED + b"1 0 ann 2 1 1 0 0 copy 3 2 6120620a5c6eff3d\n"),
    "a content in bytes that is too long": (WRITE + b"=" + b"\\s" * 129 + b"\n" + WRITE + b"=" + b"\\s" * 128 + b"\n", b"ann 0 refused toolong 1 1 0 0 129\n" + ASK_TAG),
    "what a tenant has": (b"0 ann plan\n0 bob plan\n0 ann plan 1\n0 zed plan\n", b"ann 0 plan 4 0 4 16 16 4.2 1.1 lines=3 rows=2 columns=2\nbob 0 plan 4 0 2 16 16 1.1 lines=3 rows=2 columns=2\n" + BAD),
    "what the server has of a volume": (
        b"0 ann look 7 0\n" + STORE + b"5 2 6869\n0 ann look 18446744073709551615 0\n0 bob look 7 0\n0 ann look 0 1\n",
        b"ann 0 looked 7 0 0 0:0.0 0:0.0 0:0.0 0:0.0\n" + STORED + b"ann 0 looked 18446744073709551615 0 0 2:5.2 0:0.0 0:0.0 0:0.0\nbob 0 looked 7 0 0 0:0.0\nann 0 looked 0 1 0 0:0.0\n",
    ),
    "a look at a volume that is not there": (b"0 ann look 7 2\n0 bob look 4294967296 4294967295\n", b"ann 0 refused novolume 7 2\nbob 0 refused novolume 4294967296 4294967295\n"),
    "looks with no form": (b"0 ann look\n0 ann look 7\n0 ann look 7 0 0\n0 ann look 07 0\n0 ann look 18446744073709551616 0\n0 ann look 7 4294967296\n0 ann looks 7 0\n0 1 look 7 0\n0 zed look 7 0\n1 ann look 7 0\n", 7 * BAD),
    "refusals": (
        WRITE + b"aa" * 200 + b"\n0 ann list 1 1 5\n0 ann read 1 1 0 7\n0 ann read 9 1 0 0\n0 ann read 2 1 0 0\n0 ann read 1 0 0 0\n0 ann read 1 5 0 0\n0 ann abandon 1 1\n",
        b"ann 0 refused toolong 1 1 0 0 200\nann 0 refused novolume 1 1 5\nann 0 refused nofile 1 1 0 7\nann 0 refused nosession 9 1\n"
        b"ann 0 refused home 1 2 1\nann 0 refused old 1 0 0\nann 0 refused early 1 5 0\nann 0 refused early 1 1 0\n",
    ),
    "refusals amid an operation": (
        READ * 3 + b"0 ann read 1 2 0 0\n0 ann read 1 3 0 0\n0 ann abandon 1 2\n0 ann read 1 0 0 0\n",
        ASK + b"ann 0 refused busy 1 2 1\nann 0 refused early 1 3 1\nann 0 refused early 1 2 1\nann 0 refused old 1 0 1\n",
    ),
    "an operation that is given up": (
        READ + b"0 ann abandon 1 1\n0 ann abandon 1 1\n" + READ + b"0 ann abandon 4294967295 1\n0 ann abandon 1 4294967296\n0 ann abandon 1 4294967295\n",
        ASK + 3 * b"ann 0 gone 1 1\n" + b"ann 0 refused nosession 4294967295 1\n" + BAD + b"ann 0 refused early 1 4294967295 1\n",
    ),
    "an answer that is asked for again": (
        READ + b"0 0 ann 1 1 1 0 0 copy 3 2 aB\n0 1 ann 1 1 1 0 0 copy 0 0 -\n0 0 ann 1 1 2 0 0 stored\n0 2 ann 1 1 2 0 0 stored\n" + READ + WRITE + b"cd\n0 ann abandon 1 1\n",
        ASK + CONFIRM % (0, 3, 2) + CONFIRM % (2, 3, 2) + 4 * b"ann 0 done read 1 1 tag 3 2 ab\n",
    ),
    "the row that served stays": (
        READ + 2 * b"0 0 tick\n" + b"0 2 ann 1 1 1 0 0 copy 0 0 -\n0 3 ann 1 1 1 0 0 copy 0 0 -\n0 0 ann 1 1 2 0 0 stored\n0 2 ann 1 1 2 0 0 stored\n0 ann read 1 2 0 0\n",
        ASK
        + b"2 0 ann 1 1 1 0 0 ask\n3 0 ann 1 1 1 0 0 ask\nann 0 done read 1 1 tag 0 0 -\n"
        + b"2 0 ann 1 2 1 0 0 ask\n3 0 ann 1 2 1 0 0 ask\n",
    ),
    "a listing": (
        b"0 ann list 1 1 1\n0 0 ann 1 1 1 1 0 copy 3 2 aB\n0 1 ann 1 1 1 1 0 copy 0 0 -\n0 0 ann 1 1 2 1 0 stored\n0 2 ann 1 1 2 1 0 stored\n",
        b"1 0 ann 1 1 1 1 0 ask\n0 0 ann 1 1 2 1 0 confirm 3 2\n2 0 ann 1 1 2 1 0 confirm 3 2\nann 0 done list 1 1 1:3.2\n",
    ),
    "ticks": (READ + 3 * b"0 0 tick\n", ASK + b"2 0 ann 1 1 1 0 0 ask\n3 0 ann 1 1 1 0 0 ask\n" + ASK),
    "a number of a tag at its limit": (
        STORE + b"%d 16 AbCd\n" % GREATEST + STORE + b"%d 16 ff\n" % (GREATEST + 1) + STORE + b"018 1 ff\n0 1 ann 2 1 1 0 0 ask\n0 1 ann 2 1 2 0 0 ask\n",
        STORED + b"1 0 ann 2 1 1 0 0 copy %d 16 abcd\n" % GREATEST,
    ),
    "a session of a tag above 255": (STORE + b"1 256 aa\n" + STORE + b"1 255 aa\n", STORED),
    "a store from another node than its session's home": (b"0 1 ann 1 1 2 0 0 store 1 1 aa\n0 0 ann 2 1 2 0 0 store 1 1 aa\n", b""),
    "a store of a content that is too long": (STORE + b"1 1 " + b"aa" * 129 + b"\n" + STORE + b"1 1 " + b"aa" * 128 + b"\n", STORED),
    "a tag in place of a copy": (
        STORE + b"3 2 aa\n" + b"".join(b"0 1 ann 2 1 %s\n" % it for it in (b"1 0 0 ask 3 2", b"1 0 0 ask 3 1", b"1 0 0 ask 2 255", b"1 0 1 ask 9 9", b"1 0 0 ask 3", b"2 0 0 ask 3 2")),
        STORED + b"1 0 ann 2 1 1 0 0 tag 3 2\n" + 2 * b"1 0 ann 2 1 1 0 0 copy 3 2 aa\n" + b"1 0 ann 2 1 1 0 1 copy 0 0 -\n",
    ),
    "a tag in place of a store": (
        STORE + b"3 2 aa\n" + b"".join(b"0 1 ann 2 1 %s\n" % it for it in (b"2 0 0 confirm 3 2", b"2 0 0 confirm 2 9", b"2 0 0 confirm 3 3", b"1 0 0 confirm 3 2", b"2 0 0 confirm 3")),
        3 * STORED + b"1 0 ann 2 1 2 0 0 want\n",
    ),
    "a write hears tags, and stores by one at its own node": (
        WRITE + b"cd\n0 1 ann 1 1 1 0 0 tag 7 3\n0 0 ann 1 1 2 0 0 confirm 8 1\n0 2 ann 1 1 2 0 0 stored\n0 3 ann 4 1 1 0 0 ask\n",
        ASK_TAG + CONFIRM % (0, 8, 1) + b"2 0 ann 1 1 2 0 0 store 8 1 cd\nann 0 done write 1 1 tag 8 1\n3 0 ann 4 1 1 0 0 copy 8 1 cd\n",
    ),
    "its own store, once it is over": (
        WRITE + b"cd\n0 1 ann 1 1 1 0 0 tag 7 3\n0 ann abandon 1 1\n0 0 ann 1 1 2 0 0 confirm 8 1\n0 3 ann 4 1 1 0 0 ask\n",
        ASK_TAG + CONFIRM % (0, 8, 1) + b"2 0 ann 1 1 2 0 0 store 8 1 cd\nann 0 gone 1 1\n3 0 ann 4 1 1 0 0 copy 0 0 -\n",
    ),
    "a read hears a greater tag alone": (READ + b"0 1 ann 1 1 1 0 0 tag 7 3\n0 0 ann 1 1 1 0 0 tag 7 3\n", ASK),
    "a read hears a tag that it knows": (
        b"0 0 ann 1 1 2 0 0 store 7 3 ee\n" + READ + b"0 1 ann 1 1 1 0 0 tag 7 3\n",
        ASK[:-1] + b" 7 3\n" + CONFIRM % (0, 7, 3) + CONFIRM % (2, 7, 3),
    ),
    "a server wants the store whole": (
        READ + b"0 1 ann 1 1 1 0 0 copy 3 2 aB\n0 3 ann 1 1 2 0 0 want\n0 3 ann 1 1 4 0 0 want\n0 3 ann 1 1 2 0 1 want\n0 3 ann 1 2 2 0 0 want\n0 4 ann 1 1 2 0 0 want\n",
        ASK + CONFIRM % (1, 3, 2) + CONFIRM % (3, 3, 2) + b"3 0 ann 1 1 2 0 0 store 3 2 ab\n",
    ),
    "a store that goes out again, and those behind it": (
        READ + b"0 1 ann 1 1 1 0 0 copy 3 2 aB\n" + 3 * b"0 0 tick\n" + b"0 2 ann 1 1 2 0 0 stored\n0 ann read 1 2 0 0\n0 1 ann 1 2 1 0 0 copy 4 2 cd\n",
        ASK + CONFIRM % (1, 3, 2) + CONFIRM % (3, 3, 2) + b"".join(b"%d 0 ann 1 1 2 0 0 store 3 2 ab\n" % n for n in (1, 3, 2))
        + b"ann 0 done read 1 1 tag 3 2 ab\n1 0 ann 1 2 1 0 0 ask 3 2\n0 0 ann 1 2 2 0 0 confirm 4 2\n2 0 ann 1 2 2 0 0 store 4 2 cd\n",
    ),
    "more lines of nobody": (b" ?\n00 ann read 1 1 0 0\nann 0 gone 1 1\n0 960 ann 1 5 3 0 3 ask\n1 ann plan\n0 1 plan\n", b""),
    "requests with no form": (b"0 ann quorum 1 1\n0 ann retry 1 1\n0 ann write 1 7 0 3\n0 ann read 1 7 0 3 0\n0 ann read 01 7 0 3\n0 ann plan \n0 ann  plan\n0 ann plans\n", 8 * BAD),
    "letters with no form": (
        b"0 1 ann 256 5 3 0 3 ask\n0 1 ann 1 5 4 0 3 ask\n0 1 ann 1 5 3 0 3 copy 18446744073709551616 1 00\n0 1 ann 1 5 3 0 3 copy 1 1 ab ?\n",
        b"",
    ),
    "ticks of another node": (READ + 4 * b"0 1 tick\n", ASK),
    "lines of new nodes with no form": (b"0 64 joins\n0 64 joins 1 1\n0 64 zed fetch 1 3\n0 64 ann fetch 1\n0 0 ann fetched 1 3 9 2\n0 ann fetch 1 3\n", BAD),
    "a file that is not there": (b"0 0 ann 1 1 1 0 4 ask\n0 0 ann 1 1 1 2 0 ask\n0 0 ann 5 1 1 0 0 ask\n", b""),
}


# The same, where a file has up to 40 blocks, and so a line up to 128 * 40 + 255 bytes.
ROOM = b"grid 2 2\nroom 5000\ntenant ann 80 1 1 40\ntenant bob 16 2 1 16\ngo\nann open 2 40\nbob open 1 1\n"
LONGEST = 128 * 40 + 255
HEARD = READ + b"0 1 ann 1 1 1 0 0 copy 0 0 -\n"  # a read that stores what this node has
ROOM_LINES = {
    "with room, a line of the most bytes": (filled(LONGEST) + READ, BAD + ASK),
    "with room, a line of one byte more": (filled(LONGEST + 1) + READ, ASK),
    "with room, a line of 300,000 bytes": (filled(300_000) + READ, ASK),
    "with room, what a tenant has": (b"0 ann plan\n0 bob plan\n", b"ann 0 plan 4 0 1 80 40 2.40 lines=3 rows=2 columns=2\nbob 0 plan 4 1 2 16 16 1.1 lines=3 rows=2 columns=2\n"),
    "with room, a content of the most bytes": (WRITE + b"ab" * 2560 + b"\n", ASK_TAG),
    "with room, a content of one byte more": (WRITE + b"ab" * 2561 + b"\n", b"ann 0 refused toolong 1 1 0 0 2561\n"),
    "with room, a content in bytes of the most bytes": (WRITE + b"=" + b"\\b" * 2560 + b"\n", ASK_TAG),
    "with room, a content in bytes of one byte more": (WRITE + b"=" + b"\\b" * 2561 + b"\n", b"ann 0 refused toolong 1 1 0 0 2561\n"),
    "with room, a store of the most bytes": (OWN + b"1 1 " + b"ab" * 2560 + b"\n" + HEARD, ASK[:-1] + b" 1 1\n" + CONFIRM % (0, 1, 1) + CONFIRM % (2, 1, 1)),
    "with room, a store of one byte more": (OWN + b"1 1 " + b"ab" * 2561 + b"\n" + HEARD, ASK + CONFIRM % (0, 0, 0) + CONFIRM % (2, 0, 0)),
}


# Lines that open several volumes. Of more than 64 those that are alike and follow one another are told at once, whichever lines opened them.
WIDE = (
    b"grid 2 2\nroom 500\ntenant ann 200 1 1 16 65536\ntenant bob 200 1 1 16\ntenant cat 100 1 1 16 72\ngo\n"
    b"ann open 1 1 times 40\nbob open 1 2 times 1\nann open 1 1\nann open 1 1 times 23\nbob open 2 1 times 63\nann open 1 2\n"
    b"cat open 1 1 times 64\ncat open 1 1\ncat open 2 1 times 2\ncat open 1 1 times 4\ncat open 1 2\nreplace 3\n"
)
WIDE_LINES = {
    "wide, what a tenant of 65 volumes has": (b"0 ann plan\n", b"ann 0 plan 4 0 1 200 16 1.1.64 1.2.1 67 lines=3 rows=2 columns=2\n"),
    "wide, what one of 64 has": (b"0 bob plan\n", b"bob 0 plan 4 1 1 200 16 1.2" + 63 * b" 2.1" + b" 67 lines=3 rows=2 columns=2\n"),
    "wide, what one of several runs has": (b"0 cat plan\n", b"cat 0 plan 4 2 1 100 16 1.1.65 2.1.2 1.1.4 1.2.1 67 lines=3 rows=2 columns=2\n"),
    "wide, a file of the last volume": (b"0 ann read 1 1 64 0\n", b"1 0 ann 1 1 1 64 0 ask\n"),
    "wide, one of none": (b"0 ann read 1 1 65 0\n0 ann read 1 1 64 1\n", b"ann 0 refused novolume 1 1 65\nann 0 refused nofile 1 1 64 1\n"),
    "wide, a line of 4,096 bytes": (filled(4096) + READ, ASK),
}


# The only server of a grid takes all letters itself: of a listing those of 8 hops, here of four files, at once, and the rest by a line.
ALONE = b"grid 1 1\nblocks 8\ntenant ann 8 1 100\ngo\nann open 6 1\n"
LISTING = b"0 ann list 1 1 0\n"
LEFT = b"0 0 ann 1 1 9 0 4 ask\n"
LISTED = b"ann 0 done list 1 1 0:0.0 0:0.0 0:0.0 0:0.0 0:0.0 0:0.0\n"
ALONE_LINES = {
    "alone, a write": (WRITE + b"aB\n", b"ann 0 done write 1 1 tag 1 1\n"),
    "alone, its store, as an old carrier brings it": (WRITE + b"aB\n" + OWN + b"1 1 ab\n", b"ann 0 done write 1 1 tag 1 1\n"),
    "alone, a read of the first copy": (READ, b"ann 0 done read 1 1 tag 0 0 -\n"),
    "alone, a listing of six files": (LISTING, LEFT),
    "alone, what is left of it": (LISTING + LEFT, LEFT + LISTED),
    "alone, what is left of it twice": (LISTING + 2 * LEFT + LISTING, LEFT + 2 * LISTED),
}


# A tenant whose name is a word of these lines; and what comes in order, to a column and of several sessions.
NAMED = b"grid 2 2\nblocks 24\ntenant ann 8 2 10\ntenant tick 8 2 10\ngo\n"
NAMED_LINES = {
    "a tenant named tick": (
        b"0 tick list 300 0 1\n0 tick abandon 1 4000000000\n0 tick plan\n0 tick\n0 0 tick\n",
        b"tick 0 refused nosession 300 0\ntick 0 refused home 2 1 4000000000\ntick 0 plan 4 2 2 8 16 lines=3 rows=2 columns=2\ntick 0 refused bad\n",
    ),
}
COLUMN = b"grid 2 1\nblocks 16\ntenant ann 8 2 10\ntenant bob 8 2 10\ngo\nann open 2 1\n"
COLUMN_LINES = {
    "a write to a column": (
        WRITE + b"4B\n0 0 ann 1 1 2 0 0 store 1 1 4b\n0 1 ann 1 1 2 0 0 stored\n",
        CONFIRM % (0, 1, 1) + b"1 0 ann 1 1 2 0 0 store 1 1 4b\nann 0 done write 1 1 tag 1 1\n",
    ),
}
ROW = b"grid 1 2\nblocks 16\ntenant ann 8 3 10\ntenant bob 8 3 10\ngo\nann open 2 1\n"
TO_ONE = b"1 0 ann 1 1 1 0 0 ask\n"
ROW_LINES = {
    "a write, line by line": (
        (WRITE + b"4B\n") * 2
        + b"0 ann write 1 2 0 0 4b\n0 0 tick\n0 0 tick\n0 0 ann 1 1 1 0 0 ask\n0 1 ann 1 1 1 0 0 copy 0 0 -\n0 1 ann 2 1 1 0 0 ask\n"
        + WRITE
        + b"4b\n",
        TO_ONE[:-1]
        + b" 18446744073709551615 255\nann 0 refused busy 1 2 1\n"
        + TO_ONE
        + b"ann 0 done write 1 1 tag 1 1\n1 0 ann 2 1 1 0 0 copy 1 1 4b\nann 0 done write 1 1 tag 1 1\n",
    ),
    "two operations tick": (
        b"0 ann read 1 1 0 1\n0 ann list 3 1 0\n0 bob list 2 1 0\n0 bob list 3 1 0\n0 0 tick\n0 0 tick\n",
        b"1 0 ann 1 1 1 0 1 ask\n1 0 ann 3 1 1 0 0 ask\nbob 0 refused novolume 2 1 0\nbob 0 refused home 1 3 1\n1 0 ann 1 1 1 0 1 ask\n1 0 ann 3 1 1 0 0 ask\n",
    ),
}


def tell_lines(program, folder):
    """How many were tried, and what is wrong."""
    put(os.path.join(folder, "plan"), PLAN)
    put(os.path.join(folder, "room"), ROOM)
    put(os.path.join(folder, "wide"), WIDE)
    put(os.path.join(folder, "alone"), ALONE)
    put(os.path.join(folder, "named"), NAMED)
    put(os.path.join(folder, "column"), COLUMN)
    put(os.path.join(folder, "row"), ROW)
    wrong = []
    every = {"plan": LINES, "room": ROOM_LINES, "wide": WIDE_LINES, "alone": ALONE_LINES, "named": NAMED_LINES, "column": COLUMN_LINES, "row": ROW_LINES}
    grids = {"alone": b"1 by 1", "column": b"2 by 1", "row": b"1 by 2"}
    for plan, lines in every.items():
        for place, (name, (given, wanted)) in enumerate(lines.items()):
            seen = ended(words_of(program, 0, plan, f"journal-{plan}{place}", True), given, cwd=folder)
            grid = grids.get(plan, b"2 by 2")
            if seen != (0, b"gridfs: node 0 of %s: 0 facts\n" % grid, b" ?\n" + in_bytes(wanted)):
                wrong.append(f"{name}: {seen}, not {wanted}")
    return sum(map(len, every.values())), wrong
