"""One node, whose disk stops at each of its calls in turn, is full from it on, or fails at it: what the node acknowledged is there when
it starts again, and no number is used twice; so it is where it lives on behind a stop, and power is lost then.

The node is number 3 of 2 by 2. Sessions 4 and 8 of ann have their home there; the other three servers are played here.
"""

import os
import random
import re

from contents import in_digits
from journals import sealed
from processes import MARKER, SECONDS, Streamed, Wrong, disk, ended, get, lose_power, put, words_of
from reserved import RUN, reserved_in

PLAN = f"grid 2 2\nblocks 2048\ntenant ann 2047 8 1\n{MARKER}go\nann open 4 2\nann open 2 16\n".encode()
HEAD = b"node 3 of 2 by 2\n" + PLAN
FILES = [(0, 0), (0, 1), (0, 2), (0, 3), (1, 0), (1, 1)]
SESSIONS = [4, 8]
TURNS = 14
LATER = 3  # turns of a second life
TOO_HIGH = 4_000_000_000
# A play has short contents and begins with no journal; or it begins with one that is written anew, of short facts or of large ones.
SHORT, LONG_JOURNAL, LARGE = "short", "long", "large"
START = re.compile(rb"(gridfs: journal: cut at byte \d+\n)?gridfs: node 3 of 2 by 2: \d+ facts\n")
LETTER = re.compile(rb"(\d+) 3 ann (\d+) (\d+) (\d+) (\d+) (\d+) (ask|store (\d+) (\d+) ([^ ]+)|copy \d+ \d+ [^ ]+|stored)")
OWN_STORE = re.compile(rb"3 3 ann \d+ \d+ \d+ (\d+) (\d+) store (\d+) (\d+) [^ ]+")
DONE = re.compile(rb"ann 3 (?:done \w+|gone) (\d+) (\d+)\b")
# A journal that is written anew behind its next batch: it is over 1 MiB, and of all its facts a start needs few.
LONG = 1_100_000
LAST, LAST_TAG = 6, 5000  # the last numbers of its sessions


# The same with contents of up to 256 KiB: the facts of one that is written anew are as large, and so are some of the lines.
LARGE_PLAN = PLAN.replace(b"blocks 2048", b"room 40000").replace(b"ann 2047 8 1", b"ann 32768 8 1 4096").replace(b"mark 1 1 1", b"mark 1 1 1 1").replace(b"open 2 16", b"open 2 4096")
LARGE_FACTS = [200_000, 100_000]  # bytes of their contents
LARGE_LENGTHS = [0, 64, 64, 65_536, 262_144]


class Play:
    """Lines for the node, drawn from a seed and answered by three servers; what it acknowledged, and what it was given."""

    def __init__(self, draw, is_large=False):
        self.draw, self.is_large = draw, is_large
        self.copies = {}  # of each server and file, the copy as a store's words
        self.given = {file: {(0, 0): b"-"} for file in FILES}  # of each file, the contents of tags
        self.before = {session: 0 for session in SESSIONS}  # the last number of an earlier play
        self.asked = {session: 0 for session in SESSIONS}  # the number of the last request
        self.stores = {}  # of the other homes' stores, by their heads: file and tag
        self.due, self.brought = [], []  # what the node is owed; of its own stores that it was given last, file and tag
        self.acknowledged = {file: (0, 0) for file in FILES}
        self.begun = {session: 0 for session in SESSIONS}
        self.numbers = {session: 0 for session in SESSIONS}

    def lines(self, turn):
        """What comes to the node at this turn: what it is owed, a store of another home, a request, a tick."""
        lines, self.due = self.due, []
        self.brought = [((int(it[1]), int(it[2])), (int(it[3]), int(it[4]))) for it in map(OWN_STORE.fullmatch, lines) if it]
        for _ in range(self.draw.randint(0, 2)):
            lines.append(self.store(turn))
        for session in SESSIONS:
            if self.draw.random() < 0.6:
                lines.append(self.request(session))
        if self.draw.random() < 0.2:
            lines.append(b"3 3 tick")
        return b"".join(line + b"\n" for line in lines)

    def content(self, file):
        if self.is_large and file[0] == 1:
            return self.draw.randbytes(self.draw.choice(LARGE_LENGTHS)).hex().encode() or b"-"
        return self.draw.randbytes(self.draw.randint(0, 64)).hex().encode() or b"-"

    def store(self, turn):
        """A store of session 1, whose home is node 0."""
        file, tag = self.draw.choice(FILES), (self.draw.randint(1, 40), 1)
        content = self.content(file)
        content = self.given[file].setdefault(tag, content)
        self.stores[turn, len(self.stores)] = file, tag
        return b"3 0 ann 1 %d 2 %d %d store %d %d %s" % (self.number_of(file, tag), *file, *tag, content)

    def number_of(self, file, tag):
        """A number of an operation that tells file and tag."""
        return 1 + FILES.index(file) + 10 * tag[0]

    def request(self, session):
        """A request under the next number, or the last one again; now and then the last is given up."""
        number = self.asked[session] + self.draw.choice([0, 1, 1])
        self.asked[session] = max(number, self.asked[session])
        if number and self.draw.random() < 0.1:
            return b"3 ann abandon %d %d" % (session, number)
        file = self.draw.choice(FILES)
        if self.draw.random() < 0.7:
            return b"3 ann write %d %d %d %d %s" % (session, number, *file, self.content(file))
        return b"3 ann read %d %d %d %d" % (session, number, *file)

    def hear(self, wrote, lives=False):
        """Takes what the node wrote, whole lines alone. If it lives and has done with all that it was given, its own stores are synced."""
        for line in wrote.split(b"\n")[:-1]:
            letter, done = LETTER.fullmatch(line), DONE.match(line)
            if done:
                self.see(int(done[1]), int(done[2]))
            elif letter:
                self.take(letter, line)
        for place, tag in self.brought if lives else []:
            self.acknowledged[place] = max(self.acknowledged[place], tag)

    def see(self, session, number):
        if session in self.begun:
            self.begun[session] = max(number, self.begun[session])

    def take(self, letter, line):
        to, session, number, turn, volume, file = (int(word) for word in letter.groups()[:6])
        what, place = letter[7], (volume, file)
        if session == 1:  # a reply to session 1, of which the operation's number tells file and tag
            if what == b"stored":
                self.acknowledged[place] = max(self.acknowledged[place], (number // 10, 1))
            return
        self.see(session, number)
        if what.startswith(b"store "):
            tag = int(letter[8]), int(letter[9])
            if tag[1] == session:
                self.numbers[session] = max(self.numbers[session], tag[0])
                content = in_digits(letter[10])
                if self.given[place].setdefault(tag, content) != content:
                    raise Wrong(f"the tag {tag} of file {place} is used twice")
        if to == 3:
            if not what.startswith(b"store "):
                raise Wrong(f"the node writes a line to itself that is no store: {line!r}")
            self.due.append(line)
            return
        reply = b"3 %d ann %d %d %d %d %d " % (to, session, number, turn, volume, file)
        if what == b"ask":
            self.due.append(reply + b"copy %d %d %s" % self.copy(to, place))
        elif what.startswith(b"store "):
            self.copies[to, place] = max(self.copies.get((to, place), (0, 0, b"-")), (int(letter[8]), int(letter[9]), letter[10]))
            self.due.append(reply + b"stored")

    def copy(self, server, place):
        return self.copies.get((server, place), (0, 0, b"-"))


def questions(play):
    """Lines that ask a node which was started again for all that it has."""
    for volume, file in FILES:
        yield b"3 0 ann 1 %d 1 %d %d ask" % (TOO_HIGH, volume, file)
    for session in SESSIONS:
        yield b"3 ann abandon %d %d" % (session, TOO_HIGH)


def check_copies(play, answers):
    """Each copy is of a tag that was given, with its content, and no older than was acknowledged."""
    for (volume, file), line in zip(FILES, answers):
        head = b"0 3 ann 1 %d 1 %d %d copy " % (TOO_HIGH, volume, file)
        if not line.startswith(head):
            raise Wrong(f"an ask is answered {line!r}")
        number, session, content = line[len(head) :].split(b" ")
        tag, place = (int(number), int(session)), (volume, file)
        if play.given[place].get(tag) != in_digits(content):
            raise Wrong(f"the copy of {place} is {line!r}, which nobody gave")
        if tag < play.acknowledged[place]:
            raise Wrong(f"the copy of {place} has tag {tag}, and {play.acknowledged[place]} was acknowledged")


def check_session(play, node, session, line, reserved, own):
    """The last number is the last of a run that was reserved, which none was unless something was asked for, and no less than was seen. The
    next write has the first number behind those that are reserved for tags and behind `own`, the number of the copy that the node itself has, and
    none that was seen."""
    told = re.fullmatch(rb"ann 3 refused early %d %d (\d+)" % (session, TOO_HIGH), line)
    before = play.before[session]
    runs = [before] * (play.begun[session] == before) + [before + RUN] * (play.asked[session] > before)
    if not told or int(told[1]) not in runs:
        raise Wrong(f"the last number of session {session}: {line!r}; {play.begun[session]} was seen, {play.asked[session]} asked for")
    number = int(told[1]) + 1
    wrote, lives = node.step(b"3 ann write %d %d 0 0 ee\n3 2 ann %d %d 1 0 0 copy 0 0 -\n" % (session, number, session, number))
    stores = [LETTER.fullmatch(it) for it in wrote.split(b"\n") if b" store " in it]
    if not lives or not stores or reserved < play.numbers[session] or any(int(it[8]) != max(reserved, own) + 1 for it in stores):
        raise Wrong(f"session {session} had the number {play.numbers[session]}, {reserved} is reserved, and it writes {wrote!r}")


def words(program, folder):
    """The words of a start, which is the first one where there is no journal."""
    return words_of(program, 3, "plan", "journal", not os.path.exists(os.path.join(folder, "journal")))


def start(program, folder, environment=None):
    return Streamed(words(program, folder), 3, folder, environment)


def check_again(program, folder, play):
    """Starts the node again and asks it for all that it has."""
    told = os.path.join(folder, "told3")
    if os.path.exists(told):
        os.unlink(told)
    _, reserved = reserved_in(os.path.join(folder, "journal"))
    node = start(program, folder)
    try:
        wrote, lives = node.step(b"".join(line + b"\n" for line in questions(play)))
        if not lives or not wrote.startswith(b" ?\n") or not START.fullmatch(get(told)):
            raise Wrong(f"it does not start again: {get(told)!r}, {wrote!r}")
        answers = wrote.split(b"\n")[1:-1]
        if len(answers) != len(FILES) + len(SESSIONS):
            raise Wrong(f"it is asked {len(FILES) + len(SESSIONS)} questions and answers {answers}")
        check_copies(play, answers)
        own = int(answers[0].split(b" ")[-3])
        for session, line in zip(SESSIONS, answers[len(FILES) :]):
            check_session(play, node, session, line, reserved.get((b"ann", b"%d" % session), 0), own)
    finally:
        node.kill()


def long_journal(draw):
    """A journal that is to be written anew, and what it gave: of many facts few are needed, and those of sessions are the first ones."""
    sessions = b"".join(b"began ann %d %d\nnumbered ann %d %d\n" % (session, LAST, session, LAST_TAG) for session in SESSIONS)
    text, number, tags = sealed(1, HEAD) + sealed(2, sessions), 3, 0
    while len(text) < LONG:
        facts = b""
        for _ in range(16):
            tags += 1
            facts += b"kept ann 1 %d %d 1 %s\n" % (tags % 2, tags, b"%04x" % tags * 300)
        text += sealed(number, facts)
        number += 1
    return text, {(1, tag % 2): ((tag, 1), b"%04x" % tag * 300) for tag in (tags - 1, tags)}


def large_journal(draw):
    """The same of a few large facts, each in a batch of its own."""
    sessions = b"".join(b"began ann %d %d\nnumbered ann %d %d\n" % (session, LAST, session, LAST_TAG) for session in SESSIONS)
    text, kept, tag = sealed(1, b"node 3 of 2 by 2\n" + LARGE_PLAN) + sealed(2, sessions), {}, 0
    while len(text) < 9 * sum(LARGE_FACTS):
        tag += 1
        kept[1, tag % 2] = (tag, 1), draw.randbytes(LARGE_FACTS[tag % 2]).hex().encode()
        text += sealed(tag + 2, b"kept ann 1 %d %d 1 %s\n" % (tag % 2, tag, kept[1, tag % 2][1]))
    return text, kept


def played(program, folder, seed, kind, environment):
    """Plays to the end, or until the node has ended. The play, and the node's status where it has ended."""
    put(os.path.join(folder, "plan"), LARGE_PLAN if kind == LARGE else PLAN)
    play = Play(random.Random(seed), kind == LARGE)
    if kind != SHORT:
        text, kept = (large_journal if kind == LARGE else long_journal)(play.draw)
        put(os.path.join(folder, "journal"), text)
        put(os.path.join(folder, "journal.synced"), b"%d" % len(text))
        for place, (tag, content) in kept.items():
            play.given[place][tag], play.acknowledged[place] = content, tag
        play.before, play.asked, play.begun, play.numbers = (dict.fromkeys(SESSIONS, it) for it in (LAST, LAST, LAST, LAST_TAG))
    node, lives, turn = start(program, folder, environment), True, 0
    try:
        while lives and turn < TURNS:
            wrote, lives = node.step(play.lines(turn))
            play.hear(wrote, lives)
            turn += 1
        if lives:
            node.child.stdin.close()
        status = node.child.wait(SECONDS)
    finally:
        node.kill()
    return play, status


def calls_of(program, library, folder, seed, kind):
    """The calls of the disk in a whole play."""
    play, status = played(program, folder, seed, kind, disk(library, CALLS="calls"))
    if status != 0:
        raise Wrong(f"a play ends with status {status}")
    check_again(program, folder, play)
    return get(os.path.join(folder, "calls")).decode()


def stopped(program, library, folder, seed, kind, how, loses, again, lies):
    """A play that stops at a call, and starts again; it may stop again amid that start."""
    lie = {"LIES": 1} if lies else {}
    play, status = played(program, folder, seed, kind, disk(library, STOP=how, **lie))
    # (how a large play's lines are cut into reads, and so into batches, hangs on the clock)
    if status != -9 and not (kind == LARGE and status == 0):
        raise Wrong(f"a play that is stopped ends with status {status}")
    draw = random.Random(f"{seed} {how}")
    for stop in [again] * (again is not None) + [None]:
        if loses:
            lose_power(os.path.join(folder, "journal"), draw)
        if stop:
            ended(words(program, folder), cwd=folder, env=disk(library, STOP=stop, **lie))
    check_again(program, folder, play)


def lived_on(program, library, folder, seed, kind, how):
    """A play that is killed at a call. The node starts again, takes stores and is killed, and then power is lost: what it acknowledged in its
    second life rests on all that this read, which has to be there too."""
    play, _ = played(program, folder, seed, kind, disk(library, STOP=how))
    node = start(program, folder, disk(library))
    try:
        for turn in range(TURNS, TURNS + LATER):
            wrote, lives = node.step(b"".join(play.store(turn) + b"\n" for _ in range(2)))
            if not lives:
                raise Wrong("it ends in its second life")
            play.hear(wrote)
    finally:
        node.kill()
    lose_power(os.path.join(folder, "journal"), random.Random(f"{seed} {how} later"))
    check_again(program, folder, play)


def failed(program, library, folder, seed, kind, how, loses, call):
    """A play in which a call fails: the node says so and ends, or goes on where nothing rests on the call."""
    play, status = played(program, folder, seed, kind, disk(library, FAIL=how))
    told = get(os.path.join(folder, "told3"))
    if status != 1 or not re.search(rb"gridfs: journal: (write|read) fault\n\Z", told):
        raise Wrong(f"where a call of the disk fails ({call}), the node ends with status {status} and {told!r}")
    if loses:
        lose_power(os.path.join(folder, "journal"), random.Random(f"{seed} {how}"))
    check_again(program, folder, play)
