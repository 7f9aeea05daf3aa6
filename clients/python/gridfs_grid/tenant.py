"""A tenant's sessions at a grid of nodes: which line is to be sent when, and which answer is to be believed.

The rules are those of docs/FORMATS.md (Lines of nodes). A request is sent again until it is answered; the number behind its session says
which request an answer is of. A client that begins anew asks its session's home for the last number, by a request to give up an
operation of a number that is far too high. Then it reads, and believes nothing of the answer: a line of the client before it may
still be under way with the same number. A home that was started again tells a later last number, behind which the session goes on. Where a home was
lost, the node that stands in its place knows the session by another number, under which it begins anew. No clock is asked here, and
nothing is sent: the caller does both.

So `./grid` drives many sessions in one loop, and tests repeat a run by its seed.
"""

import collections
import re

AGAIN = 0.5  # seconds until a request is sent again; each time doubled
LONGEST_AGAIN = 4
SHORT_LINE = 4_095  # bytes that a line of any plan may have
SLOWEST = 1 << 18  # bytes of a request that go on their way in a second, at least: so much longer it is waited for the answer
FIRST_TOO_HIGH, LAST_NUMBER = 1 << 31, (1 << 32) - 1
# By so much a node's number, and those of its sessions, are greater with each node that was lost at its place: as many places a grid has at
# most, and as many sessions a tenant.
PLACES, SESSIONS = 64, 16
MOST_LOST = 14  # nodes that may be lost at a place, one after another


def tick_of(longest, least):
    """Seconds from one tick to the next, which are so many where lines are short: a tick that comes before the longest line was answered has it sent
    again."""
    return least + max(0, longest - SHORT_LINE) / SLOWEST / 4


class Request:
    """A request of a session: its kind, its words behind the number, its number, and who is told how it ended."""

    def __init__(self, kind, words, number=None, tell=None):
        self.kind, self.words, self.number, self.tell = kind, words, number, tell
        self.due, self.again, self.is_given_up = 0, AGAIN, False
        self.sent = 0  # how often

    def is_refused(self, word, told):
        """Whether a refusal with this number ends the request. Behind `busy` and `early` the same line may still begin; and one that tells of
        another volume, file or length is of an earlier request."""
        length = [b"%d" % (len(it) // 2) for it in self.words[2:3]]
        return told == {b"novolume": self.words[:1], b"nofile": self.words[:2], b"toolong": self.words[:2] + length}.get(word)


class Nodes:
    """The nodes of the grid, as they tell themselves by `plan`. Of what different ones say of a place the greatest number is right."""

    def __init__(self, nodes=range(PLACES)):
        self.standing, self.turn = list(nodes), 0  # the node of each place; how often they were asked

    def hear(self, body):
        """Takes what a node told a tenant, where it says which nodes there are."""
        if not re.fullmatch(rb"plan [1-9][0-9]*(?: [0-9]+){4}(?: [0-9]+\.[0-9]+)*(?: [0-9]+)*(?: [a-z]+=\S*)*", body):
            return
        words = [word for word in body.split(b" ") if b"=" not in word]  # (what nodes tell besides has names)
        del self.standing[int(words[1]) :]
        for node in (int(word) for word in words[6:] if b"." not in word):
            place = node % PLACES
            if place < len(self.standing):
                self.standing[place] = max(node, self.standing[place])

    def due(self, session, now):
        """The lines that have to be sent now for a session: its own; and where its home did not answer, each node is asked for the plan."""
        session.go_on_at(self.standing[session.place])
        lines = session.due(now)
        return lines + self.questions(session.name) if lines and session.is_sought() else lines

    def questions(self, name):
        """To each node that is known, and by turns to those that may stand in its place since: all that are known may be gone."""
        self.turn += 1
        later = PLACES * (1 + self.turn % MOST_LOST)
        return [b"%d %s plan" % (node, name) for known in self.standing for node in (known, known + later)]


class Session:
    """One session, which has one request under way, and those that wait behind it. What is sent and heard is bytes. Where the last number
    is known, and all that was sent under it was answered, nothing has to be asked first."""

    def __init__(self, name, session, home, draw, last=None):
        self.name, self.draw, self.in_plan = name.encode(), draw, session  # (its number in the plan)
        self.waiting, self.last, self.is_nobodys = collections.deque(), last, False
        self.be_at(home)
        self.going = self.first_request() if last is None else None

    def be_at(self, home):
        """This node is the session's home, which knows it by a number that is greater with each node that was lost at the home's place."""
        self.home, self.place = b"%d" % home, home % PLACES
        self.session = b"%d" % (self.in_plan + SESSIONS * (home // PLACES))

    def first_request(self):
        return Request(b"abandon", [], self.draw.randint(FIRST_TOO_HIGH, LAST_NUMBER))

    def ask(self, kind, words, tell):
        """Has a request wait: `tell` is called with the answer, or with the refusal."""
        self.waiting.append(Request(kind, words, tell=tell))

    def unanswered(self):
        """How many requests that were asked are not answered."""
        return sum(request.tell is not None for request in [*self.waiting, self.going] if request)

    def give_up(self):
        """Has the request that is under way be given up: then it is told to be `gone`, or done where it was."""
        if self.going:
            self.going.is_given_up, self.going.due = True, 0

    def line(self, kind, words):
        return b" ".join([self.home, self.name, kind, self.session, b"%d" % self.going.number, *words])

    def due(self, now):
        """The lines that have to be sent now."""
        if self.going is None and self.waiting:
            self.going = self.waiting.popleft()
            self.going.number = self.last + 1
        request = self.going
        if request is None or now < request.due:
            return []
        line = self.line(request.kind, request.words)
        request.due, request.again = now + request.again + len(line) / SLOWEST, min(2 * request.again, LONGEST_AGAIN)
        request.sent += 1
        return [line] + [self.line(b"abandon", [])] * request.is_given_up

    def is_sought(self):
        """Whether another node may stand in the place of the session's home: there is no answer, or one that there is no such session."""
        return self.is_nobodys or (self.going is not None and self.going.sent > 1)

    def hear(self, body):
        """Takes what a node told the tenant. What is of another session or number, or ends no request, is passed over."""
        words, request = body.split(b" "), self.going
        at = {b"gone": 1, b"done": 2, b"refused": 2}.get(words[0])
        if at is None or request is None or words[at : at + 2] != [self.session, b"%d" % request.number]:
            return
        if words[0] == b"refused":
            self.is_nobodys = words[1] == b"nosession"
            if self.last is None and words[1] in (b"early", b"old"):
                self.last, self.going = int(words[4]), None
                self.waiting.appendleft(Request(b"read", [b"0", b"0"]))
                return
            if words[1] == b"old":
                self.go_on_behind(int(words[4]))
                return
            if not request.is_refused(words[1], words[4:]):
                return
        else:
            self.last = request.number
        self.going, self.is_nobodys = None, False
        if request.tell:
            request.tell(body)

    def go_on_behind(self, last):
        """The home was started again since the request was sent, and goes on behind this number. The request is gone; what changes nothing is
        asked for again, unless it was given up."""
        request, self.going, self.last = self.going, None, last
        self.note_gone(request, self.session)

    def go_on_at(self, node):
        """Where this node stands in the place of the home, which was lost, the session goes on there. It begins anew, since an earlier client may
        have been there before; the request is gone, as behind a start."""
        if node <= int(self.home):
            return
        request, session = self.going, self.session
        self.be_at(node)
        self.waiting = collections.deque(it for it in self.waiting if it.tell)  # (what begins anew is told to nobody)
        self.last, self.going, self.is_nobodys = None, self.first_request(), False
        if request and request.tell:
            self.note_gone(request, session)

    def note_gone(self, request, session):
        if request.kind != b"write" and not request.is_given_up:
            self.waiting.appendleft(Request(request.kind, request.words, tell=request.tell))
        elif request.tell:
            request.tell(b"gone %s %d" % (session, request.number))
