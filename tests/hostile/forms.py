"""The forms of docs/REFERENCE.md and docs/FORMATS.md, read anew in Python: what a plan's fault is, whose line a line is and what it asks, and which
answers it may have. Nothing here knows of messages' contents or of what servers hold; what follows from the answers before is
followed, as how many messages were sent, so that most answers are known byte for byte."""

import re

MOST_INPUT = 16_777_216
MOST_NUMBER = 4_294_967_295
BLOCK = 64

NAME = re.compile(rb"[a-z]{1,16}")
NUMBER = re.compile(rb"0|[1-9][0-9]{0,9}")
CONTENT = re.compile(rb"-|(?:[0-9a-fA-F]{2})+|=(?:[^\\]|\\[nsb])*", re.DOTALL)

N = rb"(?:0|[1-9][0-9]*)"
TAG = rb"tag %s %s" % (N, N)
RANGE = rb"(?P<first>%s) to (?P<last>%s)" % (N, N)
DELIVERIES = re.compile(
    rb"reply (?P<reply>%s)|down|stale|noted" % N
    + rb"|round (?P<round>%s)(?P<tag> %s)? sent (?:none|%s)" % (N, TAG, RANGE)
    + rb"|done (?:write (?P<write>%s) %s %s" % (N, N, TAG)
    + rb"|read (?P<read>%s) %s %s (?:-|(?:[0-9a-f]{2})+)" % (N, N, TAG)
    + rb"|list (?P<list>%s) %s(?: %s:%s\.%s)+)" % (N, N, N, N, N)
)


def lines_of(text):
    """The lines of a text: behind a last LF there is none."""
    lines = text.split(b"\n")
    if not lines[-1]:
        lines.pop()
    return lines


def number(word):
    """The number that a word is, or none."""
    if NUMBER.fullmatch(word) and int(word) <= MOST_NUMBER:
        return int(word)
    return None


def numbers(words, count):
    """So many numbers, where the words are these."""
    told = [number(word) for word in words]
    return told if len(told) == count and None not in told else None


def length_of(content):
    """The bytes of a content, in digits or as they are, each escape for one byte."""
    return len(content) - 1 - content.count(b"\\") if content.startswith(b"=") else len(content) // 2


def is_name(word):
    return NAME.fullmatch(word) is not None and word != b"server"


class Fault(Exception):
    """What is told of an input that is not run."""


class Row:
    def __init__(self, name, share, sessions, steps, most=16, volumes=64):
        self.name, self.share, self.sessions, self.steps, self.most, self.volumes = name, share, sessions, steps, most, volumes

    def line(self, room):
        words = (self.name, self.share, self.sessions, self.steps)
        return b"tenant %s %d %d %d" % words + b" %d" % self.most * room + b" %d" % self.volumes * (self.volumes != 64) + b"\n"


class Plan:
    def __init__(self, rows, cols, blocks, tenants):
        self.rows, self.cols, self.blocks, self.tenants = rows, cols, blocks, tenants

    def text(self):
        room = self.blocks > 4096 or any((row.most, row.volumes) != (16, 64) for row in self.tenants)
        head = b"grid %d %d\n%s %d\n" % (self.rows, self.cols, b"room" if room else b"blocks", self.blocks)
        return head + b"".join(row.line(room) for row in self.tenants) + b"go\n"


def plan_of(text):
    """The plan of an input and the lines after `go`; its first fault, where it has one."""
    if len(text) > MOST_INPUT:
        raise Fault(f"input over {MOST_INPUT} bytes")
    lines = lines_of(text)

    def words(place):
        if place >= len(lines):
            raise Fault(f"line {place + 1}: end")
        return lines[place].split(b" ")

    def told(place, head, count):
        first, *rest = words(place)
        values = numbers(rest, count) if first == head else None
        if values is None:
            raise Fault(f"line {place + 1}: form")
        return values

    def within(place, value, least, most, word):
        if not least <= value <= most:
            raise Fault(f"line {place + 1}: {word}")

    rows, cols = told(0, b"grid", 2)
    within(0, rows, 1, 8, "rows")
    within(0, cols, 1, 8, "cols")
    room = words(1)[0] == b"room"
    (blocks,) = told(1, b"room" if room else b"blocks", 1)
    within(1, blocks, 1, 4294967295 if room else 4096, "blocks")
    tenants, place = [], 2
    while words(place) != [b"go"]:
        first, *rest = words(place)
        values = numbers(rest[1:], 5 if room and len(rest) == 6 else 4 if room else 3) if first == b"tenant" and rest and is_name(rest[0]) else None
        if values is None:
            raise Fault(f"line {place + 1}: form")
        tenants.append(Row(rest[0], *values))
        place += 1
    names = set()
    for line, row in enumerate(tenants, 2):
        within(line, line - 2, 0, 63, "toomany")
        within(line, row.name in names, 0, 0, "samename")
        within(line, row.share, 1, MOST_NUMBER, "zeroshare")
        within(line, row.sessions, 1, 16, "sessions")
        within(line, row.steps, 1, 1_000_000, "steps")
        within(line, row.most, 1, 16384, "most")
        within(line, row.volumes, 1, 65536, "volumes")
        names.add(row.name)
    within(place, len(tenants), 1, 64, "notenant")
    shares = sum(row.share for row in tenants)
    within(place, shares, 0, blocks, f"overblocks {shares} {blocks}")
    return Plan(rows, cols, blocks, tenants), lines[place + 1 :]


class Servers:
    """The grid, which of its servers are up, and which are lost."""

    def __init__(self, plan):
        self.rows, self.cols = plan.rows, plan.cols
        self.up = set(range(plan.rows * plan.cols))
        self.lost = set()
        self.choose()

    def choose(self):
        """The least row and the least column that are up, and their servers, or none."""
        rows = [{row * self.cols + col for col in range(self.cols)} for row in range(self.rows)]
        cols = [{row * self.cols + col for row in range(self.rows)} for col in range(self.cols)]
        row = next((place for place, servers in enumerate(rows) if servers <= self.up), None)
        col = next((place for place, servers in enumerate(cols) if servers <= self.up), None)
        self.quorum = None if None in (row, col) else (row, col, sorted(rows[row] | cols[col]))
        self.row_up = [] if row is None else sorted(rows[row])
        self.column_up = [] if col is None else sorted(cols[col])

    def asked(self, round):
        """The servers that a round that begins now sends to: those of a row where it collects, of a column where it stores."""
        return self.row_up if round % 2 else self.column_up

    def peers(self, server):
        """The other servers of its column."""
        return set(range(server % self.cols, self.rows * self.cols, self.cols)) - {server}

    def refusal(self, server, verb):
        """Why a line of this form is refused."""
        if server >= self.rows * self.cols:
            return b"noserver"
        if verb in (b"down", b"up"):
            if server in self.lost:
                return b"lost"
            return b"same" if (server in self.up) == (verb == b"up") else None
        if (server in self.lost) == (verb == b"lost"):
            return b"same"
        if verb == b"lost":
            return b"last" if self.peers(server) <= self.lost else None
        return None if self.peers(server) & self.up else b"nomate"

    def answer(self, words, tenants):
        """The answer to a server line, by the words behind the first, and what it does to the tenants."""
        verb = words[1] if len(words) == 2 and words[1] in (b"down", b"up", b"lost", b"repaired") else None
        server = number(words[0]) if verb else None
        if server is None:
            return b"server refused bad"
        word = self.refusal(server, verb)
        if word:
            return b"server refused " + word
        if verb in (b"up", b"repaired"):
            self.up.add(server)
            self.lost.discard(server)
        else:
            self.up.discard(server)
        if verb == b"lost":
            self.lost.add(server)
            for tenant in tenants:
                tenant.lose(server)
        self.choose()
        return b"server ok"


class Wrong(Exception):
    """An answer that the forms do not allow."""


class Tenant:
    """What the lines and answers of a tenant tell of it."""

    def __init__(self, row, servers):
        self.row, self.servers = row, servers
        self.lines = 0
        self.volumes, self.free = [], row.share
        self.ops = [0] * (row.sessions + 1)
        # the round of each session's operation; the servers that were heard in it, and those that sent a reply of it
        self.rounds = [None] * (row.sessions + 1)
        self.heard = [set() for _ in self.rounds]
        self.answered = [set() for _ in self.rounds]
        # of each message its session, operation, round and server; which messages are lost, and which are replies
        self.messages, self.lost, self.replies = [], set(), set()

    def check(self, words, answer):
        """Takes a line, by the words behind the first, and its answer."""
        self.lines += 1
        if self.lines > self.row.steps:
            wanted = b"refused spent"
        else:
            wanted = self.wanted(words, answer)
        if wanted != answer:
            raise Wrong(f"not {wanted!r}")

    def wanted(self, words, answer):
        """The answer that has to come; where more than one may come, the one that came, if it is one of these."""
        verb, *rest = words or [b""]
        asked = {b"quorum": 0, b"open": 2, b"volumes": 0, b"write": 3, b"read": 3, b"list": 2}
        asked.update({b"deliver": 1, b"lose": 1, b"retry": 1, b"abandon": 1})
        content = b""
        if verb == b"write" and rest:
            content = rest.pop()
        if verb not in asked or not CONTENT.fullmatch(content or b"-"):
            return b"refused bad"
        values = numbers(rest, asked[verb])
        if values is None or verb == b"write" and not content:
            return b"refused bad"
        if verb in (b"write", b"read", b"list"):
            return self.begun(*values, content=content)
        if verb in (b"retry", b"abandon"):
            return self.gone_on(verb, values[0], answer)
        if verb in (b"deliver", b"lose"):
            return self.met(verb, values[0], answer)
        return {b"quorum": self.chosen, b"open": self.opened, b"volumes": self.listed}[verb](*values)

    def chosen(self):
        if not self.servers.quorum:
            return b"refused noquorum"
        row, col, servers = self.servers.quorum
        return b"quorum %d %d servers" % (row, col) + b"".join(b" %d" % server for server in servers)

    def opened(self, files, blocks):
        if not (1 <= files <= 64 and 1 <= blocks <= self.row.most):
            return b"refused size"
        if len(self.volumes) == self.row.volumes:
            return b"refused volumes"
        if files * blocks > self.free:
            return b"refused share %d" % self.free
        self.free -= files * blocks
        self.volumes.append((files, blocks))
        return b"volume %d" % (len(self.volumes) - 1)

    def listed(self):
        return b"volumes free %d" % self.free + b"".join(b" %dx%d" % volume for volume in self.volumes)

    def begun(self, session, volume, file=0, content=b""):
        if not 1 <= session <= self.row.sessions:
            return b"refused nosession"
        if self.rounds[session]:
            return b"refused busy"
        if volume >= len(self.volumes):
            return b"refused novolume"
        files, blocks = self.volumes[volume]
        if file >= files:
            return b"refused nofile"
        if length_of(content) > BLOCK * blocks:
            return b"refused toolong"
        asked = self.servers.asked(1)
        if not asked:
            return b"refused noquorum"
        self.ops[session] += 1
        self.begin_round(session, 1)
        return b"op %d sent %s" % (self.ops[session], self.sending(session, asked))

    def begin_round(self, session, round):
        """The session's operation is in this round from now on."""
        self.rounds[session] = round
        self.heard[session], self.answered[session] = set(), set()

    def lose(self, server):
        """The server is lost: operations are given up that count on it."""
        for session, answered in enumerate(self.answered):
            if server in answered:
                self.rounds[session] = None

    def gone_on(self, verb, session, answer):
        if not 1 <= session <= self.row.sessions:
            return b"refused nosession"
        if not self.rounds[session]:
            return b"refused idle"
        if verb == b"abandon":
            self.rounds[session] = None
            return b"abandoned"
        asked = self.servers.asked(self.rounds[session])
        if not asked:
            return b"refused noquorum"
        return b"resent " + self.sending(session, [server for server in asked if server not in self.heard[session]])

    def met(self, verb, message, answer):
        if message >= len(self.messages) or message in self.lost:
            return b"refused nomessage"
        if verb == b"lose":
            self.lost.add(message)
            return b"lost"
        session, op, round, server = self.messages[message]
        current = self.rounds[session] and (op, round) == (self.ops[session], self.rounds[session])
        # (a message that was told as a reply goes to a session, every other one to a server)
        if message not in self.replies:
            if server not in self.servers.up:
                return b"down"
            if current:
                self.answered[session].add(server)
            self.replies.add(len(self.messages))
            self.messages.append((session, op, round, server))
            return b"reply %d" % (len(self.messages) - 1)
        if not current:
            return b"stale"
        self.heard[session].add(server)
        told = DELIVERIES.fullmatch(answer)
        if not told or answer in (b"down", b"stale") or told["reply"]:
            return b"what is told to a session"
        if told["round"]:
            return self.gone_to(session, told)
        done = told["write"] or told["read"] or told["list"]
        if done:
            if int(done) != session or not self.rounds[session]:
                return b"an end of an operation that is there"
            if told["write"] and self.rounds[session] != 2:
                return b"an end of a write that has stored its copy"
            if told["read"] and self.rounds[session] > 2:
                return b"an end of a read"
            self.rounds[session] = None
        return answer

    def gone_to(self, session, told):
        """What is told where a session's next round begins: a store round, or after a store round that was left out a collect
        round."""
        last, round = self.rounds[session], int(told["round"])
        if not last or round not in ([last + 1, last + 2] if last % 2 else [last + 1]) or bool(told["tag"]) != (round % 2 == 0):
            return b"a round that can follow %s" % last
        self.begin_round(session, round)
        asked = self.servers.asked(round)
        return b"round %d%s sent %s" % (round, told["tag"] or b"", self.sending(session, asked) if asked else b"none")

    def sending(self, session, servers):
        """The numbers of the messages of the session's round, which are sent to these servers now."""
        first = len(self.messages)
        self.messages += [(session, self.ops[session], self.rounds[session], server) for server in servers]
        return b"%d to %d" % (first, len(self.messages) - 1)


def check_answers(plan, lines, output):
    """Compares the output of the lines after a plan with the forms. What each tenant was told, by its name."""
    answers = lines_of(output)
    if len(answers) != len(lines) or output and not output.endswith(b"\n"):
        raise Wrong(f"{len(answers)} answers to {len(lines)} lines")
    servers = Servers(plan)
    tenants = {row.name: Tenant(row, servers) for row in plan.tenants}
    told = {row.name: [] for row in plan.tenants}
    for place, (line, answer) in enumerate(zip(lines, answers)):
        first, *words = line.split(b" ")
        try:
            if first in tenants:
                head = first + b" "
                if not answer.startswith(head):
                    raise Wrong(f"not {head!r}..")
                told[first].append(answer)
                tenants[first].check(words, answer[len(head) :])
            else:
                wanted = servers.answer(words, tenants.values()) if first == b"server" else b"? refused bad"
                if answer != wanted:
                    raise Wrong(f"not {wanted!r}")
        except Wrong as wrong:
            raise Wrong(f"line {place} after go, {line[:200]!r}: {answer[:200]!r}, {wrong}") from None
    return told
