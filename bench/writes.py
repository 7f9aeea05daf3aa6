"""Lines of sessions that write, read and list files on a grid of servers, and the deliveries of what they send.

The lines follow the answers that they will get, as far as these give numbers: how many messages each tenant has sent, which
of them are under way, for each session its round and the servers heard in it, and the tags of all copies, by which a read or a
listing leaves its store rounds out. So few of them are refused.
"""

FILES = 4
BLOCKS = 16
MOST_DOWN = 4
REPEATED = 0.02
FIRST = (0, 0)


def least_whole(parts, servers):
    """The least row, or column, of which all servers are among these (sets are bits), or none."""
    return next((part for part in parts if part & servers == part), 0)


class Grid:
    def __init__(self, rows, cols):
        self.servers = range(rows * cols)
        self.rows = [sum(1 << cols * row + col for col in range(cols)) for row in range(rows)]
        self.cols = [sum(1 << cols * row + col for row in range(rows)) for col in range(cols)]

    def quorum(self, servers, number):
        """Of a round of this number the least row, where it collects, or the least column that is whole; or none."""
        return least_whole(self.rows if number % 2 else self.cols, servers)


class Session:
    def __init__(self, tenant, number):
        self.tenant, self.number = tenant, number
        # A round of 0: there is no operation. The last collect round of an operation, and whether it writes.
        self.op, self.round, self.last_collect, self.writes = 0, 0, 0, False
        self.heard, self.file, self.last_number = 0, 0, 0
        # Of the round the greatest tag heard and the servers that told it, or the tag that it stores; and the servers that replied.
        self.tag, self.givers, self.answered = FIRST, 0, 0
        # Messages as number, server, operation, round, file, tag or none, and whether it is a reply.
        self.under_way = []


class Tenant:
    def __init__(self, name, sessions):
        self.name, self.sent = name, 0
        # The tags of the servers' copies, of which each file has the first at first.
        self.tags = {}
        self.sessions = [Session(self, number) for number in range(1, sessions + 1)]


class Lines:
    """An iterator with no end. `lost`, `changed`, `broken` and `listed`: how often a message is lost, a server goes down or comes up,
    one is lost or repaired, and an operation is a listing; with `every`, not by chance but every so many-th message is lost. Each
    tenant has one volume of so many files and blocks."""

    def __init__(self, draw, names, sessions, lost=0.001, changed=0.0003, broken=0, listed=0.01, rows=4, cols=4, files=FILES, blocks=BLOCKS, every=None):
        self.draw, self.lost, self.changed, self.broken, self.listed = draw, lost, changed, broken, listed
        self.files, self.most_bytes = files, 64 * blocks
        self.every, self.carried = every, 0
        self.tenants = [Tenant(name, sessions) for name in names]
        self.grid = Grid(rows, cols)
        self.up = sum(self.grid.rows)
        # the servers that are lost
        self.gone = 0
        self.opens = [f"{name} open {files} {blocks}\n" for name in reversed(names)]

    def __iter__(self):
        return self

    def __next__(self):
        if self.opens:
            return self.opens.pop()
        if self.draw.random() < self.changed:
            return self.change()
        if self.broken and self.draw.random() < self.broken:
            return self.break_or_repair()
        tenant = self.draw.choice(self.tenants)
        session = self.draw.choice(tenant.sessions)
        return f"{tenant.name} {self.ask(session)}\n"

    def change(self):
        # (the more are down, the likelier one comes up: so a row and a column are up most of the time)
        kept = [server for server in self.grid.servers if not self.gone >> server & 1]
        down = [server for server in kept if not self.up >> server & 1]
        comes_up = self.draw.randrange(MOST_DOWN) < len(down) or len(down) == len(kept)
        server = self.draw.choice(down if comes_up else [server for server in kept if server not in down])
        self.up ^= 1 << server
        return f"server {server} {'up' if self.up >> server & 1 else 'down'}\n"

    def peers(self, server):
        """The other servers of its column."""
        return next(column for column in self.grid.cols if column >> server & 1) & ~(1 << server)

    def break_or_repair(self):
        """A server is lost, or repaired; any server, so that now and then the line is refused."""
        server = self.draw.choice(self.grid.servers)
        if self.gone >> server & 1:
            peers = self.peers(server) & self.up
            if peers:
                peer = (peers & -peers).bit_length() - 1
                for tenant in self.tenants:
                    for file in range(self.files):
                        tenant.tags[server, file] = tenant.tags.get((peer, file), FIRST)
                self.up |= 1 << server
                self.gone ^= 1 << server
            return f"server {server} repaired\n"
        if self.peers(server) & ~self.gone:
            self.up &= ~(1 << server)
            self.gone |= 1 << server
            for tenant in self.tenants:
                for file in range(self.files):
                    tenant.tags.pop((server, file), None)
                for session in tenant.sessions:
                    if session.answered >> server & 1:
                        self.begin_round(session, 0)
        return f"server {server} lost\n"

    def ask(self, session):
        if not session.round:
            return self.begin(session)
        chance = self.draw.random()
        if chance < 0.0005:
            return self.abandon(session)
        if chance < 0.001 or not session.under_way:
            return self.retry(session)
        if self.loses():
            return f"lose {self.take(session)[0]}"
        return self.deliver(session)

    def loses(self):
        """Whether the next message is lost."""
        self.carried += 1
        return self.carried % self.every == 0 if self.every else self.draw.random() < self.lost

    def send(self, session, servers):
        tenant, tag = session.tenant, None if session.round % 2 else session.tag
        for server in self.grid.servers:
            if servers >> server & 1:
                session.under_way.append((tenant.sent, server, session.op, session.round, session.file, tag, False))
                tenant.sent += 1

    def begin_round(self, session, number, tag=FIRST):
        session.round, session.heard, session.tag, session.givers, session.answered = number, 0, tag, 0, 0
        # Few messages of earlier rounds stay under way.
        del session.under_way[1:]
        if number:
            self.send(session, self.grid.quorum(self.up, number))

    def begin(self, session):
        file = self.draw.randrange(self.files)
        kind = self.draw.random()
        if self.grid.quorum(self.up, 1):
            session.op += 1
            listed = kind >= 1 - self.listed
            session.writes, session.file = kind < 0.70, 0 if listed else file
            session.last_collect = 2 * self.files - 1 if listed else 1
            self.begin_round(session, 1)
        if kind < 0.70:
            # (short contents are more common than long ones: the logarithm of the length is drawn)
            length = int((self.most_bytes + 1) ** self.draw.random()) - 1 if kind < 0.69 else self.most_bytes
            return f"write {session.number} 0 {file} {self.draw.randbytes(length).hex() or '-'}"
        if kind < 1 - self.listed:
            return f"read {session.number} 0 {file}"
        return f"list {session.number} 0"

    def abandon(self, session):
        self.begin_round(session, 0)
        return f"abandon {session.number}"

    def retry(self, session):
        self.send(session, self.grid.quorum(self.up, session.round) & ~session.heard)
        return f"retry {session.number}"

    def take(self, session):
        """Takes out any message that is under way."""
        messages = session.under_way
        place = self.draw.randrange(len(messages))
        messages[place], messages[-1] = messages[-1], messages[place]
        return messages.pop()

    def deliver(self, session):
        message = self.take(session)
        number, server, op, round_number, file, tag, is_reply = message
        if self.draw.random() < REPEATED:
            session.under_way.append(message)
        if not is_reply:
            if self.up >> server & 1:
                told = self.serve(session.tenant, server, file, tag)
                if (op, round_number) == (session.op, session.round):
                    session.answered |= 1 << server
                session.under_way.append((session.tenant.sent, server, op, round_number, file, told, True))
                session.tenant.sent += 1
        elif (op, round_number) == (session.op, session.round):
            self.hear(session, server, tag)
        return f"deliver {number}"

    def serve(self, tenant, server, file, tag):
        """The tag that the server tells: of its copy to an ask, which has no tag, and none to a store."""
        copy = tenant.tags.get((server, file), FIRST)
        if tag is None:
            return copy
        tenant.tags[server, file] = max(copy, tag)
        return None

    def hear(self, session, server, tag):
        session.heard |= 1 << server
        if session.round % 2 == 0:
            if least_whole(self.grid.cols, session.heard):
                self.end_file(session)
            return
        if tag > session.tag:
            session.tag, session.givers = tag, 0
        if tag == session.tag:
            session.givers |= 1 << server
        if not least_whole(self.grid.rows, session.heard):
            return
        if session.writes:
            session.last_number = max(session.tag[0], session.last_number) + 1
            self.begin_round(session, 2, (session.last_number, session.number))
        elif least_whole(self.grid.cols, session.givers):
            self.end_file(session)
        else:
            self.begin_round(session, session.round + 1, session.tag)

    def end_file(self, session):
        """The next file of a listing is collected, or the operation is done."""
        collected = session.round - 1 + session.round % 2
        if collected == session.last_collect:
            self.begin_round(session, 0)
        else:
            session.file += 1
            self.begin_round(session, collected + 2)
