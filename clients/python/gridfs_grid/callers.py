"""Clients of the grid at a socket of this machine. They send and are sent lines `TO FROM BODY`, as nodes are.

The socket is its owner's alone, and who opens it may speak as any tenant: a client is the tenant that its first line is from, and lines of it
that are from another are passed over.
"""

import contextlib
import os
import socket

from gridfs_client.answers import REFUSALS

from gridfs_grid.carrier import Lines

READ = 65_536  # bytes of one read
MOST_ASKERS = 65_536  # of operations and looks that are remembered
# Where the number of a session is among the words of a request, or of an answer.
SESSION_AT = {b"read": 1, b"write": 1, b"list": 1, b"abandon": 1, b"done": 2, b"gone": 1, **{b"refused " + word.encode(): 2 for word in REFUSALS}, b"refused home": 3}
MOST_WAITING = 16 * (2_097_407 + 1)  # bytes that may wait for one client, or of one line of it: a line of each of sixteen sessions, as long as lines may be


def asker_in(body):
    """By which of its words a request and its answer go together: a session and an operation or, behind `look`, the number of a look. None where any client may have asked."""
    words = body[:128].split(b" ", 5)
    kind = b" ".join(words[:2]) if words[0] == b"refused" else words[0]
    if kind in (b"look", b"looked") and len(words) > 1:
        return b"look", words[1]
    if kind == b"refused novolume" and len(words) == 4:  # (of a session that has one word more)
        return b"look", words[2]
    at = SESSION_AT.get(kind)
    return tuple(words[at : at + 2]) if at and at + 1 < len(words) else None


class Caller:
    """A client's connection, what waits to be written to it, and the beginning of a line that was read of it."""

    def __init__(self, connection):
        self.connection, self.name = connection, None
        self.waiting, self.begun = bytearray(), Lines()
        connection.setblocking(False)

    def lines(self):
        """The whole lines that can be read now; None at its end."""
        try:
            read = self.connection.recv(READ)
        except BlockingIOError:
            return []
        except OSError:
            return None
        return self.begun.take(read) if read and self.begun.length <= MOST_WAITING else None

    def give(self):
        """Writes of what waits as much as is taken."""
        try:
            del self.waiting[: self.connection.send(self.waiting)]
        except BlockingIOError:
            pass
        except OSError:
            self.waiting.clear()  # (its end is read soon)


class Callers:
    """All clients at the socket of this path. `send` takes each line to the node that it is to."""

    def __init__(self, path, send):
        self.path, self.send, self.callers = path, send, []
        self.askers = {}  # by tenant and `asker_in`, who asked last; the oldest first
        if os.path.exists(path):
            os.unlink(path)  # (left by a grid that was killed: two can't be in one folder, which is locked)
        self.door = socket.socket(socket.AF_UNIX)
        before = os.umask(0o177)
        try:
            self.door.bind(path)
        finally:
            os.umask(before)
        self.door.listen()
        self.door.setblocking(False)

    def read_from(self):
        """What `select` is to wait for, that it can be read, each with what is to be done then."""
        return {self.door: self.take_in, **{it.connection: lambda it=it: self.hear(it) for it in self.callers}}

    def written_to(self):
        return {it.connection: it.give for it in self.callers if it.waiting}

    def take_in(self):
        try:
            self.callers.append(Caller(self.door.accept()[0]))
        except OSError:
            pass  # (it has gone already)

    def hear(self, caller):
        lines = caller.lines()
        if lines is None:
            caller.connection.close()
            self.callers.remove(caller)
            self.askers = {key: it for key, it in self.askers.items() if it is not caller}
            return
        for line in lines:
            words = line.split(b" ", 2)
            if len(words) < 3 or not words[1].isalpha():
                continue
            caller.name = caller.name or words[1]
            if words[1] == caller.name:
                if asker := asker_in(words[2]):
                    self.note(caller, asker)
                self.send(line)

    def note(self, caller, asker):
        self.askers[caller.name, asker] = caller
        if len(self.askers) > MOST_ASKERS:
            del self.askers[next(iter(self.askers))]

    def tell(self, line):
        """Gives a line to who asked last for the operation, or the look, that it answers; any other to each client of the tenant that it is to."""
        name, _, body = line.split(b" ", 2)
        asker = self.askers.get((name, asker_in(body)))
        for caller in [asker] if asker else self.callers:
            if caller.name == name and len(caller.waiting) + len(line) + 1 <= MOST_WAITING:
                caller.waiting += line + b"\n"

    def end(self):
        for caller in self.callers:
            caller.connection.close()
        self.door.close()
        with contextlib.suppress(FileNotFoundError):  # (somebody removed it)
            os.unlink(self.path)
