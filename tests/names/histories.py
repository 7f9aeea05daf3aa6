"""What was asked of names and answered, in the order in which it happened, and whether it was right."""

import dataclasses
import hashlib
import os
import sys

HERE = os.path.dirname(os.path.abspath(__file__))
sys.path[:0] = [HERE, os.path.join(HERE, "..", "..", "clients", "python")]
from linearizability import Operation, is_linearizable

from gridfs_client import NoRoom, NoSuchName, Unanswered


class Killed(BaseException):
    """What ends a client in the middle of whatever it does."""


class History:
    """What was asked of names and answered, in the order in which it happened."""

    def __init__(self, names, sizes=(3, 45, 150), stream=None, weights=(4, 5, 2, 1)):
        self.names, self.sizes, self.stream, self.weights = names, sizes, stream, weights
        self.time, self.serial = 0, 0
        self.operations = {name: [] for name in names}
        self.pending, self.counts = {}, {}

    def moment(self):
        self.time += 1
        return self.time

    def content(self, size):
        """A content that no other operation puts."""
        return f"{self.serial} ".encode().ljust(size, b"x")

    def do(self, client, files, draw):
        """One operation of a client."""
        kind = draw.choices(("put", "get", "remove", "names"), self.weights)[0]
        name, begin, key = draw.choice(self.names), self.moment(), object()
        self.serial += 1
        value = self.content(draw.choice(self.sizes)) if kind == "put" else None
        if kind in ("put", "remove"):
            self.pending[key] = (name, Operation(True, value, begin))
        try:
            if kind == "put":
                files.put(name, self.stream(value) if self.stream and draw.random() < 0.3 else value)
                found = [(name, True, value)]
            elif kind == "remove":
                files.remove(name)
                found = [(name, True, None)]
            elif kind == "get":
                found = [(name, False, files.get(name)[0])]
            else:
                held = {entry.name: entry.sha256 for entry in files.names()}
                found = [(each, False, held.get(each)) for each in self.names]
        except NoSuchName:
            found = [(name, False, None)]
        except NoRoom:
            self.counts["no room"] = self.counts.get("no room", 0) + 1
            found = []
        except Unanswered:
            return
        self.pending.pop(key, None)
        self.counts[kind] = self.counts.get(kind, 0) + 1
        end = self.moment()
        for each, is_write, value in found:
            self.operations[each].append(Operation(is_write, value, begin, end))

    def wrong(self):
        """The names of which the operations have no order, and those of which none was found in time."""
        wrong, unknown = [], []
        for name in self.names:
            every = self.operations[name] + [operation for each, operation in self.pending.values() if each == name]
            answer = is_linearizable([digested(each) for each in every])
            if answer is not True:
                (unknown if answer is None else wrong).append(name)
        return wrong, unknown


class Held:
    """What a name may hold after puts, one after another, of which some were interrupted.

    An interrupted put may take effect later, even after a next one was interrupted too: that one finishes what the first one announced, and may be
    interrupted before its own content is there. Once a put has ended well, or its content was seen, none of the earlier ones takes effect any more.
    """

    def __init__(self, content=None):
        self.content, self.coming = content, []  # what was seen or put last, and interrupted puts since, in order

    def put(self, content, is_done):
        self.content, self.coming = (content, []) if is_done else (self.content, [*self.coming, content])

    def take(self, told):
        """Whether a get may tell this, which it does."""
        if told in self.coming:
            self.content, self.coming = told, self.coming[self.coming.index(told) + 1 :]
        return told == self.content


def digested(operation):
    """The operation with the digest in place of the content: a listing tells no more."""
    value = operation.value
    return dataclasses.replace(operation, value=hashlib.sha256(value).hexdigest()) if isinstance(value, bytes) else operation
