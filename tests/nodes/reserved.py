"""Which numbers nodes have used of a session's operations and tags, and which were reserved: none may be used twice, whoever is killed."""

import os

from journals import batches
from processes import Wrong, get

RUN = 1_024  # numbers that are reserved at once


def reserved_in(journal):
    """The last numbers that a journal has of each session: of its operations, and of its tags."""
    last = {b"began": {}, b"numbered": {}}
    if os.path.exists(journal):
        for batch in batches(get(journal))[0]:
            for words in map(bytes.split, batch.split(b"\n")):
                if len(words) == 4 and words[0] in last:
                    last[words[0]][words[1], words[2]] = int(words[3])
    return last[b"began"], last[b"numbered"]


def line_of(words):
    return repr(b" ".join(words)[:200])


class Numbers:
    """What all nodes of a grid have written, life by life, as far as it has numbers."""

    def __init__(self):
        self.seen = {}  # what a number was used for
        self.operations, self.tags = {}, {}  # the greatest of a session that were used
        self.last = {}  # of each node, the last numbers of its sessions in this life
        self.asked = {}  # of each node, the operations that it was asked for in this life
        self.homes = {}
        self.least = {}  # of a new node, the number above which the tags of its sessions are

    def once(self, what, value):
        if self.seen.setdefault(what, value) != value:
            raise Wrong(f"{what} is used twice, for {self.seen[what]} and for {value}")

    def start(self, node, journal):
        """A node starts from this journal: what its sessions have used has to be reserved there."""
        operations, tags = reserved_in(journal)
        self.last[node], self.asked[node] = operations, set()
        for used, reserved, what in (self.operations, operations, "operation"), (self.tags, tags, "tag"):
            for session, number in used.items():
                if self.homes[session] == node and number > reserved.get(session, 0):
                    raise Wrong(f"node {node} starts with {reserved.get(session, 0)} as the last {what} of {session}, and {number} was used")

    def given(self, node, lines):
        """Lines that come to a node."""
        for words in (line.split(b" ") for line in lines.split(b"\n")):
            if words[0] == b"%d" % node and words[2:3] in ([b"write"], [b"read"], [b"list"]) and words[4:] and words[4].isdigit():
                self.asked[node].add((words[1], words[3], int(words[4])))

    def take_last(self, node, session, number):
        """Whether that is the session's last number. Operations of which no letter has left the node may have begun, if they were asked for."""
        last = self.last[node].get(session, 0)
        while last < number and (*session, last + 1) in self.asked[node]:
            last = self.last[node][session] = last + 1
        return number == last

    def see(self, node, line):
        """A whole line that a node wrote."""
        words = line.split(b" ")
        if words[0].isdigit() and words[8:9] in ([b"ask"], [b"store"], [b"confirm"]):
            self.see_letter(node, words)
        elif words[2:3] == [b"done"]:
            self.see_end(node, words)
        elif words[2:3] == [b"refused"] and words[3:4] in ([b"old"], [b"early"], [b"busy"]):
            if not self.take_last(node, (words[0], words[4]), int(words[6])):
                raise Wrong(f"node {node} says {line!r}, and {self.last[node].get((words[0], words[4]), 0)} is the session's last number")

    def see_end(self, node, words):
        """What a session's home tells of an operation, of which no letter may have left the node."""
        session, operation = (words[0], words[4]), int(words[5])
        self.homes[session] = node
        self.operations[session] = max(operation, self.operations.get(session, 0))
        self.last[node][session] = max(operation, self.last[node].get(session, 0))
        self.once(("the operation", words[0], *words[4:6]), words[6:])
        if words[3] == b"write":
            self.once(("the tag of a write", words[0], *words[7:9]), words[5])
            self.tags[session] = max(int(words[7]), self.tags.get(session, 0))

    def see_letter(self, node, words):
        """An ask or a store of a session's home."""
        session, operation, place = (words[2], words[3]), int(words[4]), words[6:8]
        self.homes[session] = node
        # (what an ask has behind it says what its sender has)
        self.once(("the round", *words[2:6]), place + (words[9:11] if words[8] in (b"store", b"confirm") else []))
        self.operations[session] = max(operation, self.operations.get(session, 0))
        self.last[node][session] = max(operation, self.last[node].get(session, 0))
        if words[8] in (b"store", b"confirm") and words[10] != b"0":
            self.once(("the tag", words[2], *words[9:11]), place)
            if words[10] == words[3] and int(words[9]) <= self.least.get(node, 0):
                raise Wrong(f"node {node} writes {line_of(words)}, and its sessions begin above {self.least[node]}")
            if words[10] == words[3]:
                self.tags[session] = max(int(words[9]), self.tags.get(session, 0))
