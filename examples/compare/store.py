#!/usr/bin/env python3
"""A small store of files on a grid of servers, which writes what it does as lines of JSON. It stands for a store of yours, so nothing of it
is taken from gridfs.

    examples/compare/store.py [--seed N] [--steps N] [--bug NAME]

Each file has a copy on each server. A write asks a whole row of servers for their copies, takes a number above all that it hears, and
stores its value on a whole column. A read asks a row, and writes the newest copy back to a column before it answers, unless a column of
servers has told that copy already. Messages lie in a list, and are delivered late, twice or never, as a seed draws it. A bug of the classic ones can
be switched on: no-write-back, counts-repeats, forgets-own-number, late-store-wins.
"""

import argparse
import json
import random

ROWS, COLUMNS, SESSIONS, FILES = 2, 2, 3, 1
SERVERS = range(ROWS * COLUMNS)
ROW_SETS = [{row * COLUMNS + column for column in range(COLUMNS)} for row in range(ROWS)]
COLUMN_SETS = [{row * COLUMNS + column for row in range(ROWS)} for column in range(COLUMNS)]
NOTHING = ((0, 0), "")
BUGS = ["no-write-back", "counts-repeats", "forgets-own-number", "late-store-wins"]


class Operation:
    def __init__(self, kind, file, value):
        self.kind, self.file, self.value = kind, file, value
        self.begin_phase("collect", None)

    def begin_phase(self, phase, copy):
        self.phase, self.copy, self.replies = phase, copy, []

    def has_heard(self, sets, bug):
        """Whether the servers heard in this phase hold one of the sets."""
        if bug == "counts-repeats":
            return len(self.replies) >= len(sets[0])
        return any(each <= {server for server, _ in self.replies} for each in sets)


class Store:
    def __init__(self, log, bug):
        self.log, self.bug = log, bug
        self.copies = [{} for _ in SERVERS]
        self.up = set(SERVERS)
        self.messages = []
        self.going, self.begun, self.last_number = {}, dict.fromkeys(range(1, SESSIONS + 1), 0), dict.fromkeys(range(1, SESSIONS + 1), 0)
        log(event="setup", rows=ROWS, columns=COLUMNS, sessions=SESSIONS, files=FILES)

    def send(self, **message):
        message["id"] = len(self.messages)
        self.messages.append(message)
        tag = {"tag": message["copy"][0]} if message["kind"] == "store" else {}
        self.log(event="sent", message=message["id"], kind=message["kind"], server=message["server"], **tag)

    def send_phase(self, session):
        """Sends the phase's message to the first row, or column, that is up, but not to servers that were heard."""
        operation = self.going[session]
        sets, kind = (ROW_SETS, "ask") if operation.phase == "collect" else (COLUMN_SETS, "store")
        heard = {server for server, _ in operation.replies}
        for server in sorted(next((each for each in sets if each <= self.up), set()) - heard):
            self.send(kind=kind, server=server, session=session, number=self.begun[session], phase=operation.phase, file=operation.file, copy=operation.copy)

    def request(self, session, kind, file, value=""):
        self.log(event="request", session=session, kind=kind, file=file, value=value)
        self.going[session] = Operation(kind, file, value)
        self.begun[session] += 1
        self.send_phase(session)

    def retry(self, session):
        self.log(event="retry", session=session)
        self.send_phase(session)

    def give_up(self, session):
        self.log(event="gave up", session=session)
        del self.going[session]

    def stop(self, server):
        self.log(event="crash", server=server)
        self.up.remove(server)

    def start(self, server):
        self.log(event="back", server=server)
        self.up.add(server)

    def deliver(self, message):
        self.log(event="delivered", message=message["id"])
        if message["kind"] in ("copy", "stored"):
            self.hear(message)
        elif message["server"] in self.up:
            self.serve(message)

    def serve(self, message):
        copies, file = self.copies[message["server"]], message["file"]
        if message["kind"] == "ask":
            self.send(**{**message, "kind": "copy", "copy": copies.get(file, NOTHING)})
        else:
            if message["copy"][0] > copies.get(file, NOTHING)[0] or self.bug == "late-store-wins":
                copies[file] = message["copy"]
            self.send(**{**message, "kind": "stored"})

    def hear(self, message):
        session, reply = message["session"], (message["server"], message["copy"])
        operation = self.going.get(session)
        if operation is None or (self.begun[session], operation.phase) != (message["number"], message["phase"]):
            return
        if reply not in operation.replies or self.bug == "counts-repeats":
            operation.replies.append(reply)
        if operation.phase == "collect" and operation.has_heard(ROW_SETS, self.bug):
            self.decide(session, operation)
        elif operation.phase == "store" and operation.has_heard(COLUMN_SETS, self.bug):
            self.answer(session, operation.copy)

    def decide(self, session, operation):
        """A row was heard: whether a read is done, or else what is stored."""
        newest = max((copy for _, copy in operation.replies), key=lambda copy: copy[0])
        if operation.kind == "write":
            own = 0 if self.bug == "forgets-own-number" else self.last_number[session]
            self.last_number[session] = max(newest[0][0], own) + 1
            newest = ((self.last_number[session], session), operation.value)
        else:
            told = {server for server, copy in operation.replies if copy[0] == newest[0]}
            if any(each <= told for each in COLUMN_SETS) or self.bug == "no-write-back":
                return self.answer(session, newest)
        operation.begin_phase("store", newest)
        self.send_phase(session)

    def answer(self, session, copy):
        operation = self.going.pop(session)
        self.log(event="answer", session=session, kind=operation.kind, tag=copy[0], value=copy[1])


def play(store, draw, steps):
    """One thing after another, drawn at random, so that messages are late, repeated or lost, and a server is down now and then."""
    values = 0
    for _ in range(steps):
        way, session = draw.random(), draw.randint(1, SESSIONS)
        if session not in store.going and way < 0.5:
            values += 1
            kind = draw.choice(["write", "read"])
            store.request(session, kind, draw.randrange(FILES), f"{values:04x}" if kind == "write" else "")
        elif way < 0.04 and len(store.up) == len(SERVERS):
            store.stop(draw.choice(SERVERS))
        elif way < 0.08 and len(store.up) < len(SERVERS):
            store.start(next(server for server in SERVERS if server not in store.up))
        elif way < 0.12 and session in store.going:
            store.give_up(session)
        elif way < 0.2 and session in store.going:
            store.retry(session)
        elif store.messages:
            store.deliver(draw.choice(store.messages[-12:] if way < 0.9 else store.messages))


if __name__ == "__main__":
    words = argparse.ArgumentParser(description="A small store on a grid, which logs what it does.")
    words.add_argument("--seed", type=int, default=1)
    words.add_argument("--steps", type=int, default=400)
    words.add_argument("--bug", choices=BUGS)
    asked = words.parse_args()
    play(Store(lambda **what: print(json.dumps(what)), asked.bug), random.Random(asked.seed), asked.steps)
