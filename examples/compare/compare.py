#!/usr/bin/env python3
"""Compares what a store did with what the service does: reads the store's log, plays each step in lockstep with `gridfs step`, and tells
the first difference in a sentence.

    examples/compare/store.py --bug no-write-back | examples/compare/compare.py ./gridfs
        [--script FILE]      keeps the lines that were played, for `gridfs order`, `gridfs picture` and the like
        [--history FILE]     keeps the history of file 0 as the store answered it, for a judge of histories

A log has one JSON map a line, in the order in which things happened: `setup` first; then `request`, `delivered`, `lost`,
`retry`, `gave up`, `crash` and `back`, and behind each of them what it brought about, `sent` for each message and `answer` for an operation that is done
(examples/compare/README.md). The status is 0 where there is no difference, 1 where there is one, 2 where the log has another form.
"""

import argparse
import json
import os
import re
import sys

sys.dont_write_bytecode = True
sys.path.insert(0, os.path.join(os.path.dirname(os.path.abspath(__file__)), ".."))
from lockstep import Talk

FORMS = {
    "setup": ["rows", "columns", "sessions", "files"],
    "request": ["session", "kind", "file", "value"],
    "delivered": ["message"],
    "lost": ["message"],
    "retry": ["session"],
    "gave up": ["session"],
    "crash": ["server"],
    "back": ["server"],
}
EFFECTS = {"sent": ["message"], "answer": ["session", "kind", "tag", "value"]}
STORE = ("gave", "was done", "sent", "went on waiting")
SERVICE = ("gives", "is done", "sends", "goes on waiting")
SENT = re.compile(r"ann (?:op \d+|round \d+(?: tag (?P<number>\d+) (?P<session>\d+))?|resent) ?(?:sent )?(?:(?P<first>\d+) to (?P<last>\d+)|none)")
REPLY = re.compile(r"ann reply (\d+)")
DONE = re.compile(r"ann done (?P<kind>read|write) \d+ \d+ tag (?P<number>\d+) (?P<session>\d+) ?(?P<value>\S*)")


class Unknown(Exception):
    """The log has another form."""


def steps_of(lines):
    """The steps of a log: each thing that happened, with what it brought about."""
    steps = []
    for number, line in enumerate(lines, 1):
        try:
            event = json.loads(line)
            missing = [key for key in {**FORMS, **EFFECTS}[event["event"]] if key not in event]
            if missing:
                raise Unknown(f"line {number} of the log misses {' and '.join(missing)}")
            if event["event"] in EFFECTS:
                steps[-1][1].append(event)
            else:
                steps.append((event, []))
        except (ValueError, LookupError, TypeError) as fault:
            raise Unknown(f"line {number} of the log has another form: {line.strip()[:80]}") from fault
    if not steps or steps[0][0]["event"] != "setup":
        raise Unknown("a log begins with its setup")
    return steps


def effects_told(answer):
    """What the service brings about, read off its answer: the numbers of the messages that it sends, the tag of what it stores, and the
    value of what is done."""
    sent, reply, done = SENT.fullmatch(answer), REPLY.fullmatch(answer), DONE.fullmatch(answer)
    if reply:
        return [int(reply[1])], None, None
    if done:
        value = "" if done["value"] == "-" else done["value"]
        return [], [int(done["number"]), int(done["session"])], value if done["kind"] == "read" else done["kind"]
    if not sent:
        return [], None, None
    numbers = list(range(int(sent["first"]), int(sent["last"]) + 1)) if sent["first"] else []
    return numbers, [int(sent["number"]), int(sent["session"])] if sent["number"] else None, None


def effects_logged(effects):
    """The same of the store, read off its log."""
    sent = [it["message"] for it in effects if it["event"] == "sent"]
    answer = next((it for it in effects if it["event"] == "answer"), None)
    if answer:
        return sent, answer["tag"], answer["value"] if answer["kind"] == "read" else "write"
    return sent, next((it["tag"] for it in effects if "tag" in it), None), None


def in_words(effects, verbs):
    (sent, tag, done), (give, end, send, wait) = effects, verbs
    tag = " (tag {} {})".format(*tag) if tag else ""
    if done == "write":
        return end + tag
    if done is not None:
        return f"{give} {done or '-'}{tag}"
    return f"{send} {len(sent)} message{'s' * (len(sent) > 1)}{tag}" if sent else wait


class Comparison:
    def __init__(self, program, setup):
        self.setup, self.lines, self.going, self.owners, self.numbers = setup, [], {}, {}, {}
        grid = f"grid {setup['rows']} {setup['columns']}\nblocks {16 * setup['files']}\n"
        self.plan = f"{grid}tenant ann {16 * setup['files']} {setup['sessions']} 1000000\ngo\n"
        self.talk = Talk(program, self.plan)
        self.ask(f"ann open {setup['files']} 16")

    def ask(self, line):
        self.lines.append(line)
        answer = self.talk.ask(line)
        if not answer or " refused " in answer:
            raise Unknown(f"the service answers '{line}' by '{answer}'")
        return answer

    def line_of(self, event):
        """The line that says the same as this step of the log."""
        match event:
            case {"event": "request", "session": session, "kind": "write", "file": file, "value": value}:
                return f"ann write {session} 0 {file} {value or '-'}"
            case {"event": "request", "session": session, "kind": "read", "file": file}:
                return f"ann read {session} 0 {file}"
            case {"event": "delivered" | "lost" as kind, "message": message} if message in self.numbers:
                return f"ann {'deliver' if kind == 'delivered' else 'lose'} {self.numbers[message]}"
            case {"event": "retry" | "gave up" as kind, "session": session}:
                return f"ann {'retry' if kind == 'retry' else 'abandon'} {session}"
            case {"event": "crash" | "back" as kind, "server": server}:
                return f"server {server} {'down' if kind == 'crash' else 'up'}"
        raise Unknown(f"the log has a step of another form: {event}")

    def difference_at(self, event, effects):
        """Plays a step: how the store differs from the service in it, if it does."""
        if event["event"] == "request":
            self.going[event["session"]] = event["kind"]
        session = event.get("session", self.owners.get(event.get("message")))
        told, logged = effects_told(self.ask(self.line_of(event))), effects_logged(effects)
        if event["event"] == "retry":
            # (of a message that is sent once more the service tells no tag)
            logged = (logged[0], None, logged[2])
        if (len(told[0]), *told[1:]) != (len(logged[0]), *logged[1:]):
            who = f"session {session}'s {self.going[session]}" if session in self.going else f"the {event['event']}"
            return f"{who} {in_words(logged, STORE)}, the service {in_words(told, SERVICE)}"
        for number, message in zip(*(it[0] for it in (told, logged))):
            self.numbers[message], self.owners[message] = number, session
        return None


def history_of(steps, file):
    """The history of one file as the store answered it, in the form of Jepsen's histories."""
    events, going, gave_up = [], {}, {}
    for time, (event, effects) in enumerate(steps):
        session = event.get("session")
        if event["event"] == "request":
            going[session] = (event["file"], session + 16 * gave_up.get(session, 0), event["kind"], event["value"])
            if event["file"] == file:
                events.append((time, "invoke", *going[session][1:3], f'"{event["value"]}"' if event["kind"] == "write" else "nil"))
        if event["event"] == "gave up":
            gave_up[session] = gave_up.get(session, 0) + 1
        for answer in (it for it in effects if it["event"] == "answer"):
            own_file, process, kind, _ = going.pop(answer["session"])
            if own_file == file:
                events.append((time, "ok", process, kind, f'"{answer["value"]}"'))
    return [f"{{:index {index}, :time {time}, :type :{kind}, :process {process}, :f :{function}, :value {value}}}" for index, (time, kind, process, function, value) in enumerate(events)]


def keep(path, text):
    if path:
        with open(path, "w") as out:
            out.write(text)


def main(program, script, history):
    steps = steps_of(sys.stdin)
    keep(history, "".join(f"{line}\n" for line in history_of(steps[1:], 0)))
    comparison = Comparison(program, steps[0][0])
    for place, step in enumerate(steps[1:], 1):
        difference = comparison.difference_at(*step)
        if difference:
            break
    keep(script, comparison.plan + "".join(f"{line}\n" for line in comparison.lines))
    print(f"step {place}: {difference}" if difference else f"no difference in {len(steps) - 1} steps")
    return 1 if difference else 0


if __name__ == "__main__":
    words = argparse.ArgumentParser(description="Compares the log of a store with the service.")
    words.add_argument("program")
    words.add_argument("--script")
    words.add_argument("--history")
    asked = words.parse_args()
    try:
        sys.exit(main(asked.program, asked.script, asked.history))
    except Unknown as why:
        print(f"compare: {why}", file=sys.stderr)
        sys.exit(2)
