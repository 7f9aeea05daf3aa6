#!/usr/bin/python3
"""The client of names in Rattle (gq_client, gq_page) beside the client's core.py, on the same inputs: what differs is told, and the status is 1.

    tests/names/beside.py [--program PROGRAM] [--texts N] [--changes N] [--ways N] [--histories N] [--seed N] [--planted NAME]

PROGRAM is `try_names`; without it the one that ./test has built, or that tools/quick builds. Texts, states, requests, choices and journals are compared byte for byte.

    texts      random pages written and read, and such texts with bytes that were changed
    changes    the journal of a change, for random pages of some sessions: most of them no clients would write
    ways       random ways through the worlds of worlds.py: each step of a client's is made by both
    histories  random histories over perfect registers (registers.py), with contents in lines, slots and chunks: each look, choice and journal by both

With --planted the core has a bug, and something has to differ: the status is 0 where it does. NAME is one of PLANTED.
"""

import argparse
import contextlib
import os
import random
import re
import subprocess
import sys
from dataclasses import replace
from unittest import mock

sys.dont_write_bytecode = True
import registers
import worlds
from histories import HERE

from gridfs_client import Tag, core, splits
from gridfs_client.contents import InChunks, Inline, InSlots, Joined, PartList, Strand, digest_of
from gridfs_client.core import Announces, Carries, Enters, Known, Knows, Line, ListPages, Looks, Page, ReadJournal, ReadPage, Version, WriteJournal, WritePage
from gridfs_client.errors import Damaged
from gridfs_client.pages import LINE, SIGNPOST, parse_page, text_of
from gridfs_client.runs import Run

TOP = os.path.join(HERE, "..", "..")
COUNTS = {"texts": 2_000, "changes": 2_000, "ways": 200, "histories": 0}


class Differs(Exception):
    """What one says and the other doesn't."""


def built():
    """The program, as ./test has it built, or else as tools/quick builds it."""
    if "GRIDFS_BUILT" in os.environ:
        return os.path.join(os.environ["GRIDFS_BUILT"], "try_names", "out", "try_names")
    subprocess.run([os.path.join(TOP, "tools", "quick"), "try_names"], check=True)
    return os.path.join(TOP, ".unproved", "try_names")


def hexed(content):
    return content.hex() or "-"


def real(page):
    """A page of worlds.py, whose contents are numbers, as one that can be written."""
    lines = (each if each.content is None or hasattr(each.content, "text") else replace(each, content=Inline(str(each.content).encode())) for each in page.lines)
    return replace(page, lines=tuple(lines))


def text(page):
    return hexed(text_of(real(page)))


class Beside:
    """The program, and its numbers of the states that it was shown."""

    def __init__(self, program):
        self.program, self.process, self.count = program, None, 0
        self.forget()

    def forget(self):
        self.end()
        self.process = subprocess.Popen([self.program], stdin=subprocess.PIPE, stdout=subprocess.PIPE, bufsize=0)
        self.output = self.process.stdout
        self.numbers, self.tags = {}, {}

    def end(self):
        if self.process:
            self.process.stdin.close()
            self.process.wait()
            self.output.close()

    def ask(self, *words):
        self.count += 1
        self.process.stdin.write((" ".join(map(str, words)) + "\n").encode())
        found = b""
        while not found.endswith(b"\n"):
            more = self.output.read(1 << 20)
            if not more:
                raise Differs("the program has ended", words)
            found += more
        return found.decode()[1:-1]

    def tag(self, tag):
        if tag is None:
            return "none"
        if tag == Tag(0, 0):
            return "0.0"
        return f"{self.tags.setdefault(tag, len(self.tags) + 1)}.0"

    def keep(self, state, *words):
        """The number of the state that the line makes, which has to be this one."""
        told = self.ask(*words)
        number, _, shown = told.partition(" ")
        if shown != self.shown(state):
            raise Differs(f"after {words}", shown, self.shown(state))
        self.numbers[state] = int(number)
        return self.numbers[state]

    def shown(self, state):
        client = state if isinstance(state, Knows) else state.client
        match core.request_of(state):
            case None:
                words = ["nothing"]
            case ReadJournal():
                words = ["journal"]
            case ListPages():
                words = ["list"]
            case ReadPage(session):
                words = ["page", session - 1]
            case WriteJournal(page):
                words = ["announce", text(page)]
            case WritePage(page):
                words = ["carry", text(page)]
        for known in client.seen:
            words += [self.tag(known.tag), text(known.page)]
        words.append("unknown" if client.journal is None else text(client.journal))
        return " ".join(map(str, words))

    def number(self, state):
        if state in self.numbers:
            return self.numbers[state]
        match state:
            case Knows():
                seen = [word for known in state.seen for word in (self.tag(known.tag), text(known.page))]
                return self.keep(state, "knows", state.session - 1, "unknown" if state.journal is None else text(state.journal), *seen)
            case Enters(client):
                return self.keep(state, "enter", self.number(client))
            case Looks(client, whose, None):
                return self.keep(state, "look", self.number(client), "own" if client.session in whose else "others")
            case Announces(client, journal):
                return self.keep(state, "announce", self.number(client), text(journal))
        raise Differs("a state that nobody led to", state)

    def answered(self, state, answer):
        """The line by which the state is told an answer."""
        number = self.number(state)
        match answer:
            case Known(tag, page):
                return "read", number, self.tag(tag), text(page)
            case Tag():
                return "written", number, self.tag(answer)
        return "listed", number, *map(self.tag, answer)

    # In place of functions of the core: the same, made by both.

    def told(self, state, answer):
        if self.sessions_of(state) == 0:  # (a reader of worlds.py, who has no session)
            return TOLD(state, answer)
        line = self.answered(state, answer)
        try:
            found = TOLD(state, answer)
        except core.Older as fault:
            if self.ask(*line) != f"no older {fault.args[0] - 1}":
                raise Differs("older", line) from None
            raise
        if found not in self.numbers:
            self.keep(found, *line)
        elif self.ask(*line).partition(" ")[2] != self.shown(found):
            raise Differs("told", line)
        if isinstance(found, Knows) and isinstance(state, Looks):
            self.shows(found)
        return found

    def sessions_of(self, state):
        return (state if isinstance(state, Knows) else state.client).session

    def shows(self, client):
        """What the pages that were seen say of a name."""
        pages = {each: known.page for each, known in enumerate(client.seen, 1)}
        for name in sorted({line.name for page in pages.values() for line in page.lines})[:3] + ["none"]:
            found = core.greatest_shown(core.lines_of(pages, name))
            words = "nothing" if found is None else f"{found[0].number}.{found[0].session - 1} {said(found[1])}"
            told = self.ask("shown", self.number(client), hexed(name.encode()))
            if told != words:
                raise Differs("shown", name, told, words)

    def changed(self, client, line, besides=(), keeps=core.keeps_none, least=0, signpost=None):
        found = CHANGED(client, line, besides, keeps, least, signpost)
        if client.session and found.number < 1 << 63:
            what = ["*", "-"] if line is None else [hexed(line.name.encode()), hexed(said(line).encode())]
            told = self.ask("change", self.number(client), line.version if line else least, *what, *(hexed(each.encode()) for each in sorted(besides)))
            if told != text(found):
                raise Differs("changed", bytes.fromhex(told) if not told.startswith("no") else told, text_of(real(found)))
        return found


def said(line):
    """What stands before the name."""
    whole = real(Page((line,))).lines[0]
    words = f"{{{whole.words}}} " if whole.words else ""
    return words + (whole.content.text() if whole.content else "-")


TOLD, CHANGED = core.told, core.changed


@contextlib.contextmanager
def both(beside):
    with mock.patch.object(core, "told", beside.told), mock.patch.object(core, "changed", beside.changed):
        yield


# ---- texts

NAMES = ["a", "b c", "  ", "texts/licence", "ä", "x&y", "1 - z", "{w} -", "@", "n" * 255]


def random_content(chance):
    def run():
        return Run(chance.choice([0, 1, 63]), chance.randint(1, 16), chance.choice([0, 1, 90, 3_000_000_000_000_000]), chance.choice([1, 1, 2, 400]))

    def part():
        size, digest, kind = chance.randint(4096, 1 << 40), digest_of(chance.randbytes(3)), chance.random()
        if kind < 0.6:
            return InChunks(size, digest, tuple(run() for _ in range(chance.randint(1, 3))))
        if kind < 0.8:
            return PartList(size, digest, chance.randint(4096, 1 << 20), tuple(run() for _ in range(chance.randint(1, 2))))
        begins = [chance.randrange(40) for _ in range(chance.randint(1, 12))]
        strands = tuple(Strand(chance.randint(1, 16), tuple(range(each, each + chance.choice([1, 1, 3])) for each in begins)) for _ in range(chance.randint(1, 3)))
        return InSlots(size, digest, chance.choice([0, 1, 90, (1 << 64) - 1]), strands)

    kind = chance.random()
    if kind < 0.3:
        return None
    if kind < 0.6:
        return Inline(chance.randbytes(chance.randint(0, 60)))
    if kind < 0.8:
        return part()
    return Joined(tuple(part() for _ in range(chance.randint(2, 3))))


def random_page(chance, names=NAMES, sessions=4, most=9, content=random_content):
    lines = [
        Line(name, chance.randint(1, most), content(chance), chance.choice(["", "", "w", "!" + "z" * 9]))
        for name in chance.sample(names, chance.randint(0, len(names)))
    ]
    lines = [each if each.content is not None else replace(each, words="") for each in lines]
    after = [chance.choice([0, chance.randint(0, most)]) for _ in range(chance.randint(0, sessions))]
    number = max([line.version for line in lines], default=0) + chance.choice([0, 0, 1, 5])
    signposts = (splits.signpost_to(chance.choice([1, 2, 12])),) if chance.random() < 0.2 else ()
    return Page(tuple(lines), tuple(after), number, signposts)


def mutated(chance, content):
    content = bytearray(content)
    for _ in range(chance.randint(1, 3)):
        place = chance.randrange(len(content) + 1)
        kind = chance.randrange(4)
        if kind == 0 and content:
            content[place - 1] = chance.choice(b"0123 -@&;:,.+*>l\n{}a=")
        elif kind == 1:
            content[place:place] = bytes([chance.choice(b"0123 -@&;:,.+*>l\n{}a=>")])
        elif kind == 2:
            del content[place : place + chance.randint(1, 4)]
        else:
            content = content[:place]
    return bytes(content)


LEVEL = re.compile(r"level(0|[1-9][0-9]*)")
HEAD = re.compile(rb"names 2( (0|[1-9][0-9]*))+\n")


def is_text(content):
    try:
        return bool(content.decode())
    except UnicodeDecodeError:
        return False


def is_of_the_form(content):
    """Whether each line has the form of one. (Whether there may be such slots and chunks the core looks at too, and the program where it needs them.)"""
    _, *lines, rest = content.decode().split("\n")
    return not rest and all(LINE.fullmatch(each) or SIGNPOST.fullmatch(each) for each in lines)


def is_known(page):
    """Whether it has nothing of several grids, and one signpost at most: to a level."""
    leads_to_levels = all(LEVEL.fullmatch(each.grid) and each == replace(splits.signpost_to(0), grid=each.grid) for each in page.signposts)
    return not any(each.copied for each in page.lines) and len(page.signposts) < 2 and leads_to_levels


def try_texts(beside, count, chance):
    refused = 0
    for _ in range(count):
        page = random_page(chance, most=chance.choice([9, 1 << 40]))
        content = text_of(page)
        told = beside.ask("text", hexed(content))
        if told != hexed(content):
            raise Differs("text", content, told)
        bad = mutated(chance, content)
        told = beside.ask("text", hexed(bad))
        refused += told == "no bad"
        try:
            found = parse_page(bad, "it")
        except Damaged:
            if told != "no bad" and is_text(bad) and not is_of_the_form(bad):  # (the program does not look whether a page is UTF-8)
                raise Differs("a text that is no page", bad, told) from None
            continue
        if bad and not HEAD.match(bad):
            if told != "no bad":
                raise Differs("a first line of another form", bad, told)
            continue  # (the core takes a sign, or zeros in front)
        if not is_known(found):
            if told != "no bad":
                raise Differs("a page of several grids", bad, told)
            continue
        if max([found.number, *found.after, *(each.version for each in found.lines)]) >= 1 << 64:
            continue  # (numbers of more than 64 bits, and names of several grids, the program refuses)
        if text_of(found) == bad or not bad:
            if told != hexed(text_of(found)):
                raise Differs("a page", bad, told)
        elif told != "no bad" and parse_page(bytes.fromhex(told), "it") != found:
            raise Differs("a page of another form", bad, told)
    return f"{count} texts as they are written, and {count} that were changed, of which {refused} are refused"


# ---- changes


def short(chance):
    return None if chance.random() < 0.5 else Inline(bytes([chance.randrange(65, 70)]))


def try_changes(beside, count, chance):
    gone = forgotten = 0
    for turn in range(count):
        if turn % 300 == 0:
            beside.forget()
        sessions, most = chance.randint(1, 4), chance.choice([3, 9])
        names = NAMES[: chance.randint(1, 8)]
        pages = [random_page(chance, names, sessions, most, short) for _ in range(sessions + 1)]
        if chance.random() < 0.5:  # (most are made beside the others, so that removals go)
            pages = [replace(page, after=tuple(chance.randint(most - 1, most + 3) for _ in range(sessions))) for page in pages]
        me = chance.randint(1, sessions)
        client = Knows(me, tuple(Known(Tag(chance.randint(1, 9), each), page) for each, page in enumerate(pages[1:], 1)), pages[0])
        name = chance.choice([None, *names])
        line = Line(name, core.new_version(client, chance.choice([0, 7])).number, short(chance), "") if name else None
        besides = frozenset(chance.sample(names, chance.choice([0, 0, 1]) if len(names) else 0))
        journal = core.changed(client, line, besides, least=chance.choice([0, 20]))
        gone += len(client.journal.lines) - len([each for each in journal.lines if client.journal.shown(each.name) == each])
        forgotten += len(core.going(client, name).names)
        # And a look: what pages ask for, or that one is older.
        with contextlib.suppress(core.Older):
            state = core.look(replace(client, seen=(Known(),) * sessions)) if turn % 2 else core.look_for_change(replace(client, seen=(Known(),) * sessions))
            state = core.told(state, tuple(known.tag for known in client.seen))
            for _ in range(3 * sessions):
                request = core.request_of(state)
                if request is None:
                    break
                state = core.told(state, client.seen[request.session - 1])
    return f"{count} changes of random pages, with which {gone} lines went, {forgotten} of them beaten or forgotten"


# ---- ways, and histories

SHAPES = ("MIXED", "REMOVING", "DYING", "SWEEPING", "LOOKING", "LISTING", "SPLITTING", "DIVIDED", "UNSURE")
BOUNDS = [
    dict(sessions=1, changes=3, gets=1, clients=2, pending=1),
    dict(sessions=2, changes=3, removals=1, others=1, gets=1, clients=2, pending=1, anew=2),
    dict(sessions=2, behind=1, changes=4, removals=2, others=1, gets=1, clients=3, pending=1, anew=2),
    dict(sessions=3, changes=3, removals=1, others=2, gets=1, clients=1, pending=1, anew=2),
]


def try_ways(beside, count, seed):
    steps = 0
    for turn in range(count):
        if turn % 20 == 0:
            beside.forget()
        steps += worlds.wander(worlds.Bounds(**BOUNDS[turn % len(BOUNDS)]), 1, seed + turn)[1]
    return f"{count} ways, {steps} steps of worlds"


def try_histories(beside, count, seed):
    for turn in range(count):
        for shape in SHAPES:
            beside.forget()
            registers.try_registers(seed + turn, shape=getattr(registers, shape))
    return f"{count} histories of each of {len(SHAPES)} shapes"


# ---- bugs, each in one function of the core


def less(client, least=0):
    return Version(max(least, max(page.number for page in core.for_change(client).values())), client.session)


def unasked(client, whose):
    return ()


def known_to_one(line, session, others):
    return any(page.after_of(session) >= line.since for page in others.values())


def first_shown(lines):
    return next(iter(lines), None)


PLANTED = {
    "less": ("new_version", less),
    "unasked": ("asked", unasked),
    "known-to-one": ("is_known_to", known_to_one),
    "first-shown": ("greatest_shown", first_shown),
    "all-known": ("unknown", lambda client: set()),
}


def compare(program, counts, seed, planted=None):
    """Tells what was compared, in so many lines; Differs where something is not the same."""
    beside, chance = Beside(program), random.Random(seed)
    bug = mock.patch.object(core, *PLANTED[planted]) if planted else contextlib.nullcontext()
    tries = {"texts": try_texts, "changes": try_changes, "ways": try_ways, "histories": try_histories}
    told = []
    try:
        with both(beside), bug:
            for what, count in counts.items():
                if count:
                    told.append(tries[what](beside, count, chance if what in ("texts", "changes") else seed))
    finally:
        beside.end()
    return f"seed {seed}: {'; '.join(told)}; {beside.count} lines, nothing differs"


def is_found(program, planted):
    """Whether something differs where the core has the bug."""
    try:
        compare(program, {what: COUNTS[what] for what in ("changes", "ways")}, 1, planted)
    except Differs:
        return True
    except worlds.Wrong:
        pass
    return False


def main(words):
    parser = argparse.ArgumentParser(description=__doc__, formatter_class=argparse.RawDescriptionHelpFormatter)
    parser.add_argument("--program", default=None)
    for what, number in {**COUNTS, "seed": 1}.items():
        parser.add_argument(f"--{what}", type=int, default=number, metavar="N")
    parser.add_argument("--planted", choices=PLANTED)
    args = parser.parse_args(words)
    program = args.program or built()
    if args.planted:
        return 0 if is_found(program, args.planted) else 1
    try:
        print(compare(program, {what: getattr(args, what) for what in COUNTS}, args.seed))
    except Differs as fault:
        print("\n    ".join(str(each)[:2000] for each in fault.args))
        return 1
    except worlds.Wrong as wrong:
        print("\n    ".join(map(str, ("wrong, by both:", *wrong.args))))
        return 1
    return 0


if __name__ == "__main__":
    sys.exit(main(sys.argv[1:]))
