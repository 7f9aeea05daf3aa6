"""What an operation moves between four nodes of 2 by 2, counted, and how many are done a second, of programs side by side."""

import contextlib
import os
import subprocess
import sys
import tempfile
import time

from node_loads import FILES, TENANTS, Load
from gridfs_grid.planned import planned

SIZES = {"64 B": 64, "64 KiB": 1 << 16, "1 MiB": 1 << 20}
LISTED, OF_LISTED = 8, 28_000  # files, and bytes of each
BLOCK = 64
SECONDS, WAIT = 1, 60
MIXED = [1, 16, 64]  # sessions that read and write 64 bytes
ALONE = {"64 KiB": [1, 16], "1 MiB": [1, 4]}


def plan_of():
    """Of each tenant a volume of small files. Of ann one for each size, one that is listed, and then one of a single file for each size."""
    volumes = [(16, size // BLOCK) for size in SIZES.values()] + [(LISTED, -(-OF_LISTED // BLOCK))] + [(1, size // BLOCK) for size in SIZES.values()]
    share = 4 * FILES + sum(files * blocks for files, blocks in volumes)
    rows = "".join(f"tenant {name} {share if name == 'ann' else 4 * FILES} 16 {len(volumes)} {SIZES['1 MiB'] // BLOCK}\n" for name in TENANTS)
    opens = "".join(f"{name} open {FILES} 1\n" for name in TENANTS) + "".join(f"ann open {files} {blocks}\n" for files, blocks in volumes[1:])
    return f"grid 2 2\nroom {share + 16 * FILES}\n{rows}go\n{opens}"


# Counts: lines are carried in waves, without loss


class Waves:
    def __init__(self, program, folder, homes):
        self.homes, self.numbers, self.journals = homes, {}, [os.path.join(folder, f"journal{number}") for number in range(4)]
        plan = os.path.join(folder, "plan")
        with open(plan, "w", encoding="ascii") as out:
            out.write(plan_of())
        self.nodes = []
        for number, journal in enumerate(self.journals):
            words = [program, "node", str(number), "--plan", plan, "--journal", journal, "--new"]
            self.nodes.append(subprocess.Popen(words, stdin=subprocess.PIPE, stdout=subprocess.PIPE, stderr=subprocess.DEVNULL))
        for node in self.nodes:
            node.stdout.readline()

    def told(self, number, lines):
        """What a node writes to these lines: the answer to a question behind them is the last of it."""
        node, found = self.nodes[number], []
        node.stdin.write(b"".join(lines) + b"%d ann plan\n" % number)
        node.stdin.flush()
        while line := node.stdout.readline():
            if line.split(b" ", 3)[2:3] == [b"plan"]:
                return found
            found.append(line)
        sys.exit(f"bench: node {number} has ended")

    def carried(self, waiting):
        """What these lines, by node, lead to: the answers, trips up to the last of them, lines and bytes between nodes, bytes to itself, what journals grew by."""
        before, trips, waves = [os.path.getsize(it) for it in self.journals], 0, 0
        answers, lines, between, own = [], 0, 0, 0
        while waiting:
            coming = {}
            for number, given in sorted(waiting.items()):
                for line in self.told(number, given):
                    to = line.split(b" ", 1)[0]
                    if not to.isdigit():
                        answers.append(line)
                        trips = waves / 2
                        continue
                    if int(to) == number:
                        own += len(line)
                    else:
                        lines, between = lines + 1, between + len(line)
                    coming.setdefault(int(to), []).append(line)
            waiting, waves = coming, waves + 1
        grown = [os.path.getsize(it) - size for it, size in zip(self.journals, before)]
        return answers, max(trips, 1), lines, between, own, grown

    def ask(self, session, verb, words):
        number = self.numbers[session] = self.numbers.get(session, 0) + 1
        found = self.carried({self.homes["ann", session]: [b"%d ann %s %d %d %s\n" % (self.homes["ann", session], verb, session, number, words)]})
        if found[0][0].split(b" ", 3)[2] != b"done":
            sys.exit(f"bench: a node says {found[0][0][:80]!r}")
        return found

    def look(self, volume):
        return self.carried({number: [b"%d ann look 1 %d\n" % (number, volume)] for number in range(4)})

    def close(self):
        for node in self.nodes:
            node.stdin.close()
            node.wait(WAIT)
            node.stdout.close()


def show(what, found):
    answers, trips, lines, between, own, grown = found
    rises = [it for it in grown if it]
    told = f"{sum(map(len, answers)):>10,} to the client" if answers[0].split(b" ", 3)[2] in (b"done", b"looked") else "   not known"
    print(f"    {what:<52}{trips:4.0f} trips {lines:3} lines {between:>10,} between {own:>10,} to itself; journals {' '.join(f'{it:,}' for it in rises) or '0'};{told}", flush=True)


def count(program, homes):
    """Prints what each operation moves."""
    column = {session: homes["ann", session] % 2 for session in range(1, 17)}
    first, beyond = 1, next(it for it in column if column[it] != column[1])
    other = next(it for it in column if column[it] == column[1] and homes["ann", it] != homes["ann", 1])
    with tempfile.TemporaryDirectory(prefix="gridfs-bench-") as folder, contextlib.closing(Waves(program, folder, homes)) as nodes:
        for volume, (name, size) in enumerate(SIZES.items(), len(SIZES) + 1):
            one, two = b"61" * size, b"62" * size
            show(f"{name}: write, where nobody wrote", nodes.ask(first, b"write", b"%d 0 %s" % (volume, one)))
            show("read, by the session that wrote", nodes.ask(first, b"read", b"%d 0" % volume))
            show("read, by a session of the other column", nodes.ask(beyond, b"read", b"%d 0" % volume))
            show("the same read again", nodes.ask(beyond, b"read", b"%d 0" % volume))
            show("write over it, by who wrote", nodes.ask(first, b"write", b"%d 0 %s" % (volume, two)))
            show("write over it, by a session of the other column", nodes.ask(beyond, b"write", b"%d 0 %s" % (volume, one)))
            nodes.ask(other, b"write", b"%d 0 %s" % (volume, two))
            show("read, by a session of the other row and column", nodes.ask(beyond, b"read", b"%d 0" % volume))
            show("list of it, by who wrote", nodes.ask(first, b"list", b"%d" % volume))
            show("look at it", nodes.look(volume))
        volume = len(SIZES)
        for file in range(LISTED):
            nodes.ask(1 + file, b"write", b"%d %d %s" % (volume, file, b"63" * OF_LISTED))
        show(f"list of {LISTED} files of {OF_LISTED:,} bytes", nodes.ask(first, b"list", b"%d" % volume))
        show("list of them, by another home", nodes.ask(beyond, b"list", b"%d" % volume))
        show("look at them", nodes.look(volume))


# Rates, by turns


class Sized(Load):
    """Sessions of ann that each write a file of their own, or read it, or one of a session of the other column."""

    def set(self, verb, volume, content, is_own):
        self.verb, self.volume, self.content = verb, volume, content
        column = {number: self.homes["ann", number] % 2 for number in range(1, 17)}
        self.files = {it: it if is_own else next(other for other in range(1, 17) if column[other] != column[it]) for it in column}

    def begin(self, session):
        name, number = session
        operation = self.numbers[session] = self.numbers.get(session, 0) + 1
        behind = b" " + self.content if self.verb == b"write" else b""
        self.begun[session] = time.perf_counter()
        self.carrier.send(b"%d %s %s %d %d %d %d%s" % (self.homes["ann", number], name, self.verb, number, operation, self.volume, self.files[number] - 1, behind))

    def fill(self):
        """Each session writes its own files once, one session after another: the carrier drops lines where too many bytes wait."""
        for volume, size in enumerate(SIZES.values()):
            self.set(b"write", volume, b"61" * size, True)
            for self.first in range(1, 17):
                self.run(1, 0)
        self.first = 1

    def of_ann(self, sessions, verb, volume, content, is_own=True):
        self.set(verb, volume, content, is_own)
        return self.run(sessions, SECONDS)

    def sessions(self):
        return [(b"ann", number) for number in range(self.first, 17)]


def rates(programs, turns, told):
    """Prints the most operations a second of each program, and the ratio to the first one's."""
    with contextlib.ExitStack() as ends:
        mixed, sized = {}, {}
        for program in programs:
            for kind, loads in (Load, mixed), (Sized, sized):
                folder = ends.enter_context(tempfile.TemporaryDirectory(prefix="gridfs-bench-"))
                loads[program] = kind(program, folder, 2, 2, text=plan_of(), told=told)
                ends.callback(loads[program].end)
            sized[program].fill()
        plays = [(f"half reads, half writes of 64 B, {many}", lambda it, many=many: mixed[it].run(many, SECONDS)) for many in MIXED]
        for volume, (name, size) in enumerate(SIZES.items()):
            for many in ALONE.get(name, []):
                for what, verb, is_own in ("write", b"write", True), ("read, own", b"read", True), ("read, of another column", b"read", False):
                    plays.append((f"{what}, {name}, {many}", lambda it, words=(many, verb, volume, b"61" * size, is_own): sized[it].of_ann(*words)))
        for what, play in plays:
            found = {program: [] for program in programs}
            for turn in range(turns):
                for program in programs[:: -1 if turn % 2 else 1]:
                    found[program].append(play(program).rate)
            best = [max(each) for each in found.values()]
            shown = "; ".join(f"{max(each):9.1f} ({min(each):.1f})" for each in found.values())
            print(f"    {what:<44}{shown}; ratio {' '.join(f'{it / best[0]:.2f}' for it in best[1:])}; load {os.getloadavg()[0]:.0f}", flush=True)


def report(programs, turns):
    programs = [os.path.abspath(it) for it in programs]
    told = planned(programs[-1], plan_of())
    for program in programs:
        print(f"{program}: one operation")
        count(program, told.homes)
    print(f"operations a second over pipes by so many sessions: the best of {turns} turns of {SECONDS} seconds, and the worst, of each program")
    rates(programs, turns, told)
