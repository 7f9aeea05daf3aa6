"""States of a grid that is used: names are put, replaced and removed, and pages split, while all nodes are copied. What
was acknowledged before that began is in the copies, as it was or as it became meanwhile: by `get`, and in a grid that
starts from them. Copies that are made one after another have to be found to lose names.
"""

import hashlib
import os
import random
import shutil
import subprocess
import threading
import time
from dataclasses import dataclass

import with_room
from commands import PYTHON, SECONDS
from growing import planned
from way_back import COLUMNS, NODES, ROWS, files_in, journal_of, journals
from with_room import Seen, run

WISH, MORE = "400M 60 names 4 commands", "grow {} 300 names"
WRITERS, NAMES_EACH, SIZES = 3, 4, (20, 3_000, 40_000, 200_000)
STATES, TRIES, MEANWHILE = 3, 5, 8  # of a run; of copies that are no state, and the changes of each writer between some
REMOVALS = 0.15  # of what writers do
SETTINGS = {"GRIDFS_CONFIG": f"grid/{with_room.TENANT}.ini", "GRIDFS_LOCKS": "locks"}


@dataclass
class Change:
    """Of a name, to the content of this digest, or to none."""

    begin: float
    end: float
    digest: str | None


class Writer(threading.Thread):
    """Changes names of its own, one after another, and once has pages split."""

    def __init__(self, number, seed):
        super().__init__()
        self.draw, self.is_over, self.wrong = random.Random(f"{seed} {number}"), False, []
        self.changes = {f"{number}/{each}": [Change(0, 0, None)] for each in range(NAMES_EACH)}
        self.grows_at = self.draw.randrange(5, 15)
        self.start()

    def run(self):
        count = 0
        while not self.is_over and not self.wrong:
            count += 1
            if count == self.grows_at:
                self.ask("grow")
            name = self.draw.choice(sorted(self.changes))
            if self.changes[name][-1].digest and self.draw.random() < REMOVALS:
                self.note(name, None, "rm", name)
            else:
                self.note(name, os.urandom(self.draw.choice(SIZES)), "put", "-", name)

    def note(self, name, content, *words):
        change = Change(time.monotonic(), float("inf"), content and hashlib.sha256(content).hexdigest())
        self.changes[name].append(change)
        self.ask(*words, given=content)
        change.end = time.monotonic()

    def ask(self, *words, given=b""):
        command = [PYTHON, "-B", with_room.CLIENT, *words]
        done = subprocess.run(command, input=given, capture_output=True, env={**os.environ, **SETTINGS}, timeout=4 * SECONDS)
        if done.returncode:
            self.wrong.append(f"{words}: {done.returncode} {done.stderr[-200:]}")


class Writers:
    def __init__(self, seed):
        self.all = [Writer(number, seed) for number in range(WRITERS)]

    def wait_for(self, count):
        """Until so many changes more were made of each."""
        made = lambda: [sum(map(len, writer.changes.values())) for writer in self.all]
        before, until = made(), time.monotonic() + 4 * SECONDS
        while any(now < was + count for now, was in zip(made(), before)) and not self.wrong():
            assert time.monotonic() < until, "writers do not go on"
            time.sleep(0.05)

    def wrong(self):
        return [what for writer in self.all for what in writer.wrong]

    def end(self):
        for writer in self.all:
            writer.is_over = True
        for writer in self.all:
            writer.join()

    def allowed(self, begin, end):
        """Of each name, what it may hold in copies that were made meanwhile."""
        return {name: may_be(changes, begin, end) for writer in self.all for name, changes in writer.changes.items()}

    def longest(self, begin, end):
        """The seconds of the slowest change that was under way meanwhile."""
        changes = [change for writer in self.all for each in writer.changes.values() for change in each[1:]]
        amid = [change.end - change.begin for change in changes if change.end > begin and change.begin < end]
        return max(amid, default=0)


def may_be(changes, begin, end):
    """What was acknowledged last before it began, and each that was begun before the end."""
    last = max(at for at, change in enumerate(changes) if change.end <= begin)
    return {changes[last].digest, *(change.digest for change in changes[last + 1 :] if change.begin < end)}


def lost(found, allowed):
    """The names that have none of the contents that they may have."""
    return sorted(name for name, digests in allowed.items() if found.get(name) not in digests)


def got(paths):
    shutil.rmtree("out", ignore_errors=True)
    status, _, why = journals("get", with_room.TENANT, "out", *paths)
    return status, files_in("out"), why


def at_one_moment(folder):
    status, told, why = journals("state", folder, *map(journal_of, NODES))
    assert status == 0, why
    return told.splitlines()[0]


def one_column_after_another(folder, writers):
    for column in COLUMNS:
        writers.wait_for(MEANWHILE)
        for node in column:
            status, _, why = journals("copy", journal_of(node), f"{folder}/{node}")
            assert status == 0, why


def kept(writers, folder):
    """What was told of a state, and when it was made."""
    writers.wait_for(2)
    begin = time.monotonic()
    return at_one_moment(folder), (begin, time.monotonic())


def states(program, seed=1):
    """A state is made again and again while writers go on; a grid starts from the last one."""
    seen, told = Seen(), []
    seen.held("a plan", planned(program, "first", f"{with_room.TENANT} {WISH}\n"), 0)
    seen.held("a later plan", planned(program, "later", f"{MORE.format(with_room.TENANT)}\n", "--from", "first"), 0)
    with with_room.grid_of(program, "later"):
        writers = Writers(seed)
        try:
            made = [kept(writers, f"state {number}") for number in range(STATES)]
            found = is_found(writers)
        finally:
            writers.end()
    seen.wrong += writers.wrong()
    seen.held("copies that are made one after another lose names", found, True)
    for number, (held, (begin, end)) in enumerate(made):
        told.append(f"{held.split(' for ')[1]}")
        allowed = writers.allowed(begin, end)
        for paths in (*ROWS, NODES):
            status, files, why = got([f"state {number}/{node}/journal" for node in paths])
            seen.held(f"state {number}, {paths}: {why[-300:]}", (status, lost(files, allowed)), (0, []))
    starts(program, seen, f"state {STATES - 1}", writers.allowed(*made[-1][1]))
    count = sum(len(changes) - 1 for writer in writers.all for changes in writer.changes.values())
    slowest = max(writers.longest(begin, end) for _, (begin, end) in made)
    return f"{seen.count} compared, {count} changes, nodes held for {', '.join(told)}; the slowest command meanwhile {slowest:.1f} s", seen.wrong


def is_found(writers):
    """Whether copies that are made one after another, while writers go on, are found to lack what they have to have."""
    for number in range(TRIES):
        begin = time.monotonic()
        one_column_after_another(f"apart {number}", writers)
        end = time.monotonic()
        status, files, _ = got([f"apart {number}/{node}/journal" for node in NODES])
        if status or lost(files, writers.allowed(begin, end)):
            return True
    return False


def starts(program, seen, folder, allowed):
    """New nodes from the copies, and each name is read, put and removed there as ever."""
    os.rename("grid", "old")
    os.mkdir("grid")
    for node in NODES:
        for ending in ("", ".shelf"):
            os.rename(f"{folder}/{node}/journal{ending}", journal_of(node) + ending)
    os.rename(f"{folder}/plan", "grid/plan")
    with with_room.grid_of(program, "grid/plan"):
        status, told = run("mirror", "--quiet", "grid:", "back")
        found = files_in("back")
        seen.held(f"in a grid that starts from it: {told}", (status, lost(found, allowed)), (0, []))
        for name in sorted(allowed):
            content = os.urandom(30_000)
            seen.held(f"put {name}", run("put", "-", name, given=content), (0, b""))
            seen.held(f"get {name}", run("get", name), (0, content))
        seen.held("sweep", run("sweep")[0], 0)
        seen.held("rm", run("rm", "-r", "0/")[0], 0)
        seen.held("names", run("ls")[1].count(b"\n"), len(allowed) - NAMES_EACH)


if __name__ == "__main__":
    import sys

    print(*states(sys.argv[1]), sep="\n")
