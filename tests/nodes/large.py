"""Nodes whose plan has room: contents of up to 1 MiB, in lines that take many reads and are larger than a pipe.

Storms are as in storm.py. A node may be killed when it was given a part of a line alone, while it writes the journal's batch of a large
content, or syncs it. Then a journal is cut and turned within such a batch, and one is written anew again and again while lines come.
"""

import hashlib
import os
import signal

from contents import in_bytes
from journals import batches, sealed
from processes import Streamed, Wrong, ended, get, put, words_of
from storm import LATER, Client, Storm, Weather

MOST_BLOCKS = 16_384
MOST_BYTES = 64 * MOST_BLOCKS
LONGEST = 128 * MOST_BLOCKS + 255
MARKER = "tenant mark 1 1 1 1\n"
# Of contents in storms, in bytes: mostly short, so that a storm is short.
SHORT, LARGE = [0, 1, 3, 3, 64, 65], [4_096, 32_768, 65_535, 65_536, 200_000, 262_144, MOST_BYTES]
PLAN = f"grid 2 2\nroom 70000\ntenant ann {4 * MOST_BLOCKS} 4 1 {MOST_BLOCKS}\n{MARKER}go\nann open 4 {MOST_BLOCKS}\n".encode()
HEAD = b"node 0 of 2 by 2\n" + PLAN
AT_ONCE = 0.15
CUTS, TURNS = 12, 6
STORES, ONE_ALONE = 16, 14  # the first of these are all of one file


# Nodes are killed amid their lines, and by calls of the disk, by which most power is lost too.
WEATHER = Weather(kills=0.002, amid=0.01, stops=True, powers=True, lost=0.03, repeated=0.05, nonsense=0.05)


def digits(seed, size=MOST_BYTES):
    """A content of so many bytes, as the digits of a line."""
    return (hashlib.shake_128(b"%d" % seed).digest(size)).hex().encode() or b"-"


class LargeClient(Client):
    """Contents are of some lengths alone, so that histories can have a short content in the place of a large one, whose length says which."""

    def lengths_of(self, volume):
        most = 64 * self.storm.volumes[self.name][volume][1]
        return 3 * SHORT + [length for length in LARGE if length <= most] + [most]

    def told(self, body):
        self.storm.large += body.startswith(b"done") and (len(body) > 2 * LARGE[0] or len(self.going[3]) > 2 * LARGE[0])
        super().told(body)

    def content(self, content):
        size = len(content) // 2
        return content if size not in LARGE else hashlib.shake_128(content).hexdigest(int(self.length(b"%d" % size))).encode()

    def length(self, length):
        """(A length that no content has stays, and is found wrong.)"""
        return b"%d" % (100 + LARGE.index(int(length))) if int(length) in LARGE else length


class LargeStorm(Storm):
    """A storm of large contents. What nodes were given and wrote is not kept."""

    client, process, most, lines_of_a_step, longest_batch, calls = LargeClient, Streamed, 60, 6, 6 * LONGEST, 200

    large = 0  # operations done with a large content

    def a_plan(self):
        rows, cols = self.draw.choice([(1, 1), (1, 2), (2, 2), (2, 2)])
        tenants = f"tenant ann {2 * MOST_BLOCKS} {self.draw.randint(2, 4)} 1 {MOST_BLOCKS}\ntenant bob 6144 2 1 4096\n"
        opened = f"ann open 1 {MOST_BLOCKS}\nbob open 1 4096\nann open 2 1024\n"
        return f"grid {rows} {cols}\nroom 50000\n{tenants}{MARKER}go\n{opened}", {"ann": [(1, MOST_BLOCKS), (2, 1024)], "bob": [(1, 4096)]}

    def a_plan_behind(self):
        rows, _, opened = self.plan.partition("go\n")
        return f"{rows}tenant {LATER} 3125 2 1 3125\ngo\n{opened}{LATER} open 1 3125\n", [(1, 3125)]

    def killed_amid(self, stepped, lines):
        """Mostly when it was given a part of what it was to be given, else while it does what that asks for."""
        if self.draw.random() < 0.6:
            return stepped.step_and_kill(lines, 0.002 * self.draw.random(), self.draw.randint(0, len(lines)))
        return stepped.step_and_kill(lines, 0.2 * self.draw.random())

    def nonsense(self):
        if self.draw.random() < 0.7:
            return super().nonsense()
        to, name = self.draw.randrange(self.count), self.draw.choice(list(self.by_name))
        line = b"%d %s write 1 0 0 0 " % (to, name)
        return line + b"a" * (LONGEST + self.draw.choice([-1, 0, 1, 2, 70_000]) - len(line))

    def take(self, number, wrote, lives):
        """A node that has just acknowledged a large content is often killed at once."""
        has_large = len(self.lives[number][-1].given[-1]) > 2 * 32_768 and b" stored\n" in wrote
        super().take(number, wrote, lives and not (has_large and self.draw.random() < AT_ONCE))
        for life in self.lives[number]:
            life.given.clear()
            life.wrote.clear()

    def see_tag(self, *words):
        """(Of a large content what histories have in its place.)"""
        super().see_tag(*words[:-1], self.by_name[words[0]][0].content(words[-1]))


class Alone:
    """One node, whose lines and journals are written by hand."""

    def __init__(self, program, folder):
        self.program, self.folder = program, folder
        put(f"{folder}/plan", PLAN)

    def start(self, given=b"", is_new=False):
        return ended(words_of(self.program, 0, "plan", "journal", is_new), given, cwd=self.folder)


def store(at, file, content):
    """A store by session 4, whose home is node 3: its number is that of its tag."""
    return b"0 3 ann 4 %d 2 0 %d store %d 4 %s\n" % (at, file, at, content)


def lengths(program, folder):
    """Contents and lines of the most bytes, and of one more, each with a line behind it that is answered."""
    alone, wrong = Alone(program, folder), []
    content, begun = digits(1), b"0 ann write 1 1 0 0 "
    read, asked = b"0 ann read 1 1 0 0\n", b"1 0 ann 1 1 1 0 0 ask\n"
    asked_tag = asked[:-1] + b" 18446744073709551615 255\n"  # (a write uses tags alone)
    trials = {
        "a content of one byte": (begun + b"a0\n", asked_tag),
        "a content of the most bytes": (begun + content + b"\n", asked_tag),
        "a content of one byte more": (begun + content + b"00\n", b"ann 0 refused toolong 1 1 0 0 %d\n" % (MOST_BYTES + 1)),
        "a line of the most bytes": (begun.ljust(LONGEST, b"a") + b"\n" + read, b"ann 0 refused bad\n" + asked),
        "a line of one byte more": (begun.ljust(LONGEST + 1, b"a") + b"\n" + read, asked),
        "a line of ten times as many": (begun.ljust(10 * LONGEST, b"a") + b"\n" + read, asked),
        "a store of the most bytes": (store(1, 0, content), b"3 0 ann 4 1 2 0 0 stored\n"),
        "a store of one byte more": (store(1, 0, content + b"00") + read, asked),
    }
    for name, (given, wanted) in trials.items():
        if os.path.exists(f"{folder}/journal"):
            os.unlink(f"{folder}/journal")
        seen = alone.start(given, True)
        if seen != (0, b"gridfs: node 0 of 2 by 2: 0 facts\n", b" ?\n" + wanted):
            wrong.append(f"{name}: {seen[:2]} and {seen[2][:200]!r}")
    return len(trials), wrong


def torn(program, folder, draw):
    """A journal that is cut within the batch of a large content, at its seal too, or of which a byte is turned there."""
    alone, wrong, tried = Alone(program, folder), [], 0
    facts = [b"began ann 1 1\n", b"kept ann 0 0 7 4 " + digits(2, 65_536) + b"\n", in_bytes(b"kept ann 0 1 8 4 " + digits(3) + b"\n")]
    whole, ends = sealed(1, HEAD), [len(sealed(1, HEAD))]
    for at, fact in enumerate(facts, 2):
        whole += sealed(at, fact)
        ends.append(len(whole))
    question = b"0 3 ann 4 9 1 0 0 ask\n0 3 ann 4 9 1 0 1 ask\n"
    copies = [b"7 4 " + digits(2, 65_536), b"8 4 " + digits(3)]
    trials = [(place, whole[:place]) for place in {ends[1], ends[2] + 1, ends[3] - 1, ends[3] - 20, ends[3] - 40, ends[3]}]
    trials += [(place, whole[:place]) for place in (draw.randint(ends[1], ends[3]) for _ in range(CUTS))]
    for at in range(TURNS):
        place = draw.randrange(ends[1 + at % 2], ends[2 + at % 2])
        trials.append((place, whole[:place] + bytes([whole[place] ^ draw.randint(1, 255)]) + whole[place + 1 :]))
    for place, text in trials:
        tried += 1
        right = sum(end <= place for end in ends) if len(text) == len(whole) and text != whole else sum(end <= len(text) for end in ends)
        put(f"{folder}/journal", text)
        seen = (*alone.start(question), get(f"{folder}/journal"))
        is_damaged = len(text) == len(whole) and right < len(ends) - 1
        if is_damaged:
            wanted = 4, b"gridfs: journal: damaged at byte %d\n" % ends[right - 1], b"", text
        else:
            told = b"gridfs: journal: cut at byte %d\n" % ends[right - 1] if text != whole[: ends[right - 1]] else b""
            known = copies[: max(right - 2, 0)] + [b"0 0 -"] * 2
            wrote = b"".join(b"3 0 ann 4 9 1 0 %d copy %s\n" % (file, known[file]) for file in (0, 1))
            wanted = 0, told + b"gridfs: node 0 of 2 by 2: %d facts\n" % (right - 1), b" ?\n" + in_bytes(wrote), whole[: ends[right - 1]]
        if seen != wanted:
            wrong.append(f"a journal of {len(whole)} bytes, cut or turned at byte {place}: {seen[:2]} and {seen[2][:200]!r}, not {wanted[:2]}")
    return tried, wrong


def asks(last):
    return b"".join(b"0 3 ann 4 9 1 0 %d ask\n" % file for file in last)


def copies(last):
    return in_bytes(b"".join(b"3 0 ann 4 9 1 0 %d copy %d 4 %s\n" % (file, *copy) for file, copy in last.items()))


def written_anew(program, folder, draw):
    """Stores of large contents, and short lines among them, while the journal is written anew again and again, and the node is killed now
    and then: what it said to be stored is there. How many stores there were."""
    alone, last, times = Alone(program, folder), {}, 0
    node, size = Streamed(words_of(program, 0, "plan", "journal", True), 0, folder), 0
    try:
        for at in range(1, STORES + 1):
            file, content = at // ONE_ALONE, digits(at)
            short = b"".join(b"0 3 ann 4 %d 2 0 2 store %d 4 %s\n" % (number, number, digits(number, 9)) for number in range(10 * at, 10 * at + 3))
            wrote, lives = node.step(short + short + store(at, file, content))
            if not lives or wrote.count(b" stored\n") != 7:
                raise Wrong(f"seven stores are answered {wrote[:300]!r}")
            last |= {file: (at, content), 2: (10 * at + 2, digits(10 * at + 2, 9))}
            before, size = size, os.path.getsize(f"{folder}/journal")
            times += size < before
            needed = 2 * sum(len(content) for _, content in last.values()) // 2 + 4_096
            if size > max(1 << 20, 4 * needed) + 2 * LONGEST:
                raise Wrong(f"the journal has {size} bytes, and a start needs {needed}")
            if draw.random() < 0.25:
                node.kill()
                node = Streamed(words_of(program, 0, "plan", "journal"), 0, folder)
                wrote, lives = node.step(asks(last))
                if not lives or wrote != b" ?\n" + copies(last):
                    raise Wrong(f"behind a kill the node has not what it said to be stored: {wrote[:200]!r}")
    finally:
        status = node.kill()
    if status != -signal.SIGKILL or not times:
        raise Wrong(f"the node has ended with {status}, and its journal was written anew {times} times")
    status, told, wrote = alone.start(asks(last))
    if status != 0 or wrote != b" ?\n" + copies(last):
        raise Wrong(f"a start behind {STORES} large stores: status {status}, {told!r}, {wrote[:200]!r}")
    if not all(batch.endswith(b"\n") for batch in batches(get(f"{folder}/journal"))[0]):
        raise Wrong("the journal has a batch without a form")
    return times
