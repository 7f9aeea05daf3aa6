"""Four real nodes that have many names from their start: pages and journals as clients that put one name after another would have left them.

Each session writes its own pages and journals, each once, and all sessions side by side; this process carries the lines meanwhile. Then `./grid` begins with these journals. Contents are in chunks, as a
put would have them with such pages. Those of a sample are there, at the nodes of a column; of the other names only the lines are, with numbers of chunks that nobody has. The index is that
of a gateway that had settled all pages and ended in order.
"""

import collections
import hashlib
import os
import shutil
import signal
import subprocess
import sys
import tempfile
import time
from pathlib import Path

TOP = Path(__file__).resolve().parent.parent.parent
sys.path.insert(0, str(TOP / "clients" / "python"))
from filled import STAMP, name_of
from gridfs_client import chunk_lines
from gridfs_client.answers import Tag, to_hex
from gridfs_client.asking import ask_plan
from gridfs_client.chunks import FIRST_MOMENT, IN_A_MOMENT, MOMENTS
from gridfs_client.contents import digest_of
from gridfs_client.ends import End
from gridfs_client.layout import Layout, Volume, layout_of
from gridfs_client.names import NamedFiles
from gridfs_client.opening import turn_of
from gridfs_client.pages import parse_line
from gridfs_client.sessions import Session
from gridfs_client.settings import Settings
from gridfs_grid.carried import free_ports
from gridfs_grid.carrier import Carrier, Node, journal_of
from gridfs_grid.planned import planned
from gridfs_grid.tenant import tick_of
from gridfs_s3.going_on import WORD_OF_GRID
from gridfs_s3.index import ADDED, Index, stored

STEP = 7_919  # from one name to the next
SESSIONS, FILES = 8, 64  # files of a volume: eight pages of each session
MOST_LINES = 8  # of a page, about: there is room for twice as many, since names don't spread evenly
SHORT, LONG = 1 << 10, 1 << 20  # bytes of objects
SAMPLE, LONG_SAMPLE = 4_000, 40  # objects whose contents are there
LONG_EACH = 100  # among so many names is one of a long object
FIRST_VERSION = 270_000_000  # less than those that clients choose by the clock
STARTED = 600  # seconds


def long_name(number):
    return f"bench/long/{number:05}"


def plan_for(names, blocks, parts=0):
    """Pages of so many blocks, in which a name has a line of some 155 bytes; and behind them so many more for each."""
    volumes = 1
    while volumes * FILES * MOST_LINES < names:
        volumes *= 2
    taken = 2 * volumes * (1 + parts) * FILES * blocks + 2
    chunks = names * (SHORT + 512) // 1024 + names // LONG_EACH * (LONG // 1024 + 1) + (8 << 20)
    lines = ["grid 2 2", f"room {taken}", f"tenant carol {taken} {SESSIONS} 1000 {max(blocks, 64)} {2 * volumes * (1 + parts) + 2}", "go"]
    more = [f"carol open {FILES} {blocks} times {2 * volumes * parts}", "carol open 1 1"] if parts else []
    return "\n".join([*lines, f"carol open {FILES} {blocks} times {2 * volumes}", "carol open 1 1", *more, f"carol chunks {chunks}", ""])


class Filling:
    """The lines of all names, by page and session, and the contents of a sample."""

    def __init__(self, layout, names):
        self.layout, self.lines = layout, collections.defaultdict(list)
        self.numbers, self.taken, self.most = collections.defaultdict(int), collections.Counter(), layout.contents_room
        first = (int((time.time() - FIRST_MOMENT) * MOMENTS) - 100 * MOMENTS) * IN_A_MOMENT  # of the numbers of chunks
        every = [(name_of(number), SHORT) for number in range(names)] + [(long_name(number), LONG) for number in range(max(LONG_SAMPLE, names // LONG_EACH))]
        sample = {name_of(turn * STEP % names) for turn in range(min(names, SAMPLE))} | {long_name(number) for number in range(LONG_SAMPLE)}
        said = {size: (f"{{t={STAMP}&m={hashlib.md5(b'x' * size).hexdigest()}}} {size} {digest_of(b'x' * size)}") for size in (SHORT, LONG)}
        self.sample = []  # session, number and size of chunks
        self.add(".s3/bucket/bench", 1, f"{{t={STAMP}}} @")
        for at, (name, size) in sorted(enumerate(every), key=lambda pair: pair[1][0] not in sample):  # (so that those of the sample are in pages of the session whose chunks they have)
            session = self.add(name, FIRST_VERSION + at, f"{said[size]} {self.column_of(name)}.{self.session_of(name)}:{first + at}")
            if name in sample:
                assert session == self.session_of(name)
                self.sample.append((session, first + at, size))

    def session_of(self, name):
        return 1 + turn_of(name, self.layout.sessions)

    def column_of(self, name):
        return (self.session_of(name) - 1) % 2

    def add(self, name, version, words):
        """By the session whose page it is, or by the next one where that has no room; whose it is then."""
        page, line, session = self.layout.page_of(name), f"{version} {words} {name}\n", self.session_of(name)
        while self.taken[page, session] + len(line) > self.most:
            session = session % self.layout.sessions + 1
        self.lines[page, session].append(line)
        self.taken[page, session] += len(line)
        self.numbers[page, session] = max(version, self.numbers[page, session])
        return session

    def text(self, page, session):
        return f"names 2 {self.numbers[page, session]}\n{''.join(self.lines[page, session])}".encode()

    def writes(self, session):
        """The files of a session: each page behind its journal."""
        for page, each in self.lines:
            if each == session:
                text = self.text(page, each)
                yield self.layout.journal(each, page), text
                yield self.layout.page(each, page), text


class Journals:
    """New nodes, of which this process is the only client, and carries their lines."""

    def __init__(self, program, folder, plan, sessions):
        told = planned(str(program), plan.read_text(), str(plan))
        self.homes = {session: told.homes["carol", session] for session in range(1, sessions + 1)}
        self.nodes = [Node(str(program), number, str(plan), journal_of(str(folder), number)) for number in told.nodes]
        tick = tick_of(told.longest, 0.2)
        self.carrier = Carrier(self.nodes, self.hear, self.fall, tick)
        self.carrier.carry_lines_of(told.longest, tick)
        self.last, self.under_way, self.left, self.current, self.tags = collections.Counter(), {}, {}, {}, {}
        self.heard = time.monotonic()
        for node in self.nodes:
            node.start(True)
        while not all(node.is_ready for node in self.nodes):
            self.carrier.turn(0.1)

    def fall(self, node, status):
        raise SystemExit(f"node {node.number} has ended with {status}")

    def send(self, key, *lines):
        self.under_way[key] = lines
        for line in lines:
            self.carrier.send(line)

    def hear(self, line):
        _, node, body = line.split(b" ", 2)
        self.heard = time.monotonic()
        words = body.split(b" ", 7)
        if words[0] == b"kept":
            key = int(words[1]), int(words[2])
            left = [each for each in self.under_way.get(key, ()) if not each.startswith(node + b" ")]
            self.under_way.pop(key, None)
            if left:
                self.under_way[key] = left
        elif words[:2] == [b"done", b"write"]:
            session = int(words[2])
            if int(words[3]) == self.last[session] and self.under_way.pop(session, None):
                self.tags[self.current[session]] = Tag(int(words[5]), int(words[6]))
                self.next_write(session)
        elif words[0] in (b"refused", b"gone"):
            raise SystemExit(line)

    def go_on(self, most):
        """Carries until fewer are under way; what was lost is sent again."""
        while len(self.under_way) > most:
            self.carrier.turn(0.1)
            if time.monotonic() > self.heard + 10:
                self.heard = time.monotonic()
                for lines in self.under_way.values():
                    for line in lines:
                        self.carrier.send(line)

    def keep(self, sample):
        for session, number, size in sample:
            body = chunk_lines.keep(session, number, b"x" * size)
            column = (session - 1) % 2
            self.send((session, number), *(b"%d carol %b" % (node.number, body) for node in self.nodes[column::2]))
            self.go_on(32 if size < LONG else 4)
        self.go_on(0)

    def next_write(self, session):
        if found := next(self.left[session], None):
            (volume, file), text = found
            self.last[session] += 1
            self.current[session] = volume, file
            self.send(session, b"%d carol write %d %d %d %d %b" % (self.homes[session], session, self.last[session], volume, file, to_hex(text)))

    def write(self, filling):
        """All files, by all sessions side by side."""
        self.left = {session: filling.writes(session) for session in self.homes}
        for session in self.homes:
            self.next_write(session)
        self.go_on(0)

    def end(self):
        for node in self.nodes:
            node.gone()


class Nodes:
    """A grid in a folder, by `./grid`, that has so many names."""

    def __init__(self, program, folder, names, blocks, over, parts=0):
        self.folder, begin = folder, time.monotonic()
        (folder / "plan").write_text(plan_for(names, blocks, parts))
        self.fill(program, names)
        self.filled_in = time.monotonic() - begin
        self.log = open(folder / "log.grid", "wb")
        words = [TOP / "grid", "--over", over, "--plan", folder / "plan", "--program", program, folder / "grid"]
        words += ["--port", str(free_ports(8))] if over == "links" else []
        self.process = subprocess.Popen(list(map(str, words)), stdin=subprocess.DEVNULL, stdout=self.log, stderr=self.log)
        while b"nodes are up" not in (folder / "log.grid").read_bytes():
            if self.process.poll() is not None or time.monotonic() > begin + self.filled_in + STARTED:
                raise SystemExit((folder / "log.grid").read_text())
            time.sleep(0.05)
        (folder / "carol.ini").write_text((folder / "grid/carol.ini").read_text())
        self.started_in = time.monotonic() - begin - self.filled_in
        self.index()

    def fill(self, program, names):
        """Into memory first, where there is a folder of it: nobody waits for syncs then."""
        memory = Path("/dev/shm")
        with tempfile.TemporaryDirectory(prefix="gridfs-million-", dir=memory if memory.is_dir() else self.folder) as room:
            volumes = [Volume(int(words[2]), int(words[3])) for words in map(str.split, (self.folder / "plan").read_text().splitlines()) if words[1:2] == ["open"] for _ in range(int(words[5] if words[4:5] == ["times"] else 1))]
            self.filling = Filling(Layout(SESSIONS, tuple(volumes)), names)
            journals = Journals(program, room, self.folder / "plan", SESSIONS)
            journals.keep(self.filling.sample)
            journals.write(self.filling)
            journals.end()
            shutil.move(room, self.folder / "grid")
            Path(room).mkdir()
        shutil.copy(self.folder / "plan", self.folder / "grid/plan")
        self.tags, self.fullest, self.pages = journals.tags, max(self.filling.taken.values()), self.filling.layout.pages

    def index(self):
        """The index as a gateway would leave it at its end."""
        found = Settings.gather({"config": str(self.folder / "carol.ini")}, {})
        carrier = found.carrier()
        told = ask_plan(carrier, found.pace())
        layout, path, word = layout_of(told), str(self.folder / "index"), os.urandom(16).hex()
        assert layout == self.filling.layout
        fill_index(path, self.filling, self.tags)
        index = Index(path)
        sessions = [Session(carrier, number, told.home_of(number), found.pace()) for number in range(1, told.sessions + 1)]
        files = NamedFiles(sessions[0], layout)
        files.put(WORD_OF_GRID, word.encode())
        page = layout.page_of(WORD_OF_GRID)
        index.keep(page, 1, files.writer.bucket(page).client.seen[0])
        index.say("grid", word)
        for session in sessions:
            session.read(0, 0)
            index.say(f"session {session.number}", End(session.home, session.last).text())
        index.close()
        carrier.close()
        del self.filling, self.tags

    def nodes(self):
        """The processes of the nodes."""
        found = []
        for path in Path("/proc").glob("[0-9]*/cmdline"):
            try:
                words = path.read_text().split("\0")
            except OSError:
                continue  # (it has ended)
            if words[1:2] == ["node"] and any(word.startswith(f"{self.folder}/") for word in words):
                found.append(int(path.parent.name))
        return found

    def memory(self):
        """MiB of each node."""
        return sorted(status_of(each, "VmRSS") for each in self.nodes())

    def end(self):
        self.process.send_signal(signal.SIGINT)
        self.process.wait()
        self.log.close()


def fill_index(path, filling, tags):
    """The index has each page, as if it had been told of one after another. (Lines are not read one by one: most differ in few words.)"""
    index, layout = Index(path), filling.layout
    pages = ((page * 64 + session, *pair_of(tags[layout.page(session, page)]), filling.text(page, session)) for page, session in filling.lines)
    index.base.executemany("insert into pages values (?, ?, ?, ?)", pages)
    index.base.executemany(ADDED, sorted(rows_of(filling)))
    index.close()


def pair_of(tag):
    return tag.number, tag.session


def rows_of(filling):
    alike = {}
    for (_, session), lines in filling.lines.items():
        for text in lines:
            version, words, rest = text[:-1].split(" ", 2)
            size, name = rest.partition(" ")[0], rest.rpartition(" ")[2]
            if (words, size) not in alike:
                alike[words, size] = stored(parse_line(text[:-1]), session, "")
            like, number = alike[words, size], int(version)
            assert like[11:13] == (like[3], like[4])
            yield name.encode(), "", session, number, session, *like[5:11], number, session, like[13]


def status_of(process, word):
    with open(f"/proc/{process}/status") as text:
        return next(int(line.split()[1]) // 1024 for line in text if line.startswith(word))
