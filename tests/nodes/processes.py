"""Nodes as processes: run to the end of their input, or led step by step; and what a loss of power leaves of their files."""

import contextlib
import fcntl
import multiprocessing
import os
import select
import shutil
import signal
import subprocess
import tempfile
import time

SECONDS = 60  # that a process may take for what is asked of it
READ = 1 << 16
# A tenant of each plan, which has no more to do than to mark the end of a step: a line of it is answered at once.
MARKER = "tenant mark 1 1 1\n"
MARK, MARKED = b"%d mark abandon 99 1\n", b"mark %d refused nosession 99 1\n"


class Wrong(Exception):
    """Something is not as it has to be."""


def check(holds, what):
    if not holds:
        raise Wrong(what)


# What comes about where a node does not keep to its forms.
WRONG = (Wrong, OSError, ValueError, LookupError, subprocess.TimeoutExpired)


class Silent(Wrong):
    """A process has not answered for some seconds."""


@contextlib.contextmanager
def room():
    """A folder for some nodes."""
    folder = tempfile.mkdtemp()
    try:
        yield folder
    finally:
        shutil.rmtree(folder, ignore_errors=True)


def interrupt(*_):
    """The first signal ends us, and no other one the end."""
    for it in (signal.SIGINT, signal.SIGTERM):
        signal.signal(it, signal.SIG_IGN)
    raise KeyboardInterrupt


def as_worker():
    """A worker ends when it is told to, and not by a signal from the terminal."""
    signal.signal(signal.SIGTERM, signal.SIG_DFL)
    signal.signal(signal.SIGINT, signal.SIG_IGN)


@contextlib.contextmanager
def workers():
    """A process for each core. All rooms are in one folder, where syncs cost nothing if there is such a place; it is removed at the end, also
    where a signal brings it about."""
    memory = "/dev/shm" if os.access("/dev/shm", os.W_OK) else None
    tempfile.tempdir = tempfile.mkdtemp(prefix="gridfs-nodes-", dir=memory)
    for it in (signal.SIGINT, signal.SIGTERM):
        signal.signal(it, interrupt)
    try:
        with multiprocessing.Pool(len(os.sched_getaffinity(0)), as_worker) as pool:
            yield pool
    finally:
        shutil.rmtree(tempfile.tempdir, ignore_errors=True)


def put(path, text):
    with open(path, "wb") as out:
        out.write(text)


def get(path):
    with open(path, "rb") as file:
        return file.read()


def words_of(program, number, plan, journal, is_new=False):
    return [program, "node", str(number), "--plan", plan, "--journal", journal] + ["--new"] * is_new


def built_disk(folder):
    """The library of disk.c, which is built in this folder."""
    library = os.path.join(folder, "disk.so")
    source = os.path.join(os.path.dirname(os.path.abspath(__file__)), "disk.c")
    subprocess.run([os.environ.get("CC", "cc"), "-O2", "-shared", "-fPIC", "-o", library, source], check=True)
    return library


def disk(library, **how):
    """The environment of a process with disk.c before the C library."""
    return {**os.environ, "LD_PRELOAD": library, **{name: str(value) for name, value in how.items()}}


def ended(words, given=b"", **more):
    """Runs a process to its end: its status, what it told, and what it wrote."""
    try:
        done = subprocess.run(words, input=given, stdout=subprocess.PIPE, stderr=subprocess.PIPE, timeout=SECONDS, **more)
    except subprocess.TimeoutExpired as error:
        raise Silent(f"{' '.join(words)} has not ended after {SECONDS} seconds") from error
    return done.returncode, done.stderr, done.stdout


@contextlib.contextmanager
def still(folder):
    """As long as this lasts no process with disk.c is amid a rename in the folder, or amid its sync."""
    lock = os.open(folder, os.O_RDONLY)
    try:
        fcntl.flock(lock, fcntl.LOCK_EX)
        yield
    finally:
        os.close(lock)


class Stepped:
    """A node's process that is given lines, of at most 65,000 bytes in all, and has done with them before it is given more. So what it
    does depends on these lines alone, also where disk.c stops it."""

    def __init__(self, words, number, folder, environment=None):
        self.number, self.words, self.folder = number, words, folder
        self.end = MARKED % number
        self.told = open(os.path.join(folder, f"told{number}"), "ab")
        self.child = subprocess.Popen(words, stdin=subprocess.PIPE, stdout=subprocess.PIPE, stderr=self.told, bufsize=0, cwd=folder, env=environment)
        self.out, self.given = self.child.stdout.fileno(), self.child.stdin.fileno()

    def step(self, lines):
        """What the node writes for these lines, and whether it lives: where it does not, its last line may be torn."""
        self.give(lines)
        return self.take()

    def give(self, lines):
        """The first half of a step. Other nodes may be given lines before the second, which is to be done before this node is given more."""
        try:
            os.write(self.given, lines + MARK % self.number)
        except BrokenPipeError:
            pass

    def read(self):
        if not select.select([self.out], [], [], SECONDS)[0]:
            raise Silent(f"node {self.number} has not answered for {SECONDS} seconds")
        return os.read(self.out, READ)

    def take(self):
        wrote, last = [], b""
        while True:
            read = self.read()
            wrote.append(read)
            last = (last + read)[-len(self.end) :]
            if last == self.end:
                return b"".join(wrote)[: -len(self.end)], True
            if not read:
                return b"".join(wrote), False

    def step_and_kill(self, lines, seconds):
        """Gives the node lines, and kills it so long behind that: what it wrote until then, of which the last line may be torn."""
        os.write(self.given, lines)
        time.sleep(seconds)
        self.end_now()
        return b"".join(iter(lambda: os.read(self.out, READ), b""))

    def end_now(self):
        """Ends the process (kill -9), between two calls of its disk or amid a write; its status, if it has ended before."""
        with still(self.folder):
            self.child.send_signal(signal.SIGKILL)
            return self.child.wait()

    def kill(self):
        """Ends the process, and lets go of its streams. Its status."""
        status = self.end_now()
        for file in (self.child.stdin, self.child.stdout, self.told):
            file.close()
        return status


class Streamed(Stepped):
    """The same for lines of any length, which go to the node as it reads them. How they are cut into reads hangs on the clock."""

    def __init__(self, *words):
        super().__init__(*words)
        os.set_blocking(self.given, False)
        self.left = memoryview(b"")

    def give(self, lines):
        self.left = memoryview(lines + MARK % self.number)
        self.write()

    def write(self):
        try:
            self.left = self.left[os.write(self.given, self.left) :]
        except BlockingIOError:
            pass
        except BrokenPipeError:
            self.left = memoryview(b"")

    def read(self):
        until = time.monotonic() + SECONDS
        while True:
            readable, writable, _ = select.select([self.out], [self.given] * bool(self.left), [], SECONDS)
            if writable:
                self.write()
            if readable:
                return os.read(self.out, READ)
            if time.monotonic() > until:
                raise Silent(f"node {self.number} has not answered for {SECONDS} seconds")

    def step_and_kill(self, lines, seconds, part=None):
        """The same, where a part of the lines alone may have been written to the node when it is killed."""
        self.left, wrote, until = memoryview(lines)[:part], [], time.monotonic() + seconds
        while self.left or time.monotonic() < until:
            readable, writable, _ = select.select([self.out], [self.given] * bool(self.left), [], 0.01)
            if writable:
                self.write()
                until = time.monotonic() + seconds
            if readable:
                wrote.append(os.read(self.out, READ))
                if not wrote[-1]:
                    break
        self.end_now()
        return b"".join([*wrote, *iter(lambda: os.read(self.out, READ), b"")])


def lose_power(journal, draw):
    """Leaves of a dead node's files what a loss of power may leave: what was synced, any beginning of what was written behind it or
    something else in its place; and a rename whose folder was not synced may not have been. Another node may sync the folder meanwhile."""
    with still(os.path.dirname(journal)):
        if draw.random() < 0.5:
            undo_rename(journal)
        for path in (journal + ".before", journal + ".before.synced", journal + ".fresh"):
            with contextlib.suppress(FileNotFoundError):
                os.unlink(path)
        for path in (journal, journal + ".new"):
            if os.path.exists(path):
                lose_end(path, draw)


def undo_rename(journal):
    """Takes back the rename by which the journal came to its name, if the folder was not synced since."""
    before = journal + ".before"
    if not os.path.exists(before) and not os.path.exists(journal + ".fresh"):
        return
    os.replace(journal, journal + ".new")
    if os.path.exists(journal + ".synced"):
        os.replace(journal + ".synced", journal + ".new.synced")
    if os.path.exists(before):
        os.replace(before, journal)
        if os.path.exists(before + ".synced"):
            os.replace(before + ".synced", journal + ".synced")


def lose_end(path, draw):
    text = get(path)
    # (who was killed before its first note left the file empty)
    synced = int(get(path + ".synced") or 0) if os.path.exists(path + ".synced") else 0
    synced = min(synced, len(text))
    kept = draw.randint(synced, len(text))
    other = draw.choice([b"", b"", bytes(len(text) - kept), draw.randbytes(len(text) - kept)])
    put(path, text[:kept] + other)
