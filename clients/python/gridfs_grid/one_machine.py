"""What a grid on one machine owes to whoever runs it, whichever way its lines go."""

import contextlib
import fcntl
import os
import re
import shutil
import signal
import subprocess
import sys

from gridfs_grid.carrier import journal_of
from gridfs_grid.places import WATCH

START, READ = 15, 1 << 21  # seconds in which a node has to be ready, and bytes of its journal that it reads in one more
DAMAGED = 4  # the status of a node whose journal is damaged
STAY_DOWN = (1, 2, DAMAGED, 125, 127)  # statuses of a node, or of what is to start it, that a further start would not mend
KILLED = (-signal.SIGKILL, 128 + signal.SIGKILL)  # what a process ends with that is killed, and a carrier whose node is
FIRST_WORDS = 1  # of a program, before those of its command
SIGNALS = (signal.SIGINT, signal.SIGTERM, signal.SIGHUP)


class NotStarted(Exception):
    """What keeps a grid from its start."""


class InUse(NotStarted):
    """Another grid runs in the folder."""


def tell(text):
    print(f"grid: {text}", file=sys.stderr, flush=True)


def begin():
    """Has signals end this program, and what it makes be its owner's alone: journals hold the contents of all tenants."""
    for it in SIGNALS:
        # (a script's background job begins with SIGINT ignored, and has to end all the same; nohup ignores SIGHUP on purpose)
        if it != signal.SIGHUP or signal.getsignal(it) != signal.SIG_IGN:
            signal.signal(it, signal.default_int_handler)
    os.umask(0o077)


def end():
    """From now on no signal interrupts us: what was started has to be ended."""
    for it in SIGNALS:
        signal.signal(it, signal.SIG_IGN)


def lock(folder):
    """Locks the folder, and writes nothing there. It is locked until the last process has ended that has this handle. InUse where it is
    locked already."""
    handle = os.open(folder, os.O_RDONLY | os.O_DIRECTORY)
    try:
        fcntl.flock(handle, fcntl.LOCK_EX | fcntl.LOCK_NB)
    except BlockingIOError:
        pids = ", ".join(map(str, holders(handle)))
        os.close(handle)
        raise InUse(f"{folder}: a grid runs there (processes {pids or 'of another user'})") from None
    return handle


def holders(handle):
    """The processes, but for this one, that have the folder open too."""
    pids = [int(name) for name in os.listdir("/proc") if name.isdigit() and int(name) != os.getpid()]
    return [pid for pid in pids if has_open(pid, os.fstat(handle))]


def processes_of(folder, number):
    """Those of a node whose journal is in this folder."""
    wanted = os.path.realpath(journal_of(folder, number))
    return [pid for pid in map(int, filter(str.isdigit, os.listdir("/proc"))) if runs_node(pid, number, wanted)]


def runs_node(pid, number, journal):
    try:
        with open(f"/proc/{pid}/cmdline", "rb") as file:
            words = os.fsdecode(file.read()).split("\0")
        at = os.path.join(os.readlink(f"/proc/{pid}/cwd"), words[words.index("--journal") + 1])
    except (OSError, ValueError, IndexError):  # (it has ended, is another user's, or no node)
        return False
    return words[FIRST_WORDS : FIRST_WORDS + 2] == ["node", str(number)] and os.path.realpath(at) == journal


def has_open(pid, wanted):
    try:
        with os.scandir(f"/proc/{pid}/fd") as handles:
            return any(os.path.samestat(it.stat(), wanted) for it in handles)
    except OSError:  # (it has ended, or is another user's)
        return False


def look_at(program):
    """The program has to be there, and to know nodes: else NotStarted. (`./gridfs` may build it now, for some minutes.)"""
    try:
        known = subprocess.run([program, "node", "--help"], stdin=subprocess.DEVNULL, stdout=subprocess.DEVNULL).returncode
    except OSError as error:
        raise NotStarted(f"{program}: {error.strerror}") from error
    if known:
        raise NotStarted(f"{program} has no command `node`")


def write_settings(folder, name, shape, how):
    """Writes what a tenant's client has to know: which grid it is, and how it is found. The path."""
    path = os.path.join(folder, f"{name}.ini")
    with open(path, "w", encoding="utf-8") as out:
        out.write("[gridfs]\n" + "".join(f"{key} = {value}\n" for key, value in {"tenant": name, "grid": shape, **how}.items()))
    return path


def keep_way(folder, way):
    """Keeps by which way the grid's lines go, for a later start that names none."""
    with open(os.path.join(folder, "over"), "w", encoding="ascii") as out:
        out.write(f"{way}\n")


def kept_way(folder):
    """The way that is kept; None where there is none."""
    try:
        with open(os.path.join(folder, "over"), encoding="ascii") as file:
            way = file.read().strip()
    except (FileNotFoundError, NotADirectoryError):
        return None
    return way if way in ("pipes", "links", "mqtt") else None


def seconds_to_start(journal):
    """In which a node has to be ready, by the length of its journal."""
    return START + (os.path.getsize(journal) / READ if os.path.exists(journal) else 0)


def remove_journal(folder, number):
    """As a disk does that is lost: with what was about to take the journal's place, and the shelf."""
    for path in (journal_of(folder, number), journal_of(folder, number) + ".new"):
        with contextlib.suppress(FileNotFoundError):
            os.unlink(path)
    shutil.rmtree(journal_of(folder, number) + ".shelf", ignore_errors=True)


def keep(path, text):
    """Writes a plan anew, at once."""
    with open(path + ".new", "w", encoding="latin1") as out:
        out.write(text)
    os.replace(path + ".new", path)


def with_loss(plan, place):
    """The text of a plan that says besides that a node was lost at this place."""
    return plan + "\n" * (not plan.endswith("\n")) + f"replace {place}\n"


@contextlib.contextmanager
def watched(asked, folder):
    """As long as the grid runs, gridfs-watch shows it at the address that is asked for, if any."""
    if not asked.http:
        yield
        return
    words = [sys.executable, "-B", WATCH, "--listen", asked.http, *(["--metrics", asked.metrics] if asked.metrics else []), folder]
    process = subprocess.Popen(words, stdin=subprocess.DEVNULL, preexec_fn=os.setpgrp)
    try:
        yield
    finally:
        process.terminate()
        process.wait()


def is_ready(number, told):
    """Whether the node has said that it read its journal, in what it told since its start."""
    return re.search(rf"^gridfs: node {number} of \d by \d: ", told, re.M) is not None


def how_ended(status):
    why = " (killed, maybe for lack of memory)" if status in KILLED else ""
    return (f"by signal {-status}" if status < 0 else f"with status {status}") + why


def how_many_are_up(up, nodes):
    return f"{nodes} nodes are up" if up == nodes else f"{up} of {nodes} nodes are up"


def way_out(status, has_journal, replacing):
    """What to do about a node that has ended and stays down. `replacing` says how a new one is put in its place."""
    if not has_journal:
        return f"its journal is gone ({replacing} puts a new node in its place)"
    if status == DAMAGED:
        return f"its journal is damaged: a person has to look (docs/FAULTS.md, Faults); where it is lost, {replacing} puts a new node in its place"
    return "a person has to look (docs/FAULTS.md, Faults)"
