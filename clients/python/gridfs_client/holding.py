"""Nodes that are held: their processes are stopped for a moment, in which their files are opened as they stand.

Nodes of a grid that are all held at once, and opened before any of them goes on, are opened as of one moment. It is as
if all had been killed then, which harms nothing that was acknowledged (docs/PROVED.md). Nodes that are opened one after
another are no such state: of a name an earlier one has the page that names chunks which a later one has forgotten.
A node that is held answers later, and what it is told meanwhile waits in its pipe.
"""

import fcntl
import os
import select
import signal
import subprocess
import time
from collections.abc import Iterator, Mapping, Sequence
from contextlib import ExitStack, suppress
from typing import IO

from .errors import BadFile
from .shelves import NodeFiles

SECONDS = 10  # after which a node goes on by itself, whatever became of who held it
SOON = 5.0  # seconds in which a node has to be stopped: a sync may be under way
LOOK = 0.001  # seconds until it is looked again
READY = 60.0  # seconds until a command on another machine has to be ready
# It ends with whoever holds the node, or after a while, and has the node go on.
GUARD = 'timeout "$0" cat >/dev/null; kill -CONT "$@" 2>/dev/null'
READY_WORD, HOLD, HELD, GO, WENT = b"ready\n", b"hold\n", b"held\n", b"go\n", b"went\n"


class NotHeld(BadFile):
    """The node can't be held, or went on before it was told to."""


class Hold:
    """Of the node of a journal. One that does not run is kept from its start."""

    def __init__(self, journal: str):
        self.journal, self.opened = journal, ExitStack()
        self.pids = list[int]()
        self.guard: subprocess.Popen[bytes] | None = None

    def begin(self) -> None:
        """The node is still once this has ended. NotHeld."""
        self.pids = holders(f"{self.journal}.lock")
        if not self.pids:
            return self.keep_from_start()
        words = ["sh", "-c", GUARD, f"{SECONDS}", *map(str, self.pids)]
        self.guard = subprocess.Popen(words, stdin=subprocess.PIPE, stdout=subprocess.DEVNULL, start_new_session=True)
        try:
            for pid in self.pids:
                os.kill(pid, signal.SIGSTOP)
            until = time.monotonic() + SOON
            while not self.is_held():
                if time.monotonic() > until:
                    raise NotHeld(f"{self.journal}: its node is not still after {SOON:g} s")
                time.sleep(LOOK)
        except BaseException as fault:
            self.end()
            if isinstance(fault, OSError):
                raise NotHeld(f"{self.journal}: its node ended, or is another user's: {fault.strerror}") from None
            raise

    def keep_from_start(self) -> None:
        with suppress(FileNotFoundError):  # (no node ever ran beside it)
            lock = self.opened.enter_context(open(f"{self.journal}.lock", "rb"))
            try:
                fcntl.flock(lock, fcntl.LOCK_EX | fcntl.LOCK_NB)
            except BlockingIOError:
                self.end()
                raise NotHeld(f"{self.journal}: its node's process is not found: root finds it, on the node's machine") from None

    def is_held(self) -> bool:
        """Whether the node's process is there and still."""
        return all(is_stopped(pid) and has_open(pid, os.stat(f"{self.journal}.lock")) for pid in self.pids)

    def end(self) -> bool:
        """Has it go on; whether it was still until then."""
        self.opened.close()
        guard, self.guard = self.guard, None
        if guard is None:
            return True
        was_held = guard.poll() is None and self.is_held()
        guard.communicate()
        return was_held


def holders(lock: str) -> list[int]:
    """The processes that have this file open."""
    try:
        wanted = os.stat(lock)
    except FileNotFoundError:
        return []
    return [pid for pid in map(int, filter(str.isdigit, os.listdir("/proc"))) if has_open(pid, wanted)]


def has_open(pid: int, wanted: os.stat_result) -> bool:
    try:
        with os.scandir(f"/proc/{pid}/fd") as handles:
            return any(os.path.samestat(each.stat(), wanted) for each in handles)
    except OSError:  # (it has ended, or is another user's)
        return False


def is_stopped(pid: int) -> bool:
    """Whether each thread of a process has stopped. (A signal to stop is obeyed a little later, behind a call of the
    system that is under way.)
    """
    try:
        return all(state_of(f"/proc/{pid}/task/{each}/stat") in "Tt" for each in os.listdir(f"/proc/{pid}/task"))
    except OSError:
        return False


def state_of(path: str) -> str:
    with open(path, encoding="latin1") as file:
        return file.read().rpartition(") ")[2][:1]


def open_all(journals: Sequence[str]) -> tuple[list[NodeFiles], float]:
    """The files of nodes of this machine, opened as of one moment, and for how many seconds the nodes were held."""
    found, holds = list[NodeFiles](), [Hold(journal) for journal in journals]
    begun = time.monotonic()
    try:
        for hold in holds:
            hold.begin()
            found.append(NodeFiles(hold.journal, is_still=True))
    except BaseException:
        close_all(found)
        raise
    finally:
        were_held = [hold.end() for hold in holds]
    seconds = time.monotonic() - begun
    try:
        if not all(were_held):
            raise NotHeld("a node went on before all others were held: try again")
        for files in found:
            files.read_opened()
    except BaseException:
        close_all(found)
        raise
    return found, seconds


def close_all(found: Sequence[NodeFiles]) -> None:
    for files in found:
        files.close()


# Of other machines: a command there holds a node, and is told by lines when


def open_when_told(journal: str, lines: IO[bytes], out: IO[bytes]) -> tuple[NodeFiles, bytes]:
    """The files of a node that is held from the line `hold` on until the line `go`; and the lines ahead of these."""

    def say(word: bytes) -> None:
        out.write(word)
        out.flush()

    say(READY_WORD)
    told = b""
    while (line := lines.readline()) != HOLD:
        if not line:
            raise NotHeld("whoever holds all nodes has gone")
        told += line
    hold, files = Hold(journal), None
    hold.begin()
    try:
        files = NodeFiles(journal, is_still=True)
        say(HELD)
        is_told = lines.readline() == GO
        if not hold.end() or not is_told:
            raise NotHeld(f"{journal}: its node went on before all others were held")
        say(WENT)
        files.read_opened()
        return files, told
    except BaseException:
        hold.end()
        if files:
            files.close()
        raise


def hold_together(commands: Mapping[int, subprocess.Popen[bytes]], had: Mapping[int, bytes]) -> tuple[list[int], float]:
    """Has such commands hold their nodes at once, each with the lines of what is had of it already; those that did, and
    the seconds. The output of each of these goes on with what it has of its node.
    """
    left = [each for each in commands if hears(commands[each], READY_WORD, READY)]
    left = [each for each in left if tells(commands[each], had[each])]
    begun = time.monotonic()
    for word, answer in ((HOLD, HELD), (GO, WENT)):
        left = [each for each in left if tells(commands[each], word)]
        until = time.monotonic() + SOON
        left = [each for each in left if hears(commands[each], answer, until - time.monotonic())]
    return left, time.monotonic() - begun


def tells(command: subprocess.Popen[bytes], text: bytes) -> bool:
    assert command.stdin
    try:
        command.stdin.write(text)
        command.stdin.flush()
        return True
    except OSError:
        return False


def hears(command: subprocess.Popen[bytes], wanted: bytes, seconds: float) -> bool:
    """Whether the next line comes in time, and is this one. No byte behind it is taken."""
    return b"".join(letters_of(command, len(wanted), seconds)) == wanted


def letters_of(command: subprocess.Popen[bytes], count: int, seconds: float) -> Iterator[bytes]:
    assert command.stdout
    until = time.monotonic() + seconds
    for _ in range(count):
        if not select.select([command.stdout], [], [], max(0, until - time.monotonic()))[0]:
            return
        letter = os.read(command.stdout.fileno(), 1)
        yield letter
        if letter in (b"", b"\n"):
            return
