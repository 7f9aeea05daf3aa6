"""A listing of many names by several processes, each with a session of its own: one process of Python keeps but one core busy.

The volumes of first pages are dealt out in turn, with the pages in their place, where there are 32 of them or more. Where a process ends before it has told all, the command looks
at its share. The process of a share is told as JSON in a line what it is to do. It has the session's lock from the one that begins it, and ends with that one.
"""

import json
import os
import sys
import threading
from contextlib import ExitStack, closing, nullcontext, suppress
from pathlib import Path
from subprocess import DEVNULL, PIPE, Popen
from tempfile import TemporaryFile

from .asking import ask_plan
from .ends import Note
from .errors import Unanswered
from .layout import layout_of
from .names import NamedFiles, Share
from .opening import OpenSessions
from .sessions import Session
from .settings import Settings
from .skimming import Skimmed


def sortable(found: Skimmed) -> str:
    """What is told of a name, in one text: many of these take less memory than as many entries. (No name has a letter of number 0, so they are in the names' order.)"""
    return f"{found.name}\0{found.size:>12}  {found.version}.{found.session}  "


def line_of_sortable(text: str) -> str:
    name, _, told = text.rpartition("\0")
    return told + name


def skimmed(names: NamedFiles, settings: Settings, sessions: OpenSessions, prefix: str) -> list[str]:
    """All names that begin so, in any order: where they have many pages by other sessions too, as many as can be had at once."""
    if not names.has_many_pages():
        return names.skimmed(sortable, prefix)
    others = sessions.helpers()
    shares = [Share(first, 1 + len(others)) for first in range(1 + len(others))]
    with ExitStack() as ends:
        begun = [ends.enter_context(Process(settings, sessions, other, names, prefix, share)) for other, share in zip(others, shares[1:])]
        found = names.skimmed(sortable, prefix, shares[0])
        for process in begun:
            told = process.told()
            found += names.skimmed(sortable, prefix, process.share) if told is None else told
    return found


class Process:
    """One that goes on with a session, for a share of the names."""

    def __init__(self, settings: Settings, sessions: OpenSessions, session: Session, names: NamedFiles, prefix: str, share: Share):
        self.share = share
        task = {"settings": settings.values, "session": session.number, "home": session.home, "last": session.last}
        task |= {"volumes": len(names.layout.volumes), "prefix": prefix, "share": [share.first, share.each]}
        path = os.pathsep.join(filter(None, [str(Path(__file__).parent.parent), os.environ.get("PYTHONPATH")]))
        words = [sys.executable, *["-B"] * sys.dont_write_bytecode, "-m", __name__]
        self.out, self.process = TemporaryFile(), None
        with sessions.hand_over(session) as lock, suppress(OSError):
            self.process = Popen(words, 0, stdin=PIPE, stdout=self.out, stderr=DEVNULL, env={**os.environ, "PYTHONPATH": path}, pass_fds=[lock.fileno()])
            assert self.process.stdin  # (which stays open as long as this process lives)
            self.process.stdin.write(json.dumps(task).encode() + b"\n")

    def __enter__(self) -> "Process":
        return self

    def __exit__(self, *_: object) -> None:
        with self.out, self.process or nullcontext():
            if self.process:
                self.process.kill()

    def told(self) -> list[str] | None:
        """What it told in the end; None where it could not tell all."""
        if self.process is None or self.process.wait() != 0:
            return None
        self.out.seek(0)
        return self.out.read().decode().split("\n")[:-1]


def main() -> None:
    task = json.loads(sys.stdin.readline())
    threading.Thread(target=end_with_parent, daemon=True).start()
    settings = Settings(task["settings"])
    with closing(settings.carrier()) as carrier:
        layout = layout_of(ask_plan(carrier, settings.pace()))
        if len(layout.volumes) != task["volumes"]:
            raise Unanswered("a node told another plan than was told before")
        session = Session(carrier, task["session"], task["home"], settings.pace())
        session.last = task["last"]
        with closing(Note(settings.end_path(session.number), session)):
            found = NamedFiles(session, layout).skimmed(sortable, task["prefix"], Share(*task["share"]))
        sys.stdout.buffer.write("".join(f"{each}\n" for each in sorted(found)).encode())


def end_with_parent() -> None:
    """(Whoever had the session would wait for it.)"""
    sys.stdin.read()
    os._exit(1)


if __name__ == "__main__":
    main()
