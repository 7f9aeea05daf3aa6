"""Gateways of several tenants that share the memory of the program, and nothing else: `gridfs-s3 --several FILE`.

Each is a process of its own, of its own user where the file says so, with its own keys, connections, sessions and bounds. All are forked from one process that
has loaded the program, and that takes no request and reads no key. So what a gateway is told by a tenant no other tenant's gateway can see, and one that
falls, or is kept busy, is nobody else's. A gateway that ends is begun again.

In one process a tenant more would take less memory. But there a fault, a busy thread or memory that one tenant's requests take is all tenants',
and one user can read all their keys.
"""

import ctypes
import gc
import grp
import os
import pwd
import re
import resource
import shlex
import signal
import sys
import time
from argparse import ArgumentParser, Namespace
from collections.abc import Callable
from dataclasses import dataclass
from pathlib import Path
from typing import NoReturn

from . import config
from .errors import speak_for, tell

SIGNALS = {signal.SIGCHLD, signal.SIGHUP, signal.SIGINT, signal.SIGTERM}
SOON, LATEST, LASTING = 1.0, 30.0, 60.0  # seconds until one that ended is begun again, at first and at most; and from which on it had lasted
MOST_MEMORY = 2 << 30  # bytes that a gateway may have to write into, with the stacks of its threads: it falls alone, before all of them do
WITH_PARENT = 1  # of prctl: the signal that a process gets when its parent ends


class BadLines(Exception):
    """What is wrong in the file, and in which line."""


@dataclass(frozen=True)
class Line:
    """A gateway as the file has it."""

    text: str
    user: str | None
    group: str | None  # in place of the user's own
    environment: tuple[tuple[str, str], ...]
    words: tuple[str, ...]

    @property
    def asked(self) -> Namespace:
        return parser().parse_args(self.words)

    @property
    def name(self) -> str:
        """By which it speaks on standard error."""
        return Path(self.asked.config or self.asked.map).stem


class Parser(ArgumentParser):
    def error(self, message: str) -> NoReturn:
        raise BadLines(message)


def parser() -> ArgumentParser:
    return config.parser(Parser)


def line_of(text: str) -> Line:
    """[user=NAME] [group=NAME] [VARIABLE=VALUE..] and the words of `gridfs-s3`. BadLines."""
    try:
        words = shlex.split(text, comments=True)
    except ValueError as fault:
        raise BadLines(str(fault)) from None
    before = dict[str, str]()
    while words and (found := re.fullmatch(r"(user|group|[A-Z_]+)=(.*)", words[0], re.S)):
        before[found[1]] = found[2]
        words.pop(0)
    user, group = before.pop("user", None), before.pop("group", None)
    try:
        if user is not None:
            pwd.getpwnam(user)
        if group is not None:
            grp.getgrnam(group)
    except KeyError:
        raise BadLines(f"there is no user {user}, or no group {group}" if group else f"there is no user {user}") from None
    line = Line(text, user, group, tuple(before.items()), tuple(words))
    asked = line.asked
    if asked.several:
        raise BadLines("--several is for all gateways, not for one")
    if not (asked.config or asked.map):
        raise BadLines("--config or --map is wanted")
    if not asked.keys:
        raise BadLines("--keys is wanted")
    if group and not user:
        raise BadLines("group= is wanted with user=")
    return line


def read_lines(path: str) -> dict[str, Line]:
    """The gateways of a file, by where they listen. BadLines."""
    found = dict[str, Line]()
    try:
        text = Path(path).read_text()
    except (OSError, UnicodeError) as fault:
        raise BadLines(f"{path}: {getattr(fault, 'strerror', None) or fault}") from None
    for number, each in enumerate(text.splitlines(), 1):
        if each.strip() and not each.lstrip().startswith("#"):
            try:
                line = line_of(each.strip())
                if line.asked.listen in found:
                    raise BadLines(f"an earlier line listens at {line.asked.listen}")
            except BadLines as fault:
                raise BadLines(f"{path}: line {number}: {fault}") from None
            found[line.asked.listen] = line
    if not found:
        raise BadLines(f"{path}: no line has a gateway")
    return found


@dataclass
class Child:
    """A gateway that runs, or is to be begun."""

    line: Line
    pid: int | None = None
    due: float = 0.0  # when it is to be begun
    begun: float = 0.0
    pause: float = SOON
    is_over: bool = False  # it is not begun again


class Gateways:
    """All gateways of the file, each as long as its line is there."""

    def __init__(self, path: str, run: Callable[[Namespace], None]):
        self.path, self.run = path, run
        self.wanted = read_lines(path)
        self.children = {where: Child(line) for where, line in self.wanted.items()}
        self.is_ending = False

    def go_on(self) -> None:
        """Until a signal ends it, and all gateways have ended."""
        signal.pthread_sigmask(signal.SIG_BLOCK, SIGNALS)
        gc.collect()
        gc.freeze()  # (so that collections write to none of the memory that is shared)
        while self.children:
            self.begin_what_is_due()
            due = [child.due for child in self.children.values() if child.pid is None]
            got = signal.sigtimedwait(SIGNALS, max(0.0, min(due) - time.monotonic()) if due else 3600.0)
            if got and got.si_signo == signal.SIGHUP:
                self.read_again()
            elif got and got.si_signo != signal.SIGCHLD:
                self.is_ending = True
                self.end(list(self.children.values()))
            self.see_who_ended()

    def begin_what_is_due(self) -> None:
        for child in self.children.values():
            if child.pid is None and child.due <= time.monotonic():
                child.begun = time.monotonic()
                try:
                    child.pid = os.fork() or become(child.line, self.run)
                except OSError as fault:  # (no memory for a process more: the others go on)
                    tell(f"{child.line.name}: {fault.strerror}")
                    child.due = child.begun + LATEST

    def see_who_ended(self) -> None:
        while True:
            try:
                pid, told = os.waitpid(-1, os.WNOHANG)
            except ChildProcessError:
                break
            if not pid:
                break
            for where, child in list(self.children.items()):
                if child.pid == pid:
                    self.ended(where, child, os.waitstatus_to_exitcode(told))
        for where, child in list(self.children.items()):
            if child.is_over and child.pid is None:
                self.leave(where)

    def ended(self, where: str, child: Child, status: int) -> None:
        now, child.pid = time.monotonic(), None
        if not child.is_over:
            child.pause = SOON if now > child.begun + LASTING else min(2 * child.pause, LATEST)
            child.due = now + child.pause
            tell(f"{child.line.name} ended with status {status}; it is begun again in {child.pause:g} s")

    def leave(self, where: str) -> None:
        """Its line is gone, or was another one when it was to end."""
        del self.children[where]
        if not self.is_ending and (later := self.wanted.get(where)):
            self.children[where] = Child(later)

    def end(self, children: list[Child]) -> None:
        for child in children:
            child.is_over = True
            if child.pid is not None:
                os.kill(child.pid, signal.SIGTERM)

    def read_again(self) -> None:
        """New lines begin, those that are gone end, and the rest read their keys again. Where a line is wrong all stay as they were."""
        try:
            self.wanted = read_lines(self.path)
        except BadLines as fault:
            tell(f"{fault}; the gateways stay as they were")
            return
        for child in self.children.values():
            if child.pid is not None and not child.is_over and self.wanted.get(child.line.asked.listen) == child.line:
                os.kill(child.pid, signal.SIGHUP)
        self.end([child for where, child in self.children.items() if self.wanted.get(where) != child.line])
        for where, line in self.wanted.items():
            self.children.setdefault(where, Child(line))
        tell(f"{self.path} is read again: {len(self.wanted)} gateways")


def become(line: Line, run: Callable[[Namespace], None]) -> NoReturn:
    """This process, which was forked, is the gateway of the line from now on, and ends with it."""
    status = 1
    try:
        parent = os.getppid()
        if line.user is not None:
            user = pwd.getpwnam(line.user)
            os.initgroups(line.user, user.pw_gid)
            os.setgid(grp.getgrnam(line.group).gr_gid if line.group else user.pw_gid)
            os.setuid(user.pw_uid)
        ctypes.CDLL(None).prctl(WITH_PARENT, signal.SIGTERM)
        if os.getppid() == parent:
            os.environ.update(line.environment)
            speak_for(line.name)
            resource.setrlimit(resource.RLIMIT_DATA, (MOST_MEMORY, MOST_MEMORY))
            signal.pthread_sigmask(signal.SIG_UNBLOCK, SIGNALS)
            run(line.asked)
            status = 0
    except SystemExit as fault:
        if isinstance(fault.code, str):
            print(fault.code, file=sys.stderr)
        status = fault.code if isinstance(fault.code, int) else 1
    except BaseException as fault:
        tell(f"{line.name}: {fault!r}")
    finally:
        sys.stderr.flush()
        os._exit(status)


def run_all(path: str, run: Callable[[Namespace], None]) -> None:
    """Status 2 where a line of the file is wrong."""
    from . import connections, gateway, index, keys, routes  # noqa: F401  (what all of them share)

    try:
        gateways = Gateways(path, run)
    except BadLines as fault:
        print(f"gridfs-s3: {fault}", file=sys.stderr)
        raise SystemExit(2) from None
    gateways.go_on()
