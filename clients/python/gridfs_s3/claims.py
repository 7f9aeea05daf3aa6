"""Which gateway of this machine has a session. Commands tell each other their sessions by locks in a folder, which gateways of several users need not share. So
each gateway also has a name of this machine for each of its sessions, which no other process has meanwhile, and which goes with the process. By that name it can be asked too (peers.py)."""

import hashlib
import os
import socket
import struct
import time
from collections.abc import Callable, Iterable
from functools import partial

from gridfs_client.settings import Settings

AGAIN = 10.0  # seconds after which a session that another gateway has is asked for again


class Claims:
    """The claims of this process on sessions of a grid. `welcome` has a function called whenever a socket can be read."""

    def __init__(self, settings: Settings, welcome: Callable[[socket.socket, Callable[[], None]], object], meet: Callable[[socket.socket], None] = socket.socket.close):
        self.settings, self.welcome, self.meet = settings, welcome, meet
        self.mine: dict[int, socket.socket] = {}
        self.others: dict[int, tuple[int, float]] = {}  # the process that has a session, and when that was seen

    def take(self, number: int) -> bool:
        """Whether no other gateway of this machine has the session: now it is claimed by this one."""
        if number in self.mine:
            return True
        if number in self.others and time.monotonic() < self.others[number][1] + AGAIN:
            return False
        name = self.name(number)
        for _ in range(2):  # (the other one may just end)
            if claim := claimed(name):
                self.mine[number] = claim
                self.welcome(claim, partial(answer, claim, self.meet))
                self.others.pop(number, None)
                return True
            if process := gateway_at(name):
                self.others[number] = process, time.monotonic()
                return False
        return True  # (of a system without such names, or of a process that is no gateway's)

    def told(self) -> str:
        """Which sessions other gateways have; empty for none."""
        found = sorted({process for process, _ in self.others.values()})
        return "; ".join(f"process {each}, a gateway too, has {counted(number for number in self.others if self.others[number][0] == each)}" for each in found)

    def name(self, number: int) -> str:
        """Of the grid as these settings reach it, the tenant and the session."""
        values = self.settings.values
        if "via" in values:
            where = values["via"]
        elif "socket" in values:
            where = os.path.realpath(values["socket"])
        elif "hosts" in values:  # (whose authority no other grid has)
            with open(self.settings.need("ca-file"), "rb") as authority:
                where = hashlib.sha256(authority.read()).hexdigest()
        else:
            where = f"{values.get('broker')} {self.settings.grid_name}"
        return f"\0gridfs-s3 {hashlib.sha256(where.encode()).hexdigest()} {self.settings.tenant} {number}"


def counted(numbers: Iterable[int]) -> str:
    found = list(map(str, sorted(numbers)))
    return f"session{'s' * (len(found) > 1)} {', '.join(found)}"


def claimed(name: str) -> socket.socket | None:
    found = socket.socket(socket.AF_UNIX)
    try:
        found.bind(name)
        found.listen(8)
        found.setblocking(False)
        return found
    except OSError:
        found.close()
        return None


def answer(claim: socket.socket, meet: Callable[[socket.socket], None]) -> None:
    """Whoever asks is told by the system which process this is, and what is told besides (peers.py)."""
    try:
        meet(claim.accept()[0])
    except OSError:
        pass


def gateway_at(name: str) -> int | None:
    """The process that has a name, where it is of the group of gateways, or of this user; None else."""
    with socket.socket(socket.AF_UNIX) as asking:
        asking.settimeout(1)
        try:
            asking.connect(name)
            process, user, group = struct.unpack("3i", asking.getsockopt(socket.SOL_SOCKET, socket.SO_PEERCRED, struct.calcsize("3i")))
        except OSError:
            return None
    return process if user in (0, os.getuid()) or group == os.getgid() else None
