"""The command `gridfs-s3`: its start, its signals and its end."""

import argparse
import asyncio
import os
import resource
import signal
import socket
import sqlite3
import stat
import sys
from collections.abc import Sequence
from pathlib import Path
from typing import TYPE_CHECKING

from gridfs_client.memory import keep_for_chunks

from . import config
from .several import run_all

if TYPE_CHECKING:
    from .routes import Endpoint


UNUSABLE = 2  # the status where settings, keys or certificates can't be read: a unit does not start it again
DESCRIPTORS = 8_192  # of connections, files and sockets that a gateway may have open


class Listener:
    """Where connections are taken: an address, or a socket of this machine, whose group may come too."""

    def __init__(self, where: str):
        self.where, self.path = where, Path(where[5:]) if where.startswith("unix:") else None

    def open(self) -> socket.socket:
        if self.path is None:
            host, _, port = self.where.rpartition(":")
            if not host or not port.isdecimal() or int(port) > 65_535:
                raise SystemExit("gridfs-s3: --listen is ADDRESS:PORT or unix:PATH")
            family = socket.AF_INET6 if ":" in host else socket.AF_INET
            return socket.create_server((host.strip("[]"), int(port)), family=family, backlog=1024)
        if self.path.exists() and stat.S_ISSOCK(self.path.stat().st_mode):
            self.path.unlink()
        before = os.umask(0o117)
        try:
            found = socket.socket(socket.AF_UNIX)
            found.bind(str(self.path))
            found.listen(1024)
            return found
        finally:
            os.umask(before)


async def serve(asked: argparse.Namespace) -> None:
    """Runs until a signal ends it. A SystemExit where it can't start."""
    from gridfs_client.errors import BadSettings, ClientError, UnusableFile
    from gridfs_client.settings import Settings

    from .connections import Server
    from .errors import tell
    from .gateway import Gateway
    from .grids import Grids
    from .index import Index
    from .keys import BadKeys, read_keys
    from .routes import Endpoint

    loop = asyncio.get_running_loop()
    try:
        timeout = asked.timeout or os.environ.get("GRIDFS_TIMEOUT") or "20"
        settings = Settings.gather({"config": asked.config, "map": asked.map, "timeout": timeout}, os.environ)
        grids = Grids(settings, Index(asked.index) if asked.index and "map" not in settings.values else None)
        tenant = grids.tenant
        keys = read_keys(asked.keys, tenant)
        await grids.open()
    except (BadSettings, UnusableFile, BadKeys) as fault:
        print(f"gridfs-s3: {fault}", file=sys.stderr, flush=True)
        raise SystemExit(UNUSABLE) from None
    except ClientError as fault:
        raise SystemExit(f"gridfs-s3: {fault}") from None
    except sqlite3.Error as fault:
        raise SystemExit(f"gridfs-s3: {asked.index}: {fault}") from None
    gateway = Gateway(grids, tenant, keys, asked.region, asked.domain)
    endpoint = Endpoint(gateway)
    try:
        listening = Listener(asked.listen).open()
    except OSError as fault:
        raise SystemExit(f"gridfs-s3: {asked.listen}: {fault.strerror or fault}") from None
    server = await loop.create_server(Server(endpoint.handle), sock=listening, backlog=1024) if listening.family != socket.AF_UNIX else await loop.create_unix_server(
        Server(endpoint.handle), sock=listening, backlog=1024
    )  # fmt: skip
    rest = "" if grids.has_all else " (not all of the tenant: no conditional puts)"
    sessions = "; ".join(f"{pool.grid} {', '.join(map(str, pool.workers))}".strip() for pool in grids.pools.values())
    tell(f"{tenant} at {asked.listen}, sessions {sessions}{rest}")
    following = [loop.create_task(endpoint.lifecycles.look_again_and_again(asked.lifecycle))]
    following += [loop.create_task(gateway.follow_maps())] if grids.map else []

    def read_again() -> None:
        try:
            gateway.keys = read_keys(asked.keys, tenant)
            tell(f"{asked.keys} is read again: {len(gateway.keys)} keys")
        except BadKeys as fault:
            tell(f"{fault}; the keys stay as they were")

    ended = asyncio.Event()
    for number in (signal.SIGINT, signal.SIGTERM):
        loop.add_signal_handler(number, ended.set)
    loop.add_signal_handler(signal.SIGHUP, read_again)
    watching, ending = loop.create_task(gateway.watch()), loop.create_task(ended.wait())
    await asyncio.wait([watching, ending], return_when=asyncio.FIRST_COMPLETED)
    if watching.done():
        tell(f"it ends, so that it is started again: {watching.exception() or watching.result()}")
        os._exit(1)
    watching.cancel()
    server.close()
    for task in following:
        task.cancel()
    await drained(endpoint, asked.drain)
    try:
        await asyncio.wait_for(asyncio.gather(*(pool.flush() for pool in grids.pools.values())), 3)
    except asyncio.TimeoutError:
        pass
    # What is under way at sessions is left as where the process is killed: a session's next change settles it.
    for pool in grids.pools.values():
        pool.going_on.note_end()
        pool.close()
    os._exit(0)


def raise_descriptors() -> None:
    """Lets a gateway have as many connections and files as it may: a shell's 1,024 are few."""
    few, most = resource.getrlimit(resource.RLIMIT_NOFILE)
    wanted = DESCRIPTORS if most == resource.RLIM_INFINITY else min(DESCRIPTORS, most)
    if few != resource.RLIM_INFINITY and few < wanted:
        resource.setrlimit(resource.RLIMIT_NOFILE, (wanted, most))


async def drained(endpoint: "Endpoint", seconds: float) -> None:
    """Waits until what is under way has been answered, but no longer than that."""
    endpoint.is_ending = True
    until = asyncio.get_running_loop().time() + seconds
    while endpoint.under_way and asyncio.get_running_loop().time() < until:
        await asyncio.sleep(0.02)
    endpoint.is_over = True


def main(words: Sequence[str] | None = None) -> None:
    parser = config.parser()
    asked = parser.parse_args(words)
    if not (asked.keys or asked.several):
        parser.error("--keys is wanted, or --several")
    if missing := config.missing():
        raise SystemExit(f"gridfs-s3: not there: {' '.join(missing)} (as root on Debian: apt-get install {' '.join(missing)})")
    keep_for_chunks()
    raise_descriptors()
    if asked.several:
        run_all(asked.several, lambda each: asyncio.run(serve(each)))
    else:
        asyncio.run(serve(asked))
