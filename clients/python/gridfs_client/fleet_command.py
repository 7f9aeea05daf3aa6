"""The command `gridfs-fleet`: what an operator does with the map of a fleet. Names are put and got by `gridfs-client --map FILE`."""

import argparse
import fcntl
import os
import signal
import sys
import threading
from collections.abc import Callable, Iterator, Sequence
from concurrent.futures import ThreadPoolExecutor
from contextlib import closing, contextmanager
from dataclasses import dataclass, replace
from typing import IO

from . import __version__
from .core import Page
from .errors import BadSettings, ClientError, Silent
from .fleet_map import FleetMap, Move, new_map, read_map
from .local import complain, visible
from .moving import Mover, moves_to_end
from .open_grids import OpenGrids, publish
from .settings import Settings
from .usage import usage_of
from .ways import slice_of

EPILOG = """\
examples:
  gridfs-fleet --map fleet begin east east.ini      a map with all names at one grid, which may have names already
  gridfs-fleet --map fleet add west west.ini        one grid more, without names
  gridfs-fleet --map fleet spread                   slices are moved until each grid has an equal part of them
  gridfs-fleet --map fleet move 0-16383 west        these slices are moved, of the slices 0 to 65535
  gridfs-fleet --map fleet move 0-16383 east        a move from east that has not ended, as for lack of room, is taken back
  gridfs-fleet --map fleet status                   of each grid its slices, nodes and room, and how far moves are

The settings of a grid are a file as gridfs-client reads it, beside the map. A move may be killed at any moment: `spread` or `move` without words ends
it. Clients may have an older map, if it names all grids: so copy the map and the settings of a new grid to all clients before slices are moved to it. A copy
of the last one is in the fleet, under the name `.fleet`. Moves want the last one: a move from where other moves have gone on ends with status 2."""


def parser() -> argparse.ArgumentParser:
    main = argparse.ArgumentParser(
        prog="gridfs-fleet", description="Names of one tenant over several grids.", epilog=EPILOG, formatter_class=argparse.RawDescriptionHelpFormatter
    )
    main.add_argument("--version", action="version", version=f"%(prog)s {__version__}")
    main.add_argument("--map", metavar="FILE", required=True, help="the map")
    main.add_argument("--timeout", metavar="SECONDS", default="30", help="how long an answer is waited for, or a session (30)")
    words = main.add_subparsers(dest="word", required=True, metavar="COMMAND")
    for word, meaning in (("begin", "make a map with all names at one grid"), ("add", "add a grid without names")):
        sub = words.add_parser(word, help=meaning, description=meaning)
        sub.add_argument("grid", help="a word for the grid: 1 to 16 letters a to z or digits")
        sub.add_argument("settings", help="the client's settings for it, a file beside the map")
    sub = words.add_parser("move", help="move slices to a grid; without words end moves that were begun")
    sub.add_argument("slices", nargs="?", help="FIRST-LAST, of 0 to 65535, which are at one grid")
    sub.add_argument("grid", nargs="?")
    words.add_parser("spread", help="end moves that were begun, and move slices until each grid has an equal part")
    words.add_parser("status", help="tell of each grid its slices, nodes and room, and how far moves are")
    return main


def lock_beside(path: str) -> IO[str]:
    try:
        return open(os.path.realpath(path) + ".lock", "w", encoding="ascii")
    except OSError as fault:
        raise OSError(fault.errno, fault.strerror, path) from None


@contextmanager
def alone(path: str) -> Iterator[None]:
    """As long as no other command of this machine changes the map."""
    with lock_beside(path) as lock:
        try:
            fcntl.flock(lock, fcntl.LOCK_EX | fcntl.LOCK_NB)
        except BlockingIOError:
            raise BadSettings(f"{path}: another command changes it") from None
        yield


def begin(begun: FleetMap, settings: Settings) -> FleetMap:
    """Writes the map with moves that begin, once their grids say that they may. (What hinders it from coming into the fleet hinders the moves, which say so.)"""
    with closing(OpenGrids(begun, settings)) as grids:
        for move in begun.moves:
            Mover(begun, move, grids.session, grids.layout, lambda change: change(begun)).expect_sense()
    begun.save()
    publish(begun, settings)
    return begun


class Moves:
    """Moves of a map that go on side by side."""

    def __init__(self, now: FleetMap, settings: Settings):
        self.now, self.settings, self.guard = now, settings, threading.Lock()

    def change_map(self, change: Callable[[FleetMap], FleetMap]) -> FleetMap:
        with self.guard:
            self.now = change(self.now)
            self.now.save()
            if fault := publish(self.now, self.settings):
                complain(f"the map was not put into the fleet: {fault}", "gridfs-fleet")
            return self.now

    def end(self, moves: Sequence[Move]) -> None:
        """Ends these; the first fault of one is raised once all have ended or failed."""
        with closing(OpenGrids(self.now, self.settings)) as grids, ThreadPoolExecutor(len(moves)) as threads:
            for grid in sorted({grid for move in moves for grid in (move.source, move.target)}):
                grids.grid(grid)
            for future in [threads.submit(self.end_one, grids, move) for move in moves]:
                future.result()

    def end_one(self, grids: OpenGrids, move: Move) -> None:
        def tell(text: str) -> None:
            print(visible(f"move {move.number}: {text}"), flush=True)

        tell(f"slices {move.first}-{move.last} from {move.source} to {move.target}")
        Mover(self.now, move, grids.session, grids.layout, self.change_map, tell, self.settings.seconds("timeout")).run()
        tell("ended")


def end_moves(now: FleetMap, settings: Settings) -> FleetMap:
    moves = Moves(now, settings)
    while under_way := moves_to_end(moves.now):
        moves.end(under_way)
    return moves.now


def expect_no_names(fleet_map: FleetMap, grid: str, settings: Settings) -> None:
    """BadSettings where a grid has names: they would be taken for those of the fleet. It may also be one of its grids, by other settings."""
    with closing(OpenGrids(fleet_map, settings)) as grids:
        if found := grids.files().grid(grid).names():
            raise BadSettings(f"{grid}: it has names already, {found[0].name!r} is one: is it a grid of the map, by other settings?")


@dataclass
class Report:
    """A line about a grid, its status, and its pages where they were seen."""

    text: str
    status: int = 0
    pages: Sequence[Page] = ()


def report_of(grids: OpenGrids, grid: str, slices: int) -> Report:
    try:
        opened = grids.grid(grid)
        nodes = opened.nodes()
        text = f"{grid}: {slices} slices, {nodes.summary() if nodes else 'no node answers'}"
        if nodes is None or nodes.goes_on() is False:
            return Report(text, Silent.status)
        files = grids.files().grid(grid)
        usage = usage_of(files)
    except ClientError as fault:
        return Report(f"{fault}; {slices} slices", fault.status)
    text += f", {usage.names} names, {usage.bytes_free} bytes free, fullest page {usage.fullest.percent} % full"
    return Report(text, 0, [known.page for bucket in files.writer.buckets.values() for known in bucket.client.seen])


def move_text(move: Move, pages: Sequence[Page]) -> str:
    """How far a move is, by the pages of its old grid."""
    what = "has yet to be cleared" if move.is_there else "has not ended"
    text = f"move {move.number} {what}: slices {move.first}-{move.last} from {move.source} to {move.target}"
    if pages:
        signed = sum(move.signpost in page.signposts for page in pages)
        lines = sum(move.has(slice_of(line.name)) for page in pages for line in page.lines)
        text += f"; {signed} of {len(pages)} pages have its signpost, and {lines} lines are left there"
    return text


def status(now: FleetMap, settings: Settings) -> int:
    """What each grid has, and the status of the first that doesn't answer."""
    shares = now.shares()
    with closing(OpenGrids(now, settings)) as grids, ThreadPoolExecutor(len(now.grids)) as threads:
        reports = dict(zip(now.grids, threads.map(lambda grid: report_of(grids, grid, shares[grid]), now.grids)))
    for report in reports.values():
        print(visible(report.text))
    for move in now.moves:
        if now.is_taken_back(move):
            print(f"move {move.number} is taken back")
            continue
        print(move_text(move, reports[move.source].pages))
    return next((report.status for report in reports.values() if report.status), 0)


def run(words: list[str]) -> int:
    args = parser().parse_args(words)
    settings = Settings({"timeout": args.timeout, "helpers": "3", "session": "all"})
    settings.seconds("timeout")
    if args.word == "status":
        return status(read_map(args.map), settings)
    if args.word != "begin":
        read_map(args.map)
    with alone(args.map):
        if args.word == "begin":
            if os.path.exists(args.map):
                raise BadSettings(f"{args.map}: there is a map")
            settings.of_grid(args.map, args.grid, args.settings)
            new_map(args.grid, args.settings, args.map).save()
            return 0
        now = read_map(args.map)
        if args.word == "add":
            if args.grid in now.grids:
                raise BadSettings(f"{args.grid}: there is such a grid")
            settings.of_grid(args.map, args.grid, args.settings)
            then = replace(now, grids=now.grids | {args.grid: args.settings})
            expect_no_names(then, args.grid, settings)
            then.save()
        elif args.word == "move" and args.slices:
            first, _, last = args.slices.partition("-")
            if not (first.isdecimal() and last.isdecimal() and args.grid):
                raise BadSettings(f"{args.slices}: FIRST-LAST and a grid are wanted")
            begun = begin(now.begun(int(first), int(last), args.grid), settings)
            Moves(begun, settings).end(begun.moves[-1:])
        else:
            now = end_moves(now, settings)
            while args.word == "spread" and (begun := now.spread()).moves:
                now = end_moves(begin(begun, settings), settings)
    return 0


def main(words: list[str] | None = None) -> int:
    """Runs the command; its status."""
    signal.signal(signal.SIGTERM, lambda *_: sys.exit(143))
    try:
        return run(sys.argv[1:] if words is None else words)
    except ClientError as fault:
        complain(str(fault), "gridfs-fleet")
        return fault.status
    except OSError as fault:
        complain(f"{fault.filename or 'a file'}: {fault.strerror or fault}", "gridfs-fleet")
        return ClientError.status
    except KeyboardInterrupt:
        return 130


