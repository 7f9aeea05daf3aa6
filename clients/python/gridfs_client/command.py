"""The command `gridfs-client`."""

import argparse
import base64
import io
import os
import signal
import sys
import time
from collections.abc import Callable, Iterator
from concurrent.futures import ThreadPoolExecutor
from contextlib import AbstractContextManager, closing, contextmanager
from dataclasses import asdict, replace
from functools import cached_property, partial
from typing import IO, Any, TypeVar

from . import __version__
from . import words as words_module
from .answers import PlanTold
from .asking import LAST_CALL, SILENCE, ask_others, ask_plan, ask_soon, why_unanswered
from .carriers import INTERRUPTED, Carrier
from .errors import BadFile, BadSettings, ClientError, NoRoom, NoSuchName, Refused, Silent, Skipped, Unanswered
from .fleet import MAP_NAME, FleetFiles, expect_no_map
from .fleet_map import read_map
from .grid import Nodes, listed, told_shape
from .layout import BLOCK, layout_of
from .local import INPUT, complain, content_of, cut, go_to, json_of, out, out_lines, rewindable, to_target
from .memory import keep_for_chunks
from .mirror import GRID, Removal, ToFolder, ToGrid, prefix_of, shown, size_of
from .names import Entry, Grown, NamedFiles, place_to_cut, time_put
from .open_grids import OpenGrids, of_before, one_by_one
from .opening import LEAST, OpenSessions, turn_of
from .pages import check_name
from .progress import Progress
from .renewing import Renewed
from .renewing import renew as renewed
from .sessions import Session
from .settings import SETTINGS, Settings, default_file
from .side_by_side import line_of_sortable, skimmed
from .status import nodes_lines, nodes_value, usage_lines, usage_value
from .usage import Usage, usage_of

Result = TypeVar("Result")
MOST_NUMBER = 4_294_967_295  # in a line of a node
EPILOG = f"""\
examples:
  gridfs-client put report.pdf reports/may        a file under a name
  echo hello | gridfs-client put - greeting       standard input under a name
  gridfs-client get greeting                      to standard output
  gridfs-client get reports/may copy.pdf          to a file
  gridfs-client ls --json reports/ | jq -r .[].name
  gridfs-client rm greeting reports/may
  gridfs-client rm -r reports                     all names that begin with reports/
  gridfs-client mirror reports grid:reports       a folder to the names reports/..
  gridfs-client mirror --dry-run grid: backup     what a backup of all names would get
  gridfs-client status                            which nodes answer, and what is used

settings: each option above, else the environment (GRIDFS_TENANT, GRIDFS_PASSWORD_FILE ..), else the section [gridfs] of
$GRIDFS_CONFIG or {default_file()}:
  [gridfs]
  tenant = ann
  hosts = /etc/gridfs/hosts
  ca-file = /etc/gridfs/ca.crt
  certificate = /etc/gridfs/ann.crt
  key = /etc/gridfs/ann.key
over a broker, in place of hosts, certificate and key:
  broker = broker.example:8884
  password-file = /etc/gridfs/ann.password

status  meaning                                                                    may a change still take effect?
     0  done
     1  there is no such name, or none that begins so                              no
     2  the words, a name or a setting have no form                                no
     3  no room is left, or a node refuses: no such volume or file, too long       no
     4  no answer in time, or for `status` no row or no column that is wholly up   yes
     5  a file has not what such a client wrote into it                            if it was found in the middle of the change
     6  no grid there, no broker, a wrong password or certificate                  if the connection ended in the middle
     7  another client uses the session                                            yes
     8  the content was replaced each time while it was read
     9  a file or folder here is not there, is in the way, or can't be read or written
   130  interrupted (143: by SIGTERM)                                              yes
   141  whoever read the answer has gone

What an interrupted command left undone, the next change of its session to the same page completes, or drops. `mirror` skips what it can't
move, tells it, and ends with the status of the first one.
"""


def nothing() -> None:
    """Where nothing has to be made ready."""


class Opened:
    """What a command works with: the tenant's sessions over a carrier, of which it takes one when it wants it, and the names in its volumes."""

    def __init__(self, settings: Settings, carrier: Carrier, told: PlanTold, progress: Progress | None, sessions: OpenSessions):
        self.settings, self.carrier, self.told, self.progress, self.sessions = settings, carrier, told, progress, sessions

    @cached_property
    def session(self) -> Session:
        return self.sessions.first()

    def names(self, session: Session | None = None) -> NamedFiles:
        layout, sessions = layout_of(self.told), self.sessions
        files = NamedFiles(session or self.session, layout, self.progress, sessions.helpers, others=sessions.others)
        files.may_grow = lambda: not self.of_before(LAST_CALL)
        files.leftovers = sessions.leftovers(files.session)
        return files

    def of_before(self, seconds: float) -> list[int]:
        """The nodes that answer, and have not told the plan that others did. (One that is silent so long has to begin with the last one.)"""
        return of_before(self.carrier, self.told, seconds)

    def by_sessions(self, call: Callable[[NamedFiles], Result], again: Callable[[], None] | None = nothing) -> Result:
        """What a call gives. Where the home of its session dies of it, or is silent, it is begun anew by another session, if that is as if it had not begun:
        behind `again`, which makes ready for that, if anything can."""
        self.session.may_leave = again is not None and self.sessions.can_leave(self.session)
        names, until = self.names(), None
        while True:
            try:
                result = call(names)
                names.close()
                return result
            except Unanswered as fault:
                names.let_go()
                if fault.home is None or names.is_bound or again is None:
                    raise
                until = fault.until if until is None else until
                session = self.sessions.another(fault.home, until)
                if session is None:
                    raise
                names = self.names(session)
                again()
            except BaseException:
                names.let_go()
                raise

    def prepare(self) -> None:
        """Before names are moved one after another by `names_for`."""

    def turn_of(self, name: str) -> int:
        return turn_of(name, len(self.sessions.numbers))

    def one_by_one(self, grows: bool = False) -> Iterator[tuple[str, NamedFiles | None]]:
        """The names by one session after another, perhaps for who has pages split; None for one that can't be had."""
        return ((str(number), names) for number, names in one_by_one(self.settings, self.told, self.carrier, self.progress, grows=grows))

    @contextmanager
    def names_for(self, name: str) -> Iterator[NamedFiles]:
        """The names by a session of their own, the one that depends on the name if that is free; others may have it again afterwards."""
        told = self.carrier.told or self.told
        with closing(OpenSessions(self.settings, told, self.carrier, name)) as sessions:
            session = sessions.first()
            session.may_leave = sessions.can_leave(session)
            names = NamedFiles(session, layout_of(told), self.progress, sessions.helpers, others=sessions.others)
            names.leftovers = sessions.leftovers(session)
            try:
                yield names
            except BaseException as fault:
                if isinstance(fault, Unanswered) and fault.home is not None:
                    sessions.leave(fault.home)
                names.let_go()
                raise
            names.close()


class OpenedFleet:
    """The same of several grids: names alone."""

    def __init__(self, grids: OpenGrids):
        self.grids = grids

    @property
    def progress(self) -> Progress | None:
        return self.grids.progress

    def names(self) -> FleetFiles:
        return self.grids.with_latest_map()

    def by_sessions(self, call: Callable[[FleetFiles], Result], _: Callable[[], None] | None = nothing) -> Result:
        """What a call gives."""
        names = self.names()
        try:
            result = call(names)
        except BaseException:
            names.let_go()
            raise
        names.close()
        return result

    def prepare(self) -> None:
        self.grids.take_latest_map()

    def of_before(self, seconds: float) -> list[int]:
        """The same of the first grid that has such nodes."""
        grids = map(self.grids.grid, self.grids.map.grids)
        return next(filter(None, (of_before(grid.carrier, grid.told, seconds) for grid in grids)), [])

    def one_by_one(self, grows: bool = False) -> Iterator[tuple[str, NamedFiles | None]]:
        return self.grids.one_by_one(grows)

    def turn_of(self, name: str) -> int:
        return self.grids.turn_of(name)

    def names_for(self, name: str) -> AbstractContextManager[FleetFiles]:
        return self.grids.files_for(name)


def number_of(word: str) -> int:
    """The number that a word is, as volumes and files have them."""
    if not word.isascii() or not word.isdecimal() or int(word) > MOST_NUMBER:
        raise argparse.ArgumentTypeError(f"{word!r} is no number from 0 to {MOST_NUMBER}")
    return int(word)


def add_options(to: argparse.ArgumentParser, is_shown: bool) -> None:
    """Those that stand before the word or behind it. (One that is not there leaves what the other place has.)"""
    flag: dict[str, Any] = dict(action="store_true", default=argparse.SUPPRESS)
    to.add_argument("--json", help="the answer as JSON, one value", **flag)
    to.add_argument("--quiet", "-q", help="no progress at a terminal, and of mirror and rm -r no lines of what is done", **flag)
    to.add_argument("--verbose", "-v", help="on standard error each name that is done, and in the end sessions with their homes, silent nodes, and seconds", **flag)
    for key, takes, meaning in [("config", "FILE", "the file of settings"), *((key, it.takes, it.meaning + (f" ({it.default})" if it.default else "")) for key, it in SETTINGS.items())]:
        to.add_argument(f"--{key}", metavar=takes, default=argparse.SUPPRESS, help=meaning if is_shown else argparse.SUPPRESS)


def parser() -> argparse.ArgumentParser:
    main = argparse.ArgumentParser(
        prog="gridfs-client",
        description="Files by name, of any size, over the nodes of a grid.",
        epilog=EPILOG,
        formatter_class=argparse.RawDescriptionHelpFormatter,
        allow_abbrev=False,
    )
    main.add_argument("--version", action="version", version=f"%(prog)s {__version__}")
    add_options(main, is_shown=True)
    shared = argparse.ArgumentParser(add_help=False)
    add_options(shared, is_shown=False)
    words = main.add_subparsers(dest="word", required=True, metavar="COMMAND")

    def word(word_name: str, call: Callable[[Any, argparse.Namespace], None], meaning: str, /, **arguments: dict[str, Any]) -> None:
        sub = words.add_parser(word_name, parents=[shared], help=meaning, description=meaning, allow_abbrev=False)
        for argument, options in arguments.items():
            sub.add_argument(argument, **options)
        sub.set_defaults(call=call)

    name: dict[str, Any] = dict(metavar="NAME", help="1 to 255 bytes of UTF-8, without control characters and with no / at an end")
    volume: dict[str, Any] = dict(type=number_of, metavar="VOLUME", help="a number from 0")
    number: dict[str, Any] = dict(type=number_of, metavar="NUMBER", help="of the file in its volume, from 0")
    source: dict[str, Any] = dict(metavar="FILE", help="a file, or - for standard input")
    several: dict[str, Any] = dict(source, nargs="+", help="a file, or - for standard input; several go to names that begin with NAME, which ends with / then")
    wanted: dict[str, Any] = dict(nargs="+", metavar="NAME", help="the name, and then a file, or - for standard output, as if left out; several names want a folder behind them")
    target: dict[str, Any] = dict(metavar="FILE", nargs="?", default="-", help="a file, or - for standard output, as if left out")
    word("put", put, "give a name a content, or names those of several files", paths=several, name=name)
    word("get", get, "tell a name's content, or get those of several into a folder", names=wanted,
         **{"--range": dict(type=words_module.range_of, metavar="FIRST-LAST", dest="bytes", help="these bytes of it alone, from 0; FIRST- for all from there")})  # fmt: skip
    word("ls", ls, "tell names with their sizes: each was so at some moment of the call (between which ones: --json)",
         prefix=dict(metavar="PREFIX", nargs="?", default="", help="names that begin so; all if left out"),
         **{"-l": dict(action="store_true", dest="is_long", help="with the time of each, by the clock of whoever put it")})  # fmt: skip
    word("cat", words_module.cat, "tell contents of names, one after another", names=dict(name, nargs="+"))
    word("cp", cp, "give a second name the content of a first one: it is got and put", source=dict(name, metavar="SOURCE"), target=dict(name, metavar="TARGET"))
    word("mv", mv, "the same, and then remove the first one: who reads in between finds both", source=dict(name, metavar="SOURCE"), target=dict(name, metavar="TARGET"))
    word("du", words_module.du, "tell how many bytes and names there are, of each next part of names too", prefix=dict(metavar="PREFIX", nargs="?", default="", help="names that begin so"))
    word("df", words_module.df, "tell what the columns have room for, without a look at names")
    word("completion", tell_completion, "tell what a shell reads to complete words: eval \"$(gridfs-client completion bash)\"", shell=dict(choices=["bash", "zsh"]))
    word("rm", rm, "take names away, one after another", names=dict(name, nargs="+"),
         **{"-f": dict(action="store_true", dest="is_forced", help="a name that is not there is all the same"),
            "-r": dict(action="store_true", dest="is_whole", help=f"of each NAME all names that begin with NAME/; of {GRID} all names"),
            "--dry-run": dict(action="store_true", help="with -r: tell what would be taken away, and do nothing")})  # fmt: skip
    word("stat", stat, "tell what is known of a name", name=name)
    place: dict[str, Any] = dict(help=f"a folder here, or {GRID}PREFIX for the names that begin with PREFIX/, or {GRID} for all names")
    is_given: dict[str, Any] = dict(action="store_true")
    word("mirror", mirror, "make a folder and the names with a prefix alike, one way",
         source=dict(place, metavar="SOURCE"), target=dict(place, metavar="TARGET"),
         **{"--dry-run": dict(is_given, help="tell what would be done, and do nothing"),
            "--delete": dict(is_given, help="remove what is in the target and not in the source"),
            "--exclude": dict(metavar="PATTERN", action="append", default=[],
                              help="leave alone, on both sides, what has this name, or with / in it this path; * ? [] as in a shell")})  # fmt: skip
    word("status", status, "tell which nodes answer, and then what the tenant has used of its room",
         **{"--nodes": dict(is_given, dest="is_of_nodes", help="the nodes alone")})  # fmt: skip
    word("sweep", sweep, "forget names that were taken away, and chunks that dead commands left; of all sessions that nobody uses",
         **{"--catch-up": dict(is_given, help="after damage: first let pages that are older than others ask for catch up")})  # fmt: skip
    word("renew", renew, "move contents that are in slots to chunks, once a plan gives room for these; by one session after another, so that others go on")
    word("grow", grow, "let names go on to more pages, once a plan gives these and all nodes have it; by one session after another, so that others go on")
    # What lies below names: the numbered files themselves.
    word("write", write, "write a numbered file; what names stand on can be spoilt so", volume=volume, file=number, path=source)
    word("read", read, "tell a numbered file's content", volume=volume, file=number, path=target)
    word("list", list_files, "tell lengths and tags of a volume's numbered files, one after another", volume=volume)
    word("plan", plan, "tell what the tenant has")
    return main


# What each word does.


def tell(args: argparse.Namespace, value: object, *lines: str) -> None:
    """Tells a value as JSON, or these lines."""
    if args.json:
        out(json_of(value).encode() + b"\n")
    else:
        out_lines(lines)


def put(opened: Opened | OpenedFleet, args: argparse.Namespace) -> None:
    targets = words_module.targets_of(args.paths, args.name)
    expect_all(opened, {name: size_of(path) for name, path in targets.items()})
    found = [put_one(opened, args, path, name) for name, path in targets.items()]
    tell(args, told_of(found[0]) if len(args.paths) == 1 else [told_of(entry) for entry in found])


def put_one(opened: Opened | OpenedFleet, args: argparse.Namespace, path: str, name: str) -> Entry:
    if isinstance(opened, OpenedFleet):
        expect_no_map(name)
    with content_of(path) as given:
        content = rewindable(given)
        try:
            entry = opened.by_sessions(lambda names: names.put(name, content), partial(go_to, content, content.tell()) if content.seekable() else None)
        except NoRoom as fault:
            raise NoRoom(f"{fault}; where clients were killed, gridfs-client sweep gives some back") from None
    tell_done(opened, args, "put", entry)
    return entry


def expect_all(opened: Opened | OpenedFleet, sizes: dict[str, int]) -> None:
    """So many contents are moved, where these are several."""
    if opened.progress and len(sizes) > 1:
        opened.progress.expect(len(sizes), sum(sizes.values()))


def tell_done(opened: Opened | OpenedFleet, args: argparse.Namespace, word: str, entry: Entry) -> None:
    """A content is moved, of one or several."""
    if opened.progress and opened.progress.files:
        opened.progress.next(word, entry.size)
    if args.verbose:
        if opened.progress:
            opened.progress.clear()
        complain(f"{word} {shown(entry.name)}: {entry.size} bytes, version {entry.version}.{entry.session}, {entry.pieces} pieces")


def cp(opened: Opened | OpenedFleet, args: argparse.Namespace) -> None:
    if isinstance(opened, OpenedFleet):
        expect_no_map(args.target)
    tell(args, told_of(words_module.copied(opened, args)))


def mv(opened: Opened | OpenedFleet, args: argparse.Namespace) -> None:
    if isinstance(opened, OpenedFleet):
        expect_no_map(args.target)
        expect_no_map(args.source)
    tell(args, told_of(words_module.move(opened, args)))


def get_range(opened: Opened | OpenedFleet, args: argparse.Namespace) -> None:
    """The bytes of a range, to a target."""
    if isinstance(opened, OpenedFleet):
        raise BadSettings("--range is for one grid")
    here, (first, end), name, path = opened, args.bytes, *words_module.name_and_file(args.names)

    def get_to(target: IO[bytes]) -> Entry:
        start = place_to_cut(target)
        return here.by_sessions(lambda names: names.get_range_to(name, target, first, end), nothing if start is None else partial(cut, target, start))

    if args.json and path == "-":
        content = io.BytesIO()
        tell(args, told_of(get_to(content)) | {"content": base64.b64encode(content.getvalue()).decode()})
        return
    entry = to_target(in_folder(path, name), get_to)
    tell_done(opened, args, "got of", entry)
    if args.json:
        tell(args, told_of(entry))


def get(opened: Opened | OpenedFleet, args: argparse.Namespace) -> None:
    if args.bytes:
        get_range(opened, args)
        return
    if len(args.names) > 2:
        get_several(opened, args)
        return
    name, path = words_module.name_and_file(args.names)
    if args.json and path == "-":
        content, entry = opened.by_sessions(lambda names: names.get(name))
        tell(args, told_of(entry) | {"content": base64.b64encode(content).decode()})
        return
    tell(args, told_of(get_one(opened, args, name, path)))


def get_one(opened: Opened | OpenedFleet, args: argparse.Namespace, name: str, path: str) -> Entry:
    def get_to(target: IO[bytes]) -> Entry:
        start = place_to_cut(target)
        return opened.by_sessions(lambda names: names.get_to(name, target), nothing if start is None else partial(cut, target, start))

    entry = to_target(in_folder(path, name), get_to, time_put)
    tell_done(opened, args, "got", entry)
    return entry


def get_several(opened: Opened | OpenedFleet, args: argparse.Namespace) -> None:
    """Contents into a folder, each to a file that has its name's last part."""
    *names, folder = args.names
    if not os.path.isdir(folder):
        raise BadFile(f"{folder}: no folder: several names go into one")
    words_module.targets_of(names, "/")
    if opened.progress:
        expect_all(opened, {name: opened.by_sessions(lambda files: files.stat(name)).size for name in names})
    tell(args, [told_of(get_one(opened, args, name, folder)) for name in names])


def in_folder(path: str, name: str) -> str:
    """The file for a name's content: in a folder the one that has the name's last part."""
    return os.path.join(path, name.rpartition("/")[2]) if path != "-" and os.path.isdir(path) else path


def told_of(entry: Entry) -> dict[str, object]:
    """An entry, with words where there are any, and with the digest of the whole content or what is told of its
    parts.
    """
    parts = [{"size": part.size, "list_sha256" if part.is_list else "sha256": part.sha256} for part in entry.parts]
    values = asdict(entry) | {"parts": parts}
    return {key: value for key, value in values.items() if key not in ("words", "sha256", "parts") or value}


def line_of(entry: Entry) -> str:
    return f"{entry.size:>12}  {entry.version}.{entry.session}  {entry.name}"


def ls(opened: Opened | OpenedFleet, args: argparse.Namespace) -> None:
    if isinstance(opened, OpenedFleet):
        ls_over_grids(opened, args)
    elif args.json:
        out(json_of([told_of(entry) for entry in opened.by_sessions(lambda names: names.names(args.prefix))]).encode() + b"\n")
    elif args.is_long:
        out_lines(map(words_module.long_line_of, opened.by_sessions(lambda names: names.names(args.prefix))))
    else:
        found = opened.by_sessions(partial(skimmed, settings=opened.settings, sessions=opened.sessions, prefix=args.prefix))
        out_lines(line_of_sortable(each) for each in sorted(found))


def ls_over_grids(opened: OpenedFleet, args: argparse.Namespace) -> None:
    found = opened.names().names_told(args.prefix)
    entries, silent = [entry for entry in found.entries if entry.name != MAP_NAME], found.silent
    tell(args, [told_of(entry) for entry in entries], *map(words_module.long_line_of if args.is_long else line_of, entries))
    for grid, fault in silent.items():
        complain(f"names at {grid} are not told: {str(fault).removeprefix(f'{grid}: ')}")
    if silent:
        raise Skipped(f"not all names are told: {listed(silent)} {'is' if len(silent) == 1 else 'are'} silent", next(iter(silent.values())).status)


def rm(opened: Opened | OpenedFleet, args: argparse.Namespace) -> None:
    if args.is_whole:
        remove_whole(opened, args)
        return
    if args.dry_run:
        raise BadSettings("--dry-run goes with -r")
    for name in args.names:
        check_name(name)
    opened.prepare()
    removal = Removal("", "", opened.names_for, opened.turn_of, lambda word, name: complain(f"{word} {shown(name)}") if args.verbose else None, complain)
    removal.remove_all(args.names)
    removed = removal.report.removed
    tell(args, {"removed": [name for name in args.names if name in removed]})
    expect_none([NoSuchName(f"{name}: no such name") for name in args.names if name not in removed], args)


def expect_none(missing: list[NoSuchName], args: argparse.Namespace) -> None:
    """Tells each name that is not there, unless that is all the same."""
    if missing and not args.is_forced:
        for fault in missing[:-1]:
            complain(str(fault))
        raise missing[-1]


def remove_whole(opened: Opened | OpenedFleet, args: argparse.Namespace) -> None:
    """Takes all names with these prefixes away, and tells each, and how many there were."""
    prefixes = [prefix_of(name if name.startswith(GRID) else GRID + name) or "" for name in args.names]
    removed, missing = list[str](), list[NoSuchName]()
    opened.prepare()
    for prefix in prefixes:
        try:
            removed += Removal("", prefix, opened.names_for, opened.turn_of, line_teller(args), complain, is_dry=args.dry_run).run().removed
        except NoSuchName as fault:
            missing.append(fault)
    if not removed:
        expect_none(missing, args)
    value = {"dry_run": args.dry_run, "removed": removed}
    tell(args, value, *([] if args.quiet else [f"{'would remove' if args.dry_run else 'removed'} {len(removed)}"]))
    expect_none(missing, args)


def stat(opened: Opened | OpenedFleet, args: argparse.Namespace) -> None:
    entry = opened.by_sessions(lambda names: names.stat(args.name))
    value = told_of(entry)
    parts = ", ".join(f"{part.size} {'list ' * part.is_list}{part.sha256}" for part in entry.parts)
    tell(args, value, *(f"{key}: {each}" for key, each in (value | ({"parts": parts} if parts else {})).items()))


def sweep(opened: Opened | OpenedFleet, args: argparse.Namespace) -> None:
    names = opened.names()
    caught_up = names.catch_up() if args.catch_up else 0
    swept = names.sweep()
    text = f"removals: {swept.forgotten} forgotten, {swept.left} left"
    value = {key: each for key, each in vars(swept).items() if key not in ("chunks", "silent", "refusing") or each}
    if swept.chunks:
        text += f"; chunks: {swept.chunks} forgotten"
    if swept.silent:
        text += f"; nodes at the places {listed(swept.silent)} are silent: chunks may be left there"
    if swept.refusing:
        text += f" ({listed(swept.refusing)} told `refused bad`: is this machine's clock ahead of theirs?)"
    if args.catch_up:
        text = f"pages: {caught_up} caught up; {text}"
    if swept.absent:
        text += f"; {'sessions' if len(swept.absent) > 1 else 'session'} {listed(swept.absent)} could not be had"
    tell(args, value | ({"caught_up": caught_up} if args.catch_up else {}), text)


def renew(opened: Opened | OpenedFleet, args: argparse.Namespace) -> None:
    opened.prepare()
    told, absent = Renewed(), []
    for session, names in opened.one_by_one():
        if names:
            told += renewed(names)
        else:
            absent.append(session)
    text = f"contents: {told.moved} moved to chunks, {told.bytes} bytes; {told.left} left in slots, since their pages are too full"
    tell(args, vars(told) | {"absent": absent}, text + (f"; {'sessions' if len(absent) > 1 else 'session'} {listed(absent)} could not be had" if absent else ""))


def grow(opened: Opened | OpenedFleet, args: argparse.Namespace) -> None:
    if before := opened.of_before(SILENCE):
        raise BadSettings(f"{'nodes' if len(before) > 1 else 'node'} {listed(before)} told an earlier plan: start all nodes with the last one, and then begin anew")
    told, absent = Grown(), []
    for session, names in opened.one_by_one(grows=True):
        if names is None:
            absent.append(session)
        elif isinstance(opened, Opened) or len(names.layout.levels) > 1:
            told += names.grow()
    text = f"pages: {told.pages} have split, and {told.lines} lines went to others by that"
    tell(args, vars(told) | {"absent": absent}, text + (f"; {'sessions' if len(absent) > 1 else 'session'} {listed(absent)} could not be had" if absent else ""))


def write(opened: Opened, args: argparse.Namespace) -> None:
    volumes = opened.told.volumes
    room = BLOCK * volumes[args.volume][1] if args.volume < len(volumes) else 0
    with content_of(args.path) as file:
        content = file.read(room + 1)
    if len(content) > room > 0:  # (a node gives no answer to a line that is too long)
        raise Refused(f"more than {room} bytes are too long for file {args.file} of volume {args.volume}")
    tag = opened.session.write(args.volume, args.file, content)
    tell(args, {"tag": [tag.number, tag.session]}, f"tag {tag.number}.{tag.session}")


def read(opened: Opened, args: argparse.Namespace) -> None:
    copy = opened.session.read(args.volume, args.file)
    tag = {"tag": [copy.tag.number, copy.tag.session]}
    if args.json and args.path == "-":
        tell(args, tag | {"content": base64.b64encode(copy.content).decode()})
        return
    to_target(args.path, lambda target: target.write(copy.content))
    tell(args, tag)


def list_files(opened: Opened, args: argparse.Namespace) -> None:
    rows = opened.session.list(args.volume)
    value = [{"file": file, "length": row.length, "tag": [row.tag.number, row.tag.session]} for file, row in enumerate(rows)]
    tell(args, value, *(f"{file:>6} {row.length:>8}  {row.tag.number}.{row.tag.session}" for file, row in enumerate(rows)))


def plan(opened: Opened, args: argparse.Namespace) -> None:
    told = opened.told
    value = {"nodes": told.nodes, "home": told.home, "sessions": told.sessions, "share": told.share, "most": told.most}
    volumes = [{"files": files, "blocks": blocks} for files, blocks in told.volumes]
    words = {"volumes": " ".join(f"{files}x{blocks}" for files, blocks in told.volumes)}
    words |= {"new nodes": " ".join(map(str, told.new_nodes))} if told.new_nodes else {}
    value_told = value | {"volumes": volumes, "new_nodes": list(told.new_nodes)}
    tell(args, value_told, *(f"{key}: {each}" for key, each in (value | words).items()))


def line_teller(args: argparse.Namespace, progress: Progress | None = None) -> Callable[[str, str], None]:
    """Tells what is done with a name, where that is wanted."""

    def tell_line(word: str, name: str) -> None:
        if not args.json and not args.quiet:
            if progress:
                progress.clear()
            out_lines([f"{word} {shown(name)}"])

    return tell_line


def mirror(opened: Opened | OpenedFleet, args: argparse.Namespace) -> None:
    to_grid, from_grid = prefix_of(args.target), prefix_of(args.source)
    folder = args.source if from_grid is None else args.target
    if (to_grid is None) == (from_grid is None) or not folder:
        raise BadSettings(f"mirror wants a folder and {GRID}PREFIX, one as the source and the other one as the target")

    opened.prepare()
    kind = ToFolder if to_grid is None else ToGrid
    prefix = from_grid if to_grid is None else to_grid
    made = kind(folder, prefix or "", opened.names_for, opened.turn_of, line_teller(args, opened.progress), complain, args.delete, args.dry_run)
    made.excludes, made.progress = args.exclude, opened.progress
    report = made.run()
    value = {"dry_run": args.dry_run, made.word: report.moved, "removed": report.removed, "same": report.same, "skipped": report.skipped}
    moved, removed = (f"would {made.word}", "remove") if args.dry_run else (made.done, "removed")
    text = f"{moved} {len(report.moved)}, {removed} {len(report.removed)}; {report.same} the same"
    tell(args, value, *([] if args.quiet else [text]))
    if report.skipped:
        raise Skipped(f"{len(report.skipped)} skipped", report.status)


def status(opened: Opened | OpenedFleet, args: argparse.Namespace) -> None:
    if isinstance(opened, OpenedFleet):
        status_of_grids(opened.grids, args)
        return
    said = opened.settings.shape()
    if said and said.nodes != opened.told.nodes:
        raise BadSettings(f"grid: {said.rows}x{said.columns} are {said.nodes} nodes, and there are {opened.told.nodes}")
    told = told_shape(opened.told)
    if said and told and said != told:
        raise BadSettings(f"grid: it is {told.rows}x{told.columns}, as its nodes tell, and not {said.rows}x{said.columns}")
    nodes = ask_soon(opened.carrier, said)
    assert nodes
    opened.sessions.pass_over(nodes.silent)
    if not args.json:
        out_lines(nodes_lines(nodes))
    if args.is_of_nodes:
        if args.json:
            tell(args, {"tenant": opened.settings.tenant} | nodes_value(nodes))
        return
    usage, fault = (None, Silent(nodes.summary())) if nodes.goes_on() is False else used(opened.names)
    left_out = str(fault) if fault else None
    value = {"tenant": opened.settings.tenant} | nodes_value(nodes) | usage_value(usage, left_out)
    tell(args, value, *usage_lines(usage, left_out))
    if fault and not isinstance(fault, BadSettings):
        raise fault


def used(names: Callable[[], NamedFiles]) -> tuple[Usage | None, ClientError | None]:
    """What the tenant has used, or why that can't be told: its volumes may be for no names."""
    try:
        return usage_of(names()), None
    except ClientError as fault:
        return None, fault


def status_of_grids(grids: OpenGrids, args: argparse.Namespace) -> None:
    """What each grid of a fleet tells. The fault of the first that does not tell all is raised."""
    with ThreadPoolExecutor(len(grids.map.grids)) as threads:
        found = dict(zip(grids.map.grids, threads.map(partial(status_of_grid, grids), grids.map.grids)))
    lines = [line for grid, (_, told, _) in found.items() for line in (f"{grid}:", *(f"  {each}" for each in told))]
    usages = [value["bytes"] and (value["names"], value["bytes"]) for value, _, _ in found.values()]
    known = [usage for usage in usages if usage]
    whole = {"names": sum(names for names, _ in known), "bytes": {key: sum(size[key] or 0 for _, size in known) for key in ("used", "free")}}
    lines.append(f"all: {whole['names']} names, {whole['bytes']['used']} bytes used, {whole['bytes']['free']} free")
    tell(args, {"grids": {grid: value for grid, (value, _, _) in found.items()}} | whole, *lines)
    for grid, (_, _, fault) in found.items():
        if fault and not isinstance(fault, BadSettings):
            raise Skipped(f"not all is told: {fault if str(fault).startswith(grid) else f'{grid}: {fault}'}", fault.status)


def status_of_grid(grids: OpenGrids, grid: str) -> tuple[dict[str, Any], list[str], ClientError | None]:
    """For JSON, in lines, and why not all of it is known."""
    try:
        nodes = grids.grid(grid).nodes()
        if nodes is None:
            raise Silent(f"{grid}: no node answers")
    except ClientError as fault:
        silent = str(fault).removeprefix(f"{grid}: ")
        return usage_value(None, silent), usage_lines(None, silent), fault
    usage, why = (None, Silent(nodes.summary())) if nodes.goes_on() is False else used(lambda: grids.files().grid(grid))
    left_out = str(why) if why else None
    return nodes_value(nodes) | usage_value(usage, left_out), [*nodes_lines(nodes), *usage_lines(usage, left_out)], why


def tell_completion(_: object, args: argparse.Namespace) -> None:
    main = parser()
    (words,) = [action for action in main._actions if isinstance(action, argparse._SubParsersAction)]
    out(words_module.completion(main, words.choices.items(), args.shell).encode())


# The command


def read_words(words: list[str]) -> argparse.Namespace:
    args = parser().parse_args([*words[1:2], "--help"] if words[:1] == ["help"] else words)
    args.json, args.quiet, args.verbose = "json" in args, "quiet" in args, "verbose" in args
    return args


def name_in(args: argparse.Namespace) -> str:
    """The name on which it depends which session is tried first."""
    return str(vars(args).get("name") or vars(args).get("names", [""])[0])


def run(words: list[str]) -> None:
    args = read_words(words)
    if args.call is tell_completion:
        tell_completion(None, args)
        return
    if args.call in (put, get, mirror, renew, cp, mv, words_module.cat):
        keep_for_chunks()
    settings = Settings.gather({key.replace("_", "-"): value for key, value in vars(args).items() if isinstance(value, str)}, os.environ)
    if "map" in settings.values:
        run_over_grids(args, settings)
        return
    said, begun = settings.shape(), time.monotonic()
    with closing(settings.carrier()) as carrier:
        stop_at_signals(carrier)
        try:
            carry_out(args, settings, carrier, begun)
        except Silent:
            raise
        except Unanswered as fault:
            why = why_unanswered(carrier, said)
            raise Unanswered(f"{fault}; {why}" if why else str(fault)) from None


def stop_at_signals(carriers: Carrier | OpenGrids) -> None:
    def interrupt(number: int, _: object) -> None:
        carriers.stop(INTERRUPTED)  # so that no thread goes on waiting for an answer
        if number == signal.SIGTERM:
            sys.exit(143)
        raise KeyboardInterrupt

    signal.signal(signal.SIGINT, interrupt)
    signal.signal(signal.SIGTERM, interrupt)


def run_over_grids(args: argparse.Namespace, settings: Settings) -> None:
    """A command about the names of several grids."""
    if args.call not in (put, get, ls, rm, stat, mirror, status, sweep, renew, grow, cp, mv, words_module.cat, words_module.du):
        raise BadSettings(f"{args.word} is about one grid: leave `map` out, and name the settings of that grid")
    progress = progress_of(args)
    with closing(OpenGrids(read_map(settings.need("map")), settings, name_in(args), progress)) as grids, shown_to_its_end(progress):
        stop_at_signals(grids)
        args.call(OpenedFleet(grids), args)


def progress_of(args: argparse.Namespace) -> Progress | None:
    return Progress(sys.stderr) if sys.stderr is not None and sys.stderr.isatty() and not args.quiet else None


@contextmanager
def shown_to_its_end(progress: Progress | None) -> Iterator[None]:
    try:
        yield
    finally:
        if progress:
            progress.end()


def carry_out(args: argparse.Namespace, settings: Settings, carrier: Carrier, begun: float) -> None:
    """Does what a command's words say. The time for the first answer began with the command."""
    timeout = settings.seconds("timeout")
    patience = min(timeout, SILENCE) if args.call is status else max(timeout - (carrier.now() - begun), min(timeout, LEAST))
    asked = carrier.now()
    told = ask_plan(carrier, replace(settings.pace(), timeout=patience))
    if args.call not in (status, plan):
        ask_others(carrier, asked, settings.lately_silent())
    progress = progress_of(args)
    with closing(OpenSessions(settings, told, carrier, name_in(args), begun)) as sessions, shown_to_its_end(progress):
        args.call(Opened(settings, carrier, told, progress, sessions), args)
        if args.verbose:
            if progress:
                progress.end()
            complain(f"{args.word}: {sessions.in_words()}; {carrier.now() - asked:.2f} s")


def main(words: list[str] | None = None) -> int:
    """Runs the command; its status."""
    try:
        run(sys.argv[1:] if words is None else words)
        return 0
    except ClientError as fault:
        complain(str(fault))
        return fault.status
    except BrokenPipeError:
        os.dup2(os.open(os.devnull, os.O_WRONLY), 1)  # whoever read the answer has gone
        return 141
    except OSError as fault:
        complain(f"{fault.filename or 'a file'}: {fault.strerror or fault}")
        return BadFile.status
    except KeyboardInterrupt:
        return 130
