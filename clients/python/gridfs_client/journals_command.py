"""The command `gridfs-journals`: what an operator reads from journals of nodes, without tenants' keys."""

import argparse
import os
import sys
import tempfile
from collections.abc import Callable, Iterator, Sequence
from contextlib import closing, contextmanager
from functools import partial

from . import __version__
from .copies import Copied, copy_files, copy_node, copy_state, parse_had, take_stream, write_stream
from .errors import ClientError, Damaged, NoSuchName, Skipped
from .grid import listed
from .holding import open_when_told
from .journals import Journals
from .layout import BLOCK
from .local import INPUT, OUTPUT, complain, content_of, json_of, out, out_lines, standard
from .mirror import ToFolder, shown
from .names import NamedFiles
from .shelves import NodeFiles, Shelf, shelf_of
from .status import usage_value
from .usage import Usage, usage_of

PROGRAM = "gridfs-journals"
LACKING = 10  # the status where some names have no whole copy
NOT_TOGETHER = (
    "Where nodes run, or were copied one after another, copy what has changed once more. "
    "--as-they-are takes pages as they are: names that were removed may come back"
)
EPILOG = """\
examples, on a node's machine and for copies of the journals of nodes 0 and 1, which are a row of two by two:
  gridfs-journals room /var/lib/gridfs/0/journal               how full each tenant is, as node 0 has it
  gridfs-journals room --metrics /run/gridfs/room.prom 0.pages 1.pages
  gridfs-journals pages /var/lib/gridfs/0/journal > 0.pages    the little that `room` wants, to be brought elsewhere
  gridfs-journals shelf /var/lib/gridfs/0/journal              what node 0 has of chunks, and what is dead or lacked
  gridfs-journals copy /var/lib/gridfs/0/journal /backup/0     a copy of node 0, which may run, with its chunks
  gridfs-journals state /backup FOLDER/node*.journal           copies of all nodes of one moment, from which a grid starts
  ssh root@there gridfs-journals copy /var/lib/gridfs/0/journal - | gridfs-journals copy - /backup/0
  gridfs-journals get ann backup 0/journal 1/journal           ann's names, with their contents, into the folder backup

A journal may be that of a node that runs, or a copy: it is read as far as its batches are whole. Contents in chunks
are read from the folder beside it, 0/journal.shelf. The journals of a whole row of nodes have all that was
acknowledged before the first one was copied. Of fewer some of the last changes may be missing. `get` tells each name
of which there is no whole copy, gets all others, and ends with status 10. Else the status is 0, 1 where a tenant has no
name, 2 for wrong words, 5 where a journal is damaged or copies don't go together, 9 for other faults of files, and
that of the first name which was skipped."""
COPY = (
    "Copies a node, which may run, into a folder: its journal, and of the folder beside it all that the journal names. "
    "A folder with an earlier copy gets what is new."
)
HOLD = (
    "hold the node from a line `hold` of standard input, which `held` answers, until a line `go`, and copy what it had then: "
    "what holds all nodes of a grid at once says so. What is there already comes ahead of `hold`"
)
STATE = (
    "Copies all nodes of a grid whose journals are on this machine as they stand at one moment, each into FOLDER/NODE, and their plan. "
    "They are held for that moment, some milliseconds, and no longer. A grid starts from these copies. A folder with an earlier state gets what is new."
)
HAD = "with - for FOLDER: what is there already, a line for each segment with its number and its bytes; - for standard input"
AS_THEY_ARE = "take pages that are older than others ask for: names that were removed may come back"
METRICS: dict[str, tuple[str, Callable[[Usage], float]]] = {
    "names": ("names that hold a content", lambda usage: usage.names),
    "used_bytes": ("bytes of these contents", lambda usage: usage.bytes_used),
    "slot_bytes": ("bytes of these that are in slots, from before chunks", lambda usage: usage.bytes_in_slots),
    "fullest_page_ratio": ("how full the fullest page is", lambda usage: usage.fullest.bytes / usage.fullest.most),
}

SHELF_METRICS = {
    "chunks": "chunks that the node has",
    "journal_bytes": "bytes of them in the journal and in memory",
    "named_bytes": "bytes of them on the shelf",
    "disk_bytes": "bytes of the shelf's segments",
    "dead_bytes": "bytes there that nothing names",
    "segments": "segments of the shelf",
    "sparse_segments": "segments of which less than half is named: their chunks are moved",
    "missing_segments": "segments that are named and are not there: their chunks are damaged",
    "lacking_tenants": "tenants of whom the node lacks chunks",
}


def parser() -> argparse.ArgumentParser:
    main = argparse.ArgumentParser(
        prog=PROGRAM, description="What tenants have, read from journals of nodes.", epilog=EPILOG, formatter_class=argparse.RawDescriptionHelpFormatter
    )
    main.add_argument("--version", action="version", version=f"%(prog)s {__version__}")
    words = main.add_subparsers(dest="word", required=True, metavar="COMMAND")
    sub = words.add_parser("room", help="how full each tenant is", description="How full each tenant is.")
    sub.add_argument("--json", action="store_true", help="the answer as JSON, one value")
    sub.add_argument("--metrics", metavar="FILE", help="write metrics for Prometheus' textfile collector in place of telling")
    sub.add_argument("journals", nargs="+", metavar="JOURNAL")
    sub.set_defaults(call=room)
    sub = words.add_parser("shelf", help="what nodes have of chunks, and what is dead or lacked", description="What each node has of chunks: what its journal names, what lies in the folder beside it, and of how many tenants it lacks some.")
    sub.add_argument("--json", action="store_true", help="the answer as JSON, one value")
    sub.add_argument("--metrics", metavar="FILE", help="write metrics for Prometheus' textfile collector in place of telling")
    sub.add_argument("--grid", metavar="GRID", default="", help="the grid, a label of the metrics where a machine has nodes of several")
    sub.add_argument("journals", nargs="+", metavar="JOURNAL")
    sub.set_defaults(call=shelf)
    sub = words.add_parser("pages", help="what `room` wants of a journal, to standard output", description="Writes what `room` wants of a journal to standard output: some MB at most, which are read as a journal.")
    sub.add_argument("journals", nargs=1, metavar="JOURNAL")
    sub.set_defaults(call=pages)
    sub = words.add_parser("copy", help="a copy of a node, which may run", description=COPY)
    sub.add_argument("--had", metavar="FILE", help=HAD)
    sub.add_argument("--hold", action="store_true", help=HOLD)
    sub.add_argument("journal", metavar="JOURNAL", help="or - for a stream from standard input")
    sub.add_argument("folder", metavar="FOLDER", help="or - for a stream to standard output")
    sub.set_defaults(call=copy)
    sub = words.add_parser("state", help="copies of all nodes, of one moment", description=STATE)
    sub.add_argument("folder", metavar="FOLDER")
    sub.add_argument("journals", nargs="+", metavar="JOURNAL")
    sub.set_defaults(call=state)
    sub = words.add_parser("get", help="a tenant's names into a folder", description="Gets a tenant's names, with their contents, into a folder; gridfs-client mirror puts them back.")
    sub.add_argument("--as-they-are", action="store_true", help=AS_THEY_ARE)
    sub.add_argument("tenant")
    sub.add_argument("folder")
    sub.add_argument("journals", nargs="+", metavar="JOURNAL")
    sub.set_defaults(call=get)
    return main


def used(journals: Journals, tenant: str) -> tuple[Usage | None, str | None]:
    """What a tenant has used, or why that can't be told."""
    try:
        return usage_of(journals.files(tenant, as_they_are=True)), None
    except ClientError as fault:
        return None, str(fault)


def room(args: argparse.Namespace) -> None:
    with closing(Journals(args.journals)) as journals:
        found = {tenant: used(journals, tenant) for tenant in journals.plan.tenants}
        shares = {tenant: told.share * BLOCK for tenant, told in journals.plan.tenants.items()}
        nodes, is_whole = journals.numbers, journals.has_whole_row
    if args.metrics:
        write_whole(args.metrics, "".join(metrics({tenant: usage for tenant, (usage, _) in found.items() if usage}, ",".join(map(str, nodes)))))
        return
    if args.json:
        tenants = {tenant: {"share": shares[tenant]} | usage_value(*each) for tenant, each in found.items()}
        out(json_of({"nodes": nodes, "has_whole_row": is_whole, "tenants": tenants}).encode() + b"\n")
        return
    lines = [f"{'tenant':<16} {'names':>7} {'bytes used':>14} {'in slots':>14} {'fullest page':>12}"]
    for tenant, (usage, why) in found.items():
        lines.append(f"{tenant:<16} {row_of(usage)}" if usage else f"{tenant:<16} left out: {why}")
    if not is_whole:
        lines.append("(no whole row of nodes: some of what was written last may be missing)")
    out_lines(lines)


def row_of(usage: Usage) -> str:
    return f"{usage.names:>7} {usage.bytes_used:>14} {usage.bytes_in_slots:>14} {usage.fullest.percent:>11}%"


def metrics(usages: dict[str, Usage], nodes: str) -> Iterator[str]:
    for name, (meaning, number) in METRICS.items():
        yield f"# HELP gridfs_tenant_{name} {meaning}\n# TYPE gridfs_tenant_{name} gauge\n"
        for tenant, usage in usages.items():
            yield f'gridfs_tenant_{name}{{node="{nodes}",tenant="{tenant}"}} {number(usage):g}\n'


def write_whole(path: str, text: str) -> None:
    """Writes a file beside and renames it, so that nobody reads a half of it. Everybody may read it."""
    with tempfile.NamedTemporaryFile("w", dir=os.path.dirname(path) or ".", prefix=".room.", delete=False) as beside:
        try:
            beside.write(text)
            beside.flush()
            os.fchmod(beside.fileno(), 0o644)
            os.rename(beside.name, path)
        except BaseException:
            os.unlink(beside.name)
            raise


def shelf(args: argparse.Namespace) -> None:
    found = [shelf_of(path) for path in args.journals]
    if args.metrics:
        write_whole(args.metrics, "".join(shelf_metrics(found, args.grid)))
    elif args.json:
        out(json_of([{"node": it.node, "lacking": it.lacking} | it.value() for it in found]).encode() + b"\n")
    else:
        for it in found:
            told = it.value()
            lines = [f"node {it.node}: {told['chunks']} chunks; {told['journal_bytes']} bytes of them in the journal, {told['named_bytes']} on the shelf"]
            lines.append(f"  the shelf has {told['disk_bytes']} bytes in {told['segments']} segments; {told['dead_bytes']} are dead, and {told['sparse_segments']} segments are sparse")
            lines += [f"  {told['missing_segments']} segments are missing: their chunks are damaged"] * bool(told["missing_segments"])
            lines += [f"  chunks are lacked of {', '.join(it.lacking)}"] * bool(it.lacking)
            out_lines(lines)


def shelf_metrics(found: Sequence[Shelf], grid: str) -> Iterator[str]:
    of_grid = f'grid="{grid}",' if grid else ""
    for name, meaning in SHELF_METRICS.items():
        yield f"# HELP gridfs_shelf_{name} {meaning}\n# TYPE gridfs_shelf_{name} gauge\n"
        for it in found:
            yield f'gridfs_shelf_{name}{{{of_grid}node="{it.node}"}} {it.value()[name]}\n'


def pages(args: argparse.Namespace) -> None:
    with closing(Journals(args.journals)) as journals:
        out_file = standard(sys.stdout, OUTPUT)
        journals.write_pages(out_file)
        out_file.flush()


def copy(args: argparse.Namespace) -> None:
    if args.journal == "-":
        out_lines([f"{take_stream(standard(sys.stdin, INPUT), args.folder)} bytes came"])
    elif args.hold:
        files, had = open_when_told(args.journal, standard(sys.stdin, INPUT), standard(sys.stdout, OUTPUT))
        with closing(files):
            copy_opened(files, args.folder, had)
    elif args.folder == "-":
        with content_of(args.had or os.devnull) as listing, closing(NodeFiles(args.journal)) as files:
            copy_opened(files, "-", listing.read())
    else:
        tell_copies([copy_node(args.journal, args.folder)])


def copy_opened(files: NodeFiles, folder: str, had: bytes) -> None:
    if folder == "-":
        write_stream(files, standard(sys.stdout, OUTPUT), parse_had(had.decode("ascii", "replace")))
    else:
        tell_copies([copy_files(files, folder)])


def tell_copies(copied: Sequence[Copied]) -> None:
    for made in copied:
        named = f"{made.journal_bytes} bytes of its journal, {made.named_bytes} of segments"
        out_lines([f"copied node {made.node}: {named}; {made.copied_bytes} bytes were copied, the others are shared or were there"])
    if lacking := [f"{made.lacking} of node {made.node}" for made in copied if made.lacking]:
        raise Skipped(f"segments are missing, {', '.join(lacking)}: their chunks are damaged there", LACKING)


def state(args: argparse.Namespace) -> None:
    made = copy_state(args.journals, args.folder)
    out_lines([f"{len(made.copied)} nodes were held for {made.seconds:.3f} s"])
    tell_copies(made.copied)
    if made.missing:
        raise Skipped(f"no journal of places {listed(made.missing)}: a start has to replace the nodes there", LACKING)


class FromJournals(ToFolder):
    """What has no whole copy here is told of each name, and counted."""

    lacking = 0

    def skip(self, what: str, fault: ClientError) -> None:
        self.lacking += isinstance(fault, Damaged)
        super().skip(what, fault)


def get(args: argparse.Namespace) -> None:
    with closing(Journals(args.journals, args.tenant)) as journals:
        if not journals.has_whole_row:
            complain("no whole row of nodes: some of what was written last may be missing", PROGRAM)

        @contextmanager
        def names_for(_: str) -> Iterator[NamedFiles]:
            yield journals.files(args.tenant, args.as_they_are)

        def tell(word: str, name: str) -> None:
            out_lines([f"{word} {shown(name)}"])

        made = FromJournals(args.folder, "", names_for, lambda _: 0, tell, partial(complain, who=PROGRAM))
        try:
            report = made.run()
        except Damaged as fault:
            raise Damaged(f"{fault}. {NOT_TOGETHER}") from None
        except NoSuchName:
            raise NoSuchName(f"{args.tenant} has no name") from None
        out_lines([f"got {len(report.moved)}; {report.same} the same"])
        if made.lacking:
            skipped = f"{len(report.skipped)} skipped; of {made.lacking} of them"
            raise Skipped(f"{skipped} no journal and folder here has a whole copy", LACKING)
        if report.skipped:
            raise Skipped(f"{len(report.skipped)} skipped", report.status)


def main(words: Sequence[str] | None = None) -> int:
    """Runs the command; its status."""
    args = parser().parse_args(words)
    try:
        args.call(args)
        return 0
    except ClientError as fault:
        complain(str(fault), PROGRAM)
        return fault.status
    except BrokenPipeError:
        os.dup2(os.open(os.devnull, os.O_WRONLY), 1)  # whoever read the answer has gone
        return 141
    except OSError as fault:
        complain(f"{fault.filename or 'a file'}: {fault.strerror or fault}", PROGRAM)
        return ClientError.status
    except KeyboardInterrupt:
        return 130
