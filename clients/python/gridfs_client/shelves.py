"""A node's journal and the folder of chunks beside it, which are one thing: what the journal names there, what lies
there, and the bytes of chunks.

A node that runs removes segments once their chunks were forgotten or moved. So the segments are opened before the
journal is read, and those that came meanwhile behind it: what was opened can be read whatever the node does since.
Where a segment that the journal names was gone by then, and the journal has changed, all is read once more.
"""

import os
import resource
from collections import Counter
from collections.abc import Callable, Iterable, Iterator
from contextlib import ExitStack, suppress
from dataclasses import dataclass, field
from typing import BinaryIO, NamedTuple

from .answers import MOST_PLACES, content_of
from .batches import NODE, Lines, sealed
from .errors import BadFile, Damaged

FIRST_NEW = MOST_PLACES  # nodes of this number and later ones were begun in place of a lost one
BEGINNINGS = 20  # of a reading, where the node changes more than can be read
FACTOR, WORD = 11400714819323198485, (1 << 64) - 1  # of the journal's sum
NUMBER_LETTERS = 10  # of a segment's name
Taken = Callable[[BinaryIO, int, bytes], None]


class Extent(NamedTuple):
    """Where the bytes of a chunk are: in a segment of the shelf, or as a word of the journal, where the segment is 0.
    `is_sure`: the node tells it.
    """

    segment: int
    at: int
    length: int
    sum: int
    is_sure: bool


def sum_of(number: int, content: bytes) -> int:
    """The journal's sum of a number and bytes (docs/FORMATS.md, Batches)."""
    told = 0
    whole = len(content) // 8 * 8
    words = memoryview(content[:whole]).cast("Q")
    for word in (number, len(content), *words, int.from_bytes(content[whole:], "little")):
        product = (told ^ word) * FACTOR & WORD
        told = product ^ product >> 32
    return told


@dataclass
class Shelf:
    """Of one node. `named` has the bytes that are named in each segment, `on_disk` those that it has."""

    node: int = 0
    chunks: int = 0
    in_journal: int = 0
    named: Counter[int] = field(default_factory=Counter)
    on_disk: dict[int, int] = field(default_factory=dict)
    lacking: list[str] = field(default_factory=list)

    def value(self) -> dict[str, int]:
        """The numbers. A segment is sparse where less than half of it is named: its chunks are moved."""
        there, named = sum(self.on_disk.values()), self.named.total()
        return {
            "chunks": self.chunks,
            "journal_bytes": self.in_journal,
            "named_bytes": named,
            "disk_bytes": there,
            "dead_bytes": max(0, there - named),
            "segments": len(self.on_disk),
            "sparse_segments": sum(2 * self.named[number] < length for number, length in self.on_disk.items()),
            "missing_segments": len(self.named.keys() - self.on_disk.keys()),
            "lacking_tenants": len(self.lacking),
        }


class Facts:
    """What was read so far of a journal: its node, the lines of its last plan, and where the chunks of one tenant
    are, or of all.
    """

    def __init__(self, tenant: str | None = None) -> None:
        self.of = b" %b " % tenant.encode("ascii") if tenant else b""
        self.node, self.first, self.rooms, self.filled = -1, dict[str, int](), dict[str, int](), set[str]()
        self.plan, self.end = list[bytes](), 0
        self.sessions = dict[tuple[str, int], dict[int, Extent]]()

    def batch(self, lines: Lines, end: int) -> bool:
        """Takes a batch; whether it was one of facts, and not of a plan."""
        self.end = end
        if lines and (head := NODE.fullmatch(lines[0][1])):
            self.node, self.plan = int(head[1]), [line for _, line in lines]
            words = [line.decode("ascii").split() for line in self.plan[1:]]
            rooms = [row for row in words if len(row) == 3 and row[1] == "chunks"]
            self.rooms = {name: int(kib) for name, _, kib in rooms}
            self.first = self.first or self.rooms
            return False
        for offset, line in lines:
            if line.startswith((b"chunk ", b"extent ", b"forgot ")):
                if not self.of or line.find(self.of, 0, 40) > 0:
                    self.fact(offset, line)
            elif line.startswith(b"filled "):
                self.filled.add(line.split()[1].decode("ascii"))
        return True

    def fact(self, offset: int, line: bytes) -> None:
        if line.startswith(b"forgot "):
            _, tenant, session, _, first, last = line.split()
            had, run = self.sessions.get((tenant.decode("ascii"), int(session)), {}), range(int(first), int(last) + 1)
            for gone in run if len(run) <= len(had) else [each for each in had if each in run]:
                had.pop(gone, None)
            return
        verb, tenant, session, number, sure, content = line.split(b" ", 5)
        places, is_sure = self.sessions.setdefault((tenant.decode("ascii"), int(session)), {}), sure == b"1"
        if verb == b"chunk":
            places[int(number)] = Extent(0, offset + len(line) - len(content), len(content) - 1, 0, is_sure)
        else:
            segment, at, length, sum_told = map(int, content.split())
            places[int(number)] = Extent(segment, at, length, sum_told, is_sure)

    def extents(self) -> Iterator[Extent]:
        return (extent for places in self.sessions.values() for extent in places.values())

    def lacking(self) -> list[str]:
        """The tenants of whom the node lacks chunks."""
        if self.node < FIRST_NEW:
            return []
        return [name for name, kib in self.rooms.items() if kib and self.first.get(name) and name not in self.filled]


def folder_of(journal: str) -> str:
    return journal + ".shelf"


def segment_name(number: int) -> str:
    return f"{number:0{NUMBER_LETTERS}}"


def segments_in(folder: str) -> dict[int, int]:
    """The segments that lie there, with their bytes; none where there is no folder."""
    found = dict[int, int]()
    with suppress(FileNotFoundError), os.scandir(folder) as entries:
        for entry in entries:
            if len(entry.name) == NUMBER_LETTERS and entry.name.isdigit():
                with suppress(FileNotFoundError):
                    found[int(entry.name)] = entry.stat().st_size
    return found


def allow_many_files() -> None:
    """A terabyte has four thousand segments."""
    _, most = resource.getrlimit(resource.RLIMIT_NOFILE)
    resource.setrlimit(resource.RLIMIT_NOFILE, (most, most))


class NodeFiles:
    """A node's journal and shelf, opened, as they were at one moment. BadFile where it is no journal, Damaged where
    it is damaged. `take` is given each other fact: the journal as it was opened, where the line begins, and the
    line.
    """

    def __init__(self, path: str, tenant: str | None = None, take: Taken = lambda *_: None, is_still: bool = False):
        """Of a node that is still all is opened, and read by `read_opened` once it goes on."""
        self.path, self.folder, self.tenant, self.take = path, folder_of(path), tenant, take
        self.opened, self.segments, self.end = ExitStack(), dict[int, BinaryIO](), float("inf")
        allow_many_files()
        try:
            if is_still:
                self.open_all()
                self.end = os.fstat(self.journal.fileno()).st_size
            else:
                self.read()
        except BaseException:
            self.close()
            raise

    def open_all(self) -> None:
        self.open_segments(segments_in(self.folder))
        self.journal = self.opened.enter_context(open(self.path, "rb"))

    def read(self) -> None:
        for _ in range(BEGINNINGS):
            self.open_all()
            self.facts = self.read_facts()
            named = self.named()
            self.open_segments(sorted(named))
            if named <= self.segments.keys() or not self.has_changed():
                break
        self.close_others(named)

    def read_opened(self) -> None:
        self.facts = self.read_facts()
        self.close_others(self.named())

    def named(self) -> set[int]:
        """The segments that the journal names."""
        return {extent.segment for extent in self.facts.extents() if extent.segment}

    def close_others(self, named: set[int]) -> None:
        for number in self.segments.keys() - named:
            self.segments.pop(number).close()

    def read_facts(self) -> Facts:
        facts = Facts(self.tenant)
        try:
            for lines, end in sealed(self.journal, self.path):
                if end > self.end:
                    break
                if facts.batch(lines, end):
                    for offset, line in lines:
                        self.take(self.journal, offset, line)
        except (ValueError, IndexError):
            raise BadFile(f"{self.path}: a line says no fact of a node") from None
        if facts.node < 0:
            raise BadFile(f"{self.path}: no journal of a node")
        return facts

    def open_segments(self, numbers: Iterable[int]) -> None:
        for number in numbers:
            if number not in self.segments:
                path = os.path.join(self.folder, segment_name(number))
                with suppress(FileNotFoundError):
                    self.segments[number] = self.opened.enter_context(open(path, "rb"))

    def has_changed(self) -> bool:
        """Whether the journal has more by now than was read, or is another one."""
        try:
            there = os.stat(self.path)
        except FileNotFoundError:
            return False
        own = os.fstat(self.journal.fileno())
        return (there.st_dev, there.st_ino) != (own.st_dev, own.st_ino) or there.st_size > self.journal.tell()

    @property
    def node(self) -> int:
        return self.facts.node

    def extent(self, session: int, number: int) -> Extent | None:
        """Where a chunk of the tenant is."""
        return self.facts.sessions.get((self.tenant or "", session), {}).get(number)

    def content(self, extent: Extent, is_checked: bool) -> bytes:
        """The bytes there; their sum is looked at where that is wanted. Damaged, with a word that says why, where
        they can't be read.
        """
        try:
            if not extent.segment:
                return content_of(os.pread(self.journal.fileno(), extent.length, extent.at).decode("latin1"))
            content = os.pread(self.segments[extent.segment].fileno(), extent.length, extent.at)
        except KeyError:
            raise Damaged(f"without segment {extent.segment}") from None
        except (OSError, ValueError):
            raise Damaged("unread") from None
        if len(content) != extent.length or is_checked and sum_of(extent.at, content) != extent.sum:
            raise Damaged("damaged")
        return content

    def close(self) -> None:
        self.opened.close()


def shelf_of(path: str) -> Shelf:
    """Of the node of this journal. BadFile where it is none, Damaged where it is damaged."""
    files = NodeFiles(path)
    files.close()
    found = Shelf(files.node, lacking=files.facts.lacking(), on_disk=segments_in(files.folder))
    for extent in files.facts.extents():
        found.chunks += 1
        if extent.segment:
            found.named[extent.segment] += extent.length
        else:
            found.in_journal += extent.length - 1
    return found
