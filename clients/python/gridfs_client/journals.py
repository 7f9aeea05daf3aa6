"""Journals of nodes with the folders beside them, read as files: what tenants have, without their keys, without a
session, and while the nodes run.

A journal is read batch by batch, as far as batches are whole: so one that is being written can be read, or a copy of
it. Of each file the newest copy counts that any of the journals has. A write that was acknowledged stands in a whole
column, so the journals of a whole row have it. Fewer of them may lack what was written last. Contents are read where
they are wanted, from files as they were opened: a node that writes its journal anew, or removes a segment, does not
disturb that.

Chunks are taken from whichever node of their column has them here. Digests of contents tell what is right: where one
is wrong its chunks are read once more, and the sum of each copy is looked at.
"""

import os
import re
from collections.abc import Collection, Generator, Iterable, Iterator, Sequence
from contextlib import ExitStack, closing
from dataclasses import dataclass
from typing import IO, BinaryIO

from .answers import MOST_PLACES, Copy, Row, Tag, content_of
from .batches import batches
from .chunks import Wanted
from .errors import BadFile, BadSettings, Damaged, Refused
from .grid import Shape, listed
from .in_chunks import ReadContents
from .layout import Layout, layout_of
from .local import cut
from .names import Entry, NamedFiles, place_to_cut
from .plans import Plan, plan_of
from .runs import Place as ChunkPlace
from .shelves import Extent, NodeFiles
from .streams import OneByOne
from .ways import Ground

__all__ = ["Journals", "batches"]

COPIES = (b"kept ", b"had ")
HEAD = re.compile(rb"(names 2 [0-9]+)[0-9 ]*")  # of a page: its number, and those that others need
NO_COPY = Tag(0, 0)


@dataclass(frozen=True)
class Place:
    """Where the newest copy of a file stands: its tag, the journal, and the bytes there."""

    tag: Tag
    file: BinaryIO
    offset: int
    length: int

    def text(self) -> bytes:
        return os.pread(self.file.fileno(), self.length, self.offset)

    def content(self) -> bytes:
        return content_of(self.text().decode("latin1"))


class Journals:
    """What some journals of one grid have together, and the chunks of one tenant. BadFile where one is none, or of
    another grid; Damaged as it says.
    """

    def __init__(self, paths: Sequence[str], tenant: str = ""):
        self.plan, self.tenant = Plan(), tenant
        self.nodes, self.places = list[NodeFiles](), dict[tuple[str, int, int], Place]()
        self.opened = ExitStack()
        try:
            for path in paths:
                self.add(path)
        except BaseException:
            self.close()
            raise

    def add(self, path: str) -> None:
        node = self.opened.enter_context(closing(NodeFiles(path, self.tenant or None, self.take)))
        try:
            plan = plan_of(node.facts.plan[1:])
        except (ValueError, KeyError, IndexError):
            raise BadFile(f"{path}: a line says no fact of a node") from None
        plan.text = b"".join(node.facts.plan)
        self.nodes.append(node)
        older, newer = sorted((self.plan, plan), key=Plan.extent)
        if older.tenants and not (older.rows == newer.rows and list(newer.tenants)[: len(older.tenants)] == list(older.tenants)):
            raise BadFile(f"{path}: of another grid than the one before")
        self.plan = newer

    def take(self, file: BinaryIO, offset: int, line: bytes) -> None:
        if line.startswith(COPIES):
            self.keep(file, offset, line)

    def keep(self, file: BinaryIO, offset: int, line: bytes) -> None:
        _, tenant, volume, number, tag, session, content = line.split(b" ", 6)
        key, tag_told = (tenant.decode("ascii"), int(volume), int(number)), Tag(int(tag), int(session))
        before = self.places.get(key)
        if before is None or before.tag < tag_told:
            self.places[key] = Place(tag_told, file, offset + len(line) - len(content), len(content) - 1)

    @property
    def numbers(self) -> list[int]:
        """The nodes whose journals these are."""
        return sorted({node.node for node in self.nodes})

    @property
    def has_whole_row(self) -> bool:
        """Whether they have all that was acknowledged before the first one was copied."""
        places, columns = {node % MOST_PLACES for node in self.numbers}, range(self.plan.columns)
        return any(all(row * len(columns) + column in places for column in columns) for row in range(self.plan.rows))

    def write_pages(self, out: IO[bytes]) -> None:
        """Writes what `usage_of` wants as one more journal, to be read with others: the plan, and of each tenant with names its pages. No node
        starts with that: its batches have no digest."""
        write_batch(out, 1, [self.plan.text])
        write_batch(out, 2, [each for tenant in self.plan.tenants for each in self.lines_of_pages(tenant)])

    def lines_of_pages(self, tenant: str) -> Iterator[bytes]:
        try:
            volumes = set(layout_of(self.plan.tenants[tenant]).all_pages_volumes)
        except BadSettings:
            return
        for (whose, volume, file), place in self.places.items():
            if whose == tenant and volume in volumes:
                yield f"kept {tenant} {volume} {file} {place.tag.number} {place.tag.session} ".encode() + place.text() + b"\n"

    def files(self, tenant: str, as_they_are: bool = False) -> "JournalNames":
        """The tenant's names, to be read alone. Where pages were copied at other times, one may be older than another one asks for, which is Damaged. With
        `as_they_are` that is let pass: a name that was taken away may be seen then. BadSettings where the volumes are for no names."""
        if tenant not in self.plan.tenants:
            raise BadSettings(f"the journals have no tenant {tenant}")
        layout = layout_of(self.plan.tenants[tenant])
        session = JournalFiles(self, tenant, layout, as_they_are)
        files = JournalNames(session, layout, team=OneByOne(), ground=Ground("", lambda _: None))
        files.chunks = JournalChunks(self)
        return files

    def close(self) -> None:
        self.opened.close()


def write_batch(out: IO[bytes], number: int, lines: Sequence[bytes]) -> None:
    for line in lines:
        out.write(line)
    out.write(f"sync {number} {sum(map(len, lines))} {'0' * 16}\n".encode())


class JournalFiles:
    """A tenant's numbered files, of which none can be written."""

    number = 1  # (pages are looked at as a session does)
    may_leave = False

    def __init__(self, journals: Journals, tenant: str, layout: Layout, as_they_are: bool):
        self.places, self.tenant, self.layout, self.as_they_are, self.pages_volumes = journals.places, tenant, layout, as_they_are, set(layout.all_pages_volumes)

    def read(self, volume: int, file: int) -> Copy:
        place = self.places.get((self.tenant, volume, file))
        if place is None:
            return Copy(NO_COPY, b"")
        content = place.content()
        if self.as_they_are and volume in self.pages_volumes:
            content = HEAD.sub(rb"\1", content, count=1) if HEAD.match(content) else content
        return Copy(place.tag, content)

    def list(self, volume: int) -> tuple[Row, ...]:
        """The tags; lengths are left out."""
        found = (self.places.get((self.tenant, volume, file)) for file in range(self.layout.volumes[volume].files))
        return tuple(Row(0, place.tag if place else NO_COPY) for place in found)

    def look(self, volume: int, wanted: Collection[int] | None = None) -> tuple[Row | None, ...]:
        return self.list(volume)

    def write(self, volume: int, file: int, content: bytes) -> Tag:
        raise Refused("a journal is only read")


class JournalNames(NamedFiles):
    """A tenant's names, with contents in chunks."""

    chunks: "JournalChunks"

    def chunk_contents(self, name: str) -> ReadContents:
        return self.chunks.contents

    def get_to(self, name: str, target: IO[bytes]) -> Entry:
        """Where the digest is wrong the content is read once more, by copies of chunks whose sums are right. (Sums
        take longer than digests here.)
        """
        start = place_to_cut(target)
        self.chunks.is_careful = start is None
        try:
            return super().get_to(name, target)
        except Damaged:
            if start is None:
                raise
        cut(target, start)
        self.chunks.is_careful = True
        return super().get_to(name, target)


class JournalChunks:
    """The chunks of the tenant, from whichever node here has them."""

    def __init__(self, journals: Journals):
        self.nodes, self.shape = journals.nodes, Shape(journals.plan.rows, journals.plan.columns)
        self.contents = ReadContents(self)
        self.is_careful = False  # only copies with the right sum will do

    def get(self, wanted: Iterable[Wanted]) -> Generator[bytes | None, None, None]:
        for each in wanted:
            yield self.content(each.place, each.size)[each.first : each.first + each.length]

    def content(self, place: ChunkPlace, size: int) -> bytes:
        """The first sound copy. Damaged where there is none."""
        column, session, number = place
        here, why = [node for node in self.nodes if node.node % MOST_PLACES % self.shape.columns == column], list[str]()
        for node, extent in self.copies(here, session, number):
            try:
                content = node.content(extent, self.is_careful)
            except Damaged as fault:
                why.append(f"{fault} at node {node.node}")
                continue
            if len(content) == size:
                return content
            why.append(f"of another length at node {node.node}")
        absent = [node.node for node in here if node.extent(session, number) is None]
        if absent or not here:
            why.append(f"not at node {listed(absent)}" if absent else "no journal here is of that column")
        raise Damaged(f"no copy of chunk {number} of session {session} at column {column}: {'; '.join(why)}")

    def copies(self, nodes: Iterable[NodeFiles], session: int, number: int) -> list[tuple[NodeFiles, Extent]]:
        """Those that nodes tell come first: one that a new node kept itself counts where there is no other."""
        found = [(node, extent) for node in nodes if (extent := node.extent(session, number))]
        return sorted(found, key=lambda each: not each[1].is_sure)
