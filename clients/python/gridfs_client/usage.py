"""What a tenant's names take of its room, and what is left."""

from collections.abc import Iterator
from dataclasses import dataclass

from .contents import InSlots
from .layout import Layout
from .names import NamedFiles
from .pages import length_of_lines


@dataclass(frozen=True)
class Fullest:
    """The fullest page: whose it is, the bytes of its lines, and how many they may have before a put is refused."""

    session: int
    page: int
    bytes: int
    most: int

    @property
    def percent(self) -> int:
        return 100 * self.bytes // self.most


@dataclass(frozen=True)
class ColumnUsage:
    """The bytes of chunks at the fullest node of a column, and those that the tenant may have there; its nodes that did not answer, and those that lack chunks."""

    column: int
    used: int
    allowed: int
    silent: tuple[int, ...]
    lacking: tuple[int, ...]


@dataclass(frozen=True)
class Usage:
    """The names with their bytes, how many of both are in slots, from before chunks, and the pages."""

    names: int
    bytes_used: int
    names_in_slots: int
    bytes_in_slots: int
    pages: int
    fullest: Fullest
    columns: tuple[ColumnUsage, ...] = ()  # where the tenant has room for chunks

    @property
    def bytes_free(self) -> int:
        """What all columns have room for."""
        return sum(max(0, column.allowed - column.used) for column in self.columns)


def usage_of(files: NamedFiles) -> Usage:
    """What all names take: a listing of them. It is no snapshot."""
    entries, layout, in_slots = files.names(), files.layout, sizes_in_slots(files)
    return Usage(
        names=len(entries),
        bytes_used=sum(entry.size for entry in entries),
        names_in_slots=len(in_slots),
        bytes_in_slots=sum(in_slots),
        pages=layout.sessions * sum(not bucket.has_split() for bucket in files.writer.buckets.values()),
        fullest=fullest_page(files, layout),
        columns=tuple(column_usages(files)),
    )


def column_usages(files: NamedFiles) -> Iterator[ColumnUsage]:
    """What nodes tell of room for chunks, by column; nothing where the tenant has none."""
    if files.writer.contents is None or not (rooms := files.writer.contents.rooms()):
        return
    chunks = files.writer.contents.chunks
    for column in range(chunks.shape.columns):
        places = chunks.shape.column(column)
        known = {place: rooms[place] for place in places if place in rooms}
        silent = tuple(chunks.node_at(place) for place in places if place not in rooms)
        lacking = tuple(chunks.node_at(place) for place, room in known.items() if room.lacks)
        every = list(known.values())
        yield ColumnUsage(column, max((room.used for room in every), default=0), min((room.allowed for room in every), default=0), silent, lacking)


def sizes_in_slots(files: NamedFiles) -> list[int]:
    """The bytes in slots of each name that has some there, as it was listed last."""
    every = (held.content.parts for bucket in files.writer.buckets.values() if not bucket.has_split() for held in bucket.names())
    return [sum(part.size for part in found) for parts in every if (found := [part for part in parts if isinstance(part, InSlots)])]


def fullest_page(files: NamedFiles, layout: Layout) -> Fullest:
    pages = [
        Fullest(session, number, length_of_lines(known.page.lines), layout.contents_room)
        for number, bucket in files.writer.buckets.items()
        for session, known in enumerate(bucket.client.seen, 1)
    ]
    return max(pages, key=lambda page: page.bytes)
