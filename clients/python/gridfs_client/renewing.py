"""Contents that are in slots go to chunks, where the tenant has room for these. Names, versions, words and bytes stay as they are.

Who has a session changes its pages alone. A line keeps its version, and says of the same bytes where they are now: so no change of another session is undone,
whatever comes meanwhile. What stood in a slot stays there, and nothing names it once the page was carried.

A put anew would take a version above all that were seen. So it would win over a put of another session that was begun before it and ends later,
and that put would be lost.
"""

from collections.abc import Iterable
from dataclasses import dataclass, replace

from .buckets import Bucket, Held
from .contents import Content, InChunks, InSlots, Part, joined, parts_of, slots_of
from .core import Line, Page, Version
from .errors import BadSettings, Damaged, NoRoom
from .fleet import spool
from .in_chunks import ChunkContents, why_none
from .names import NamedFiles
from .runs import MOST_NUMBER, Run
from .streams import Source

AT_ONCE = 64 << 20  # bytes, from which on a page is written before more contents of it are moved


@dataclass(frozen=True)
class Renewed:
    """How many contents went from slots to chunks, and their bytes; and how many stay in slots, since their page has no room for a longer line."""

    moved: int = 0
    bytes: int = 0
    left: int = 0

    def __add__(self, other: "Renewed") -> "Renewed":
        return Renewed(self.moved + other.moved, self.bytes + other.bytes, self.left + other.left)


def is_in_slots(line: Line) -> bool:
    return any(slots_of([line.content]))


def size_of(line: Line) -> int:
    return line.content.size if line.content else 0


def with_lines(journal: Page, lines: Iterable[Line]) -> Page:
    """The journal with these in place of its lines of the same names."""
    found = {line.name: line for line in lines}
    return replace(journal, lines=tuple(found.get(line.name, line) for line in journal.lines))


class Renewal:
    """What one session does, page after page."""

    def __init__(self, files: NamedFiles, contents: ChunkContents):
        self.files, self.writer, self.contents = files, files.writer, contents

    def run(self) -> Renewed:
        return sum(map(self.renew, self.writer.all_buckets()), Renewed())

    def renew(self, bucket: Bucket) -> Renewed:
        """The contents of a page: each batch of lines goes by one change."""
        bucket.look()
        journal = bucket.changed(None)  # (without lines of which others show greater ones)
        wanted, batch = self.wanted(bucket, journal), list[Line]()
        told = Renewed(left=sum(map(is_in_slots, journal.lines)) - len(wanted))
        try:
            for line in wanted:
                batch.append(self.moved(bucket, line))
                if sum(map(size_of, batch)) >= AT_ONCE:
                    told, batch = told + self.change(bucket, batch), []
        except NoRoom:
            self.change(bucket, batch)
            raise
        return told + self.change(bucket, batch)

    def wanted(self, bucket: Bucket, journal: Page) -> list[Line]:
        """The lines whose contents are in slots, as many as the page has room for once they are in chunks."""
        found = list[Line]()
        for line in filter(is_in_slots, journal.lines):
            longer = with_lines(journal, [replace(line, content=self.example(line))])
            if self.writer.has_room(bucket, longer):
                journal = longer
                found.append(line)
        return found

    def example(self, line: Line) -> Content:
        """What the line will have, in words that are no shorter."""
        columns = range(self.contents.chunks.shape.columns)
        return joined([InChunks(part.size, part.digest, tuple(Run(each, self.writer.me, MOST_NUMBER // 2, 1 + part.size // self.contents.most) for each in columns))
                       if isinstance(part, InSlots) else part for part in parts_of([line.content])])  # fmt: skip

    def moved(self, bucket: Bucket, line: Line) -> Line:
        """The line as it will be: its content is in chunks, which no line names yet."""
        held, parts = Held(line.name, Version(line.version, self.writer.me), joined([*parts_of([line.content])])), list[Part]()
        try:
            for part in held.content.parts:
                parts.append(self.in_chunks(held, part) if isinstance(part, InSlots) else part)
        except BaseException:
            self.writer.not_named(bucket.number, set(parts).difference(held.content.parts))
            raise
        return replace(line, content=joined(parts))

    def in_chunks(self, held: Held, part: InSlots) -> Part:
        with spool() as room:
            if self.files.copy_part(held, part, room) is not None:
                raise Damaged(f"{held.name}: its slots don't hold it")  # (only an older client with this session could have used them anew)
            room.seek(0)
            return self.contents.put(Source(room), self.contents.expect_room(held.name, part.size), lambda *_: None)

    def change(self, bucket: Bucket, lines: list[Line]) -> Renewed:
        """Announces and carries these lines in place of those of the same names."""
        if lines:
            self.writer.change(bucket, with_lines(bucket.changed(None), lines))
        return Renewed(len(lines), sum(map(size_of, lines)))


def renew(files: NamedFiles) -> Renewed:
    """Moves what pages of the session name in slots. BadSettings where the tenant has no room for chunks; NoRoom where there is too little: what was moved by
    then stays moved."""
    contents = files.writer.contents
    if contents is None or not contents.rooms():
        raise BadSettings(why_none(contents))
    return Renewal(files, contents).run()
