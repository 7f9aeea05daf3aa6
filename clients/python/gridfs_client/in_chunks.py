"""Contents of names in chunks, of one session: written, read, and forgotten once no line names them.

A content's runs name a column each. So where a chunk can't be kept at one column, what is kept stays, and the rest goes elsewhere. What was
replaced is forgotten later, so that a get that began before ends well: by a command at its end, by a gateway after a minute. Nothing rests on
a forget, so nobody waits for its sync.
"""

from collections import deque
from collections.abc import Callable, Collection, Generator, Iterable, Iterator
from contextlib import closing, suppress
from dataclasses import dataclass
from itertools import islice
from typing import Protocol, cast

from .carriers import Carrier
from .chunk_lines import CHUNK_CHARGE, MOST_CHUNK
from .chunks import MORE_ROOM, ROOM_LASTS, Chunks, Rooms, Wanted
from .contents import InChunks, InSlots, PartList, Part, digest_in_hex, parse_part, to_base64
from .errors import CarrierFault, Damaged, NoRoom, Unanswered
from .grid import Shape
from .runs import Place, Run, runs_of
from .sessions import Files, Session
from .streams import Digest, Source

MOST_LISTS = 64  # that are remembered
MOST_AT_ONCE = 1_000  # chunks that are listed at a time
MOST_LENGTH = 1 << 26  # bytes of a list


class Gone(Exception):
    """A chunk was forgotten: what names it has been replaced, or removed."""


@dataclass(frozen=True)
class Cut:
    """The bytes of a content from the first to before the end; and whether all of it is read, here or by cuts before and behind."""

    part: InChunks
    first: int
    end: int
    is_whole: bool


class SoFar:
    """What was read of a content in order, as far as it is: whoever reads it whole by several cuts has its digest judged at its end."""

    def __init__(self) -> None:
        self.part: Part | None = None
        self.digest, self.at = Digest(), 0

    def take(self, part: Part, at: int, data: bytes, is_whole: bool = True) -> bool:
        """Takes these bytes at this place of a part; False where they are its last ones, and all of it has another digest."""
        if at == 0:
            self.part, self.digest, self.at = part if is_whole else None, Digest(), 0
        if part != self.part or at != self.at:
            return True
        self.digest.update(data)
        self.at += len(data)
        return self.at < part.size or self.digest.digest().hex() == digest_in_hex(part.digest)


class ChunkSource(Protocol):
    """Where chunks are read from: nodes, or what nodes have on their disks."""

    @property
    def shape(self) -> Shape: ...

    def get(self, wanted: Iterable[Wanted]) -> Generator[bytes | None, None, None]:
        """The bytes that are wanted of these chunks, in their order; None for one that was forgotten. Damaged where
        there is no sound one.
        """


class ReadContents:
    """Contents in chunks, to be read."""

    most = MOST_CHUNK  # fewer in tests

    def __init__(self, source: ChunkSource):
        self.source = source
        self.lists: dict[PartList, tuple[tuple[Part, str], ...]] = {}

    def remember(self, listed: PartList, entries: tuple[tuple[Part, str], ...]) -> PartList:
        if len(self.lists) >= MOST_LISTS:
            del self.lists[next(iter(self.lists))]
        self.lists[listed] = entries
        return listed

    def wanted(self, part: InChunks, first: int, end: int) -> Iterator[Wanted]:
        """The chunks that have the bytes from the first to before the end."""
        places = (place for run in part.runs for place in run.places())
        for at, place in enumerate(places):
            begin = at * self.most
            size = min(self.most, part.size - begin)
            if begin + size > first and begin < end:
                from_here = max(0, first - begin)
                yield Wanted(place, size, from_here, min(size, end - begin) - from_here)

    def read(self, part: InChunks) -> Generator[bytes, None, None]:
        """All bytes of a content, as `read_cuts` gives them."""
        return self.read_cuts([Cut(part, 0, part.size, True)])

    def read_cuts(self, cuts: Iterable[Cut], so_far: SoFar | None = None) -> Generator[bytes, None, None]:
        """What is cut from these contents, one after another; the last bytes of one that is read whole once its digest was found right. Gone where a chunk was
        forgotten; Damaged."""
        coming, checked, at = deque[Cut](), so_far or SoFar(), None

        def wanted() -> Iterator[Wanted]:
            for cut in cuts:
                if cut.part.pieces != -(-cut.part.size // self.most):
                    raise Damaged("as many chunks as are named don't hold so many bytes")
                if any(run.column >= self.source.shape.columns for run in cut.part.runs):
                    columns = self.source.shape.columns
                    raise Damaged(f"it is in a column that a grid of {columns} has not: is `grid` right?")
                coming.append(cut)
                yield from self.wanted(cut.part, cut.first, cut.end)

        with closing(self.source.get(wanted())) as found:
            for piece in found:
                if piece is None:
                    raise Gone
                cut = coming[0]
                at = cut.first if at is None else at
                if not checked.take(cut.part, at, piece, cut.is_whole):
                    raise Damaged("its chunks don't hold it")
                at += len(piece)
                if at == cut.end:
                    at = None
                    coming.popleft()
                yield piece

    def cuts(self, parts: Iterable[Part], first: int, end: int) -> Iterator[Cut]:
        """What has the bytes from the first to before the end, of contents that are in chunks, one behind the other. Lists are read as they are come to."""
        begin = 0
        for part in parts:
            if begin < end and begin + part.size > first and part.size:
                if isinstance(part, PartList):
                    yield from self.cuts((each for each, _ in self.entries(part)), first - begin, end - begin)
                elif isinstance(part, InChunks):
                    cut = max(0, first - begin), min(part.size, end - begin)
                    yield Cut(part, *cut, cut == (0, part.size))
            begin += part.size

    def without_lists(self, parts: Iterable[Part]) -> Iterator[Part]:
        """These parts, and in the place of each list what it names. Gone, Damaged."""
        for part in parts:
            if isinstance(part, PartList):
                yield from self.without_lists(each for each, _ in self.entries(part))
            else:
                yield part

    def entries(self, listed: PartList) -> tuple[tuple[Part, str], ...]:
        """What a list names, each with its word. Gone, Damaged."""
        if listed not in self.lists:
            if listed.length > MOST_LENGTH:
                raise Damaged("the list of its parts is too long")
            try:
                lines = b"".join(self.read(listed.list)).decode().splitlines()
                entries = tuple((parse_part(" ".join(words[:3])), " ".join(words[3:])) for words in (line.split(" ") for line in lines))
            except (ValueError, IndexError):
                raise Damaged("the list of its parts has no form") from None
            if sum(part.size for part, _ in entries) != listed.size or any(not isinstance(part, InChunks) for part, _ in entries):
                raise Damaged("the list of its parts has another length")
            self.remember(listed, entries)
        return self.lists[listed]


class ChunkContents(ReadContents):
    """The contents of a session in chunks."""

    def __init__(self, chunks: Chunks):
        super().__init__(chunks)
        self.chunks = chunks

    def rooms(self) -> Rooms:
        """What nodes have room for; nothing where the tenant may have no chunks."""
        return self.chunks.rooms()

    # Writing

    def expect_room(self, name: str, size: int | None) -> int:
        """The column for a content of so many bytes. NoRoom where the tenant has no room for chunks, or all columns
        together have too little; Unanswered where none is wholly up.
        """
        wanted, least = self.room_for(size or 1), self.room_for(min(size or 1, self.most))
        for lasts in (ROOM_LASTS, 0):  # (as it was told last, and then as it is)
            rooms = self.chunks.rooms(lasts)
            usable = self.chunks.usable(rooms)
            column = self.chunks.column_for(rooms, wanted, least)
            if column is not None and sum(usable.values()) >= wanted:
                return column
        if usable:
            told = ", ".join(f"column {each} has {free}" for each, free in usable.items())
            raise NoRoom(f"{name}: no room: {f'{size} bytes take {wanted}' if size else 'some bytes are wanted'}, and {told} free")
        if not rooms or self.chunks.ahead.without:
            raise NoRoom(f"{name}: no room: {self.chunks.why_no_room()}")
        raise Unanswered(f"session {self.chunks.number}: no column of nodes that give room for chunks is wholly up")

    def room_for(self, size: int) -> int:
        """The room that so many bytes take: each of their chunks is charged some more."""
        return size + CHUNK_CHARGE * -(-size // self.most)

    def put(self, source: Source, column: int, progress: Callable[[int, int | None], None]) -> InChunks:
        """The content in chunks, which no line names yet. NoRoom, Unanswered, and faults of the source."""
        digest, size = Digest(), 0

        def pieces() -> Iterator[bytes]:
            nonlocal size
            left = source.size
            while left is None or left:
                piece = source.read(self.most) if left is None else source.read_exactly(min(left, self.most))
                if not piece:
                    return
                left = None if left is None else left - len(piece)
                if source.sha256 is None:
                    digest.update(piece)
                size += len(piece)
                yield piece
            source.expect_end()

        runs = self.chunks.keep(pieces(), column, lambda done: progress(done * self.most if source.size is None else min(done * self.most, source.size), source.size))
        return InChunks(size, to_base64(source.sha256 or digest.digest()), runs)

    def put_list(self, entries: Iterable[tuple[Part, str]], column: int) -> PartList:
        """A list of contents in chunks, each with a word or none beside it, which no line names yet."""
        entries = tuple(entries)
        text = "".join(f"{part.text()}{f' {word}' if word else ''}\n" for part, word in entries).encode()
        at = self.put(Source(text), column, lambda *_: None)
        return self.remember(PartList(sum(part.size for part, _ in entries), at.digest, at.size, at.runs), entries)

    # Forgetting

    def runs_in(self, parts: Iterable[Part]) -> Iterator[Run]:
        """All chunks that these need: those of lists, and of what they name. Gone, Damaged."""
        for part in parts:
            if isinstance(part, PartList):
                yield from self.runs_in(each for each, _ in self.entries(part))
            if not isinstance(part, InSlots):
                yield from part.runs

    def not_needed(self, gone: Collection[Part], named: Collection[Part]) -> None:
        """Notes what a page named and names no more, but for what it names still. (Where a list can't be read, a sweep finds what it named.)"""
        try:
            stay = {place for run in self.runs_in(named) for place in run.places()} if any(isinstance(part, PartList) for part in (*gone, *named)) else set()
            runs = self.runs_in(sorted((part for part in gone if part not in named), key=lambda part: part.text()))
            self.chunks.not_needed(runs_of(place for run in runs for place in run.places() if place not in stay) if stay else runs)
        except (Gone, Damaged, Unanswered):
            pass

    def forget(self) -> None:
        """Has nodes forget what was noted, as far as they answer soon."""
        with suppress(CarrierFault):
            self.chunks.forget_unneeded()

    def begin_to_forget(self) -> None:
        """Asks them to, and waits for none."""
        with suppress(CarrierFault):
            self.chunks.begin_to_forget()

    def sweep(self, named: Iterable[Part]) -> tuple[int, set[int], set[int]]:
        """Has nodes forget all chunks of the session but those that its journals name, all of which it has carried. How many there were, and the places of nodes
        that did not answer, and of those that told `refused bad`. Nothing that an earlier client sent is kept any more. Damaged, Gone: a list that is named can't be read, and nothing is forgotten."""
        found = Sweep(self, self.new_floor())
        for _ in found.list():
            pass
        found.spare(named)
        self.chunks.end_forgetting()
        self.chunks.unneeded.clear()
        return found.forget()

    def new_floor(self) -> int:
        """Nodes that answer soon have no chunk of the session with a greater number, and later ones have greater ones. By who has the session, while nothing is under way."""
        self.chunks.begin_above(0)
        if (greatest := self.chunks.greatest(self.chunks.last)) > self.chunks.last:  # (a clock was ahead)
            self.chunks.begin_above(greatest)
        return self.chunks.last


class Sweep:
    """A sweep of a session's chunks with numbers up to a floor, by steps: nothing is kept under these any more; those that are there are listed; what lines name is spared, and
    the rest forgotten. The session may be used meanwhile: what it puts has greater numbers. So a line that names one of these took it from a line that named it before."""

    def __init__(self, contents: ChunkContents, floor: int):
        self.contents, self.chunks, self.floor = contents, contents.chunks, floor
        self.orphans = set[Place]()  # what is listed, and was not spared
        self.silent = set(range(self.chunks.told.nodes))  # places of nodes that did not tell all
        self.refusing = set[int]()  # those that told `refused bad`

    def list(self) -> Iterator[None]:
        """Lists what nodes have, some at a time: of those alone that keep to the floor, since what is late could come to another one behind its list."""
        chunks = self.chunks
        up = chunks.raise_floors(chunks.number, self.floor, sorted(self.silent), chunks.pace.timeout / 2)
        self.refusing = chunks.refusing
        for place in sorted(up):
            column = place % chunks.shape.columns
            numbers = (number for number in chunks.numbers_at(place, chunks.number) if number <= self.floor)
            try:
                while some := {(column, chunks.number, number) for number in islice(numbers, MOST_AT_ONCE)}:
                    self.orphans |= some
                    yield
                self.silent.discard(place)
            except Unanswered:
                pass

    def spare(self, named: Iterable[Part]) -> None:
        """Lines name these contents. Damaged, Gone: one is a list that can't be read."""
        for run in self.contents.runs_in(named):
            self.orphans.difference_update(run.places())

    def forget(self) -> tuple[int, set[int], set[int]]:
        """Has nodes forget what is left, once all that lines name was spared. How many chunks that were, and the places of nodes that did not answer, and of those of
        these that told `refused bad`."""
        self.chunks.forget(runs_of(sorted(self.orphans)), self.chunks.pace.timeout / 2, self.floor)
        return len(self.orphans), self.silent, self.refusing


def why_none(contents: ChunkContents | None) -> str:
    """Why a tenant has no room for chunks, and what to do; without contents since it is not said how the nodes are arranged."""
    if contents is None:
        return f"no node tells how the nodes are arranged, by which chunks are kept, and `grid` does not say it; {MORE_ROOM}"
    return contents.chunks.why_no_room()


def contents_of(session: Files) -> ChunkContents | None:
    """The contents in chunks of a session, where it is said how its nodes are arranged."""
    carrier: Carrier | None = getattr(session, "carrier", None)  # (registers in memory have none)
    if carrier is None or carrier.told is None or carrier.shape is None or carrier.shape.nodes != carrier.told.nodes:
        return None
    return ChunkContents(Chunks(carrier, carrier.told, session.number, carrier.shape, lambda: cast(Session, session).pace))

