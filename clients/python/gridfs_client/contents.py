"""Contents: what a line says of what its name holds, and the text of it."""

import base64
import binascii
import hashlib
import re
from collections.abc import Iterable, Iterator, Sequence
from dataclasses import dataclass
from itertools import chain

from .runs import Run, parse_run

NUMBER = r"(?:0|[1-9][0-9]*)"
RUNS = rf"{NUMBER}(?:-{NUMBER})?(?:,{NUMBER}(?:-{NUMBER})?)*"
STRANDS = rf"{NUMBER}:{RUNS}(?:;{NUMBER}:{RUNS})*"
RUN = rf"{NUMBER}\.{NUMBER}:{NUMBER}(?:\+{NUMBER})?"
CHUNKS = rf"(?:{NUMBER}\*)?{RUN}(?:;{RUN})*"
PART = rf"[1-9][0-9]* [A-Za-z0-9_-]{{43}} (?:{NUMBER} {STRANDS}|{CHUNKS})"
MOST_FILES = 4_194_304  # of a tenant: no slot has so great a number
BESIDE = re.compile(r".*/=([A-Za-z0-9_-]{43})", re.DOTALL)
CONTENT = re.compile(rf"-|@([A-Za-z0-9_-]*)|({PART}(?:&{PART})*)")


def to_base64(content: bytes) -> str:
    """Base64url without padding."""
    return base64.urlsafe_b64encode(content).decode().rstrip("=")


URLSAFE = str.maketrans("-_", "+/")


def from_base64(text: str) -> bytes:
    return binascii.a2b_base64(text.translate(URLSAFE) + "=" * (-len(text) % 4))


def digest_of(content: bytes) -> str:
    """SHA-256 in 43 letters of base64url, which leaves room for more names than hexadecimal."""
    return to_base64(hashlib.sha256(content).digest())


def digest_in_hex(digest: str) -> str:
    return from_base64(digest).hex()


def digest_to_place(name: str) -> bytes:
    """By which a name has its page and its slice: SHA-256 of it. A name that ends in /=DIGEST has those of the name whose digest that is."""
    found = BESIDE.fullmatch(name)
    return from_base64(found[1]) if found else hashlib.sha256(name.encode()).digest()


@dataclass(frozen=True)
class Strand:
    """Slots of one session, in runs, in the order in which they are used. (A line may name any, and says it shortly: so they are not told one by one.)"""

    session: int
    runs: tuple[range, ...]

    @property
    def count(self) -> int:
        return sum(map(len, self.runs))

    @property
    def slots(self) -> Iterator[int]:
        return chain.from_iterable(self.runs)

    def text(self) -> str:
        """`1:0-2,7`: the session, and runs of slot numbers."""
        return f"{self.session}:" + ",".join(str(run.start) if len(run) == 1 else f"{run.start}-{run.stop - 1}" for run in self.runs)


def parse_strand(text: str) -> Strand:
    """A ValueError for a run that goes down, and for slots that no tenant has."""
    session, runs = text.split(":")
    ends = [[int(number) for number in run.split("-")] for run in runs.split(",")]
    if any(not run[0] <= run[-1] < MOST_FILES for run in ends):
        raise ValueError(text)
    return Strand(int(session), tuple(range(run[0], run[-1] + 1) for run in ends))


@dataclass(frozen=True)
class Inline:
    """A content that stands in the line itself."""

    content: bytes
    parts: "tuple[Part, ...]" = ()

    @property
    def size(self) -> int:
        return len(self.content)

    @property
    def digest(self) -> str:
        return digest_of(self.content)

    @property
    def pieces(self) -> int:
        return 0

    def text(self) -> str:
        return "@" + to_base64(self.content)


@dataclass(frozen=True)
class InSlots:
    """A content in pieces, each in a slot. `put` tells them from those of every other content of the session."""

    size: int
    digest: str
    put: int
    strands: tuple[Strand, ...]

    @property
    def pieces(self) -> int:
        return sum(strand.count for strand in self.strands)

    @property
    def parts(self) -> "tuple[InSlots, ...]":
        return (self,)

    def order(self) -> Iterator[tuple[int, int]]:
        """Session and slot of each piece: strands take turns, and one that has ended is left out."""
        left = [(strand.session, strand.slots) for strand in self.strands]
        while left:
            turn = [(session, slots, slot) for session, slots in left if (slot := next(slots, None)) is not None]
            yield from ((session, slot) for session, _, slot in turn)
            left = [(session, slots) for session, slots, _ in turn]

    def text(self) -> str:
        return f"{self.size} {self.digest} {self.put} {';'.join(strand.text() for strand in self.strands)}"


@dataclass(frozen=True)
class InChunks:
    """A content in chunks, each as long as one may be, but for the last one."""

    size: int
    digest: str
    runs: tuple[Run, ...]

    @property
    def pieces(self) -> int:
        return sum(run.count for run in self.runs)

    @property
    def parts(self) -> "tuple[InChunks, ...]":
        return (self,)

    def text(self) -> str:
        return f"{self.size} {self.digest} {';'.join(run.text() for run in self.runs)}"


@dataclass(frozen=True)
class PartList:
    """Contents of so many bytes in all, one behind the other, that a list names: its text of `length` bytes is in chunks, and has this digest."""

    size: int
    digest: str
    length: int
    runs: tuple[Run, ...]

    @property
    def pieces(self) -> int:
        """Of the list."""
        return sum(run.count for run in self.runs)

    @property
    def parts(self) -> "tuple[PartList, ...]":
        return (self,)

    @property
    def list(self) -> InChunks:
        return InChunks(self.length, self.digest, self.runs)

    def text(self) -> str:
        return f"{self.size} {self.digest} {self.length}*{';'.join(run.text() for run in self.runs)}"


Part = InSlots | InChunks | PartList


@dataclass(frozen=True)
class Joined:
    """Contents of several puts of one session, one behind the other: one content."""

    parts: tuple[Part, ...]

    @property
    def size(self) -> int:
        return sum(part.size for part in self.parts)

    @property
    def digest(self) -> str:
        """SHA-256 of the parts' digests, one behind the other: that of the whole nobody has seen."""
        return digest_of(b"".join(from_base64(part.digest) for part in self.parts))

    @property
    def pieces(self) -> int:
        return sum(part.pieces for part in self.parts)

    def text(self) -> str:
        return "&".join(part.text() for part in self.parts)


Content = Inline | InSlots | InChunks | PartList | Joined


@dataclass(frozen=True, slots=True)
class PartTold:
    """A part that a content was put in: its bytes, and SHA-256 in hexadecimal; of several that a list names together
    that of the list's text.
    """

    size: int
    sha256: str
    is_list: bool = False


def part_told(part: Part) -> PartTold:
    return PartTold(part.size, digest_in_hex(part.digest), isinstance(part, PartList))


def parts_told(content: Content) -> tuple[PartTold, ...]:
    """Those of a content that was put in parts; none of one that was put whole."""
    return tuple(map(part_told, content.parts)) if isinstance(content, PartList | Joined) else ()


def parse_part(text: str) -> Part:
    size, digest, *where = text.split(" ")
    if len(where) == 2:
        put, strands = where
        found: Part = InSlots(int(size), digest, int(put), tuple(map(parse_strand, strands.split(";"))))
    else:
        length, star, runs = where[0].rpartition("*")
        places = tuple(map(parse_run, runs.split(";")))
        found = PartList(int(size), digest, int(length), places) if star else InChunks(int(size), digest, places)
    if found.pieces > (found.length if isinstance(found, PartList) else found.size):  # (each has a byte at least)
        raise ValueError(text)
    return found


def content_of(inline: str | None, parts: str | None) -> Content | None:
    """The content that is told by what `CONTENT` found."""
    if inline is not None:
        return Inline(from_base64(inline))
    if parts is None:
        return None
    if "&" not in parts:
        return parse_part(parts)
    return Joined(tuple(map(parse_part, parts.split("&"))))


def parts_of(contents: Iterable[Content | None]) -> Iterator[Part]:
    return (part for content in contents if content for part in content.parts)


def slots_of(contents: Iterable[Content | None]) -> Iterator[InSlots]:
    """What these contents say of slots."""
    return (part for part in parts_of(contents) if isinstance(part, InSlots))


def joined(parts: Sequence[Part]) -> Content:
    """One content of these."""
    return Inline(b"") if not parts else parts[0] if len(parts) == 1 else Joined(tuple(parts))
