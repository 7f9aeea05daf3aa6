"""What is asked of nodes about chunks, and what they tell, as bytes of lines (docs/CHUNKS.md)."""

import codecs
from dataclasses import dataclass

MOST_CHUNK = 1 << 20  # bytes
CHUNK_CHARGE = 512  # bytes of room that each chunk takes beside its own
ROOM = 0, 0  # by which an answer about room is known; others by a session and a number
WORDS = frozenset((b"kept", b"got", b"none", b"lacks", b"damaged", b"forgot", b"chunks", b"room"))
REFUSALS = frozenset((b"differs", b"below", b"room", b"full"))
MOST_HEAD = 128  # bytes before the content that is told, at most
ESCAPED = ((b"\\s", b" "), (b"\\n", b"\n"), (b"\\b", b"\\"))  # in a content behind `=`; the backslash is the last one


@dataclass(frozen=True)
class ChunkTold:
    """What a node told: a word, by what it is known whose answer it is, and the numbers behind that; what else some words have."""

    node: int
    word: str
    key: tuple[int, int] = ROOM
    numbers: tuple[int, ...] = ()
    content: bytes = b""
    rows: tuple[tuple[int, int], ...] = ()  # of a list: numbers, each with its size
    is_end: bool = False  # of a list that tells all


def escaped(content: bytes) -> bytes:
    """A content as it stands in a word, behind `~`: the bytes themselves, of which three are written as Python writes them."""
    return content.replace(b"\\", b"\\\\").replace(b"\n", b"\\n").replace(b" ", b"\\040")


def content_in(line: bytes, at: int = 0) -> bytes:
    """The content that a word is with which a line ends; a ValueError where it is none. (It may be long, so it is copied once.)"""
    if line.startswith(b"~", at):
        content: bytes = codecs.escape_decode(memoryview(line)[at + 1 :])[0] if line.find(b"\\", at) >= 0 else line[at + 1 :]  # type: ignore[assignment]
        return content
    if not line.startswith(b"=", at):
        raise ValueError(line[at : at + 1])
    content = line[at + 1 :]
    for text, byte in ESCAPED:
        content = content.replace(text, byte)
    return content


def keep(session: int, number: int, content: bytes) -> bytes:
    return b"keep %d %d ~%b" % (session, number, escaped(content))


def parse_list(node: int, words: list[bytes]) -> ChunkTold:
    session, after, floor, *rows = words
    is_end = rows[-1:] == [b"end"]
    found = (row.split(b".") for row in (rows[:-1] if is_end else rows))
    return ChunkTold(node, "chunks", (int(session), int(after)), (int(floor),), rows=tuple((int(number), int(size)) for number, size in found), is_end=is_end)


def parse_got(node: int, body: bytes) -> ChunkTold:
    """A content that is told."""
    head = body[:MOST_HEAD].split(b" ", 5)
    session, number, size, first = map(int, head[1:5])
    at = sum(len(word) + 1 for word in head[:5])
    if len(head) < 6 or body.find(b" ", at) >= 0:
        raise ValueError(head[:5])
    return ChunkTold(node, "got", (session, number), (size, first), content_in(body, at))


def parse_chunk(node: int, body: bytes) -> ChunkTold | None:
    """What a body tells of chunks; None where it is of something else. `refused bad` may be of anything: it is also told of room."""
    try:
        if body.startswith(b"got "):
            return parse_got(node, body)
        verb, _, rest = body.partition(b" ")
        if verb == b"refused":
            verb, _, rest = rest.partition(b" ")
            if verb == b"bad" and not rest:
                return ChunkTold(node, "bad")
            if verb not in REFUSALS:
                return None
            verb = b"refused " + verb
        elif verb not in WORDS:
            return None
        words = rest.split(b" ")
        if verb == b"chunks":
            return parse_list(node, words)
        numbers = tuple(map(int, words))
        if verb == b"room":
            return ChunkTold(node, "room", ROOM, numbers) if len(numbers) == 4 else None
        if verb == b"forgot":
            session, floor, first, _ = numbers
            return ChunkTold(node, "forgot", (session, first), (floor,))
        session, number, *more = numbers
        wanted = 0 if verb in (b"none", b"lacks", b"damaged", b"refused differs", b"refused full") else 1
        return ChunkTold(node, verb.decode(), (session, number), tuple(more)) if len(more) == wanted else None
    except ValueError:
        return None
