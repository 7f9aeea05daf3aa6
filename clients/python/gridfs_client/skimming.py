"""Pages skimmed, for listings of many names, and sweeps: of each name the line that counts, and of that line only what is told of it.

Most lines have one of few short forms, which are read by one expression; any other line is read as ever (pages.py). Where pages have to be looked at again, or are none,
nothing is told: then a bucket looks at them (buckets.py).

Of pages that have split it is told what they say of each part of their names, which counts where a session's page in its place was never written (splits.py).
"""

import re
from collections import defaultdict
from collections.abc import Callable, Iterator, Mapping
from typing import NamedTuple, TypeVar

from .answers import Row, Tag
from .buckets import Held
from .contents import NUMBER
from .layout import Layout
from .pages import FIRST_WORDS, HEAD, parse_line, signpost_text
from .sessions import Files
from .splits import signpost_to

Told = TypeVar("Told")
NEVER = Tag(0, 0)  # of a file that was never written
SURE = r"(?:0|[1-9][0-9]{0,5})"  # no slot that nobody has, and so no line that is damaged by it
SIZE = r"[1-9][0-9]{0,18}"
PLACE = rf"(?:{NUMBER} {NUMBER}:{SURE}|{NUMBER}\.{NUMBER}:(?:0|{SIZE}))"
IN_LINE = r"@(?:[A-Za-z0-9_-]{4})*(?:[A-Za-z0-9_-]{2,3})?"
SHORT = rf"-|{IN_LINE}|{SIZE} [A-Za-z0-9_-]{{43}} {PLACE}"
PLAIN = re.compile(rf"([1-9][0-9]*) (?:\{{[!-z]+\}} )?({SHORT}) (.+)", re.DOTALL)
PLAIN_NAMES = re.compile(rf"^[1-9][0-9]* (?:\{{[!-z]+\}} )?(?:{SHORT}) ([^\n]+)$", re.MULTILINE)  # of all such lines in a text


class Skimmed(NamedTuple):
    """What a page says of a name: the version, by whose page, and the text of the content."""

    version: int
    session: int
    name: str
    content: str

    @property
    def size(self) -> int:
        """In bytes."""
        if self.content.startswith("@"):
            return (len(self.content) - 1) * 3 // 4
        return sum(int(part.partition(" ")[0]) for part in self.content.split("&"))


def skimmed_of(held: Held) -> Skimmed:
    return Skimmed(held.version.number, held.version.session, held.name, held.content.text())


class Parts:
    """What the pages of a bucket say that has split."""

    def __init__(self) -> None:
        self.heads = dict[int, bytes]()
        self.lines = defaultdict[tuple[int, int], bytes](bytes)

    def of(self, page: int) -> dict[int, bytes]:
        """What the page of each session says of the names of this new one, as a page would."""
        return {session: head + self.lines.get((page, session), b"") for session, head in self.heads.items()}


def skim(session: Files, layout: Layout, page: int, rows: tuple[Row | None, ...], before: Mapping[int, bytes], told_in: Callable[[Mapping[int, bytes]], Told | None]) -> Told | Parts | None:
    """What is told in the pages of a bucket, by a look at its volume that was begun before; None where a bucket has to look. Where its names went on to more pages, what it says of each of
    these. `before` is what that was told of this one."""
    contents = dict(before)
    for each in range(1, layout.sessions + 1):
        volume, file = layout.page(each, page)
        row = rows[file]
        if row is None or row.tag != NEVER:
            copy = session.read(volume, file)
            if row and copy.tag < row.tag:
                return None
            contents[each] = copy.content or contents.get(each, b"")
    return parts_in(contents, layout, page) or told_in(contents)


def parts_in(contents: Mapping[int, bytes], layout: Layout, page: int) -> Parts | None:
    """What pages say of each part, where one of them shows that the bucket has split; else None."""
    level = layout.level_of(page) + 1
    signpost = signpost_text(signpost_to(level)).encode()
    if level == len(layout.levels) or not any(signpost in content for content in contents.values()):
        return None
    found = Parts()
    for session, content in contents.items():
        head, _, rest = content.partition(b"\n")
        found.heads[session] = head + b"\n" if head else b""
        for line in rest.removeprefix(signpost).splitlines(keepends=True) if rest != signpost else ():
            told = line_in(line.decode().removesuffix("\n"), session)
            found.lines[layout.page_of(told.name, level) if told else page, session] += line
    return found


def counting(contents: Mapping[int, bytes]) -> list[Skimmed] | None:
    """Of each name the greatest line that these pages of sessions show, where that holds something; None where a page asks for another one to be seen with a later
    number, or is of a form that is not told here."""
    found, numbers, asks = dict[str, Skimmed](), dict[int, int](), list[tuple[int, int]]()
    try:
        for session, content in contents.items():
            if not content:
                continue
            head, lines = lines_in(content, session)
            numbers[session], *after = map(int, head[len(FIRST_WORDS) :].split(" "))
            asks += enumerate(after, 1)
            for line in lines:
                before = found.get(line.name)
                if before is None or before < line:
                    found[line.name] = line
    except ValueError:
        return None
    if any(numbers.get(session, 0) < number for session, number in asks):
        return None
    return [line for line in found.values() if line.content != "-"]


def removals_in(contents: Mapping[int, bytes]) -> int | None:
    """How many removals these pages show; None where one is of a form that is not told here."""
    try:
        return sum(line.content == "-" for content in contents.values() if content for line in lines_in(content, 0)[1])
    except ValueError:
        return None


def lines_in(content: bytes, session: int) -> tuple[str, Iterator[Skimmed]]:
    """The first line of a session's page, and what the others say. A ValueError for what has no form, or is of several grids."""
    head, *lines, rest = content.decode().split("\n")
    if rest or not HEAD.fullmatch(head):
        raise ValueError(head)
    return head, (expected(line_in(text, session)) for text in lines)


def expected(line: Skimmed | None) -> Skimmed:
    if line is None:
        raise ValueError
    return line


def line_in(text: str, session: int) -> Skimmed | None:
    """A line of a session's page; None for what is of several grids. A ValueError for what is none."""
    if plain := PLAIN.fullmatch(text):
        return Skimmed(int(plain[1]), session, plain[3], plain[2])
    if text.startswith(">"):
        return None
    line = parse_line(text)
    return None if line.copied else Skimmed(line.version, session, line.name, line.content.text() if line.content else "-")
