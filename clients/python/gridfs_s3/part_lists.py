"""Uploads of many parts, and objects of many: what their lines name stands in lists, which are contents in chunks themselves (docs/NAMES.md).

The line of an upload names parts by itself, and has their words. Once these are many, those of up to 256 numbers go into a list, with a word for each. A part
that the line names counts in place of one of its number in a list.

One change of one page has to bring an object with all its parts, so a list is a content that one line names. An upload's name ends in the digest
of its object's: both are in one page then, so that one session can change both.
"""

from collections.abc import Iterable, Sequence
from itertools import groupby

from gridfs_client.buckets import Held
from gridfs_client.contents import Content, InChunks, PartList, joined
from gridfs_client.contents import Part as At
from gridfs_client.errors import Damaged
from gridfs_client.in_chunks import ChunkContents, Gone

from .places import Part, Values, of_words, part_in, parts_of, word_of, words_of

GROUP = 256  # numbers of parts in a list
MOST_IN_LINE = 64  # parts that a line names by itself
FEW = 16  # parts one behind the other for which no list is made


class Uploaded:
    """The parts of an upload, by their numbers, each with where it stands if it has any bytes: those that its line names, and lists of others by their groups."""

    def __init__(self, values: Values, contents: ChunkContents | None):
        self.values, self.contents = values, contents
        self.in_line: dict[int, tuple[Part, At | None]] = {}
        self.lists: dict[int, PartList] = {}

    def listed(self, group: int) -> dict[int, tuple[Part, At | None]]:
        """What the list of a group names, if it has one."""
        if group not in self.lists or self.contents is None:
            return {}
        found = ((part_in(word[1:-1], self.values), where) for where, word in self.contents.entries(self.lists[group]))
        return {part.number: (part, where) for part, where in found}

    def all(self) -> list[tuple[Part, At | None]]:
        every = {number: each for group in self.lists for number, each in self.listed(group).items()} | self.in_line
        return [every[number] for number in sorted(every)]

    def words(self) -> str:
        """Those of the parts that the line names."""
        return words_of((self.in_line[number][0] for number in sorted(self.in_line)), self.values)

    def content(self) -> Content:
        wheres = (self.in_line[number][1] for number in sorted(self.in_line))
        return joined([*(self.lists[group] for group in sorted(self.lists)), *(each for each in wheres if each)])

    def keep_short(self, room: int) -> None:
        """Moves parts into lists where the line has many, or more bytes than this, as far as they are in chunks."""
        if self.contents and (len(self.in_line) > MOST_IN_LINE or len(self.in_line) > 1 and len(self.content().text() + self.words()) > room):
            for group in sorted({group_of(number) for number, (_, where) in self.in_line.items() if isinstance(where, InChunks)}):
                self.move_into_list(self.contents, group)

    def move_into_list(self, contents: ChunkContents, group: int) -> None:
        """Puts what the line names of a group, and is in chunks, into a list beside what its list had."""
        moved = {number: each for number, each in self.in_line.items() if group_of(number) == group and isinstance(each[1], InChunks)}
        known = self.listed(group) | moved
        entries = [(where, f"{{{word_of(part, self.values)}}}") for part, where in (known[number] for number in sorted(known)) if where]
        self.lists[group] = contents.put_list(entries, contents.expect_room("a list of parts", None))
        for number in moved:
            del self.in_line[number]


def group_of(number: int) -> int:
    """The first number of a part's group."""
    return number - (number - 1) % GROUP


def uploaded(held: Held, contents: ChunkContents | None) -> Uploaded:
    """What the line of an upload says. Damaged where its words are of other parts."""
    values = of_words(held.words)
    found = Uploaded(values, contents)
    try:
        for each in held.content.parts:
            if isinstance(each, PartList):
                if contents is None:
                    raise Damaged("the parts of an upload are in chunks, and how the nodes are arranged is not said")
                first = contents.entries(each)[:1]
                found.lists[group_of(part_in(first[0][1][1:-1], values).number) if first else 0] = each
    except Gone:
        raise Damaged("a list of the parts of an upload is gone") from None
    parts, rest = parts_of(values), [each for each in held.content.parts if not isinstance(each, PartList)]
    if [part.size for part in parts if part.size] != [each.size for each in rest]:
        raise Damaged("the words of an upload are of other parts than it has")
    wheres = iter(rest)
    found.in_line = {part.number: (part, next(wheres) if part.size else None) for part in parts}
    return found


def for_object(chosen: Sequence[At], lists: Iterable[PartList], contents: ChunkContents | None) -> Content:
    """An object of these parts: by the lists that name some of them one behind the other, and by lists that are made where many are left."""
    if len(chosen) <= MOST_IN_LINE or contents is None:
        return joined(chosen)
    known = {entries[0][0]: (each, [where for where, _ in entries]) for each in lists if (entries := contents.entries(each))}
    found, at = list[At](), 0
    while at < len(chosen):
        listed = known.get(chosen[at])
        if listed and list(chosen[at : at + len(listed[1])]) == listed[1]:
            found.append(listed[0])
            at += len(listed[1])
            continue
        found.append(chosen[at])
        at += 1
    return joined([each for is_in_chunks, some in groupby(found, lambda each: isinstance(each, InChunks)) for each in in_lists(list(some), is_in_chunks, contents)])


def in_lists(parts: Sequence[At], is_in_chunks: bool, contents: ChunkContents) -> Sequence[At]:
    """These parts, by lists where they are many and in chunks."""
    if not is_in_chunks or len(parts) <= FEW:
        return parts
    some = [parts[at : at + GROUP] for at in range(0, len(parts), GROUP)]
    return [contents.put_list([(part, "") for part in each], contents.expect_room("a list of parts", None)) for each in some]
