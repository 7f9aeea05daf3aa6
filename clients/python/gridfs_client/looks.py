"""Looks: all nodes are asked at once what they have of the files of a volume, and of each file that is a read or nothing (docs/NAMES.md, *Looks*).

A node tells the tag of the copy that it has itself, and asks nobody. Take a whole row of nodes that have the file, and the greatest tag that one of them told. Each operation
that had ended before the look began had stored its tag, or a greater one, at a whole column, and that has a node in the row. So none of them had a greater one.
Where all nodes of a column told this tag at least, each operation that begins behind the look meets it, since it asks a whole row. So the look is a read of the file, which gives the
content of this tag: the file is *settled*. Nothing else follows from a look. Answers to another look, or by another plan, are not counted beside these:
between two plans a node may be lost.

Looks at several volumes may go at once. Who was silent is asked each time, and not waited for until it answers a look. A node that did not tell which lines it knows
is asked for its plan: an older program would call a look bad.

A look asks all nodes, where a row and a column settle a file: a bucket has a file of each session, and their homes are in all columns.
"""

import secrets
from collections.abc import Callable, Collection, Mapping, Sequence
from dataclasses import dataclass, field
from functools import lru_cache
from operator import attrgetter
from typing import cast
from weakref import WeakKeyDictionary

from .answers import Answer, LookTold, Row, row_of
from .carriers import Carrier
from .grid import Shape
from .uplinks import Sent, uplink_of

LOOK_FORM = 3  # a node that tells this form of lines, or a later one, answers looks
LACKS = "-"  # what a node tells of a file that it has not got yet
PATIENCE = 0.5  # seconds for which the answers of a row and a column are waited for
SHORT = 0.1  # seconds that others get besides as many as these took
MOST_WORDS = 8_192  # of files, whose meaning is remembered
TAG = attrgetter("tag")
AGAIN = 1.0  # seconds after which a node that did not tell which lines it knows is asked again


@lru_cache(MOST_WORDS)  # (most files are told as they were told last)
def row_in(word: str) -> Row | None:
    """What a word tells of a file; None where the node lacks it, or the word has no form."""
    try:
        return None if word == LACKS else row_of(word)
    except ValueError:
        return None


@lru_cache(1)
def lines_of(shape: Shape) -> tuple[list[frozenset[int]], list[frozenset[int]]]:
    """The places of each column, and of each row."""
    return [frozenset(shape.column(number)) for number in range(shape.columns)], [frozenset(shape.row(number)) for number in range(shape.rows)]


def settled(words: Mapping[int, str], shape: Shape) -> Row | None:
    """A file by what the nodes at these places told of it, where that is a read; else None."""
    rows = {place: row for place, word in words.items() if (row := row_in(word))}
    columns, every = lines_of(shape)
    least = [min([rows[place].tag for place in column]) for column in columns if column <= rows.keys()]
    greatest = [max([rows[place] for place in row], key=TAG) for row in every if row <= rows.keys()]
    found = [row for row in greatest if least and row.tag <= max(least)]
    return max(found, key=TAG) if found else None


@dataclass
class Silence:
    """What looks of one connection found: nodes that did not answer one, and when which were asked for the lines that they know."""

    since: dict[int, float] = field(default_factory=dict)
    asked: dict[int, float] = field(default_factory=dict)

    def has(self, carrier: Carrier, node: int) -> bool:
        """Whether a node did not answer a look, and has answered none since."""
        return node in self.since and carrier.looked.get(node, self.since[node] - 1) < self.since[node]


SILENCES: WeakKeyDictionary[Carrier, Silence] = WeakKeyDictionary()


class Look:
    """One look at a volume, of which these files are wanted."""

    draw: Callable[[], int] = staticmethod(lambda: secrets.randbits(64))  # its number, which no other look of the tenant has, whoever asks

    def __init__(self, carrier: Carrier, shape: Shape, volume: int, files: int, wanted: Collection[int]):
        self.carrier, self.shape, self.volume, self.files = carrier, shape, volume, files
        self.silence = SILENCES.setdefault(carrier, Silence())
        self.wanted, self.left = wanted, set(wanted)
        self.rows: list[Row | None] = [None] * files
        self.told: dict[int, LookTold] = {}  # by place, what those told who count
        self.losses = 0  # that the plans of these tell
        self.plan, self.standing = carrier.told, list[int]()
        self.number = self.draw()
        self.asked: set[int] = set()  # nodes
        self.answered: set[int] = set()
        self.until = float("inf")  # when nobody is waited for any more, once those that answered stand in a row and a column

    def nodes(self) -> Sequence[int]:
        """The nodes that stand at the places, as far as is known now."""
        if (told := self.carrier.told) and (told is not self.plan or not self.standing):
            self.plan, self.standing = told, [told.node_at(place) for place in range(told.nodes)]
        return self.standing

    def may_answer(self, node: int) -> bool:
        """Not where it told that it knows no looks."""
        return self.carrier.forms.get(node, LOOK_FORM) >= LOOK_FORM

    def can_settle(self, nodes: Collection[int]) -> bool:
        """Whether such nodes stand in a whole row and a whole column."""
        return self.shape.goes_on({place for place, node in enumerate(self.nodes()) if node not in nodes})

    def can_be_answered(self) -> bool:
        """Not where there are nodes of before in each row, or in each column."""
        return self.can_settle([node for node in self.nodes() if self.may_answer(node)])

    def lines(self) -> list[tuple[int, bytes]]:
        """What is to be sent now, to which nodes: those that know looks and were not asked are asked, and the others which lines they know."""
        found, now = [], self.carrier.now()
        for node in self.nodes():
            if node in self.asked or not self.may_answer(node):
                continue
            if node in self.carrier.forms:
                self.asked.add(node)
                found.append((node, b"look %d %d" % (self.number, self.volume)))
            elif now >= self.silence.asked.get(node, now - AGAIN) + AGAIN:
                self.silence.asked[node] = now
                found.append((node, b"plan"))
        return found

    def waits_for(self) -> list[int]:
        """The nodes whose answers are waited for: not those that did not answer what was asked last, where others can settle all."""
        left = [node for node in self.nodes() if node not in self.answered and self.may_answer(node) and not self.silence.has(self.carrier, node)]
        heard = [node for node in self.nodes() if not self.carrier.is_unheard(node)]
        return [node for node in left if node in heard] if len(heard) < len(self.nodes()) and self.can_settle(heard) else left

    def has_ended(self) -> bool:
        return not self.left or not self.waits_for()

    def note_late(self) -> None:
        """Nobody is waited for any more: who did not answer is silent."""
        for node in self.waits_for():
            self.carrier.note_unheard(node)
        self.silence.since.update(dict.fromkeys(self.waits_for(), self.carrier.now()))

    def take(self, told: LookTold, begun: float) -> None:
        """Counts what a node told, beside others by the same plan: that with the most losses."""
        nodes = self.nodes()
        if told.volume != self.volume or told.node not in nodes:
            return
        self.answered.add(told.node)
        if told.words and len(told.words) != self.files or told.losses < self.losses:
            return
        if told.losses > self.losses:
            self.losses, self.told = told.losses, {}
        if told.words:
            self.told.setdefault(nodes.index(told.node), told)
        if self.can_settle([each.node for each in self.told.values()]):
            if self.until == float("inf"):
                self.until = 2 * self.carrier.now() - begun + SHORT
            self.settle_alike()
            self.settle_each() if len(self.told) == self.shape.nodes else self.settle_some()

    def settle_alike(self) -> None:
        """Settles files where the nodes of each column tell the same of all, as they mostly do while no write is under way; or all that told. The greatest of what the columns tell is a read."""
        columns = [[self.told[place].words for place in column if place in self.told] for column in lines_of(self.shape)[0]]
        if len(self.told) < self.shape.nodes:
            columns = [[words for column in columns for words in column]]
        if all(words == told[0] for told in columns for words in told):
            for file in list(self.left):
                rows = [row_in(told[0][file]) for told in columns]
                if all(rows):
                    self.rows[file] = max(cast(list[Row], rows), key=TAG)
                    self.left.discard(file)

    def settle_some(self) -> None:
        """Where others are waited for, no file behind one that is not settled is looked at: it is not over as long as one is left."""
        while self.left and self.settle(min(self.left)):
            pass

    def settle_each(self) -> None:
        for file in sorted(self.left):
            self.settle(file)

    def settle(self, file: int) -> bool:
        if row := settled({place: each.words[file] for place, each in self.told.items()}, self.shape):
            self.rows[file] = row
            self.left.discard(file)
        return row is not None


def run(looks: Sequence[Look], rate: float) -> None:
    """Has these looks answered, all by one connection at the same time, as far as they are in time."""
    carrier, begun = looks[0].carrier, looks[0].carrier.now()
    box = carrier.attach_looks([look.number for look in looks])
    try:
        uplink = uplink_of(carrier)
        length = ask(looks) / rate
        sent = Sent(uplink, carrier.now, length, PATIENCE + length)
        under_way = {look.number: look for look in looks if not look.has_ended()}
        while under_way:
            left = min(sent.left(), min(look.until for look in under_way.values()) - carrier.now())
            told: Answer | None = None
            if left > 0:
                told = carrier.receive(box, left)
            if isinstance(told, LookTold) and (look := under_way.get(told.number)):
                look.take(told, begun)
                uplink.note_left(carrier.now(), sent.end)
                if look.has_ended():
                    del under_way[look.number]
            elif told is None and left > 0:
                ask(list(under_way.values()))
            elif left <= 0:
                now = carrier.now()
                for look in [look for look in under_way.values() if sent.left() <= 0 or look.until <= now]:
                    look.note_late()
                    del under_way[look.number]
    finally:
        carrier.detach_looks(box)
    for look in looks:
        if look.left and look.can_settle([each.node for each in look.told.values()]):
            look.settle_each()


def ask(looks: Sequence[Look]) -> int:
    """Sends what these looks have to send, to each node at once; how many bytes that were."""
    by_node: dict[int, list[bytes]] = {}
    for look in looks:
        for node, body in look.lines():
            by_node.setdefault(node, []).append(body)
    for node, bodies in by_node.items():
        looks[0].carrier.send_all(node, bodies)
    return sum(len(body) for bodies in by_node.values() for body in bodies)


def looked_at(carrier: Carrier, wanted: Mapping[int, Collection[int] | None], rate: float) -> dict[int, Look]:
    """Looks at these volumes, of each these files or all, which have ended; none of a volume of which nodes answer none, or that is not there."""
    told, shape = carrier.told, carrier.shape
    if told is None or shape is None:
        return {}
    volumes = {volume: told.volumes[volume][0] for volume in wanted if volume < len(told.volumes)}
    looks = [Look(carrier, shape, volume, files, range(files) if (some := wanted[volume]) is None else some) for volume, files in volumes.items()]
    if not looks or not looks[0].can_be_answered():
        return {}
    run(looks, rate)
    return {look.volume: look for look in looks}


def looked(carrier: Carrier, volume: int, wanted: Collection[int] | None, rate: float) -> Look | None:
    """A look at these files of a volume, or at all, which has ended; None where the nodes answer none, or there is no such volume."""
    return looked_at(carrier, {volume: wanted}, rate).get(volume)
